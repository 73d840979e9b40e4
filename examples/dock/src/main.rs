//! Draws the example charts as text: `dock FOLDER` writes a file for each relation there, `dock FOLDER STEPS` what is known after so many steps, and
//! `dock --check` holds the charts against brute force. Beside each chart it writes a thumbnail of it. `dock --why` says of one pixel of each kind why
//! it is white, grey or black.

mod check;
mod evaluator;
mod exact;
mod interval;
mod relations;
mod text;
mod thumbnail;
mod why;

use relations::{Edged, Relation, RELATIONS};
use smyrilox::{Chart, Ending, Refusal};
use std::io::{IsTerminal, Write};
use std::{env, fs, path::Path, process};

/// Bytes for the queue, and steps at most unless told otherwise.
const RING: usize = 1 << 20;
const BUDGET: u32 = 400_000;
const USAGE: &str = "usage: dock FOLDER [STEPS], dock --check, or dock --why";

fn main() {
    let words: Vec<String> = env::args().skip(1).collect();
    let done = match &words[..] {
        [word] if word == "--check" => check_all(),
        [word] if word == "--why" => explain_all(),
        [folder] if !folder.starts_with('-') => draw_all(Path::new(folder), BUDGET, ""),
        [folder, steps] => steps
            .parse()
            .map_err(|_| USAGE.to_string())
            .and_then(|n| draw_all(Path::new(folder), n, &format!("-{n}-steps"))),
        _ => Err(USAGE.to_string()),
    };
    if let Err(message) = done {
        eprintln!("dock: {message}");
        process::exit(1);
    }
}

/// So many steps, or fewer if nothing is left to do: the chart, and the evaluations that it cost.
fn refine(relation: &Relation, steps: u32) -> Result<(Chart, u64), Refusal> {
    let mut chart = Chart::new(&relation.setup(), RING)?
        .with_table()?
        .keeping_verdicts();
    let run = chart.refine_watched(
        |block| evaluator::verdict(relation, block),
        steps,
        |chart, finished| {
            if finished % 5000 == 0 {
                show_progress(relation, chart, finished, steps);
            }
        },
    )?;
    if std::io::stderr().is_terminal() {
        eprint!("\r\x1b[K");
    }
    match run.ending {
        Ending::Stop(why) => Err(why),
        _ => Ok((chart, run.evaluations)),
    }
}

/// A bar that is written over, where somebody looks.
fn show_progress(relation: &Relation, chart: &Chart, finished: u32, steps: u32) {
    if std::io::stderr().is_terminal() {
        let full = (u64::from(finished) * 30 / u64::from(steps)) as usize;
        eprint!(
            "\r\x1b[K{:<12} [{}{}] {finished} of {steps} steps, {} blocks queued",
            relation.name,
            "#".repeat(full),
            ".".repeat(30 - full),
            chart.queued()
        );
        let _ = std::io::stderr().flush();
    }
}

fn draw_all(folder: &Path, budget: u32, suffix: &str) -> Result<(), String> {
    fs::create_dir_all(folder).map_err(|e| format!("{}: {e}", folder.display()))?;
    for relation in &RELATIONS {
        let refused = |why: Refusal| format!("{}: {why}", relation.name);
        let (chart, evaluations) = refine(relation, budget).map_err(refused)?;
        let text = text::text(relation, &chart, evaluations).map_err(refused)?;
        let file = folder.join(format!("{}{suffix}.txt", relation.name));
        write(&file, &text)?;
        if let Some(table) = chart.table() {
            let small = folder.join(format!("{}{suffix}-thumbnail.svg", relation.name));
            write(&small, &thumbnail::svg(relation.title, table))?;
        }
        println!("{}: {}", file.display(), relation.title);
        for line in text.lines().skip(3).take(2) {
            println!("  {line}");
        }
    }
    Ok(())
}

fn write(file: &Path, text: &str) -> Result<(), String> {
    fs::write(file, text).map_err(|e| format!("{}: {e}", file.display()))
}

/// The charts after 150 steps, of which many pixels wait; and balance judged by boxes, to its end, of which some are given up.
fn explain_all() -> Result<(), String> {
    let by_boxes = Relation {
        edged: Edged::ByBoxes,
        ..RELATIONS[2]
    };
    let early = RELATIONS
        .iter()
        .map(|relation| (relation, 150, "after 150 steps"));
    for (relation, steps, when) in early.chain([(&by_boxes, BUDGET, "judged by boxes, at its end")])
    {
        let (chart, _) =
            refine(relation, steps).map_err(|why| format!("{}: {why}", relation.name))?;
        println!("{}, {when}", relation.name);
        for e in why::one_of_each_kind(&chart).map_err(|why| format!("{}: {why}", relation.name))? {
            println!("  column {}, row {}: {}", e.column, e.row, e.reason);
        }
    }
    Ok(())
}

fn check_all() -> Result<(), String> {
    let mut wrong = 0;
    for relation in &RELATIONS {
        let (chart, _) =
            refine(relation, BUDGET).map_err(|why| format!("{}: {why}", relation.name))?;
        let picture = chart.picture().map_err(|why| why.to_string())?;
        let tried = check::against_grid(relation, &picture);
        println!(
            "{}: {} exact solutions tried, {} in a white pixel",
            relation.name, tried.solutions, tried.in_white
        );
        wrong += tried.in_white + (tried.solutions == 0) as u64;
        let small = chart.table().expect("charts are refined with a table");
        if !check::is_thumbnail_of(small, &picture) {
            return Err(format!(
                "{}: the thumbnail says other than the picture",
                relation.name
            ));
        }
    }
    match wrong {
        0 => Ok(()),
        _ => Err("a white pixel holds a solution, or none was tried".to_string()),
    }
}
