//! Plays the original refinement, and compares engines with it. See ../README.md.
//! Built with the option `port` the second engine is the one behind the C interface, else document 01's own.
#![allow(unexpected_cfgs)]

#[cfg(port)]
mod abi;
mod blocks;
mod boxes;
#[cfg(port)]
mod calls;
mod damaged;
mod document;
#[cfg(port)]
mod edges;
mod engine;
mod exact;
mod faulty;
mod leaves;
mod list;
mod lockstep;
mod odd;
mod original;
mod paper_boxes;
mod play;
mod player;
mod plots;
#[cfg(port)]
mod port;
mod random;
mod record;
mod rounding;
mod setups;
#[cfg(port)]
mod tabled;
mod vectors;
mod worked;

use engine::Maker;
use oracle::relation::Manner;
use original::OriginalMaker;
use std::{fmt::Debug, fs, process::exit, time::Instant};

const USAGE: &str = "driver worked
driver vectors FILE
driver replay FILE
driver leaves SEED COUNT
driver exhaustive SIDE DEPTH
driver random SEED CASES STEPS
driver long SEED CASES STEPS
driver odd SEED CASES STEPS
driver damaged SEED CASES
driver signs SEED CASES STEPS
driver torn SEED CASES STEPS
driver faults SEED
driver edges SEED COUNT (with a port)
driver table SEED CASES STEPS (with a port)
driver boxes SEED COUNT
driver rounding SEED COUNT FILE
driver record SEED CASES STEPS FILE
driver record-all SIDE FILE";

/// The first engine.
const FIRST: OriginalMaker = OriginalMaker(Manner::Zero);

/// The second engine, its leaves and its boxes.
#[cfg(port)]
const SECOND: port::PortMaker = port::PortMaker;
#[cfg(port)]
const SECOND_LEAVES: port::PortLeaves = port::PortLeaves;
#[cfg(port)]
const SECOND_BOXES: fn(&paper_boxes::Question) -> boxes::Answer = port::block_box;

#[cfg(not(port))]
const SECOND: document::DocumentMaker = document::DocumentMaker;
#[cfg(not(port))]
const SECOND_LEAVES: exact::Paper = exact::Paper;
#[cfg(not(port))]
const SECOND_BOXES: fn(&paper_boxes::Question) -> boxes::Answer = boxes::paper;

/// Prints a series' figures and its first differences, and tells how many there are.
fn report(name: &str, start: Instant, figures: String, differences: &[impl Debug]) -> usize {
    for difference in differences.iter().take(5) {
        println!("DIFFERENCE {difference:#?}");
    }
    println!("{name}: {figures}, {} differences ({:.1} s)", differences.len(), start.elapsed().as_secs_f64());
    differences.len()
}

fn report_series(name: &str, start: Instant, series: &play::Series) -> usize {
    let r = &series.reached;
    let refusals = r.refusals.iter().map(|(number, times)| format!(" {number}:{times}")).collect::<String>();
    let figures = format!(
        "{} cases, {} steps, {} children, {} evaluations, refusals{refusals}, ended {} done {} limit, \
         {} pixels given up, lowest level {}, longest queue {}",
        series.cases, r.steps, r.children, r.evaluations, r.done, r.limit, r.given_up, r.lowest_level, r.most_queued
    );
    report(name, start, figures, &series.differences)
}

fn worked(start: Instant, name: &str, maker: &impl Maker, leaves: &impl leaves::Leaves) -> usize {
    let seen = worked::check(maker, leaves);
    report(&format!("worked, {name} engine"), start, format!("{} values", seen.values), &seen.differences)
}

fn vectors(start: Instant, name: &str, maker: &impl Maker, text: &str) -> usize {
    let seen = vectors::replay(maker, text);
    let figures = format!("{} cases, {} steps, {} lines", seen.cases, seen.steps, seen.lines);
    report(&format!("vectors, {name} engine"), start, figures, &seen.differences)
}

fn replay(start: Instant, name: &str, maker: &impl Maker, text: &str) -> usize {
    let list::Replayed { cases, steps, refusals, left_out, differences } = list::replay(maker, text);
    let figures = format!("{cases} cases, {steps} steps, {refusals} refusals, {left_out} lines left out");
    report(&format!("replay, {name} engine"), start, figures, &differences)
}

fn leaves(start: Instant, seed: u64, count: u64) -> usize {
    let seen = leaves::ask(&leaves::OriginalLeaves, &SECOND_LEAVES, seed, count);
    let leaves::Asked { intervals, numbers, coordinates, differences } = seen;
    let figures = format!("{intervals} intervals, {numbers} numbers, {coordinates} coordinates");
    report("leaves", start, figures, &differences)
}

#[cfg(port)]
fn edges(start: Instant, seed: u64, count: u64) -> usize {
    let edges::Edges { questions, refusals, differences } = edges::ask(seed, count);
    report("edges", start, format!("{questions} questions, {refusals} refusals due"), &differences)
}

/// The port with a table of tile counts, on pictures from their setup and on odd ones.
#[cfg(port)]
fn table(start: Instant, seed: u64, cases: u64, steps: u64) -> usize {
    let begun = play::random_cases(&FIRST, &tabled::TabledMaker, seed, cases, steps);
    let odd = odd::cases(&FIRST, &tabled::TabledMaker, seed, cases, steps / 10);
    report_series("table", start, &begun) + report_series("table, odd", start, &odd)
}

fn boxes(start: Instant, seed: u64, count: u64) -> usize {
    let f = boxes::ask(SECOND_BOXES, seed, count);
    for (kind, name) in ["quick", "precise"].iter().enumerate() {
        for (family, plots) in ["plain plots", "any plots"].iter().enumerate() {
            println!("boxes, {name} map, {plots}, edges: {}", f.edges[kind][family]);
            println!("boxes, {name} map, {plots}, ends inside a pixel: {}", f.middles[kind][family]);
        }
    }
    let refusals = f.refusals.iter().map(|(number, times)| format!(" {number}:{times}")).collect::<String>();
    let figures = format!(
        "{} questions, answers{refusals}, {} boxes compared with the original, which stops for {} at the plot's edges and for {} \
         at their ends; of those refused by 15 it has an infinite bound for {}, stops for {}, and has a box for {} near the \
         largest number and {} with ends inside a pixel",
        f.questions, f.compared, f.stops_at_edges, f.stops_at_ends, f.unbounded, f.crossing, f.overflows, f.narrowed
    );
    report("boxes", start, figures, &f.differences)
}

/// Every fault put in in turn, which the comparison must notice and name. Answers how often it did not.
fn faults(start: Instant, seed: u64) -> usize {
    let (all, mut missed) = (faulty::Fault::all(), vec![]);
    for &fault in &all {
        let series = play::random_cases(&FIRST, &faulty::FaultyMaker { maker: FIRST, fault }, seed, 40, 60);
        let named = series.differences.iter().filter(|d| d.aspect == fault.aspect()).count();
        if named == 0 || named < series.differences.len() {
            missed.push((fault, named, series.differences));
        }
    }
    let figures = format!("{} put in, {} noticed and named", all.len(), all.len() - missed.len());
    report("faults", start, figures, &missed)
}

/// The same of the boxes.
fn box_faults(start: Instant, seed: u64) -> usize {
    let notices = |words: &str, fault: fn(boxes::Answer) -> boxes::Answer| {
        boxes::ask(|q| fault(boxes::paper(q)), seed, 20).differences.iter().any(|d| d.starts_with(words))
    };
    let missed: Vec<_> = boxes::FAULTS.iter().filter(|(words, fault)| !notices(words, *fault)).map(|f| f.0).collect();
    let all = boxes::FAULTS.len();
    report("faults in boxes", start, format!("{all} put in, {} noticed and named", all - missed.len()), &missed)
}

/// Writes a list that has been made in memory.
fn save(what: String, out: Vec<u8>, file: &str) -> usize {
    fs::write(file, &out).unwrap_or_else(|error| stop(&format!("{file}: {error}")));
    println!("{what}, {} bytes", out.len());
    0
}

fn record(seed: u64, cases: u64, steps: u64, file: &str) -> usize {
    let mut out = vec![];
    record::record(&FIRST, seed, cases, steps, &mut out).expect("a list in memory");
    save(format!("record: seed {seed}, {cases} cases of up to {steps} calls"), out, file)
}

fn record_all(side: u64, file: &str) -> usize {
    let mut out = vec![];
    record::record_all(&FIRST, side as u32, &mut out).expect("a list in memory");
    save(format!("record-all: sides 1 to {side}"), out, file)
}

fn stop(why: &str) -> ! {
    eprintln!("{why}");
    exit(2)
}

fn read(file: &str) -> String {
    fs::read_to_string(file).unwrap_or_else(|error| stop(&format!("{file}: {error}")))
}

fn number(text: &str) -> u64 {
    text.parse().unwrap_or_else(|_| stop(&format!("not a number: {text}")))
}

fn main() {
    let words: Vec<String> = std::env::args().skip(1).collect();
    let words: Vec<&str> = words.iter().map(String::as_str).collect();
    let start = Instant::now();
    let found = match words[..] {
        ["worked"] => {
            worked(start, "first", &FIRST, &leaves::OriginalLeaves) + worked(start, "second", &SECOND, &SECOND_LEAVES)
        }
        ["vectors", file] => {
            let text = read(file);
            vectors(start, "first", &FIRST, &text) + vectors(start, "second", &SECOND, &text)
        }
        ["replay", file] => {
            let text = read(file);
            replay(start, "first", &FIRST, &text) + replay(start, "second", &SECOND, &text)
        }
        ["leaves", seed, count] => leaves(start, number(seed), number(count)),
        #[cfg(port)]
        ["edges", seed, count] => edges(start, number(seed), number(count)),
        #[cfg(port)]
        ["table", seed, cases, steps] => table(start, number(seed), number(cases), number(steps)),
        ["boxes", seed, count] => boxes(start, number(seed), number(count)),
        ["rounding", seed, count, file] => {
            let (seed, count) = (number(seed), number(count));
            save(format!("rounding: seed {seed}, {count} operations"), rounding::table(seed, count).into_bytes(), file)
        }
        ["faults", seed] => faults(start, number(seed)) + box_faults(start, number(seed)),
        ["record", seed, cases, steps, file] => record(number(seed), number(cases), number(steps), file),
        ["record-all", side, file] => record_all(number(side), file),
        ["exhaustive", side, depth] => {
            let series = play::exhaustive(&FIRST, &SECOND, number(side) as u32, number(depth) as u32);
            report_series("exhaustive", start, &series)
        }
        ["damaged", seed, cases] => {
            let series = damaged::cases(&document::DocumentMaker, &SECOND, number(seed), number(cases));
            report_series("damaged", start, &series)
        }
        [name @ ("random" | "long" | "odd" | "signs" | "torn"), seed, cases, steps] => {
            let (seed, cases, steps) = (number(seed), number(cases), number(steps));
            let series = match name {
                "random" => play::random_cases(&FIRST, &SECOND, seed, cases, steps),
                "long" => play::long_cases(&FIRST, &SECOND, seed, cases, steps),
                "odd" => odd::cases(&FIRST, &SECOND, seed, cases, steps),
                "signs" => play::random_cases(&FIRST, &OriginalMaker(Manner::Signs), seed, cases, steps),
                _ => play::random_cases(&FIRST, &OriginalMaker(Manner::Torn), seed, cases, steps),
            };
            report_series(name, start, &series)
        }
        _ => stop(USAGE),
    };
    exit((found > 0) as i32)
}
