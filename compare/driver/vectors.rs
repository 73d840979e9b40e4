//! Replays a file of small vectors. A vector is a head `## name | ..`, then for each state a line of counts and a line
//! `# ` with the queue's bytes, a line `end ..`, the sheet that makes it, and the lines that a program prints for it.
//! Setup, parameters, budget and tape are taken from the sheet.

use crate::{engine::*, list, lockstep::*};

#[derive(Debug, Default)]
pub struct Vectors {
    pub cases: u64,
    pub steps: u64,
    pub lines: u64,
    pub differences: Vec<String>,
}

/// A sheet taken apart.
struct Sheet {
    setup: Setup,
    budget: u32,
    tape: Vec<u8>,
}

fn read_sheet(bytes: &[u8]) -> Sheet {
    let number = |at: usize, count: usize| bytes[at..at + count].iter().fold(0u64, |n, &b| n << 8 | b as u64);
    let set = bytes[4] >> 2;
    let mut at = 9;
    let mut parameters = [(f64::NEG_INFINITY, f64::INFINITY); 4];
    for i in (0..4).filter(|i| set >> (3 - i) & 1 == 1) {
        parameters[i] = (f64::from_bits(number(at, 8)), f64::from_bits(number(at + 8, 8)));
        at += 16;
    }
    let setup = Setup::new(number(0, 2) as u32, number(2, 2) as u32, set, parameters);
    Sheet { setup, budget: number(5, 4) as u32, tape: bytes[at..].to_vec() }
}

/// The lines of a vector that the engine would write.
fn got(maker: &impl Maker, sheet: &Sheet) -> Vec<String> {
    let setup = &sheet.setup;
    let pixels = (setup.width * setup.height) as usize;
    let mut picture = maker.setup(setup, vec![FILLER; 16384], vec![SPARE; pixels]).expect("an accepted setup");
    let mut lines = vec![];
    let mut sum = Ran { end: RunEnd::More, steps: 0, evaluations: 0, tape: 0 };
    loop {
        let record = picture.record();
        lines.push(format!(
            "taken {} queued {} evals {} tape {} used {}",
            record.taken, record.queued, sum.evaluations, sum.tape, record.used
        ));
        lines.push(format!("# {}", list::hex(&queue_bytes(&record, picture.ring()))).trim_end().to_string());
        let rest = &sheet.tape[sum.tape as usize..];
        // Vectors stop where their tape does.
        let budget = (!rest.is_empty() && sum.steps < sheet.budget as u64) as u32;
        let ran = picture.run(rest, budget).expect("no refused run");
        sum.steps += ran.steps;
        sum.evaluations += ran.evaluations;
        sum.tape += ran.tape;
        sum.end = ran.end;
        if ran.steps == 0 {
            break;
        }
    }
    let counts = picture.counts().expect("counts");
    let settled = counts.yes + counts.no;
    let end = format!("{:?}", sum.end).to_lowercase();
    lines.push(format!(
        "end {end} steps {} evals {} tape {} share {settled} {pixels}",
        sum.steps, sum.evaluations, sum.tape
    ));
    lines.push(format!("| size {} {} steps {} evals {} {end}", setup.width, setup.height, sum.steps, sum.evaluations));
    lines.push(format!(
        "| true {} false {} uncertain {} givenup {} queued {} share {}",
        counts.yes, counts.no, counts.uncertain, counts.given_up, counts.queued, counts.share
    ));
    lines.extend(rows(&picture, setup));
    lines
}

fn rows(picture: &impl Engine, setup: &Setup) -> Vec<String> {
    let mut bytes = vec![FILLER; (setup.width * setup.height) as usize];
    picture.picture(&mut bytes).expect("a picture");
    let sign = |&byte: &u8| ['.', '?', '#'][byte as usize];
    bytes.chunks(setup.width as usize).map(|row| format!("| {}", row.iter().map(sign).collect::<String>())).collect()
}

/// Replays all vectors of a file.
pub fn replay(maker: &impl Maker, text: &str) -> Vectors {
    let mut seen = Vectors::default();
    for vector in text.split("## ").skip(1) {
        let mut lines: Vec<_> = vector.lines().map(str::trim).collect();
        let name = lines.remove(0);
        let sheet = lines.iter().position(|line| line.starts_with("sheet ")).expect("a sheet");
        let sheet = read_sheet(&list::unhex(lines.remove(sheet)[6..].trim()));
        let got = got(maker, &sheet);
        seen.cases += 1;
        seen.steps += got.iter().filter(|line| line.starts_with("taken")).count() as u64 - 1;
        seen.lines += lines.len() as u64;
        for i in 0..lines.len().max(got.len()) {
            let (listed, got) = (lines.get(i).copied(), got.get(i).map(String::as_str));
            if listed != got {
                seen.differences.push(format!("{name}: listed {listed:?}, got {got:?}"));
            }
        }
    }
    seen
}
