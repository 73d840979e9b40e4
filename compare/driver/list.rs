//! Recorded lists: calls with their answers and the memory left, tab-separated, a line each. An engine replays them
//! without the original at hand. The columns:
//!
//!     case  call  verdicts  answer (0 or a refusal)  evaluations  record  ring  cells  picture  counts  ending
//!
//! The record: width height set taken queued ring-length head used, last queued x y, last taken x y, last queued
//! intervals, last taken intervals. Numbers are decimal; bytes and the bits of bounds hexadecimal. A list may end
//! after its cells.

use crate::{engine::*, lockstep::*};
use std::{fmt::Write as _, io::Write};

pub const HEADER: &str = "case\tcall\tverdicts\tanswer\tevaluations\trecord\tring\tcells\tpicture\tcounts\tending";

pub fn hex(bytes: &[u8]) -> String {
    bytes.iter().fold(String::new(), |mut text, byte| {
        write!(text, "{byte:02x}").unwrap();
        text
    })
}

pub fn unhex(text: &str) -> Vec<u8> {
    let pairs = text.as_bytes().chunks_exact(2);
    assert!(pairs.remainder().is_empty(), "an even number of digits");
    let digits = |pair| std::str::from_utf8(pair).expect("digits");
    pairs.map(|pair| u8::from_str_radix(digits(pair), 16).expect("hexadecimal")).collect()
}

fn intervals(of: &[Bounds; 4]) -> String {
    of.map(|x| format!("{:016x}:{:016x}", x.0.to_bits(), x.1.to_bits())).join(",")
}

fn read_intervals(text: &str) -> [Bounds; 4] {
    let number = |t: &str| f64::from_bits(u64::from_str_radix(t, 16).expect("hexadecimal"));
    let read = |t: &str| t.split_once(':').map(|(a, b)| (number(a), number(b))).expect("two bounds");
    text.split(',').map(read).collect::<Vec<_>>().try_into().expect("four intervals")
}

pub fn setup_call(s: &Setup) -> String {
    format!("setup {} {} {} {}", s.width, s.height, s.set, intervals(&s.parameters))
}

fn read_setup(call: &str) -> Option<Setup> {
    let words: Vec<_> = call.strip_prefix("setup ")?.split(' ').collect();
    Some(Setup::new(words[0].parse().ok()?, words[1].parse().ok()?, words[2].parse().ok()?, read_intervals(words[3])))
}

pub fn record(r: &Record) -> String {
    format!(
        "{} {} {} {} {} {} {} {} {} {} {} {} {} {}",
        r.width,
        r.height,
        r.set,
        r.taken,
        r.queued,
        r.len,
        r.head,
        r.used,
        r.back.x,
        r.back.y,
        r.front.x,
        r.front.y,
        intervals(&r.back.parameters),
        intervals(&r.front.parameters),
    )
}

/// The columns from the answer on.
fn columns_of<E: Engine>(answer: Result<u64, Refusal>, engine: &mut E) -> Vec<String> {
    let (code, evaluations) = answer.map_or_else(|number| (number, 0), |evaluations| (0, evaluations));
    let record_of = engine.record();
    let mut picture = vec![FILLER; record_of.width as usize * record_of.height as usize];
    let drawn = engine.picture(&mut picture).map(|()| hex(&picture));
    let counted = engine.counts().map(|c| [c.yes, c.no, c.uncertain, c.given_up, c.queued, c.share]);
    let numbers = |of: &[u64]| of.iter().map(u64::to_string).collect::<Vec<_>>().join(" ");
    let refused = |number: Refusal| format!("refused {number}");
    vec![
        code.to_string(),
        evaluations.to_string(),
        record(&record_of),
        hex(engine.ring()),
        numbers(engine.cells()),
        drawn.unwrap_or_else(refused),
        counted.map_or_else(refused, |c| numbers(&c)),
        engine.run(&[], 0).map_or_else(refused, |ran| format!("{:?}", ran.end).to_lowercase()),
    ]
}

/// Writes the line of a call that has just been made.
pub fn write_line<E: Engine>(
    out: &mut impl Write,
    case: u64,
    call: &str,
    verdicts: &[u8],
    answer: Result<u64, Refusal>,
    engine: &mut E,
) -> std::io::Result<()> {
    writeln!(out, "{case}\t{call}\t{}\t{}", hex(verdicts), columns_of(answer, engine).join("\t"))
}

/// What a replay saw.
#[derive(Clone, Debug, Default)]
pub struct Replayed {
    pub cases: u64,
    pub steps: u64,
    pub refusals: u64,
    pub left_out: u64,
    pub differences: Vec<String>,
}

/// Plays a list on an engine. A refused setup is left out; after a difference so is the rest of its case.
pub fn replay<M: Maker>(maker: &M, text: &str) -> Replayed {
    let mut seen = Replayed::default();
    let mut engine: Option<M::Engine> = None;
    for line in text.lines().skip(1).filter(|line| !line.is_empty()) {
        let columns: Vec<_> = line.split('\t').collect();
        let answer = match (read_setup(columns[1]), &mut engine) {
            (Some(setup), _) if columns[3] == "0" => {
                seen.cases += 1;
                engine = None;
                let (ring, cells) = rooms(&columns);
                maker.setup(&setup, vec![FILLER; ring], vec![SPARE; cells]).map(|made| {
                    engine = Some(made);
                    0
                })
            }
            (None, Some(engine)) => {
                let answer = engine.step(&unhex(columns[2])).map(|done| done.evaluations);
                *if answer.is_ok() { &mut seen.steps } else { &mut seen.refusals } += 1;
                answer
            }
            _ => {
                seen.left_out += 1;
                continue;
            }
        };
        if let Some(what) = differs(&columns, answer, engine.as_mut()) {
            seen.differences.push(format!("case {} {} {}: {what}", columns[0], columns[1], columns[2]));
            engine = None;
        }
    }
    seen
}

/// The ring's length and the number of cells in a line.
fn rooms(columns: &[&str]) -> (usize, usize) {
    (columns[6].len() / 2, columns[7].split(' ').count())
}

/// In what an engine's answer and memory differ from a line.
fn differs<E: Engine>(columns: &[&str], answer: Result<u64, Refusal>, engine: Option<&mut E>) -> Option<String> {
    let got = match (engine, answer) {
        (Some(engine), _) => columns_of(answer, engine),
        (None, Err(number)) => vec![number.to_string()],
        (None, Ok(_)) => unreachable!("an accepted setup has an engine"),
    };
    let names = ["answer", "evaluations", "record", "ring", "cells", "picture", "counts", "ending"];
    let mut pairs = names.iter().zip(columns[3..].iter().zip(&got));
    let found = pairs.find(|(_, (listed, got))| **listed != got.as_str());
    found.map(|(what, (listed, got))| format!("{what}: listed {listed}, got {got}"))
}
