//! How many bytes of the ring a chart's queue takes as its steps go on, beside the bound that is known beforehand.

use crate::{
    dock::{self, Kind},
    port::{abi, Port},
    work::{Chance, UNDECIDED},
};

/// The last is where the customer's ring of 4 MB was full.
const MARKS: [u64; 4] = [1_000, 10_000, 100_000, 397_088];
/// Parameters in use.
const USED: u64 = 2;
const MEGABYTE: usize = 1 << 20;

/// First bytes + (50 + 18 u) n.
fn bound(first: usize, steps: u64) -> u64 {
    first as u64 + (50 + 18 * USED) * steps
}

/// A row: the bytes used at the marks, and the steps for which a ring of 1 MB and one of 4 MB have no room.
fn row(name: &str, mut verdict: impl FnMut(&abi::Child) -> u8) {
    let setup = Kind::DoorsAndShare.setup();
    let first = Port::made(&setup, MEGABYTE).state.used;
    let last = *MARKS.last().unwrap();
    let mut port = Port::made(&setup, bound(first, last) as usize);
    let (mut used, mut most, mut full) = (vec![], first, [None; 2]);
    for step in 1..=last {
        if port.state.taken == port.state.queued {
            break;
        }
        let listed = port.children();
        let mut verdicts = [0; 4];
        verdicts.iter_mut().zip(&listed.at[..listed.count]).for_each(|(byte, child)| *byte = verdict(child));
        assert!(port.step(&verdicts[..listed.count]).refusal == 0);
        most = most.max(port.state.used);
        assert!(most as u64 <= bound(first, step), "the bound holds");
        for (full, ring) in full.iter_mut().zip([MEGABYTE, 4 * MEGABYTE]) {
            if most > ring && full.is_none() {
                *full = Some(step);
            }
        }
        if MARKS.contains(&step) {
            used.push(port.state.used.to_string());
        }
    }
    used.resize(MARKS.len(), format!("ends after {}", port.state.taken));
    let [one, four] = full.map(|step| step.map_or("never".to_string(), |step| step.to_string()));
    println!("| {name} | {} | {one} | {four} |", used.join(" | "));
}

/// The customer's chart with m and t, under evaluators that leave more and less undecided.
pub fn room() {
    let setup = Kind::DoorsAndShare.setup();
    let first = Port::made(&setup, MEGABYTE).state.used;
    println!("| verdicts | {} | 1 MB is full at step | 4 MB |", MARKS.map(|n| format!("{n} steps")).join(" | "));
    println!("|---|---|---|---|---|---|---|");
    let mut chance = Chance::new(3);
    row("none decided", |_| UNDECIDED);
    row("a third no, the others undecided", |_| if chance.below(3) == 0 { 0 } else { UNDECIDED });
    row("a small evaluator of the dock", |child| dock::verdict(Kind::DoorsAndShare, 8, child));
    let bounds = MARKS.map(|n| bound(first, n).to_string()).join(" | ");
    println!("| the bound, {first} + {} n | {bounds} | | |", 50 + 18 * USED);
}
