//! Who answers the children: verdict bytes by one of several styles, random or adversarial, all of them legal.

use crate::{engine::*, random::Random};

#[derive(Clone, Copy, Debug, Eq, PartialEq)]
pub enum Style {
    /// Every legal byte is as likely as any other.
    Even,
    /// Nearly all undecided: the queue grows as fast as it can.
    Growing,
    /// One child stays open, the others are false: straight down to the deepest level.
    Deep,
    /// As deep as that, then a True and an open child in one step.
    DeepThenTorn,
    /// Mostly true: cells fill up, later children are skipped.
    Marking,
    /// Undecided with sample points of all kinds.
    Points,
    /// Undecided, or true without an area, which is as good as undecided.
    Hollow,
    /// Mostly false: the queue runs dry.
    Ending,
    /// Never True, seldom false: no end in sight.
    Endless,
}

pub const STYLES: [Style; 8] = [
    Style::Even,
    Style::Growing,
    Style::Deep,
    Style::DeepThenTorn,
    Style::Marking,
    Style::Points,
    Style::Hollow,
    Style::Ending,
];

/// All bytes that are legal for a child of that level.
pub fn legal_verdicts(level: i8) -> Vec<u8> {
    (0..=255).filter(|&v| is_legal_verdict(v, level)).collect()
}

/// A legal byte that leaves a child open.
fn open(random: &mut Random, level: i8) -> u8 {
    if level >= 0 {
        0x40
    } else {
        random.pick(&[0x40, 0x60, 0x80])
    }
}

/// A legal byte that settles a child as True.
fn sure(random: &mut Random, level: i8) -> u8 {
    if level >= 0 {
        0x80
    } else if random.once_in(2) {
        0xa0
    } else {
        0x61 + random.below(31) as u8
    }
}

#[derive(Clone)]
pub struct Player {
    pub style: Style,
    pub random: Random,
}

impl Player {
    /// A verdict for each child.
    pub fn verdicts(&mut self, children: &[Child]) -> Vec<u8> {
        let chosen = self.random.below(children.len() as u64) as usize;
        let other = self.random.below(children.len() as u64) as usize;
        let mut verdicts = vec![];
        for (place, child) in children.iter().enumerate() {
            verdicts.push(self.verdict(child.level, place == chosen, place == other));
        }
        verdicts
    }

    fn verdict(&mut self, level: i8, chosen: bool, other: bool) -> u8 {
        let random = &mut self.random;
        match self.style {
            Style::Even => random.pick(&legal_verdicts(level)),
            Style::Growing if random.once_in(20) => random.pick(&legal_verdicts(level)),
            Style::Growing | Style::Hollow => open(random, level),
            Style::DeepThenTorn if level <= -31 && other && !chosen => sure(random, level),
            Style::Deep | Style::DeepThenTorn if chosen => open(random, level),
            Style::Deep | Style::DeepThenTorn => 0,
            Style::Marking if random.once_in(3) => open(random, level),
            Style::Marking => sure(random, level),
            Style::Points if level < 0 => 0x60 | (random.next() & random.next() & random.next()) as u8 & 31,
            Style::Points => 0x40,
            Style::Ending if random.once_in(4) => random.pick(&legal_verdicts(level)),
            Style::Ending => 0,
            Style::Endless if random.once_in(5) => 0,
            Style::Endless => open(random, level),
        }
    }

    /// What must be refused: a byte too few, a byte too many, or an illegal byte.
    pub fn spoiled(&mut self, children: &[Child]) -> Vec<u8> {
        let mut verdicts = self.verdicts(children);
        let place = self.random.below(verdicts.len() as u64) as usize;
        match self.random.below(4) {
            0 => drop(verdicts.pop()),
            1 => verdicts.push(0x40),
            _ => {
                let level = children[place].level;
                verdicts[place] =
                    (0..=255).filter(|&v| !is_legal_verdict(v, level)).nth(self.random.below(200) as usize).unwrap();
            }
        }
        verdicts
    }

    /// A tape for a run: bytes that are legal on every level, or now and then one that is legal on none.
    pub fn tape(&mut self, most: u64) -> Vec<u8> {
        let count = self.random.below(most + 1);
        let sure = if self.style == Style::Endless { 0x40 } else { 0x80 };
        let mut tape: Vec<u8> = (0..count).map(|_| self.random.pick(&[0, 0x40, 0x40, sure])).collect();
        if count > 0 && self.random.once_in(8) {
            tape[self.random.below(count) as usize] = 0xc0;
        }
        tape
    }
}
