//! What an evaluator answers about a child.

use crate::Block;

/// A verdict byte: 2 bits result, 1 bit sample area, 5 bits sample points. The byte 0 says no.
#[derive(Clone, Copy, Debug, PartialEq, Eq)]
pub struct Verdict(pub u8);

impl Verdict {
    /// No mix of the child, in the pixels that it covers, is a solution.
    pub const NO: Verdict = Verdict(0x00);
    /// Neither is known.
    pub const UNDECIDED: Verdict = Verdict(0x40);
    /// Each pixel that the child covers holds a solution. Of a child below level 0 this counts only with the area bit: see `yes_for`.
    pub const YES: Verdict = Verdict(0x80);

    /// The same with the area bit, which only a child below level 0 may have: points of the child may be sampled.
    pub fn with_area(self) -> Verdict {
        Verdict(self.0 | 0x20)
    }

    /// Undecided, but a point at this place (0: the simple fraction; 1 to 4: the corners) shows a solution.
    pub fn found_at(place: u32) -> Verdict {
        assert!(place < 5, "there are five sample points, 0 to 4, not {place}");
        Verdict(0x60 | 0x10 >> place)
    }

    /// That each pixel of the child holds a solution, as a child of its level may say it: with the area bit below level 0, where it counts for nothing without.
    pub fn yes_for(child: &Block) -> Verdict {
        if child.level() < 0 {
            Verdict::YES.with_area()
        } else {
            Verdict::YES
        }
    }

    /// Whether a child of this level can have it: a step refuses any other by 5.
    pub fn is_legal_for(self, child: &Block) -> bool {
        let (result, area, points) = (self.0 >> 6, self.0 & 0x20 != 0, self.0 & 0x1F != 0);
        let known = result < 3;
        if child.level() < 0 {
            known && (!points || result == 1 && area)
        } else {
            known && !area && !points
        }
    }
}
