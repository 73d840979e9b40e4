//! Where each field of the records that cross lies: a library that was built with other records is not called.

use crate::ffi::*;
use std::{mem::size_of, ptr::addr_of};

/// The size of each record, then the places of its fields in bytes.
macro_rules! numbers_of {
    ($($record:ident: $($field:ident)+;)+) => {
        [$({
            let record = $record::default();
            let start = addr_of!(record) as usize;
            vec![size_of::<$record>(), $(addr_of!(record.$field) as usize - start),+]
        }),+]
        .concat()
    };
}

fn numbers() -> Vec<usize> {
    numbers_of! {
        Interval: lower upper;
        Ranges: m n theta t;
        Coordinate: index level;
        Last: x y m n theta t;
        Chosen: width height set reserved1 reserved2 reserved3;
        State: chosen taken queued len head used front back;
        Child: x y m n theta t;
        Number: refusal value;
        Point: refusal value;
        Started: refusal state;
        Moved: refusal state;
        Listed: refusal count at;
        Stepped: refusal evaluations tape state;
        Ran: refusal ending stop steps evaluations tape state;
        Explained: refusal reason step child point number before block direction ending steps evaluations tape state;
        Tally: trues falses uncertain givenup queued share;
        Counted: refusal counts;
        Pieces: refusal count at;
        Padding: left right bottom top;
        Edges: left right bottom top;
        Plot: width height padding edges;
        Boxed: refusal edges x y;
    }
}

/// These numbers folded into one by FNV-1a, as `bindings/c/layout.c` does it.
fn layout() -> u64 {
    numbers().into_iter().fold(0xCBF2_9CE4_8422_2325, |folded, n| (folded ^ n as u64).wrapping_mul(0x100_0000_01B3))
}

/// Asked before a record goes to the library, once.
pub(crate) fn is_the_librarys() {
    static ASKED: std::sync::Once = std::sync::Once::new();
    ASKED.call_once(|| {
        let (ours, theirs) = (layout(), unsafe { smyrilox_layout() });
        assert!(theirs == ours, "the library has records of the layout {theirs:016x}, and this crate is made for {ours:016x}");
    });
}

#[cfg(test)]
mod tests {
    /// As `include/smyrilox.h` has them: each record's size, then its fields' places.
    #[test]
    fn every_record() {
        #[rustfmt::skip]
        let header: &[&[usize]] = &[
            &[16, 0, 8], &[64, 0, 16, 32, 48], &[16, 0, 8], &[80, 0, 8, 16, 32, 48, 64], &[12, 0, 4, 8, 9, 10, 11],
            &[216, 0, 16, 24, 32, 40, 48, 56, 136], &[96, 0, 16, 32, 48, 64, 80], &[16, 0, 8], &[16, 0, 8], &[224, 0, 8], &[224, 0, 8],
            &[400, 0, 8, 16], &[240, 0, 8, 16, 24], &[264, 0, 8, 16, 24, 32, 40, 48],
            &[408, 0, 8, 16, 24, 32, 40, 48, 56, 152, 160, 168, 176, 184, 192], &[48, 0, 8, 16, 24, 32, 40], &[56, 0, 8], &[64, 0, 8, 16],
            &[16, 0, 4, 8, 12], &[64, 0, 16, 32, 48], &[88, 0, 4, 8, 24], &[104, 0, 8, 72, 88],
        ];
        assert_eq!(super::numbers(), header.concat());
        super::is_the_librarys();
    }
}
