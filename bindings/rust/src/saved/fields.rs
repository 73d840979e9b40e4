//! Numbers, intervals and blocks among saved bytes: little-endian, an interval as the bits of its lower bound, then of its upper.

use crate::{ffi, Interval};

pub(super) fn half(bytes: &[u8], at: usize) -> u32 {
    u32::from_le_bytes(bytes[at..at + 4].try_into().unwrap())
}

pub(super) fn word(bytes: &[u8], at: usize) -> u64 {
    u64::from_le_bytes(bytes[at..at + 8].try_into().unwrap())
}

/// What is remembered of a block: 80 bytes.
pub(super) fn last(bytes: &[u8], at: usize) -> ffi::Last {
    let r = ranges(bytes, at + 16);
    ffi::Last { x: word(bytes, at), y: word(bytes, at + 8), m: r.m, n: r.n, theta: r.theta, t: r.t }
}

/// Four intervals: 64 bytes.
pub(super) fn ranges(bytes: &[u8], at: usize) -> ffi::Ranges {
    let interval = |i: usize| {
        let bound = |j: usize| f64::from_bits(word(bytes, at + 16 * i + 8 * j));
        Interval { lower: bound(0), upper: bound(1) }
    };
    ffi::Ranges { m: interval(0), n: interval(1), theta: interval(2), t: interval(3) }
}

pub(super) fn put_words(out: &mut Vec<u8>, words: impl IntoIterator<Item = u64>) {
    words.into_iter().for_each(|n| out.extend_from_slice(&n.to_le_bytes()));
}

pub(super) fn put_last(out: &mut Vec<u8>, l: &ffi::Last) {
    put_words(out, [l.x, l.y]);
    put_ranges(out, &ffi::Ranges { m: l.m, n: l.n, theta: l.theta, t: l.t });
}

pub(super) fn put_ranges(out: &mut Vec<u8>, r: &ffi::Ranges) {
    for interval in [r.m, r.n, r.theta, r.t] {
        put_words(out, [interval.lower.to_bits(), interval.upper.to_bits()]);
    }
}
