//! Layout 2: the queue's bytes alone, from the front, with the ranges of the setup, the tag, and what kind of chart it is.

use super::{check, fields::*, NotLoaded, Saved, NAME};
use crate::{ffi, room::queue, Interval};

const VERSION: u32 = 2;
/// The bytes before the tag, and those of the check at the end.
const HEAD: usize = 296;
const CHECK: usize = 4;

/// What kinds of charts this release has: one. Each property with its place and its value.
const KIND: [(&str, usize, i8); 5] =
    [("number of bytes a cell", 21, 8), ("coding", 22, 0), ("mode", 23, 0), ("floor", 24, -32), ("shape", 25, 0)];

/// The ranges of a chart that does not say them.
const WHOLE: ffi::Ranges =
    ffi::Ranges { m: Interval::WHOLE, n: Interval::WHOLE, theta: Interval::WHOLE, t: Interval::WHOLE };

pub(super) fn written(s: &ffi::State, ranges: Option<ffi::Ranges>, tag: &[u8], ring: &[u8], cells: &[u64]) -> Vec<u8> {
    let pixels = s.chosen.width as usize * s.chosen.height as usize;
    let mut out = Vec::with_capacity(HEAD + tag.len() + s.used + 8 * pixels + CHECK);
    out.extend_from_slice(NAME);
    for n in [VERSION, s.chosen.width, s.chosen.height] {
        out.extend_from_slice(&n.to_le_bytes());
    }
    out.push(s.chosen.set);
    out.extend(KIND.map(|(_, _, value)| value as u8));
    out.extend_from_slice(&[ranges.is_some() as u8, 0]);
    out.extend_from_slice(&u32::try_from(tag.len()).expect("a tag is shorter than 2^32 bytes").to_le_bytes());
    put_words(&mut out, [s.taken, s.queued, s.len as u64, s.used as u64, pixels as u64]);
    put_ranges(&mut out, &ranges.unwrap_or(WHOLE));
    put_last(&mut out, &s.front);
    put_last(&mut out, &s.back);
    out.extend_from_slice(tag);
    out.extend(queue(s, ring).into_iter().flatten());
    put_words(&mut out, cells[..pixels].iter().copied());
    let check = check::crc32(&out);
    out.extend_from_slice(&check.to_le_bytes());
    out
}

pub(super) fn read(bytes: &[u8]) -> Result<Saved<'_>, NotLoaded> {
    if bytes.len() < HEAD + CHECK {
        return Err(NotLoaded::Length);
    }
    let (checked, check) = bytes.split_at(bytes.len() - CHECK);
    let (head, body) = checked.split_at(HEAD);
    let [tag, used, cells] = [half(head, 28) as u64, word(head, 56), word(head, 64)].map(u128::from);
    if tag + used + head[21] as u128 * cells != body.len() as u128 {
        return Err(NotLoaded::Length);
    }
    if check::crc32(checked) != half(check, 0) {
        return Err(NotLoaded::Check);
    }
    if let Some((what, at, _)) = KIND.iter().find(|(_, at, value)| head[*at] as i8 != *value) {
        return Err(NotLoaded::Kind(what, (head[*at] as i8).into()));
    }
    let pixels = half(head, 12) as u128 * half(head, 16) as u128;
    if head[26] > 1 || head[27] != 0 || used > word(head, 48).into() || cells != pixels {
        return Err(NotLoaded::Length);
    }
    let (tag, rest) = body.split_at(tag as usize);
    let (ring, cells) = rest.split_at(used as usize);
    let ranges = (head[26] == 1).then(|| ranges(head, 72));
    Ok(Saved { state: state(head), ranges, tag, ring, cells })
}

fn state(head: &[u8]) -> ffi::State {
    ffi::State {
        chosen: ffi::Chosen { width: half(head, 12), height: half(head, 16), set: head[20], ..ffi::Chosen::default() },
        taken: word(head, 32),
        queued: word(head, 40),
        len: word(head, 48) as usize,
        head: 0,
        used: word(head, 56) as usize,
        front: last(head, 136),
        back: last(head, 216),
    }
}
