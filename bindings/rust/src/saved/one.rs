//! Layout 1, which is read and no longer written: the whole ring, no ranges and no tag.

use super::{check, fields::*, NotLoaded, Saved};
use crate::ffi;

/// The bytes before the ring, and those of the check at the end.
const HEAD: usize = 232;
const CHECK: usize = 8;

pub(super) fn read(bytes: &[u8]) -> Result<Saved<'_>, NotLoaded> {
    if bytes.len() < HEAD + CHECK {
        return Err(NotLoaded::Length);
    }
    let state = state(bytes);
    let (checked, check) = bytes.split_at(bytes.len() - CHECK);
    let body = &checked[HEAD..];
    let asked = (word(bytes, 64) as u128) * 8 + word(bytes, 40) as u128;
    if asked != body.len() as u128 || bytes[21..24] != [0; 3] {
        return Err(NotLoaded::Length);
    }
    if check::crc64(checked) != word(check, 0) {
        return Err(NotLoaded::Check);
    }
    let (ring, cells) = body.split_at(state.len);
    Ok(Saved { state, ranges: None, tag: &[], ring, cells })
}

fn state(bytes: &[u8]) -> ffi::State {
    ffi::State {
        chosen: ffi::Chosen { width: half(bytes, 12), height: half(bytes, 16), set: bytes[20], ..ffi::Chosen::default() },
        taken: word(bytes, 24),
        queued: word(bytes, 32),
        len: word(bytes, 40) as usize,
        head: word(bytes, 48) as usize,
        used: word(bytes, 56) as usize,
        front: last(bytes, 72),
        back: last(bytes, 152),
    }
}
