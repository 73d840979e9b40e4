//! Charts on disk: both layouts, stored bytes that all bindings read, and bytes that are no chart.

use smyrilox::{Chart, Interval, NotLoaded, Refusal, Setup, Variables};

const ONE: &[u8] = include_bytes!("../../saved/layout1.chart");
const TWO: &[u8] = include_bytes!("../../saved/layout2.chart");
const TAG: &str = "doors, evaluator 7";

fn begun() -> Chart {
    let mut chart = Chart::new(&Setup::new(5, 3, Variables::X | Variables::Y), 64).unwrap().tagged("five by three");
    chart.step(&[0x40, 0x40]).unwrap();
    chart
}

fn load(bytes: &[u8]) -> Result<Chart, NotLoaded> {
    Chart::load_tagged(bytes, "five by three")
}

/// The bytes with a change, and a check that is right for them.
fn changed(bytes: &[u8], at: usize, to: u8) -> Vec<u8> {
    let mut out = bytes.to_vec();
    out[at] = to;
    checked(out)
}

fn checked(mut out: Vec<u8>) -> Vec<u8> {
    if out[8] == 1 {
        let end = out.len() - 8;
        let check = crc(&out[..end], 0xC96C_5795_D787_0F42, !0);
        out[end..].copy_from_slice(&check.to_le_bytes());
    } else {
        let end = out.len() - 4;
        let check = crc(&out[..end], 0xEDB8_8320, 0xFFFF_FFFF) as u32;
        out[end..].copy_from_slice(&check.to_le_bytes());
    }
    out
}

/// CRC-64/XZ or CRC-32, bit by bit.
fn crc(bytes: &[u8], polynomial: u64, ones: u64) -> u64 {
    let mut r = ones;
    for b in bytes {
        r ^= *b as u64;
        for _ in 0..8 {
            r = if r & 1 == 1 { r >> 1 ^ polynomial } else { r >> 1 };
        }
    }
    r ^ ones
}

/// The chart of the fields' test after 28 steps, its queue around the end of a ring of 900 bytes.
#[test]
fn stored_in_layout_2() {
    let chart = Chart::load_tagged(TWO, TAG).unwrap();
    assert_eq!(chart.save(), TWO);
    assert_eq!((chart.steps(), chart.queued(), chart.ring_use(), chart.tag()), (28, 2, (22, 900), TAG.as_bytes()));
    let setup = Setup::new(7, 5, Variables(61));
    let (m, n, t) = (Interval::new(2.0, 9.0), Interval::new(10.0, 15.0), Interval::new(0.5, 0.75));
    assert_eq!(chart.setup(), Some(Setup { m, n, t, ..setup }));
}

/// It has no ranges and no tag; saved again it is layout 2, and but for these the same.
#[test]
fn stored_in_layout_1() {
    let one = Chart::load(ONE).unwrap();
    assert_eq!((one.setup(), one.tag(), one.ring_use()), (None, &b""[..], (22, 900)));
    let mut two = TWO.to_vec();
    two[26] = 0;
    two[28..32].fill(0);
    for at in (72..136).step_by(16) {
        two[at..at + 8].copy_from_slice(&f64::NEG_INFINITY.to_le_bytes());
        two[at + 8..at + 16].copy_from_slice(&f64::INFINITY.to_le_bytes());
    }
    two.drain(296..296 + TAG.len());
    assert_eq!(one.save(), checked(two));
    assert_eq!(Chart::load(&one.save()).unwrap().save(), one.save());
}

#[test]
fn both_layouts_go_on() {
    let (mut one, mut two) = (Chart::load(ONE).unwrap(), Chart::load_tagged(TWO, TAG).unwrap());
    for _ in 0..6 {
        assert_eq!((one.picture(), one.counts()), (two.picture(), two.counts()));
        let verdicts = vec![0x40; one.children().unwrap().len()];
        assert_eq!(one.children().unwrap()[..], two.children().unwrap()[..]);
        assert_eq!(one.step(&verdicts), two.step(&verdicts));
    }
}

#[test]
fn a_chart_goes_on() {
    let mut chart = begun();
    let mut loaded = load(&chart.save()).unwrap();
    for verdicts in [&[0x40u8, 0, 0x80, 0][..], &[0x80, 0]] {
        assert_eq!(chart.step(verdicts), loaded.step(verdicts));
        assert_eq!(chart.save(), loaded.save());
    }
}

#[test]
fn a_load_must_name_the_tag() {
    let bytes = begun().save();
    for tag in ["", "five by three ", "five by thre", "Five by three"] {
        assert_eq!(Chart::load_tagged(&bytes, tag).err(), Some(NotLoaded::Tag), "{tag:?}");
    }
    assert_eq!(Chart::load(&bytes).err(), Some(NotLoaded::Tag));
    assert_eq!(Chart::load_tagged(ONE, TAG).err(), Some(NotLoaded::Tag));
    assert_eq!(Chart::saved_tag(&bytes), Ok(&b"five by three"[..]));
}

#[test]
fn into_lent_memory() {
    let chart = begun();
    let bytes = chart.save();
    let (mut ring, mut cells) = ([1; 64], [2; 15]);
    let tag = chart.tag();
    assert_eq!(Chart::load_lent_tagged(&bytes, tag, &mut ring, &mut cells[..14]).err(), Some(NotLoaded::Memory));
    assert_eq!(Chart::load_lent_tagged(&changed(&bytes, 32, 9), tag, &mut ring, &mut cells).err(), Some(NotLoaded::Refused(Refusal::Damaged)));
    assert_eq!(Chart::load_lent(&bytes, &mut ring, &mut cells).err(), Some(NotLoaded::Tag));
    assert_eq!((ring, cells), ([1; 64], [2; 15]));
    let lent = Chart::load_lent_tagged(&bytes, tag, &mut ring, &mut cells).unwrap();
    assert_eq!(lent.save(), bytes);
}

/// A long ring costs nothing on disk, where in it the queue stands is not saved, and spare cells are not the chart's.
#[test]
fn only_the_queue_is_saved() {
    let mut long = begun();
    long.grow(100_000).unwrap();
    let (short, long) = (begun().save(), long.save());
    assert_eq!(short.len(), 296 + 13 + 10 + 15 * 8 + 4);
    let differ: Vec<usize> = (0..short.len() - 4).filter(|i| short[*i] != long[*i]).collect();
    assert_eq!(differ, [48, 49, 50]);
    let (mut ring, mut cells) = ([1; 64], [2; 19]);
    let mut lent = Chart::lent(&Setup::new(5, 3, Variables::X | Variables::Y), &mut ring, &mut cells).unwrap().tagged("five by three");
    lent.step(&[0x40, 0x40]).unwrap();
    assert_eq!(lent.save(), short);
}

#[test]
fn every_changed_byte_is_noticed() {
    for (bytes, tag) in [(begun().save(), "five by three"), (ONE.to_vec(), "")] {
        for at in 0..bytes.len() {
            let mut spoiled = bytes.clone();
            for bits in [0x10, 0xFF] {
                spoiled[at] = bytes[at] ^ bits;
                assert!(Chart::load_tagged(&spoiled, tag).is_err(), "byte {at}");
            }
        }
        for length in 0..bytes.len() {
            assert!(Chart::load_tagged(&bytes[..length], tag).is_err(), "{length} bytes");
        }
        assert_eq!(Chart::load_tagged(&[&bytes[..], &[0]].concat(), tag).err(), Some(NotLoaded::Length));
    }
    assert_eq!(load(b"something else").err(), Some(NotLoaded::Name));
    for version in [0, 3] {
        assert_eq!(load(&changed(&begun().save(), 8, version)).err(), Some(NotLoaded::Version(version.into())));
    }
}

/// With a check that is right for the change: refused, or a chart that the engine holds to be sound.
#[test]
fn bytes_made_up_with_care() {
    let bytes = begun().save();
    // but the ring's length, which can ask for much memory
    for at in (0..48).chain(56..bytes.len() - 4) {
        for bits in [0x01, 0x10, 0x80, 0xFF] {
            if let Ok(chart) = load(&changed(&bytes, at, bytes[at] ^ bits)) {
                chart.picture().unwrap();
            }
        }
    }
}

/// What later releases let a setup choose has a place of its own.
#[test]
fn kinds_of_later_releases() {
    let bytes = begun().save();
    assert_eq!(bytes[20..28], [48, 8, 0, 0, 0xE0, 0, 1, 0]);
    for (at, to, what, value) in [(22, 1, "coding", 1), (23, 1, "mode", 1), (24, 0xD0, "floor", -48), (25, 1, "shape", 1)] {
        assert_eq!(load(&changed(&bytes, at, to)).err(), Some(NotLoaded::Kind(what, value)));
    }
    let (mut narrow, cells) = (bytes[..bytes.len() - 4 - 120].to_vec(), &bytes[bytes.len() - 124..bytes.len() - 4]);
    narrow[21] = 4;
    narrow.extend(cells.chunks(8).flat_map(|cell| &cell[..4]));
    narrow.extend([0; 4]);
    assert_eq!(load(&checked(narrow)).err(), Some(NotLoaded::Kind("number of bytes a cell", 4)));
    for (at, to) in [(26, 2), (27, 1)] {
        assert_eq!(load(&changed(&bytes, at, to)).err(), Some(NotLoaded::Length), "byte {at}");
    }
    for at in 21..24 {
        assert_eq!(Chart::load(&changed(ONE, at, 1)).err(), Some(NotLoaded::Length), "byte {at} of layout 1");
    }
}

#[test]
fn a_cell_for_each_pixel() {
    let bytes = begun().save();
    for (cells, more) in [(16, [&bytes[..], &[0; 8]].concat()), (14, bytes[..bytes.len() - 8].to_vec())] {
        assert_eq!(load(&changed(&more, 64, cells)).err(), Some(NotLoaded::Length), "{cells} cells");
    }
}

#[test]
fn the_engine_looks_too() {
    let (bytes, queue) = (begun().save(), 296 + 13);
    let damaged = Some(NotLoaded::Refused(Refusal::Damaged));
    // more taken than queued, less queued than taken; a cell that no picture holds; a level that no block has
    for (at, to) in [(32, 9), (40, 1), (queue + 10 + 5, 1), (queue + 1, 0x7F)] {
        assert_eq!(load(&changed(&bytes, at, to)).err(), damaged, "byte {at}");
    }
    // the head of layout 1 behind its ring; the range of m upside down
    assert_eq!(Chart::load(&changed(ONE, 49, 4)).err(), damaged);
    assert_eq!(Chart::load_tagged(&changed(TWO, 79, 0x7F), TAG).err(), Some(NotLoaded::Refused(Refusal::Parameter)));
}

/// A ring that the file asks for and that there is no memory for is named.
#[test]
fn a_ring_without_memory() {
    let huge = changed(&begun().save(), 55, 0x40);
    assert_eq!(load(&huge).err(), Some(NotLoaded::Refused(Refusal::NoMemory { bytes: (0x40 << 56) + 64 })));
}
