//! Tables of tile counts: the values of document 02, tables held against a recount of the picture, and thumbnails.

mod chance;

use chance::Chance;
use smyrilox::{Buffers, Chart, Ending, Grey, Interval, Reading, Refusal, Setup, Tile, Variables, Verdict};

fn plane(width: u32, height: u32) -> Setup {
    Setup::new(width, height, Variables::X | Variables::Y)
}

fn tabled(setup: &Setup, ring: usize) -> Chart {
    Chart::new(setup, ring).unwrap().with_table().unwrap()
}

fn numbers<B: Buffers>(chart: &Chart<B>) -> &[u32] {
    chart.table().unwrap().numbers()
}

fn tile(yes: u32, no: u32, uncertain: u32, given_up: u32) -> Tile {
    Tile { yes, no, uncertain, given_up }
}

/// The tiles' counts by the picture and its greys, pixel by pixel.
fn recount<B: Buffers>(chart: &Chart<B>) -> Vec<u32> {
    let (picture, greys) = (chart.picture().unwrap(), chart.greys().unwrap());
    let columns = (picture.width() + 15) / 16;
    let mut due = vec![0; 4 * columns * ((picture.height() + 15) / 16)];
    for (i, grey) in greys.iter().enumerate() {
        let (column, row) = (i % picture.width(), i / picture.width());
        let tile = &mut due[4 * (row / 16 * columns + column / 16)..][..4];
        match picture.reading(column, row) {
            Reading::True => tile[0] += 1,
            Reading::False => tile[1] += 1,
            Reading::Uncertain => tile[2] += 1,
        }
        tile[3] += (*grey == Some(Grey::GivenUp)) as u32;
    }
    due
}

impl Chance {
    fn verdict(&mut self, level: i32) -> Verdict {
        match (level < 0, self.below(6)) {
            (false, 4) => Verdict::YES,
            (true, 4) => Verdict::YES.with_area(),
            (_, 5) => Verdict::NO,
            _ => Verdict::UNDECIDED,
        }
    }
}

#[test]
fn twenty_by_eighteen() {
    let mut chart = tabled(&plane(20, 18), 64);
    assert_eq!(numbers(&chart), [0, 0, 256, 0, 0, 0, 64, 0, 0, 0, 32, 0, 0, 0, 8, 0]);
    chart.step(&[0x40, 0x80, 0x00, 0x40]).unwrap();
    assert_eq!(numbers(&chart), [0, 32, 224, 0, 56, 0, 8, 0, 0, 0, 32, 0, 8, 0, 0, 0]);
    let table = chart.table().unwrap();
    assert_eq!((table.columns(), table.rows()), (2, 2));
    let tiles = [tile(0, 32, 224, 0), tile(56, 0, 8, 0), tile(0, 0, 32, 0), tile(8, 0, 0, 0)];
    assert_eq!([table.tile(0, 0), table.tile(1, 0), table.tile(0, 1), table.tile(1, 1)], tiles);
    assert_eq!(table.tiles().collect::<Vec<_>>(), tiles);
    assert_eq!(table.thumbnail(), [150, 70, 140, 0]);
    chart.step(&[0; 4]).unwrap();
    assert_eq!(numbers(&chart), [0, 256, 0, 0, 56, 0, 8, 0, 0, 32, 0, 0, 8, 0, 0, 0]);
    assert_eq!(chart.table().unwrap().thumbnail(), [255, 70, 255, 0]);
}

/// The same two steps as a run, into numbers that are lent, and beyond them nothing.
#[test]
fn filled_into_lent_numbers() {
    let mut chart = Chart::new(&plane(20, 18), 64).unwrap();
    assert_eq!(chart.table(), None);
    chart.run(&[0x40, 0x80, 0, 0x40, 0, 0, 0, 0], 2).unwrap();
    let mut lent = [9; 18];
    assert_eq!(chart.fill_table(&mut lent[..15]), Err(Refusal::Table));
    assert_eq!(lent, [9; 18]);
    chart.fill_table(&mut lent).unwrap();
    assert_eq!(lent, [0, 256, 0, 0, 56, 0, 8, 0, 0, 32, 0, 0, 8, 0, 0, 0, 9, 9]);
    assert_eq!(Refusal::Table.number(), 17);
    assert_eq!(Refusal::Table.to_string(), "refused 17: the table has fewer than four numbers a tile");
}

#[test]
fn a_pixel_given_up_is_uncertain_too() {
    let mut chart = tabled(&plane(1, 1), 4096);
    assert_eq!(chart.run(&[0x40, 0, 0, 0].repeat(32), 99).unwrap().ending, Ending::Limit);
    assert_eq!(chart.table().unwrap().tile(0, 0), tile(0, 0, 1, 1));
}

#[test]
fn a_recount_after_every_step() {
    let mut chance = Chance(20260416);
    let mut steps = 0;
    for round in 0..60 {
        let (width, height) = (1 + chance.below(48) as u32, 1 + chance.below(48) as u32);
        let mixes = Variables::X | Variables::Y | Variables::M;
        let setup = match round % 3 {
            0 => Setup { m: Interval::new(0.0, 3.0), ..Setup::new(width, height, mixes) },
            _ => plane(width, height),
        };
        let mut chart = Chart::for_steps(&setup, 30).unwrap().with_table().unwrap();
        assert_eq!(numbers(&chart), recount(&chart));
        while !chart.is_finished() && chart.steps() < 30 {
            chart.step_with(|block| chance.verdict(block.level())).unwrap();
            assert_eq!(numbers(&chart), recount(&chart), "{width} by {height}, {} steps", chart.steps());
            steps += 1;
        }
        let mut filled = vec![7; numbers(&chart).len()];
        chart.fill_table(&mut filled).unwrap();
        assert_eq!(filled, numbers(&chart));
    }
    assert!(steps > 1000);
}

#[test]
fn a_refused_step_leaves_it() {
    let mut chart = tabled(&plane(20, 18), 19);
    chart.run(&[0x80, 0x80, 0, 0x40], 1).unwrap();
    let before = chart.table().cloned();
    assert_eq!(chart.step(&[0; 3]), Err(Refusal::Verdicts { given: 3, children: 1 }));
    assert_eq!(chart.step(&[0x41]), Err(Refusal::Verdict { child: 0, level: 3, byte: 0x41 }));
    assert_eq!(chart.run(&[0x41], 1).unwrap().steps, 0);
    assert_eq!(chart.table().cloned(), before);
    let mut full = tabled(&plane(20, 18), 19);
    let before = full.table().cloned();
    assert_eq!(full.step(&[0x40; 4]), Err(Refusal::Room));
    assert_eq!(full.table().cloned(), before);
}

/// Chart, table and all: grown by a step, by a run, or into another ring, cloned, and lent.
#[test]
fn it_goes_with_the_chart() {
    let tape = [0x40, 0x40, 0, 0x40, 0x80, 0x40, 0x40].repeat(60);
    let mut long = tabled(&plane(40, 40), 4000);
    let mut grows = tabled(&plane(40, 40), 5).growing();
    assert_eq!(long.run(&tape, 90), grows.run(&tape, 90));
    assert_eq!(numbers(&grows), recount(&grows));
    grows.step_with(|_| Verdict::NO).unwrap();
    long.step_with(|_| Verdict::NO).unwrap();
    assert_eq!((grows.table(), numbers(&long)), (long.table(), &recount(&long)[..]));
    grows.grow(9000).unwrap();
    assert_eq!(grows.table(), long.table());
    let mut clone = grows.clone();
    clone.refine(|_| Verdict::NO, 5).unwrap();
    assert_eq!(numbers(&clone), recount(&clone));
    assert_eq!(grows.table(), long.table());

    let (mut first, mut second, mut cells) = ([0; 40], [0; 4000], [0; 1600]);
    let mut lent = Chart::lent(&plane(40, 40), &mut first, &mut cells).unwrap().with_table().unwrap();
    lent.step(&[0x40; 4]).unwrap();
    lent.grow_into(&mut second).unwrap();
    lent.run(&tape[4..], 89).unwrap();
    assert_eq!(numbers(&lent), recount(&lent));
}

/// It is not saved, and filled anew where it is asked for again.
#[test]
fn a_loaded_chart() {
    let mut chart = tabled(&plane(40, 40), 4000);
    chart.run(&[0x40, 0x40, 0, 0x40, 0x80, 0x40, 0x40].repeat(10), 9).unwrap();
    let mut without = Chart::new(&plane(40, 40), 4000).unwrap();
    without.run(&[0x40, 0x40, 0, 0x40, 0x80, 0x40, 0x40].repeat(10), 9).unwrap();
    assert_eq!(chart.save(), without.save());
    let loaded = Chart::load(&chart.save()).unwrap();
    assert_eq!(loaded.table(), None);
    let mut loaded = loaded.with_table().unwrap();
    assert_eq!(loaded.table(), chart.table());
    loaded.step_with(|_| Verdict::NO).unwrap();
    chart.step_with(|_| Verdict::NO).unwrap();
    assert_eq!((loaded.table(), numbers(&loaded)), (chart.table(), &recount(&chart)[..]));
    let one = Chart::load(include_bytes!("../../saved/layout1.chart")).unwrap().with_table().unwrap();
    assert_eq!(numbers(&one), recount(&one));
}

/// White only if every pixel reads False, black only if every pixel reads True; all else a grey that is neither.
#[test]
fn shades() {
    assert_eq!([tile(0, 256, 0, 0), tile(256, 0, 0, 0), tile(0, 0, 256, 256)].map(Tile::shade), [255, 0, 140]);
    assert_eq!([tile(1, 255, 0, 0), tile(255, 1, 0, 0), tile(0, 255, 1, 0)].map(Tile::shade), [220, 61, 220]);
    assert_eq!(Tile::default().shade(), 220);
    let mut seen = vec![];
    for pixels in [1, 2, 8, 256] {
        for yes in 0..=pixels {
            for no in 0..=pixels - yes {
                let shade = tile(yes, no, pixels - yes - no, 0).shade();
                assert_eq!(shade == 255, no == pixels, "{yes} yes and {no} no of {pixels}");
                assert_eq!(shade == 0, yes == pixels, "{yes} yes and {no} no of {pixels}");
                assert!(matches!(shade, 0 | 60..=220 | 255));
                seen.push(shade);
            }
        }
    }
    seen.sort_unstable();
    seen.dedup();
    assert!(seen.len() > 100, "many levels");
}

/// One pixel that is not white keeps its tile from white, also where it is the last of the picture.
#[test]
fn one_pixel_keeps_a_tile_from_white() {
    let mut chart = Chart::for_steps(&plane(33, 17), 1000).unwrap().with_table().unwrap();
    // the pixel at the right of the upper edge alone
    let corner = |b: &smyrilox::Block| match (b.x.span().1 > 32.0, b.y.span().1 > 16.0, b.level()) {
        (true, true, 0) => Verdict::YES,
        (true, true, _) => Verdict::UNDECIDED,
        _ => Verdict::NO,
    };
    assert_eq!(chart.refine(corner, 1000).unwrap().ending, Ending::Done);
    assert_eq!(chart.table().unwrap().tile(2, 0), tile(1, 15, 0, 0));
    assert_eq!(chart.table().unwrap().thumbnail(), [255, 255, 210, 255, 255, 255]);
}

#[test]
#[should_panic(expected = "tile column 2 of 2")]
fn no_such_tile() {
    tabled(&plane(20, 18), 64).table().unwrap().tile(2, 0);
}
