//! The values of document 01, and charts that go on as they should.

use smyrilox::{leaves, Chart, Ending, Interval, Reading, Refusal, Run, Setup, Step, Variables, Verdict};

fn plane(width: u32, height: u32) -> Setup {
    Setup::new(width, height, Variables::X | Variables::Y)
}

#[test]
fn the_sample_sheet() {
    let mut chart = Chart::new(&plane(2, 1), 16384).unwrap();
    let run = chart.run(&[0x80, 0x00], 5).unwrap();
    assert_eq!(run, Run { ending: Ending::Done, steps: 1, evaluations: 2, tape: 2 });
    let picture = chart.picture().unwrap();
    assert_eq!(picture.bytes(), [2, 0]);
    assert_eq!((picture.width(), picture.height()), (2, 1));
    assert_eq!(picture.reading(0, 0), Reading::True);
    let counts = chart.counts().unwrap();
    assert_eq!((counts.yes, counts.no, counts.uncertain, counts.given_up, counts.queued, counts.share), (1, 1, 0, 0, 0, 1000));
}

#[test]
fn five_by_three() {
    let (mut ring, mut cells) = ([0xA5; 64], [7; 16]);
    let mut chart = Chart::lent(&plane(5, 3), &mut ring, &mut cells).unwrap();
    assert_eq!(chart.ring_use(), (5, 64));
    let children = chart.children().unwrap();
    let places: Vec<_> = children.iter().map(|b| (b.x.index, b.x.level, b.y.index, b.y.level)).collect();
    assert_eq!(places, [(0, 2, 0, 2), (1, 2, 0, 2)]);
    assert_eq!(children[1].x.span(), (4.0, 8.0));
    assert_eq!(chart.step(&[0x40, 0x40]).unwrap(), Step { evaluations: 2, verdicts: 2 });
    assert_eq!((chart.steps(), chart.queued()), (1, 2));
    drop(chart);
    assert_eq!(ring[..15], [1, 3, 1, 3, 0, 1, 2, 1, 2, 0, 3, 2, 1, 2, 0]);
    assert!(ring[15..].iter().all(|b| *b == 0xA5));
    assert_eq!(cells, [1, 1, 1, 1, 2, 1, 1, 1, 1, 2, 1, 1, 1, 1, 2, 7]);
}

#[test]
fn one_by_one_ends_given_up() {
    let mut chart = Chart::new(&plane(1, 1), 16384).unwrap();
    let mut evaluations = 0;
    for _ in 0..31 {
        evaluations += chart.step(&[0x40, 0, 0, 0]).unwrap().evaluations;
    }
    let run = chart.run(&[0x40, 0xA0, 0, 0], 9).unwrap();
    assert_eq!((run.ending, run.steps, run.evaluations + evaluations), (Ending::Limit, 1, 126));
    assert_eq!((chart.counts().unwrap().given_up, chart.steps()), (1, 32));
}

/// The share is rounded down: a pixel that waits, or that is given up at the end, keeps it under 1000.
#[test]
fn all_but_one_is_not_the_whole() {
    for (last, ending, share) in [(0x40, Ending::Limit, 999), (0xA0, Ending::Done, 1000)] {
        let mut chart = Chart::new(&plane(64, 64), 64).unwrap();
        chart.run(&[0x80, 0x80, 0x80, 0x40].repeat(6), 6).unwrap();
        let waits = chart.counts().unwrap();
        assert_eq!((waits.yes, waits.uncertain, waits.queued, waits.share), (4095, 1, 1, 999));
        let mut tape = [0, 0, 0, 0x40].repeat(32);
        tape[127] = last;
        assert_eq!(chart.run(&tape, 99).unwrap().ending, ending);
        let end = chart.counts().unwrap();
        assert_eq!((end.queued, end.given_up, end.share), (0, (ending == Ending::Limit) as u64, share));
    }
}

#[test]
fn an_evaluator_is_asked() {
    let mut chart = Chart::new(&plane(3, 3), 4096).unwrap();
    let mut steps = 0;
    while !chart.is_finished() {
        // the lower left corner's pixel alone is a solution
        chart
            .step_with(|b| match (b.x.index, b.y.index, b.level()) {
                (0, 0, 0) => Verdict::YES,
                (0, 0, _) => Verdict::UNDECIDED,
                _ => Verdict::NO,
            })
            .unwrap();
        steps += 1;
    }
    assert_eq!(steps, 2);
    let rows: Vec<Vec<u8>> = chart.picture().unwrap().rows().map(<[u8]>::to_vec).collect();
    assert_eq!(rows, [[0, 0, 0], [0, 0, 0], [2, 0, 0]]);
}

#[test]
fn a_parameter_is_cut() {
    let setup = Setup { m: Interval::new(0.0, 3.0), ..Setup::new(1, 1, Variables::M) };
    assert_eq!(setup.cells(), Ok(1));
    assert_eq!(setup.least_ring(), Ok(3 * (4 + 16 + 1)));
    let chart = Chart::new(&setup, setup.least_ring().unwrap()).unwrap();
    // [0,0], [0,3], [3,3]
    assert_eq!(chart.queued(), 3);
    assert_eq!(chart.children().unwrap()[0].m, Interval::new(0.0, 0.0));
}

#[test]
fn leaves_answer() {
    assert_eq!(leaves::simple_fraction(Interval::new(0.3, 0.4)), Ok(0.375));
    assert_eq!(leaves::midpoint(Interval::new(1.0, f64::INFINITY)), Ok(f64::MAX));
    assert_eq!(leaves::midpoint(Interval::new(2.0, 1.0)), Err(Refusal::Parameter));
    let pieces = [Interval::new(1.0, 1.0), Interval::new(2.0, 2.0)];
    assert_eq!(leaves::later_cut(Interval::new(0.0, 3.0), true), Ok(pieces.to_vec()));
    assert_eq!(leaves::first_cut(Interval::new(5.0, 5.0), true).unwrap().len(), 1);
    assert_eq!(leaves::first_cut(Interval::new(5.0, 5.0), false).unwrap().len(), 3);
}
