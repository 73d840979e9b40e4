//! Records and answers in which every field differs from its neighbours, against numbers worked out by hand from document 01: a field that has moved, on
//! either side of the library's boundary, is noticed. The C test plays the same charts, and shows the working.

use smyrilox::{leaves, Block, Chart, Coordinate, Counts, Ending, Interval, Refusal, Run, Setup, Step, Variables};

const NO: u8 = 0x00;
const UNDECIDED: u8 = 0x40;
const YES: u8 = 0x80;

fn interval(lower: f64, upper: f64) -> Interval {
    Interval::new(lower, upper)
}

/// The record as it is saved: sides and set, the counters (taken, queued, ring, used, cells), and the blocks taken and queued last (x, y and
/// eight bounds).
fn record(chart: &Chart) -> ([u8; 9], [u64; 5], [u64; 20]) {
    let bytes = chart.save();
    let word = |at: usize| u64::from_le_bytes(bytes[at..at + 8].try_into().unwrap());
    let chosen = bytes[12..21].try_into().unwrap();
    (chosen, std::array::from_fn(|i| word(32 + 8 * i)), std::array::from_fn(|i| word(136 + 8 * i)))
}

/// What is remembered of a block of the chart below.
fn remembered(x: u64, y: u64, m: Interval, n: Interval, t: Interval) -> [u64; 10] {
    let [m, n, theta, t] = [m, n, Interval::WHOLE, t].map(|i| [i.lower.to_bits(), i.upper.to_bits()]);
    [x, y, m[0], m[1], n[0], n[1], theta[0], theta[1], t[0], t[1]]
}

#[test]
fn the_record_and_the_children() {
    let (m, n, t) = (interval(2.0, 9.0), interval(10.0, 15.0), interval(0.5, 0.75));
    let uses = Variables::X | Variables::Y | Variables::M | Variables::N | Variables::T;
    let setup = Setup { m, n, theta: interval(1.0, -1.0), t, ..Setup::new(7, 5, uses) };
    assert_eq!((setup.cells(), setup.least_ring()), (Ok(35), Ok(843)));
    let mut chart = Chart::new(&setup, 2000).unwrap();
    let chosen = [7, 0, 0, 0, 5, 0, 0, 0, 61];
    let start = remembered(0, 0, Interval::WHOLE, Interval::WHOLE, Interval::WHOLE);
    let last = remembered(0, 0, interval(9.0, 9.0), interval(15.0, 15.0), interval(0.75, 0.75));
    let both = |front: [u64; 10], back: [u64; 10]| -> [u64; 20] { [front, back].concat().try_into().unwrap() };
    assert_eq!(chart.setup(), Some(Setup { theta: Interval::WHOLE, ..setup }));
    assert_eq!(record(&chart), (chosen, [0, 27, 2000, 843, 35], both(start, last)));

    let mut tape = [NO; 112];
    (tape[0], tape[13 * 4 + 1], tape[110], tape[111]) = (YES, UNDECIDED, UNDECIDED, UNDECIDED);
    assert_eq!(chart.run(&tape, 28), Ok(Run { ending: Ending::More, steps: 28, evaluations: 86, tape: 112 }));
    let (front, back) = (remembered(1, 0, m, n, t), remembered(3, 1, m, n, t));
    assert_eq!(record(&chart), (chosen, [28, 30, 2000, 22, 35], both(front, back)));
    assert_eq!((chart.size(), chart.steps(), chart.queued(), chart.ring_use()), ((7, 5), 28, 2, (22, 2000)));

    let child = |m| Block {
        x: Coordinate { index: 2, level: 1 },
        y: Coordinate { index: 1, level: 1 },
        m,
        n,
        theta: Interval::WHOLE,
        t,
    };
    let parts = [interval(2.0, 6.0), interval(6.0, 6.0), interval(6.0, 9.0)];
    assert_eq!(chart.children().unwrap()[..], parts.map(child));
    assert_eq!(chart.step(&[NO, YES, UNDECIDED]), Ok(Step { evaluations: 2, verdicts: 3 }));
    assert_eq!(record(&chart), (chosen, [29, 30, 2000, 11, 35], both(remembered(2, 1, m, n, t), back)));
}

#[test]
fn each_range_reaches_its_parameter() {
    let uses = Variables::M | Variables::N | Variables::THETA | Variables::T;
    let point = |x| interval(x, x);
    let setup = Setup { m: point(2.0), n: point(3.0), theta: point(4.0), t: interval(5.0, 6.0), ..Setup::new(3, 2, uses) };
    let children = Chart::new(&setup, 256).unwrap().children().unwrap();
    let c = children[1];
    assert_eq!((children.len(), c.x, c.m, c.n, c.theta, c.t), (3, Coordinate { index: 0, level: 2 }, point(2.0), point(3.0), point(4.0), point(5.0)));
}

#[test]
fn counts_more_and_limit() {
    let mut chart = Chart::new(&Setup::new(5, 4, Variables::X | Variables::Y), 64).unwrap();
    let mut tape = vec![0x40, 0x40, 0x80, 0x40, 0x00, 0x00, 0x40, 0x80, 0x40, 0x00, 0x00, 0x00, 0x40, 0x40, 0x60, 0, 0, 0];
    (0..94).for_each(|_| tape.extend([UNDECIDED, NO, NO, NO]));
    assert_eq!(chart.run(&tape, 100), Ok(Run { ending: Ending::More, steps: 100, evaluations: 399, tape: 394 }));
    assert_eq!(chart.counts(), Ok(Counts { yes: 6, no: 11, uncertain: 3, given_up: 2, queued: 1, share: 850 }));
    assert_eq!(chart.picture().unwrap().bytes(), [0, 0, 0, 0, 2, 0, 0, 0, 0, 2, 2, 2, 0, 0, 1, 2, 2, 1, 0, 1]);
    assert_eq!(chart.run(&[0x60, NO, NO, NO], 9), Ok(Run { ending: Ending::Limit, steps: 1, evaluations: 9, tape: 4 }));
}

#[test]
fn done_and_stop() {
    let begun = || Chart::new(&Setup::new(2, 1, Variables::X | Variables::Y), 64).unwrap();
    let done = begun().run(&[0x40, 0x80, 0x70, 0, 0, 0], 7);
    assert_eq!(done, Ok(Run { ending: Ending::Done, steps: 2, evaluations: 4, tape: 6 }));
    let stop = begun().run(&[0x40, 0x40, 0x60, 0x00, 0x40, 0xA0, 0x40, 0x41, 0x00, 0x00], 7);
    let why = Refusal::Verdict { child: 1, level: -1, byte: 0x41 };
    assert_eq!(stop, Ok(Run { ending: Ending::Stop(why), steps: 2, evaluations: 11, tape: 6 }));
}

#[test]
fn the_leaves_know_their_arguments() {
    let x = interval(1.0, 4.0);
    assert_eq!((leaves::midpoint(x), leaves::simple_fraction(interval(0.3, 0.4))), (Ok(2.5), Ok(0.375)));
    assert_eq!(leaves::first_cut(x, true), Ok(vec![interval(1.0, 1.0), x, interval(4.0, 4.0)]));
    // cut at 3: of [1,3] its middle alone, and [3,4] is dropped
    assert_eq!(leaves::later_cut(x, true), Ok(vec![interval(2.0, 2.0), interval(3.0, 3.0)]));
    assert_eq!(leaves::later_cut(x, false), Ok(vec![interval(1.0, 2.5), interval(2.5, 2.5), interval(2.5, 4.0)]));
}
