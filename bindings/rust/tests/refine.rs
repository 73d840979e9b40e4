//! A number of steps with an evaluator, and the two greys.

use smyrilox::{Block, Chart, Ending, Grey, Refusal, Run, Setup, Variables, Verdict};

fn plane(width: u32, height: u32) -> Setup {
    Setup::new(width, height, Variables::X | Variables::Y)
}

/// The lower left pixel alone is a solution.
fn corner(block: &Block) -> Verdict {
    match (block.x.index, block.y.index, block.level()) {
        (0, 0, 0) => Verdict::YES,
        (0, 0, _) => Verdict::UNDECIDED,
        _ => Verdict::NO,
    }
}

fn run(ending: Ending, steps: u64, evaluations: u64, tape: usize) -> Result<Run, Refusal> {
    Ok(Run { ending, steps, evaluations, tape })
}

#[test]
fn the_endings() {
    let mut chart = Chart::for_steps(&plane(3, 3), 10).unwrap();
    assert_eq!(chart.refine(corner, 0), run(Ending::More, 0, 0, 0));
    assert_eq!(chart.refine(corner, 1), run(Ending::More, 1, 4, 4));
    assert_eq!(chart.refine(corner, 9), run(Ending::Done, 1, 4, 4));
    assert_eq!(chart.refine(corner, 9), run(Ending::Done, 0, 0, 0));
    assert_eq!(chart.picture().unwrap().bytes(), [0, 0, 0, 0, 0, 0, 2, 0, 0]);
    let mut point = Chart::for_steps(&plane(1, 1), 40).unwrap();
    let thin = |b: &Block| if b.x.index + b.y.index > 0 { Verdict::NO } else { Verdict::UNDECIDED };
    assert_eq!(point.refine(thin, 40), run(Ending::Limit, 32, 128, 128));
}

/// The same steps as on a tape.
#[test]
fn as_a_run() {
    let begun = || Chart::new(&plane(16, 16), 4000).unwrap();
    let (mut asked, mut taped) = (begun(), begun());
    assert_eq!(asked.refine(|_| Verdict::UNDECIDED, 20), taped.run(&[0x40; 80], 20));
    assert_eq!(asked.save(), taped.save());
}

#[test]
fn a_refusal() {
    let mut chart = Chart::new(&plane(4, 4), 19).unwrap();
    assert_eq!(chart.refine(|_| Verdict::UNDECIDED, 9), run(Ending::Stop(Refusal::Room), 0, 0, 0));
    let illegal = Refusal::Verdict { child: 0, level: 1, byte: 0x41 };
    assert_eq!(chart.refine(|_| Verdict(0x41), 9), run(Ending::Stop(illegal), 0, 0, 0));
    assert_eq!(chart.growing().refine(|_| Verdict::UNDECIDED, 9), run(Ending::More, 9, 36, 36));
}

#[test]
fn progress() {
    let mut chart = Chart::for_steps(&plane(3, 3), 10).unwrap();
    let mut seen = Vec::new();
    chart.refine_watched(corner, 5, |c, finished| seen.push((finished, c.counts().unwrap().share))).unwrap();
    assert_eq!(seen, [(1, 555), (2, 1000)]);
}

/// The chart of the fields' test after 100 steps: two pixels are given up, and one waits.
#[test]
fn greys() {
    let mut chart = Chart::new(&plane(5, 4), 64).unwrap();
    assert!(chart.greys().unwrap().iter().all(|grey| *grey == Some(Grey::Waits)));
    let mut tape = vec![0x40, 0x40, 0x80, 0x40, 0x00, 0x00, 0x40, 0x80, 0x40, 0x00, 0x00, 0x00, 0x40, 0x40, 0x60, 0, 0, 0];
    (0..94).for_each(|_| tape.extend([0x40, 0, 0, 0]));
    chart.run(&tape, 100).unwrap();
    let greys = chart.greys().unwrap();
    let count = |grey| greys.iter().filter(|g| **g == grey).count();
    assert_eq!((count(None), count(Some(Grey::Waits)), count(Some(Grey::GivenUp))), (17, 1, 2));
    let picture = chart.picture().unwrap();
    assert!(picture.bytes().iter().zip(&greys).all(|(reading, grey)| (*reading == 1) == grey.is_some()));
}
