//! Why a pixel reads what it reads: document 02's values, what a chart keeps for it, and every pixel of many charts after every step, held
//! against a history that the test keeps.

mod chance;
mod history;

use chance::Chance;
use history::{pixels, History};
use smyrilox::{explain, Chart, Ending, Explanation, Interval, NotExplained, Reason, Refusal, SamplePoint, Setup, Variables, Verdict};

fn plane(width: u32, height: u32) -> Setup {
    Setup::new(width, height, Variables::X | Variables::Y)
}

/// One pixel, its lower left quarter undecided 31 times; the last step finds another quarter True, but gives the pixel up.
fn down_to_the_floor() -> Vec<u8> {
    [&[0x40, 0, 0, 0].repeat(31)[..], &[0x40, 0xA0, 0, 0]].concat()
}

/// The reason alone.
fn reason(setup: &Setup, tape: &[u8], steps: u32, column: u32, row: u32) -> Result<Reason, NotExplained> {
    explain(setup, tape, steps, column, row).map(|explanation| explanation.reason)
}

fn waiting(reason: Result<Reason, NotExplained>) -> (u64, u64) {
    match reason {
        Ok(Reason::Waiting { number, before, .. }) => (number, before),
        other => panic!("{other:?}"),
    }
}

#[test]
fn one_by_one() {
    let tape = down_to_the_floor();
    let after = |steps| reason(&plane(1, 1), &tape, steps, 0, 0);
    assert_eq!((waiting(after(0)), waiting(after(31))), ((0, 0), (31, 0)));
    for steps in [32, 99] {
        assert_eq!(after(steps), Ok(Reason::GivenUp { step: 32, child: 1 }));
    }
    let end = Explanation { reason: Reason::GivenUp { step: 32, child: 1 }, ending: Ending::Limit, steps: 32, evaluations: 126, tape: 128 };
    assert_eq!(explain(&plane(1, 1), &[&tape[..], &[9, 9]].concat(), 99, 0, 0), Ok(end), "the end that it answers for");
}

#[test]
fn five_by_three() {
    let after = |tape: &[u8], steps, column, row| reason(&plane(5, 3), tape, steps, column, row);
    assert_eq!(waiting(after(&[0x40, 0x40], 1, 0, 0)), (1, 0));
    assert_eq!(waiting(after(&[0x40, 0x40], 1, 4, 0)), (2, 1));
    assert_eq!(after(&[0x40, 0x00], 1, 4, 2), Ok(Reason::False { step: 1, child: 2 }));
    assert_eq!(explain(&plane(5, 3), &[0x40, 0x40], 1, 0, 0).map(|e| (e.ending, e.steps, e.tape)), Ok((Ending::More, 1, 2)));
}

#[test]
fn refused() {
    let after = |tape: &[u8], column, row| reason(&plane(5, 3), tape, 2, column, row).unwrap_err();
    assert_eq!(after(&[0x40], 0, 0), NotExplained::Step { step: 1, refusal: Refusal::Verdicts { given: 1, children: 2 } });
    assert_eq!(after(&[0x40, 0x40], 0, 0), NotExplained::Step { step: 2, refusal: Refusal::Verdicts { given: 0, children: 4 } });
    let illegal = after(&[0x40, 0x40, 0, 0, 0x90, 0], 0, 0);
    assert_eq!(illegal, NotExplained::Step { step: 2, refusal: Refusal::Verdict { child: 2, level: 1, byte: 0x90 } });
    assert_eq!(illegal.to_string(), "refused 5: child 2 (the first is 0), on level 1, cannot have the verdict 0x90, in step 2");
    assert_eq!(after(&[0x40, 0x40], 5, 0), NotExplained::Refused(Refusal::Pixel));
    assert_eq!(after(&[0x40, 0x40], 0, 3).to_string(), "refused 18: the pixel lies outside the picture");
    assert_eq!(explain(&plane(0, 3), &[], 0, 0, 0), Err(NotExplained::Refused(Refusal::Side)));
    assert_eq!(explain(&Setup::new(1, 1, Variables(64)), &[], 0, 9, 9), Err(NotExplained::Refused(Refusal::Parameter)));
}

#[test]
fn one_parameter() {
    let setup = Setup { m: Interval::new(0.0, 8.0), ..Setup::new(1, 1, Variables::M) };
    let tape = [0, 0, 0, 0x40, 0x40, 0x40, 0x80, 0, 0];
    assert_eq!(waiting(reason(&setup, &tape, 1, 0, 0)), (2, 1));
    assert_eq!(reason(&setup, &tape, 2, 0, 0), Ok(Reason::GivenUp { step: 2, child: 2 }));
    assert_eq!(reason(&setup, &tape, 3, 0, 0), Ok(Reason::True { step: 3, child: 1, point: None }));
    assert!(matches!(reason(&setup, &tape, 4, 0, 0), Err(NotExplained::Step { step: 4, refusal: Refusal::Verdicts { given: 0, .. } })));
}

#[test]
fn sentences() {
    let says = |tape: &[u8], steps, column| reason(&plane(5, 3), tape, steps, column, 0).unwrap().to_string();
    assert_eq!(says(&[0x40, 0x80], 1, 4), "True: step 1 marked it last; child 2 of that step showed it, by its area verdict.");
    assert_eq!(
        says(&[0x40, 0x00], 1, 4),
        "False: step 1 took the last block that covered it; every child of that step that covered it was answered false, the first is \
         child 2."
    );
    assert_eq!(says(&[0x40, 0x40], 1, 4), "Waiting: block 2 is the last one queued that covers it; blocks before it in the queue: 1.");
    let given_up = reason(&plane(1, 1), &down_to_the_floor(), 32, 0, 0).unwrap();
    assert_eq!(given_up.to_string(), "Given up: step 32 was the last to give it up; child 1 of that step found no direction to be cut in.");
    let points = ["1 (the simple fraction)", "2 (bottom left)", "3 (bottom right)", "4 (top left)", "5 (top right)"];
    for (place, words) in points.iter().enumerate() {
        let found = reason(&plane(1, 1), &[0, 0, 0, 0x60 | 0x10 >> place], 9, 0, 0).unwrap();
        assert_eq!(found.to_string(), format!("True: step 1 marked it last; child 4 of that step showed it, at sample point {words}."));
    }
    assert_eq!(SamplePoint::TopRight.to_string(), "top right");
}

/// A chart of a real relation: a disc, of which one pixel is given up, since its quarters are never decided.
#[test]
fn each_kind() {
    let disc = |b: &smyrilox::Block| {
        let ends = |(low, high): (f64, f64)| (low - 8.0, high - 8.0);
        let ((x0, x1), (y0, y1)) = (ends(b.x.span()), ends(b.y.span()));
        let far = |low: f64, high: f64| low.abs().max(high.abs());
        let near = |low: f64, high: f64| if low <= 0.0 && high >= 0.0 { 0.0 } else { low.abs().min(high.abs()) };
        match (far(x0, x1).hypot(far(y0, y1)), near(x0, x1).hypot(near(y0, y1))) {
            (farthest, _) if farthest < 6.0 => Verdict::yes_for(b),
            (_, nearest) if nearest > 6.0 => Verdict::NO,
            _ => Verdict::UNDECIDED,
        }
    };
    let mut chart = Chart::new(&plane(16, 16), 64).unwrap().growing().keeping_verdicts();
    chart.refine(disc, 60).unwrap();
    let reasons: Vec<Reason> = pixels(&plane(16, 16)).iter().map(|&(column, row)| chart.why(column, row).unwrap()).collect();
    assert!(reasons.iter().any(|r| matches!(r, Reason::True { .. })));
    assert!(reasons.iter().any(|r| matches!(r, Reason::False { .. })));
    assert!(reasons.iter().any(|r| matches!(r, Reason::Waiting { .. })));
    let mut deep = Chart::new(&plane(1, 1), 64).unwrap().growing().keeping_verdicts();
    assert_eq!(deep.run(&down_to_the_floor(), 99).unwrap().ending, Ending::Limit);
    assert_eq!(deep.why(0, 0), Ok(Reason::GivenUp { step: 32, child: 1 }));
}

/// What is kept: the verdicts of finished steps, by whatever call, and no others.
#[test]
fn kept() {
    let mut chart = Chart::new(&plane(5, 3), 13).unwrap().keeping_verdicts();
    chart.step(&[0x40, 0x40]).unwrap();
    assert_eq!(chart.step(&[0x40, 0x40]), Err(Refusal::Verdicts { given: 2, children: 4 }));
    assert_eq!(chart.step(&[0x40, 0x80, 0, 0x40]), Err(Refusal::Room));
    assert_eq!(chart.verdicts(), Some(&[0x40, 0x40][..]));
    chart.grow(64).unwrap();
    let run = chart.run(&[0x40, 0x80, 0, 0x40, 0x40, 0, 9, 9], 2).unwrap();
    assert_eq!((run.ending, run.tape), (Ending::More, 6));
    assert_eq!(chart.verdicts(), Some(&[0x40, 0x40, 0x40, 0x80, 0, 0x40, 0x40, 0][..]));
    assert_eq!(chart.why(3, 2), Ok(Reason::True { step: 2, child: 2, point: None }));
    let mut twin = chart.clone();
    twin.refine(|_| Verdict::NO, 99).unwrap();
    assert_ne!(twin.verdicts(), chart.verdicts());
    assert!(matches!(twin.why(0, 2), Ok(Reason::False { .. })) && matches!(chart.why(0, 2), Ok(Reason::Waiting { .. })));

    // moved to a ring that would not have been enough for all steps, and at last to one that is too short for a setup
    let used = chart.ring_use().0;
    chart.grow(used).unwrap();
    assert_eq!(chart.why(3, 2), Ok(Reason::True { step: 2, child: 2, point: None }));
    twin.grow(1).unwrap();
    assert!(matches!(twin.why(0, 0), Ok(Reason::False { .. })));
}

#[test]
fn by_a_tape() {
    let mut chart = Chart::new(&plane(5, 3), 64).unwrap();
    let tape = [0x40, 0x40, 0x40, 0x80, 0, 0x40, 0x40, 0];
    chart.run(&tape, 2).unwrap();
    assert_eq!((chart.verdicts(), chart.why(0, 0)), (None, Err(NotExplained::NoVerdicts)));
    let due = Ok(Reason::True { step: 2, child: 2, point: None });
    assert_eq!(chart.why_with(&tape, 3, 2), due);
    assert_eq!(chart.why_with(&tape[..6], 3, 2), due);
    assert_eq!(chart.why_with(&tape, 5, 0), Err(NotExplained::Refused(Refusal::Pixel)));
    let short = NotExplained::Step { step: 2, refusal: Refusal::Verdicts { given: 3, children: 4 } };
    assert_eq!(chart.why_with(&tape[..5], 0, 0), Err(short));
    assert_eq!(chart.why_with(&[0x40, 0x40, 0x40, 0x80, 0, 0], 3, 2), Err(NotExplained::OtherTape));
    assert_eq!(chart.why_with(&[0x40, 0x00, 0x40, 0x80, 0, 0x40], 3, 2), Err(NotExplained::OtherTape));
    assert_eq!(chart.why_with(&[0x40, 0x00, 0, 0, 0, 0], 3, 2), Err(NotExplained::OtherTape));

    // a chart that was saved: layout 2 knows its ranges, and takes its verdicts along
    let mut loaded = Chart::load(&chart.save()).unwrap();
    assert_eq!((loaded.why(3, 2), loaded.why_with(&tape, 3, 2)), (Err(NotExplained::NoVerdicts), due));
    loaded = loaded.with_verdicts(&tape[..6]);
    loaded.step(&[0x40, 0]).unwrap();
    assert_eq!((loaded.verdicts(), loaded.why(3, 2)), (Some(&tape[..]), due));
    let old = Chart::load(include_bytes!("../../saved/layout1.chart")).unwrap();
    assert_eq!(old.why_with(&[], 0, 0), Err(NotExplained::NoRanges));
    for why in [NotExplained::NoVerdicts, NotExplained::NoRanges, NotExplained::OtherTape, NotExplained::Refused(Refusal::Pixel)] {
        assert!(why.to_string().len() > 30);
    }
}

/// Another quarter of the pixel is undecided: counts and cells are the same, but not the bytes of the queue, the block queued last or, once the
/// queue is empty, the block taken last.
#[test]
fn another_queue() {
    let one = [[0x40, 0, 0, 0, 0, 0, 0, 0], [0, 0x40, 0, 0, 0, 0, 0, 0]];
    let two = [[0x40, 0, 0, 0x40, 0, 0, 0, 0], [0, 0x40, 0, 0x40, 0, 0, 0, 0]];
    for (tapes, steps) in [(two, 1), (one, 1), (one, 2)] {
        let [first, second] = tapes.map(|tape| {
            let mut chart = Chart::new(&plane(1, 1), 64).unwrap();
            chart.run(&tape, steps).unwrap();
            chart
        });
        assert_eq!((first.steps(), first.counts()), (second.steps(), second.counts()));
        assert!(first.why_with(&tapes[0], 0, 0).is_ok() && second.why_with(&tapes[1], 0, 0).is_ok());
        assert_eq!(first.why_with(&tapes[1], 0, 0), Err(NotExplained::OtherTape), "after {steps} steps");
        assert_eq!(second.why_with(&tapes[0], 0, 0), Err(NotExplained::OtherTape), "after {steps} steps");
    }
}

/// What cannot be seen: a verdict that marks as another does leads to the same chart, and gets the answer of its own.
#[test]
fn another_tape_of_the_same_chart() {
    let mut chart = Chart::new(&plane(1, 1), 64).unwrap().keeping_verdicts();
    chart.step(&[0, 0x61, 0, 0]).unwrap();
    assert_eq!(chart.why(0, 0), Ok(Reason::True { step: 1, child: 2, point: Some(SamplePoint::TopRight) }));
    assert_eq!(chart.why_with(&[0, 0xA0, 0, 0], 0, 0), Ok(Reason::True { step: 1, child: 2, point: None }));
}

/// The queue is held against the repeated one wherever in its ring it stands, also around the ring's end.
#[test]
fn wherever_the_queue_stands() {
    for ring in 13..20 {
        let mut chart = Chart::new(&plane(1, 1), ring).unwrap().keeping_verdicts();
        for step in 1..=31 {
            chart.step(&[0x40, 0, 0, 0]).unwrap();
            let mut moved = chart.clone();
            moved.grow(if step % 2 == 0 { 200 } else { ring }).unwrap();
            assert_eq!((waiting(chart.why(0, 0)), waiting(moved.why(0, 0))), ((step, 0), (step, 0)));
        }
    }
}

#[test]
#[should_panic(expected = "finished steps of this chart: 1")]
fn too_late() {
    let mut chart = Chart::new(&plane(5, 3), 64).unwrap();
    chart.step(&[0x40, 0x40]).unwrap();
    let _ = chart.keeping_verdicts();
}

#[test]
fn in_lent_memory() {
    let (mut ring, mut cells) = ([0; 64], [0; 17]);
    let mut chart = Chart::lent(&plane(5, 3), &mut ring, &mut cells).unwrap().keeping_verdicts();
    chart.step(&[0x40, 0x80]).unwrap();
    assert_eq!(chart.why(4, 1), Ok(Reason::True { step: 1, child: 2, point: None }));
}

#[test]
fn against_a_history() {
    let mut chance = Chance(20260418);
    let sets = [48, 48, 8, 48 | 8, 48 | 1, 4 | 1].map(Variables);
    let (plain, low) = ([0x40, 0x40, 0x40, 0x00, 0x00, 0x80], [0x40, 0x60, 0x00, 0xA0, 0x64, 0x71]);
    let mut kinds = [0; 4];
    for turn in 0..48 {
        let setup = Setup {
            m: Interval::new(0.0, 1.0 + chance.below(9) as f64),
            n: Interval::new(-3.0, 2.0),
            t: Interval::new(0.0, 1.0),
            ..Setup::new(1 + chance.below(5) as u32, 1 + chance.below(5) as u32, sets[turn % sets.len()])
        };
        let (mut chart, mut history) = (Chart::new(&setup, setup.least_ring().unwrap()).unwrap().growing().keeping_verdicts(), History::new(&setup));
        for _ in 0..45 {
            for (column, row) in pixels(&setup) {
                let reason = chart.why(column, row).unwrap();
                assert_eq!(reason, history.reason(&chart, column, row), "turn {turn}, pixel {column} {row}, step {}", chart.steps());
                kinds[match reason {
                    Reason::True { .. } => 0,
                    Reason::False { .. } => 1,
                    Reason::GivenUp { .. } => 2,
                    Reason::Waiting { .. } => 3,
                }] += 1;
            }
            if chart.is_finished() {
                break;
            }
            let of = |c: &smyrilox::Block, chance: &mut Chance| if c.level() < 0 { low } else { plain }[chance.below(6) as usize];
            let verdicts: Vec<u8> = chart.children().unwrap().iter().map(|c| of(c, &mut chance)).collect();
            history.note(&chart, &verdicts);
            chart.step(&verdicts).unwrap();
        }
    }
    assert!(kinds.iter().all(|&met| met > 100), "{kinds:?}");
}
