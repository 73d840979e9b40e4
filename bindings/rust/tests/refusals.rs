//! What is refused, by which number, and that nothing has changed.

use smyrilox::{Chart, Ending, Interval, NotLoaded, Refusal, Setup, Variables, Verdict};

fn plane(width: u32, height: u32) -> Setup {
    Setup::new(width, height, Variables::X | Variables::Y)
}

fn begun(width: u32, height: u32) -> Chart {
    Chart::new(&plane(width, height), 64).unwrap()
}

#[test]
fn setups() {
    let illegal = Setup { t: Interval::new(2.0, 1.0), ..Setup::new(1, 1, Variables::T) };
    let cases = [
        (plane(0, 3), Refusal::Side, 1),
        (plane(32769, 1), Refusal::Side, 1),
        (illegal, Refusal::Parameter, 3),
        (Setup::new(1, 1, Variables(64)), Refusal::Parameter, 3),
    ];
    for (setup, why, number) in cases {
        let (mut ring, mut cells) = ([9; 64], [7; 3]);
        assert_eq!(Chart::lent(&setup, &mut ring, &mut cells).err(), Some(why));
        assert_eq!(why.number(), number);
        assert_eq!((ring, cells), ([9; 64], [7; 3]));
    }
}

#[test]
fn short_memory() {
    let (mut ring, mut cells) = ([9; 64], [7; 5]);
    assert_eq!(Chart::lent(&plane(2, 3), &mut ring, &mut cells).err(), Some(Refusal::Cells));
    assert_eq!(Chart::lent(&plane(2, 2), &mut ring[..4], &mut cells).err(), Some(Refusal::Room));
    assert_eq!((ring, cells), ([9; 64], [7; 5]));
    assert_eq!(Chart::new(&plane(2, 2), 0).err(), Some(Refusal::Room));
}

#[test]
fn steps() {
    let mut chart = begun(2, 2);
    let before = chart.save();
    assert_eq!(chart.step(&[0; 3]), Err(Refusal::Verdicts { given: 3, children: 4 }));
    assert_eq!(chart.step(&[0x40, 0x41, 0xC0, 0]), Err(Refusal::Verdict { child: 1, level: 0, byte: 0x41 }));
    assert_eq!(chart.draw(&mut [0; 3]), Err(Refusal::Picture));
    assert_eq!(chart.save(), before);
    chart.step(&[0; 4]).unwrap();
    assert_eq!(chart.step(&[]), Err(Refusal::Empty));
    assert_eq!(chart.children().err(), Some(Refusal::Empty));
}

/// A run that is stopped by its verdicts says what is wrong with those that it did not take.
#[test]
fn tapes() {
    let mut chart = begun(2, 1);
    let run = chart.run(&[0x40, 0x40, 0x40, 0x00, 0x00], 7).unwrap();
    assert_eq!((run.ending, run.steps), (Ending::Stop(Refusal::Verdicts { given: 3, children: 4 }), 1));
    let run = chart.run(&[0x40, 0x00, 0x00, 0x90], 7).unwrap();
    assert_eq!((run.ending, run.steps), (Ending::Stop(Refusal::Verdict { child: 3, level: -1, byte: 0x90 }), 0));
}

/// Every byte on a level above, at and below a pixel: legal exactly if the step is not refused by 5.
#[test]
fn every_verdict() {
    for (side, level) in [(4, 1), (2, 0), (1, -1)] {
        let chart = begun(side, side);
        for byte in 0..=255 {
            let legal = Verdict(byte).is_legal_for(&chart.children().unwrap()[2]);
            let why = chart.clone().step(&[0, 0, byte, 0]).err();
            assert_eq!(why, (!legal).then_some(Refusal::Verdict { child: 2, level, byte }), "{byte:#04x} on level {level}");
        }
    }
}

/// Below level 0 a plain yes counts as undecided; `yes_for` says what counts.
#[test]
fn yes_below_a_pixel() {
    for (yes, trues) in [(Verdict::YES, 0), (Verdict::YES.with_area(), 1)] {
        let mut chart = begun(1, 1);
        chart.step(&[yes.0, 0, 0, 0]).unwrap();
        assert_eq!(chart.counts().unwrap().yes, trues);
    }
    let mut chart = begun(1, 1);
    chart.step_with(Verdict::yes_for).unwrap();
    assert_eq!((chart.counts().unwrap().yes, chart.is_finished()), (1, true));
}

#[test]
fn no_room() {
    let mut chart = Chart::new(&plane(4, 4), 19).unwrap();
    let before = chart.save();
    assert_eq!(chart.step(&[0x40; 4]), Err(Refusal::Room));
    assert_eq!(chart.save(), before);
    let run = chart.run(&[0x40; 4], 1).unwrap();
    assert_eq!((run.ending, run.steps), (Ending::Stop(Refusal::Room), 0));
    assert_eq!(chart.save(), before);
}

#[test]
fn numbers() {
    use Refusal::*;
    let (verdicts, verdict) = (Verdicts { given: 0, children: 1 }, Verdict { child: 0, level: 0, byte: 1 });
    let named = [
        Side, Cells, Parameter, verdicts, verdict, Room, Numbers, Damaged, TooLarge, EndsEarly, HeadZero, Picture, Empty, Sheet, Bounds, Padding, Table,
        Pixel,
    ];
    assert_eq!(named.map(Refusal::number), [1, 2, 3, 4, 5, 6, 7, 8, 9, 10, 11, 12, 13, 14, 15, 16, 17, 18]);
    assert_eq!((Other(23).number(), Other(23).to_string().as_str()), (23, "refused 23: this crate has no words for it"));
}

#[test]
fn words() {
    assert_eq!(Refusal::Room.to_string(), "refused 6: the new blocks do not fit the ring");
    assert_eq!(Refusal::Verdicts { given: 3, children: 4 }.to_string(), "refused 4: 3 verdicts for 4 children");
    assert_eq!(
        Refusal::Verdict { child: 1, level: -2, byte: 0x01 }.to_string(),
        "refused 5: child 1 (the first is 0), on level -2, cannot have the verdict 0x01"
    );
    assert_eq!(Refusal::Padding.to_string(), "refused 16: the padding leaves no width or no height");
    let damaged = "refused 8: the record, the front block or a cell is damaged, or a block is none of the plot's";
    assert_eq!(NotLoaded::Refused(Refusal::Damaged).to_string(), damaged);
}
