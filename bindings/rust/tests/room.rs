//! Rings that are enough, queues that move, and charts that grow by themselves.

use smyrilox::{Chart, Ending, Interval, Refusal, Run, Setup, Variables, Verdict};

fn plane() -> Setup {
    Setup::new(16, 16, Variables::X | Variables::Y)
}

fn mixes() -> Setup {
    let uses = Variables::X | Variables::Y | Variables::M | Variables::T;
    Setup { m: Interval::new(1.0, 6.0), t: Interval::new(0.0, 1.0), ..Setup::new(8, 8, uses) }
}

fn undecided(chart: &mut Chart, steps: usize) {
    for _ in 0..steps {
        let children = chart.children().unwrap().len();
        chart.step(&vec![0x40; children]).unwrap();
    }
}

/// Record but ring and head, queue, cells, picture, counts and children.
fn assert_same_but_for_the_ring(a: &Chart, b: &Chart) {
    let (mut a, mut b) = (a.clone(), b.clone());
    a.grow(5000).unwrap();
    b.grow(5000).unwrap();
    assert_eq!(a.save(), b.save());
    assert_eq!((a.picture(), a.counts()), (b.picture(), b.counts()));
    assert_eq!(a.children().unwrap()[..], b.children().unwrap()[..]);
}

/// The setup's bytes, and for each step 27 without parameters, 50 + 18 u with u of them.
#[test]
fn enough() {
    let setup = plane();
    assert_eq!((setup.least_ring(), setup.enough_ring(0), setup.enough_ring(700)), (Ok(5), Ok(5), Ok(5 + 700 * 27)));
    assert_eq!(setup.enough_ring(u32::MAX), Ok(5 + 27 * u32::MAX as usize));
    assert_eq!(mixes().enough_ring(700), mixes().least_ring().map(|least| least + 700 * 86));
    assert_eq!(Setup::new(0, 1, Variables::X).enough_ring(1), Err(Refusal::Side));
    assert_eq!(Setup::new(1, 1, Variables(64)).enough_ring(1), Err(Refusal::Parameter));
    for setup in [plane(), mixes()] {
        let mut chart = Chart::for_steps(&setup, 200).unwrap();
        assert_eq!(Ok(chart.ring_use().1), setup.enough_ring(200));
        undecided(&mut chart, 200);
    }
}

#[test]
fn no_memory() {
    let bytes = 1 << 62;
    let why = Refusal::NoMemory { bytes };
    assert_eq!(Chart::new(&plane(), bytes as usize).err(), Some(why));
    assert_eq!((why.number(), why.to_string()), (6, format!("refused 6: there is no memory for {bytes} bytes")));
    let mut chart = Chart::new(&plane(), 64).unwrap();
    let before = chart.save();
    assert_eq!(chart.grow(bytes as usize), Err(why));
    assert_eq!(chart.grow(usize::MAX), Err(Refusal::NoMemory { bytes: u64::MAX }));
    assert_eq!(chart.save(), before);
}

/// A chart that was grown twice is one that was begun with the long ring.
#[test]
fn grown_twice() {
    for (setup, first, steps) in [(plane(), 40, [2, 10, 60]), (mixes(), 1000, [5, 5, 30])] {
        let (mut long, mut grown) = (Chart::new(&setup, 4000).unwrap(), Chart::new(&setup, first).unwrap());
        for (ring, count) in [first, 2000, 4000].into_iter().zip(steps) {
            grown.grow(ring).unwrap();
            undecided(&mut long, count);
            undecided(&mut grown, count);
            assert_same_but_for_the_ring(&long, &grown);
        }
        assert_eq!((grown.ring_use(), grown.save()), (long.ring_use(), long.save()));
    }
}

/// The queue stands around the end of its ring, and then at the front of one that is just long enough.
#[test]
fn a_shorter_ring() {
    let mut chart = Chart::new(&Setup::new(4, 4, Variables::X | Variables::Y), 41).unwrap();
    undecided(&mut chart, 2);
    assert_eq!(chart.ring_use(), (35, 41));
    let (whole, before) = (chart.clone(), chart.save());
    for ring in [34, 0] {
        assert_eq!(chart.grow(ring), Err(Refusal::Room));
        assert_eq!(chart.save(), before);
    }
    chart.grow(35).unwrap();
    assert_eq!(chart.ring_use(), (35, 35));
    assert_same_but_for_the_ring(&chart, &whole);
}

#[test]
fn an_empty_queue() {
    let mut chart = Chart::new(&Setup::new(2, 1, Variables::X | Variables::Y), 64).unwrap();
    chart.step(&[0x80, 0]).unwrap();
    assert_eq!(chart.grow(0), Err(Refusal::Room));
    chart.grow(1).unwrap();
    assert_eq!((chart.ring_use(), chart.picture().unwrap().bytes()), ((0, 1), &[2, 0][..]));
}

#[test]
fn lent_rings() {
    let (mut first, mut second, mut cells) = ([7; 40], [7; 4000], [0; 256]);
    let mut lent = Chart::lent(&plane(), &mut first, &mut cells).unwrap();
    let mut own = Chart::new(&plane(), 4000).unwrap();
    lent.run(&[0x40; 8], 2).unwrap();
    undecided(&mut own, 2);
    lent.grow_into(&mut second).unwrap();
    lent.run(&[0x40; 80], 20).unwrap();
    undecided(&mut own, 20);
    assert_eq!(lent.save(), own.save());
    let mut third = [7; 40];
    assert_eq!(lent.grow_into(&mut third), Err(Refusal::Room));
    assert_eq!(lent.save(), own.save());
}

/// No child is asked about twice.
#[test]
fn steps_grow() {
    let mut grows = Chart::new(&plane(), 5).unwrap().growing();
    let mut long = Chart::new(&plane(), 4000).unwrap();
    let mut asked = 0;
    for _ in 0..100 {
        let evaluator = |_: &_| {
            asked += 1;
            Verdict::UNDECIDED
        };
        grows.step_with(evaluator).unwrap();
        long.step_with(|_| Verdict::UNDECIDED).unwrap();
    }
    assert_same_but_for_the_ring(&grows, &long);
    assert_eq!((asked, grows.ring_use().1), (400, 5 << 9));
}

#[test]
fn runs_grow() {
    let mut grows = Chart::new(&plane(), 5).unwrap().growing();
    let mut long = Chart::new(&plane(), 4000).unwrap();
    let tape = [0x40, 0x40, 0, 0x40, 0x80, 0x40, 0x40].repeat(60);
    for (count, budget) in [(420, 90), (10, 90), (0, 0)] {
        assert_eq!(grows.run(&tape[..count], budget), long.run(&tape[..count], budget));
    }
    assert_eq!((grows.steps(), grows.ring_use().1), (92, 1280));
    assert_same_but_for_the_ring(&grows, &long);
}

#[test]
fn only_if_asked() {
    let mut chart = Chart::new(&plane(), 5).unwrap();
    assert_eq!(chart.step(&[0x40; 4]), Err(Refusal::Room));
    assert_eq!(chart.run(&[0x40; 4], 1).unwrap().ending, Ending::Stop(Refusal::Room));
    let run = chart.growing().run(&[0x40; 4], 1);
    assert_eq!(run, Ok(Run { ending: Ending::More, steps: 1, evaluations: 4, tape: 4 }));
}
