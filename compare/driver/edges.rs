//! What the port is asked at the edges of its interface: before a setup, and where a leaf refuses. What is due is worked
//! out here, from document 01; the original refuses none of these.

use crate::{
    abi,
    blocks::is_used,
    calls::*,
    document::DocumentMaker,
    engine::*,
    exact::is_legal,
    port::{asked, PortMaker},
    random::Random,
    setups::{parameter, random_setup},
};

/// How many questions were asked, how often a refusal was due, and what came out otherwise.
#[derive(Default)]
pub struct Edges {
    pub questions: u64,
    pub refusals: u64,
    pub differences: Vec<String>,
}

impl Edges {
    fn is(&mut self, what: &str, got: u64, due: u64, input: &dyn std::fmt::Debug) {
        self.questions += 1;
        if got != due {
            self.differences.push(format!("{what}: got {got}, due {due}, asked {input:?}"));
        }
    }

    /// A refusal, or 0.
    fn refuses(&mut self, what: &str, got: u64, due: u64, input: &dyn std::fmt::Debug) {
        self.refusals += (due != 0) as u64;
        self.is(what, got, due, input);
    }
}

pub fn ask(seed: u64, count: u64) -> Edges {
    let mut random = Random::new(seed);
    let mut edges = Edges::default();
    for _ in 0..count {
        sizes(&mut random, &mut edges);
        intervals(&mut random, &mut edges);
        small_numbers(&mut random, &mut edges);
        coordinates(&mut random, &mut edges);
    }
    edges
}

fn interval((lower, upper): Bounds) -> abi::Interval {
    abi::Interval { lower, upper }
}

/// A pair of bounds that may be anything.
fn any_bounds(random: &mut Random) -> Bounds {
    let odd = [f64::NAN, f64::INFINITY, f64::NEG_INFINITY, -0.0, 0.5];
    let (a, b) = parameter(random, false);
    match random.below(6) {
        0 => (b, a),
        1 => (random.pick(&odd), b),
        2 => (a, random.pick(&odd)),
        3 => (random.pick(&odd), random.pick(&odd)),
        _ => (a, b),
    }
}

fn sizes(random: &mut Random, edges: &mut Edges) {
    let mut setup = random_setup(random);
    if random.once_in(4) {
        setup.set = random.next() as u8;
    }
    if random.once_in(4) {
        setup.parameters[random.below(4) as usize] = any_bounds(random);
    }
    if random.once_in(8) {
        setup.width = random.pick(&[0, 1, 32768, 32769, u32::MAX]);
    }
    let Setup { width, height, set, parameters, .. } = setup;
    let sides = [width, height].iter().all(|side| (1..=32768).contains(side));
    let cells = unsafe { smyrilox_cells(width, height) };
    edges.refuses("cells, refusal", cells.refusal, !sides as u64, &setup);
    edges.is("cells", cells.value, if sides { width as u64 * height as u64 } else { 0 }, &setup);

    let (chosen, ranges) = asked(&setup);
    let got = unsafe { smyrilox_least_ring(chosen, ranges) };
    let legal = set < 64 && (0..4).all(|i| !is_used(set, i) || is_legal(parameters[i], i < 3));
    let due = if !sides {
        1
    } else if !legal {
        3
    } else {
        0
    };
    edges.refuses("least ring, refusal", got.refusal, due, &setup);
    let small = Setup::new(width.min(9), height.min(9), set, parameters);
    let ring = |len| DocumentMaker.setup(&small, vec![0; len], vec![0; 81]).map_or(0, |made| made.record().used as u64);
    let bytes = if due == 0 { ring(6723) } else { 0 };
    edges.is("least ring", got.value, bytes, &setup);
    if due == 0 && width * height < 1000 {
        let port = |len| PortMaker.setup(&setup, vec![0; len], vec![0; 1000]).err().unwrap_or(0) as u64;
        edges.refuses("a setup with the least ring", port(got.value as usize), 0, &setup);
        edges.refuses("a setup with one byte less", port(got.value as usize - 1), 6, &setup);
    }
}

fn intervals(random: &mut Random, edges: &mut Edges) {
    let (x, integer) = (any_bounds(random), random.once_in(2));
    let due = |integer| if is_legal(x, integer) { 0 } else { 3 };
    let (real, own) = (due(false), due(integer));
    let i = interval(x);
    unsafe {
        edges.refuses("midpoint", smyrilox_midpoint(i).refusal, real, &x);
        edges.refuses("simple_fraction", smyrilox_simple_fraction(i).refusal, real, &x);
        edges.refuses("subdivision_point", smyrilox_subdivision_point(i, integer).refusal, own, &x);
        edges.refuses("is_subdivisible", smyrilox_is_subdivisible(i, integer).refusal, own, &x);
        edges.refuses("first_cut", smyrilox_first_cut(i, integer).refusal, own, &x);
        edges.refuses("later_cut", smyrilox_later_cut(i, integer).refusal, own, &x);
    }
}

fn small_numbers(random: &mut Random, edges: &mut Edges) {
    let x = random.of_bits(64);
    let got = unsafe { smyrilox_write_small(x) };
    edges.refuses("write_small", got.refusal, if x >> 56 > 0 { 9 } else { 0 }, &x);
    let mut bytes: Vec<u8> = (0..random.below(10)).map(|_| random.next() as u8).collect();
    if let (true, Some(head)) = (random.once_in(2), bytes.first_mut()) {
        *head = random.pick(&[0, 1, 2, 64, 128, 192]);
    }
    let due = match bytes.first() {
        None => 10,
        Some(0) => 11,
        Some(head) if bytes.len() < 1 + head.trailing_zeros() as usize => 10,
        Some(_) => 0,
    };
    edges.refuses("read_small", unsafe { smyrilox_read_small(bytes.as_ptr(), bytes.len()) }.refusal, due, &bytes);
}

fn coordinates(random: &mut Random, edges: &mut Edges) {
    let index = match random.below(3) {
        0 => random.of_bits(64),
        1 => random.of_bits(47),
        _ => (1 << random.pick(&[45, 46, 47])) - 1 + random.below(2),
    };
    let level = match random.below(3) {
        0 => random.pick(&[i32::MIN, -257, -49, -48, -33, -32, -31, -1, 0, 15, 16, 207, 208, 255, i32::MAX]),
        1 => random.next() as i32,
        _ => random.below(48) as i32 - 32,
    };
    let c = abi::Coordinate { index, level };
    let legal = |index: u64, level: i32| index >> 47 == 0 && (-32..=15).contains(&level);
    let due = if legal(index, level) { 0 } else { 8 };
    let halves = if legal(index, level) && legal(2 * index + 1, level - 1) { 0 } else { 8 };
    unsafe {
        edges.refuses("pixel_index", smyrilox_pixel_index(c).refusal, due, &(index, level));
        edges.refuses("is_halvable", smyrilox_is_halvable(c).refusal, due, &(index, level));
        edges.refuses("halves", smyrilox_halves(c).refusal, halves, &(index, level));
    }
}
