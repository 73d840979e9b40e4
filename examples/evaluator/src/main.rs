//! An evaluator in full, the same as evaluator.py: with 1 to 9 doors open, can a crew serve the arrivals of an hour?
//! A door takes 12 trailers an hour and 3 people; two people unload 7 trailers.

use smyrilox::{
    leaves, Block, Chart, Edges, Ending, Interval, Plot, Refusal, Run, Setup, Variables, Verdict,
};

/// Pixels, and what the right and the upper edge stand for; the left and the lower stand for 0.
const WIDTH: u32 = 60;
const HEIGHT: u32 = 40;
const ARRIVALS: f64 = 110.0;
const CREW: f64 = 29.0;
const DOORS: Interval = Interval::new(1.0, 9.0);
/// At most.
const STEPS: u32 = 5000;

/// What is to spare of doors, of people at them and of hands, the least of the three: bounds, rounded outward.
/// The mix works if it is not negative. Multiples of m are small whole numbers, and exact.
fn spare(a: Interval, c: Interval, m: Interval) -> Interval {
    let low = (12.0 * m.lower - a.upper)
        .min(c.lower - 3.0 * m.upper)
        .min((7.0 * c.lower).next_down() - (2.0 * a.upper).next_up());
    let high = (12.0 * m.upper - a.lower)
        .min(c.upper - 3.0 * m.lower)
        .min((7.0 * c.upper).next_up() - (2.0 * a.lower).next_down());
    Interval::new(low.next_down(), high.next_up())
}

/// The whole numbers that a block speaks of: those strictly between its ends, which have blocks of their own.
fn doors(m: Interval) -> Interval {
    if m.lower == m.upper {
        m
    } else {
        Interval::new(m.lower + 1.0, m.upper - 1.0)
    }
}

/// Judges the outer box, in which every point of the block lies. Without a box nothing is known.
fn verdict(plot: &Plot, block: &Block) -> Verdict {
    let (m, block_box) = match plot.block_box(block) {
        Ok(block_box) => (doors(block.m), block_box),
        Err(_) => return Verdict::UNDECIDED,
    };
    let (a, c) = block_box.outer();
    match spare(a, c, m) {
        known if known.upper < 0.0 => Verdict::NO,
        known if known.lower >= 0.0 => Verdict::yes_for(block),
        _ if block.level() < 0 => sampled(&block_box.edges, m),
        _ => Verdict::UNDECIDED,
    }
}

/// Tries five points of a part of a pixel with one number of doors: a simple one, then the corners from the bottom left.
/// A corner lies somewhere in two of the edges' intervals; it counts only if the mix works wherever that is.
fn sampled(edges: &Edges, m: Interval) -> Verdict {
    let points = [
        (
            simple(edges.left, edges.right),
            simple(edges.bottom, edges.top),
        ),
        (edges.left, edges.bottom),
        (edges.right, edges.bottom),
        (edges.left, edges.top),
        (edges.right, edges.top),
    ];
    let works = |&(a, c): &(Interval, Interval)| spare(a, c, m.lower.into()).lower >= 0.0;
    match points.iter().position(works) {
        Some(place) => Verdict::found_at(place as u32),
        None => Verdict::UNDECIDED.with_area(),
    }
}

/// A number with few bits that surely lies between two edges; where there is none, all that may lie between them.
fn simple(low: Interval, high: Interval) -> Interval {
    if low.upper > high.lower {
        return Interval::new(low.lower, high.upper);
    }
    let between = Interval::new(low.upper, high.lower);
    leaves::simple_fraction(between).expect("in order").into()
}

fn main() -> Result<(), Refusal> {
    let plane = Variables::X | Variables::Y;
    let setup = Setup {
        m: DOORS,
        ..Setup::new(WIDTH, HEIGHT, plane | Variables::M)
    };
    let plot = Plot::new(WIDTH, HEIGHT, Edges::new(0.0, ARRIVALS, 0.0, CREW));
    let mut chart = Chart::for_steps(&setup, STEPS)?;
    let run = chart.refine(|block| verdict(&plot, block), STEPS)?;
    print(&chart, &run)
}

/// As the program prints a chart, with its title and axes in front.
fn print(chart: &Chart, run: &Run) -> Result<(), Refusal> {
    let ending = match run.ending {
        Ending::Done => "done",
        Ending::Limit => "limit",
        Ending::More => "more",
        Ending::Stop(why) => return Err(why),
    };
    let n = chart.counts()?;
    println!("title some number of doors, 1 to 9, serves the hour");
    println!("x 0 {ARRIVALS} arrivals (trailers an hour)\ny 0 {CREW} crew (people)");
    println!(
        "size {WIDTH} {HEIGHT} steps {} evals {} {ending}",
        run.steps, run.evaluations
    );
    println!(
        "true {} false {} uncertain {} givenup {} queued {} share {}",
        n.yes, n.no, n.uncertain, n.given_up, n.queued, n.share
    );
    for row in chart.picture()?.rows() {
        println!(
            "{}",
            row.iter()
                .map(|byte| ['.', '?', '#'][*byte as usize])
                .collect::<String>()
        );
    }
    Ok(())
}
