//! The clock, and the rounds of a measurement.

#[repr(C)]
struct Time {
    seconds: i64,
    nanoseconds: i64,
}

extern "C" {
    fn clock_gettime(clock: i32, time: *mut Time) -> i32;
}

/// The processor's time of this thread, in seconds: others who use the machine count little.
fn now() -> f64 {
    const THREAD: i32 = 3;
    let mut time = Time { seconds: 0, nanoseconds: 0 };
    unsafe { clock_gettime(THREAD, &mut time) };
    time.seconds as f64 + time.nanoseconds as f64 * 1e-9
}

pub fn timed<T>(task: impl FnOnce() -> T) -> (f64, T) {
    let start = now();
    let made = task();
    (now() - start, made)
}

/// With three digits or more.
pub fn milliseconds(seconds: f64) -> String {
    let digits = if seconds < 1e-3 { 3 } else { 1 };
    format!("{:.digits$} ms", seconds * 1e3)
}

/// Medians and the spread of the ratio, over rounds in which the one that goes first alternates: the port beside the Rust, or the
/// port with a table beside the port without one.
pub struct Measured {
    port: Vec<f64>,
    rust: Vec<f64>,
}

impl Measured {
    pub fn rounds(count: usize, mut port: impl FnMut() -> f64, mut rust: impl FnMut() -> f64) -> Measured {
        let mut measured = Measured { port: vec![], rust: vec![] };
        for round in 0..count {
            if round % 2 == 0 {
                measured.port.push(port());
                measured.rust.push(rust());
            } else {
                measured.rust.push(rust());
                measured.port.push(port());
            }
        }
        measured
    }

    fn median(values: &[f64]) -> f64 {
        let mut sorted = values.to_vec();
        sorted.sort_by(f64::total_cmp);
        sorted[sorted.len() / 2]
    }

    fn least(values: &[f64]) -> f64 {
        values.iter().copied().fold(f64::INFINITY, f64::min)
    }

    /// The ratio of the least times, which others on the machine disturb least.
    fn ratio(&self) -> f64 {
        Self::least(&self.port) / Self::least(&self.rust)
    }

    /// How much longer the first takes, of the least times.
    pub fn difference(&self) -> f64 {
        Self::least(&self.port) - Self::least(&self.rust)
    }

    pub fn row(&self, name: &str, what: String) {
        println!("| {name} | {what} | {} |", self.columns());
    }

    /// Both least times, their ratio, and the ratio by rounds.
    pub fn columns(&self) -> String {
        let ratios: Vec<f64> = self.port.iter().zip(&self.rust).map(|(p, r)| p / r).collect();
        format!(
            "{} | {} | {:.2} | {:.2} ({:.2} to {:.2})",
            milliseconds(Self::least(&self.port)),
            milliseconds(Self::least(&self.rust)),
            self.ratio(),
            Self::median(&ratios),
            Self::least(&ratios),
            ratios.iter().copied().fold(0.0, f64::max)
        )
    }

    /// Steps a second of both, and the ratio of their times.
    pub fn speeds(&self, steps: u64) -> String {
        let speed = |values: &[f64]| steps as f64 / Self::least(values);
        format!("{:.0} | {:.0} | {:.2}", speed(&self.port), speed(&self.rust), self.ratio())
    }
}
