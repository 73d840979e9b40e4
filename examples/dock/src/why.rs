//! One pixel of each kind that a chart has, with the reason why it reads what it reads.

use smyrilox::{Chart, NotExplained, Reason, Refusal};

/// A pixel, and why it reads what it reads.
pub struct Explained {
    pub column: u32,
    pub row: u32,
    pub reason: Reason,
}

/// The first pixel of each kind, rows from the top. The chart keeps its verdicts, so that nothing else is needed.
pub fn one_of_each_kind(chart: &Chart) -> Result<Vec<Explained>, NotExplained> {
    let looks = looks(chart).map_err(NotExplained::Refused)?;
    let mut kinds: Vec<usize> = looks.clone();
    kinds.sort_unstable();
    kinds.dedup();
    let first = |kind| looks.iter().position(|look| *look == kind).unwrap_or(0) as u32;
    let width = chart.size().0;
    let explain = |place: u32| {
        let (column, row) = (place % width, place / width);
        chart.why(column, row).map(|reason| Explained {
            column,
            row,
            reason,
        })
    };
    kinds.into_iter().map(|kind| explain(first(kind))).collect()
}

/// What each pixel looks like: 0 white, 1 a grey that waits, 2 a grey that is given up, 3 black.
fn looks(chart: &Chart) -> Result<Vec<usize>, Refusal> {
    let picture = chart.picture()?;
    let look = |(byte, grey): (&u8, &Option<smyrilox::Grey>)| match (grey, byte) {
        (Some(smyrilox::Grey::Waits), _) => 1,
        (Some(smyrilox::Grey::GivenUp), _) => 2,
        (None, 0) => 0,
        (None, _) => 3,
    };
    Ok(picture
        .bytes()
        .iter()
        .zip(&chart.greys()?)
        .map(look)
        .collect())
}
