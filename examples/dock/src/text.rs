//! A chart as the program prints it, with its title and axes in front: what `examples/picture` makes a picture of.

use crate::relations::{Relation, HEIGHT, PER_UNIT, WIDTH};
use smyrilox::{Chart, Refusal};

/// Of a chart whose steps cost so many evaluations.
pub fn text(relation: &Relation, chart: &Chart, evaluations: u64) -> Result<String, Refusal> {
    let c = chart.counts()?;
    let ending = match (chart.is_finished(), c.given_up) {
        (false, _) => "more",
        (true, 0) => "done",
        (true, _) => "limit",
    };
    let mut out = format!(
        "title {}\nx 0 {} arrivals (trailers an hour)\ny 0 {} crew (people at the dock)\n",
        relation.title,
        WIDTH / PER_UNIT,
        HEIGHT / PER_UNIT
    );
    out += &format!(
        "size {WIDTH} {HEIGHT} steps {} evals {evaluations} {ending}\n",
        chart.steps()
    );
    out += &format!(
        "true {} false {} uncertain {} givenup {} queued {} share {}\n",
        c.yes, c.no, c.uncertain, c.given_up, c.queued, c.share
    );
    for row in chart.picture()?.rows() {
        out.extend(row.iter().map(|byte| ['.', '?', '#'][*byte as usize]));
        out.push('\n');
    }
    Ok(out)
}
