//! The charts against brute force in exact fractions: no white pixel holds a solution.

use crate::exact::Fraction;
use crate::relations::{Asked, Relation, HEIGHT, PER_UNIT, WIDTH};
use smyrilox::{Picture, Reading, Table};

/// Points along a pixel's side, both of its edges among them.
const FINE: i128 = 4;

/// How many solutions were tried, and how many of them lie in a white pixel.
pub struct Tried {
    pub solutions: u64,
    pub in_white: u64,
}

pub fn against_grid(relation: &Relation, picture: &Picture) -> Tried {
    let mut tried = Tried {
        solutions: 0,
        in_white: 0,
    };
    for x in 0..=WIDTH as i128 * FINE {
        let a = Fraction::new(x, FINE * PER_UNIT as i128);
        for c in crews(relation, a) {
            if solves(relation, a, c) {
                note(&mut tried, picture, a, c);
            }
        }
    }
    tried
}

/// The crews to try at a: the fine grid; of the curve, the one that solves it.
fn crews(relation: &Relation, a: Fraction) -> Vec<Fraction> {
    if relation.asked == Asked::AtLeastZero {
        return (0..=HEIGHT as i128 * FINE)
            .map(|y| Fraction::new(y, FINE * PER_UNIT as i128))
            .collect();
    }
    if a.sign() == 0 {
        return vec![];
    }
    let c = Fraction::new(480, 1).divided_by(a) - Fraction::new(8, 1);
    let inside = c.sign() >= 0 && (Fraction::new((HEIGHT / PER_UNIT) as i128, 1) - c).sign() >= 0;
    inside.then_some(c).into_iter().collect()
}

fn solves(relation: &Relation, a: Fraction, c: Fraction) -> bool {
    let (low, high) = relation.doors.unwrap_or((0, 0));
    (low..=high).any(|m| relation.holds((relation.exact)(a, c, m as i128)))
}

/// Pixels are closed: a point on an edge lies in every pixel beside it.
fn note(tried: &mut Tried, picture: &Picture, a: Fraction, c: Fraction) {
    tried.solutions += 1;
    let scale = Fraction::new(PER_UNIT as i128, 1);
    for x in (a * scale).unit_cells() {
        for y in (c * scale).unit_cells() {
            let inside = (0..WIDTH as i128).contains(&x) && (0..HEIGHT as i128).contains(&y);
            if inside
                && picture.reading(x as usize, (HEIGHT as i128 - 1 - y) as usize) == Reading::False
            {
                tried.in_white += 1;
            }
        }
    }
}

/// A square of the thumbnail is white exactly if all pixels of its tile are, and black exactly if all of them are.
pub fn is_thumbnail_of(table: &Table, picture: &Picture) -> bool {
    let shades = table.thumbnail();
    shades.iter().enumerate().all(|(place, shade)| {
        let (x, y) = (
            16 * (place % table.columns()),
            16 * (place / table.columns()),
        );
        let (right, bottom) = (picture.width().min(x + 16), picture.height().min(y + 16));
        let all = |reading| {
            (y..bottom).all(|row| (x..right).all(|column| picture.reading(column, row) == reading))
        };
        (*shade == 255) == all(Reading::False) && (*shade == 0) == all(Reading::True)
    })
}
