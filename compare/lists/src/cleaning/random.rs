//! Random sets.

use super::case::Case;
use super::lent;
use crate::point::{Point, LIMIT};
use crate::rng::Rng;
use crate::sets::flat::Set;
use crate::sets::random;

/// Sets of up to four shapes, of up to four contours each, of up to eight points each, on
/// grids of three by three and of five by five.
pub fn small_grids() -> Vec<Case> {
    let mut sets = vec![];
    for (reach, seed) in [(1, 611), (2, 612)] {
        let rng = &mut Rng::new(seed);
        sets.extend((0..350).map(|_| on_grid(reach, rng)));
    }
    lent::asked_and_cleaned(&sets, 613)
}

pub fn on_grid(reach: i32, rng: &mut Rng) -> Set {
    let shapes: Vec<_> = (0..rng.below(5)).map(|_| shape(reach, rng)).collect();
    Set::of(&shapes)
}

fn shape(reach: i32, rng: &mut Rng) -> Vec<Vec<Point>> {
    (0..rng.below(5)).map(|_| contour(reach, rng)).collect()
}

/// From three points on at least two thirds of the time.
fn contour(reach: i32, rng: &mut Rng) -> Vec<Point> {
    let low = rng.pick(&[0, 3, 3]);
    (0..rng.between(low, 8)).map(|_| rng.point(reach)).collect()
}

/// Sets of contours of every form: empty, short, flat, spoilt, or polygons.
pub fn every_form() -> Vec<Case> {
    let rng = &mut Rng::new(614);
    let sets: Vec<Set> = (0..160).map(|_| random::set(LIMIT, rng)).collect();
    lent::asked_and_cleaned(&sets, 615)
}
