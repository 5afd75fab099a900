//! Points on the rims of outlines and of holes.

use super::case::Case;
use super::lent;
use super::random::on_grid;
use crate::contours::asked;
use crate::contours::tiny::square;
use crate::point::{whole, Point, LIMIT};
use crate::rng::Rng;
use crate::sets::flat::Set;
use crate::shapes::at_ends;

const PLATE: &[Point] = &[[0, 0], [6, 0], [6, 6], [0, 6]];
const HOLE: &[Point] = &[[2, 2], [2, 4], [4, 4], [4, 2]];
const OTHER_WAY: &[Point] = &[[2, 2], [4, 2], [4, 4], [2, 4]];
const WITHIN: &[Point] = &[[3, 2], [4, 3], [3, 4], [2, 3]];
const BESIDE: &[Point] = &[[4, 2], [5, 2], [5, 4], [4, 4]];
const AT_THE_EDGE: &[Point] = &[[0, 2], [2, 2], [2, 4], [0, 4]];
const ROUND_THE_EDGE: &[Point] = &[[-1, 2], [2, 2], [2, 4], [-1, 4]];
const DIAMOND: &[Point] = &[[3, 0], [6, 3], [3, 6], [0, 3]];
const SLIT: &[Point] = &[[1, 3], [5, 3]];
const SPIKED: &[Point] = &[[2, 2], [2, 4], [4, 4], [4, 6], [4, 2]];
const DOT: &[Point] = &[[3, 3]];
const NONE: &[Point] = &[];

/// Shapes with a hole, with holes in a hole, beside it, at the outline and across it, twice the same, slits and single
/// points, and outlines that have no inside: each asked about every point in and around it.
pub fn scans() -> Vec<Case> {
    const SHAPES: &[&[&[Point]]] = &[
        &[PLATE, HOLE],
        &[PLATE, OTHER_WAY, WITHIN],
        &[PLATE, HOLE, BESIDE],
        &[PLATE, AT_THE_EDGE],
        &[PLATE, NONE, ROUND_THE_EDGE],
        &[PLATE, HOLE, HOLE],
        &[PLATE, SLIT, DOT, SPIKED],
        &[DIAMOND, HOLE],
        &[SLIT, DOT],
        &[DOT, SLIT, HOLE],
        &[SPIKED, SPIKED],
    ];
    let mut cases = vec![];
    for shape in SHAPES {
        let contours = shape.iter().map(|contour| contour.to_vec());
        let set = Set::of(&[contours.collect()]);
        let points = square(-1, 7, 1);
        cases.extend(points.into_iter().map(|point| lent::asked(point, &set)));
    }
    cases
}

/// Sets of up to a few contours on three by three, asked about a point of that grid.
pub fn small() -> Vec<Case> {
    let rng = &mut Rng::new(631);
    (0..200).map(|_| on_three_by_three(rng)).collect()
}

pub fn on_three_by_three(rng: &mut Rng) -> Case {
    let set = on_grid(1, rng);
    lent::asked(rng.point(1), &set)
}

pub fn at_the_ends() -> Vec<Case> {
    let rng = &mut Rng::new(632);
    (0..200).map(|_| at_an_end(rng)).collect()
}

/// An outline that is often the whole grid, and up to three holes with their points at its ends, asked about a point
/// with something to tell of one of them.
pub fn at_an_end(rng: &mut Rng) -> Case {
    let mut shape = vec![match rng.below(3) {
        0 => at_ends(rng.between(0, 6) as usize, LIMIT, rng),
        _ => whole(LIMIT).to_vec(),
    }];
    for _ in 0..rng.below(4) {
        shape.push(at_ends(rng.between(0, 6) as usize, LIMIT, rng));
    }
    let of = rng.below(shape.len());
    let point = asked::about(&shape[of], rng);
    lent::asked(point, &Set::of(&[shape]))
}

#[cfg(test)]
mod tests {
    use super::{at_the_ends, scans, small};
    use crate::cleaning::case::Kind;
    use crate::cleaning::{off_every_boundary, Verdicts};

    #[test]
    fn off_every_boundary_a_shape_has_the_point_as_by_the_originals_contains() {
        let (mut on, mut off) = (0, 0);
        for case in [scans(), small(), at_the_ends()].concat() {
            let Kind::Asked { asked } = case.kind else {
                panic!("{case}")
            };
            match off_every_boundary(&case.of.to_contours(), asked) {
                None => on += 1,
                Some(has) => {
                    off += 1;
                    assert_eq!(Verdicts::new(asked, &case.of).in_shape, Ok(has), "{case}");
                }
            }
        }
        assert!(on > 400 && off > 400, "{on} {off}");
    }
}
