//! The points asked about.

use crate::contours::case::Case;
use crate::point::{minus, onto_grid, plus, steps, times, Point, LIMIT};
use crate::rng::Rng;
use std::ops::RangeInclusive;

/// Contours with level edges, corners at one height and crossings, each asked about
/// every point of its box and of the frame around it.
pub fn scans() -> Vec<Case> {
    const PLUS: &[Point] = &[
        [2, 0],
        [4, 0],
        [4, 2],
        [6, 2],
        [6, 4],
        [4, 4],
        [4, 6],
        [2, 6],
        [2, 4],
        [0, 4],
        [0, 2],
        [2, 2],
    ];
    const ZIGZAG: &[Point] = &[[0, 0], [2, 4], [4, 0], [6, 4], [8, 0], [8, 6], [0, 6]];
    const DIAMOND: &[Point] = &[[3, 0], [6, 3], [3, 6], [0, 3]];
    const BOW: &[Point] = &[[0, 0], [6, 6], [6, 0], [0, 6]];
    const OVERLAP: &[Point] = &[
        [0, 0],
        [5, 0],
        [5, 3],
        [2, 3],
        [2, 0],
        [7, 0],
        [7, 5],
        [0, 5],
    ];
    const FLAT: &[Point] = &[[0, 1], [5, 1], [2, 1], [3, 1]];
    const PENTAGRAM: &[Point] = &[[0, 10], [6, -8], [-10, 3], [10, 3], [-6, -8]];

    let mut cases = vec![];
    for contour in [PLUS, ZIGZAG, DIAMOND, BOW, OVERLAP, FLAT, PENTAGRAM] {
        for y in span(contour, 1) {
            for x in span(contour, 0) {
                cases.push(Case::contour([x, y], contour));
            }
        }
    }
    cases
}

/// A point with something to tell about the contour: one of its points, one on or
/// beside an edge, one level with a corner, a corner of the grid, or any point of the
/// contour's box and the frame around it.
pub fn about(contour: &[Point], rng: &mut Rng) -> Point {
    if contour.is_empty() {
        return rng.point(1);
    }
    let corner = rng.pick(contour);
    let beside = |point: Point, rng: &mut Rng| plus(point, rng.point(1));
    let point = match rng.below(12) {
        0 => corner,
        1 => beside(corner, rng),
        2 | 3 => on_edge(contour, rng),
        4 => beside(on_edge(contour, rng), rng),
        5 => near_edge(contour, rng),
        6 | 7 => [within(span(contour, 0), rng), corner[1]],
        8 => [LIMIT, -LIMIT].map(|end| if rng.below(2) == 0 { end } else { -end }),
        _ => [0, 1].map(|axis| within(span(contour, axis), rng)),
    };
    onto_grid(point)
}

fn edge(contour: &[Point], rng: &mut Rng) -> (Point, Point) {
    let place = rng.below(contour.len());
    (contour[place], contour[(place + 1) % contour.len()])
}

/// A grid point of an edge, its ends included.
fn on_edge(contour: &[Point], rng: &mut Rng) -> Point {
    let (a, b) = edge(contour, rng);
    let (step, count) = steps(a, b);
    plus(a, times(rng.between(0, count), step))
}

/// A point less than one step away from an edge.
fn near_edge(contour: &[Point], rng: &mut Rng) -> Point {
    let (a, b) = edge(contour, rng);
    let part = rng.between(1, 1000);
    let along = |number: i32| (i64::from(number) * i64::from(part) / 1000) as i32;
    plus(a, minus(b, a).map(along))
}

/// The numbers that the contour's box and the frame around it have on an axis.
fn span(contour: &[Point], axis: usize) -> RangeInclusive<i32> {
    let numbers = || contour.iter().map(|point| point[axis]);
    let low = numbers().min().expect("a point");
    let high = numbers().max().expect("a point");
    low - 1..=high + 1
}

fn within(span: RangeInclusive<i32>, rng: &mut Rng) -> i32 {
    rng.between(*span.start(), *span.end())
}
