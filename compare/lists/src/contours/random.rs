//! Random contours of every form, most of them of up to twelve points.

use crate::contours::asked;
use crate::contours::case::Case;
use crate::point::{Point, LIMIT};
use crate::rng::Rng;
use crate::shapes::{
    at_ends, convex, flat, laps, pentagram, scattered, star, turned, with_dent, with_repeats,
    with_spike, with_straight_runs,
};

type Kind = fn(&mut Rng) -> Vec<Point>;

/// How many contours of each kind.
const KINDS: [(usize, Kind); 15] = [
    (700, crowded),
    (300, wide),
    (300, repeated),
    (150, repeated_convex),
    (300, spiked),
    (150, spiked_convex),
    (200, straight),
    (150, straight_convex),
    (400, either_way_convex),
    (200, dented_convex),
    (200, small_star),
    (150, small_pentagram),
    (200, on_a_line),
    (400, on_the_ends),
    (60, wrapping),
];

pub fn cases() -> Vec<Case> {
    let mut cases = vec![];
    for ((count, kind), seed) in KINDS.into_iter().zip(1..) {
        let rng = &mut Rng::new(seed);
        for _ in 0..count {
            let contour = kind(rng);
            cases.push(Case::contour(asked::about(&contour, rng), &contour));
        }
    }
    cases
}

/// A contour of any kind.
pub fn any(rng: &mut Rng) -> Vec<Point> {
    rng.pick(&KINDS).1(rng)
}

/// A count of points from `low` to 12.
fn up_to_twelve(low: i32, rng: &mut Rng) -> usize {
    rng.between(low, 12) as usize
}

/// So few places that points repeat, edges overlap and turns vanish.
fn crowded(rng: &mut Rng) -> Vec<Point> {
    scattered(up_to_twelve(0, rng), rng.pick(&[1, 1, 2, 3]), rng)
}

/// Points far apart, up to the ends of the grid.
fn wide(rng: &mut Rng) -> Vec<Point> {
    let reach = rng.pick(&[8, 100, 65_536, LIMIT]);
    scattered(up_to_twelve(0, rng), reach, rng)
}

/// Points that come several times in a row, across the closing edge too.
fn repeated(rng: &mut Rng) -> Vec<Point> {
    let corners = scattered(rng.below(7), rng.pick(&[1, 2, 4]), rng);
    turned(with_repeats(&corners, rng), rng)
}

/// The same on a convex polygon, which stays convex.
fn repeated_convex(rng: &mut Rng) -> Vec<Point> {
    let corners = either_way_convex(rng);
    turned(with_repeats(&corners, rng), rng)
}

/// One or two edges that reverse.
fn spiked(rng: &mut Rng) -> Vec<Point> {
    let corners = scattered(up_to_twelve(1, rng), 4, rng);
    let once = with_spike(&corners, rng);
    turned(with_spike(&once, rng), rng)
}

/// A convex polygon with one edge that reverses.
fn spiked_convex(rng: &mut Rng) -> Vec<Point> {
    let corners = convex(up_to_twelve(3, rng), 3, rng);
    turned(with_spike(&corners, rng), rng)
}

/// Corners that go straight on.
fn straight(rng: &mut Rng) -> Vec<Point> {
    let corners = scattered(up_to_twelve(1, rng), 3, rng);
    turned(with_straight_runs(&corners, rng), rng)
}

/// The same on a convex polygon, which stays convex.
fn straight_convex(rng: &mut Rng) -> Vec<Point> {
    let corners = convex(up_to_twelve(3, rng), 3, rng);
    turned(with_straight_runs(&corners, rng), rng)
}

/// Convex polygons of every size, both ways round.
fn either_way_convex(rng: &mut Rng) -> Vec<Point> {
    let stride = rng.pick(&[1, 2, 8, 1000, LIMIT / 32]);
    turned(convex(up_to_twelve(3, rng), stride, rng), rng)
}

/// Convex polygons with one point a little off, so that some just fail.
fn dented_convex(rng: &mut Rng) -> Vec<Point> {
    let corners = convex(up_to_twelve(3, rng), rng.pick(&[1, 2, 8, 1000]), rng);
    turned(with_dent(corners, rng), rng)
}

/// Stars, both ways round.
fn small_star(rng: &mut Rng) -> Vec<Point> {
    let reach = rng.pick(&[4, 100, LIMIT]);
    turned(star(up_to_twelve(3, rng), reach, rng), rng)
}

/// Polygons that go twice round, both ways.
fn small_pentagram(rng: &mut Rng) -> Vec<Point> {
    let stride = rng.pick(&[2, 8, 1000, LIMIT / 32]);
    turned(pentagram(up_to_twelve(5, rng), stride, rng), rng)
}

/// All points on one line.
fn on_a_line(rng: &mut Rng) -> Vec<Point> {
    flat(up_to_twelve(1, rng), rng)
}

/// Coordinates at both ends of the grid and around 0.
fn on_the_ends(rng: &mut Rng) -> Vec<Point> {
    at_ends(up_to_twelve(1, rng), LIMIT, rng)
}

/// Laps around the grid: from two on the area wraps.
fn wrapping(rng: &mut Rng) -> Vec<Point> {
    let count = rng.between(3, 20) as usize;
    turned(laps(count, rng), rng)
}
