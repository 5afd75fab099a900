//! Every contour of a few points on a small grid.

use crate::contours::case::Case;
use crate::point::Point;

pub fn cases() -> Vec<Case> {
    [three_by_three(), two_by_two(), five_points()].concat()
}

/// All contours of up to three points on the grid 0, 1, 2, each asked about every
/// point of that grid and one around it.
fn three_by_three() -> Vec<Case> {
    let grid = square(0, 2, 1);
    let contours: Vec<_> = (0..=3).flat_map(|n| contours(&grid, n)).collect();
    [everywhere(&contours, &grid), in_turn(&contours, &ring(3))].concat()
}

/// All contours of four points on the corners of a square of side 2, each asked about
/// its corners, the middles of its sides, its centre and one point around it.
fn two_by_two() -> Vec<Case> {
    let contours = contours(&square(0, 2, 2), 4);
    [
        everywhere(&contours, &square(0, 2, 1)),
        in_turn(&contours, &ring(3)),
    ]
    .concat()
}

/// All contours of five points on the same corners, asked in turn about the points in
/// and around the square.
fn five_points() -> Vec<Case> {
    in_turn(&contours(&square(0, 2, 2), 5), &square(-1, 3, 1))
}

/// The points whose coordinates run from `low` to `high` in steps.
pub fn square(low: i32, high: i32, step: usize) -> Vec<Point> {
    let line = || (low..=high).step_by(step);
    line().flat_map(|y| line().map(move |x| [x, y])).collect()
}

/// The points around the square from 0 to `end` - 1.
pub fn ring(end: i32) -> Vec<Point> {
    let outside = |number| number == -1 || number == end;
    let mut points = square(-1, end, 1);
    points.retain(|&[x, y]| outside(x) || outside(y));
    points
}

/// All rows of `n` of the points.
pub fn contours(points: &[Point], n: usize) -> Vec<Vec<Point>> {
    if n == 0 {
        return vec![vec![]];
    }
    let mut rows = vec![];
    for shorter in contours(points, n - 1) {
        for &point in points {
            rows.push([&shorter[..], &[point]].concat());
        }
    }
    rows
}

pub fn everywhere(contours: &[Vec<Point>], asked: &[Point]) -> Vec<Case> {
    let mut cases = vec![];
    for contour in contours {
        cases.extend(asked.iter().map(|&point| Case::contour(point, contour)));
    }
    cases
}

pub fn in_turn(contours: &[Vec<Point>], asked: &[Point]) -> Vec<Case> {
    let pairs = contours.iter().zip(asked.iter().cycle());
    pairs.map(|(c, &p)| Case::contour(p, c)).collect()
}
