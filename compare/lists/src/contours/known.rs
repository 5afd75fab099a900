//! Cases that document 01 works out, or that a reading of it rests on.

use crate::contours::case::Case;
use crate::point::{whole, Point, LIMIT, NARROW};

const TRIANGLE: [Point; 3] = [[0, 0], [4, 0], [0, 4]];

/// Cases as the list writes them.
pub fn lines(lines: &[&str]) -> Vec<Case> {
    let read = |line: &&str| line.parse().expect("a sound line");
    lines.iter().map(read).collect()
}

/// W1 to W12, in order; W5 is W4's contour again, and W9 asks about four points.
pub fn worked() -> Vec<Case> {
    lines(&[
        "c 0 0",
        "c 1 0 0 0 1 0 2 0",
        "c 1 1 0 0 4 0 0 4",
        "c 2 2 0 0 2 0 4 0 4 4 0 4",
        "c 2 0 0 0 2 0 4 0 4 4 0 4",
        "c 4 6 0 0 4 0 4 4 4 8 4 4 0 4",
        "c 1 1 0 0 0 0 4 0 0 4",
        "c 0 0 0 10 6 -8 -10 3 10 3 -6 -8",
        "c 0 2 0 0 4 0 4 4 0 4",
        "c 2 0 0 0 4 0 4 4 0 4",
        "c 4 2 0 0 4 0 4 4 0 4",
        "c 2 4 0 0 4 0 4 4 0 4",
        "c 3 2 0 0 4 4 4 0 0 4",
        "c 0 0 0 0 0 1 1 0",
        "c 2 0 0 0 4 0 4 0",
    ])
}

/// The first numbers on and off the grid, those on and off the narrow one, and the ends of
/// i32: as either coordinate of each point of a triangle, of a lone point, and of the point
/// asked about.
pub fn limits() -> Vec<Case> {
    let ends = [LIMIT, LIMIT + 1, i32::MAX, -LIMIT, -LIMIT - 1, i32::MIN];
    let narrow = [NARROW, NARROW + 1, -NARROW, -NARROW - 1];
    let mut cases = vec![];
    for number in ends.into_iter().chain(narrow) {
        for axis in 0..2 {
            let mut asked = [1, 1];
            asked[axis] = number;
            cases.push(Case::contour(asked, &TRIANGLE));
            cases.push(Case::contour(asked, &[]));
            cases.push(Case::contour([1, 1], &[asked]));
            for place in 0..TRIANGLE.len() {
                let mut contour = TRIANGLE;
                contour[place][axis] = number;
                cases.push(Case::contour([1, 1], &contour));
            }
        }
    }
    cases
}

/// What the readings of document 01 decide.
pub fn readings() -> Vec<Case> {
    [
        whole_grid(),
        thin(),
        diagonals(),
        few_points(),
        sizes(),
        order(),
    ]
    .concat()
}

/// The whole-grid square, whose doubled area is 2^34 - 8 short of 2^63 and wraps from two
/// windings on; and that of the narrow grid, whose area reaches 2^63 at four and is a
/// multiple of 2^64 at eight.
fn whole_grid() -> Vec<Case> {
    [LIMIT, NARROW].map(whole).map(both_ways_round).concat()
}

/// The square both ways round and wound up to the largest count.
fn both_ways_round(square: [Point; 4]) -> Vec<Case> {
    let mut backwards = square;
    backwards.reverse();
    let corners = square;
    let mut cases = vec![];
    for square in [square, backwards] {
        for times in [1, 2, 3, 4, 5, 7, 8, 9, 12, 16, 16_383, 16_384] {
            cases.push(Case::contour([0, 0], &square).wound(times));
        }
        for corner in corners {
            cases.push(Case::contour(corner, &square));
            cases.push(Case::contour(corner.map(|number| number / 2), &square));
            cases.push(Case::contour([corner[0], 0], &square));
            cases.push(Case::contour([0, corner[1]], &square));
        }
    }
    cases
}

/// The ends of an edge across a grid with this end that (0, -1) misses by the least cross
/// product, 1.
pub const fn thin_edge(end: i32) -> (Point, Point) {
    ([-end, -end], [end - 1, end - 3])
}

fn thin() -> Vec<Case> {
    [LIMIT, NARROW].map(thin_contours).concat()
}

/// Such an edge with (0, -1) on it, and with it inside and outside.
fn thin_contours(end: i32) -> Vec<Case> {
    let (a, b) = thin_edge(end);
    let (above, below) = ([a[0], b[1]], [b[0], a[1]]);
    let (beside, origin) = ([0, -1], [0, 0]);
    vec![
        Case::contour(beside, &[a, beside, b]),
        Case::contour(beside, &[b, beside, a]),
        Case::contour(beside, &[a, b, above]),
        Case::contour(beside, &[b, a, below]),
        Case::contour(origin, &[a, beside, b, above]),
        Case::contour(origin, &[a, beside, b, below]),
    ]
}

/// Along a diagonal of each whole grid and back, where the dot is farthest below zero, from a corner to the next, where
/// the cross is largest, and straight on.
fn diagonals() -> Vec<Case> {
    [LIMIT, NARROW].map(whole).map(along_diagonals).concat()
}

fn along_diagonals([a, b, c, d]: [Point; 4]) -> Vec<Case> {
    let (middle, asked) = ([0, 0], [1, 1]);
    vec![
        Case::contour(asked, &[a, c, a, b]),
        Case::contour(asked, &[b, d, b, c]),
        Case::contour(asked, &[c, a, c]),
        Case::contour(asked, &[a, middle, c, b]),
        Case::contour(asked, &[d, b, middle, d, a]),
        Case::contour(asked, &[a, b, d]),
        Case::contour(asked, &[d, c, a]),
    ]
}

/// One and two points: an area of 0, clockwise and convex; last, the two wound twice.
fn few_points() -> Vec<Case> {
    lines(&[
        "c 0 0 0 0",
        "c 5 -3 5 -3",
        "c 5 -3 7 -3",
        "c 1 1 0 0 2 2",
        "c 0 1 0 0 2 2",
        "c 0 0 0 0 2 2",
        "c 2 2 0 0 2 2",
        "c 1 0 0 0 2 0",
        "c 0 1 0 0 0 2",
        "c 3 3 3 3 3 3",
        "c 3 3 3 3 *3",
        "c 1 1 0 0 2 2 *2",
    ])
}

/// Counts of numbers around the largest contour, and odd ones; an odd row repeated an
/// even number of times is even.
fn sizes() -> Vec<Case> {
    lines(&[
        "c 0 0 0",
        "c 0 0 1 2 3",
        "c 1 1 0 0 4 0 0",
        "c 0 0 1 2 3 *2",
        "c 0 0 1 2 3 *3",
        "c 0 0 5 *2",
        "c 0 0 5 *3",
        "c 1 1 0 0 4 0 0 4 *21845",
        "c 0 0 0 0 1 0 1 1 0 1 *16384",
        "c 0 0 0 1 1 1 1 0 0 0 *16384",
        "c 0 0 0 0 1 0 1 1 0 1 *16383",
        "c 0 0 0 0 3 0 *32768",
        "c 7 7 7 7 *65535",
        "c 7 7 7 7 *65536",
        "c 7 7 7 7 *65537",
        "c 5 5 5 *131071",
        "c 5 5 5 *131072",
        "c 5 5 5 *131073",
        "c 5 5 5 *131074",
        "c 0 0 1 2 3 *43690",
        "c 0 0 1 2 3 *43691",
    ])
}

/// Several refusals due at once: 1 before 2 before 3 before 8; and the same with a number off
/// the narrow grid alone, where 3 is not due.
fn order() -> Vec<Case> {
    let narrower = |line: &&str| line.replace("1073741824", "536870913");
    let narrow: Vec<String> = ORDER.iter().map(narrower).collect();
    let narrow: Vec<&str> = narrow.iter().map(String::as_str).collect();
    lines(&[ORDER, &narrow].concat())
}

const ORDER: &[&str] = &[
    // Odd, and a coordinate off the grid, the asked point, or both.
    "c 0 0 1073741824",
    "c 0 0 0 0 1073741824",
    "c 1073741824 0 1 2 3",
    "c 0 -1073741824 -1073741824",
    // Odd and too long; and off the grid as well.
    "c 1073741824 0 1 2 3 *43691",
    "c 0 0 1073741824 0 0 *43691",
    "c 0 -1073741824 0 0 -1073741824 *43691",
    // Too many points, and off the grid.
    "c 0 0 1073741824 0 *65537",
    "c 0 0 0 -1073741824 *65537",
    "c 1073741824 0 0 0 *65537",
    "c 1073741824 0 1073741824 0 *65537",
    // The most points, and off the grid.
    "c 0 0 1073741824 0 *65536",
    "c 0 0 0 0 1 0 1 1 0 -1073741824 *16384",
    "c 0 1073741824 0 0 1 0 1 1 0 1 *16384",
    "c 0 1073741824 0 0 1 0 1 1 0 1073741824 *16384",
    // Empty, and the asked point off the grid.
    "c 1073741824 -1073741824",
    "c 2147483647 -2147483648",
];

/// The smallest contours of which a walk steps over a marked point: by the collinear rule and by the despiking one.
pub fn idle() -> Vec<Case> {
    lines(&["c 0 0 0 0 0 1 1 0 1 1 1 1", "c 0 0 0 0 0 1 0 2 1 0 1 0"])
}

/// Three contours that the worked cases do not replace: only they tell whether a
/// removal unmarks the predecessor's new successor.
pub fn successors() -> Vec<Case> {
    lines(&[
        "c 0 0 0 0 0 1 1 0 2 0",
        "c 1 0 0 0 1 0 0 1 2 0 0 0 2 1",
        "c 1 1 1 0 3 0 0 1 2 0 0 0",
    ])
}
