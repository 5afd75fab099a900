//! Chosen sets: the worked contours as outlines and holes, shapes that are empty or
//! collapse, and points in and around shapes.

use super::case::{Case, MOST_SCRATCH};
use super::lent;
use crate::line::Row;
use crate::point::{whole, Point, LIMIT, NARROW};
use crate::sets::flat::{Record, Set};
use crate::sets::small::rows_up_to;

const EMPTY: &[Point] = &[];
const LINE: &[Point] = &[[0, 0], [1, 0], [2, 0]];
const TRIANGLE: &[Point] = &[[0, 0], [4, 0], [0, 4]];
const STRAIGHT: &[Point] = &[[0, 0], [2, 0], [4, 0], [4, 4], [0, 4]];
const SPIKE: &[Point] = &[[0, 0], [4, 0], [4, 4], [4, 8], [4, 4], [0, 4]];
const TWICE: &[Point] = &[[0, 0], [0, 0], [4, 0], [0, 4]];
const PENTAGRAM: &[Point] = &[[0, 10], [6, -8], [-10, 3], [10, 3], [-6, -8]];
const SQUARE: &[Point] = &[[0, 0], [4, 0], [4, 4], [0, 4]];
const BOW: &[Point] = &[[0, 0], [4, 4], [4, 0], [0, 4]];
const SMALL: &[Point] = &[[0, 0], [0, 1], [1, 0]];
const FOLDED: &[Point] = &[[0, 0], [4, 0], [4, 0]];

/// The contours of W1 to W12; W5 is W4's.
const WORKED: [&[Point]; 11] = [
    EMPTY, LINE, TRIANGLE, STRAIGHT, SPIKE, TWICE, PENTAGRAM, SQUARE, BOW, SMALL, FOLDED,
];

/// A way out and back that collapses only after many decisions.
const OUT_AND_BACK: &[Point] = &[[1, 3], [2, 0], [3, 3], [2, 0], [1, 3], [0, 0]];

/// A set of shapes, each of some contours.
fn set(shapes: &[Vec<&[Point]>]) -> Set {
    let contours = |shape: &Vec<&[Point]>| shape.iter().map(|contour| contour.to_vec()).collect();
    Set::of(&shapes.iter().map(contours).collect::<Vec<Vec<_>>>())
}

/// Each worked contour alone, as each one's hole, and as the outline of one shape and the
/// hole of another.
pub fn worked() -> Vec<Case> {
    let mut sets: Vec<Set> = WORKED.iter().map(|&one| set(&[vec![one]])).collect();
    for outline in WORKED {
        for hole in WORKED {
            sets.push(set(&[vec![outline, hole]]));
            sets.push(set(&[vec![outline, STRAIGHT], vec![SPIKE, hole]]));
        }
    }
    lent::asked_and_cleaned(&sets, 601)
}

/// A square with up to three holes that stay, change, collapse or are empty.
pub fn holes() -> Vec<Case> {
    let holes = [EMPTY, OUT_AND_BACK, STRAIGHT, TWICE, SMALL];
    let shape = |holes: &Vec<&'static [Point]>| set(&[[&[SQUARE], &holes[..]].concat()]);
    let sets: Vec<Set> = rows_up_to(3, &holes).iter().map(shape).collect();
    lent::asked_and_cleaned(&sets, 602)
}

/// All sets of up to three shapes that are empty, have an empty outline, collapse,
/// collapse in front of a hole, stay, or lose a hole.
pub fn empty_and_collapsed() -> Vec<Case> {
    let shapes = [
        vec![],
        vec![EMPTY],
        vec![LINE],
        vec![OUT_AND_BACK, SPIKE],
        vec![STRAIGHT],
        vec![TWICE, LINE, SPIKE],
    ];
    let sets: Vec<Set> = rows_up_to(3, &shapes).iter().map(|all| set(all)).collect();
    lent::asked_and_cleaned(&sets, 603)
}

/// The worked contours wound as often as there is room for, cut into one, three and seven
/// contours: of one shape, and of two shapes from three contours on.
pub fn wound() -> Vec<Case> {
    let mut sets = vec![];
    for contour in WORKED.into_iter().filter(|contour| !contour.is_empty()) {
        let points = Row::wound(&contour.concat(), MOST_SCRATCH / contour.len());
        let count = points.all().len() / 2;
        for parts in [1, 3, 7] {
            let cut = |part| part * count / parts;
            let contours: Vec<Record> = (0..parts).map(|k| [cut(k), cut(k + 1)]).collect();
            let shapes = match parts {
                1 => vec![[0, 1]],
                _ => vec![[0, parts / 2], [parts / 2, parts]],
            };
            let points = points.clone();
            sets.push(Set {
                contours,
                shapes,
                points,
            });
        }
    }
    lent::asked_and_cleaned(&sets, 604)
}

/// Sets of every fate, with every choice of rows.
pub fn around_the_need() -> Vec<Case> {
    lent::around_the_need(&[
        set(&[]),
        set(&[vec![]]),
        set(&[vec![], vec![EMPTY]]),
        set(&[vec![STRAIGHT]]),
        set(&[vec![TWICE, STRAIGHT]]),
        set(&[vec![LINE, SPIKE]]),
        set(&[vec![SQUARE, LINE, SPIKE], vec![], vec![TWICE]]),
        set(&[vec![OUT_AND_BACK], vec![SPIKE, EMPTY, SMALL]]),
        set(&[vec![FOLDED], vec![LINE, SQUARE], vec![EMPTY]]),
    ])
}

/// Shapes asked about every point of their box and of the frame around it: a square with
/// two holes that touch, one with a hole that reaches out of it, one that is its own
/// hole, and a hole without its outline.
pub fn scans() -> Vec<Case> {
    const WIDE: &[Point] = &[[0, 0], [6, 0], [6, 6], [0, 6]];
    const DIAMOND: &[Point] = &[[2, 1], [3, 2], [2, 3], [1, 2]];
    const BESIDE: &[Point] = &[[3, 2], [5, 2], [5, 5], [3, 4]];
    const ACROSS: &[Point] = &[[5, 1], [9, 1], [9, 3], [5, 3]];
    let shapes = [
        vec![WIDE, DIAMOND, BESIDE],
        vec![WIDE, ACROSS],
        vec![WIDE, WIDE],
        vec![EMPTY, WIDE],
        vec![WIDE, EMPTY],
    ];
    let mut cases = vec![];
    for shape in shapes {
        let set = set(&[shape]);
        for y in -1..=7 {
            cases.extend((-1..=7).map(|x| lent::asked([x, y], &set)));
        }
    }
    cases
}

/// The squares of both whole grids, both ways round and up to sixty-four times: as so many
/// contours the set's sum wraps, of one shape or of as many, and as one contour or two
/// each contour's own does.
pub fn wrapping() -> Vec<Case> {
    [LIMIT, NARROW].map(whole).map(wrapping_laps).concat()
}

fn wrapping_laps(square: [Point; 4]) -> Vec<Case> {
    let mut cases = vec![];
    for times in [1, 2, 3, 4, 5, 7, 8, 9, 12, 63, 64] {
        for around in [square.to_vec(), square.into_iter().rev().collect()] {
            let each = |k| [4 * k, 4 * (k + 1)];
            let squares: Vec<Record> = (0..times).map(each).collect();
            for (contours, shapes) in [
                (squares.clone(), vec![[0, times]]),
                (squares, (0..times).map(|k| [k, k + 1]).collect()),
                (vec![[0, 4 * times]], vec![[0, 1]]),
                (vec![[0, 4], [4, 4 * times]], vec![[0, 2]]),
            ] {
                let points = Row::wound(&around.concat(), times);
                let set = Set {
                    contours,
                    shapes,
                    points,
                };
                cases.push(lent::asked([0, 0], &set));
            }
        }
    }
    cases
}
