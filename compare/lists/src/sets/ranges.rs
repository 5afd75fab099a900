//! Ranges of every kind: sound, with a gap, overlapping, backward, short, long, or none.

use super::case::Case;
use super::chosen::{added, asked, packed_in_turn};
use super::flat::{Record, Set};
use super::packing::Form;
use super::rows::Lengths;
use crate::line::Row;

/// The row of two points.
const TWO: [i32; 4] = [1, 2, 3, 5];

/// No record, each one record and each two with places from 0 to 3.
fn records() -> Vec<Vec<Record>> {
    let places = || 0..4;
    let one: Vec<Record> = places()
        .flat_map(|s| places().map(move |e| [s, e]))
        .collect();
    let mut rows = vec![vec![]];
    rows.extend(one.iter().map(|&record| vec![record]));
    rows.extend(
        one.iter()
            .flat_map(|&a| one.iter().map(move |&b| vec![a, b])),
    );
    rows
}

/// Contour ranges over two points, in one shape.
pub fn contour_ranges() -> Vec<Set> {
    let set = |contours: Vec<Record>| Set {
        shapes: vec![[0, contours.len()]],
        contours,
        points: Row::wound(&TWO, 1),
    };
    records().into_iter().map(set).collect()
}

/// Shape ranges over two contours.
pub fn shape_ranges() -> Vec<Set> {
    let set = |shapes: Vec<Record>| Set {
        contours: vec![[0, 1], [1, 2]],
        shapes,
        points: Row::wound(&TWO, 1),
    };
    records().into_iter().map(set).collect()
}

/// Ranges of every kind, of contours and of shapes.
pub fn of_a_set() -> Vec<Case> {
    let (contours, shapes) = (contour_ranges(), shape_ranges());
    let each = |sets: &[Set]| [asked(sets), packed_in_turn(sets, 1)].concat();
    [each(&contours), each(&shapes)].concat()
}

/// Contour ranges of a shape of two points that is added to a set of one.
pub fn of_an_addition() -> Vec<Case> {
    let set = Set::of(&[vec![vec![[8, 9]]]]);
    let form = Form::numbered(7).expect("a form");
    let case = |ranges: Vec<Record>| added(form, Lengths::LONGEST, &set, &TWO, &ranges);
    records().into_iter().map(case).collect()
}
