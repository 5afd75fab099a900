//! Drawings and sets around 65,536 points, and faults behind more.

use super::back::{around, export};
use super::case::{Case, LONGEST_IN, LONGEST_OUT};
use super::floats::NANS;
use super::sound::{beside, exact, import, longer, need};
use crate::line::Row;
use crate::point::MOST_POINTS;
use crate::sets::flat::Set;
use requests::drawing::{Drawing, CLOSE, LINE, MOVE};
use requests::exact::{millimetres, Bits};
use requests::grid::NARROW;

/// So many points in one contour.
fn one(points: usize) -> Drawing {
    let kinds = [vec![MOVE], vec![LINE; points - 1]].concat();
    sound(kinds)
}

/// So many contours of one point.
fn apart(points: usize) -> Drawing {
    sound(vec![MOVE; points])
}

/// The kinds, with each place at the grid's end.
fn sound(kinds: Vec<u8>) -> Drawing {
    let mut drawing = Drawing {
        kinds,
        floats: vec![],
    };
    drawing.floats = vec![millimetres(-NARROW); drawing.brought()];
    drawing
}

/// The drawing with these commands behind it, which have this float for every coordinate.
fn and_then(mut drawing: Drawing, kinds: &[u8], float: Bits) -> Drawing {
    drawing.kinds.extend(kinds);
    drawing.floats.resize(drawing.brought(), float);
    drawing
}

pub fn imports() -> Vec<Case> {
    let most = MOST_POINTS;
    let mut cases = vec![];
    for drawing in [one(most), apart(most), and_then(one(most), &[CLOSE], 0)] {
        let lent = |offsets| beside(need(&drawing), offsets, LONGEST_IN);
        cases.push(exact(&drawing));
        cases.extend([[-1, 0], [0, -1], [2, 9]].map(|offsets| import(lent(offsets), &drawing)));
    }
    let behind = 70_000;
    for drawing in [
        one(most + 1),
        apart(most + 1),
        and_then(one(most), &[CLOSE, MOVE], 1),
        one(behind),
        and_then(one(behind), &[3], 0),
        and_then(one(behind), &[CLOSE, CLOSE], 0),
        and_then(one(behind), &[CLOSE, LINE], 0),
        and_then(apart(behind), &[LINE], NANS[1]),
        and_then(apart(behind), &[MOVE], millimetres(NARROW) + 5_000_000),
        and_then(apart(behind), &[MOVE], millimetres(NARROW) + 5),
        and_then(one(3), &[CLOSE, 9], 0),
    ] {
        cases.extend([longer(&drawing), import([0, 0], &drawing)]);
        let mut short = drawing.clone();
        short.floats.pop();
        cases.push(longer(&short));
    }
    cases
}

/// So many points, in contours that end at these.
fn set(points: usize, ends: &[usize]) -> Set {
    let starts = [&[0], ends].concat();
    let ranges = starts.into_iter().zip(ends);
    Set {
        contours: ranges.map(|(start, &end)| [start, end]).collect(),
        shapes: vec![],
        points: Row::wound(&[NARROW, 1 - NARROW], points),
    }
}

pub fn exports() -> Vec<Case> {
    let most = MOST_POINTS;
    let mut cases = vec![];
    let many: Vec<usize> = (1..=64).map(|part| part * most / 64).collect();
    for set in [
        set(most, &[most]),
        set(most, &[0, 1, 1, 30_000, 30_001, most, most]),
        set(most, &many),
        set(most + 1, &[most + 1]),
        set(most + 1, &[5, 3]),
        set(most, &[most - 1]),
        set(most, &[]),
    ] {
        cases.push(export(LONGEST_OUT, &set));
        cases.extend([[0, 0], [-1, 0], [0, -1], [3, 1]].map(|offsets| around(&set, offsets)));
    }
    cases
}
