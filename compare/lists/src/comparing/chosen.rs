//! Chosen pairs of sets.

use super::case::{beside, compared, Case, Compared, Flat};
use crate::line::Row;
use crate::point::{Point, LIMIT, MOST_POINTS};
use crate::sets::flat::Set;

const BOX: [Point; 4] = [[0, 0], [4, 0], [4, 4], [0, 4]];

/// A box beside itself, started elsewhere, reversed, cut short, longer, moved; and beside the empty contour.
pub fn worked() -> Vec<Case> {
    let started = |start: usize| [&BOX[start..], &BOX[..start]].concat();
    let mut reversed = BOX.to_vec();
    reversed.reverse();
    let moved: Vec<Point> = BOX.iter().map(|[x, y]| [x + 1, *y]).collect();
    let longer = [&BOX[..], &[[0, 2]]].concat();
    let corner = vec![[-LIMIT, LIMIT], [LIMIT, -LIMIT], [LIMIT, LIMIT]];
    let others = vec![
        BOX.to_vec(),
        started(1),
        started(2),
        started(3),
        reversed,
        BOX[..3].to_vec(),
        longer,
        moved,
        vec![],
        corner,
    ];
    let own = &others[..1];
    let mut cases = vec![];
    for other in others.chunks(1) {
        for offset in [0, -1, 2] {
            cases.push(beside(own, other, offset));
            cases.push(beside(other, own, offset));
        }
    }
    cases.push(beside(&others, &others, 0));
    cases
}

/// Sets of none to three contours, empty ones and boxes, with listings around the need.
pub fn counts() -> Vec<Case> {
    let set = |count: usize| {
        let contour = |number: usize| [vec![], BOX.to_vec(), BOX[1..].to_vec()][number % 3].clone();
        (0..count).map(contour).collect::<Vec<_>>()
    };
    let mut cases = vec![];
    for first in 0..4 {
        for second in 0..4 {
            for offset in [isize::MIN, -1, 0, 1, 3] {
                cases.push(beside(&set(first), &set(second), offset));
            }
        }
    }
    cases
}

/// As many points as a set can have, and one more, on either side; and as many records as a list can write.
pub fn many_points() -> Vec<Case> {
    let half = MOST_POINTS / 2;
    let wound = |first: usize, second: usize, row: &[i32]| Case {
        kind: Compared {
            listing: 2,
            others: 2 * second,
        },
        of: Set {
            contours: vec![[0, first]],
            shapes: vec![[0, second]],
            points: Row::wound(row, 2 * (first + second) / row.len()),
        },
    };
    let many = vec![BOX.to_vec(); 64];
    vec![
        wound(half, half, &[5, 6]),
        wound(half, half, &[5, 6, 7, 8]),
        wound(half - 2, half + 2, &[5, 6, 7, 8]),
        wound(MOST_POINTS, 0, &[5, 6]),
        wound(0, MOST_POINTS, &[5, 6]),
        wound(MOST_POINTS + 1, 0, &[5, 6]),
        wound(0, MOST_POINTS + 1, &[5, 6]),
        compared(&Flat::of(&many), &Flat::of(&many[1..]), 64),
        compared(&Flat::of(&many[1..]), &Flat::of(&many), 63),
    ]
}
