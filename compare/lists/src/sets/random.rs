//! Random sets, sound and damaged.

use super::case::Case;
use super::chosen::{asked, packed_in_turn};
use super::flat::{Record, Set};
use crate::contours::unclean::spoilt;
use crate::point::{Point, LIMIT, OFF_GRID};
use crate::rng::Rng;
use crate::shapes::{at_ends, convex, flat, scattered, star, with_spike, with_straight_runs};

/// Sets of up to five shapes of up to four contours.
pub fn sound() -> Vec<Case> {
    let rng = &mut Rng::new(501);
    let sets: Vec<Set> = (0..250).map(|_| set(LIMIT, rng)).collect();
    [asked(&sets), packed_in_turn(&sets, 3)].concat()
}

/// On the grid with this end.
pub fn set(end: i32, rng: &mut Rng) -> Set {
    let shapes: Vec<_> = (0..rng.below(6)).map(|_| shape(end, rng)).collect();
    Set::of(&shapes)
}

fn shape(end: i32, rng: &mut Rng) -> Vec<Vec<Point>> {
    (0..rng.below(5)).map(|_| contour(end, rng)).collect()
}

/// Outlines and holes: empty, short, flat, spoilt, or a polygon.
fn contour(end: i32, rng: &mut Rng) -> Vec<Point> {
    let n = rng.between(3, 6) as usize;
    match rng.below(9) {
        0 => vec![],
        1 => scattered(rng.below(3), 5, rng),
        2 => flat(n, rng),
        3 => spoilt(rng),
        4 => star(n, 9, rng),
        5 => at_ends(n, end, rng),
        6 => with_spike(&scattered(n, 4, rng), rng),
        7 => with_straight_runs(&convex(n, 3, rng), rng),
        _ => scattered(n, rng.pick(&[2, 100, end]), rng),
    }
}

/// Sets with one to three damages: of the ranges, of the count, or of a number.
pub fn damaged() -> Vec<Case> {
    let rng = &mut Rng::new(502);
    let sets: Vec<Set> = (0..300)
        .map(|_| spoil(set(LIMIT, rng), &OFF_GRID, rng))
        .collect();
    [asked(&sets), packed_in_turn(&sets, 3)].concat()
}

/// A number that is damaged is one of these.
pub fn spoil(mut set: Set, off: &[i32], rng: &mut Rng) -> Set {
    for _ in 0..rng.pick(&[1, 1, 2, 3]) {
        match rng.below(8) {
            0 => set.points.numbers.push(0),
            1 | 2 => {
                let place = rng.below(set.points.numbers.len());
                if let Some(number) = set.points.numbers.get_mut(place) {
                    *number = rng.pick(off);
                }
            }
            3 => set
                .points
                .numbers
                .truncate(rng.below(set.points.numbers.len() + 1)),
            4 | 5 => spoil_ranges(&mut set.contours, rng),
            _ => spoil_ranges(&mut set.shapes, rng),
        }
    }
    set
}

/// One place is moved, two records change places, or a record comes or goes.
fn spoil_ranges(records: &mut Vec<Record>, rng: &mut Rng) {
    let place = rng.below(records.len());
    match rng.below(6) {
        0 => records.clear(),
        1 => records.push([rng.below(4), rng.below(4)]),
        2 if !records.is_empty() => drop(records.remove(place)),
        3 if !records.is_empty() => records.swap(0, place),
        4 if !records.is_empty() => records[place].reverse(),
        _ => {
            if let Some(record) = records.get_mut(place) {
                let end = &mut record[rng.below(2)];
                *end = rng.pick(&[*end + 1, end.saturating_sub(1), 0, i32::MAX as usize]);
            }
        }
    }
}
