//! Random sets, and what may have become of them.

use super::case::{beside, Case};
use crate::point::{Point, LIMIT};
use crate::rng::Rng;
use crate::shapes::{at_ends, scattered};

pub fn cases() -> Vec<Case> {
    let rng = &mut Rng::new(801);
    (0..1000).map(|_| case(rng)).collect()
}

/// A set and what became of it, or two sets that have little to do with each other.
pub fn case(rng: &mut Rng) -> Case {
    let first = set(rng);
    let second = match rng.below(4) {
        0 => set(rng),
        _ => altered(&first, rng),
    };
    beside(&first, &second, rng.pick(&[0, 0, 0, 0, -1, 1, 5]))
}

fn set(rng: &mut Rng) -> Vec<Vec<Point>> {
    (0..rng.below(6)).map(|_| contour(rng)).collect()
}

/// Of few different points, so that it may repeat, or scattered.
pub fn contour(rng: &mut Rng) -> Vec<Point> {
    let count = rng.below(9);
    match rng.below(5) {
        0 => scattered(count, 1, rng),
        1 => scattered(rng.below(4), 1, rng).repeat(rng.below(5)),
        2 => at_ends(count, LIMIT, rng),
        3 => scattered(count, LIMIT, rng),
        _ => scattered(count, 3, rng),
    }
}

/// Each contour as it was, started elsewhere or altered; now and then one comes or goes.
pub fn altered(contours: &[Vec<Point>], rng: &mut Rng) -> Vec<Vec<Point>> {
    let mut contours: Vec<_> = contours
        .iter()
        .map(|contour| alter(contour.clone(), rng))
        .collect();
    let place = rng.below(contours.len() + 1);
    match rng.below(8) {
        0 => contours.insert(place, contour(rng)),
        1 => contours.truncate(place),
        2 => contours.push(contour(rng)),
        _ => {}
    }
    contours
}

pub fn alter(mut contour: Vec<Point>, rng: &mut Rng) -> Vec<Point> {
    let place = rng.below(contour.len().max(1));
    match rng.below(10) {
        0 | 1 => {}
        2 => contour.reverse(),
        3 => contour.truncate(place),
        4 => contour.push(rng.point(1)),
        5 if !contour.is_empty() => contour[place][rng.below(2)] ^= 1,
        6 if !contour.is_empty() => {
            let end = contour.len() - 1;
            contour.swap(place, end);
        }
        _ if !contour.is_empty() => contour.rotate_left(place),
        _ => {}
    }
    contour
}
