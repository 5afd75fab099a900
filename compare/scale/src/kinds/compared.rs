//! Sets to be compared.

use crate::tally::Tally;
use lists::comparing::case::beside;
use lists::comparing::{damaged, random, words};
use lists::point::{Point, LIMIT};
use lists::rng::Rng;

/// All pairs of words of up to nine letters, of two, in one input for each step between the two: a million and more.
pub fn words(tally: &mut Tally) {
    let words = words::all(9, 2);
    for step in 0..words.len() {
        let mut others = words.clone();
        others.rotate_left(step);
        for (firsts, seconds) in words.chunks(500).zip(others.chunks(500)) {
            tally.compare(&beside(firsts, seconds, 0));
        }
    }
}

/// Small sets, and what became of them.
pub fn any(tally: &mut Tally, rng: &mut Rng) {
    tally.compare(&random::case(rng));
}

pub fn spoilt(tally: &mut Tally, rng: &mut Rng) {
    tally.compare(&damaged::any(rng));
}

/// A long contour and what became of it, two or three times altered.
pub fn long(tally: &mut Tally, rng: &mut Rng) {
    let first = long_contour(rng);
    let start = rng.below(first.len().max(1));
    let mut second = [&first[start..], &first[..start]].concat();
    for _ in 0..rng.below(3) {
        second = random::alter(second, rng);
    }
    tally.compare(&beside(&[first], &[second], 0));
}

/// Of up to 65,536 scattered points; or of up to 2,000 of few kinds, since trying each start of those is slow: equal but
/// for some, or a piece that repeats.
fn long_contour(rng: &mut Rng) -> Vec<Point> {
    match rng.below(4) {
        0 => {
            let count = rng.below(65_537);
            (0..count).map(|_| rng.point(LIMIT)).collect()
        }
        1 => {
            let count = rng.below(2000) + 1;
            let mut contour = vec![[0, 0]; count];
            for _ in 0..rng.below(4) {
                contour[rng.below(count)] = rng.point(1);
            }
            contour
        }
        2 => {
            let count = rng.below(20) + 1;
            let piece: Vec<Point> = (0..count).map(|_| rng.point(1)).collect();
            piece.repeat(rng.below(100) + 1)
        }
        _ => {
            let count = rng.below(2000);
            (0..count).map(|_| [0, rng.between(0, 1)]).collect()
        }
    }
}
