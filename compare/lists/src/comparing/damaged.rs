//! Sets that are refused, the first, the second or both.

use super::case::{compared, Case, Flat};
use crate::ends::{self, NEAR, PAST};
use crate::point::{LIMIT, OFF_GRID};
use crate::rng::Rng;
use crate::sets::flat::Set;
use crate::sets::random::{set, spoil};

/// A contour with a number at an end of the grid or past it, in each place in turn, beside itself and beside a sound one.
pub fn at_the_ends() -> Vec<Case> {
    let rows = [
        ends::rows(&[LIMIT, -LIMIT], &NEAR, &[2, 4]),
        ends::rows(&PAST, &NEAR, &[1, 2, 3, 4]),
    ]
    .concat();
    let sound = Flat {
        points: vec![1, 2, 3, 4],
        ranges: vec![[0, 2]],
    };
    let mut cases = vec![];
    for points in rows {
        let ranges = vec![[0, points.len() / 2]];
        let ended = Flat { points, ranges };
        cases.push(compared(&ended, &ended, 1));
        cases.push(compared(&ended, &sound, 1));
        cases.push(compared(&sound, &ended, 1));
    }
    cases
}

/// Sets with one to three damages beside sound ones, and beside each other, with a listing or with none.
pub fn spoilt() -> Vec<Case> {
    let rng = &mut Rng::new(802);
    (0..600).map(|_| any(rng)).collect()
}

pub fn any(rng: &mut Rng) -> Case {
    let mut flat = |damaged: bool| {
        let sound = set(LIMIT, rng);
        let of = |set: Set| Flat {
            points: set.points.numbers,
            ranges: set.contours,
        };
        of(if damaged {
            spoil(sound, &OFF_GRID, rng)
        } else {
            sound
        })
    };
    let (first, second) = (flat(true), flat(false));
    let third = flat(true);
    match rng.below(3) {
        0 => compared(&first, &second, rng.pick(&[0, 30])),
        1 => compared(&second, &first, rng.pick(&[0, 30])),
        _ => compared(&first, &third, 30),
    }
}
