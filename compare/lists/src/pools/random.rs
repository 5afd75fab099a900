//! Random histories of both presses.

use super::case::{Call, Case, LONGEST};
use super::chosen::{add, history, laid, remove, PLACES};
use crate::line::Row;
use crate::rng::Rng;
use requests::pool::{KEPT, POOL};

/// Sound pools of up to six contours, and up to forty calls.
pub fn histories() -> Vec<Case> {
    let rng = &mut Rng::new(901);
    (0..250).map(|_| sound(rng)).collect()
}

pub fn sound(rng: &mut Rng) -> Case {
    let numbers = Row::wound(&[7, -8, 9, 10, -11, 12], 21_845);
    let lent = rng.pick(&[PLACES, PLACES, PLACES, LONGEST]);
    let mut first: Vec<[usize; 2]> = vec![];
    for _ in 0..rng.below(7) {
        first.push([rng.pick(&[0, 1, 3, 500, 5_000]), rng.below(2)]);
    }
    let calls: Vec<Call> = (0..rng.below(41)).map(|_| call(rng)).collect();
    history(lent, laid(&first), &calls, numbers)
}

fn call(rng: &mut Rng) -> Call {
    let press = rng.below(2);
    let points = match rng.below(12) {
        0..=2 => return remove(press),
        3 | 4 => 0,
        5..=8 => rng.below(5),
        9 => rng.below(9_000),
        10 => rng.pick(&[KEPT - 1, KEPT, KEPT + 1]),
        _ => rng.pick(&[POOL - KEPT, POOL - KEPT - 1, 30_000, POOL]),
    };
    let start = rng.below(4);
    let odd = usize::from(rng.below(30) == 0);
    match add(press, points) {
        Call::Add { press, end, .. } => Call::Add {
            press,
            start,
            end: start + end + odd,
        },
        other => other,
    }
}

/// Histories from pools with one number wrong, on short rows and long ones.
pub fn damaged() -> Vec<Case> {
    let rng = &mut Rng::new(902);
    (0..150).map(|_| spoilt(rng)).collect()
}

pub fn spoilt(rng: &mut Rng) -> Case {
    let mut case = sound(rng);
    case.lent = rng.pick(&[[40, 6], [0, 0], [2 * POOL, POOL - 1], PLACES]);
    case.calls.truncate(6);
    let count = case.records.len();
    match rng.below(4) {
        0 => case.contours = rng.below(9),
        1 if count > 0 => case.records.swap(0, rng.below(count)),
        _ if count > 0 => {
            let number = &mut case.records[rng.below(count)][rng.below(4)];
            *number = rng.pick(&[*number + 1, number.saturating_sub(1), 0, 255, 256, POOL]);
        }
        _ => case.contours += 1,
    }
    case
}
