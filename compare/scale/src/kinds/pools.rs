//! Histories of two presses that share a pool.

use crate::tally::Tally;
use lists::line::Row;
use lists::point::{LIMIT, OFF_GRID};
use lists::pools::case::{Call, LONGEST};
use lists::pools::chosen::{history, laid, remove, PLACES};
use lists::pools::Case;
use lists::rng::Rng;
use requests::pool::{Contour, Pool, Record, KEPT, POOL};
use requests::reply::domain;

const MAX: usize = usize::MAX;

/// How many points a contour has, of a press that may hold so many more.
type Points = fn(usize, &mut Rng) -> usize;

/// Forty calls, from an empty pool or one of a few contours; in one history of four as many points are added as go in.
pub fn short(tally: &mut Tally, rng: &mut Rng) {
    let first = match rng.below(4) {
        0 => some(rng),
        _ => vec![],
    };
    let lent = rng.pick(&[PLACES, PLACES, PLACES, LONGEST]);
    let numbers = numbers(rng);
    let points = rng.pick::<Points>(&[few, few, few, sized]);
    let calls = calls(40, &first, &numbers.all(), points, rng);
    tally.compare(&history(lent, with_tools(&first, rng), &calls, numbers));
}

/// A thousand calls that add few points each.
pub fn long(tally: &mut Tally, rng: &mut Rng) {
    let numbers = numbers(rng);
    let calls = calls(1000, &[], &numbers.all(), few, rng);
    tally.compare(&history(PLACES, vec![], &calls, numbers));
}

/// Ten calls on a pool of contours of a point or none: a press has none of them, what is kept for it, all that it may have,
/// or about as many, and the other as many as then go in, or up to two less.
pub fn full(tally: &mut Tally, rng: &mut Rng) {
    let most = POOL - KEPT;
    let mine = rng.pick(&[0, 1, KEPT - 1, KEPT, KEPT + 1, most - 1, most]);
    let others = (POOL - mine).min(most) - rng.below(3);
    let press = rng.below(2);
    let [least, most_points] = rng.pick(&[[0, 0], [0, 1], [1, 1]]);
    let presses = [vec![press; mine], vec![1 - press; others]].concat();
    let mut contour = |press| [rng.below(most_points + 1).max(least), press];
    let mut first: Vec<[usize; 2]> = presses.into_iter().map(&mut contour).collect();
    for k in 0..first.len() {
        let other = rng.below(first.len());
        first.swap(k, other);
    }
    let numbers = numbers(rng);
    let calls = calls(10, &first, &numbers.all(), sized, rng);
    tally.compare(&history(PLACES, with_tools(&first, rng), &calls, numbers));
}

/// Four calls on a pool with a number or two wrong, or none, in rows with the pool's places or about as long as it needs.
pub fn damaged(tally: &mut Tally, rng: &mut Rng) {
    let first = some(rng);
    let numbers = numbers(rng);
    let calls = calls(4, &first, &numbers.all(), sized, rng);
    let mut case = history(PLACES, with_tools(&first, rng), &calls, numbers);
    case.lent = lent(&case.records, rng);
    for _ in 0..rng.below(3) {
        damage(&mut case, rng);
    }
    tally.compare(&case);
}

/// Some contours, few points or many, each of a press; now and then more than the pool may hold.
fn some(rng: &mut Rng) -> Vec<[usize; 2]> {
    let sizes = rng.pick(&[
        [0, 1, 2, 3],
        [0, 1, 5, 5000],
        [0, 16_383, 16_384, 16_385],
        [1, 32_767, 32_768, 49_151],
        [0, 24_576, 49_152, 49_153],
    ]);
    let count = rng.below(8);
    (0..count)
        .map(|_| [rng.pick(&sizes), rng.below(2)])
        .collect()
}

/// Their records, with tools of which half are 0.
fn with_tools(contours: &[[usize; 2]], rng: &mut Rng) -> Vec<Record> {
    let mut records = laid(contours);
    for [_, _, tool, _] in &mut records {
        *tool = rng.below(2) * rng.below(256);
    }
    records
}

/// As many numbers as the longest contours have, at least nearly: few or a thousand, over and over. Of one row in eight some
/// are off the grid.
fn numbers(rng: &mut Rng) -> Row {
    let (count, times) = rng.pick(&[(1000, 131), (1000, 131), (30, 4369), (2, POOL + 1)]);
    let mut numbers: Vec<i32> = (0..count).map(|_| rng.between(-LIMIT, LIMIT)).collect();
    if rng.below(8) == 0 {
        numbers[rng.below(count)] = rng.pick(&OFF_GRID);
    }
    Row::wound(&numbers, times)
}

/// So many calls of both presses.
fn calls(
    count: usize,
    first: &[[usize; 2]],
    numbers: &[i32],
    points: Points,
    rng: &mut Rng,
) -> Vec<Call> {
    let contour = |&[points, press]: &[usize; 2]| Contour {
        press,
        tool: 0,
        numbers: vec![0; 2 * points],
    };
    let mut pool = Pool(first.iter().map(contour).collect());
    let removals = rng.pick(&[1, 3, 5]);
    let mut call = || {
        let press = rng.below(2);
        if rng.below(10) < removals {
            let _ = pool.remove(press);
            return remove(press);
        }
        let others_part = pool.held(1 - press).max(KEPT);
        let left = POOL.saturating_sub(others_part + pool.held(press));
        let call = adding(press, points(left, rng), numbers.len(), rng);
        let contour = call.of(numbers).1.unwrap_or_default();
        if left > 0 && domain(contour).is_ok() {
            let _ = pool.add(press, contour, true);
        }
        call
    };
    (0..count).map(|_| call()).collect()
}

fn few(_: usize, rng: &mut Rng) -> usize {
    rng.below(4)
}

/// From none to one more than may be held, and at times more than the pool has.
fn sized(left: usize, rng: &mut Rng) -> usize {
    match rng.below(16) {
        0..=2 => 0,
        3 | 4 => 1,
        5 | 6 => rng.below(9),
        7 => left.saturating_sub(1),
        8 => left,
        9 => left + 1,
        10 => left / 2,
        11 => rng.pick(&[KEPT - 1, KEPT, KEPT + 1]),
        12 => rng.pick(&[POOL - KEPT, POOL, POOL + 1]),
        13 => rng.below(left + 2),
        _ => rng.below(left / 8 + 2),
    }
}

/// A contour of so many points, from somewhere in the numbers; one in forty has half a point more.
fn adding(press: usize, points: usize, numbers: usize, rng: &mut Rng) -> Call {
    let odd = usize::from(rng.below(40) == 0);
    let length = 2 * points + odd;
    let start = rng.below(numbers.saturating_sub(length).min(2000) + 1);
    let end = start + length;
    Call::Add { press, start, end }
}

/// The lengths of rows with the pool's places, one entry less of either, or about as long as the records need.
fn lent(records: &[Record], rng: &mut Rng) -> [usize; 2] {
    let [points, count] = PLACES;
    let need = 2 * records.last().map_or(0, |record| record[1]);
    let around = |need: usize, rng: &mut Rng| (need + rng.below(5)).saturating_sub(2);
    let short = [around(need, rng), around(records.len(), rng)];
    rng.pick(&[
        PLACES,
        [points - 1, count],
        [points, count - 1],
        [short[0], count],
        [points, short[1]],
        short,
        short,
        short,
    ])
}

/// Another number in a record, two records in each other's place, or another count.
fn damage(case: &mut Case, rng: &mut Rng) {
    let count = case.records.len();
    match rng.below(4) {
        0 => case.contours = elsewhere(case.contours, rng),
        1 if count > 0 => case.records.swap(rng.below(count), count - 1),
        _ if count > 0 => {
            let number = &mut case.records[rng.below(count)][rng.below(4)];
            *number = elsewhere(*number, rng);
        }
        _ => {}
    }
}

fn elsewhere(at: usize, rng: &mut Rng) -> usize {
    let (before, behind) = (at.wrapping_sub(1), at.wrapping_add(1));
    rng.pick(&[
        before,
        behind,
        0,
        1,
        2,
        255,
        256,
        POOL,
        POOL + 1,
        MAX,
        at ^ 1 << 32,
        at ^ 1 << 63,
    ])
}
