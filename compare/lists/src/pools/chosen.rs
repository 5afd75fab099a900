//! Chosen histories: small ones, each refusal, every limit and pools that are not sound.

use super::case::{Call, Case, LONGEST};
use crate::line::Row;
use crate::point::LIMIT;
use requests::pool::{Record, KEPT, POOL};

/// The shortest rows that have the pool's places.
pub const PLACES: [usize; 2] = [2 * POOL, POOL];

/// The numbers of contours, the longest of one point more than the pool has.
fn numbers() -> Row {
    Row::wound(&[3, -4], POOL + 1)
}

pub fn add(press: usize, points: usize) -> Call {
    Call::Add {
        press,
        start: 0,
        end: 2 * points,
    }
}

pub const fn remove(press: usize) -> Call {
    Call::Remove { press }
}

/// Contours of so many points, each of a press, laid end to end.
pub fn laid(contours: &[[usize; 2]]) -> Vec<Record> {
    let mut end = 0;
    let mut next = |&[points, press]: &[usize; 2]| {
        let start = end;
        end += points;
        [start, end, 0, press]
    };
    contours.iter().map(&mut next).collect()
}

pub fn history(lent: [usize; 2], records: Vec<Record>, calls: &[Call], numbers: Row) -> Case {
    Case {
        lent,
        contours: records.len(),
        records,
        calls: calls.to_vec(),
        numbers,
    }
}

/// All histories of up to four of six calls, from an empty pool on.
pub fn small() -> Vec<Case> {
    let calls = |start, end| [0, 1].map(|press| Call::Add { press, start, end });
    let calls = [calls(0, 4), calls(4, 4), [remove(0), remove(1)]].concat();
    let mut histories: Vec<Vec<Call>> = vec![vec![]];
    let mut all = vec![];
    for _ in 0..4 {
        let longer = |call: &Call| {
            let with = |history: &Vec<Call>| [&history[..], &[*call]].concat();
            histories.iter().map(with).collect::<Vec<_>>()
        };
        histories = calls.iter().flat_map(longer).collect();
        all.extend(histories.clone());
    }
    let of = |calls: Vec<Call>| history(PLACES, vec![], &calls, Row::wound(&[1, 2, 3, 4, 5], 1));
    // of the longest every third
    let longest = 6 + 36 + 216;
    let chosen = |(number, calls)| (number < longest || number % 3 == 0).then(|| of(calls));
    all.into_iter().enumerate().filter_map(chosen).collect()
}

/// Each refusal by itself, and where several are due.
pub fn refusals() -> Vec<Case> {
    let off = Row::wound(&[LIMIT + 1, 0, 0], 1);
    let mut cases = vec![];
    for lent in [
        PLACES,
        LONGEST,
        [0, 0],
        [2 * POOL - 1, POOL],
        [2 * POOL, POOL - 1],
    ] {
        for (start, end) in [(0, 1), (0, 2), (0, 3), (1, 3), (2, 2)] {
            let call = Call::Add {
                press: 1,
                start,
                end,
            };
            cases.push(history(lent, vec![], &[call], off.clone()));
        }
        for points in [POOL - KEPT, POOL - KEPT + 1, POOL, POOL + 1] {
            cases.push(history(lent, vec![], &[add(0, points)], numbers()));
        }
        cases.push(history(lent, vec![], &[remove(0)], numbers()));
        cases.push(history(lent, laid(&[[0, 1]]), &[remove(0)], numbers()));
    }
    cases
}

/// Pools at each limit and beside it, with one more call of each kind.
pub fn at_the_limits() -> Vec<Case> {
    let mut cases = vec![];
    let amounts = [
        0,
        1,
        KEPT - 1,
        KEPT,
        KEPT + 1,
        40_000,
        POOL - KEPT - 1,
        POOL - KEPT,
    ];
    for mine in amounts {
        for others in amounts {
            if mine + others > POOL {
                continue;
            }
            let records = laid(&[[mine, 0], [others, 1], [0, 0]]);
            let left = (POOL - others.max(KEPT)).saturating_sub(mine.max(1) + 1);
            for points in [0, 1, left.saturating_sub(1), left, left + 1] {
                cases.push(history(
                    PLACES,
                    records.clone(),
                    &[add(0, points)],
                    numbers(),
                ));
            }
            let calls = [remove(0), add(1, 1), remove(0), add(0, left), remove(1)];
            cases.push(history(PLACES, records, &calls, numbers()));
        }
    }
    cases
}

/// Pools in rows that are too short to be added to, and in rows as long as they are.
pub fn short_rows() -> Vec<Case> {
    let records = laid(&[[2, 0], [1, 1], [0, 0], [3, 1]]);
    let calls = [
        add(0, 1),
        remove(1),
        remove(0),
        add(1, 2),
        remove(1),
        remove(1),
    ];
    let lengths = [
        [12, 4],
        [11, 4],
        [13, 9],
        [12, 3],
        [2 * POOL, 4],
        [12, POOL],
    ];
    let of = |&lent: &[usize; 2]| history(lent, records.clone(), &calls, numbers());
    lengths.iter().map(of).collect()
}

/// Pools that are not sound, each by one number, and some that are.
pub fn unsound() -> Vec<Case> {
    let mut cases = vec![];
    let sound = laid(&[[2, 0], [1, 1], [0, 0]]);
    for k in 0..sound.len() {
        for place in 0..4 {
            for number in [0, 1, 2, 3, 4, 255, 256, POOL, i32::MAX as usize] {
                let mut records = sound.clone();
                records[k][place] = number;
                cases.push(history([20, 5], records, &[remove(0)], numbers()));
            }
        }
    }
    for contours in [0, 1, 2, 3, 4, 5, 6, i32::MAX as usize] {
        let mut case = history([20, 5], sound.clone(), &[add(0, 1), remove(1)], numbers());
        case.contours = contours;
        cases.push(case);
    }
    for held in [
        [POOL - KEPT + 1, 0],
        [1, POOL - KEPT + 1],
        [40_000, 25_537],
        [40_000, 25_536],
    ] {
        let records = laid(&[[held[0], 0], [held[1], 1]]);
        for call in [add(0, 0), add(1, POOL + 1), remove(1)] {
            cases.push(history(LONGEST, records.clone(), &[call], numbers()));
        }
    }
    cases
}

/// Many contours, empty or of one point, of which those at the front go last.
pub fn many() -> Vec<Case> {
    let empty = vec![[0, 0, 0, 0]; 32_000];
    let singles = laid(&vec![[1, 1]; 2_000]);
    let mixed: Vec<[usize; 2]> = (0..1_500).map(|k| [k % 3, k % 2]).collect();
    let calls = [
        remove(0),
        add(1, 5),
        add(0, 0),
        remove(1),
        remove(1),
        add(0, 9),
    ];
    [empty, singles, laid(&mixed)]
        .map(|records| history(PLACES, records, &calls, numbers()))
        .to_vec()
}
