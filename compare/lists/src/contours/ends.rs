//! Contours with a number at an end of the grid or past it, in each place in turn.

use crate::cleaner::Cleaner;
use crate::contours::case::{Case, Kind};
use crate::contours::lent::need;
use crate::ends::{rows, BETWEEN, ENDS, FAR, NEAR, PAST};
use crate::point::Point;

/// Every count of numbers up to nine.
const SHORT: &[usize] = &[1, 2, 3, 4, 5, 6, 7, 8, 9];

/// Counts of numbers around the powers of two.
const LONGER: &[usize] = &[10, 12, 16, 18, 32, 34];

/// A count of numbers so large that most of a row's time goes into its length.
const LONG: usize = 2000;

/// Every question about each row.
pub fn asked() -> Vec<Case> {
    let short = [rows(&ENDS, &NEAR, SHORT), rows(&PAST, &FAR, SHORT)];
    let longer = [rows(&PAST, &NEAR, LONGER), rows(&BETWEEN, &NEAR, &[6, 8])];
    let all = [short.concat(), longer.concat(), long()].concat();
    all.iter().map(|row| contour([1, 1], row)).collect()
}

/// A long row with a number at its front, in the middle or at its end.
fn long() -> Vec<Vec<i32>> {
    let mut long = vec![];
    for number in ENDS {
        for place in [0, 1, LONG / 2, LONG / 2 + 1, LONG - 2, LONG - 1] {
            let mut row = NEAR.repeat(LONG / NEAR.len());
            row[place] = number;
            long.push(row);
        }
    }
    long
}

fn contour(asked: Point, row: &[i32]) -> Case {
    Case::new(Kind::Contour { asked }, row)
}

/// Each row by each cleaner, with rows as long as needed.
pub fn cleaned() -> Vec<Case> {
    let all = [
        rows(&PAST, &NEAR, &[2, 4, 6, 8]),
        rows(&BETWEEN, &FAR, &[8]),
    ]
    .concat();
    let cleaning = |cleaner, row: &Vec<i32>| {
        let lent = need(row.len() / 2);
        Case::new(Kind::Cleaning { cleaner, lent }, row)
    };
    let by_both = |row| Cleaner::BOTH.map(|cleaner| cleaning(cleaner, row));
    all.iter().flat_map(by_both).collect()
}

/// A point of each row is located, and one at the ends of the grid and past them.
pub fn located() -> Vec<Case> {
    let all = [
        rows(&PAST, &NEAR, &[2, 4, 6, 8, 10]),
        rows(&BETWEEN, &FAR, &[8]),
    ]
    .concat();
    let of_rows = all.iter().map(|row| located_at([4, 0], row));
    let numbers = ENDS.into_iter().chain(BETWEEN);
    let of_points =
        numbers.flat_map(|number| [[number, 4], [4, number]].map(|point| located_at(point, &FAR)));
    of_rows.chain(of_points).collect()
}

fn located_at(asked: Point, row: &[i32]) -> Case {
    Case::new(Kind::Located { asked }, row)
}
