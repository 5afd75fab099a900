//! Contours added to a pool and removed, beside a vector of contours for each press; `table` says what is written.

mod counter;
mod inputs;
mod linked;
mod table;
mod time;

use inputs::{numbers, Point};
use linked::{raw, PoolRecord};
use std::hint::black_box;

const MOST: usize = 65_536;

/// A call: of the second press or of the first, with the contour that it adds, or none to remove its newest.
type Call<'a> = (bool, Option<&'a [Point]>);

/// What a caller would take: the contours of both presses in one vector, each with its press.
#[derive(Default)]
struct Plain(Vec<(bool, Vec<Point>)>);

impl Plain {
    fn call(&mut self, (second, contour): Call) {
        match contour {
            Some(contour) => self.0.push((second, contour.to_vec())),
            None => drop(self.0.iter().rposition(|&(press, _)| press == second).map(|newest| self.0.remove(newest))),
        }
    }
}

/// The rows of a pool.
struct Lent {
    points: Vec<i32>,
    records: Vec<PoolRecord>,
    contours: usize,
}

impl Lent {
    fn new() -> Self {
        Lent { points: vec![0; 2 * MOST], records: vec![[0; 4]; MOST], contours: 0 }
    }

    fn call(&mut self, second: bool, contour: Option<&[i32]>) {
        let (points, records) = (self.points.as_mut_ptr(), self.records.as_mut_ptr());
        let (points_len, records_len) = (self.points.len(), self.records.len());
        // SAFETY: the rows are vectors of their own, and the contour is a slice of none of them.
        let reply = unsafe {
            match contour {
                Some(row) => {
                    raw::ukm_pool_add(points, points_len, records, records_len, &mut self.contours, second, row.as_ptr(), row.len())
                }
                None => raw::ukm_pool_remove(points, points_len, records, records_len, &mut self.contours, second),
            }
        };
        assert_eq!(reply, 0);
    }
}

/// The calls that are measured, behind some that are not, and that leave as many contours as they found.
fn line(name: &str, function: &str, points: usize, before: &[Call], calls: &[Call]) {
    let (mut plain, mut lent) = (Plain::default(), Lent::new());
    for &(second, contour) in before {
        plain.call((second, contour));
        lent.call(second, contour.map(numbers).as_deref());
    }
    let rows: Vec<(bool, Option<Vec<i32>>)> = calls.iter().map(|&(second, contour)| (second, contour.map(numbers))).collect();
    table::line(
        name,
        function,
        points,
        &mut || {
            calls.iter().for_each(|&call| plain.call(black_box(call)));
            plain.0.len() as i64
        },
        &mut || {
            rows.iter().for_each(|(second, contour)| lent.call(*second, black_box(contour.as_deref())));
            lent.contours as i64
        },
    );
}

fn main() {
    let boxes = inputs::boxes(1, 1000);
    let (square, circle) = (boxes[0].as_slice(), inputs::circle(10_000));
    let added: Vec<Call> = boxes.iter().map(|contour| (false, Some(contour.as_slice()))).collect();
    let again = [(false, Some(square)), (false, None)];
    let round = [(true, Some(circle.as_slice())), (true, None)];
    let turns = [(true, None), (true, Some(circle.as_slice())), (false, None), (false, Some(circle.as_slice()))];
    let removed: Vec<Call> = added.iter().copied().chain(added.iter().map(|_| (false, None))).collect();
    let kinds: [(&str, usize, &[Call], &[Call]); 5] = [
        ("1000 boxes", 4000, &[], &removed),
        ("box in an empty pool", 4, &[], &again),
        ("box behind 1000 boxes", 4, &added, &again),
        ("one circle of 10000", 10_000, &[], &round),
        ("two circles, each from in front", 20_000, &[turns[1], turns[3]], &turns),
    ];
    for (name, points, before, calls) in kinds {
        if table::asked("pools", name) {
            line(name, "pool", points, before, calls);
        }
    }
}
