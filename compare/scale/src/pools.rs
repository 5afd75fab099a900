//! Two presses that share a pool, against the plain list of contours in `requests`.

use crate::input::{Found, Input};
use crate::library::answer::Counted;
use crate::library::Pool;
use lists::pools::Case;
use requests::pool::{self, Rows};

impl Input for Case {
    /// Call by call, as far as both sides agree: the rows as far as they were ever in use and a little on, and in the end
    /// over their whole lengths.
    fn compare(&self) -> Found {
        let mut found = Found::default();
        let numbers = self.numbers.all();
        let mut original = self.rows();
        let mut library = Pool::new(&original);
        let mut used = in_use(&original);
        hold_counts(&mut found, &original, &library);
        for (call, number) in self.calls.iter().zip(1..) {
            if !found.0.is_empty() || !agree(used, &original, &library) {
                break;
            }
            let (press, contour) = call.of(&numbers);
            let second = press == 1;
            let (reply, answer) = match contour {
                Some(contour) => (original.add(press, contour), library.add(second, contour)),
                None => (original.remove(press), library.remove(second)),
            };
            let reply = reply.err().unwrap_or(0);
            found.hold(&format!("call {number}"), reply.into(), answer);
            hold_counts(&mut found, &original, &library);
            let [points, records] = in_use(&original);
            used = [used[0].max(points), used[1].max(records)];
        }
        found.hold_row("points", &original.points, &library.points);
        found.hold_row("records", &original.records, &library.records);
        found.hold_unchanged(&self.numbers.all(), &numbers);
        found
    }

    fn size(&self) -> usize {
        let records = self.records.len() + self.calls.len();
        self.numbers.numbers.len() * self.numbers.times + 4 * records
    }
}

/// What each press has and holds, the free count, and how many records are in use.
fn hold_counts(found: &mut Found, original: &Rows, library: &Pool) {
    let pool = original.pool();
    let count = |of: &dyn Fn(&pool::Pool) -> usize| -> Counted {
        let pool = pool.as_ref().map_err(|&reply| reply);
        pool.map(of).into()
    };
    for (press, second) in [(0, false), (1, true)] {
        let own = count(&|pool| pool.own(press).count());
        found.hold("pool_contours", own, library.own(second));
        let held = count(&|pool| pool.held(press));
        found.hold("pool_held", held, library.held(second));
    }
    found.hold("pool_free", count(&pool::Pool::free), library.free());
    found.hold("records in use", original.contours, library.contours);
}

/// How many numbers and records of the rows are in use.
fn in_use(rows: &Rows) -> [usize; 2] {
    let records = &rows.records[..rows.contours.min(rows.records.len())];
    let end = records.last().map_or(0, |record| record[1]);
    [2 * end.min(rows.points.len() / 2), records.len()]
}

/// How many entries of a row are compared behind those that were in use.
const ON: usize = 64;

fn agree([points, records]: [usize; 2], original: &Rows, library: &Pool) -> bool {
    let points = original.points.len().min(points + ON);
    let records = original.records.len().min(records + ON);
    original.points[..points] == library.points.row()[..points]
        && original.records[..records] == library.records.row()[..records]
}
