//! One contour: every question, and cleanings with rows of given lengths.

use crate::input::{Found, Input};
use crate::library::answer::Cleaned;
use crate::library::{self, Lent, Scratch};
use lists::cleaner::Cleaner;
use lists::contours::case::{Case, Kind};
use lists::contours::lent::{beside, need};
use lists::contours::rows::{self, Cleaning, Lengths};
use lists::contours::{contains, Verdicts};
use lists::counted::COUNTED;
use lists::point::Point;
use requests::locate::{locate, Place};

impl Input for Case {
    fn compare(&self) -> Found {
        let mut found = Found::default();
        let row = self.of.all();
        match self.kind {
            Kind::Contour { asked } => {
                hold_verdicts(&mut found, &Verdicts::new(asked, &row), &row);
                located(&mut found, asked, &row);
                for cleaner in Cleaner::BOTH {
                    cleaning(&mut found, cleaner, longer(row.len()), &row);
                }
            }
            Kind::Cleaning { cleaner, lent } => cleaning(&mut found, cleaner, lent, &row),
            Kind::Located { asked } => located(&mut found, asked, &row),
            Kind::Kept(_) => unreachable!("the library does not export the second call"),
        }
        found.hold_unchanged(&self.of.all(), &row);
        found
    }

    fn size(&self) -> usize {
        self.of.numbers.len() * self.of.times
    }
}

/// Rows longer than a contour of so many numbers needs.
pub fn longer(numbers: usize) -> Lengths {
    beside(need(numbers.div_ceil(2)), [3, 5, 2, 7]).expect("longer rows")
}

/// What the library says of a row, all but what is asked about a point.
pub fn hold_verdicts(found: &mut Found, original: &Verdicts, row: &[i32]) {
    found.hold("area_two", original.area_two.into(), library::area_two(row));
    found.hold("area", original.area.into(), library::area(row));
    found.hold(
        "is_clockwise",
        original.clockwise.into(),
        library::is_clockwise(row),
    );
    found.hold("is_convex", original.convex.into(), library::is_convex(row));
    found.hold("is_simple", original.simple.into(), library::is_simple(row));
    found.hold(
        "has_no_spikes",
        original.no_spikes.into(),
        library::has_no_spikes(row),
    );
}

/// Off the boundary inside and outside are the original's yes and no; on it, and everywhere else, `contains` is the
/// original's still.
fn located(found: &mut Found, asked: Point, row: &[i32]) {
    let place = locate(row, asked);
    found.hold("locate", place.into(), library::locate(row, asked));
    let contains = contains(asked, row);
    found.hold("contains", contains.into(), library::contains(row, asked));
    if let Ok(Place::Inside | Place::Outside) = place {
        let inside = place.map(|place| place == Place::Inside);
        found.hold("off the boundary", contains, inside);
    }
}

fn cleaning(found: &mut Found, cleaner: Cleaner, lent: Lengths, row: &[i32]) {
    let original = rows::answer(cleaner, lent, row);
    hold_cleaning(found, cleaner, lent, &original, row);
}

/// What the library leaves of a row.
pub fn hold_cleaning(
    found: &mut Found,
    cleaner: Cleaner,
    lent: Lengths,
    original: &Cleaning,
    row: &[i32],
) {
    let mut scratch = Scratch::with_canaries(lent.scratch);
    let mut out = Lent::new(-7, lent.out);
    let answer = library::cleaned(cleaner, row, &mut scratch, &mut out);
    let expected = Cleaned {
        reply: original.reply.into(),
        points: original.points,
        decisions: if COUNTED {
            original.decisions
        } else {
            answer.decisions
        },
        turns: original.turns,
    };
    found.hold(name(cleaner), expected, answer);
    hold_scratch(found, &original.rows.scratch, &scratch);
    found.hold_row("out", &original.rows.out, &out);
}

fn name(cleaner: Cleaner) -> &'static str {
    match cleaner {
        Cleaner::Simplified => "simplified",
        Cleaner::Despiked => "despiked",
    }
}

pub fn hold_scratch(found: &mut Found, original: &lists::scratch::Scratch, library: &Scratch) {
    found.hold_row("next", &original.next, &library.next);
    found.hold_row("prev", &original.prev, &library.prev);
    found.hold_row("mark", &original.mark, &library.mark);
}
