//! Two sets compared, against the comparison in `requests`, which tries every start.

use crate::input::{Found, Input};
use crate::library::answer::Compared;
use crate::library::{compare_sets, Lent};
use lists::comparing::case::Flat;
use lists::comparing::{sets, Case, Comparison, RECORD};

impl Input for Case {
    fn compare(&self) -> Found {
        let (first, second) = sets(self);
        hold(&first, &second, self.kind.listing)
    }

    fn size(&self) -> usize {
        let records = self.of.contours.len() + self.of.shapes.len();
        self.of.points.numbers.len() * self.of.points.times + 2 * records
    }
}

/// Both ways round, and each set with itself.
fn hold(first: &Flat, second: &Flat, places: usize) -> Found {
    let mut found = Found::default();
    let before = (first.clone(), second.clone());
    for (first, second) in [
        (first, second),
        (second, first),
        (first, first),
        (second, second),
    ] {
        one_way(&mut found, first, second, places);
    }
    found.hold_unchanged(&before, &(first.clone(), second.clone()));
    found
}

fn one_way(found: &mut Found, first: &Flat, second: &Flat, places: usize) {
    let original = Comparison::new(first, second, places);
    let mut listing = Lent::new(RECORD, places);
    let answer = compare_sets(
        &first.points,
        &first.ranges,
        &second.points,
        &second.ranges,
        &mut listing,
    );
    let expected = Compared {
        reply: original.reply.into(),
        refused: original.refused.into(),
        contours: original.contours,
    };
    found.hold("compare_sets", expected, answer);
    found.hold_row("listing", &original.listing, &listing);
}
