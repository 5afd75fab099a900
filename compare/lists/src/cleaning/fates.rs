//! What becomes of each contour of shapes that are cleaned, and the rows lent for it: as they are before the call, and
//! after it.

use super::case::Lengths;
use crate::checksum::checksum;
use crate::cleaner::{Cleaner, Contour};
use crate::scratch::Scratch;
use crate::sets::flat::{refusal, Set};
use requests::fates::{fates, KEPT};
use requests::reply::{refused_if, Reply, DONE, ROOM};
use std::fmt;

/// What is told, how many contours are kept, and the rows after it. The row for the fates has as many entries as that of
/// contour records has for the cleaning.
#[derive(Debug, PartialEq, Eq)]
pub struct Fates {
    pub reply: u8,
    pub count: usize,
    pub scratch: Scratch,
    pub fates: Vec<u8>,
}

pub fn answer(cleaner: Cleaner, lent: Lengths, set: &Set) -> Fates {
    let before = Fates {
        reply: DONE,
        count: 0,
        scratch: Scratch::with_canaries(lent.scratch),
        fates: vec![7; lent.rows.records],
    };
    if let Err(reply) = refusal_of(lent, set) {
        return Fates { reply, ..before };
    }
    let told = fates(&set.to_shapes(), |contour| cleaner.collapses(contour));
    Fates {
        reply: DONE,
        count: told.iter().filter(|&&fate| fate == KEPT).count(),
        scratch: before.scratch.zeroed(set.points.all().len() / 2),
        fates: [&told, &before.fates[told.len()..]].concat(),
    }
}

/// The first refusal that is due: 1, 2, 6, 3, 4, 5.
fn refusal_of(lent: Lengths, set: &Set) -> Reply<()> {
    let points = set.points.all();
    refusal(&[&points], set.sound_shapes())?;
    lent.scratch.enough_for(points.len() / 2)?;
    refused_if(lent.rows.records < set.contours.len(), ROOM)
}

impl Cleaner {
    /// A contour that passes its verdict is kept; another goes where its walk keeps nothing.
    pub fn collapses(self, contour: &Contour) -> bool {
        !self.passes(contour) && self.walk(contour).kept.is_none()
    }
}

impl fmt::Display for Fates {
    fn fmt(&self, out: &mut fmt::Formatter) -> fmt::Result {
        let fates = checksum(&self.fates);
        write!(
            out,
            "{} {} {} {fates}",
            self.reply, self.count, self.scratch
        )
    }
}

#[cfg(test)]
mod tests {
    use super::answer;
    use crate::cleaner::Cleaner;
    use crate::cleaning::case::{Case, Kind};
    use crate::cleaning::{cleaned, list};
    use requests::fates::KEPT;

    #[test]
    fn what_is_told_as_kept_is_what_the_original_keeps() {
        for case in list() {
            let Kind::Cleaning { form, lent } = case.kind else {
                continue;
            };
            if !form.shapes {
                continue;
            }
            let cleaning = cleaned::answer(form, lent, &case.of);
            let told = answer(form.cleaner, lent, &case.of);
            if cleaning.reply == 0 {
                assert_eq!((told.reply, told.count), (0, cleaning.contours), "{case}");
                let contours = case.of.contours.len();
                let kept = told.fates[..contours].iter().filter(|&&fate| fate == KEPT);
                assert_eq!(kept.count(), cleaning.contours, "{case}");
            }
        }
    }

    #[test]
    fn a_hole_goes_with_its_outline_and_a_refusal_changes_nothing() {
        let told = |line: &str| {
            let case: Case = line.parse().unwrap();
            let Kind::Cleaning { lent, .. } = case.kind else {
                panic!("{line} is no cleaning");
            };
            answer(Cleaner::Despiked, lent, &case.of)
        };
        let set = "2 0 3 3 6 1 0 2 0 0 1 0 2 0 0 0 4 0 0 4";
        let all = told(&format!("W 3 7 6 6 12 3 1 {set}"));
        assert_eq!(
            (all.reply, all.count, &all.fates[..]),
            (0, 0, &[1, 2, 7][..])
        );
        assert_eq!(all.scratch.next, [0, 0, 0, 0, 0, 0, 7]);
        let short = told(&format!("W 3 6 6 6 12 1 1 {set}"));
        assert_eq!(
            (short.reply, short.count, &short.fates[..]),
            (5, 0, &[7][..])
        );
        assert_eq!(short.scratch.next, [7; 6]);
        assert_eq!(told(&format!("W 3 6 5 6 12 1 1 {set}")).reply, 4);
    }
}
