//! The answers to a case: document 01's refusals, and past them the Rust original.

use crate::checksum::{checksum, part};
use crate::cleaner::{contour, row, Cleaner, Walked};
use crate::contours::case::{Case, Kind};
use crate::contours::rows;
use crate::point::Point;
use i_float::int::point::IntPoint;
use i_shape::int::area::Area;
use i_shape::int::path::ContourExtension;
use requests::locate::{locate, Place};
use requests::reply::{domain, not_empty, on_grid, Reply, COLLAPSED, DONE};
use std::fmt;

/// One line of answers, without its number.
pub fn answer(case: &Case) -> String {
    match case.kind {
        Kind::Contour { asked } => Answers::new(asked, &case.of.all()).to_string(),
        Kind::Cleaning { cleaner, lent } => rows::answer(cleaner, lent, &case.of.all()).to_string(),
        Kind::Kept(call) => part(call.part(&case.of.all())),
        Kind::Located { asked } => located(locate(&case.of.all(), asked)),
    }
}

/// What is answered of a contour.
#[derive(Debug, PartialEq, Eq)]
struct Answers {
    verdicts: Verdicts,
    simplified: Reply<Walked>,
    despiked: Reply<Walked>,
}

/// What is answered of a contour that is left as it is.
#[derive(Debug, PartialEq, Eq)]
pub struct Verdicts {
    pub area_two: Reply<i64>,
    pub area: Reply<i64>,
    pub clockwise: Reply<bool>,
    pub convex: Reply<bool>,
    pub contains: Reply<bool>,
    pub simple: Reply<bool>,
    pub no_spikes: Reply<bool>,
}

impl Answers {
    fn new(asked: Point, row: &[i32]) -> Answers {
        let walk = |cleaner: Cleaner| domain(row).map(|()| cleaner.walk(&contour(row)));
        Answers {
            verdicts: Verdicts::new(asked, row),
            simplified: walk(Cleaner::Simplified),
            despiked: walk(Cleaner::Despiked),
        }
    }
}

impl Verdicts {
    pub fn new(asked: Point, row: &[i32]) -> Verdicts {
        let points = contour(row);
        let contour = &points[..];
        let domain = domain(row);
        let with_area = domain.and_then(|()| not_empty(row));
        Verdicts {
            area_two: with_area.map(|()| contour.area_two()),
            area: with_area.map(|()| contour.area()),
            clockwise: with_area.map(|()| contour.is_clockwise_ordered()),
            convex: domain.map(|()| contour.is_convex()),
            contains: contains(asked, row),
            simple: domain.map(|()| Cleaner::Simplified.passes(&points)),
            no_spikes: domain.map(|()| Cleaner::Despiked.passes(&points)),
        }
    }
}

/// Whether the contour contains the point, by the original's half-open rule. The asked point off the grid is 3, in 3's
/// place, whatever the contour.
pub fn contains([x, y]: Point, row: &[i32]) -> Reply<bool> {
    domain(row)?;
    on_grid(&[x, y])?;
    Ok(contour(row).contains_point(IntPoint::new(x, y)))
}

impl fmt::Display for Answers {
    fn fmt(&self, out: &mut fmt::Formatter) -> fmt::Result {
        let verdicts = &self.verdicts;
        let columns = [
            column(&verdicts.area_two, i64::to_string),
            column(&verdicts.area, i64::to_string),
            column(&verdicts.clockwise, yes_or_no),
            column(&verdicts.convex, yes_or_no),
            column(&verdicts.contains, yes_or_no),
            column(&verdicts.simple, yes_or_no),
            column(&verdicts.no_spikes, yes_or_no),
            column(&self.simplified, walked),
            column(&self.despiked, walked),
        ];
        out.write_str(&columns.join(" "))
    }
}

pub fn column<T>(reply: &Reply<T>, said: fn(&T) -> String) -> String {
    match reply {
        Ok(value) => said(value),
        Err(refusal) => format!("!{refusal}"),
    }
}

pub fn yes_or_no(yes: &bool) -> String {
    if *yes { "yes" } else { "no" }.to_string()
}

/// The reply, and the number of the place, 0 for a refusal.
fn located(reply: Reply<Place>) -> String {
    match reply {
        Ok(place) => format!("{DONE} {}", place as u8),
        Err(refusal) => format!("{refusal} 0"),
    }
}

/// The points kept, the decisions, the turns and the checksum of what was written; or the
/// reply of a collapsed contour, the decisions and the turns.
fn walked(walked: &Walked) -> String {
    let counts = format!("{}:{}", walked.decisions, walked.turns);
    match &walked.kept {
        Some(kept) => format!("{}:{counts}:{}", kept.len(), checksum(&row(kept))),
        None => format!("{COLLAPSED}:{counts}"),
    }
}

#[cfg(test)]
mod tests {
    use super::answer;

    #[test]
    fn a_contour_is_answered_in_nine_columns() {
        for (line, expected) in [
            (
                "c 1 1 0 0 4 0 0 4",
                "16 8 no yes yes yes yes 3:3:3:119168 3:3:3:119168",
            ),
            ("c 0 0", "!8 !8 !8 yes no no no 7:0:0 7:0:0"),
            (
                "c 0 0 0 0 0 1 1 0",
                "-1 0 yes yes yes yes yes 3:3:3:992 3:3:3:992",
            ),
            ("c 1 0 0 0 1 0 2 0", "0 0 yes no no no no 7:1:1 7:1:1"),
        ] {
            assert_eq!(answer(&line.parse().unwrap()), expected);
        }
    }

    #[test]
    fn a_cleaning_is_answered_with_its_rows() {
        for (line, expected) in [
            ("w 0 3 3 3 6 0 0 4 0 0 4", "0 3 3 3 0 0 0 119168 6:119168"),
            ("w 1 3 3 4 6 0 0 1 0 2 0", "7 0 1 1 0 0 7 4087883104 0:0"),
        ] {
            assert_eq!(answer(&line.parse().unwrap()), expected);
        }
    }

    #[test]
    fn a_second_call_is_answered_with_the_part() {
        for (line, expected) in [
            ("k 0 1 0 5 6", "2:161"),
            ("k 0 1 2 1 2 3 5 6", "2:161"),
            ("k 0 1 2 5 5 6", "0:0"),
        ] {
            assert_eq!(answer(&line.parse().unwrap()), expected);
        }
    }

    #[test]
    fn a_place_is_answered_by_its_number() {
        for (line, expected) in [
            ("l 1 1 0 0 4 0 0 4", "0 2"),
            ("l 2 2 0 0 4 0 0 4", "0 1"),
            ("l 5 5 0 0 4 0 0 4", "0 0"),
            ("l 7 8 7 8", "0 1"),
            ("l 0 0", "0 0"),
            ("l 1073741824 0", "3 0"),
            ("l 0 0 1", "1 0"),
            ("l 0 0 5 5 *65537", "2 0"),
        ] {
            assert_eq!(answer(&line.parse().unwrap()), expected, "{line}");
        }
    }

    #[test]
    fn the_first_refusal_that_is_due_is_given() {
        for (line, expected) in [
            ("c 1073741824 0 1073741824", "!1 !1 !1 !1 !1 !1 !1 !1 !1"),
            (
                "c 1073741824 0 1073741824 0 *65537",
                "!2 !2 !2 !2 !2 !2 !2 !2 !2",
            ),
            ("c 0 0 1073741824 0", "!3 !3 !3 !3 !3 !3 !3 !3 !3"),
            ("c 1073741824 0", "!8 !8 !8 yes !3 no no 7:0:0 7:0:0"),
        ] {
            assert_eq!(answer(&line.parse().unwrap()), expected);
        }
    }
}
