//! Contours and sets that are moved and turned: the library must say of them what the original says of them as they were,
//! so far as document 02 has it that nothing changes.

use crate::contours::{hold_cleaning, hold_verdicts, longer};
use crate::input::{Found, Input};
use crate::library::{self, Flat};
use crate::sets;
use lists::cleaner::Cleaner;
use lists::cleaning::case::Kind;
use lists::cleaning::{self, cleaned};
use lists::contours::case::Case;
use lists::contours::{contains, rows, Verdicts};
use lists::point::{plus, Point};
use requests::locate::locate;
use std::fmt;

/// A contour and an asked point, with the step of a shift and the number of the point to start at.
pub struct Contour {
    pub asked: Point,
    pub points: Vec<Point>,
    pub step: Point,
    pub start: usize,
}

/// No list has this kind: behind the step and the start stands the contour as one has it.
impl fmt::Display for Contour {
    fn fmt(&self, out: &mut fmt::Formatter) -> fmt::Result {
        let [x, y] = self.step;
        let contour = Case::contour(self.asked, &self.points);
        write!(out, "moved {x} {y} {} {contour}", self.start)
    }
}

impl Input for Contour {
    fn compare(&self) -> Found {
        let mut found = Found::default();
        let row = self.points.concat();
        let original = Verdicts::new(self.asked, &row);
        self.shifted(&mut found, &original, &row);
        self.reversed(&mut found, &original);
        self.started(&mut found, &original);
        found
    }

    fn size(&self) -> usize {
        2 * self.points.len()
    }
}

impl Contour {
    /// Every answer stays, and what is kept is shifted.
    fn shifted(&self, found: &mut Found, original: &Verdicts, row: &[i32]) {
        let moved = shifted(row, self.step);
        hold_verdicts(found, original, &moved);
        self.located(found, &moved, plus(self.asked, self.step));
        for cleaner in Cleaner::BOTH {
            let lent = longer(row.len());
            let mut cleaned = rows::answer(cleaner, lent, row);
            shift_front(&mut cleaned.rows.out, cleaned.points, self.step);
            hold_cleaning(found, cleaner, lent, &cleaned, &moved);
        }
    }

    /// The doubled area is negated modulo 2^64, and every point lies where it lay.
    fn reversed(&self, found: &mut Found, original: &Verdicts) {
        let mut points = self.points.clone();
        points.reverse();
        let moved = points.concat();
        let negated = original.area_two.map(i64::wrapping_neg);
        found.hold(
            "area_two, reversed",
            negated.into(),
            library::area_two(&moved),
        );
        self.located(found, &moved, self.asked);
    }

    /// The areas and the verdicts stay, and every point lies where it lay.
    fn started(&self, found: &mut Found, original: &Verdicts) {
        let mut points = self.points.clone();
        points.rotate_left(self.start);
        let moved = points.concat();
        hold_verdicts(found, original, &moved);
        self.located(found, &moved, self.asked);
    }

    fn located(&self, found: &mut Found, moved: &[i32], asked: Point) {
        let row = self.points.concat();
        let place = locate(&row, self.asked);
        found.hold("locate", place.into(), library::locate(moved, asked));
        let inside = contains(self.asked, &row);
        found.hold("contains", inside.into(), library::contains(moved, asked));
    }
}

/// What is asked of a set, or a cleaning of it, with the step of a shift.
pub struct Set {
    pub case: cleaning::Case,
    pub step: Point,
}

impl fmt::Display for Set {
    fn fmt(&self, out: &mut fmt::Formatter) -> fmt::Result {
        let [x, y] = self.step;
        write!(out, "moved {x} {y} {}", self.case)
    }
}

impl Input for Set {
    /// Every answer stays, and what is kept is shifted.
    fn compare(&self) -> Found {
        let mut found = Found::default();
        let set = &self.case.of;
        let moved = shifted(&set.points.all(), self.step);
        let library: Flat = sets::flat(set, &moved);
        match self.case.kind {
            Kind::Asked { asked } => {
                let original = cleaning::Verdicts::new(asked, set);
                sets::hold_verdicts(&mut found, original, library, plus(asked, self.step));
            }
            Kind::Cleaning { form, lent } => {
                let mut original = cleaned::answer(form, lent, set);
                shift_front(&mut original.rows.out, original.points, self.step);
                sets::hold_cleaning(&mut found, form, lent, &original, library);
            }
        }
        found
    }

    fn size(&self) -> usize {
        sets::size_of(&self.case.of)
    }
}

fn shifted(row: &[i32], step: Point) -> Vec<i32> {
    let mut row = row.to_vec();
    let points = row.len() / 2;
    shift_front(&mut row, points, step);
    row
}

fn shift_front(row: &mut [i32], points: usize, step: Point) {
    for point in row.chunks_exact_mut(2).take(points) {
        let moved = plus([point[0], point[1]], step);
        point.copy_from_slice(&moved);
    }
}
