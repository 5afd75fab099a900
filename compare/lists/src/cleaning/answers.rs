//! The answers to a case: document 01's refusals, and past them the original.

use super::case::{Case, Kind};
use super::cleaned;
use super::fates;
use crate::cleaner::{Cleaner, Contour};
use crate::contours::{column, yes_or_no};
use crate::point::Point;
use crate::sets::flat::{refusal, Set};
use i_float::int::point::IntPoint;
use i_shape::int::area::Area;
use i_shape::int::path::ContourExtension;
use requests::locate::{self, Place};
use requests::reply::{on_grid, refused_if, Reply, EMPTY};
use std::fmt;

/// One line of answers, without its number.
pub fn answer(case: &Case) -> String {
    match case.kind {
        Kind::Asked { asked } => Verdicts::new(asked, &case.of).to_string(),
        Kind::Cleaning { form, lent } => {
            let cleaning = cleaned::answer(form, lent, &case.of);
            if form.shapes {
                let fates = fates::answer(form.cleaner, lent, &case.of);
                return format!("{cleaning} {fates}");
            }
            cleaning.to_string()
        }
    }
}

/// What is answered of a set that is left as it is.
#[derive(Debug, PartialEq, Eq)]
pub struct Verdicts {
    pub contours: Judged,
    pub in_shape: Reply<bool>,
    pub shapes: Judged,
}

/// What is answered of a contour set, and of a shape set too.
#[derive(Debug, PartialEq, Eq)]
pub struct Judged {
    pub simple: Reply<bool>,
    pub no_spikes: Reply<bool>,
    pub area_two: Reply<i64>,
    pub area: Reply<i64>,
}

impl Verdicts {
    pub fn new(asked: Point, set: &Set) -> Verdicts {
        let points = set.points.all();
        let contours = refusal(&[&points], set.sound_contours()).map(|()| set.to_contours());
        let shapes = refusal(&[&points], set.sound_shapes()).map(|()| set.to_shapes());
        let contours = contours.as_ref().map_err(|&refusal| refusal);
        let shapes = shapes.as_ref().map_err(|&refusal| refusal);
        let empty = set.contours.iter().any(|[start, end]| start == end);
        Verdicts {
            contours: Judged::new(contours, empty, Cleaner::passes_all),
            in_shape: contours.and_then(|shape| {
                on_grid(&asked)?;
                Ok(in_shape(shape, asked))
            }),
            shapes: Judged::new(shapes, empty, Cleaner::passes_every),
        }
    }
}

impl Judged {
    /// A set that has an empty contour has no area.
    fn new<T>(all: Reply<&Vec<T>>, empty: bool, passes: fn(Cleaner, &Vec<T>) -> bool) -> Judged
    where
        [T]: Area<i32>,
    {
        let with_area = all.and_then(|all| {
            refused_if(empty, EMPTY)?;
            Ok(all)
        });
        Judged {
            simple: all.map(|all| passes(Cleaner::Simplified, all)),
            no_spikes: all.map(|all| passes(Cleaner::Despiked, all)),
            area_two: with_area.map(|all| all.area_two()),
            area: with_area.map(|all| all.area()),
        }
    }
}

impl fmt::Display for Verdicts {
    fn fmt(&self, out: &mut fmt::Formatter) -> fmt::Result {
        let in_shape = column(&self.in_shape, yes_or_no);
        write!(out, "{} {in_shape} {}", self.contours, self.shapes)
    }
}

impl fmt::Display for Judged {
    fn fmt(&self, out: &mut fmt::Formatter) -> fmt::Result {
        let columns = [
            column(&self.simple, yes_or_no),
            column(&self.no_spikes, yes_or_no),
            column(&self.area_two, i64::to_string),
            column(&self.area, i64::to_string),
        ];
        out.write_str(&columns.join(" "))
    }
}

/// The original has no such question of a shape.
fn in_shape(shape: &[Contour], asked: Point) -> bool {
    locate::in_shape(&points(shape), asked)
}

/// Where the point is on no boundary, what the original says of the shape's contours: in the first and in no later one.
pub fn off_every_boundary(shape: &[Contour], asked: Point) -> Option<bool> {
    let on = |contour: &Vec<Point>| locate::place(contour, asked) == Place::Boundary;
    if points(shape).iter().any(on) {
        return None;
    }
    let asked = IntPoint::new(asked[0], asked[1]);
    let mut contain = shape.iter().map(|contour| contour.contains_point(asked));
    Some(contain.next() == Some(true) && !contain.any(|contains| contains))
}

fn points(shape: &[Contour]) -> Vec<Vec<Point>> {
    let points = |contour: &Contour| contour.iter().map(|p| [p.x, p.y]).collect();
    shape.iter().map(points).collect()
}

#[cfg(test)]
mod tests {
    use super::answer;

    #[test]
    fn a_set_is_answered_in_nine_columns() {
        for (line, contours, in_shape, shapes) in [
            ("q 1 1 0 0", "yes yes 0 0", "no", "yes yes 0 0"),
            (
                "q 1 1 1 0 3 1 0 1 0 0 4 0 0 4",
                "yes yes 16 8",
                "yes",
                "yes yes 16 8",
            ),
            (
                "q 1 1 2 0 3 3 3 1 0 2 0 0 4 0 0 4",
                "no no !8 !8",
                "yes",
                "no no !8 !8",
            ),
            (
                "q 1 2 2 0 3 3 6 3 0 1 1 1 1 2 0 0 4 0 0 4 0 0 2 2 4 0",
                "yes yes 8 4",
                "yes",
                "yes yes 8 4",
            ),
            (
                "q 1 1 2 0 3 3 6 0 0 0 4 0 0 4 0 0 0 4 4 0",
                "yes yes 0 0",
                "no",
                "!6 !6 !6 !6",
            ),
        ] {
            let expected = format!("{contours} {in_shape} {shapes}");
            assert_eq!(answer(&line.parse().unwrap()), expected, "{line}");
        }
    }

    #[test]
    fn the_first_refusal_that_is_due_is_given() {
        for (line, contours, in_shape, shapes) in [
            ("q 1 1 0 0 1073741824", "!1 !1 !1 !1", "!1", "!1 !1 !1 !1"),
            (
                "q 1 1 0 0 1073741824 1 *65537",
                "!2 !2 !2 !2",
                "!2",
                "!2 !2 !2 !2",
            ),
            ("q 1 1 0 0 1073741824 1", "!6 !6 !6 !6", "!6", "!6 !6 !6 !6"),
            (
                "q 1 1 2 0 0 0 1 0 1073741824 1",
                "!3 !3 !3 !3",
                "!3",
                "!6 !6 !6 !6",
            ),
            (
                "q 1 1 2 0 0 0 1 1 0 2 1073741824 1",
                "!3 !3 !3 !3",
                "!3",
                "!3 !3 !3 !3",
            ),
            (
                "q 1073741824 1 1 0 0 1 0 1",
                "no no !8 !8",
                "!3",
                "no no !8 !8",
            ),
        ] {
            let expected = format!("{contours} {in_shape} {shapes}");
            assert_eq!(answer(&line.parse().unwrap()), expected, "{line}");
        }
    }
}
