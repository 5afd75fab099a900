//! Sets: every question, cleanings, packings and additions.

use crate::contours::hold_scratch;
use crate::input::{Found, Input};
use crate::library::answer::{CleanedSet, Counted, Packed};
use crate::library::{Flat, Lent, Rows, Scratch};
use crate::ranges;
use lists::cleaner::Cleaner;
use lists::cleaning::case::{Form, Lengths};
use lists::cleaning::cleaned::{self, Cleaning};
use lists::cleaning::fates::{self, Fates};
use lists::cleaning::{self, off_every_boundary, Verdicts};
use lists::counted::COUNTED;
use lists::point::Point;
use lists::sets::flat::Set;
use lists::sets::packing::{self, Call, Packed as What};
use lists::sets::{self, case::Kind};
use requests::reply::Reply;

/// The set over a row that holds its points.
pub fn flat<'a>(set: &'a Set, points: &'a [i32]) -> Flat<'a> {
    Flat {
        points,
        contours: &set.contours,
        shapes: &set.shapes,
    }
}

pub fn size_of(set: &Set) -> usize {
    set.points.numbers.len() * set.points.times + 2 * (set.contours.len() + set.shapes.len())
}

pub fn hold_rows(found: &mut Found, original: &sets::rows::Rows, library: &Rows) {
    found.hold_row("out", &original.out, &library.out);
    found.hold_row("records", &original.records, &library.records);
    found.hold_row("groups", &original.groups, &library.groups);
}

impl Input for cleaning::Case {
    fn compare(&self) -> Found {
        let mut found = Found::default();
        let (before, points) = (self.clone(), self.of.points.all());
        match self.kind {
            cleaning::case::Kind::Asked { asked } => {
                let original = Verdicts::new(asked, &self.of);
                hold_off_boundaries(&mut found, asked, &self.of, original.in_shape);
                hold_verdicts(&mut found, original, flat(&self.of, &points), asked)
            }
            cleaning::case::Kind::Cleaning { form, lent } => {
                let original = cleaned::answer(form, lent, &self.of);
                hold_cleaning(&mut found, form, lent, &original, flat(&self.of, &points));
                if form.shapes {
                    let original = fates::answer(form.cleaner, lent, &self.of);
                    hold_fates(
                        &mut found,
                        form.cleaner,
                        lent,
                        &original,
                        flat(&self.of, &points),
                    )
                }
            }
        }
        found.hold_unchanged(&before, self);
        found.hold_unchanged(&before.of.points.all(), &points);
        found
    }

    fn size(&self) -> usize {
        size_of(&self.of)
    }
}

/// Off every boundary a shape has what the original's contours have.
fn hold_off_boundaries(found: &mut Found, asked: Point, set: &Set, in_shape: Reply<bool>) {
    if in_shape.is_ok() {
        if let Some(has) = off_every_boundary(&set.to_contours(), asked) {
            found.hold("off every boundary", Ok(has), in_shape);
        }
    }
}

/// What the library says of a set, and of a point.
pub fn hold_verdicts(found: &mut Found, original: Verdicts, library: Flat, asked: Point) {
    let Verdicts {
        contours,
        in_shape,
        shapes,
    } = original;
    found.hold("set_is_simple", contours.simple.into(), library.is_simple());
    found.hold(
        "set_has_no_spikes",
        contours.no_spikes.into(),
        library.has_no_spikes(),
    );
    found.hold("set_area_two", contours.area_two.into(), library.area_two());
    found.hold("set_area", contours.area.into(), library.area());
    found.hold("in_shape", in_shape.into(), library.in_shape(asked));
    found.hold(
        "shapes_is_simple",
        shapes.simple.into(),
        library.shapes_is_simple(),
    );
    found.hold(
        "shapes_has_no_spikes",
        shapes.no_spikes.into(),
        library.shapes_has_no_spikes(),
    );
    found.hold(
        "shapes_area_two",
        shapes.area_two.into(),
        library.shapes_area_two(),
    );
    found.hold("shapes_area", shapes.area.into(), library.shapes_area());
}

/// What the library leaves of a set.
pub fn hold_cleaning(
    found: &mut Found,
    form: Form,
    lent: Lengths,
    original: &Cleaning,
    library: Flat,
) {
    let mut scratch = Scratch::with_canaries(lent.scratch);
    let mut rows = Rows::with_canaries(lent.rows);
    let answer = match form.shapes {
        false => library.cleaned_shape(form.cleaner, &mut scratch, &mut rows),
        true => library.cleaned_shapes(form.cleaner, &mut scratch, &mut rows),
    };
    let expected = CleanedSet {
        reply: original.reply.into(),
        points: original.points,
        contours: original.contours,
        shapes: original.shapes,
        decisions: if COUNTED {
            original.decisions
        } else {
            answer.decisions
        },
        turns: original.turns,
    };
    let name = match (form.cleaner, form.shapes) {
        (Cleaner::Simplified, false) => "simplified_shape",
        (Cleaner::Despiked, false) => "despiked_shape",
        (Cleaner::Simplified, true) => "simplified_shapes",
        (Cleaner::Despiked, true) => "despiked_shapes",
    };
    found.hold(name, expected, answer);
    hold_scratch(found, &original.scratch, &scratch);
    hold_rows(found, &original.rows, &rows);
}

/// What the library tells of a set's contours.
fn hold_fates(found: &mut Found, cleaner: Cleaner, lent: Lengths, original: &Fates, library: Flat) {
    let mut scratch = Scratch::with_canaries(lent.scratch);
    let mut row = Lent::new(7, lent.rows.records);
    let answer = library.fates(cleaner, &mut scratch, &mut row);
    let expected = Counted {
        reply: original.reply.into(),
        count: original.count,
    };
    let name = match cleaner {
        Cleaner::Simplified => "simplified_fates",
        Cleaner::Despiked => "despiked_fates",
    };
    found.hold(name, expected, answer);
    hold_scratch(found, &original.scratch, &scratch);
    found.hold_row("fates", &original.fates, &row);
}

impl Input for sets::Case {
    fn compare(&self) -> Found {
        let mut found = Found::default();
        let (before, all) = (self.clone(), self.of.points.all());
        match &self.kind {
            Kind::Asked => {
                let Set {
                    contours, shapes, ..
                } = &self.of;
                ranges::hold(&mut found, contours, all.len() / 2);
                ranges::hold(&mut found, shapes, contours.len());
            }
            Kind::Packing(call) => {
                let original = packing::answer(call, &self.of);
                let (points, more) = call.split(&all);
                let mut rows = Rows::with_canaries(call.lent);
                let (name, answer) = packed(call, flat(&self.of, points), more, &mut rows);
                let expected = Packed {
                    reply: original.reply.into(),
                    points: original.points,
                    contours: original.contours,
                    shapes: original.shapes,
                };
                found.hold(name, expected, answer);
                hold_rows(&mut found, &original.rows, &rows);
            }
        }
        found.hold_unchanged(&before, self);
        found.hold_unchanged(&before.of.points.all(), &all);
        found
    }

    fn size(&self) -> usize {
        size_of(&self.of)
    }
}

/// The name of the library's call, and its answer.
fn packed(call: &Call, set: Flat, more: &[i32], rows: &mut Rows) -> (&'static str, Packed) {
    match (call.form.packed, call.form.with_shapes) {
        (What::Contour, true) => ("pack_contour", set.pack_contour(rows)),
        (What::Shape, true) => ("pack_shape", set.pack_shape(rows)),
        (What::Shapes, true) => ("pack_shapes", set.pack_shapes(rows)),
        (What::OneMore, true) => ("add_shape", set.add_shape(more, &call.ranges, rows)),
        (What::OneMore, false) => ("add_contour", set.add_contour(more, rows)),
        (_, false) => unreachable!("the library packs into shape sets"),
    }
}
