//! A packing or an addition by the original, and the rows lent to it: as they are
//! before the call, and as document 01 has them after it.

use super::flat::{contour_set, next_records, records, refusal, shape, shape_set, sound};
use super::flat::{write_records, Record, Set};
use super::rows::{Lengths, Rows};
use crate::cleaner::{contour, row};
use crate::line::{length, next_number, Part, Words, MOST_NUMBERS};
use i_shape::flat::buffer::{FlatContoursBuffer, FlatShapesBuffer};
use requests::reply::{domain, Reply, DONE};
use std::fmt;

/// What is packed.
#[derive(Clone, Copy, Debug, PartialEq, Eq)]
pub enum Packed {
    Contour,
    Shape,
    Shapes,
    /// The set and one contour or shape more.
    OneMore,
}

#[derive(Clone, Copy, Debug, PartialEq, Eq)]
pub struct Form {
    pub packed: Packed,
    /// Whether into a shape set; if not, into a contour set.
    pub with_shapes: bool,
}

impl Form {
    pub const COUNT: usize = 8;

    /// The number that the list has for the form.
    pub fn number(self) -> usize {
        self.packed as usize + if self.with_shapes { 4 } else { 0 }
    }

    pub fn numbered(number: usize) -> Option<Form> {
        let packed = [
            Packed::Contour,
            Packed::Shape,
            Packed::Shapes,
            Packed::OneMore,
        ];
        let form = Form {
            packed: packed[number % 4],
            with_shapes: number >= 4,
        };
        (number < Form::COUNT).then_some(form)
    }

    pub fn read(words: &mut Words) -> Result<Form, String> {
        let form = Form::numbered(next_number(words)?);
        form.ok_or("no form has that number".into())
    }

    pub fn all() -> Vec<Form> {
        (0..Form::COUNT).filter_map(Form::numbered).collect()
    }
}

/// One packing or addition, with rows of these lengths. The last `more` numbers of the set's
/// row are what is added, and `ranges` are its contours.
#[derive(Clone, Debug, PartialEq, Eq)]
pub struct Call {
    pub form: Form,
    pub lent: Lengths,
    pub more: usize,
    pub ranges: Vec<Record>,
}

impl Call {
    /// The set's own numbers, and those that are added.
    pub fn split<'a>(&self, all: &'a [i32]) -> (&'a [i32], &'a [i32]) {
        all.split_at(all.len().saturating_sub(self.more))
    }
}

impl fmt::Display for Call {
    fn fmt(&self, out: &mut fmt::Formatter) -> fmt::Result {
        write!(out, "{} {} {}", self.form.number(), self.lent, self.more)?;
        write_records(out, &self.ranges)
    }
}

impl Part for Call {
    fn read(words: &mut Words) -> Result<Call, String> {
        Ok(Call {
            form: Form::read(words)?,
            lent: Lengths::read(words, Lengths::LONGEST)?,
            more: length(words, MOST_NUMBERS)?,
            ranges: next_records(words)?,
        })
    }
}

/// What a packing answers, and the rows after it.
#[derive(Debug, PartialEq, Eq)]
pub struct Packing {
    pub reply: u8,
    pub points: usize,
    pub contours: usize,
    pub shapes: usize,
    pub rows: Rows,
}

pub fn answer(call: &Call, set: &Set) -> Packing {
    let (form, ranges) = (call.form, &call.ranges);
    let all = set.points.all();
    let (points, more) = call.split(&all);
    let rows = Rows::with_canaries(call.lent);
    let stored = match refusal_of(form, points, more, ranges, set) {
        Err(reply) => Err(reply),
        Ok(()) if form.with_shapes => {
            let packed = shapes(form, points, more, ranges, set);
            let contours = records(&packed.contour_ranges);
            stored(
                &rows,
                &row(&packed.points),
                &contours,
                &records(&packed.shape_ranges),
            )
        }
        Ok(()) => {
            let packed = contours(form, points, more, set);
            stored(&rows, &row(&packed.points), &records(&packed.ranges), &[])
        }
    };
    stored.unwrap_or_else(|reply| Packing {
        reply,
        points: 0,
        contours: 0,
        shapes: 0,
        rows,
    })
}

/// The set in front of the rows, if there is room for all of it.
fn stored(rows: &Rows, points: &[i32], contours: &[Record], shapes: &[Record]) -> Reply<Packing> {
    Ok(Packing {
        reply: DONE,
        points: points.len() / 2,
        contours: contours.len(),
        shapes: shapes.len(),
        rows: rows.holding(points, contours, shapes)?,
    })
}

/// The first refusal that is due before the room is looked at: 1, 2, 6, 3.
fn refusal_of(form: Form, points: &[i32], more: &[i32], ranges: &[Record], set: &Set) -> Reply<()> {
    let contours = sound(&set.contours, points.len() / 2);
    let shapes = sound(&set.shapes, set.contours.len());
    let added = sound(ranges, more.len() / 2);
    match (form.packed, form.with_shapes) {
        (Packed::Contour, _) => domain(points),
        (Packed::Shape, _) => refusal(&[points], contours),
        (Packed::Shapes, _) => refusal(&[points], contours && shapes),
        (Packed::OneMore, false) => refusal(&[points, more], contours),
        (Packed::OneMore, true) => refusal(&[points, more], contours && shapes && added),
    }
}

/// The packings that the original's two sets have in common.
macro_rules! pack {
    ($into:expr, $packed:expr, $points:expr, $set:expr) => {
        match $packed {
            Packed::Contour => $into.set_with_contour(&contour($points)),
            Packed::Shape => $into.set_with_shape(&shape($points, &$set.contours)),
            _ => {
                let shapes = shape_set($points, &$set.contours, &$set.shapes).to_shapes();
                $into.set_with_shapes(&shapes);
            }
        }
    };
}

/// The contour set that the original packs, over one that holds something else.
fn contours(form: Form, points: &[i32], more: &[i32], set: &Set) -> FlatContoursBuffer<i32> {
    if form.packed == Packed::OneMore {
        let mut enlarged = contour_set(points, &set.contours);
        enlarged.add_contour(&contour(more));
        return enlarged;
    }
    let mut packed = contour_set(&[1, 2, 3, 4], &[[0, 1], [1, 2]]);
    pack!(packed, form.packed, points, set);
    packed
}

/// The shape set that the original packs, over one that holds something else.
fn shapes(
    form: Form,
    points: &[i32],
    more: &[i32],
    ranges: &[Record],
    set: &Set,
) -> FlatShapesBuffer<i32> {
    if form.packed == Packed::OneMore {
        let mut enlarged = shape_set(points, &set.contours, &set.shapes);
        enlarged.add_shape(&shape(more, ranges));
        return enlarged;
    }
    let mut packed = shape_set(&[1, 2, 3, 4], &[[0, 1], [1, 2]], &[[0, 2]]);
    pack!(packed, form.packed, points, set);
    packed
}

impl fmt::Display for Packing {
    fn fmt(&self, out: &mut fmt::Formatter) -> fmt::Result {
        let counts = [self.points, self.contours, self.shapes].map(|count| count.to_string());
        write!(out, "{} {} {}", self.reply, counts.join(" "), self.rows)
    }
}

#[cfg(test)]
mod tests {
    use super::{answer, Packing};
    use crate::sets::case::{Case, Kind};

    fn packed(line: &str) -> Packing {
        let case: Case = line.parse().unwrap();
        match case.kind {
            Kind::Packing(call) => answer(&call, &case.of),
            Kind::Asked => panic!("{line}"),
        }
    }

    #[test]
    fn a_set_stands_in_front_of_longer_rows() {
        let packing = packed("p 6 5 2 3 0 0 1 0 2 1 0 1 1 2 3 4");
        assert_eq!((packing.reply, packing.points), (0, 2));
        assert_eq!((packing.contours, packing.shapes), (1, 1));
        assert_eq!(packing.rows.out, [1, 2, 3, 4, -7]);
        assert_eq!(packing.rows.records, [[0, 2], [7, 7]]);
        assert_eq!(packing.rows.groups, [[0, 1], [7, 7], [7, 7]]);
    }

    #[test]
    fn an_addition_writes_the_enlarged_set() {
        let packing = packed("p 7 8 3 2 4 2 0 1 1 2 1 0 2 1 0 1 1 2 3 4 5 6 7 8");
        assert_eq!(packing.reply, 0);
        assert_eq!(packing.rows.out, [1, 2, 3, 4, 5, 6, 7, 8]);
        assert_eq!(packing.rows.records, [[0, 2], [2, 3], [3, 4]]);
        assert_eq!(packing.rows.groups, [[0, 1], [1, 3]]);
    }

    #[test]
    fn a_refusal_leaves_the_rows() {
        for (line, reply) in [
            ("p 6 3 1 1 0 0 1 0 2 1 0 1 1 2 3 4", 5),
            ("p 6 4 0 1 0 0 1 0 2 1 0 1 1 2 3 4", 5),
            ("p 6 4 1 0 0 0 1 0 2 1 0 1 1 2 3 4", 5),
            ("p 6 4 1 1 0 0 1 0 2 0 1 2 3 4", 6),
            ("p 3 9 9 9 2 0 0 0 1 2 3 4", 6),
        ] {
            let packing = packed(line);
            assert_eq!(packing.reply, reply, "{line}");
            assert!(
                packing.rows.out.iter().all(|&number| number == -7),
                "{line}"
            );
        }
    }
}
