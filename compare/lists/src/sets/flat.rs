//! A shape set as document 01 has it: points and ranges, sound or not.

use crate::cleaner::{contour, Contour};
use crate::line::{length, Part, Row, Words};
use crate::point::{Point, MOST_POINTS};
use i_shape::flat::buffer::{FlatContoursBuffer, FlatShapesBuffer};
pub use requests::ranges::{sound, Record};
use requests::reply::{on_grid, refused_if, Reply, ODD, RANGES, TOO_MANY};
use std::fmt;
use std::ops::Range;

/// A case gives at most so many records of each kind.
pub const MOST_RECORDS: usize = 64;

/// Points, the ranges of their contours and those of the shapes.
#[derive(Clone, Debug, Default, PartialEq, Eq)]
pub struct Set {
    pub contours: Vec<Record>,
    pub shapes: Vec<Record>,
    pub points: Row,
}

impl Set {
    /// The set of these shapes, whose contours follow one upon the other.
    pub fn of(shapes: &[Vec<Vec<Point>>]) -> Set {
        let mut set = Set {
            points: Row::wound(&[], 1),
            ..Set::default()
        };
        for shape in shapes {
            let first = set.contours.len();
            for contour in shape {
                let start = set.points.numbers.len() / 2;
                set.contours.push([start, start + contour.len()]);
                set.points.numbers.extend(contour.concat());
            }
            set.shapes.push([first, set.contours.len()]);
        }
        set
    }

    /// Whether the ranges of its contours are sound.
    pub fn sound_contours(&self) -> bool {
        sound(&self.contours, self.points.all().len() / 2)
    }

    /// Whether those of its shapes are sound too.
    pub fn sound_shapes(&self) -> bool {
        self.sound_contours() && sound(&self.shapes, self.contours.len())
    }

    /// Its contours, by the original.
    pub fn to_contours(&self) -> Vec<Contour> {
        contour_set(&self.points.all(), &self.contours).to_contours()
    }

    /// Its shapes, by the original.
    pub fn to_shapes(&self) -> Vec<Vec<Contour>> {
        shape_set(&self.points.all(), &self.contours, &self.shapes).to_shapes()
    }
}

impl fmt::Display for Set {
    fn fmt(&self, out: &mut fmt::Formatter) -> fmt::Result {
        write_records(out, &self.contours)?;
        write_records(out, &self.shapes)?;
        write!(out, "{}", self.points)
    }
}

impl Part for Set {
    fn read(words: &mut Words) -> Result<Set, String> {
        Ok(Set {
            contours: next_records(words)?,
            shapes: next_records(words)?,
            points: Row::read(words)?,
        })
    }
}

pub fn write_records(out: &mut fmt::Formatter, records: &[Record]) -> fmt::Result {
    write!(out, " {}", records.len())?;
    for [start, end] in records {
        write!(out, " {start} {end}")?;
    }
    Ok(())
}

pub fn next_records(words: &mut Words) -> Result<Vec<Record>, String> {
    let count = length(words, MOST_RECORDS)?;
    let mut place = || length(words, i32::MAX as usize);
    (0..count).map(|_| Ok([place()?, place()?])).collect()
}

/// The first refusal that is due over the rows: 1, 2, 6, 3.
pub fn refusal(rows: &[&[i32]], sound: bool) -> Reply<()> {
    let points: usize = rows.iter().map(|row| row.len() / 2).sum();
    refused_if(rows.iter().any(|row| row.len() % 2 == 1), ODD)?;
    refused_if(points > MOST_POINTS, TOO_MANY)?;
    refused_if(!sound, RANGES)?;
    on_grid(&rows.concat())
}

/// The original's contour set of the row and its ranges.
pub fn contour_set(row: &[i32], contours: &[Record]) -> FlatContoursBuffer<i32> {
    FlatContoursBuffer {
        points: contour(row),
        ranges: spans(contours),
    }
}

/// The original's shape set of the row and its ranges.
pub fn shape_set(row: &[i32], contours: &[Record], shapes: &[Record]) -> FlatShapesBuffer<i32> {
    FlatShapesBuffer {
        points: contour(row),
        contour_ranges: spans(contours),
        shape_ranges: spans(shapes),
    }
}

/// The contours of a shape.
pub fn shape(row: &[i32], contours: &[Record]) -> Vec<Contour> {
    contour_set(row, contours).to_contours()
}

fn spans(records: &[Record]) -> Vec<Range<usize>> {
    records.iter().map(|&[start, end]| start..end).collect()
}

pub fn records(spans: &[Range<usize>]) -> Vec<Record> {
    spans.iter().map(|span| [span.start, span.end]).collect()
}

#[cfg(test)]
mod tests {
    use super::refusal;
    use crate::point::LIMIT;

    #[test]
    fn the_first_refusal_that_is_due_is_given() {
        let off = [LIMIT + 1, 0];
        assert_eq!(refusal(&[&off, &[0]], false), Err(1));
        assert_eq!(refusal(&[&off, &[0; 131_072]], false), Err(2));
        assert_eq!(refusal(&[&off, &[0; 131_070]], false), Err(6));
        assert_eq!(refusal(&[&off, &[0; 131_070]], true), Err(3));
        assert_eq!(refusal(&[&[0, 0], &[0; 131_070]], true), Ok(()));
    }
}
