//! Shape sets in rows, as the library takes them.

use crate::inputs::numbers;
use crate::linked::Range;
use i_shape::flat::buffer::FlatShapesBuffer;
use i_shape::int::shape::IntShape;

#[derive(Debug, PartialEq, Eq)]
pub struct Flat {
    pub points: Vec<i32>,
    pub contours: Vec<Range>,
    pub shapes: Vec<Range>,
}

impl Flat {
    pub fn of(shapes: &[IntShape<i32>]) -> Flat {
        let mut set = FlatShapesBuffer::default();
        set.set_with_shapes(shapes);
        Flat::from(&set)
    }

    /// Rows that have room for as much.
    pub fn room(&self) -> Flat {
        Flat {
            points: vec![0; self.points.len()],
            contours: vec![[0; 2]; self.contours.len()],
            shapes: vec![[0; 2]; self.shapes.len()],
        }
    }

    /// What stands in front of the rows.
    pub fn front(&self, points: usize, contours: usize, shapes: usize) -> Flat {
        Flat {
            points: self.points[..2 * points].to_vec(),
            contours: self.contours[..contours].to_vec(),
            shapes: self.shapes[..shapes].to_vec(),
        }
    }

    pub fn count(&self) -> usize {
        self.points.len() / 2
    }
}

impl From<&FlatShapesBuffer<i32>> for Flat {
    fn from(set: &FlatShapesBuffer<i32>) -> Flat {
        let ranges = |row: &[std::ops::Range<usize>]| row.iter().map(|r| [r.start, r.end]).collect();
        Flat { points: numbers(&set.points), contours: ranges(&set.contour_ranges), shapes: ranges(&set.shape_ranges) }
    }
}
