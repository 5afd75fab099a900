//! Sets in flat rows: packing, adding, unpacking, questions and cleanings.

use crate::int::point::IntPoint;
use crate::int::shape::{IntContour, IntShape, IntShapes};
use crate::library::{self, Scratch, MOST};
use crate::refused::{At, Refused};
use crate::{Cleaned, LIMIT};

/// Contours: their points end to end, and for each the start and the end of its own.
///
/// Ranges are sound if the first starts at 0, each starts where the one before ends, none runs backward, and the last
/// ends at the count of points. With others questions, cleanings and additions are refused as [`Refused::Ranges`].
#[derive(Debug, Clone, PartialEq, Eq, Default)]
pub struct FlatContoursBuffer {
    /// The points of all contours, end to end.
    pub points: Vec<IntPoint>,
    /// For each contour where its points start and end.
    pub ranges: Vec<[usize; 2]>,
}

/// Shapes: a contour set, and for each shape the start and the end of its contours.
///
/// The ranges of the shapes are sound in the same way, the last ending at the count of contours, and with others every
/// such call is refused too.
#[derive(Debug, Clone, PartialEq, Eq, Default)]
pub struct FlatShapesBuffer {
    /// The points of all contours, end to end.
    pub points: Vec<IntPoint>,
    /// For each contour where its points start and end.
    pub contour_ranges: Vec<[usize; 2]>,
    /// For each shape where its contours start and end.
    pub shape_ranges: Vec<[usize; 2]>,
}

impl FlatContoursBuffer {
    /// Takes room for so many points, but for no more than the 65,536 that a set may have.
    pub fn with_capacity(capacity: usize) -> Self {
        FlatContoursBuffer {
            points: Vec::with_capacity(capacity.min(MOST)),
            ranges: Vec::new(),
        }
    }

    /// Whether there are no points, even with ranges.
    pub fn is_empty(&self) -> bool {
        self.points.is_empty()
    }

    /// Whether there is exactly one range.
    pub fn is_single_contour(&self) -> bool {
        self.ranges.len() == 1
    }

    /// The first contour: all points where there are no ranges, and none where the first range is beyond them.
    pub fn as_first_contour(&self) -> &[IntPoint] {
        match self.ranges.first() {
            Some(&[start, end]) => self.points.get(start..end).unwrap_or(&[]),
            None => &self.points,
        }
    }

    /// The first contour, to be written to.
    pub fn as_first_contour_mut(&mut self) -> &mut [IntPoint] {
        match self.ranges.first() {
            Some(&[start, end]) => self.points.get_mut(start..end).unwrap_or(&mut []),
            None => &mut self.points,
        }
    }

    /// Becomes the set of one contour; stays as it is where that is refused, as with every `set_with` and `add`.
    pub fn set_with_contour(&mut self, contour: &[IntPoint]) -> Result<(), Refused> {
        let mut set = FlatContoursBuffer::default();
        set.add_contour(contour)?;
        *self = set;
        Ok(())
    }

    /// Becomes the set of the contours of a shape.
    pub fn set_with_shape(&mut self, shape: &[IntContour]) -> Result<(), Refused> {
        let mut set = FlatShapesBuffer::default();
        set.set_with_shape(shape)?;
        *self = set.into_contours();
        Ok(())
    }

    /// Becomes the set of all contours of the shapes; where a shape ends is dropped.
    pub fn set_with_shapes(&mut self, shapes: &[IntShape]) -> Result<(), Refused> {
        let mut set = FlatShapesBuffer::default();
        set.set_with_shapes(shapes)?;
        *self = set.into_contours();
        Ok(())
    }

    /// Takes room for so many of each, but for no more than 65,536.
    pub fn clear_and_reserve(&mut self, points: usize, contours: usize) {
        clear_and_reserve(&mut self.points, points);
        clear_and_reserve(&mut self.ranges, contours);
    }

    /// Adds one contour. The whole set is written anew: make a large one by `set_with_shape`.
    pub fn add_contour(&mut self, contour: &[IntPoint]) -> Result<(), Refused> {
        let mut set =
            FlatContoursBuffer::rows(self.points.len() + contour.len(), self.ranges.len() + 1)?;
        library::add_contour(
            &self.points,
            &self.ranges,
            contour,
            &mut set.points,
            &mut set.ranges,
        )
        .read()?;
        *self = set;
        Ok(())
    }

    /// The contours by themselves. Refused as `TooMany` or `Ranges`; where the points lie is not asked.
    pub fn to_contours(&self) -> Result<Vec<IntContour>, Refused> {
        library::at_most(self.points.len())?;
        check_sound(&self.ranges, self.points.len())?;
        Ok(self.contours())
    }

    /// Whether every contour is simple.
    pub fn is_simple(&self) -> Result<bool, Refused> {
        library::set_is_simple(&self.points, &self.ranges)
            .read()
            .at(&self.points, &self.ranges, LIMIT)
    }

    /// Whether no contour has spikes.
    pub fn has_no_spikes(&self) -> Result<bool, Refused> {
        library::set_has_no_spikes(&self.points, &self.ranges)
            .read()
            .at(&self.points, &self.ranges, LIMIT)
    }

    /// Whether the set, as a shape, has the point: it is inside the first contour or on its boundary, and inside no later
    /// one. So the rims of the outline and of the holes belong to the shape.
    pub fn in_shape(&self, point: IntPoint) -> Result<bool, Refused> {
        library::in_shape(&self.points, &self.ranges, point)
            .read()
            .at(&self.points, &self.ranges, LIMIT)
    }

    /// The set, as a shape, simplified: see [`SimpleShape`](crate::int::simple::SimpleShape).
    pub fn simplified(&self) -> Result<Cleaned<FlatContoursBuffer>, Refused> {
        let mut out = FlatContoursBuffer::rows(self.points.len(), self.ranges.len())?;
        library::simplified_shape(
            &self.points,
            &self.ranges,
            &mut Scratch::default(),
            &mut out.points,
            &mut out.ranges,
        )
        .read_contours(out)
        .at(&self.points, &self.ranges, LIMIT)
    }

    /// The set, as a shape, despiked: see [`DeSpikeShape`](crate::int::despike::DeSpikeShape).
    pub fn despiked_shape(&self) -> Result<Cleaned<FlatContoursBuffer>, Refused> {
        let mut out = FlatContoursBuffer::rows(self.points.len(), self.ranges.len())?;
        library::despiked_shape(
            &self.points,
            &self.ranges,
            &mut Scratch::default(),
            &mut out.points,
            &mut out.ranges,
        )
        .read_contours(out)
        .at(&self.points, &self.ranges, LIMIT)
    }

    /// The contours end to end, as they are.
    pub(crate) fn of_shape(shape: &[IntContour]) -> Result<Self, Refused> {
        let points = points_in(shape);
        library::at_most(points)?;
        let mut set = FlatContoursBuffer {
            points: Vec::with_capacity(points),
            ranges: Vec::with_capacity(shape.len()),
        };
        append(shape, &mut set.points, &mut set.ranges);
        Ok(set)
    }

    /// The contours of sound ranges.
    pub(crate) fn contours(&self) -> Vec<IntContour> {
        parts(&self.points, &self.ranges)
    }

    /// Rows to be lent for so many points and contours.
    pub(crate) fn rows(points: usize, contours: usize) -> Result<Self, Refused> {
        Ok(FlatContoursBuffer {
            points: library::room(points)?,
            ranges: vec![[0, 0]; contours],
        })
    }
}

impl FlatShapesBuffer {
    /// Takes room for so many of each, but for no more than 65,536.
    pub fn with_capacity(points: usize, contours: usize, shapes: usize) -> Self {
        let mut set = FlatShapesBuffer::default();
        set.clear_and_reserve(points, contours, shapes);
        set
    }

    /// Whether there are no points, even with ranges.
    pub fn is_empty(&self) -> bool {
        self.points.is_empty()
    }

    /// Becomes the set of one shape of one contour; stays as it is where that is refused, as with every `set_with` and
    /// `add`.
    pub fn set_with_contour(&mut self, contour: &[IntPoint]) -> Result<(), Refused> {
        let mut set = FlatShapesBuffer::rows(contour.len(), 1, 1)?;
        library::pack_contour(
            contour,
            &mut set.points,
            &mut set.contour_ranges,
            &mut set.shape_ranges,
        )
        .read()?;
        *self = set;
        Ok(())
    }

    /// Becomes the set of one shape.
    pub fn set_with_shape(&mut self, shape: &[IntContour]) -> Result<(), Refused> {
        let from = FlatContoursBuffer::of_shape(shape)?;
        let mut set = FlatShapesBuffer::rows(from.points.len(), from.ranges.len(), 1)?;
        library::pack_shape(
            &from.points,
            &from.ranges,
            &mut set.points,
            &mut set.contour_ranges,
            &mut set.shape_ranges,
        )
        .read()?;
        *self = set;
        Ok(())
    }

    /// Becomes the set of the shapes.
    pub fn set_with_shapes(&mut self, shapes: &[IntShape]) -> Result<(), Refused> {
        let from = FlatShapesBuffer::of_shapes(shapes)?;
        let mut set = from.rows_alike()?;
        library::pack_shapes(
            &from.points,
            &from.contour_ranges,
            &from.shape_ranges,
            &mut set.points,
            &mut set.contour_ranges,
            &mut set.shape_ranges,
        )
        .read()?;
        *self = set;
        Ok(())
    }

    /// Takes room for so many of each, but for no more than 65,536.
    pub fn clear_and_reserve(&mut self, points: usize, contours: usize, shapes: usize) {
        clear_and_reserve(&mut self.points, points);
        clear_and_reserve(&mut self.contour_ranges, contours);
        clear_and_reserve(&mut self.shape_ranges, shapes);
    }

    /// Adds one shape. The whole set is written anew: make a large one by `set_with_shapes`.
    pub fn add_shape(&mut self, shape: &[IntContour]) -> Result<(), Refused> {
        let mut set = FlatShapesBuffer::rows(
            self.points.len() + points_in(shape),
            self.contour_ranges.len() + shape.len(),
            self.shape_ranges.len() + 1,
        )?;
        let more = FlatContoursBuffer::of_shape(shape)?;
        library::add_shape(
            &self.points,
            &self.contour_ranges,
            &self.shape_ranges,
            &more.points,
            &more.ranges,
            &mut set.points,
            &mut set.contour_ranges,
            &mut set.shape_ranges,
        )
        .read()?;
        *self = set;
        Ok(())
    }

    /// The shapes by themselves. Refused as `TooMany` or `Ranges`; where the points lie is not asked.
    pub fn to_shapes(&self) -> Result<IntShapes, Refused> {
        library::at_most(self.points.len())?;
        check_sound(&self.contour_ranges, self.points.len())?;
        check_sound(&self.shape_ranges, self.contour_ranges.len())?;
        Ok(self.shapes())
    }

    /// Whether every contour is simple.
    pub fn is_simple(&self) -> Result<bool, Refused> {
        library::shapes_is_simple(&self.points, &self.contour_ranges, &self.shape_ranges)
            .read()
            .at(&self.points, &self.contour_ranges, LIMIT)
    }

    /// Whether no contour has spikes.
    pub fn has_no_spikes(&self) -> Result<bool, Refused> {
        library::shapes_has_no_spikes(&self.points, &self.contour_ranges, &self.shape_ranges)
            .read()
            .at(&self.points, &self.contour_ranges, LIMIT)
    }

    /// The shapes, each simplified: see [`SimpleShapes`](crate::int::simple::SimpleShapes).
    pub fn simplified(&self) -> Result<Cleaned<FlatShapesBuffer>, Refused> {
        let mut out = self.rows_alike()?;
        library::simplified_shapes(
            &self.points,
            &self.contour_ranges,
            &self.shape_ranges,
            &mut Scratch::default(),
            &mut out.points,
            &mut out.contour_ranges,
            &mut out.shape_ranges,
        )
        .read_shapes(out)
        .at(&self.points, &self.contour_ranges, LIMIT)
    }

    /// The shapes, each despiked: see [`DeSpikeShapes`](crate::int::despike::DeSpikeShapes).
    pub fn despiked_shapes(&self) -> Result<Cleaned<FlatShapesBuffer>, Refused> {
        let mut out = self.rows_alike()?;
        library::despiked_shapes(
            &self.points,
            &self.contour_ranges,
            &self.shape_ranges,
            &mut Scratch::default(),
            &mut out.points,
            &mut out.contour_ranges,
            &mut out.shape_ranges,
        )
        .read_shapes(out)
        .at(&self.points, &self.contour_ranges, LIMIT)
    }

    /// The shapes end to end, as they are.
    pub(crate) fn of_shapes(shapes: &[IntShape]) -> Result<Self, Refused> {
        let points = shapes.iter().map(|shape| points_in(shape)).sum();
        library::at_most(points)?;
        let mut set = FlatShapesBuffer {
            points: Vec::with_capacity(points),
            contour_ranges: Vec::with_capacity(shapes.iter().map(Vec::len).sum()),
            shape_ranges: Vec::with_capacity(shapes.len()),
        };
        for shape in shapes {
            let start = set.contour_ranges.len();
            append(shape, &mut set.points, &mut set.contour_ranges);
            set.shape_ranges.push([start, set.contour_ranges.len()]);
        }
        Ok(set)
    }

    /// The shapes of sound ranges.
    pub(crate) fn shapes(&self) -> IntShapes {
        self.shape_ranges
            .iter()
            .map(|&[start, end]| parts(&self.points, &self.contour_ranges[start..end]))
            .collect()
    }

    fn into_contours(self) -> FlatContoursBuffer {
        FlatContoursBuffer {
            points: self.points,
            ranges: self.contour_ranges,
        }
    }

    fn rows_alike(&self) -> Result<Self, Refused> {
        FlatShapesBuffer::rows(
            self.points.len(),
            self.contour_ranges.len(),
            self.shape_ranges.len(),
        )
    }

    /// Rows to be lent for so many points, contours and shapes.
    pub(crate) fn rows(points: usize, contours: usize, shapes: usize) -> Result<Self, Refused> {
        Ok(FlatShapesBuffer {
            points: library::room(points)?,
            contour_ranges: vec![[0, 0]; contours],
            shape_ranges: vec![[0, 0]; shapes],
        })
    }
}

fn clear_and_reserve<T>(row: &mut Vec<T>, room: usize) {
    row.clear();
    row.reserve(room.min(MOST));
}

fn points_in(shape: &[IntContour]) -> usize {
    shape.iter().map(Vec::len).sum()
}

/// Puts the contours behind the points, and their ranges behind the ranges.
fn append(shape: &[IntContour], points: &mut Vec<IntPoint>, ranges: &mut Vec<[usize; 2]>) {
    for contour in shape {
        let start = points.len();
        points.extend_from_slice(contour);
        ranges.push([start, points.len()]);
    }
}

fn check_sound(ranges: &[[usize; 2]], count: usize) -> Result<(), Refused> {
    if library::ranges_sound(ranges, count) {
        Ok(())
    } else {
        Err(Refused::Ranges)
    }
}

/// The parts of the points that sound ranges name.
fn parts(points: &[IntPoint], ranges: &[[usize; 2]]) -> Vec<IntContour> {
    ranges
        .iter()
        .map(|&[start, end]| points[start..end].to_vec())
        .collect()
}
