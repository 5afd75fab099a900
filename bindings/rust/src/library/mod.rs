//! The functions of libukmerelt.a, called with slices.

mod answer;
mod raw;

use crate::drawing::Place;
use crate::int::point::IntPoint;
use crate::refused::Refused;
use answer::{
    Area, Cleaned, CleanedSet, Compared, Counted, Drawn, Located, Packed, Read, Salvaged, Verdict,
    Written,
};

/// A start and an end, laid as `UkmRange` of the header is.
pub type Range = [usize; 2];

/// A start, an end, a tool and a press, laid as `UkmRecord` of the header is.
pub type PoolRecord = [usize; 4];

/// The most points of a contour or a set, and the most bytes of a file.
pub const MOST: usize = 65_536;

/// Refuses more than `MOST` points, or bytes of a file, before anything is allocated for them. No count of coordinates is
/// odd here, so this is what the library would refuse first, whatever else is wrong.
pub fn at_most(count: usize) -> Result<(), Refused> {
    if count <= MOST {
        Ok(())
    } else {
        Err(Refused::TooMany)
    }
}

/// A row of n points to be lent.
pub fn room(n: usize) -> Result<Vec<IntPoint>, Refused> {
    at_most(n)?;
    Ok(vec![IntPoint::ZERO; n])
}

/// The rows that a walk works in.
#[derive(Debug, Default)]
pub struct Scratch {
    next: Vec<u32>,
    prev: Vec<u32>,
    mark: Vec<u8>,
}

impl Scratch {
    /// The three rows, with an entry for each of n points at least.
    fn lend(&mut self, n: usize) -> (&mut [u32], &mut [u32], &mut [u8]) {
        if self.mark.len() < n {
            self.next.resize(n, 0);
            self.prev.resize(n, 0);
            self.mark.resize(n, 0);
        }
        (&mut self.next, &mut self.prev, &mut self.mark)
    }
}

/// What a slice is made of, and how many of the library's elements each is.
pub trait Element {
    type Number;
    const NUMBERS: usize = 1;
}

impl Element for IntPoint {
    type Number = i32;
    const NUMBERS: usize = 2;
}

impl Element for Place {
    type Number = f64;
    const NUMBERS: usize = 2;
}

impl Element for f64 {
    type Number = f64;
}

impl Element for Range {
    type Number = Range;
}

impl Element for PoolRecord {
    type Number = PoolRecord;
}

impl Element for u32 {
    type Number = u32;
}

impl Element for u8 {
    type Number = u8;
}

fn row<T: Element>(slice: &[T]) -> (*const T::Number, usize) {
    (slice.as_ptr().cast(), T::NUMBERS * slice.len())
}

fn row_mut<T: Element>(slice: &mut [T]) -> (*mut T::Number, usize) {
    let length = T::NUMBERS * slice.len();
    (slice.as_mut_ptr().cast(), length)
}

/// Calls a function with the slices that it reads, those that it is lent for writing, and plain numbers.
macro_rules! call {
    ($name:ident($($read:ident),*; $($lent:ident),*; $($number:expr),*)) => {{
        $(let $read = row($read);)*
        $(let $lent = row_mut($lent);)*
        // SAFETY: each row is a slice, so it is aligned and readable over its length; a `&mut` slice overlaps no other;
        // a point or a place is two numbers in a row, x and y. The library asks for nothing else and keeps nothing.
        unsafe { raw::$name($($read.0, $read.1,)* $($lent.0, $lent.1,)* $($number),*) }
    }};
}

pub fn area_two(points: &[IntPoint]) -> Area {
    call!(ukm_area_two(points; ;))
}

pub fn area(points: &[IntPoint]) -> Area {
    call!(ukm_area(points; ;))
}

pub fn is_convex(points: &[IntPoint]) -> Verdict {
    call!(ukm_is_convex(points; ;))
}

pub fn is_clockwise(points: &[IntPoint]) -> Verdict {
    call!(ukm_is_clockwise(points; ;))
}

pub fn is_simple(points: &[IntPoint]) -> Verdict {
    call!(ukm_is_simple(points; ;))
}

pub fn has_no_spikes(points: &[IntPoint]) -> Verdict {
    call!(ukm_has_no_spikes(points; ;))
}

pub fn contains(points: &[IntPoint], p: IntPoint) -> Verdict {
    call!(ukm_contains(points; ; p.x, p.y))
}

pub fn locate(points: &[IntPoint], p: IntPoint) -> Located {
    call!(ukm_locate(points; ; p.x, p.y))
}

pub fn simplified(points: &[IntPoint], scratch: &mut Scratch, out: &mut [IntPoint]) -> Cleaned {
    let (next, prev, mark) = scratch.lend(points.len());
    call!(ukm_simplified(points; next, prev, mark, out;))
}

pub fn despiked(points: &[IntPoint], scratch: &mut Scratch, out: &mut [IntPoint]) -> Cleaned {
    let (next, prev, mark) = scratch.lend(points.len());
    call!(ukm_despiked(points; next, prev, mark, out;))
}

pub fn ranges_sound(ranges: &[Range], count: usize) -> bool {
    call!(ukm_ranges_sound(ranges; ; count))
}

pub fn set_is_simple(points: &[IntPoint], ranges: &[Range]) -> Verdict {
    call!(ukm_set_is_simple(points, ranges; ;))
}

pub fn set_has_no_spikes(points: &[IntPoint], ranges: &[Range]) -> Verdict {
    call!(ukm_set_has_no_spikes(points, ranges; ;))
}

pub fn set_area_two(points: &[IntPoint], ranges: &[Range]) -> Area {
    call!(ukm_set_area_two(points, ranges; ;))
}

pub fn set_area(points: &[IntPoint], ranges: &[Range]) -> Area {
    call!(ukm_set_area(points, ranges; ;))
}

pub fn in_shape(points: &[IntPoint], ranges: &[Range], p: IntPoint) -> Verdict {
    call!(ukm_in_shape(points, ranges; ; p.x, p.y))
}

pub fn shapes_is_simple(points: &[IntPoint], contours: &[Range], shapes: &[Range]) -> Verdict {
    call!(ukm_shapes_is_simple(points, contours, shapes; ;))
}

pub fn shapes_has_no_spikes(points: &[IntPoint], contours: &[Range], shapes: &[Range]) -> Verdict {
    call!(ukm_shapes_has_no_spikes(points, contours, shapes; ;))
}

pub fn shapes_area_two(points: &[IntPoint], contours: &[Range], shapes: &[Range]) -> Area {
    call!(ukm_shapes_area_two(points, contours, shapes; ;))
}

pub fn shapes_area(points: &[IntPoint], contours: &[Range], shapes: &[Range]) -> Area {
    call!(ukm_shapes_area(points, contours, shapes; ;))
}

pub fn simplified_shape(
    points: &[IntPoint],
    ranges: &[Range],
    scratch: &mut Scratch,
    out: &mut [IntPoint],
    records: &mut [Range],
) -> CleanedSet {
    let (next, prev, mark) = scratch.lend(points.len());
    call!(ukm_simplified_shape(points, ranges; next, prev, mark, out, records;))
}

pub fn despiked_shape(
    points: &[IntPoint],
    ranges: &[Range],
    scratch: &mut Scratch,
    out: &mut [IntPoint],
    records: &mut [Range],
) -> CleanedSet {
    let (next, prev, mark) = scratch.lend(points.len());
    call!(ukm_despiked_shape(points, ranges; next, prev, mark, out, records;))
}

pub fn simplified_shapes(
    points: &[IntPoint],
    contours: &[Range],
    shapes: &[Range],
    scratch: &mut Scratch,
    out: &mut [IntPoint],
    records: &mut [Range],
    groups: &mut [Range],
) -> CleanedSet {
    let (next, prev, mark) = scratch.lend(points.len());
    call!(ukm_simplified_shapes(points, contours, shapes; next, prev, mark, out, records, groups;))
}

pub fn despiked_shapes(
    points: &[IntPoint],
    contours: &[Range],
    shapes: &[Range],
    scratch: &mut Scratch,
    out: &mut [IntPoint],
    records: &mut [Range],
    groups: &mut [Range],
) -> CleanedSet {
    let (next, prev, mark) = scratch.lend(points.len());
    call!(ukm_despiked_shapes(points, contours, shapes; next, prev, mark, out, records, groups;))
}

/// Of the points, the contours and the shapes of a set, with scratch, into the row for the fates.
pub type Fates = fn(&[IntPoint], &[Range], &[Range], &mut Scratch, &mut [u8]) -> Counted;

pub fn simplified_fates(
    points: &[IntPoint],
    contours: &[Range],
    shapes: &[Range],
    scratch: &mut Scratch,
    fates: &mut [u8],
) -> Counted {
    let (next, prev, mark) = scratch.lend(points.len());
    call!(ukm_simplified_fates(points, contours, shapes; next, prev, mark, fates;))
}

pub fn despiked_fates(
    points: &[IntPoint],
    contours: &[Range],
    shapes: &[Range],
    scratch: &mut Scratch,
    fates: &mut [u8],
) -> Counted {
    let (next, prev, mark) = scratch.lend(points.len());
    call!(ukm_despiked_fates(points, contours, shapes; next, prev, mark, fates;))
}

pub fn pack_contour(
    contour: &[IntPoint],
    out: &mut [IntPoint],
    records: &mut [Range],
    groups: &mut [Range],
) -> Packed {
    call!(ukm_pack_contour(contour; out, records, groups;))
}

pub fn pack_shape(
    points: &[IntPoint],
    ranges: &[Range],
    out: &mut [IntPoint],
    records: &mut [Range],
    groups: &mut [Range],
) -> Packed {
    call!(ukm_pack_shape(points, ranges; out, records, groups;))
}

pub fn pack_shapes(
    points: &[IntPoint],
    contours: &[Range],
    shapes: &[Range],
    out: &mut [IntPoint],
    records: &mut [Range],
    groups: &mut [Range],
) -> Packed {
    call!(ukm_pack_shapes(points, contours, shapes; out, records, groups;))
}

pub fn add_contour(
    points: &[IntPoint],
    ranges: &[Range],
    contour: &[IntPoint],
    out: &mut [IntPoint],
    records: &mut [Range],
) -> Packed {
    call!(ukm_add_contour(points, ranges, contour; out, records;))
}

#[allow(clippy::too_many_arguments)]
pub fn add_shape(
    points: &[IntPoint],
    contours: &[Range],
    shapes: &[Range],
    more: &[IntPoint],
    ranges: &[Range],
    out: &mut [IntPoint],
    records: &mut [Range],
    groups: &mut [Range],
) -> Packed {
    call!(ukm_add_shape(points, contours, shapes, more, ranges; out, records, groups;))
}

pub fn read_set(
    bytes: &[u8],
    out: &mut [IntPoint],
    records: &mut [Range],
    groups: &mut [Range],
) -> Read {
    call!(ukm_read_set(bytes; out, records, groups;))
}

pub fn write_set(
    points: &[IntPoint],
    contours: &[Range],
    shapes: &[Range],
    bytes: &mut [u8],
) -> Written {
    call!(ukm_write_set(points, contours, shapes; bytes;))
}

pub fn write_set_2(
    points: &[IntPoint],
    contours: &[Range],
    shapes: &[Range],
    bytes: &mut [u8],
) -> Written {
    call!(ukm_write_set_2(points, contours, shapes; bytes;))
}

pub fn salvage(bytes: &[u8], out: &mut [u8], dropped: &mut [[usize; 2]]) -> Salvaged {
    call!(ukm_salvage(bytes; out, dropped;))
}

/// The floats are places, or two for each.
pub fn import_mm<F: Element<Number = f64>>(
    kinds: &[u8],
    floats: &[F],
    points: &mut [IntPoint],
    records: &mut [Range],
) -> Packed {
    call!(ukm_import_mm(kinds, floats; points, records;))
}

pub fn export_mm(
    points: &[IntPoint],
    contours: &[Range],
    kinds: &mut [u8],
    places: &mut [Place],
) -> Drawn {
    call!(ukm_export_mm(points, contours; kinds, places;))
}

pub fn compare_sets(
    points: &[IntPoint],
    contours: &[Range],
    others: &[IntPoint],
    other_contours: &[Range],
    listing: &mut [[usize; 2]],
) -> Compared {
    call!(ukm_compare_sets(points, contours, others, other_contours; listing;))
}

pub fn pool_add(
    points: &mut [IntPoint],
    records: &mut [PoolRecord],
    contours: &mut usize,
    second: bool,
    contour: &[IntPoint],
) -> u32 {
    let contour = row(contour);
    call!(ukm_pool_add(; points, records; contours, second, contour.0, contour.1))
}

pub fn pool_remove(
    points: &mut [IntPoint],
    records: &mut [PoolRecord],
    contours: &mut usize,
    second: bool,
) -> u32 {
    call!(ukm_pool_remove(; points, records; contours, second))
}

pub fn pool_contours(
    points: &[IntPoint],
    records: &[PoolRecord],
    contours: usize,
    second: bool,
) -> Counted {
    call!(ukm_pool_contours(points, records; ; contours, second))
}

pub fn pool_held(
    points: &[IntPoint],
    records: &[PoolRecord],
    contours: usize,
    second: bool,
) -> Counted {
    call!(ukm_pool_held(points, records; ; contours, second))
}

pub fn pool_free(points: &[IntPoint], records: &[PoolRecord], contours: usize) -> Counted {
    call!(ukm_pool_free(points, records; ; contours))
}
