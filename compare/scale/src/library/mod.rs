//! The functions of libukmerelt.a, called with slices. An empty row that is read is passed as null.

pub mod answer;
mod expected;
mod lent;
#[path = "../../../../bindings/rust/src/library/raw.rs"]
mod raw;

use answer::{
    Area, Cleaned, CleanedSet, Compared, Counted, Drawn, Located, Packed, Read, Salvaged, Verdict,
    Written,
};
pub use lent::Lent;
use lists::cleaner::Cleaner;
use lists::point::Point;
use lists::sets::flat::Record;
use lists::{scratch, sets};
use requests::edition::Edition;
use requests::exact::Bits;
use requests::pool;

/// A start and an end.
type Range = Record;

/// A start, an end, a tool and a press.
type PoolRecord = pool::Record;

/// The scratch of a cleaning.
#[derive(Debug)]
pub struct Scratch {
    pub next: Lent<u32>,
    pub prev: Lent<u32>,
    pub mark: Lent<u8>,
}

impl Scratch {
    pub fn with_canaries(lent: scratch::Lengths) -> Scratch {
        Scratch {
            next: Lent::new(7, lent.next),
            prev: Lent::new(7, lent.prev),
            mark: Lent::new(7, lent.mark),
        }
    }
}

/// The rows that a set is written to.
#[derive(Debug)]
pub struct Rows {
    pub out: Lent<i32>,
    pub records: Lent<Record>,
    pub groups: Lent<Record>,
}

impl Rows {
    pub fn with_canaries(lent: sets::rows::Lengths) -> Rows {
        Rows {
            out: Lent::new(-7, lent.out),
            records: Lent::new([7, 7], lent.records),
            groups: Lent::new([7, 7], lent.groups),
        }
    }
}

fn row<T>(slice: &[T]) -> (*const T, usize) {
    match slice {
        [] => (std::ptr::null(), 0),
        _ => (slice.as_ptr(), slice.len()),
    }
}

fn row_mut<T: Copy + PartialEq>(lent: &mut Lent<T>) -> (*mut T, usize) {
    let row = lent.row_mut();
    (row.as_mut_ptr(), row.len())
}

/// Calls a function with the slices that it reads, the rows that it is lent, and plain numbers.
macro_rules! call {
    ($name:ident($($read:ident),*; $($lent:ident),*; $($number:expr),*)) => {{
        $(let $read = row($read);)*
        $(let $lent = row_mut($lent);)*
        // SAFETY: each row is a slice, or null and empty, and no lent row overlaps another.
        unsafe { raw::$name($($read.0, $read.1,)* $($lent.0, $lent.1,)* $($number),*) }
    }};
}

pub fn area_two(points: &[i32]) -> Area {
    call!(ukm_area_two(points; ;))
}

pub fn area(points: &[i32]) -> Area {
    call!(ukm_area(points; ;))
}

pub fn is_convex(points: &[i32]) -> Verdict {
    call!(ukm_is_convex(points; ;))
}

pub fn is_clockwise(points: &[i32]) -> Verdict {
    call!(ukm_is_clockwise(points; ;))
}

pub fn is_simple(points: &[i32]) -> Verdict {
    call!(ukm_is_simple(points; ;))
}

pub fn has_no_spikes(points: &[i32]) -> Verdict {
    call!(ukm_has_no_spikes(points; ;))
}

pub fn contains(points: &[i32], [x, y]: Point) -> Verdict {
    call!(ukm_contains(points; ; x, y))
}

pub fn locate(points: &[i32], [x, y]: Point) -> Located {
    call!(ukm_locate(points; ; x, y))
}

pub fn cleaned(
    cleaner: Cleaner,
    points: &[i32],
    scratch: &mut Scratch,
    out: &mut Lent<i32>,
) -> Cleaned {
    let Scratch { next, prev, mark } = scratch;
    match cleaner {
        Cleaner::Simplified => call!(ukm_simplified(points; next, prev, mark, out;)),
        Cleaner::Despiked => call!(ukm_despiked(points; next, prev, mark, out;)),
    }
}

pub fn ranges_sound(ranges: &[Record], count: usize) -> bool {
    call!(ukm_ranges_sound(ranges; ; count))
}

/// A set, flat, as it is handed to the library.
#[derive(Clone, Copy)]
pub struct Flat<'a> {
    pub points: &'a [i32],
    pub contours: &'a [Record],
    pub shapes: &'a [Record],
}

impl Flat<'_> {
    pub fn is_simple(self) -> Verdict {
        let Flat {
            points, contours, ..
        } = self;
        call!(ukm_set_is_simple(points, contours; ;))
    }

    pub fn has_no_spikes(self) -> Verdict {
        let Flat {
            points, contours, ..
        } = self;
        call!(ukm_set_has_no_spikes(points, contours; ;))
    }

    pub fn area_two(self) -> Area {
        let Flat {
            points, contours, ..
        } = self;
        call!(ukm_set_area_two(points, contours; ;))
    }

    pub fn area(self) -> Area {
        let Flat {
            points, contours, ..
        } = self;
        call!(ukm_set_area(points, contours; ;))
    }

    pub fn in_shape(self, [x, y]: Point) -> Verdict {
        let Flat {
            points, contours, ..
        } = self;
        call!(ukm_in_shape(points, contours; ; x, y))
    }

    pub fn shapes_is_simple(self) -> Verdict {
        let Flat {
            points,
            contours,
            shapes,
        } = self;
        call!(ukm_shapes_is_simple(points, contours, shapes; ;))
    }

    pub fn shapes_has_no_spikes(self) -> Verdict {
        let Flat {
            points,
            contours,
            shapes,
        } = self;
        call!(ukm_shapes_has_no_spikes(points, contours, shapes; ;))
    }

    pub fn shapes_area_two(self) -> Area {
        let Flat {
            points,
            contours,
            shapes,
        } = self;
        call!(ukm_shapes_area_two(points, contours, shapes; ;))
    }

    pub fn shapes_area(self) -> Area {
        let Flat {
            points,
            contours,
            shapes,
        } = self;
        call!(ukm_shapes_area(points, contours, shapes; ;))
    }

    /// The contours as one shape, cleaned.
    pub fn cleaned_shape(
        self,
        cleaner: Cleaner,
        scratch: &mut Scratch,
        rows: &mut Rows,
    ) -> CleanedSet {
        let Flat {
            points, contours, ..
        } = self;
        let Scratch { next, prev, mark } = scratch;
        let Rows { out, records, .. } = rows;
        match cleaner {
            Cleaner::Simplified => {
                call!(ukm_simplified_shape(points, contours; next, prev, mark, out, records;))
            }
            Cleaner::Despiked => {
                call!(ukm_despiked_shape(points, contours; next, prev, mark, out, records;))
            }
        }
    }

    pub fn fates(self, cleaner: Cleaner, scratch: &mut Scratch, fates: &mut Lent<u8>) -> Counted {
        let Flat {
            points,
            contours,
            shapes,
        } = self;
        let Scratch { next, prev, mark } = scratch;
        match cleaner {
            Cleaner::Simplified => {
                call!(ukm_simplified_fates(points, contours, shapes; next, prev, mark, fates;))
            }
            Cleaner::Despiked => {
                call!(ukm_despiked_fates(points, contours, shapes; next, prev, mark, fates;))
            }
        }
    }

    pub fn cleaned_shapes(
        self,
        cleaner: Cleaner,
        scratch: &mut Scratch,
        rows: &mut Rows,
    ) -> CleanedSet {
        let Flat {
            points,
            contours,
            shapes,
        } = self;
        let Scratch { next, prev, mark } = scratch;
        let Rows {
            out,
            records,
            groups,
        } = rows;
        match cleaner {
            Cleaner::Simplified => {
                call!(ukm_simplified_shapes(points, contours, shapes; next, prev, mark, out, records, groups;))
            }
            Cleaner::Despiked => {
                call!(ukm_despiked_shapes(points, contours, shapes; next, prev, mark, out, records, groups;))
            }
        }
    }

    /// All the points as one contour.
    pub fn pack_contour(self, rows: &mut Rows) -> Packed {
        let Flat { points, .. } = self;
        let Rows {
            out,
            records,
            groups,
        } = rows;
        call!(ukm_pack_contour(points; out, records, groups;))
    }

    /// The contours as one shape.
    pub fn pack_shape(self, rows: &mut Rows) -> Packed {
        let Flat {
            points, contours, ..
        } = self;
        let Rows {
            out,
            records,
            groups,
        } = rows;
        call!(ukm_pack_shape(points, contours; out, records, groups;))
    }

    pub fn pack_shapes(self, rows: &mut Rows) -> Packed {
        let Flat {
            points,
            contours,
            shapes,
        } = self;
        let Rows {
            out,
            records,
            groups,
        } = rows;
        call!(ukm_pack_shapes(points, contours, shapes; out, records, groups;))
    }

    pub fn add_contour(self, contour: &[i32], rows: &mut Rows) -> Packed {
        let Flat {
            points, contours, ..
        } = self;
        let Rows { out, records, .. } = rows;
        call!(ukm_add_contour(points, contours, contour; out, records;))
    }

    pub fn add_shape(self, more: &[i32], ranges: &[Record], rows: &mut Rows) -> Packed {
        let Flat {
            points,
            contours,
            shapes,
        } = self;
        let Rows {
            out,
            records,
            groups,
        } = rows;
        call!(ukm_add_shape(points, contours, shapes, more, ranges; out, records, groups;))
    }

    pub fn write(self, edition: Edition, out: &mut Lent<u8>) -> Written {
        let Flat {
            points,
            contours,
            shapes,
        } = self;
        match edition {
            Edition::One => call!(ukm_write_set(points, contours, shapes; out;)),
            Edition::Two => call!(ukm_write_set_2(points, contours, shapes; out;)),
        }
    }
}

pub fn read_set(file: &[u8], rows: &mut Rows) -> Read {
    let Rows {
        out,
        records,
        groups,
    } = rows;
    call!(ukm_read_set(file; out, records, groups;))
}

pub fn salvage(file: &[u8], out: &mut Lent<u8>, dropped: &mut Lent<Record>) -> Salvaged {
    call!(ukm_salvage(file; out, dropped;))
}

pub fn import_mm(
    kinds: &[u8],
    floats: &[Bits],
    points: &mut Lent<i32>,
    records: &mut Lent<Record>,
) -> Packed {
    let (kinds, floats) = (row(kinds), row(floats));
    let (points, records) = (row_mut(points), row_mut(records));
    // SAFETY: as in `call`; the bits of a float are as long as it is and lie as it does.
    unsafe {
        raw::ukm_import_mm(
            kinds.0,
            kinds.1,
            floats.0.cast(),
            floats.1,
            points.0,
            points.1,
            records.0,
            records.1,
        )
    }
}

pub fn export_mm(
    points: &[i32],
    contours: &[Record],
    kinds: &mut Lent<u8>,
    floats: &mut Lent<Bits>,
) -> Drawn {
    let (points, contours) = (row(points), row(contours));
    let (kinds, floats) = (row_mut(kinds), row_mut(floats));
    // SAFETY: as in `import_mm`.
    unsafe {
        raw::ukm_export_mm(
            points.0,
            points.1,
            contours.0,
            contours.1,
            kinds.0,
            kinds.1,
            floats.0.cast(),
            floats.1,
        )
    }
}

pub fn compare_sets(
    points: &[i32],
    contours: &[Record],
    others: &[i32],
    other_contours: &[Record],
    listing: &mut Lent<Record>,
) -> Compared {
    call!(ukm_compare_sets(points, contours, others, other_contours; listing;))
}

/// A pool that lies in lent rows, and how many records are in use.
#[derive(Debug)]
pub struct Pool {
    pub points: Lent<i32>,
    pub records: Lent<PoolRecord>,
    pub contours: usize,
}

impl Pool {
    pub fn new(rows: &pool::Rows) -> Pool {
        Pool {
            points: Lent::of(-7, &rows.points),
            records: Lent::of([7; 4], &rows.records),
            contours: rows.contours,
        }
    }

    pub fn add(&mut self, second: bool, contour: &[i32]) -> u32 {
        let Pool {
            points,
            records,
            contours,
        } = self;
        let contour = row(contour);
        call!(ukm_pool_add(; points, records; contours, second, contour.0, contour.1))
    }

    pub fn remove(&mut self, second: bool) -> u32 {
        let Pool {
            points,
            records,
            contours,
        } = self;
        call!(ukm_pool_remove(; points, records; contours, second))
    }

    pub fn own(&self, second: bool) -> Counted {
        let (points, records) = self.rows();
        call!(ukm_pool_contours(points, records; ; self.contours, second))
    }

    pub fn held(&self, second: bool) -> Counted {
        let (points, records) = self.rows();
        call!(ukm_pool_held(points, records; ; self.contours, second))
    }

    pub fn free(&self) -> Counted {
        let (points, records) = self.rows();
        call!(ukm_pool_free(points, records; ; self.contours))
    }

    fn rows(&self) -> (&[i32], &[PoolRecord]) {
        (self.points.row(), self.records.row())
    }
}
