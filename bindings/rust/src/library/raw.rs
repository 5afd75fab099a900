//! The functions of libukmerelt.a, as bindings/c/ukmerelt.h declares them.

use super::answer::{
    Area, Cleaned, CleanedSet, Compared, Counted, Drawn, Located, Packed, Read, Salvaged, Verdict,
    Written,
};
use super::{PoolRecord, Range};

extern "C" {
    pub fn ukm_area_two(points: *const i32, points_len: usize) -> Area;
    pub fn ukm_area(points: *const i32, points_len: usize) -> Area;
    pub fn ukm_is_convex(points: *const i32, points_len: usize) -> Verdict;
    pub fn ukm_is_clockwise(points: *const i32, points_len: usize) -> Verdict;
    pub fn ukm_is_simple(points: *const i32, points_len: usize) -> Verdict;
    pub fn ukm_has_no_spikes(points: *const i32, points_len: usize) -> Verdict;
    pub fn ukm_contains(points: *const i32, points_len: usize, x: i32, y: i32) -> Verdict;
    pub fn ukm_locate(points: *const i32, points_len: usize, x: i32, y: i32) -> Located;
    pub fn ukm_simplified(
        points: *const i32,
        points_len: usize,
        next: *mut u32,
        next_len: usize,
        prev: *mut u32,
        prev_len: usize,
        mark: *mut u8,
        mark_len: usize,
        out: *mut i32,
        out_len: usize,
    ) -> Cleaned;
    pub fn ukm_despiked(
        points: *const i32,
        points_len: usize,
        next: *mut u32,
        next_len: usize,
        prev: *mut u32,
        prev_len: usize,
        mark: *mut u8,
        mark_len: usize,
        out: *mut i32,
        out_len: usize,
    ) -> Cleaned;
    pub fn ukm_ranges_sound(ranges: *const Range, ranges_len: usize, count: usize) -> bool;
    pub fn ukm_set_is_simple(
        points: *const i32,
        points_len: usize,
        ranges: *const Range,
        ranges_len: usize,
    ) -> Verdict;
    pub fn ukm_set_has_no_spikes(
        points: *const i32,
        points_len: usize,
        ranges: *const Range,
        ranges_len: usize,
    ) -> Verdict;
    pub fn ukm_set_area_two(
        points: *const i32,
        points_len: usize,
        ranges: *const Range,
        ranges_len: usize,
    ) -> Area;
    pub fn ukm_set_area(
        points: *const i32,
        points_len: usize,
        ranges: *const Range,
        ranges_len: usize,
    ) -> Area;
    pub fn ukm_in_shape(
        points: *const i32,
        points_len: usize,
        ranges: *const Range,
        ranges_len: usize,
        x: i32,
        y: i32,
    ) -> Verdict;
    pub fn ukm_shapes_is_simple(
        points: *const i32,
        points_len: usize,
        contours: *const Range,
        contours_len: usize,
        shapes: *const Range,
        shapes_len: usize,
    ) -> Verdict;
    pub fn ukm_shapes_has_no_spikes(
        points: *const i32,
        points_len: usize,
        contours: *const Range,
        contours_len: usize,
        shapes: *const Range,
        shapes_len: usize,
    ) -> Verdict;
    pub fn ukm_shapes_area_two(
        points: *const i32,
        points_len: usize,
        contours: *const Range,
        contours_len: usize,
        shapes: *const Range,
        shapes_len: usize,
    ) -> Area;
    pub fn ukm_shapes_area(
        points: *const i32,
        points_len: usize,
        contours: *const Range,
        contours_len: usize,
        shapes: *const Range,
        shapes_len: usize,
    ) -> Area;
    pub fn ukm_simplified_shape(
        points: *const i32,
        points_len: usize,
        ranges: *const Range,
        ranges_len: usize,
        next: *mut u32,
        next_len: usize,
        prev: *mut u32,
        prev_len: usize,
        mark: *mut u8,
        mark_len: usize,
        out: *mut i32,
        out_len: usize,
        records: *mut Range,
        records_len: usize,
    ) -> CleanedSet;
    pub fn ukm_despiked_shape(
        points: *const i32,
        points_len: usize,
        ranges: *const Range,
        ranges_len: usize,
        next: *mut u32,
        next_len: usize,
        prev: *mut u32,
        prev_len: usize,
        mark: *mut u8,
        mark_len: usize,
        out: *mut i32,
        out_len: usize,
        records: *mut Range,
        records_len: usize,
    ) -> CleanedSet;
    pub fn ukm_simplified_shapes(
        points: *const i32,
        points_len: usize,
        contours: *const Range,
        contours_len: usize,
        shapes: *const Range,
        shapes_len: usize,
        next: *mut u32,
        next_len: usize,
        prev: *mut u32,
        prev_len: usize,
        mark: *mut u8,
        mark_len: usize,
        out: *mut i32,
        out_len: usize,
        records: *mut Range,
        records_len: usize,
        groups: *mut Range,
        groups_len: usize,
    ) -> CleanedSet;
    pub fn ukm_despiked_shapes(
        points: *const i32,
        points_len: usize,
        contours: *const Range,
        contours_len: usize,
        shapes: *const Range,
        shapes_len: usize,
        next: *mut u32,
        next_len: usize,
        prev: *mut u32,
        prev_len: usize,
        mark: *mut u8,
        mark_len: usize,
        out: *mut i32,
        out_len: usize,
        records: *mut Range,
        records_len: usize,
        groups: *mut Range,
        groups_len: usize,
    ) -> CleanedSet;
    pub fn ukm_simplified_fates(
        points: *const i32,
        points_len: usize,
        contours: *const Range,
        contours_len: usize,
        shapes: *const Range,
        shapes_len: usize,
        next: *mut u32,
        next_len: usize,
        prev: *mut u32,
        prev_len: usize,
        mark: *mut u8,
        mark_len: usize,
        fates: *mut u8,
        fates_len: usize,
    ) -> Counted;
    pub fn ukm_despiked_fates(
        points: *const i32,
        points_len: usize,
        contours: *const Range,
        contours_len: usize,
        shapes: *const Range,
        shapes_len: usize,
        next: *mut u32,
        next_len: usize,
        prev: *mut u32,
        prev_len: usize,
        mark: *mut u8,
        mark_len: usize,
        fates: *mut u8,
        fates_len: usize,
    ) -> Counted;
    pub fn ukm_pack_contour(
        contour: *const i32,
        contour_len: usize,
        out: *mut i32,
        out_len: usize,
        records: *mut Range,
        records_len: usize,
        groups: *mut Range,
        groups_len: usize,
    ) -> Packed;
    pub fn ukm_pack_shape(
        points: *const i32,
        points_len: usize,
        ranges: *const Range,
        ranges_len: usize,
        out: *mut i32,
        out_len: usize,
        records: *mut Range,
        records_len: usize,
        groups: *mut Range,
        groups_len: usize,
    ) -> Packed;
    pub fn ukm_pack_shapes(
        points: *const i32,
        points_len: usize,
        contours: *const Range,
        contours_len: usize,
        shapes: *const Range,
        shapes_len: usize,
        out: *mut i32,
        out_len: usize,
        records: *mut Range,
        records_len: usize,
        groups: *mut Range,
        groups_len: usize,
    ) -> Packed;
    pub fn ukm_add_contour(
        points: *const i32,
        points_len: usize,
        ranges: *const Range,
        ranges_len: usize,
        contour: *const i32,
        contour_len: usize,
        out: *mut i32,
        out_len: usize,
        records: *mut Range,
        records_len: usize,
    ) -> Packed;
    pub fn ukm_add_shape(
        points: *const i32,
        points_len: usize,
        contours: *const Range,
        contours_len: usize,
        shapes: *const Range,
        shapes_len: usize,
        more: *const i32,
        more_len: usize,
        ranges: *const Range,
        ranges_len: usize,
        out: *mut i32,
        out_len: usize,
        records: *mut Range,
        records_len: usize,
        groups: *mut Range,
        groups_len: usize,
    ) -> Packed;
    pub fn ukm_read_set(
        bytes: *const u8,
        bytes_len: usize,
        out: *mut i32,
        out_len: usize,
        records: *mut Range,
        records_len: usize,
        groups: *mut Range,
        groups_len: usize,
    ) -> Read;
    pub fn ukm_write_set(
        points: *const i32,
        points_len: usize,
        contours: *const Range,
        contours_len: usize,
        shapes: *const Range,
        shapes_len: usize,
        bytes: *mut u8,
        bytes_len: usize,
    ) -> Written;
    pub fn ukm_write_set_2(
        points: *const i32,
        points_len: usize,
        contours: *const Range,
        contours_len: usize,
        shapes: *const Range,
        shapes_len: usize,
        bytes: *mut u8,
        bytes_len: usize,
    ) -> Written;
    pub fn ukm_salvage(
        bytes: *const u8,
        bytes_len: usize,
        out: *mut u8,
        out_len: usize,
        dropped: *mut [usize; 2],
        dropped_len: usize,
    ) -> Salvaged;
    pub fn ukm_import_mm(
        kinds: *const u8,
        kinds_len: usize,
        floats: *const f64,
        floats_len: usize,
        points: *mut i32,
        points_len: usize,
        records: *mut Range,
        records_len: usize,
    ) -> Packed;
    pub fn ukm_export_mm(
        points: *const i32,
        points_len: usize,
        contours: *const Range,
        contours_len: usize,
        kinds: *mut u8,
        kinds_len: usize,
        floats: *mut f64,
        floats_len: usize,
    ) -> Drawn;
    pub fn ukm_compare_sets(
        points: *const i32,
        points_len: usize,
        contours: *const Range,
        contours_len: usize,
        others: *const i32,
        others_len: usize,
        other_contours: *const Range,
        other_contours_len: usize,
        listing: *mut [usize; 2],
        listing_len: usize,
    ) -> Compared;
    pub fn ukm_pool_add(
        points: *mut i32,
        points_len: usize,
        records: *mut PoolRecord,
        records_len: usize,
        contours: *mut usize,
        second: bool,
        contour: *const i32,
        contour_len: usize,
    ) -> u32;
    pub fn ukm_pool_remove(
        points: *mut i32,
        points_len: usize,
        records: *mut PoolRecord,
        records_len: usize,
        contours: *mut usize,
        second: bool,
    ) -> u32;
    pub fn ukm_pool_contours(
        points: *const i32,
        points_len: usize,
        records: *const PoolRecord,
        records_len: usize,
        contours: usize,
        second: bool,
    ) -> Counted;
    pub fn ukm_pool_held(
        points: *const i32,
        points_len: usize,
        records: *const PoolRecord,
        records_len: usize,
        contours: usize,
        second: bool,
    ) -> Counted;
    pub fn ukm_pool_free(
        points: *const i32,
        points_len: usize,
        records: *const PoolRecord,
        records_len: usize,
        contours: usize,
    ) -> Counted;
}
