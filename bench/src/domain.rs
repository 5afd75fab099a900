//! The test of a row against the grid, by itself, beside a plain one; `table` says what is written.

mod counter;
mod inputs;
mod linked;
mod table;
mod time;

use inputs::{Kind, Point};
use linked::{call, Range};
use requests::grid::LIMIT;
use std::hint::black_box;

/// The reply to rows that are too short.
const ROOM: u32 = 5;

/// What a caller would take instead; it stops at the first number off the grid.
#[inline(never)]
fn plain(row: &[i32]) -> bool {
    row.iter().all(|number| (-LIMIT..=LIMIT).contains(number))
}

/// A contour packed where there is no room: it is tested, and nothing else is done with it.
fn ours(row: &[i32]) -> bool {
    let (mut out, mut records, mut groups): ([i32; 0], [Range; 0], [Range; 0]) = ([], [], []);
    call!(ukm_pack_contour(row; out, records, groups;)).reply == ROOM
}

fn line(kind: &Kind) {
    let rows = kind.rows();
    table::line(
        &kind.name,
        "domain",
        kind.points(),
        &mut || rows.iter().map(|row| plain(black_box(row)) as i64).sum(),
        &mut || rows.iter().map(|row| ours(black_box(row)) as i64).sum(),
    );
}

/// The whole grid's square as often as a contour may have it: every number is at an end.
fn at_the_ends() -> Kind {
    let square = [(-LIMIT, -LIMIT), (LIMIT, -LIMIT), (LIMIT, LIMIT), (-LIMIT, LIMIT)];
    let contour = square.map(|(x, y)| Point::new(x, y)).repeat(16_384);
    Kind { name: "whole grid, 16384 laps".into(), contours: vec![contour] }
}

fn main() {
    let short = |kind: &Kind| kind.name.contains("boxes") || kind.name.contains("stars");
    let kinds = inputs::kinds().into_iter().filter(|kind| short(kind) || kind.name.starts_with("circle"));
    let all = inputs::small().into_iter().chain(kinds).chain([at_the_ends()]);
    all.filter(|kind| table::asked("domain", &kind.name)).for_each(|kind| line(&kind));
}
