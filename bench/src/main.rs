//! The Rust original beside the library on single contours, and plain arithmetic beside its drawings; `table` says what
//! is written.

mod counter;
mod drawings;
mod inputs;
mod linked;
mod original;
mod table;
mod time;

use inputs::Kind;
use linked::Rows;
use std::hint::black_box;

fn lines(kind: &Kind) {
    let rows = kind.rows();
    let mut lent = Rows::new(kind.contours.iter().map(Vec::len).max().unwrap_or(0));
    for ((function, rust), (same, ours)) in original::FUNCTIONS.into_iter().zip(linked::FUNCTIONS) {
        assert_eq!(function, same);
        table::line(
            &kind.name,
            function,
            kind.points(),
            &mut || kind.contours.iter().map(|c| rust(black_box(c))).fold(0, i64::wrapping_add),
            &mut || rows.iter().map(|r| ours(black_box(r), &mut lent)).fold(0, i64::wrapping_add),
        );
    }
}

fn main() {
    let kinds = inputs::kinds().into_iter().chain(inputs::small());
    kinds.filter(|kind| table::asked("contours", &kind.name)).for_each(|kind| lines(&kind));
    let drawings = drawings::drawings().into_iter();
    drawings.filter(|drawing| table::asked("drawings", drawing.name)).for_each(drawings::lines);
}
