//! The lines of the table: for a kind of input and a function, with tabs between the kind, the function, the points, the
//! instructions of both sides, and the nanoseconds of both; `-` where nothing is measured.
//!
//! `BENCH_COUNT` names the file in which the emulator's plugin answers (`counter`); with `BENCH_NOTIME` no
//! time is taken.

use crate::{counter, time};
use std::hint::black_box;

struct Measured {
    instructions: Option<u64>,
    nanoseconds: Option<f64>,
}

fn measure(work: &mut dyn FnMut() -> i64) -> Measured {
    black_box(work());
    let instructions = counter::instructions().and_then(|before| {
        black_box(work());
        Some(counter::instructions()? - before - counter::overhead())
    });
    let timed = std::env::var_os("BENCH_NOTIME").is_none();
    Measured { instructions, nanoseconds: timed.then(|| time::nanoseconds(work)) }
}

fn shown<T: ToString>(number: Option<T>) -> String {
    number.map_or("-".into(), |n| n.to_string())
}

/// One line of the table. Both sides must answer the same.
pub fn line(kind: &str, function: &str, points: usize, rust: &mut dyn FnMut() -> i64, ours: &mut dyn FnMut() -> i64) {
    assert_eq!(rust(), ours(), "{function} differs on {kind}");
    let (rust, ours) = (measure(rust), measure(ours));
    println!(
        "{kind}\t{function}\t{points}\t{}\t{}\t{}\t{}",
        shown(rust.instructions),
        shown(ours.instructions),
        shown(rust.nanoseconds),
        shown(ours.nanoseconds)
    );
}

/// Whether the first argument, if there is one, asks for this kind: it is the name of its group, or part of its own.
pub fn asked(group: &str, kind: &str) -> bool {
    std::env::args().nth(1).is_none_or(|part| part == group || kind.contains(&part))
}
