//! Nanoseconds of a piece of work.

use std::hint::black_box;
use std::time::Instant;

/// The seconds of a sample: long beside a reading of the clock, short beside the turns of other processes.
const SAMPLE: f64 = 0.0005;

/// The seconds in which samples are taken.
const SAMPLED: f64 = 0.03;

/// The least of all samples that fit into their time, and of five at least.
pub fn nanoseconds(work: &mut dyn FnMut() -> i64) -> f64 {
    let mut sample = |repeat: usize| {
        let start = Instant::now();
        for _ in 0..repeat {
            black_box(work());
        }
        start.elapsed().as_secs_f64()
    };
    let mut repeat = 1;
    // Three, so that one that was interrupted does not end it.
    while (0..3).map(|_| sample(repeat)).fold(f64::MAX, f64::min) < SAMPLE {
        repeat *= 2;
    }
    let start = Instant::now();
    let more = |taken: &usize| *taken < 5 || start.elapsed().as_secs_f64() < SAMPLED;
    let least = (0..).take_while(more).map(|_| sample(repeat)).fold(f64::MAX, f64::min);
    least * 1e9 / repeat as f64
}
