//! `scale COUNT [SEED]` compares the Rust original with the static library on COUNT random contours, and on as many
//! other inputs as belong to that, and prints how many of each kind were compared and how many differ. The exit status
//! is 1 if any does.

mod comparing;
mod contours;
mod drawings;
mod files;
mod input;
mod kinds;
mod library;
mod mending;
mod moved;
mod pools;
mod ranges;
mod sets;
mod tally;

use kinds::KINDS;
use std::process::ExitCode;
use tally::Tally;

fn main() -> ExitCode {
    let numbers: Option<Vec<u64>> = std::env::args()
        .skip(1)
        .map(|word| word.parse().ok())
        .collect();
    let (count, seed) = match numbers.as_deref() {
        Some(&[count]) => (count, 1),
        Some(&[count, seed]) => (count, seed),
        _ => {
            eprintln!("usage: scale COUNT [SEED]");
            return ExitCode::from(2);
        }
    };
    println!("{:<64} {:>10} {:>11}", "kind", "inputs", "differences");
    let mut all = Tally::default();
    // No two kinds begin alike, and no two runs.
    for (kind, place) in KINDS.iter().zip(1..) {
        let tally = kind.compare(count as usize, seed << 8 | place);
        tally.print(kind.name);
        all = all.with(tally);
    }
    all.print("in all");
    all.print_smallest();
    if all.agrees() {
        ExitCode::SUCCESS
    } else {
        ExitCode::FAILURE
    }
}
