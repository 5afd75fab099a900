//! The Rust original beside other libraries: `program` has its calls, and this one is added.
//!   rust inputs [PART]       writes the inputs of `bench` that have up to 10,000 points and PART in their kind's name:
//!                            a line a contour, the kind, a tab and the numbers x y x y …

#[path = "../../src/inputs.rs"]
mod inputs;
#[path = "../../src/original.rs"]
mod original;
mod program;
#[path = "../../src/time.rs"]
mod time;

use i_shape::int::despike::DeSpikeContour;
use i_shape::int::simple::SimpleContour;
use inputs::{Kind, Point};
use std::io::Write;

struct Original;

impl program::Library for Original {
    type Contour = Vec<Point>;
    type Function = original::Function;
    const FUNCTIONS: [(&'static str, Self::Function); 8] = original::FUNCTIONS;

    fn made(points: &[Point]) -> Vec<Point> {
        points.to_vec()
    }

    fn answer(&mut self, function: Self::Function, contour: &Vec<Point>) -> i64 {
        function(contour)
    }

    fn written(&mut self, name: &str, function: Self::Function, contour: &Vec<Point>) -> String {
        match name {
            "simplified" => program::shown(contour[..].simplified().unwrap_or_default()),
            "despiked" => program::shown(contour.despiked_contour().unwrap_or_default()),
            _ => function(contour).to_string(),
        }
    }
}

/// More take the slowest of the libraries too long.
const MOST_POINTS: usize = 10_000;

fn write_inputs(part: &str) {
    let mut out = std::io::BufWriter::new(std::io::stdout().lock());
    let chosen = |kind: &&Kind| kind.name.contains(part) && kind.points() <= MOST_POINTS;
    for kind in inputs::kinds().iter().filter(chosen) {
        for contour in &kind.contours {
            let numbers: Vec<String> = contour.iter().map(|p| format!("{} {}", p.x, p.y)).collect();
            writeln!(out, "{}\t{}", kind.name, numbers.join(" ")).expect("the inputs are written");
        }
    }
}

fn main() {
    let words: Vec<String> = std::env::args().skip(1).collect();
    match words.iter().map(String::as_str).collect::<Vec<_>>()[..] {
        ["inputs"] => write_inputs(""),
        ["inputs", part] => write_inputs(part),
        ref words => program::run(&mut Original, words),
    }
}
