//! What the programs `rust` and `ours` share, as library.hpp is shared by those of the other libraries.
//!   PROGRAM time INPUTS         reads the inputs and writes a line for each kind and function, with tabs between the
//!                               kind, the function, the points, the nanoseconds and the sum of the answers
//!   PROGRAM answers x y x y …   writes a line for each function of this one contour: its name, a tab and the answer

use crate::inputs::{Kind, Point};
use crate::time;
use std::hint::black_box;

/// A library: the form in which it takes a contour, and its functions.
pub trait Library {
    type Contour;
    type Function: Copy;
    const FUNCTIONS: [(&'static str, Self::Function); 8];

    fn made(points: &[Point]) -> Self::Contour;

    /// The answer as a number, as `original` has it.
    fn answer(&mut self, function: Self::Function, contour: &Self::Contour) -> i64;

    /// The answer in full.
    fn written(&mut self, name: &str, function: Self::Function, contour: &Self::Contour) -> String;
}

/// The functions that another library has too.
fn functions<L: Library>() -> impl Iterator<Item = (&'static str, L::Function)> {
    L::FUNCTIONS.into_iter().filter(|(name, _)| !["is_simple", "has_no_spikes"].contains(name))
}

fn points<'a>(words: impl Iterator<Item = &'a str>) -> Vec<Point> {
    let numbers: Vec<i32> = words.map(|word| word.parse().expect("a number")).collect();
    numbers.chunks_exact(2).map(|p| Point::new(p[0], p[1])).collect()
}

fn read_inputs(path: &str) -> Vec<Kind> {
    let mut kinds: Vec<Kind> = Vec::new();
    for line in std::fs::read_to_string(path).expect("the inputs are read").lines() {
        let (name, row) = line.split_once('\t').expect("a kind, a tab and numbers");
        if kinds.last().is_none_or(|kind| kind.name != name) {
            kinds.push(Kind { name: name.into(), contours: Vec::new() });
        }
        kinds.last_mut().unwrap().contours.push(points(row.split(' ')));
    }
    kinds
}

fn time_of<L: Library>(library: &mut L, kind: &Kind) {
    let contours: Vec<L::Contour> = kind.contours.iter().map(|c| L::made(c)).collect();
    for (name, function) in functions::<L>() {
        let mut work = || contours.iter().map(|c| library.answer(function, black_box(c))).fold(0, i64::wrapping_add);
        let sum = work();
        println!("{}\t{name}\t{}\t{}\t{sum}", kind.name, kind.points(), time::nanoseconds(&mut work));
    }
}

fn answers<L: Library>(library: &mut L, points: &[Point]) {
    let contour = L::made(points);
    for (name, function) in functions::<L>() {
        println!("{name}\t{}", library.written(name, function, &contour));
    }
}

/// The points that a cleaner keeps.
pub fn shown(kept: impl IntoIterator<Item = Point>) -> String {
    let text: String = kept.into_iter().map(|p| format!("({},{})", p.x, p.y)).collect();
    if text.is_empty() { "nothing".into() } else { text }
}

pub fn run<L: Library>(library: &mut L, words: &[&str]) {
    match words {
        ["time", path] => read_inputs(path).iter().for_each(|kind| time_of(library, kind)),
        ["answers", row @ ..] => answers(library, &points(row.iter().copied())),
        _ => panic!("time INPUTS or answers x y x y ..."),
    }
}
