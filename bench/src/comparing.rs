//! Two sets compared, beside a plain look at as many points that are all equal; `table` says what is written.

mod counter;
mod inputs;
mod linked;
mod table;
mod time;

use inputs::{numbers, Point};
use linked::{call, Range};
use std::hint::black_box;

const MOST: usize = 65_536;

/// The kinds of a line.
const SAME: usize = 0;
const ELSEWHERE: usize = 1;
const DIFFERENT: usize = 2;

/// Two contours, and what is said of them.
struct Pair {
    name: &'static str,
    first: Vec<Point>,
    second: Vec<Point>,
    line: [usize; 2],
}

/// What a caller would take to see whether two contours are equal. Here they are, so it looks at every point; it tests
/// nothing of its input.
#[inline(never)]
fn plain(first: &[Point], second: &[Point]) -> bool {
    first.len() == second.len() && first.iter().zip(second).all(|(a, b)| a.x == b.x && a.y == b.y)
}

fn line(pair: &Pair) {
    let (first, second) = (numbers(&pair.first), numbers(&pair.second));
    let ranges: [Range; 1] = [[0, pair.first.len()]];
    let others: [Range; 1] = [[0, pair.second.len()]];
    let (equal, mut listing) = (pair.first.clone(), [[0, 0]]);
    table::line(
        pair.name,
        "compare_sets",
        pair.first.len(),
        &mut || plain(black_box(&pair.first), black_box(&equal)) as i64,
        &mut || {
            let (first, second) = (black_box(&first), black_box(&second));
            call!(ukm_compare_sets(first, ranges, second, others; listing;));
            (listing[0] == pair.line) as i64
        },
    );
}

/// The point 0, 0 so often, but 0, 1 at one place.
fn but_one(place: usize) -> Vec<Point> {
    let mut contour = vec![Point::new(0, 0); MOST];
    contour[place] = Point::new(0, 1);
    contour
}

/// Four points over and over, from one of them on.
fn repeating(start: usize) -> Vec<Point> {
    (start..start + MOST).map(|i| Point::new(0, (i % 4) as i32)).collect()
}

fn started(contour: &[Point], start: usize) -> Vec<Point> {
    [&contour[start..], &contour[..start]].concat()
}

fn pairs() -> Vec<Pair> {
    let circle = inputs::circle(MOST);
    let mut moved = circle.clone();
    moved[MOST - 1].x += 1;
    vec![
        Pair { name: "circle and itself", first: circle.clone(), second: circle.clone(), line: [SAME, 0] },
        Pair { name: "circle from half on", second: started(&circle, MOST / 2), first: circle.clone(), line: [ELSEWHERE, MOST / 2] },
        Pair { name: "circle, last point moved", first: circle, second: moved, line: [DIFFERENT, MOST - 1] },
        Pair { name: "four points that repeat", first: repeating(0), second: repeating(1), line: [ELSEWHERE, 3] },
        Pair { name: "all equal but one", first: but_one(MOST - 3), second: but_one(MOST - 4), line: [ELSEWHERE, MOST - 1] },
        Pair { name: "all equal but one, far apart", first: but_one(MOST - 3), second: but_one(0), line: [ELSEWHERE, 3] },
    ]
}

fn main() {
    pairs().iter().filter(|pair| table::asked("comparing", pair.name)).for_each(line);
}
