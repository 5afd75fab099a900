//! Contours of a wanted form, and ways to spoil one.

use crate::point::{minus, plus, steps, times, Point, LIMIT};
use crate::rng::Rng;
use std::cmp::Ordering;

/// Points anywhere.
pub fn scattered(n: usize, reach: i32, rng: &mut Rng) -> Vec<Point> {
    (0..n).map(|_| rng.point(reach)).collect()
}

/// Points at the ends and in the middle of a grid with this end.
pub fn at_ends(n: usize, end: i32, rng: &mut Rng) -> Vec<Point> {
    let ends = [-end, 1 - end, -1, 0, 1, end - 1, end];
    (0..n).map(|_| [rng.pick(&ends), rng.pick(&ends)]).collect()
}

/// Points on one line through the origin.
pub fn flat(n: usize, rng: &mut Rng) -> Vec<Point> {
    let step = rng.point(3);
    (0..n).map(|_| times(rng.between(-4, 4), step)).collect()
}

/// A convex polygon: steps that lead back to the start, in the order of their angles.
/// Parallel steps make straight runs. On the grid while 2 · n · stride is.
pub fn convex(n: usize, stride: i32, rng: &mut Rng) -> Vec<Point> {
    let mut ways = directions(n - 1, stride, rng);
    let end = ways.iter().copied().fold([0, 0], plus);
    if end != [0, 0] {
        ways.push(minus([0, 0], end));
    }
    ways.sort_by(by_angle);
    let mut place = [0, 0];
    for way in &mut ways {
        place = plus(place, *way);
        *way = place;
    }
    ways
}

/// A star: points in the order of their angles.
pub fn star(n: usize, reach: i32, rng: &mut Rng) -> Vec<Point> {
    let mut points = directions(n, reach, rng);
    points.sort_by(by_angle);
    points
}

/// Every second corner of a convex polygon, twice round: all turns have one sign.
pub fn pentagram(n: usize, stride: i32, rng: &mut Rng) -> Vec<Point> {
    let mut corners = convex(n, stride, rng);
    let odd = corners.len() % 2 == 1;
    if !odd {
        corners.pop();
    }
    let second = |place| corners[2 * place % corners.len()];
    (0..corners.len()).map(second).collect()
}

/// Points other than the origin.
fn directions(n: usize, reach: i32, rng: &mut Rng) -> Vec<Point> {
    let points = std::iter::repeat_with(|| rng.point(reach));
    points.filter(|&point| point != [0, 0]).take(n).collect()
}

/// The angle from the positive x axis; points of one direction are equal.
fn by_angle(a: &Point, b: &Point) -> Ordering {
    let lower_half = |&[x, y]: &Point| (y, x) < (0, 0);
    let cross = i64::from(a[0]) * i64::from(b[1]) - i64::from(a[1]) * i64::from(b[0]);
    lower_half(a).cmp(&lower_half(b)).then(0.cmp(&cross))
}

/// Laps around the grid, each corner pulled in a little.
pub fn laps(count: usize, rng: &mut Rng) -> Vec<Point> {
    let signs = [[-1, -1], [1, -1], [1, 1], [-1, 1]].iter().cycle();
    let pulled_in = |sign: &Point| sign.map(|one| one * (LIMIT - rng.between(0, 1 << 24)));
    signs.take(4 * count).map(pulled_in).collect()
}

/// A way, and the same way back to its start.
pub fn there_and_back(way: &[Point]) -> Vec<Point> {
    let between = way.len().saturating_sub(1).max(1);
    let back = way[1..between].iter().rev();
    way.iter().chain(back).copied().collect()
}

/// The same ring from another start, half the time the other way round.
pub fn turned(mut contour: Vec<Point>, rng: &mut Rng) -> Vec<Point> {
    let start = rng.below(contour.len());
    contour.rotate_left(start);
    if rng.below(2) == 0 {
        contour.reverse();
    }
    contour
}

/// Some points come two or three times in a row.
pub fn with_repeats(contour: &[Point], rng: &mut Rng) -> Vec<Point> {
    let repeated = |&point| vec![point; rng.pick(&[1, 1, 2, 3])];
    contour.iter().flat_map(repeated).collect()
}

/// Six times as large, and some edges get corners along them that go straight on.
pub fn with_straight_runs(contour: &[Point], rng: &mut Rng) -> Vec<Point> {
    let mut run = vec![];
    for (place, &corner) in contour.iter().enumerate() {
        let next = contour[(place + 1) % contour.len()];
        let (a, b) = (times(6, corner), times(6, next));
        let (step, count) = steps(a, b);
        let stops = rng.between(1, count.min(3));
        run.extend((0..stops).map(|stop| plus(a, times(stop, step))));
    }
    run
}

/// One corner gets a spike: out and back, or past the next corner and back to it.
pub fn with_spike(contour: &[Point], rng: &mut Rng) -> Vec<Point> {
    let place = rng.below(contour.len());
    let (a, b) = (contour[place], contour[(place + 1) % contour.len()]);
    let spike = if rng.below(2) == 0 {
        vec![plus(a, rng.point(2)), a]
    } else {
        vec![plus(b, steps(a, b).0)]
    };
    let (before, after) = contour.split_at(place + 1);
    [before, &spike, after].concat()
}

/// One point is moved by at most one step each way.
pub fn with_dent(mut contour: Vec<Point>, rng: &mut Rng) -> Vec<Point> {
    let place = rng.below(contour.len());
    contour[place] = plus(contour[place], rng.point(1));
    contour
}
