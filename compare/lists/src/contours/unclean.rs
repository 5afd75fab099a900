//! Contours rich in what the cleaners remove.

use crate::contours::asked;
use crate::contours::case::Case;
use crate::point::{plus, Point, MOST_POINTS};
use crate::rng::Rng;
use crate::shapes::{
    convex, scattered, star, there_and_back, turned, with_repeats, with_spike, with_straight_runs,
};

fn cases(contours: Vec<Vec<Point>>, seed: u64) -> Vec<Case> {
    let rng = &mut Rng::new(seed);
    let case = |contour: &Vec<Point>| Case::contour(asked::about(contour, rng), contour);
    contours.iter().map(case).collect()
}

/// Squares with straight runs, spikes, spikes on spikes and repeats, both ways round
/// and from every start: where position 0 goes, the walk moves back across the closing
/// edge.
pub fn from_every_start() -> Vec<Case> {
    const RUNS: &[Point] = &[[0, 0], [1, 0], [2, 0], [3, 0], [4, 0], [4, 4], [0, 4]];
    const SPIKE: &[Point] = &[
        [0, 0],
        [4, 0],
        [6, 0],
        [8, 0],
        [6, 0],
        [4, 0],
        [4, 4],
        [0, 4],
    ];
    const SPIKE_ON_SPIKE: &[Point] = &[
        [0, 0],
        [8, 0],
        [8, 4],
        [10, 4],
        [10, 6],
        [10, 4],
        [12, 4],
        [8, 4],
        [8, 8],
        [0, 8],
    ];
    const REPEATS: &[Point] = &[
        [0, 0],
        [0, 0],
        [0, 0],
        [4, 0],
        [4, 0],
        [4, 4],
        [0, 4],
        [0, 4],
    ];
    const ALL_OF_IT: &[Point] = &[
        [0, 0],
        [2, 0],
        [2, 0],
        [4, 0],
        [6, 0],
        [4, 0],
        [4, 4],
        [4, 4],
        [0, 4],
        [0, 2],
    ];
    let squares = [RUNS, SPIKE, SPIKE_ON_SPIKE, REPEATS, ALL_OF_IT];
    cases(squares.into_iter().flat_map(starts).collect(), 301)
}

/// The ring from each of its points, both ways round.
fn starts(contour: &[Point]) -> Vec<Vec<Point>> {
    let mut backwards = contour.to_vec();
    backwards.reverse();
    let mut rings = vec![];
    for ring in [contour, &backwards] {
        for start in 0..ring.len() {
            rings.push([&ring[start..], &ring[..start]].concat());
        }
    }
    rings
}

/// Contours that collapse: at the first decision, with a point at each, or at the very
/// end, when what went out has come back.
pub fn collapsing() -> Vec<Case> {
    let mut contours = vec![];
    for n in 3..=8 {
        contours.push(vec![[5, -5]; n as usize]);
        contours.push((0..n).map(|i| [i, 2 * i]).collect());
        contours.push((0..n).map(|i| [i % 2, 0]).collect());
        contours.extend(starts(&there_and_back(&zigzag(n))));
    }
    contours.push(there_and_back(&zigzag(500)));
    contours.push(turned_by_one(there_and_back(&zigzag(500))));
    cases(contours, 302)
}

/// Points up and down in turn.
fn zigzag(n: i32) -> Vec<Point> {
    (0..n).map(|i| [i, i % 2 * 3]).collect()
}

/// The ring from its second point, so that its first is the last.
fn turned_by_one(mut ring: Vec<Point>) -> Vec<Point> {
    ring.rotate_left(1);
    ring
}

type Kind = fn(&mut Rng) -> Vec<Point>;

/// How many contours of each kind.
const KINDS: [(usize, Kind); 6] = [
    (500, spoilt),
    (200, spikes_on_spikes),
    (400, strolling),
    (200, in_two_rows),
    (200, nearly_back),
    (30, strolling_far),
];

pub fn random() -> Vec<Case> {
    let mut contours = vec![];
    for ((count, kind), seed) in KINDS.into_iter().zip(303..) {
        let rng = &mut Rng::new(seed);
        contours.extend((0..count).map(|_| kind(rng)));
    }
    cases(contours, 310)
}

/// A contour of any kind of up to a few dozen points.
pub fn any(rng: &mut Rng) -> Vec<Point> {
    rng.pick(&KINDS[..5]).1(rng)
}

/// A polygon spoilt in one to four ways, one upon the other.
pub fn spoilt(rng: &mut Rng) -> Vec<Point> {
    let n = rng.between(3, 6) as usize;
    let polygon: fn(usize, i32, &mut Rng) -> Vec<Point> = rng.pick(&[convex, star, scattered]);
    let mut contour = polygon(n, rng.pick(&[1, 2, 5, 1000]), rng);
    for _ in 0..rng.between(1, 4) {
        let spoil: fn(&[Point], &mut Rng) -> Vec<Point> =
            rng.pick(&[with_repeats, with_spike, with_straight_runs]);
        contour = spoil(&contour, rng);
    }
    turned(contour, rng)
}

/// A triangle with up to eight spikes, of which some stand on others.
fn spikes_on_spikes(rng: &mut Rng) -> Vec<Point> {
    let mut contour = scattered(3, 2, rng);
    for _ in 0..rng.between(2, 8) {
        contour = with_spike(&contour, rng);
    }
    turned(contour, rng)
}

/// A way of steps of length one.
pub fn stroll(n: usize, rng: &mut Rng) -> Vec<Point> {
    const STEPS: [Point; 4] = [[1, 0], [0, 1], [-1, 0], [0, -1]];
    let mut place = [0, 0];
    let mut step = || {
        place = plus(place, rng.pick(&STEPS));
        place
    };
    (0..n).map(|_| step()).collect()
}

fn strolling(rng: &mut Rng) -> Vec<Point> {
    let n = rng.between(3, 24) as usize;
    stroll(n, rng)
}

fn strolling_far(rng: &mut Rng) -> Vec<Point> {
    let n = rng.between(100, 400) as usize;
    stroll(n, rng)
}

/// Points of two rows: most neighbours are in one line.
fn in_two_rows(rng: &mut Rng) -> Vec<Point> {
    let n = rng.between(3, 14) as usize;
    let mut place = || [rng.between(0, 5), rng.pick(&[0, 0, 0, 1])];
    (0..n).map(|_| place()).collect()
}

/// A way and the same way back, with one point moved by a step or two.
fn nearly_back(rng: &mut Rng) -> Vec<Point> {
    let n = rng.between(3, 8) as usize;
    let mut ring = turned(there_and_back(&scattered(n, 3, rng)), rng);
    let place = rng.below(ring.len());
    ring[place] = plus(ring[place], rng.point(1));
    ring
}

/// The long family at two sizes, a long stroll, and spoilt polygons wound many times.
pub fn long() -> Vec<Case> {
    let rng = &mut Rng::new(311);
    let written = vec![returning(1000), stroll(5000, rng), returning(MOST_POINTS)];
    let mut long = cases(written, 312);
    for _ in 0..30 {
        let contour = spoilt(rng);
        let most = MOST_POINTS / contour.len();
        let laps = rng.pick(&[2, 3, 10, 100, most]);
        long.push(Case::contour(asked::about(&contour, rng), &contour).wound(laps));
    }
    long
}

/// (1,0) (2,0) .. (n-3,0), then (1,2) (n-2,0) (0,0): once the last three points are
/// spikes no more, the others go one by one, and despiking takes 3n - 5 decisions.
pub fn returning(n: usize) -> Vec<Point> {
    let end = n as i32;
    let mut points: Vec<Point> = (1..=end - 3).map(|x| [x, 0]).collect();
    points.extend([[1, 2], [end - 2, 0], [0, 0]]);
    points
}
