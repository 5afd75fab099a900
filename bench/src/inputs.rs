//! The contours that are measured, the same in every run.

// No program takes all of it.
#![allow(dead_code)]

use i_float::int::point::IntPoint;
use i_shape::int::simple::SimpleContour;
use std::f64::consts::TAU;

pub type Point = IntPoint<i32>;

/// The point that each contour is asked about.
pub const ASKED: (i32, i32) = (7, 40);

/// A kind of input: its name, and its contours.
pub struct Kind {
    pub name: String,
    pub contours: Vec<Vec<Point>>,
}

impl Kind {
    pub fn points(&self) -> usize {
        self.contours.iter().map(Vec::len).sum()
    }

    /// The contours as the library takes them.
    pub fn rows(&self) -> Vec<Vec<i32>> {
        self.contours.iter().map(|contour| numbers(contour)).collect()
    }
}

/// The row of these points: x y x y ….
pub fn numbers(points: &[Point]) -> Vec<i32> {
    points.iter().flat_map(|point| [point.x, point.y]).collect()
}

struct Random(u64);

impl Random {
    fn next(&mut self) -> u64 {
        self.0 ^= self.0 << 13;
        self.0 ^= self.0 >> 7;
        self.0 ^= self.0 << 17;
        self.0
    }

    fn below(&mut self, bound: u64) -> u64 {
        (self.next() >> 16) % bound
    }

    fn unit(&mut self) -> f64 {
        self.below(1 << 30) as f64 / (1u64 << 30) as f64
    }
}

fn a_box(random: &mut Random) -> Vec<Point> {
    let mut side = || 1 + random.below(1000) as i32;
    let (x, y, w, h) = (side(), side(), side(), side());
    vec![Point::new(x, y), Point::new(x + w, y), Point::new(x + w, y + h), Point::new(x, y + h)]
}

pub fn boxes(seed: u64, count: usize) -> Vec<Vec<Point>> {
    let random = &mut Random(seed);
    (0..count).map(|_| a_box(random)).collect()
}

/// Three points that are on no line, wound either way.
fn triangle(random: &mut Random) -> Vec<Point> {
    loop {
        let mut side = || 1 + random.below(1000) as i32;
        let contour = vec![Point::new(side(), side()), Point::new(side(), side()), Point::new(side(), side())];
        if contour[..].is_simple() {
            return contour;
        }
    }
}

/// A box without one of its quarters, six points along the axes.
fn ell(random: &mut Random) -> Vec<Point> {
    let mut side = || 2 + random.below(1000) as i32;
    let (x, y, w, h) = (side(), side(), side(), side());
    let (u, v) = (x + w / 2, y + h / 2);
    let corners = [(x, y), (x + w, y), (x + w, v), (u, v), (u, y + h), (x, y + h)];
    corners.map(|(x, y)| Point::new(x, y)).to_vec()
}

/// A star of random radii with even coordinates, simple.
fn star(random: &mut Random, points: usize) -> Vec<Point> {
    loop {
        let contour: Vec<Point> = (0..points)
            .map(|i| {
                let angle = (i as f64 + 0.8 * random.unit()) / points as f64 * TAU;
                let radius = 1.0e8 + 4.0e8 * random.unit();
                Point::new((radius * angle.cos()) as i32 & !1, (radius * angle.sin()) as i32 & !1)
            })
            .collect();
        if contour[..].is_simple() {
            return contour;
        }
    }
}

pub fn circle(points: usize) -> Vec<Point> {
    circle_of(5.3e8, points)
}

pub fn circle_of(radius: f64, points: usize) -> Vec<Point> {
    (0..points)
        .map(|i| {
            let angle = i as f64 / points as f64 * TAU;
            Point::new((radius * angle.cos()).round() as i32, (radius * angle.sin()).round() as i32)
        })
        .collect()
}

/// A small circle with even coordinates.
fn round(points: usize, (x, y): (f64, f64)) -> Vec<Point> {
    (0..points)
        .map(|i| {
            let angle = i as f64 / points as f64 * TAU;
            Point::new((x + 2.0e7 * angle.cos()) as i32 & !1, (y + 2.0e7 * angle.sin()) as i32 & !1)
        })
        .collect()
}

/// A closed staircase, its steps parallel to the axes.
pub fn stairs(points: usize) -> Vec<Point> {
    let mut contour = Vec::with_capacity(points);
    let (mut x, mut y) = (0, 0);
    for i in 0..points - 2 {
        contour.push(Point::new(x, y));
        if i % 2 == 0 {
            x += 8
        } else {
            y += 8
        }
    }
    contour.push(Point::new(x, y + 80));
    contour.push(Point::new(-80, y + 80));
    contour
}

/// `percent` of `points` put in the middle of edges of a base, which has the others.
pub fn with_straight(base: impl FnOnce(usize) -> Vec<Point>, points: usize, percent: usize) -> Vec<Point> {
    let extra = points * percent / 100;
    let base = base(points - extra);
    let mut contour = Vec::with_capacity(points);
    for (i, &a) in base.iter().enumerate() {
        contour.push(a);
        if extra * (i + 1) / base.len() > extra * i / base.len() {
            let b = base[(i + 1) % base.len()];
            contour.push(Point::new(a.x + (b.x - a.x) / 2, a.y + (b.y - a.y) / 2));
        }
    }
    contour
}

/// `percent` of `points` are spikes: out of a point of the base, and back to it.
fn with_spikes(base: impl FnOnce(usize) -> Vec<Point>, points: usize, percent: usize) -> Vec<Point> {
    let spikes = points * percent / 200;
    let base = base(points - 2 * spikes);
    let mut contour = Vec::with_capacity(points);
    for (i, &a) in base.iter().enumerate() {
        contour.push(a);
        if spikes * (i + 1) / base.len() > spikes * i / base.len() {
            contour.push(Point::new(a.x + 3, a.y + 5));
            contour.push(a);
        }
    }
    contour
}

/// The contours on which despiking takes 3n - 5 decisions.
fn longest_walk(points: usize) -> Vec<Point> {
    let n = points as i32;
    let mut contour: Vec<Point> = (1..n - 2).map(|x| Point::new(x, 0)).collect();
    contour.extend([Point::new(1, 2), Point::new(n - 2, 0), Point::new(0, 0)]);
    contour
}

/// `points` of a base, of which some are straight, some are spikes, or none are either, by the number.
fn with_faults(number: usize, base: impl FnOnce(usize) -> Vec<Point>, points: usize) -> Vec<Point> {
    match number % 3 {
        0 => base(points),
        1 => with_straight(base, points, 20),
        _ => with_spikes(base, points, 10),
    }
}

/// Outlines of 100 points, each with round holes of 24 and 12 and a slot of 4. If the job is not clean the second of
/// every three shapes has straight points and the third spikes, in its outline and in the larger hole, and the slot of
/// every eighth is a line, which collapses.
pub fn job(shapes: usize, clean: bool) -> Vec<Vec<Vec<Point>>> {
    let random = &mut Random(2463534242);
    let shape = |i: usize| {
        let faults = if clean { 0 } else { i };
        let outline = with_faults(faults, |points| star(random, points), 100);
        let hole = with_faults(faults, |points| round(points, (3.0e7, 4.0e7)), 24);
        let height = if faults % 8 == 7 { 0 } else { 1_000_000 };
        let slot = [(0, 0), (0, height), (9_000_000, height), (9_000_000, 0)];
        vec![outline, hole, round(12, (-3.0e7, 2.0e7)), slot.map(|(x, y)| Point::new(x, y)).to_vec()]
    };
    (0..shapes).map(shape).collect()
}

/// Triangles and ells, for which no target is set.
pub fn small() -> [Kind; 2] {
    let random = &mut Random(362436069362436069);
    let mut kind = |name: &str, one: fn(&mut Random) -> Vec<Point>| Kind {
        name: name.into(),
        contours: (0..1000).map(|_| one(random)).collect(),
    };
    [kind("1000 triangles", triangle), kind("1000 ells of 6", ell)]
}

pub fn kinds() -> Vec<Kind> {
    let random = &mut Random(88172645463325252);
    let mut kinds = Vec::new();
    let mut add = |name: String, contours| kinds.push(Kind { name, contours });
    add("1000 boxes".into(), (0..1000).map(|_| a_box(random)).collect());
    add("100 stars of 100".into(), (0..100).map(|_| star(random, 100)).collect());
    for n in [1_000, 10_000, 65_536] {
        add(format!("circle of {n}"), vec![circle(n)]);
    }
    for n in [10_000, 65_536] {
        for percent in [0, 10, 50] {
            add(format!("stairs of {n}, {percent} % straight"), vec![with_straight(stairs, n, percent)]);
        }
        for percent in [10, 50] {
            let contour = with_straight(|points| star(random, points), n, percent);
            add(format!("star of {n}, {percent} % straight"), vec![contour]);
        }
        add(format!("stairs of {n}, 10 % spikes"), vec![with_spikes(stairs, n, 10)]);
        add(format!("longest walk of {n}"), vec![longest_walk(n)]);
    }
    kinds
}
