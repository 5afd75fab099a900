//! Every contour of a few points with few coordinates.

use crate::tally::Tally;
use lists::contours::case::Case;
use lists::contours::tiny::square;
use lists::drawings::back;
use lists::drawings::sound::exact;
use lists::files::damaged::rows;
use lists::files::edition_2::damaged;
use lists::files::edition_2::raw::{one, Contour};
use lists::files::mendings::{file_of, mending};
use lists::files::sound::reading;
use lists::files::writings::beside;
use lists::point::{Point, LIMIT, NARROW};
use lists::sets::flat::Set;
use requests::drawing::Drawing;
use requests::edition::Edition;

/// Asked in turn about the points in the grid and around it.
pub fn on_three_by_three(tally: &mut Tally) {
    every(tally, 6, &square(0, 2, 1), &square(-1, 3, 1));
}

/// Every contour of up to 5 points, located at every point in the grid and around it.
pub fn located_on_three_by_three(tally: &mut Tally) {
    let asked = square(-1, 3, 1);
    each_contour(5, &square(0, 2, 1), |contour| {
        for &point in &asked {
            tally.compare(&Case::located(point, contour));
        }
    });
}

pub fn at_the_ends(tally: &mut Tally) {
    every(tally, 5, &places(&[-LIMIT, 0, LIMIT]), &around_the_ends());
}

/// Asked about points one past the ends as well.
pub fn one_past(tally: &mut Tally) {
    let places = places(&[-LIMIT - 1, -LIMIT, 0, LIMIT, LIMIT + 1]);
    every(tally, 3, &places, &around_the_ends());
}

/// As a file of either edition, read and mended, as a set, written as either and given back, and as a drawing.
pub fn carried_at_the_ends(tally: &mut Tally) {
    let past = [NARROW, NARROW + 1, LIMIT, LIMIT + 1];
    let ends = past.map(|end| [end, -end]).concat();
    each_contour(2, &places(&[&ends[..], &[0]].concat()), |contour| {
        let contour = contour.to_vec();
        let file = file_of(&[(true, contour.clone())]);
        let set = Set::of(&[vec![contour.clone()]]);
        tally.compare(&reading(rows(0, file.len()), &file));
        tally.compare(&mending(&file, [0, 0]));
        tally.compare(&beside(Edition::One, &set, 0));
        let file = one(&Contour::of_points(true, &contour));
        tally.compare(&reading(damaged::rows(0, file.len()), &file));
        tally.compare(&mending(&file, [0, 0]));
        tally.compare(&beside(Edition::Two, &set, 0));
        tally.compare(&back::around(&set, [0, 0]));
        tally.compare(&exact(&Drawing::of(&[contour])));
    });
}

fn around_the_ends() -> Vec<Point> {
    places(&[
        -LIMIT - 1,
        -LIMIT,
        1 - LIMIT,
        0,
        LIMIT - 1,
        LIMIT,
        LIMIT + 1,
    ])
}

/// The points with these coordinates.
fn places(coordinates: &[i32]) -> Vec<Point> {
    let row = |&y| coordinates.iter().map(move |&x| [x, y]);
    coordinates.iter().flat_map(row).collect()
}

/// Every contour of up to so many of the places, asked in turn about the points.
fn every(tally: &mut Tally, most: u32, places: &[Point], asked: &[Point]) {
    let mut asked = asked.iter().cycle();
    each_contour(most, places, |contour| {
        tally.compare(&Case::contour(*asked.next().expect("a point"), contour));
    });
}

fn each_contour(most: u32, places: &[Point], mut ask: impl FnMut(&[Point])) {
    for count in 0..=most {
        for number in 0..places.len().pow(count) {
            let place = |digit| places[number / places.len().pow(digit) % places.len()];
            ask(&(0..count).map(place).collect::<Vec<Point>>());
        }
    }
}
