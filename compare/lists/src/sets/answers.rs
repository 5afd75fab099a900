//! The answers to a case of a set: document 01's refusals, and past them the original.

use super::case::{Case, Kind};
use super::flat::{contour_set, refusal, shape_set, sound, Record, Set};
use super::packing;
use crate::checksum::{checksum, part};
use crate::cleaner::{row, Contour};
use crate::contours::{column, yes_or_no};
use i_shape::int::count::PointsCount;
use requests::reply::domain;

/// One line of answers, without its number.
pub fn answer(case: &Case) -> String {
    let set = &case.of;
    match &case.kind {
        Kind::Asked => [of_contour_set(set), of_shape_set(set)].concat().join(" "),
        Kind::Packing(call) => packing::answer(call, set).to_string(),
    }
}

fn of_contour_set(set: &Set) -> Vec<String> {
    let points = set.points.all();
    let refusal = refusal(&[&points], set.sound_contours());
    let original = || contour_set(&points, &set.contours);
    let contours = refusal.map(|()| set.to_contours());
    vec![
        yes_or_no(&set.sound_contours()),
        column(&refusal.map(|()| original().is_empty()), yes_or_no),
        column(&refusal.map(|()| original().is_single_contour()), yes_or_no),
        column(
            &count(&contours, |all| all.points_count()),
            usize::to_string,
        ),
        column(&count(&contours, |all| all.len()), usize::to_string),
        part(&first_contour(&points, &set.contours)),
        parts(&contours.unwrap_or_default()),
    ]
}

fn of_shape_set(set: &Set) -> Vec<String> {
    let points = set.points.all();
    let refusal = refusal(&[&points], set.sound_shapes());
    let original = || shape_set(&points, &set.contours, &set.shapes);
    let shapes = refusal.map(|()| set.to_shapes());
    let contours = shapes.clone().map(|shapes| shapes.concat());
    vec![
        yes_or_no(&sound(&set.shapes, set.contours.len())),
        column(&refusal.map(|()| original().is_empty()), yes_or_no),
        column(&count(&shapes, |all| all.points_count()), usize::to_string),
        column(&count(&contours, |all| all.len()), usize::to_string),
        column(&count(&shapes, |all| all.len()), usize::to_string),
        shape_parts(&shapes.unwrap_or_default()),
    ]
}

fn count<T>(all: &Result<T, u8>, counted: fn(&T) -> usize) -> Result<usize, u8> {
    all.as_ref().map(counted).map_err(|&refusal| refusal)
}

/// Loose points are the first contour; a refused set hands out nothing.
fn first_contour(points: &[i32], contours: &[Record]) -> Vec<i32> {
    let refusal = match contours {
        [] => domain(points),
        _ => refusal(&[points], sound(contours, points.len() / 2)),
    };
    let first = || contour_set(points, contours).as_first_contour().to_vec();
    refusal.map(|()| row(&first())).unwrap_or_default()
}

/// The length and the checksum of each contour, and of the empty part past the end.
fn contour_parts(contours: &[Contour]) -> Vec<u32> {
    let past = std::iter::once(vec![]);
    let rows = contours.iter().map(row).chain(past);
    rows.flat_map(|row| [row.len() as u32, checksum(&row)])
        .collect()
}

fn parts(contours: &[Contour]) -> String {
    checksum(&contour_parts(contours)).to_string()
}

/// How many contours each shape has, and its parts; then the shape past the end.
fn shape_parts(shapes: &[Vec<Contour>]) -> String {
    let past = std::iter::once(vec![]);
    let shapes = shapes.iter().cloned().chain(past);
    let of_shape = |shape: Vec<Contour>| [vec![shape.len() as u32], contour_parts(&shape)].concat();
    checksum(&shapes.flat_map(of_shape).collect::<Vec<u32>>()).to_string()
}

#[cfg(test)]
mod tests {
    use super::answer;
    use crate::checksum::checksum;

    fn answered(line: &str) -> String {
        answer(&line.parse().unwrap())
    }

    #[test]
    fn a_set_is_answered_in_thirteen_columns() {
        assert_eq!(answered("s 0 0"), "yes yes no 0 0 0:0 0 yes yes 0 0 0 0");
        let numbers = checksum(&[5, 6]);
        let contours = checksum(&[2, numbers, 0, 0]);
        let shapes = checksum(&[1, 2, numbers, 0, 0, 0, 0, 0]);
        assert_eq!(
            answered("s 1 0 1 1 0 1 5 6"),
            format!("yes no yes 1 1 2:{numbers} {contours} yes no 1 1 1 {shapes}")
        );
    }

    #[test]
    fn loose_points_are_the_first_contour_and_unsound_elsewhere() {
        assert_eq!(
            answered("s 0 0 5 6"),
            "no !6 !6 !6 !6 2:161 0 yes !6 !6 !6 !6 0"
        );
        assert_eq!(
            answered("s 0 0 5"),
            "yes !1 !1 !1 !1 0:0 0 yes !1 !1 !1 !1 0"
        );
    }

    #[test]
    fn unsound_shapes_leave_the_contour_set() {
        assert_eq!(
            answered("s 1 0 0 0"),
            "yes yes yes 0 1 0:0 0 no !6 !6 !6 !6 0"
        );
    }
}
