//! Two sets compared, from the sentences of document 02's request alone: every start is tried, one after the other.

use crate::grid::{Point, MOST_POINTS};
use crate::ranges::{sound, Record};
use crate::reply::{on_grid, refused_if, Reply, ODD, RANGES, ROOM, TOO_MANY};

/// What is said of one contour number, by its kind and a place.
#[derive(Clone, Copy, Debug, PartialEq, Eq)]
pub enum Line {
    Same,
    Elsewhere(usize),
    Different(usize),
    OnlyFirst,
    OnlySecond,
}

impl Line {
    pub fn record(self) -> Record {
        match self {
            Line::Same => [0, 0],
            Line::Elsewhere(start) => [1, start],
            Line::Different(place) => [2, place],
            Line::OnlyFirst => [3, 0],
            Line::OnlySecond => [4, 0],
        }
    }
}

/// A reply that is no listing, and whose set it is about: 1, 2, or 0 for neither.
#[derive(Clone, Copy, Debug, PartialEq, Eq)]
pub struct Refusal {
    pub reply: u8,
    pub set: u8,
}

/// Points and the ranges of their contours.
pub type Set<'a> = (&'a [i32], &'a [Record]);

/// The lines of two sets, in a listing with so many places.
pub fn compare(first: Set, second: Set, places: usize) -> Result<Vec<Line>, Refusal> {
    let of_set = |set| move |reply| Refusal { reply, set };
    refused(first).map_err(of_set(1))?;
    refused(second).map_err(of_set(2))?;
    let count = first.1.len().max(second.1.len());
    refused_if(places < count, ROOM).map_err(of_set(0))?;
    let (first, second) = (contours(first), contours(second));
    let line = |number: usize| match (first.get(number), second.get(number)) {
        (Some(first), Some(second)) => line(first, second),
        (Some(_), None) => Line::OnlyFirst,
        _ => Line::OnlySecond,
    };
    Ok((0..count).map(line).collect())
}

/// The first refusal that is due of a contour set: 1, 2, 6, 3.
fn refused((points, ranges): Set) -> Reply<()> {
    refused_if(points.len() % 2 == 1, ODD)?;
    refused_if(points.len() / 2 > MOST_POINTS, TOO_MANY)?;
    refused_if(!sound(ranges, points.len() / 2), RANGES)?;
    on_grid(points)
}

fn contours((points, ranges): Set) -> Vec<Vec<Point>> {
    let points: Vec<Point> = points.chunks(2).map(|point| [point[0], point[1]]).collect();
    let contour = |&[start, end]: &Record| points[start..end].to_vec();
    ranges.iter().map(contour).collect()
}

/// The same; the same after starting elsewhere; or different, at the first place where one has another point than the
/// other or none.
pub fn line(first: &[Point], second: &[Point]) -> Line {
    if first == second {
        return Line::Same;
    }
    // Only as many points can be the same.
    let starts = match first.len() == second.len() {
        true => 1..second.len(),
        false => 0..0,
    };
    let started = |&start: &usize| {
        let (front, back) = second.split_at(start);
        let (ahead, round) = first.split_at(back.len());
        ahead == back && round == front
    };
    if let Some(start) = starts.into_iter().find(started) {
        return Line::Elsewhere(start);
    }
    let differs = |&place: &usize| first.get(place) != second.get(place);
    let all = first.len().max(second.len());
    Line::Different((0..all).find(differs).unwrap_or(all))
}

#[cfg(test)]
mod tests {
    use super::{compare, line, Line, Refusal};

    const A: [i32; 2] = [0, 0];
    const B: [i32; 2] = [4, 0];
    const C: [i32; 2] = [0, 4];

    #[test]
    fn two_contours_are_told_by_the_requests_words() {
        assert_eq!(line(&[], &[]), Line::Same);
        assert_eq!(line(&[A, B, C], &[A, B, C]), Line::Same);
        assert_eq!(line(&[A, B, C], &[B, C, A]), Line::Elsewhere(2));
        assert_eq!(line(&[A, B, C], &[C, A, B]), Line::Elsewhere(1));
        assert_eq!(line(&[A, B, A, B], &[B, A, B, A]), Line::Elsewhere(1));
        assert_eq!(line(&[A, B, C], &[C, B, A]), Line::Different(0));
        assert_eq!(line(&[A, B, C], &[A, C, B]), Line::Different(1));
        assert_eq!(line(&[A, B, C], &[A, B]), Line::Different(2));
        assert_eq!(line(&[A, B], &[A, B, C]), Line::Different(2));
        assert_eq!(line(&[A, B, C], &[A, C]), Line::Different(1));
        assert_eq!(line(&[], &[A]), Line::Different(0));
        assert_eq!(line(&[A], &[]), Line::Different(0));
    }

    #[test]
    fn the_first_sets_refusals_come_before_the_seconds_and_want_of_room_last() {
        let one: &[[usize; 2]] = &[[0, 1]];
        let sound = (&[5, 6][..], one);
        let refusal = |reply, set| Err(Refusal { reply, set });
        assert_eq!(compare((&[5], one), (&[5], one), 0), refusal(1, 1));
        assert_eq!(compare((&[5, 6], &[]), (&[5], one), 0), refusal(6, 1));
        assert_eq!(compare(sound, (&[5], one), 0), refusal(1, 2));
        assert_eq!(compare(sound, (&[1 << 30, 6], one), 0), refusal(3, 2));
        assert_eq!(compare(sound, sound, 0), refusal(5, 0));
        assert_eq!(compare(sound, sound, 1), Ok(vec![Line::Same]));
        let two = (&[5, 6][..], &[[0, 0], [0, 1]][..]);
        let lines = vec![Line::Different(0), Line::OnlySecond];
        assert_eq!(compare(sound, two, 2), Ok(lines));
        assert_eq!(compare(two, sound, 1), refusal(5, 0));
    }
}
