//! Drawings as document 02 has them: commands in rows, and the contours that they draw.

use crate::exact::{millimetres, point, Bits};
use crate::grid::{Point, MOST_POINTS};
use crate::ranges::{sound, Record};
use crate::reply::{on_narrow_grid, refused_if, Reply, ODD, RANGES, TOO_MANY};

/// The kinds of command.
pub const MOVE: u8 = 0;
pub const LINE: u8 = 1;
pub const CLOSE: u8 = 2;

/// Rows whose lengths don't match, a bad kind, or a Line or Close with nothing open.
pub const NO_DRAWING: u8 = 13;

/// A row of kinds, and a row of floats, two for each Move or Line.
#[derive(Clone, Debug, Default, PartialEq, Eq)]
pub struct Drawing {
    pub kinds: Vec<u8>,
    pub floats: Vec<Bits>,
}

impl Drawing {
    /// Adds a command with a place.
    pub fn to(&mut self, kind: u8, place: [Bits; 2]) {
        self.kinds.push(kind);
        self.floats.extend(place);
    }

    pub fn close(&mut self) {
        self.kinds.push(CLOSE);
    }

    /// How many floats its kinds bring.
    pub fn brought(&self) -> usize {
        let places = self.kinds.iter().filter(|kind| has_place(**kind));
        2 * places.count()
    }

    /// How many contours it begins.
    pub fn begun(&self) -> usize {
        self.kinds.iter().filter(|kind| **kind == MOVE).count()
    }

    /// The contours, or the first refusal that is due: 13 by the lengths, that of the first
    /// faulty command, 2.
    pub fn contours(&self) -> Reply<Vec<Vec<Point>>> {
        refused_if(self.floats.len() != self.brought(), NO_DRAWING)?;
        let mut places = self.floats.chunks(2).map(|place| [place[0], place[1]]);
        let mut next = || point(places.next().expect("a place for each of them"));
        let mut contours: Vec<Vec<Point>> = vec![];
        let mut open = false;
        for &kind in &self.kinds {
            match kind {
                MOVE => contours.push(vec![next()?]),
                LINE if open => contours.last_mut().expect("an open one").push(next()?),
                CLOSE if open => {}
                _ => return Err(NO_DRAWING),
            }
            open = kind != CLOSE;
        }
        let points: usize = contours.iter().map(Vec::len).sum();
        refused_if(points > MOST_POINTS, TOO_MANY)?;
        Ok(contours)
    }

    /// Each contour as Move, Lines and Close, an empty one as nothing.
    pub fn of(contours: &[Vec<Point>]) -> Drawing {
        let mut drawing = Drawing::default();
        for contour in contours {
            for (kind, place) in [MOVE]
                .into_iter()
                .chain([LINE].into_iter().cycle())
                .zip(contour)
            {
                drawing.to(kind, place.map(millimetres));
            }
            if !contour.is_empty() {
                drawing.close();
            }
        }
        drawing
    }
}

pub fn has_place(kind: u8) -> bool {
    kind == MOVE || kind == LINE
}

/// The contours of a set, or the first refusal that is due: 1, 2, 6, 3 beyond the narrow grid.
pub fn contours(numbers: &[i32], ranges: &[Record]) -> Reply<Vec<Vec<Point>>> {
    refused_if(numbers.len() % 2 == 1, ODD)?;
    let pairs = numbers.chunks(2);
    let points: Vec<Point> = pairs.map(|point| [point[0], point[1]]).collect();
    refused_if(points.len() > MOST_POINTS, TOO_MANY)?;
    refused_if(!sound(ranges, points.len()), RANGES)?;
    on_narrow_grid(numbers)?;
    let contour = |&[start, end]: &Record| points[start..end].to_vec();
    Ok(ranges.iter().map(contour).collect())
}

/// The numbers of the points, and the ranges of the contours.
pub fn rows(contours: &[Vec<Point>]) -> (Vec<i32>, Vec<Record>) {
    let mut end = 0;
    let mut range = |contour: &Vec<Point>| {
        let start = end;
        end += contour.len();
        [start, end]
    };
    let ranges = contours.iter().map(&mut range).collect();
    (contours.concat().concat(), ranges)
}

#[cfg(test)]
mod tests {
    use super::{contours, Drawing, CLOSE, LINE, MOVE};
    use crate::grid::{LIMIT, NARROW};

    fn drawn(kinds: &[u8], floats: &[f64]) -> Result<Vec<Vec<[i32; 2]>>, u8> {
        let drawing = Drawing {
            kinds: kinds.to_vec(),
            floats: floats.iter().map(|float| float.to_bits()).collect(),
        };
        drawing.contours()
    }

    const NAN: f64 = f64::NAN;

    #[test]
    fn a_move_begins_and_a_close_or_the_end_ends() {
        let (a, b) = ([1.0, 2.0], [3.0, 4.0]);
        let (p, q) = ([1024, 2048], [3072, 4096]);
        let both = [a, b].concat();
        assert_eq!(drawn(&[], &[]), Ok(vec![]));
        assert_eq!(drawn(&[MOVE], &a), Ok(vec![vec![p]]));
        assert_eq!(drawn(&[MOVE, LINE], &both), Ok(vec![vec![p, q]]));
        assert_eq!(drawn(&[MOVE, LINE, CLOSE], &both), Ok(vec![vec![p, q]]));
        assert_eq!(drawn(&[MOVE, MOVE], &both), Ok(vec![vec![p], vec![q]]));
        assert_eq!(
            drawn(&[MOVE, CLOSE, MOVE], &both),
            Ok(vec![vec![p], vec![q]])
        );
    }

    #[test]
    fn the_first_refusal_that_is_due_is_given() {
        assert_eq!(drawn(&[MOVE], &[0.0]), Err(13));
        assert_eq!(drawn(&[MOVE, 7], &[NAN, 0.0, 0.0, 0.0]), Err(13));
        assert_eq!(drawn(&[MOVE, 7], &[NAN, 0.0]), Err(14));
        assert_eq!(drawn(&[MOVE, 7], &[1e9, 0.0]), Err(3));
        assert_eq!(drawn(&[MOVE, 7], &[0.0, 0.0]), Err(13));
        assert_eq!(drawn(&[LINE], &[NAN, 0.0]), Err(13));
        assert_eq!(drawn(&[CLOSE], &[]), Err(13));
        assert_eq!(drawn(&[MOVE, CLOSE, LINE], &[0.0; 4]), Err(13));
        assert_eq!(drawn(&[MOVE, CLOSE, CLOSE], &[0.0; 2]), Err(13));
        assert_eq!(drawn(&[MOVE, LINE], &[1e9, 0.0, NAN, 0.0]), Err(3));
        assert_eq!(drawn(&[MOVE, LINE], &[0.0, 1e9, 0.0, NAN]), Err(3));
        let many = |count: usize| drawn(&vec![MOVE; count], &vec![0.0; 2 * count]);
        assert_eq!(many(65_537), Err(2));
        assert_eq!(many(65_536).map(|contours| contours.len()), Ok(65_536));
        let mut kinds = vec![MOVE; 70_000];
        kinds.push(3);
        assert_eq!(drawn(&kinds, &[0.0; 140_000]), Err(13));
    }

    #[test]
    fn the_way_back_leaves_out_what_is_empty() {
        let contours = vec![vec![], vec![[1024, -512]], vec![], vec![[0, 1], [2, 3]]];
        let drawing = Drawing::of(&contours);
        assert_eq!(drawing.kinds, [MOVE, CLOSE, MOVE, LINE, CLOSE]);
        let floats = [1.0, -0.5, 0.0, 1.0 / 1024.0, 2.0 / 1024.0, 3.0 / 1024.0];
        assert_eq!(drawing.floats, floats.map(f64::to_bits));
        let filled = contours.into_iter().filter(|contour| !contour.is_empty());
        assert_eq!(drawing.contours(), Ok(filled.collect()));
    }

    #[test]
    fn a_set_is_refused_by_the_first_that_is_due() {
        let off = NARROW + 1;
        assert_eq!(contours(&[off], &[]), Err(1));
        assert_eq!(contours(&[off; 131_074], &[]), Err(2));
        assert_eq!(contours(&[off, 0], &[]), Err(6));
        for number in [off, -off, LIMIT, -LIMIT, LIMIT + 1, i32::MIN] {
            assert_eq!(contours(&[number, 0], &[[0, 1]]), Err(3));
            assert_eq!(contours(&[0, number], &[[0, 1]]), Err(3));
        }
        for number in [NARROW, -NARROW] {
            assert_eq!(
                contours(&[number, 0], &[[0, 1]]),
                Ok(vec![vec![[number, 0]]])
            );
        }
        assert_eq!(contours(&[], &[]), Ok(vec![]));
    }
}
