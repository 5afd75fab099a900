//! What is sound of a damaged file, written as a file of its own, as document 02 asks for.

use crate::bits::BitReader;
use crate::edition::{Shape, BEGINNING, EDITION, LENGTH, MOST_BYTES};
use crate::edition_1::write;
use crate::grid::Point;
use crate::ranges::Record;
use crate::reply::{on_narrow_grid, refused_if, Reply, OFF_GRID, ROOM, TOO_MANY};

/// A contour that came whole.
struct Came {
    begins: bool,
    points: Vec<Point>,
}

impl Came {
    fn on_grid(&self) -> bool {
        on_narrow_grid(&self.points.concat()).is_ok()
    }
}

/// A file of what is sound, and what became of the rest.
#[derive(Debug, PartialEq, Eq)]
pub struct Mended {
    pub file: Vec<u8>,
    /// The number of each contour that was dropped, from 0, and the reason: 3 or 11.
    pub dropped: Vec<Record>,
    /// How many promised contours never came.
    pub missing: usize,
    /// How many bytes stand past the promised count.
    pub past: usize,
}

/// What is sound of a file, or the first refusal that is due: 2; under two bytes 10; 9; 5 if the output is shorter than
/// the file or the list than its count.
pub fn mend(out: usize, list: usize, file: &[u8]) -> Reply<Mended> {
    refused_if(file.len() > MOST_BYTES, TOO_MANY)?;
    refused_if(file.len() < 2, LENGTH)?;
    let bits = &mut BitReader::new(file);
    refused_if(bits.next(4) != 1, EDITION)?;
    let promised = bits.next(12) as usize;
    refused_if(out < file.len() || list < promised, ROOM)?;
    let whole = std::iter::from_fn(|| next_whole(bits));
    let came: Vec<Came> = whole.take(promised).collect();
    let (kept, dropped) = sifted(&came);
    let missing = promised - came.len();
    Ok(Mended {
        file: write(&kept),
        dropped,
        missing,
        past: if missing == 0 { bits.left() / 8 } else { 0 },
    })
}

/// The next contour, if its header and its points are complete.
fn next_whole(bits: &mut BitReader) -> Option<Came> {
    if bits.left() < 16 {
        return None;
    }
    let begins = bits.next(1) == 1;
    let count = bits.next(15) as usize;
    if bits.left() < 64 * count {
        return None;
    }
    let mut coordinate = || bits.next(32) as i32;
    let points = (0..count).map(|_| [coordinate(), coordinate()]).collect();
    Some(Came { begins, points })
}

/// The shapes that are kept, and the contours that are dropped. At the head of those that belong together stands one
/// that begins a shape, or the first of all: if it is off the grid, or begins no shape, they all go.
fn sifted(came: &[Came]) -> (Vec<Shape>, Vec<Record>) {
    let (mut kept, mut dropped) = (vec![], vec![]);
    let mut numbers = 0..;
    for together in came.chunk_by(|_, next| !next.begins) {
        let stays = together[0].begins && together[0].on_grid();
        let mut shape = vec![];
        for (contour, number) in together.iter().zip(&mut numbers) {
            match contour.on_grid() {
                false => dropped.push([number, OFF_GRID.into()]),
                true if !stays => dropped.push([number, BEGINNING.into()]),
                true => shape.push(contour.points.clone()),
            }
        }
        if stays {
            kept.push(shape);
        }
    }
    (kept, dropped)
}

#[cfg(test)]
mod tests {
    use super::{mend, Mended};
    use crate::edition::Edition;
    use crate::edition_1::write;
    use crate::grid::{Point, LIMIT, NARROW};
    use crate::reply::Reply;

    /// With room for whatever a file can have.
    fn roomy(file: &[u8]) -> Reply<Mended> {
        mend(65_536, 4095, file)
    }

    /// The file of contours of which each begins a shape or not.
    fn file(contours: &[(bool, &[Point])]) -> Vec<u8> {
        let mut file = write(&[contours.iter().map(|of| of.1.to_vec()).collect()]);
        let mut place = 2;
        for &(begins, points) in contours {
            file[place] = u8::from(begins) << 7;
            place += 2 + 8 * points.len();
        }
        file
    }

    fn mended(file: Vec<u8>, dropped: &[[usize; 2]], missing: usize, past: usize) -> Mended {
        Mended {
            file,
            dropped: dropped.to_vec(),
            missing,
            past,
        }
    }

    const A: &[Point] = &[[1, -2], [3, 4], [NARROW, -NARROW]];
    const B: &[Point] = &[[5, 6]];
    const OFF: &[Point] = &[[7, 8], [9, -NARROW - 1]];

    #[test]
    fn a_sound_file_comes_back() {
        for shapes in [
            vec![],
            vec![vec![vec![]]],
            vec![vec![A.to_vec(), B.to_vec()], vec![vec![]], vec![B.to_vec()]],
        ] {
            let file = write(&shapes);
            assert_eq!(roomy(&file), Ok(mended(file, &[], 0, 0)));
        }
    }

    #[test]
    fn only_edition_1_is_mended() {
        let shapes = [vec![A.to_vec(), B.to_vec()]];
        assert_eq!(roomy(&Edition::Two.write(&shapes)), Err(9));
        let damaged = Edition::Two.write(&shapes)[..9].to_vec();
        assert_eq!(roomy(&damaged), Err(9));
    }

    #[test]
    fn a_hole_off_the_grid_goes_alone() {
        let damaged = file(&[(true, A), (false, OFF), (false, B)]);
        let rest = file(&[(true, A), (false, B)]);
        assert_eq!(roomy(&damaged), Ok(mended(rest, &[[1, 3]], 0, 0)));
    }

    #[test]
    fn only_the_narrow_grid_is_kept() {
        for off in [NARROW + 1, LIMIT, -LIMIT, LIMIT + 1, i32::MIN] {
            let damaged = file(&[(true, A), (false, &[[off, 0]]), (true, B)]);
            let rest = file(&[(true, A), (true, B)]);
            assert_eq!(roomy(&damaged), Ok(mended(rest, &[[1, 3]], 0, 0)));
        }
    }

    #[test]
    fn with_an_outline_go_those_that_follow_up_to_the_next() {
        let damaged = file(&[
            (true, B),
            (true, OFF),
            (false, A),
            (false, OFF),
            (false, &[]),
            (true, A),
            (false, B),
        ]);
        let rest = file(&[(true, B), (true, A), (false, B)]);
        let dropped = [[1, 3], [2, 11], [3, 3], [4, 11]];
        assert_eq!(roomy(&damaged), Ok(mended(rest, &dropped, 0, 0)));
    }

    #[test]
    fn a_first_contour_that_begins_no_shape_goes_the_same_way() {
        let damaged = file(&[(false, A), (false, OFF), (true, B), (false, A)]);
        let rest = file(&[(true, B), (false, A)]);
        let dropped = [[0, 11], [1, 3]];
        assert_eq!(roomy(&damaged), Ok(mended(rest, &dropped, 0, 0)));
        let none = mended(vec![0x10, 0], &[[0, 11]], 0, 0);
        assert_eq!(roomy(&file(&[(false, B)])), Ok(none));
    }

    #[test]
    fn what_is_cut_off_never_came() {
        let whole = file(&[(true, A), (false, B), (true, B)]);
        let (one, two) = (file(&[(true, A)]), file(&[(true, A), (false, B)]));
        for (length, rest, missing) in [
            (2, &vec![0x10, 0], 3),
            (3, &vec![0x10, 0], 3),
            (27, &vec![0x10, 0], 3),
            (28, &one, 2),
            (29, &one, 2),
            (37, &one, 2),
            (38, &two, 1),
            (47, &two, 1),
            (48, &whole, 0),
        ] {
            let rest = mended(rest.clone(), &[], missing, 0);
            assert_eq!(roomy(&whole[..length]), Ok(rest), "{length}");
        }
    }

    #[test]
    fn bytes_past_the_count_are_counted_where_all_came() {
        let whole = file(&[(true, A), (true, B)]);
        let longer = [&whole[..], &[0x80, 0, 0]].concat();
        assert_eq!(roomy(&longer), Ok(mended(whole.clone(), &[], 0, 3)));
        let mut fewer = whole.clone();
        fewer[1] = 1;
        let rest = mended(file(&[(true, A)]), &[], 0, 10);
        assert_eq!(roomy(&fewer), Ok(rest));
        let mut more = longer.clone();
        more[1] = 4;
        let empty = file(&[(true, A), (true, B), (true, &[])]);
        assert_eq!(roomy(&more), Ok(mended(empty, &[], 1, 0)));
    }
}
