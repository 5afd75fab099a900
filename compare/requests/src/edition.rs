//! The set file, of either edition: what they have in common.

use crate::bits::BitReader;
use crate::grid::Point;
use crate::ranges::{sound, Record};
use crate::reply::{refused_if, Reply, RANGES, TOO_MANY};
use crate::{edition_1, edition_2};

pub const EDITION: u8 = 9;
pub const LENGTH: u8 = 10;
pub const BEGINNING: u8 = 11;
pub const NOT_CARRIED: u8 = 12;

pub const MOST_BYTES: usize = 65_536;
pub const MOST_CONTOURS: usize = 4095;
pub const MOST_IN_ONE: usize = 32_767;

pub type Shape = Vec<Vec<Point>>;

#[derive(Clone, Copy, Debug, PartialEq, Eq)]
pub enum Edition {
    One = 1,
    Two = 2,
}

impl Edition {
    pub const BOTH: [Edition; 2] = [Edition::One, Edition::Two];

    /// The file of these shapes, none of them empty.
    pub fn write(self, shapes: &[Shape]) -> Vec<u8> {
        match self {
            Edition::One => edition_1::write(shapes),
            Edition::Two => edition_2::write(shapes),
        }
    }

    /// The file of a flat set in a row of so many bytes, or the first refusal that is due.
    pub fn written(
        self,
        numbers: &[i32],
        contours: &[Record],
        shapes: &[Record],
        room: usize,
    ) -> Reply<Vec<u8>> {
        match self {
            Edition::One => edition_1::written(numbers, contours, shapes, room),
            Edition::Two => edition_2::written(numbers, contours, shapes, room),
        }
    }
}

/// The edition and the shapes of a file, or the first refusal that is due: 2; under two bytes 10; 9 for an edition but
/// 1 and 2; then what the edition refuses.
pub fn read(file: &[u8]) -> Reply<(Edition, Vec<Shape>)> {
    refused_if(file.len() > MOST_BYTES, TOO_MANY)?;
    refused_if(file.len() < 2, LENGTH)?;
    let bits = &mut BitReader::new(file);
    match bits.next(4) {
        1 => Ok((Edition::One, edition_1::shapes(bits)?)),
        2 => Ok((Edition::Two, edition_2::shapes(bits)?)),
        _ => Err(EDITION),
    }
}

/// 6 for ranges that are not sound, of contours or of shapes.
pub(crate) fn both_sound(points: usize, contours: &[Record], shapes: &[Record]) -> Reply<()> {
    refused_if(!sound(contours, points), RANGES)?;
    refused_if(!sound(shapes, contours.len()), RANGES)
}

/// 12 for sound ranges that no file carries: over 4,095 contours, over 32,767 points in one, or an empty shape.
pub(crate) fn carried(contours: &[Record], shapes: &[Record]) -> Reply<()> {
    let over = |&[start, end]: &Record| end - start > MOST_IN_ONE;
    let empty = |&[start, end]: &Record| start == end;
    refused_if(contours.len() > MOST_CONTOURS, NOT_CARRIED)?;
    refused_if(contours.iter().any(over), NOT_CARRIED)?;
    refused_if(shapes.iter().any(empty), NOT_CARRIED)
}

/// The shapes that sound ranges name.
pub(crate) fn parts(numbers: &[i32], contours: &[Record], shapes: &[Record]) -> Vec<Shape> {
    let points: Vec<Point> = numbers
        .chunks(2)
        .map(|point| [point[0], point[1]])
        .collect();
    let contour = |&[start, end]: &Record| points[start..end].to_vec();
    let shape = |&[start, end]: &Record| contours[start..end].iter().map(contour).collect();
    shapes.iter().map(shape).collect()
}

#[cfg(test)]
pub(crate) mod tests {
    use super::{read, Edition, Shape};
    use crate::reply::Reply;

    /// The shapes of a file, which is of this edition if it is read.
    pub fn read_as(expected: Edition, file: &[u8]) -> Reply<Vec<Shape>> {
        let (edition, shapes) = read(file)?;
        assert_eq!(edition, expected);
        Ok(shapes)
    }

    #[test]
    fn the_first_four_bits_are_the_edition() {
        assert_eq!(read(&[0x10, 0]), Ok((Edition::One, vec![])));
        assert_eq!(read(&[0x20, 0]), Ok((Edition::Two, vec![])));
        for edition in (0..16).filter(|edition| ![1, 2].contains(edition)) {
            for file in [&[edition << 4, 0][..], &[edition << 4 | 3, 1, 0, 0]] {
                assert_eq!(read(file), Err(9), "{file:?}");
            }
        }
    }

    #[test]
    fn the_length_comes_before_the_edition() {
        for edition in 0..16 {
            assert_eq!(read(&[edition << 4; 65_537]), Err(2));
            assert_eq!(read(&[edition << 4]), Err(10));
        }
        assert_eq!(read(&[]), Err(10));
    }

    #[test]
    fn a_file_of_one_edition_is_none_of_the_other() {
        let shapes = vec![vec![vec![[5, -2], [4, -2]], vec![]], vec![vec![]]];
        let [one, two] = Edition::BOTH.map(|edition| edition.write(&shapes));
        assert_eq!(read(&one), Ok((Edition::One, shapes.clone())));
        assert_eq!(read(&two), Ok((Edition::Two, shapes)));
    }
}
