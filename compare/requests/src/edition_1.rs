//! Edition 1 of the set file, read and written as document 01 has it.

use crate::bits::{BitReader, BitWriter};
use crate::edition::{both_sound, carried, parts, Shape, BEGINNING, LENGTH, MOST_BYTES};
use crate::grid::MOST_POINTS;
use crate::ranges::Record;
use crate::reply::{on_narrow_grid, refused_if, Reply, ODD, ROOM, TOO_MANY};

/// The shapes of a file, from behind its edition, or the first refusal that is due: for each contour its header missing
/// 10, 11, its points missing 10; left over 10; 3.
pub(crate) fn shapes(bits: &mut BitReader) -> Reply<Vec<Shape>> {
    let mut shapes: Vec<Shape> = vec![];
    for _ in 0..bits.next(12) {
        refused_if(bits.left() < 16, LENGTH)?;
        if bits.next(1) == 1 {
            shapes.push(vec![]);
        }
        let count = bits.next(15) as usize;
        let shape = shapes.last_mut().ok_or(BEGINNING)?;
        refused_if(bits.left() < 64 * count, LENGTH)?;
        let mut coordinate = || bits.next(32) as i32;
        shape.push((0..count).map(|_| [coordinate(), coordinate()]).collect());
    }
    refused_if(bits.left() > 0, LENGTH)?;
    on_narrow_grid(&shapes.concat().concat().concat())?;
    Ok(shapes)
}

/// The file of these shapes, none of them empty.
pub fn write(shapes: &[Shape]) -> Vec<u8> {
    let mut bits = BitWriter::default();
    bits.push(4, 1);
    bits.push(12, shapes.concat().len() as u32);
    for shape in shapes {
        for (place, contour) in shape.iter().enumerate() {
            bits.push(1, u32::from(place == 0));
            bits.push(15, contour.len() as u32);
            for coordinate in contour.concat() {
                bits.push(32, coordinate as u32);
            }
        }
    }
    bits.into_file()
}

/// How many bytes the file of so many contours and points has.
pub fn need(contours: usize, points: usize) -> usize {
    2 + 2 * contours + 8 * points
}

/// The file of a flat set in a row of so many bytes, or the first refusal that is due:
/// 1, 2, 6, 3, 12, 5.
pub fn written(
    numbers: &[i32],
    contours: &[Record],
    shapes: &[Record],
    room: usize,
) -> Reply<Vec<u8>> {
    let points = numbers.len() / 2;
    let need = need(contours.len(), points);
    refused_if(numbers.len() % 2 == 1, ODD)?;
    refused_if(points > MOST_POINTS || need > MOST_BYTES, TOO_MANY)?;
    both_sound(points, contours, shapes)?;
    on_narrow_grid(numbers)?;
    carried(contours, shapes)?;
    refused_if(room < need, ROOM)?;
    Ok(write(&parts(numbers, contours, shapes)))
}

#[cfg(test)]
mod tests {
    use super::{write, written};
    use crate::edition::tests::read_as;
    use crate::edition::{Edition, Shape};
    use crate::grid::{LIMIT, NARROW};
    use crate::reply::Reply;

    fn read(file: &[u8]) -> Reply<Vec<Shape>> {
        read_as(Edition::One, file)
    }

    #[test]
    fn a_file_is_read_field_by_field() {
        let file = [
            0x10, 3, 0x80, 1, 0, 0, 0, 5, 0xff, 0xff, 0xff, 0xfe, 0, 0, 0x80, 0,
        ];
        let shapes = vec![vec![vec![[5, -2]], vec![]], vec![vec![]]];
        assert_eq!(read(&file), Ok(shapes));
        let records = ([[0, 1], [1, 1], [1, 1]], [[0, 2], [2, 3]]);
        assert_eq!(
            written(&[5, -2], &records.0, &records.1, 16),
            Ok(file.to_vec())
        );
        assert_eq!(read(&[0x10, 0]), Ok(vec![]));
        assert_eq!(written(&[], &[], &[], 2), Ok(vec![0x10, 0]));
    }

    #[test]
    fn the_first_refusal_of_a_file_is_given() {
        let off = (NARROW + 1).to_be_bytes();
        let point = [&[0x10, 1, 0x80, 1][..], &off, &off].concat();
        for (file, reply) in [
            (&[0x10; 65_537][..], 2),
            (&[0x10], 10),
            (&[0x10, 1], 10),
            (&[0x10, 1, 0], 10),
            (&[0x10, 1, 0, 1], 11),
            (&[0x10, 1, 0x80, 1], 10),
            (&[0x10, 0, 0], 10),
            (&point[..11], 10),
            (&[&point[..], &[0]].concat(), 10),
            (&point, 3),
        ] {
            assert_eq!(read(file), Err(reply), "{file:?}");
        }
    }

    #[test]
    fn only_the_narrow_grid_is_carried() {
        let of = |number| vec![vec![vec![[0, 0], [4, number]]]];
        let written = |number| written(&[0, 0, 4, number], &[[0, 2]], &[[0, 1]], 20);
        for on in [NARROW, -NARROW] {
            assert_eq!(read(&write(&of(on))), Ok(of(on)));
            assert_eq!(written(on), Ok(write(&of(on))));
        }
        for off in [NARROW + 1, -NARROW - 1, LIMIT, -LIMIT, LIMIT + 1, i32::MIN] {
            assert_eq!(read(&write(&of(off))), Err(3));
            assert_eq!(written(off), Err(3));
        }
    }

    #[test]
    fn the_first_refusal_of_a_set_is_given() {
        let off = NARROW + 1;
        let row = |numbers: &[i32], times| numbers.repeat(times);
        for (numbers, contours, shapes, reply) in [
            (row(&[off], 16_385), &[[1, 0]][..], &[][..], 1),
            (row(&[off], 16_384), &[[1, 0]], &[], 2),
            (row(&[7, 8], 8192), &[[0, 8192]], &[[0, 1]], 2),
            (vec![], &[[0, 0]; 32_768], &[], 2),
            (row(&[off], 16_382), &[[0, 8190]], &[[0, 0]], 6),
            (vec![], &[[0, 0]; 32_767], &[], 6),
            (row(&[off], 2), &[[0, 1]], &[[0, 0], [0, 1]], 3),
            (vec![], &[[0, 0]; 32_767], &[[0, 32_767]], 12),
            (vec![], &[[0, 0]; 4096], &[[0, 4096]], 12),
            (vec![], &[], &[[0, 0]], 12),
            (vec![], &[[0, 0]; 4095], &[[0, 4095]], 5),
        ] {
            assert_eq!(written(&numbers, contours, shapes, 0), Err(reply));
        }
    }
}
