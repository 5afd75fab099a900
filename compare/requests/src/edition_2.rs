//! Edition 2 of the set file, read and written as document 02 has it: each point but a contour's first as its
//! differences from the one before, in as few bits as carry all of the contour's.

use crate::bits::{BitReader, BitWriter};
use crate::edition::{both_sound, carried, parts, Shape, BEGINNING, LENGTH, MOST_BYTES};
use crate::grid::{Point, LIMIT, MOST_POINTS};
use crate::ranges::Record;
use crate::reply::{on_grid, refused_if, Reply, ODD, OFF_GRID, ROOM, TOO_MANY};

pub const WIDTH: u8 = 15;
pub const FILL: u8 = 16;

/// How many bits the header of a contour has.
pub const HEADER: usize = 22;

/// The largest width that carries differences.
pub const WIDEST: usize = 32;

/// Exact, however far differences go.
type Place = [i64; 2];

/// The shapes of a file, from behind its edition, or the first refusal that is due: for each contour its header missing
/// 10, 11, points promised past 65,536 in all 2, bits missing by the width as written 10, 15; whole bytes left over 10;
/// 16; 3.
pub(crate) fn shapes(bits: &mut BitReader) -> Reply<Vec<Shape>> {
    let mut shapes: Vec<Vec<Vec<Place>>> = vec![];
    let mut promised = 0;
    for _ in 0..bits.next(12) {
        refused_if(bits.left() < HEADER, LENGTH)?;
        if bits.next(1) == 1 {
            shapes.push(vec![]);
        }
        let count = bits.next(15) as usize;
        let width = bits.next(6) as usize;
        let shape = shapes.last_mut().ok_or(BEGINNING)?;
        promised += count;
        refused_if(promised > MOST_POINTS, TOO_MANY)?;
        refused_if(bits.left() < points_need(count, width), LENGTH)?;
        shape.push(contour(bits, count, width)?);
    }
    refused_if(bits.left() >= 8, LENGTH)?;
    refused_if(bits.next(bits.left()) != 0, FILL)?;
    on_the_grid(&shapes)
}

/// How many bits so many points take.
fn points_need(count: usize, width: usize) -> usize {
    match count {
        0 => 0,
        _ => 64 + 2 * (count - 1) * width,
    }
}

/// The points of a contour, whose bits are all there, or 15 for a width of 0, over 32 or not the smallest.
fn contour(bits: &mut BitReader, count: usize, width: usize) -> Reply<Vec<Place>> {
    refused_if(width == 0 || width > WIDEST, WIDTH)?;
    let mut next = |width| [bits.next_signed(width), bits.next_signed(width)];
    let first = (count > 0).then(|| next(32));
    let steps: Vec<Place> = (1..count).map(|_| next(width)).collect();
    refused_if(width != smallest_width(&steps), WIDTH)?;
    let mut places = Vec::from_iter(first);
    for step in steps {
        let before = places[places.len() - 1];
        places.push([before[0] + step[0], before[1] + step[1]]);
    }
    Ok(places)
}

/// The smallest width, from 1 on, in which every difference can be said.
pub fn smallest_width(steps: &[Place]) -> usize {
    let differences = steps.concat();
    let said_in = |width: &usize| {
        let end = 1i64 << (width - 1);
        differences
            .iter()
            .all(|number| (-end..end).contains(number))
    };
    (1..).find(said_in).expect("a width")
}

/// The shapes, or 3 where a place is off the grid.
fn on_the_grid(shapes: &[Vec<Vec<Place>>]) -> Reply<Vec<Shape>> {
    let grid = -i64::from(LIMIT)..=i64::from(LIMIT);
    let on = |&number: &i64| {
        if grid.contains(&number) {
            Ok(number as i32)
        } else {
            Err(OFF_GRID)
        }
    };
    let point = |place: &Place| Ok([on(&place[0])?, on(&place[1])?]);
    let contour = |places: &Vec<Place>| places.iter().map(point).collect::<Reply<Vec<Point>>>();
    let shape = |contours: &Vec<Vec<Place>>| contours.iter().map(contour).collect::<Reply<Shape>>();
    shapes.iter().map(shape).collect()
}

/// The differences of each point but the first from the one before.
fn steps(contour: &[Point]) -> Vec<Place> {
    let step = |pair: &[Point]| [0, 1].map(|k| i64::from(pair[1][k]) - i64::from(pair[0][k]));
    contour.windows(2).map(step).collect()
}

/// The file of these shapes, none of them empty.
pub fn write(shapes: &[Shape]) -> Vec<u8> {
    let mut bits = BitWriter::default();
    bits.push(4, 2);
    bits.push(12, shapes.concat().len() as u32);
    for shape in shapes {
        for (place, contour) in shape.iter().enumerate() {
            let steps = steps(contour);
            let width = smallest_width(&steps);
            bits.push(1, u32::from(place == 0));
            bits.push(15, contour.len() as u32);
            bits.push(6, width as u32);
            for coordinate in contour.first().into_iter().flatten() {
                bits.push_signed(32, i64::from(*coordinate));
            }
            for difference in steps.concat() {
                bits.push_signed(width, difference);
            }
        }
    }
    bits.into_file()
}

/// How many bytes the file of these shapes has.
pub fn need(shapes: &[Shape]) -> usize {
    let contour =
        |points: &Vec<Point>| HEADER + points_need(points.len(), smallest_width(&steps(points)));
    let bits = 16 + shapes.concat().iter().map(contour).sum::<usize>();
    bits.div_ceil(8)
}

/// The file of a flat set in a row of so many bytes, or the first refusal that is due: 1, 2 for its points, 6, 3, 12, 2
/// for its file's length, 5.
pub fn written(
    numbers: &[i32],
    contours: &[Record],
    shapes: &[Record],
    room: usize,
) -> Reply<Vec<u8>> {
    let points = numbers.len() / 2;
    refused_if(numbers.len() % 2 == 1, ODD)?;
    refused_if(points > MOST_POINTS, TOO_MANY)?;
    both_sound(points, contours, shapes)?;
    on_grid(numbers)?;
    carried(contours, shapes)?;
    let shapes = parts(numbers, contours, shapes);
    let need = need(&shapes);
    refused_if(need > MOST_BYTES, TOO_MANY)?;
    refused_if(room < need, ROOM)?;
    Ok(write(&shapes))
}

#[cfg(test)]
mod tests {
    use super::{need, smallest_width, write, written};
    use crate::bits::BitWriter;
    use crate::edition::tests::read_as;
    use crate::edition::{Edition, Shape};
    use crate::grid::{Point, LIMIT, NARROW};
    use crate::reply::Reply;

    fn read(file: &[u8]) -> Reply<Vec<Shape>> {
        read_as(Edition::Two, file)
    }

    /// A header, and what stands behind it: numbers of 32 bits, and numbers in the width.
    type Contour<'a> = (bool, u32, u32, &'a [i64], &'a [i64]);

    /// The file of these contours, whatever they are.
    fn file(contours: &[Contour]) -> Vec<u8> {
        let mut bits = BitWriter::default();
        bits.push(16, 0x2000 | contours.len() as u32);
        for &(begins, count, width, first, steps) in contours {
            bits.push(1, begins.into());
            bits.push(15, count);
            bits.push(6, width);
            first
                .iter()
                .for_each(|&number| bits.push_signed(32, number));
            for &number in steps {
                bits.push_signed(width as usize, number);
            }
        }
        bits.into_file()
    }

    fn one(points: &[Point]) -> Vec<Shape> {
        vec![vec![points.to_vec()]]
    }

    #[test]
    fn a_file_is_read_field_by_field() {
        // 1 000000000000010 000001, 5 and -2 in 32 bits each, -1 and 0 in one bit each: eleven bytes.
        let file = [
            0x20, 1, 0x80, 0x02, 0x04, 0, 0, 0, 0x17, 0xff, 0xff, 0xff, 0xfa,
        ];
        assert_eq!(read(&file), Ok(one(&[[5, -2], [4, -2]])));
        assert_eq!(write(&one(&[[5, -2], [4, -2]])), file);
        // The same with -3 and 2 in three bits each: 101 010, and four bits of fill.
        let file = [
            0x20, 1, 0x80, 0x02, 0x0c, 0, 0, 0, 0x17, 0xff, 0xff, 0xff, 0xfa, 0xa0,
        ];
        assert_eq!(read(&file), Ok(one(&[[5, -2], [2, 0]])));
        assert_eq!(write(&one(&[[5, -2], [2, 0]])), file);
        assert_eq!(read(&[0x20, 0]), Ok(vec![]));
        assert_eq!(written(&[], &[], &[], 2), Ok(vec![0x20, 0]));
        // An empty contour has a width and no point.
        assert_eq!(read(&[0x20, 1, 0x80, 0, 0x04]), Ok(one(&[])));
        assert_eq!(
            written(&[], &[[0, 0]], &[[0, 1]], 5),
            Ok(vec![0x20, 1, 0x80, 0, 0x04])
        );
    }

    #[test]
    fn shapes_begin_where_the_bits_say() {
        let shapes = vec![vec![vec![[5, -2]], vec![]], vec![vec![]]];
        let none: &[i64] = &[];
        let contours = [
            (true, 1, 1, &[5, -2][..], none),
            (false, 0, 1, none, none),
            (true, 0, 1, none, none),
        ];
        assert_eq!(read(&file(&contours)), Ok(shapes.clone()));
        assert_eq!(write(&shapes), file(&contours));
        let records = ([[0, 1], [1, 1], [1, 1]], [[0, 2], [2, 3]]);
        assert_eq!(
            written(&[5, -2], &records.0, &records.1, 19),
            Ok(file(&contours))
        );
        assert_eq!(written(&[5, -2], &records.0, &records.1, 18), Err(5));
    }

    #[test]
    fn a_width_ends_where_two_s_complement_does() {
        assert_eq!(smallest_width(&[]), 1);
        assert_eq!(smallest_width(&[[0, 0], [-1, 0]]), 1);
        for width in 2..=32 {
            let end = 1i64 << (width - 1);
            for number in [-end, end - 1, -end / 2 - 1, end / 2] {
                assert_eq!(smallest_width(&[[0, -1], [number, 0]]), width, "{number}");
                assert_eq!(smallest_width(&[[0, number], [0, 0]]), width, "{number}");
            }
        }
    }

    #[test]
    fn every_width_but_the_smallest_is_refused() {
        for smallest in 1..=32u32 {
            let end = 1i64 << (smallest - 1);
            for step in [-end, end - 1] {
                // From 1 down the last width but one ends on the grid, and the last beyond it.
                let first = [i64::from(step < 0), 0];
                let reply = if smallest == 32 { Err(3) } else { Ok(()) };
                let of = |width| file(&[(true, 2, width, &first, &[step, 0])]);
                assert_eq!(read(&of(smallest)).map(drop), reply, "{step}");
                for wider in smallest + 1..64 {
                    assert_eq!(read(&of(wider)), Err(15), "{step} in {wider}");
                }
                assert_eq!(read(&of(0)), Err(15));
            }
        }
        for (count, first) in [(0, &[][..]), (1, &[5, 6])] {
            for width in (0..64).filter(|&width| width != 1) {
                assert_eq!(read(&file(&[(true, count, width, first, &[])])), Err(15));
            }
        }
    }

    #[test]
    fn the_bits_that_are_missing_are_told_by_the_width_as_written() {
        // A point, and one more in the width: 22 + 64 + 2w bits.
        for width in 0..64 {
            let whole = file(&[(true, 2, width, &[0, 0], &[0, 0])]);
            let all = 2 + (22 + 64 + 2 * width as usize).div_ceil(8);
            assert_eq!(whole.len(), all);
            let reply = if width == 1 {
                Ok(one(&[[0, 0], [0, 0]]))
            } else {
                Err(15)
            };
            assert_eq!(read(&whole), reply, "{width}");
            assert_eq!(read(&whole[..all - 1]), Err(10), "{width}");
        }
        let (nothing, more) = (
            file(&[(true, 3, 33, &[], &[])]),
            file(&[(true, 3, 33, &[1, 2], &[0; 4])]),
        );
        assert_eq!(read(&nothing), Err(10));
        assert_eq!(read(&more), Err(15));
        assert_eq!(read(&more[..more.len() - 1]), Err(10));
    }

    #[test]
    fn the_first_refusal_of_a_file_is_given() {
        let off = i64::from(LIMIT) + 1;
        let off_and_back: Contour = (true, 3, 2, &[off - 1, 0], &[1, 0, -1, 0]);
        let none: &[i64] = &[];
        for (file, reply) in [
            (vec![0x20; 65_537], 2),
            (vec![0x20], 10),
            // A header of 22 bits has three bytes.
            (vec![0x20, 1], 10),
            (vec![0x20, 1, 0, 0], 10),
            (vec![0x20, 1, 0, 0, 0], 11),
            (vec![0x20, 1, 0x7f, 0xff, 0xff], 11),
            (vec![0x20, 1, 0x80, 0, 0], 15),
            (vec![0x20, 1, 0x80, 0, 4], 0),
            // Whole bytes are left over before fill bits are looked at.
            (vec![0x20, 1, 0x80, 0, 5, 0], 10),
            (vec![0x20, 1, 0x80, 0, 4, 0], 10),
            (vec![0x20, 0, 0], 10),
            (vec![0x20, 1, 0x80, 0, 5], 16),
            (vec![0x20, 1, 0x80, 0, 6], 16),
            // The first contour that is faulty decides.
            (vec![0x20, 2, 0x80, 0, 4], 10),
            (vec![0x20, 2, 0x80, 0, 8], 15),
            (vec![0x20, 2, 0x80, 0, 4, 0, 0, 0x10], 0),
            (vec![0x20, 2, 0x80, 0, 4, 0, 0, 0x20], 15),
            (
                file(&[(true, 1, 1, &[off, 0], none), (true, 0, 2, none, none)]),
                15,
            ),
            (file(&[off_and_back]), 3),
            (file(&[(true, 1, 1, &[0, off], none)]), 3),
            (file(&[(true, 1, 1, &[i32::MIN.into(), 0], none)]), 3),
            (file(&[(true, 1, 1, &[off - 1, 1 - off], none)]), 0),
        ] {
            let read = read(&file).map(drop);
            assert_eq!(read.err().unwrap_or(0), reply, "{file:x?}");
        }
        let mut filled = file(&[off_and_back]);
        *filled.last_mut().unwrap() |= 1;
        assert_eq!(read(&filled), Err(16));
        filled.push(0);
        assert_eq!(read(&filled), Err(10));
    }

    #[test]
    fn what_is_promised_is_added_up_before_bits_are_missing() {
        let row: &[i64] = &[0; 65_532];
        let whole: Contour = (true, 32_767, 1, &[7, -8], row);
        let of = |count, width, steps| file(&[whole, whole, (true, count, width, &[7, -8], steps)]);
        assert_eq!(
            read(&of(2, 1, &[0, -1])).map(|shapes| shapes.concat().concat().len()),
            Ok(65_536)
        );
        assert_eq!(read(&of(2, 63, &[])), Err(10));
        for width in [0, 1, 33] {
            assert_eq!(read(&of(3, width, &[])), Err(2));
        }
        let short = of(3, 1, &[]);
        assert_eq!(read(&short[..short.len() - 8]), Err(2));
        assert_eq!(read(&short[..2 + 2 * 8203]), Err(10));
        assert_eq!(read(&file(&[whole, (true, 32_767, 1, &[], &[])])), Err(10));
    }

    #[test]
    fn sums_are_exact() {
        let (end, most) = (i64::from(LIMIT), i64::from(i32::MAX));
        let of = |steps: &[i64]| {
            read(&file(&[(
                true,
                1 + steps.len() as u32 / 2,
                32,
                &[-end, end],
                steps,
            )]))
        };
        assert_eq!(
            of(&[2 * end, -2 * end]),
            Ok(one(&[[-LIMIT, LIMIT], [LIMIT, -LIMIT]]))
        );
        assert_eq!(of(&[most, 0]), Err(3));
        assert_eq!(of(&[0, most]), Err(3));
        assert_eq!(of(&[0, most, 0, most]), Err(3));
        assert_eq!(of(&[0, most, 0, -most]), Err(3));
        assert_eq!(of(&[-most - 1, 0, most, 0]), Err(3));
        assert_eq!(of(&[-most - 1, 0, -most - 1, 0]), Err(3));
    }

    #[test]
    fn the_whole_grid_is_carried() {
        let points = [[-LIMIT, LIMIT], [LIMIT, NARROW + 1], [0, -LIMIT]];
        let file = write(&one(&points));
        assert_eq!(read(&file), Ok(one(&points)));
        assert_eq!(
            written(&points.concat(), &[[0, 3]], &[[0, 1]], 29),
            Ok(file)
        );
        for off in [LIMIT + 1, -LIMIT - 1, i32::MAX, i32::MIN] {
            assert_eq!(written(&[off, 0], &[[0, 1]], &[[0, 1]], 99), Err(3));
        }
    }

    #[test]
    fn the_first_refusal_of_a_set_is_given() {
        let row = |numbers: &[i32], times| numbers.repeat(times);
        let off = [LIMIT + 1];
        let wild = |points: usize| row(&[LIMIT, LIMIT, -LIMIT, -LIMIT], points / 2);
        for (numbers, contours, shapes, reply) in [
            (row(&off, 131_075), &[[1, 0]][..], &[][..], 1),
            (row(&off, 131_074), &[[1, 0]], &[], 2),
            (row(&off, 131_072), &[[1, 0]], &[], 6),
            (row(&off, 131_072), &[[0, 65_536]], &[[0, 0]], 6),
            (row(&off, 131_072), &[[0, 65_536]], &[[0, 1], [1, 1]], 3),
            (row(&[7, 8], 65_536), &[[0, 65_536]], &[[0, 1]], 12),
            (row(&[7, 8], 32_768), &[[0, 32_768]], &[[0, 1]], 12),
            (row(&[7, 8], 32_767), &[[0, 32_767]], &[[0, 1]], 5),
            (vec![], &[[0, 0]; 4096], &[[0, 4096]], 12),
            (vec![], &[[0, 0]; 4095], &[[0, 4095]], 5),
            (wild(32_766), &[[0, 32_766]], &[[0, 1], [1, 1]], 12),
            (wild(32_766), &[[0, 32_766]], &[[0, 1]], 2),
            (vec![], &[], &[[0, 0]], 12),
            (vec![], &[], &[], 5),
        ] {
            assert_eq!(written(&numbers, contours, shapes, 0), Err(reply));
        }
    }

    #[test]
    fn a_file_of_65_536_bytes_is_the_longest() {
        // 16 + 2 (22 + 64) + 2 · 130 + 64 · 8185 bits.
        let most = |ones: usize, wide: usize| {
            let wide = [[LIMIT, LIMIT], [-LIMIT, -LIMIT]].repeat(wide / 2);
            vec![vec![vec![[0, 0]; ones], wide]]
        };
        let (fits, over) = (most(131, 8186), most(132, 8186));
        assert_eq!([need(&fits), need(&over)], [65_536, 65_537]);
        for (shapes, length) in [(fits, Ok(65_536)), (over, Err(2))] {
            let numbers = shapes.concat().concat().concat();
            let [a, b] = [shapes[0][0].len(), numbers.len() / 2];
            let written = written(&numbers, &[[0, a], [a, b]], &[[0, 2]], 65_536);
            assert_eq!(written.clone().map(|file| file.len()), length);
            assert_eq!(written.and_then(|file| read(&file)), length.map(|_| shapes));
        }
    }
}
