//! A set file read, written and mended in plain Rust, as a user without the library would do it. Bytes are big-endian:
//! four bits of edition and twelve of count; for each contour a bit that begins a shape, fifteen of count, and the points.

// No program takes all of it.
#![allow(dead_code)]

use i_float::int::point::IntPoint;
use i_shape::flat::buffer::FlatShapesBuffer;
use requests::grid::NARROW;

type Point = IntPoint<i32>;

/// The two bytes at the front, as a number, and what is behind them.
fn word(bytes: &[u8]) -> Option<(usize, &[u8])> {
    let (&word, behind) = bytes.split_first_chunk()?;
    Some((u16::from_be_bytes(word).into(), behind))
}

fn number(bytes: &[u8]) -> i32 {
    i32::from_be_bytes([bytes[0], bytes[1], bytes[2], bytes[3]])
}

/// The shape set of a file, or nothing if that is short, has bytes left over or is of another edition. Where the points
/// lie is not asked.
pub fn read(bytes: &[u8], set: &mut FlatShapesBuffer<i32>) -> Option<()> {
    let (head, mut bytes) = word(bytes).filter(|(head, _)| head >> 12 == 1)?;
    let count = head & 0xfff;
    set.clear_and_reserve(bytes.len() / 8, count, count);
    for contour in 0..count {
        let (header, behind) = word(bytes)?;
        let (points, behind) = behind.split_at_checked(8 * (header & 0x7fff))?;
        let start = set.points.len();
        set.points.extend(points.chunks_exact(8).map(|p| Point::new(number(&p[..4]), number(&p[4..]))));
        set.contour_ranges.push(start..set.points.len());
        if header >> 15 == 1 {
            set.shape_ranges.push(contour..contour + 1);
        } else {
            set.shape_ranges.last_mut()?.end += 1;
        }
        bytes = behind;
    }
    bytes.is_empty().then_some(())
}

/// The file of a shape set that one can carry.
pub fn write(set: &FlatShapesBuffer<i32>, bytes: &mut Vec<u8>) {
    bytes.clear();
    bytes.extend((1 << 12 | set.contour_ranges.len() as u16).to_be_bytes());
    for shape in &set.shape_ranges {
        for contour in shape.clone() {
            let points = &set.points[set.contour_ranges[contour].clone()];
            let begins = u16::from(contour == shape.start);
            bytes.extend((begins << 15 | points.len() as u16).to_be_bytes());
            for point in points {
                bytes.extend(point.x.to_be_bytes());
                bytes.extend(point.y.to_be_bytes());
            }
        }
    }
}

/// What became of the contours that are not in a mended file.
#[derive(Debug, Default, PartialEq, Eq)]
pub struct Lost {
    /// The number of each that was dropped, from 0, and why: 3 or 11.
    pub dropped: Vec<[usize; 2]>,
    pub missing: usize,
    pub past: usize,
}

fn on_grid(points: &[u8]) -> bool {
    points.chunks_exact(4).all(|bytes| (-NARROW..=NARROW).contains(&number(bytes)))
}

/// The front contour: its header, its bytes with the header, and what is behind it, or nothing if it is not all there.
fn front(bytes: &[u8]) -> Option<(usize, &[u8], &[u8])> {
    let (header, _) = word(bytes)?;
    let (contour, behind) = bytes.split_at_checked(2 + 8 * (header & 0x7fff))?;
    Some((header, contour, behind))
}

/// What is sound of a file, as a file, or nothing if that is of another edition.
pub fn mend(bytes: &[u8], out: &mut Vec<u8>, lost: &mut Lost) -> Option<()> {
    let (head, mut bytes) = word(bytes).filter(|(head, _)| head >> 12 == 1)?;
    out.clear();
    out.extend([0; 2]);
    lost.dropped.clear();
    let (mut came, mut open) = (0, false);
    while let Some((header, contour, behind)) = front(bytes).filter(|_| came < head & 0xfff) {
        let good = on_grid(&contour[2..]);
        open = if header >> 15 == 1 { good } else { open };
        match (good, open) {
            (true, true) => out.extend(contour),
            (true, false) => lost.dropped.push([came, 11]),
            (false, _) => lost.dropped.push([came, 3]),
        }
        came += 1;
        bytes = behind;
    }
    lost.missing = (head & 0xfff) - came;
    lost.past = if lost.missing == 0 { bytes.len() } else { 0 };
    let kept = came - lost.dropped.len();
    out[..2].copy_from_slice(&(1 << 12 | kept as u16).to_be_bytes());
    Some(())
}
