//! The table of the library's program `listing` in plain Rust: reads a set file on standard input, simplifies each contour by
//! itself, and lists what changed. The original does not tell its decisions, so that column is left out.

mod plain;

use i_shape::flat::buffer::FlatShapesBuffer;
use i_shape::int::area::Area;
use i_shape::int::simple::SimpleContour;
use std::io::{Read, Write};

fn main() -> std::io::Result<()> {
    let (mut bytes, mut set) = (vec![], FlatShapesBuffer::default());
    std::io::stdin().lock().read_to_end(&mut bytes)?;
    let mut text = vec![];
    match plain::read(&bytes, &mut set) {
        None => writeln!(text, "refused")?,
        Some(()) => list(&set, &mut text)?,
    }
    std::io::stdout().lock().write_all(&text)
}

fn list(set: &FlatShapesBuffer<i32>, text: &mut Vec<u8>) -> std::io::Result<()> {
    writeln!(text, "contour before after area2")?;
    for (range, number) in set.contour_ranges.iter().zip(1..) {
        let contour = &set.points[range.clone()];
        write!(text, "{number} {} ", contour.len())?;
        match contour.simplified() {
            Some(kept) => write!(text, "{} ", kept.len())?,
            None => write!(text, "- ")?,
        }
        match contour {
            [] => writeln!(text, "-")?,
            _ => writeln!(text, "{}", contour.area_two())?,
        }
    }
    Ok(())
}
