//! What a reading or a writing answers, and the lent rows after it.

use super::case::Case;
use super::listing::listing;
use super::mend::Mending;
use crate::checksum::checksum;
use crate::sets::flat::Set;
use crate::sets::rows::{Lengths, Rows};
use requests::edition::{read, Edition, Shape};
use requests::reply::{Reply, DONE};
use std::fmt;

/// One line of answers, without its number.
pub fn answer(case: &Case) -> String {
    match case {
        Case::Reading { lent, file } => {
            let reading = Reading::new(*lent, file);
            let again = reading.again.as_ref().map(|writing| format!(" {writing}"));
            format!("{reading} {}{}", listed(file), again.unwrap_or_default())
        }
        Case::Writing { edition, room, set } => Writing::new(*edition, set, *room).to_string(),
        Case::Mending { lent, file } => Mending::new(*lent, file).to_string(),
    }
}

/// How long the file's listing is, and its checksum.
fn listed(file: &[u8]) -> String {
    let listing = listing(file);
    format!("{}:{}", listing.len(), checksum(listing.as_bytes()))
}

/// What a reading answers, and the rows after it; the edition is 0 where it is refused. What was read is written again,
/// as a file of the same edition, into a row as long as the file.
#[derive(Debug, PartialEq, Eq)]
pub struct Reading {
    pub reply: u8,
    pub edition: u32,
    pub points: usize,
    pub contours: usize,
    pub shapes: usize,
    pub rows: Rows,
    pub again: Option<Writing>,
}

/// What a writing answers, and the row after it.
#[derive(Debug, PartialEq, Eq)]
pub struct Writing {
    pub reply: u8,
    pub bytes: usize,
    pub row: Vec<u8>,
}

impl Reading {
    pub fn new(lent: Lengths, file: &[u8]) -> Reading {
        let rows = Rows::with_canaries(lent);
        let stored = |(edition, shapes): (Edition, Vec<Shape>)| {
            let set = Set::of(&shapes);
            let rows = rows.holding(&set.points.all(), &set.contours, &set.shapes)?;
            Ok((edition, set, rows))
        };
        let stored: Reply<(Edition, Set, Rows)> = read(file).and_then(stored);
        match stored {
            Err(reply) => Reading {
                reply,
                edition: 0,
                points: 0,
                contours: 0,
                shapes: 0,
                rows,
                again: None,
            },
            Ok((edition, set, rows)) => Reading {
                reply: DONE,
                edition: edition as u32,
                points: set.points.all().len() / 2,
                contours: set.contours.len(),
                shapes: set.shapes.len(),
                rows,
                again: Some(Writing::new(edition, &set, file.len())),
            },
        }
    }
}

impl Writing {
    pub fn new(edition: Edition, set: &Set, room: usize) -> Writing {
        let mut row = vec![7u8; room];
        match edition.written(&set.points.all(), &set.contours, &set.shapes, room) {
            Err(reply) => Writing {
                reply,
                bytes: 0,
                row,
            },
            Ok(file) => {
                row[..file.len()].copy_from_slice(&file);
                Writing {
                    reply: DONE,
                    bytes: file.len(),
                    row,
                }
            }
        }
    }
}

impl fmt::Display for Reading {
    fn fmt(&self, out: &mut fmt::Formatter) -> fmt::Result {
        let counts = [self.points, self.contours, self.shapes].map(|count| count.to_string());
        write!(out, "{} {} ", self.reply, self.edition)?;
        write!(out, "{} {}", counts.join(" "), self.rows)
    }
}

impl fmt::Display for Writing {
    fn fmt(&self, out: &mut fmt::Formatter) -> fmt::Result {
        write!(out, "{} {} {}", self.reply, self.bytes, checksum(&self.row))
    }
}

#[cfg(test)]
mod tests {
    use super::answer;
    use crate::checksum::checksum;
    use requests::edition_2::write;

    fn answered(line: &str) -> String {
        answer(&line.parse().unwrap())
    }

    fn listed(listing: &str) -> String {
        format!("{}:{}", listing.len(), checksum(listing.as_bytes()))
    }

    #[test]
    fn a_reading_stands_in_front_of_the_rows_and_is_written_again() {
        let file = checksum(&[0x10u8, 1, 0x80, 1, 0, 0, 0, 5, 0, 0, 0, 6]);
        let records = checksum(&[0, 1, 7, 7]);
        let rows = format!("{} {records} 1", checksum(&[5, 6, -7]));
        let listed = listed("contour before after decisions area2\n1 1 - 0 0\n");
        assert_eq!(
            answered("r 3 2 1 10018001 0000000500000006"),
            format!("0 1 1 1 1 {rows} {listed} 0 12 {file}")
        );
    }

    #[test]
    fn a_reading_of_edition_2_is_despiked_and_written_as_that() {
        // From 1, 1 on by 1, 0 and 1, 0, then back to the start: a straight point stays, a spike goes.
        let numbers = [1, 1, 2, 1, 3, 1, 1, 3, 1, 4, 1, 3];
        let file = write(&[vec![numbers
            .chunks(2)
            .map(|point| [point[0], point[1]])
            .collect()]]);
        let bytes: String = file.iter().map(|byte| format!("{byte:02x}")).collect();
        let rows = format!("{} 6 1", checksum(&numbers));
        let listed = listed("contour before after decisions area2\n1 6 4 9 4\n");
        let (length, sum) = (file.len(), checksum(&file));
        assert_eq!(
            answered(&format!("r 12 1 1 {bytes}")),
            format!("0 2 6 1 1 {rows} {listed} 0 {length} {sum}")
        );
    }

    #[test]
    fn a_refused_reading_leaves_the_rows() {
        let rows = format!("{} 224 224", checksum(&[-7]));
        assert_eq!(
            answered("r 1 1 1 10018001 0000000500000006"),
            format!(
                "5 0 0 0 0 {rows} {}",
                listed("contour before after decisions area2\n1 1 - 0 0\n")
            )
        );
        assert_eq!(
            answered("r 1 1 1 20"),
            format!("10 0 0 0 0 {rows} {}", listed("refused 10\n"))
        );
    }

    #[test]
    fn a_writing_stands_in_front_of_the_row() {
        assert_eq!(
            answered("f 3 0 0"),
            format!("0 2 {}", checksum(&[0x10u8, 0, 7]))
        );
        assert_eq!(
            answered("F 3 0 0"),
            format!("0 2 {}", checksum(&[0x20u8, 0, 7]))
        );
        assert_eq!(answered("f 1 0 0"), "5 0 7");
        assert_eq!(answered("F 1 0 0"), "5 0 7");
        assert_eq!(answered("f 1 0 1 0 0"), "12 0 7");
    }
}
