//! What an import or an export answers, and the lent rows after it.

use super::case::{Case, Lengths};
use crate::checksum::checksum;
use crate::point::Point;
use crate::sets::flat::Record;
use requests::drawing::{contours, rows, Drawing};
use requests::exact::Bits;
use requests::reply::{refused_if, Reply, DONE, ROOM};
use std::fmt;

/// The entries of the rows before a call: numbers, records, kinds and floats. The last is -7.
pub const NUMBER: i32 = -7;
pub const RECORD: Record = [7, 7];
pub const KIND: u8 = 7;
pub const FLOAT: Bits = 0xc01c_0000_0000_0000;

/// One line of answers, without its number.
pub fn answer(case: &Case) -> String {
    match case {
        Case::Import { lent, drawing } => {
            let import = Import::new(*lent, drawing);
            let again = import.again().map(|export| format!(" {export}"));
            format!("{import}{}", again.unwrap_or_default())
        }
        Case::Export {
            lent,
            contours,
            points,
        } => {
            let export = Export::new(*lent, &points.all(), contours);
            let again = export.again().map(|import| format!(" {import}"));
            format!("{export}{}", again.unwrap_or_default())
        }
    }
}

/// What an import answers, and the rows after it.
#[derive(Debug, PartialEq, Eq)]
pub struct Import {
    pub reply: u8,
    pub points: usize,
    pub contours: usize,
    pub numbers: Vec<i32>,
    pub records: Vec<Record>,
}

/// What an export answers, and the rows after it.
#[derive(Debug, PartialEq, Eq)]
pub struct Export {
    pub reply: u8,
    pub commands: usize,
    pub floats: usize,
    pub kinds: Vec<u8>,
    pub places: Vec<Bits>,
}

impl Import {
    pub fn new([numbers, records]: Lengths, drawing: &Drawing) -> Import {
        let numbers = vec![NUMBER; numbers];
        let records = vec![RECORD; records];
        let stored = |contours: Vec<Vec<Point>>| {
            let (points, ranges) = rows(&contours);
            let held = (front(&points, &numbers)?, front(&ranges, &records)?);
            Ok((points.len() / 2, ranges.len(), held))
        };
        match drawing.contours().and_then(stored) {
            Err(reply) => Import {
                reply,
                points: 0,
                contours: 0,
                numbers,
                records,
            },
            Ok((points, contours, (numbers, records))) => Import {
                reply: DONE,
                points,
                contours,
                numbers,
                records,
            },
        }
    }

    /// What came in goes out again, into rows just as long as needed.
    pub fn again(&self) -> Option<Export> {
        let points = &self.numbers.get(..2 * self.points)?;
        let ranges = &self.records.get(..self.contours)?;
        let lent = [self.points + self.contours, 2 * self.points];
        (self.reply == DONE).then(|| Export::new(lent, points, ranges))
    }
}

impl Export {
    pub fn new([kinds, floats]: Lengths, points: &[i32], ranges: &[Record]) -> Export {
        let kinds = vec![KIND; kinds];
        let places = vec![FLOAT; floats];
        let stored = |contours: Vec<Vec<Point>>| {
            let drawing = Drawing::of(&contours);
            let held = (
                front(&drawing.kinds, &kinds)?,
                front(&drawing.floats, &places)?,
            );
            Ok((drawing.kinds.len(), drawing.floats.len(), held))
        };
        match contours(points, ranges).and_then(stored) {
            Err(reply) => Export {
                reply,
                commands: 0,
                floats: 0,
                kinds,
                places,
            },
            Ok((commands, floats, (kinds, places))) => Export {
                reply: DONE,
                commands,
                floats,
                kinds,
                places,
            },
        }
    }

    /// What went out comes in again, into rows just as long as needed: each contour with
    /// points took one command more than it has points.
    pub fn again(&self) -> Option<Import> {
        let drawing = Drawing {
            kinds: self.kinds.get(..self.commands)?.to_vec(),
            floats: self.places.get(..self.floats)?.to_vec(),
        };
        let lent = [self.floats, self.commands - self.floats / 2];
        (self.reply == DONE).then(|| Import::new(lent, &drawing))
    }
}

/// The row with these entries in front.
fn front<T: Clone>(entries: &[T], row: &[T]) -> Reply<Vec<T>> {
    refused_if(row.len() < entries.len(), ROOM)?;
    Ok([entries, &row[entries.len()..]].concat())
}

/// No shapes come in. The rows stand as their checksums.
impl fmt::Display for Import {
    fn fmt(&self, out: &mut fmt::Formatter) -> fmt::Result {
        let records: Vec<i64> = self.records.concat().iter().map(|&x| x as i64).collect();
        let (reply, points, contours) = (self.reply, self.points, self.contours);
        write!(out, "{reply} {points} {contours} 0")?;
        write!(out, " {} {}", checksum(&self.numbers), checksum(&records))
    }
}

/// Of a float the first 32 bits are one number and the last 32 the next.
impl fmt::Display for Export {
    fn fmt(&self, out: &mut fmt::Formatter) -> fmt::Result {
        let halves = |&float: &Bits| [float >> 32, float & 0xffff_ffff].map(|half| half as i64);
        let places: Vec<i64> = self.places.iter().flat_map(halves).collect();
        let (reply, commands, floats) = (self.reply, self.commands, self.floats);
        write!(out, "{reply} {commands} {floats}")?;
        write!(out, " {} {}", checksum(&self.kinds), checksum(&places))
    }
}

#[cfg(test)]
mod tests {
    use super::{answer, contours, rows, FLOAT};
    use crate::checksum::checksum;
    use crate::sets::small::{rows_up_to, set};

    fn answered(line: &str) -> String {
        answer(&line.parse().unwrap())
    }

    #[test]
    fn the_canary_is_a_number() {
        assert_eq!(f64::from_bits(FLOAT), -7.0);
    }

    #[test]
    fn an_import_stands_in_front_of_the_rows_and_goes_out_again() {
        let numbers = checksum(&[1024, -2048, -7]);
        let records = checksum(&[0, 1, 7, 7]);
        let kinds = checksum(&[0u8, 2]);
        let places = checksum(&[0x3ff0_0000i64, 0, 0xc000_0000, 0]);
        assert_eq!(
            answered("i 3 2 1 0 3ff0000000000000 c000000000000000"),
            format!("0 1 1 0 {numbers} {records} 0 2 2 {kinds} {places}")
        );
        assert_eq!(answered("i 0 0 0"), "0 0 0 0 0 0 0 0 0 0 0");
    }

    #[test]
    fn a_refused_import_leaves_the_rows() {
        let rows = format!("{} 224", checksum(&[-7]));
        let line = "1 0 3ff0000000000000 c000000000000000";
        assert_eq!(
            answered(&format!("i 1 1 {line}")),
            format!("5 0 0 0 {rows}")
        );
        assert_eq!(answered("i 1 1 1 7"), format!("13 0 0 0 {rows}"));
    }

    #[test]
    fn an_export_stands_in_front_of_the_rows_and_comes_in_again() {
        let kinds = checksum(&[0u8, 2, 7]);
        let places = checksum(&[0i64, 0, 0xbff0_0000, 0, 0xc01c_0000, 0]);
        let rows = format!("{} {}", checksum(&[0, -1024]), checksum(&[0, 1]));
        assert_eq!(
            answered("e 3 3 3 0 0 0 1 1 1 0 -1024"),
            format!("0 2 2 {kinds} {places} 0 1 1 0 {rows}")
        );
        let places = checksum(&[0xc01c_0000i64, 0]);
        assert_eq!(
            answered("e 2 1 1 0 1 0 -1024"),
            format!("5 0 0 224 {places}")
        );
    }

    #[test]
    fn rows_and_contours_say_the_same() {
        for sizes in rows_up_to(3, &[0, 1, 3]) {
            let set = set(&[sizes]);
            let numbers = set.points.all();
            let contours = contours(&numbers, &set.contours).unwrap();
            assert_eq!(rows(&contours), (numbers, set.contours));
        }
    }
}
