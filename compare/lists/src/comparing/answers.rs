//! What a comparison answers, and the listing after it.

use super::case::{Case, Flat};
use crate::checksum::checksum;
use crate::sets::flat::Record;
use requests::difference::{compare, Line};
use requests::reply::DONE;
use std::fmt;

/// The entries of the listing before a call.
pub const RECORD: Record = [7, 7];

/// One line of answers, without its number.
pub fn answer(case: &Case) -> String {
    let (first, second) = sets(case);
    Comparison::new(&first, &second, case.kind.listing).to_string()
}

/// The two sets of a case.
pub fn sets(case: &Case) -> (Flat, Flat) {
    let mut points = case.of.points.all();
    let others = points.split_off(points.len().saturating_sub(case.kind.others));
    let flat = |points, ranges: &Vec<Record>| Flat {
        points,
        ranges: ranges.clone(),
    };
    (
        flat(points, &case.of.contours),
        flat(others, &case.of.shapes),
    )
}

#[derive(Debug, PartialEq, Eq)]
pub struct Comparison {
    pub reply: u8,
    pub refused: u8,
    pub contours: usize,
    pub listing: Vec<Record>,
}

impl Comparison {
    pub fn new(first: &Flat, second: &Flat, places: usize) -> Comparison {
        let mut listing = vec![RECORD; places];
        let first = (&first.points[..], &first.ranges[..]);
        let second = (&second.points[..], &second.ranges[..]);
        match compare(first, second, places) {
            Err(refusal) => Comparison {
                reply: refusal.reply,
                refused: refusal.set,
                contours: 0,
                listing,
            },
            Ok(lines) => {
                let records: Vec<Record> = lines.into_iter().map(Line::record).collect();
                listing[..records.len()].copy_from_slice(&records);
                Comparison {
                    reply: DONE,
                    refused: 0,
                    contours: records.len(),
                    listing,
                }
            }
        }
    }
}

/// Each field, and the checksum of the listing.
impl fmt::Display for Comparison {
    fn fmt(&self, out: &mut fmt::Formatter) -> fmt::Result {
        let places = self.listing.concat();
        let places: Vec<u32> = places.into_iter().map(|place| place as u32).collect();
        let (reply, refused, contours) = (self.reply, self.refused, self.contours);
        write!(out, "{reply} {refused} {contours} {}", checksum(&places))
    }
}

#[cfg(test)]
mod tests {
    use super::answer;
    use crate::checksum::checksum;

    #[test]
    fn a_comparison_is_answered_in_four_columns() {
        let lines = checksum(&[1, 2, 4, 0, 7, 7]);
        let case = "d 3 8 1 0 3 2 0 3 3 4 0 0 4 0 0 4 4 0 0 4 0 0 9 9";
        assert_eq!(answer(&case.parse().unwrap()), format!("0 0 2 {lines}"));
        let unchanged = checksum(&[7, 7]);
        let cramped = "d 1 2 2 0 0 0 1 1 0 1 5 6 5 6";
        assert_eq!(
            answer(&cramped.parse().unwrap()),
            format!("5 0 0 {unchanged}")
        );
        let odd = "d 1 1 1 0 1 1 0 1 5 6 5";
        assert_eq!(answer(&odd.parse().unwrap()), format!("1 2 0 {unchanged}"));
    }
}
