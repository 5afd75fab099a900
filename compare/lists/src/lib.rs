//! The list of cases, and the answers to it: those of the Rust original, and where it has
//! none those of `requests`.

mod checksum;
pub mod cleaner;
pub mod cleaning;
pub mod comparing;
pub mod contours;
pub mod counted;
pub mod drawings;
pub mod ends;
pub mod files;
pub mod line;
pub mod point;
pub mod pools;
pub mod rng;
pub mod scratch;
pub mod sets;
pub mod shapes;

use std::collections::HashSet;
use std::fmt::Display;
use std::str::FromStr;

/// The first line of the answers.
pub const HEADER: &str = "case answers";

/// Every line of the list.
pub fn list() -> Vec<String> {
    [
        lines(contours::list()),
        lines(once(sets::list())),
        lines(once(cleaning::list())),
        lines(once(files::list())),
        lines(once(drawings::list())),
        lines(once(comparing::list())),
        lines(once(pools::list())),
    ]
    .concat()
}

/// The cases in their order, each of them once.
pub fn once<C: Display>(mut cases: Vec<C>) -> Vec<C> {
    let mut seen = HashSet::new();
    cases.retain(|case| seen.insert(case.to_string()));
    cases
}

fn lines<C: Display>(cases: Vec<C>) -> Vec<String> {
    cases.iter().map(C::to_string).collect()
}

/// What is answered to a line, whose first letter is its kind.
pub fn answer(line: &str) -> Result<String, String> {
    match line.chars().next() {
        Some('c' | 'w' | 'k' | 'l') => answered(line, contours::answer),
        Some('s' | 'p') => answered(line, sets::answer),
        Some('q' | 'W') => answered(line, cleaning::answer),
        Some('r' | 'f' | 'F' | 'm') => answered(line, files::answer),
        Some('i' | 'e') => answered(line, drawings::answer),
        Some('d') => answered(line, comparing::answer),
        Some('h') => answered(line, pools::answer),
        _ => Err(line::NO_KIND.into()),
    }
}

fn answered<C>(line: &str, answer: fn(&C) -> String) -> Result<String, String>
where
    C: FromStr<Err = String>,
{
    Ok(answer(&line.parse()?))
}

#[cfg(test)]
mod tests {
    use super::{answer, cleaning, comparing, contours, drawings, files, pools, sets};
    use crate::line::tests::read_as_written;
    use crate::sets::chosen::wide;

    #[test]
    fn every_case_of_the_lists_is_read_as_it_was_written() {
        read_as_written(contours::list());
        read_as_written(sets::list());
        read_as_written(cleaning::list());
        read_as_written(files::list());
        read_as_written(drawings::list());
        read_as_written(comparing::list());
        read_as_written(pools::list());
    }
    #[test]
    fn what_is_off_the_narrow_grid_is_refused_by_files_and_drawings_alone() {
        let reply = |line: String| {
            answer(&line)
                .unwrap()
                .split(' ')
                .next()
                .unwrap()
                .to_string()
        };
        for set in wide() {
            let records = |ranges: &[[usize; 2]]| {
                let places = ranges.concat();
                let places = places.iter().map(|place| format!(" {place}"));
                format!(" {}{}", ranges.len(), places.collect::<String>())
            };
            let (contours, points) = (records(&set.contours), &set.points);
            assert_eq!(reply(format!("f 99{set}")), "3", "{set}");
            assert_eq!(reply(format!("e 99 99{contours}{points}")), "3", "{set}");
            for asked in ["s", "q 1073741823 -1073741823"] {
                let answers = answer(&format!("{asked}{set}")).unwrap();
                assert!(!answers.contains('!'), "{asked}{set}");
            }
            for packed in ["p 2 99 9 9 0 0", "p 6 99 9 9 0 0", "W 3 99 99 99 99 9 9"] {
                assert_eq!(reply(format!("{packed}{set}")), "0", "{packed}{set}");
            }
            assert_eq!(reply(format!("l 0 0{points}")), "0", "{set}");
        }
    }
}
