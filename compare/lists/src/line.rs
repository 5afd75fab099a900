//! What the lines of every list have in common: how a case is written and read.

use std::fmt;
use std::str::{FromStr, Split};

/// A row is at most this long: one point more than a contour or a set may have.
pub const MOST_NUMBERS: usize = 131_074;

/// What is said of a line whose first word names no kind.
pub const NO_KIND: &str = "no kind of case begins so";

/// The words of a line that are still to be read.
pub type Words<'a> = Split<'a, char>;

/// What takes words of a line. It is written as it is read.
pub trait Part: fmt::Display + Sized {
    fn read(words: &mut Words) -> Result<Self, String>;
}

/// What is asked, and of what.
#[derive(Clone, Debug, PartialEq, Eq)]
pub struct Case<K, T> {
    pub kind: K,
    pub of: T,
}

impl<K: Part, T: Part> fmt::Display for Case<K, T> {
    fn fmt(&self, out: &mut fmt::Formatter) -> fmt::Result {
        write!(out, "{}{}", self.kind, self.of)
    }
}

impl<K: Part, T: Part> FromStr for Case<K, T> {
    type Err = String;

    fn from_str(line: &str) -> Result<Case<K, T>, String> {
        let words = &mut line.split(' ');
        let kind = K::read(words)?;
        let of = T::read(words)?;
        Ok(Case { kind, of })
    }
}

/// The rest of a line: `numbers`, `times` over.
#[derive(Clone, Debug, Default, PartialEq, Eq)]
pub struct Row {
    pub numbers: Vec<i32>,
    pub times: usize,
}

impl Row {
    pub fn wound(numbers: &[i32], times: usize) -> Row {
        Row {
            numbers: numbers.to_vec(),
            times,
        }
    }

    /// All its numbers.
    pub fn all(&self) -> Vec<i32> {
        self.numbers.repeat(self.times)
    }
}

impl fmt::Display for Row {
    fn fmt(&self, out: &mut fmt::Formatter) -> fmt::Result {
        for number in &self.numbers {
            write!(out, " {number}")?;
        }
        if self.times > 1 {
            write!(out, " *{}", self.times)?;
        }
        Ok(())
    }
}

impl Part for Row {
    fn read(words: &mut Words) -> Result<Row, String> {
        let mut words: Vec<&str> = words.collect();
        let mut times = 1;
        if let Some(word) = words.last().and_then(|word| word.strip_prefix('*')) {
            times = number(word)?;
            words.pop();
        }
        let numbers = words.into_iter().map(number);
        let numbers = numbers.collect::<Result<Vec<i32>, String>>()?;
        if times == 0 || numbers.len().saturating_mul(times) > MOST_NUMBERS {
            return Err("that is no row".into());
        }
        Ok(Row { numbers, times })
    }
}

/// A count of entries, at most so many.
pub fn length(words: &mut Words, most: usize) -> Result<usize, String> {
    let length = next_number(words)?;
    if length > most {
        return Err(format!("no row has {length} entries"));
    }
    Ok(length)
}

pub fn next_number<T: FromStr>(words: &mut Words) -> Result<T, String> {
    number(words.next().ok_or("the line is too short")?)
}

fn number<T: FromStr>(word: &str) -> Result<T, String> {
    match word.parse() {
        Ok(number) if !word.starts_with('+') => Ok(number),
        _ => Err(format!("{word:?} is no number")),
    }
}

/// Writes how often a part is repeated, where it is more than once.
pub fn write_times(out: &mut fmt::Formatter, times: usize) -> fmt::Result {
    match times {
        1 => Ok(()),
        _ => write!(out, "*{times}"),
    }
}

/// What stands before the star, and how often it is repeated.
pub fn repeated(word: &str) -> Result<(&str, usize), String> {
    match word.split_once('*') {
        None => Ok((word, 1)),
        Some((part, times)) => match times.parse() {
            Ok(number) if number > 0 && !times.starts_with('+') => Ok((part, number)),
            _ => Err(format!("{times:?} is no number of times")),
        },
    }
}

#[cfg(test)]
pub mod tests {
    use super::Case;
    use std::collections::{BTreeMap, BTreeSet};
    use std::fmt::{Debug, Display};
    use std::str::FromStr;

    pub fn read_as_written<C>(cases: Vec<C>)
    where
        C: Display + FromStr<Err = String> + Debug + PartialEq,
    {
        for case in cases {
            assert_eq!(case.to_string().parse(), Ok(case));
        }
    }

    /// The first words of the answers to the cases that have a form, for each form.
    pub fn replies_met<K, T>(
        cases: Vec<Case<K, T>>,
        form: fn(&K) -> Option<usize>,
        answer: fn(&Case<K, T>) -> String,
    ) -> BTreeMap<usize, Vec<String>> {
        let mut met: BTreeMap<usize, BTreeSet<String>> = BTreeMap::new();
        for case in cases {
            if let Some(form) = form(&case.kind) {
                let reply = answer(&case).split(' ').next().unwrap().to_string();
                met.entry(form).or_default().insert(reply);
            }
        }
        let sorted = |(form, replies)| (form, Vec::from_iter(replies));
        met.into_iter().map(sorted).collect()
    }

    /// The replies to the cases of one kind, the first letter of their lines.
    pub fn replies_of<C: Display>(cases: Vec<C>, kind: char, answer: fn(&C) -> String) -> Vec<u8> {
        let of_it = |case: &C| case.to_string().starts_with(kind);
        let reply = |case| answer(&case).split(' ').next().unwrap().parse().unwrap();
        let met: BTreeSet<u8> = cases.into_iter().filter(of_it).map(reply).collect();
        met.into_iter().collect()
    }

    pub fn written_as_read<C: Display + FromStr<Err = String>>(lines: &[&str]) {
        for line in lines {
            let written = line.parse::<C>().map(|case| case.to_string());
            assert_eq!(written.as_deref(), Ok(*line));
        }
    }

    pub fn refused<C: FromStr>(lines: &[&str]) {
        for line in lines {
            assert!(line.parse::<C>().is_err(), "{line}");
        }
    }
}
