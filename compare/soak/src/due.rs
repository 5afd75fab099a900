//! What is due of a run: by what the program said, and by what independent code says of the file.

use crate::program::{Program, Reads};
use crate::run::Outcome;
use requests::{edition, salvage};

/// The most points that a program has room for.
const ROOM: usize = 8192;
const ROOM_REPLY: u8 = 5;

/// The rows of the program salvage are long enough for every file.
const LONG: usize = 65_600;

/// The status is 1 if the program said that something was refused, and 0 if not; and then standard error has it in words.
pub fn status(outcome: &Outcome) -> Result<(), String> {
    let lines = || outcome.err.lines();
    let said = lines().any(|line| line.starts_with("damaged: ") || refusal(line, ": ").is_some());
    if let Some(number) = lines().find_map(|line| refusal(line, "")) {
        return Err(format!("standard error has {number} without words"));
    }
    if let Some(number) = first_line(outcome).and_then(|line| refusal(line, "")) {
        let words = |line| refusal(line, ": ") == Some(number);
        if !lines().any(words) {
            return Err(format!("standard error does not have {number} in words"));
        }
    }
    match (outcome.status, said) {
        (Some(1), true) | (Some(0), false) => Ok(()),
        (status, _) => Err(format!(
            "status {status:?}, and on standard error {}",
            outcome.err
        )),
    }
}

/// A program that reads set files refuses those that the reader in `requests` does, with its number; salvage writes what
/// the one there writes; and one that reads any files refuses none.
pub fn answer(program: &Program, file: &[u8], outcome: &Outcome) -> Result<(), String> {
    let refused = || outcome.err.lines().find_map(|line| refusal(line, ": "));
    match program.reads {
        Reads::Other => Ok(()),
        Reads::Any => same(None, refused()),
        Reads::Sound => match edition::read(file) {
            Err(number) => same(Some(number), refused()),
            Ok((_, shapes)) if shapes.concat().concat().len() <= ROOM => same(None, refused()),
            Ok(_) => refused().map_or(Ok(()), |number| same(ROOM_REPLY, number)),
        },
        Reads::Damaged => match salvage::mend(LONG, LONG, file) {
            Err(number) => same((Some(number), 0), (refused(), outcome.out.len())),
            Ok(mended) => same((None, &mended.file), (refused(), &outcome.out)),
        },
    }
}

fn same<T: PartialEq + std::fmt::Debug>(due: T, is: T) -> Result<(), String> {
    if due == is {
        Ok(())
    } else {
        Err(format!("{is:?}, and {due:?} is due"))
    }
}

/// The first line of standard output, if that is text: a set file begins with no letter.
fn first_line(outcome: &Outcome) -> Option<&str> {
    let line = outcome.out.split(|byte| *byte == b'\n').next()?;
    let text = std::str::from_utf8(line).ok()?;
    text.starts_with(|first: char| first.is_ascii_lowercase())
        .then_some(text)
}

/// The number of a line `refused N`, or `whose: refused N`, with this behind it and then words, or with nothing.
fn refusal(line: &str, behind: &str) -> Option<u8> {
    let rest = line.split_once("refused ").filter(|(whose, _)| {
        whose.is_empty()
            || whose
                .strip_suffix(": ")
                .is_some_and(|whose| !whose.contains(' '))
    });
    let (_, rest) = rest?;
    match behind {
        "" => rest.parse().ok(),
        behind => rest.split_once(behind)?.0.parse().ok(),
    }
}

#[cfg(test)]
mod tests {
    use super::refusal;

    #[test]
    fn a_refusal_is_read() {
        assert_eq!(refusal("refused 10", ""), Some(10));
        assert_eq!(refusal("first: refused 3", ""), Some(3));
        assert_eq!(refusal("refused 10: the file ends", ""), None);
        assert_eq!(refusal("refused 10: the file ends", ": "), Some(10));
        assert_eq!(refusal("first: refused 3: a coordinate", ": "), Some(3));
        assert_eq!(refusal("refused 10", ": "), None);
        assert_eq!(refusal("it was refused 10", ""), None);
    }
}
