//! A job as text: the line of its edition, and a line for each contour, its word and its numbers.

use crate::edition::{read, Edition, MOST_CONTOURS, NOT_CARRIED};
use crate::ranges::Record;
use crate::reply::{OFF_GRID, TOO_MANY};

/// The most bytes of a text, and the most numbers of a job.
pub const MOST_TEXT: usize = 1_597_444;
pub const MOST_NUMBERS: usize = 131_072;

/// The text of a file, or that it is refused.
pub fn dump(file: &[u8]) -> String {
    let (edition, shapes) = match read(file) {
        Ok(carried) => carried,
        Err(reply) => return format!("refused {reply}\n"),
    };
    let mut text = format!("edition {}\n", edition as u8);
    for shape in shapes {
        for (place, contour) in shape.iter().enumerate() {
            text += if place == 0 { "shape" } else { "hole" };
            for number in contour.concat() {
                text += &format!(" {number}");
            }
            text += "\n";
        }
    }
    text
}

/// Why a text has no file.
#[derive(Debug, PartialEq, Eq)]
pub enum Fault {
    Damaged(usize),
    Refused(u8),
}

impl Fault {
    pub fn words(&self) -> String {
        match self {
            Fault::Damaged(line) => format!("damaged: line {line}\n"),
            Fault::Refused(reply) => format!("refused {reply}\n"),
        }
    }
}

/// The set that a text carries so far.
#[derive(Default)]
struct Job {
    numbers: Vec<i32>,
    contours: Vec<Record>,
    shapes: Vec<Record>,
}

/// The file of a text's job. Lines are read from the first on, and words from the left, up to the first fault.
pub fn pack(text: &[u8]) -> Result<Vec<u8>, Fault> {
    if text.len() > MOST_TEXT {
        return Err(Fault::Refused(TOO_MANY));
    }
    let mut lines = text.split_inclusive(|&byte| byte == b'\n');
    let edition = match lines.next() {
        Some(b"edition 1\n") => Edition::One,
        Some(b"edition 2\n") => Edition::Two,
        _ => return Err(Fault::Damaged(1)),
    };
    let mut job = Job::default();
    for (line, number) in lines.zip(2..) {
        job.add(line, Fault::Damaged(number))?;
    }
    edition
        .written(&job.numbers, &job.contours, &job.shapes, 65_536)
        .map_err(Fault::Refused)
}

impl Job {
    fn add(&mut self, line: &[u8], damaged: Fault) -> Result<(), Fault> {
        let (inside, ended) = match line.strip_suffix(b"\n") {
            Some(inside) => (inside, true),
            None => (line, false),
        };
        let mut words = inside.split(|&byte| byte == b' ');
        let begins = match words.next() {
            Some(b"shape") => true,
            Some(b"hole") => false,
            _ => return Err(damaged),
        };
        let start = self.numbers.len() / 2;
        let words: Vec<&[u8]> = words.collect();
        for (place, word) in words.iter().enumerate() {
            let open = place + 1 == words.len() && !ended;
            match self.number(word, open)? {
                Some(number) => self.numbers.push(number),
                None => return Err(damaged),
            }
        }
        if !ended || self.numbers.len() % 2 == 1 || (!begins && self.shapes.is_empty()) {
            return Err(damaged);
        }
        if self.contours.len() == MOST_CONTOURS {
            return Err(Fault::Refused(NOT_CARRIED));
        }
        let here = self.contours.len();
        self.contours.push([start, self.numbers.len() / 2]);
        match self.shapes.last_mut() {
            Some(last) if !begins => last[1] = here + 1,
            _ => self.shapes.push([here, here + 1]),
        }
        Ok(())
    }

    /// The number that a word is; none where it is no number as one is written, or one that may go on behind the text.
    /// One that is too large, or that has no room, is refused even if other characters follow it.
    fn number(&self, word: &[u8], open: bool) -> Result<Option<i32>, Fault> {
        let (below, size) = match word.strip_prefix(b"-") {
            Some(size) => (true, size),
            None => (false, word),
        };
        let digits = size.iter().take_while(|byte| byte.is_ascii_digit()).count();
        let alone = match size.first() {
            Some(b'0') => digits == 1 && !below,
            _ => digits > 0,
        };
        if !alone || (open && digits == size.len()) {
            return Ok(None);
        }
        let spelled = std::str::from_utf8(&size[..digits]).expect("digits");
        let size_is: i32 = spelled.parse().map_err(|_| Fault::Refused(OFF_GRID))?;
        if self.numbers.len() == MOST_NUMBERS {
            return Err(Fault::Refused(TOO_MANY));
        }
        if digits < size.len() {
            return Ok(None);
        }
        Ok(Some(if below { -size_is } else { size_is }))
    }
}

#[cfg(test)]
mod tests {
    use super::{dump, pack, Fault};

    #[test]
    fn a_text_is_that_of_its_file() {
        let text = "edition 1\nshape 0 0 -2 4\nhole\nshape 5 6\n";
        assert_eq!(dump(&pack(text.as_bytes()).expect("a job")), text);
        assert_eq!(pack(b"edition 2\n"), Ok(vec![0x20, 0]));
        assert_eq!(dump(&[]), "refused 10\n");
    }

    #[test]
    fn a_fault_is_told_by_its_line() {
        for (text, line) in [
            ("", 1),
            ("edition 3\n", 1),
            ("edition 1", 1),
            ("edition 1\nshape 1\n", 2),
            ("edition 1\nhole\n", 2),
            ("edition 1\nshape\nshape 00 1\n", 3),
            ("edition 1\nshape -0 1\n", 2),
            ("edition 1\nshape  0 1\n", 2),
            ("edition 1\nshape 0 1 \n", 2),
            ("edition 1\nshape 0 1", 2),
        ] {
            assert_eq!(pack(text.as_bytes()), Err(Fault::Damaged(line)), "{text:?}");
        }
        let large = b"edition 1\nshape 2147483648 0\n";
        assert_eq!(pack(large), Err(Fault::Refused(3)));
    }
}
