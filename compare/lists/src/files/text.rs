//! The bytes of a file and the records of a set, as a line has them.

use crate::line::{length, repeated, write_times, Words};
use crate::sets::flat::Record;
use std::fmt;

/// A line is kept short by repeats: of up to so many bytes, where they make up so many.
const LONGEST_PART: usize = 48;
const WORTH_A_PIECE: usize = 100;

/// Writes a file in pieces, each some bytes in hexadecimal digits, and how often where
/// it is more than once.
pub fn write_file(out: &mut fmt::Formatter, file: &[u8]) -> fmt::Result {
    for (bytes, times) in pieces(file) {
        write!(out, " ")?;
        for byte in bytes {
            write!(out, "{byte:02x}")?;
        }
        write_times(out, times)?;
    }
    Ok(())
}

/// Long repeats, and what stands between them.
fn pieces(file: &[u8]) -> Vec<(&[u8], usize)> {
    let mut pieces = vec![];
    let (mut start, mut place) = (0, 0);
    while place < file.len() {
        let Some((part, times)) = repeat(&file[place..]) else {
            place += 1;
            continue;
        };
        pieces.extend([(&file[start..place], 1), (part, times)]);
        place += part.len() * times;
        start = place;
    }
    pieces.push((&file[start..], 1));
    pieces.retain(|(part, _)| !part.is_empty());
    pieces
}

/// The shortest part that stands in front over and over, and how often.
fn repeat(bytes: &[u8]) -> Option<(&[u8], usize)> {
    let longest = LONGEST_PART.min(bytes.len());
    let mut parts = (1..=longest).map(|length| &bytes[..length]);
    let times = |part: &[u8]| {
        let same = |other: &&[u8]| *other == part;
        bytes.chunks(part.len()).take_while(same).count()
    };
    let worth = |part: &&[u8]| times(part) > 1 && times(part) * part.len() >= WORTH_A_PIECE;
    let part = parts.find(worth)?;
    Some((part, times(part)))
}

/// Reads a file of at most so many bytes up to the line's end.
pub fn read_file(words: &mut Words, most: usize) -> Result<Vec<u8>, String> {
    let mut file = vec![];
    for word in words {
        let (digits, times) = repeated(word)?;
        let bytes = bytes(digits).ok_or(format!("{digits:?} are no bytes"))?;
        if times > (most - file.len()) / bytes.len() {
            return Err("the file is too long".into());
        }
        file.extend(bytes.repeat(times));
    }
    Ok(file)
}

/// One byte or more, each two digits.
fn bytes(digits: &str) -> Option<Vec<u8>> {
    let digits = digits.bytes().map(|digit| match digit {
        b'0'..=b'9' => Some(digit - b'0'),
        b'a'..=b'f' => Some(digit - b'a' + 10),
        _ => None,
    });
    let digits: Vec<u8> = digits.collect::<Option<_>>()?;
    if digits.is_empty() || digits.len() % 2 == 1 {
        return None;
    }
    let byte = |pair: &[u8]| pair[0] << 4 | pair[1];
    Some(digits.chunks(2).map(byte).collect())
}

/// Writes how many records there are, and each once with how often it follows on itself.
pub fn write_records(out: &mut fmt::Formatter, records: &[Record]) -> fmt::Result {
    write!(out, " {}", records.len())?;
    for same in records.chunk_by(|a, b| a == b) {
        let [start, end] = same[0];
        write!(out, " {start} {end}")?;
        write_times(out, same.len())?;
    }
    Ok(())
}

/// Reads at most so many records.
pub fn read_records(words: &mut Words, most: usize) -> Result<Vec<Record>, String> {
    let count = length(words, most)?;
    let mut records = vec![];
    while records.len() < count {
        let start = length(words, i32::MAX as usize)?;
        let (end, times) = repeated(words.next().ok_or("the line is too short")?)?;
        let end = length(&mut end.split(' '), i32::MAX as usize)?;
        if times > count - records.len() {
            return Err("there are more records than said".into());
        }
        records.extend([[start, end]].repeat(times));
    }
    Ok(records)
}
