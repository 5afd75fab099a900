//! What mending a damaged file answers, and the lent rows after it.

use crate::checksum::checksum;
use crate::line::{length, Words};
use requests::ranges::Record;
use requests::reply::DONE;
use requests::salvage::mend;
use std::fmt;

/// How long the rows are that the file and the list of what was dropped are written to.
#[derive(Clone, Copy, Debug, PartialEq, Eq)]
pub struct Lent {
    pub out: usize,
    pub list: usize,
}

impl Lent {
    /// Reads two lengths, none beyond the longest.
    pub fn read(words: &mut Words, longest: Lent) -> Result<Lent, String> {
        Ok(Lent {
            out: length(words, longest.out)?,
            list: length(words, longest.list)?,
        })
    }
}

impl fmt::Display for Lent {
    fn fmt(&self, out: &mut fmt::Formatter) -> fmt::Result {
        write!(out, "{} {}", self.out, self.list)
    }
}

/// What mending a file answers, and the rows after it.
#[derive(Debug, PartialEq, Eq)]
pub struct Mending {
    pub reply: u8,
    pub bytes: usize,
    pub dropped: usize,
    pub missing: usize,
    pub past: usize,
    pub out: Vec<u8>,
    pub list: Vec<Record>,
}

impl Mending {
    pub fn new(lent: Lent, file: &[u8]) -> Mending {
        let mut mending = Mending {
            reply: DONE,
            bytes: 0,
            dropped: 0,
            missing: 0,
            past: 0,
            out: vec![7; lent.out],
            list: vec![[7, 7]; lent.list],
        };
        match mend(lent.out, lent.list, file) {
            Err(reply) => mending.reply = reply,
            Ok(mended) => {
                mending.bytes = mended.file.len();
                mending.dropped = mended.dropped.len();
                mending.missing = mended.missing;
                mending.past = mended.past;
                mending.out[..mended.file.len()].copy_from_slice(&mended.file);
                mending.list[..mended.dropped.len()].copy_from_slice(&mended.dropped);
            }
        }
        mending
    }
}

/// The fields, and the checksums of the rows.
impl fmt::Display for Mending {
    fn fmt(&self, out: &mut fmt::Formatter) -> fmt::Result {
        let fields = [self.bytes, self.dropped, self.missing, self.past];
        let list: Vec<i64> = self.list.concat().iter().map(|&of| of as i64).collect();
        write!(
            out,
            "{} {}",
            self.reply,
            fields.map(|of| of.to_string()).join(" ")
        )?;
        write!(out, " {} {}", checksum(&self.out), checksum(&list))
    }
}

#[cfg(test)]
mod tests {
    use super::{Lent, Mending};
    use requests::edition_1::write;
    use requests::grid::NARROW;

    #[test]
    fn the_first_refusal_is_given_and_leaves_the_rows() {
        let none = Lent { out: 1, list: 0 };
        for (file, lent, reply) in [
            (&[0x20; 65_537][..], none, 2),
            (&[], none, 10),
            (&[0x20], none, 10),
            (&[0x20, 0], none, 9),
            (&[0x10, 0], none, 5),
            (&[0x10, 1], Lent { out: 2, list: 0 }, 5),
            (&[0x10, 1], Lent { out: 1, list: 1 }, 5),
            (&[0x1f, 0xff], Lent { out: 2, list: 4094 }, 5),
        ] {
            let mending = Mending::new(lent, file);
            let fields = [
                mending.bytes,
                mending.dropped,
                mending.missing,
                mending.past,
            ];
            assert_eq!((mending.reply, fields), (reply, [0; 4]), "{file:?}");
            assert_eq!(mending.out, vec![7; lent.out]);
            assert_eq!(mending.list, vec![[7, 7]; lent.list]);
        }
    }

    #[test]
    fn what_is_written_stands_in_front_of_the_rows() {
        let lent = Lent { out: 17, list: 4 };
        let shape = vec![vec![], vec![[7, 8], [9, -NARROW - 1]]];
        let damaged = [write(&[shape]), vec![5; 15]].concat();
        assert_eq!(damaged.len(), 37);
        let mending = Mending::new(Lent { out: 38, list: 4 }, &damaged);
        assert_eq!(Mending::new(lent, &damaged).reply, 5);
        assert_eq!(mending.out[..6], [0x10, 1, 0x80, 0, 7, 7]);
        assert_eq!(mending.list, [[1, 3], [7, 7], [7, 7], [7, 7]]);
        assert_eq!(mending.past, 15);
    }
}
