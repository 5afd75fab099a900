//! Files with their texts, and texts with their files, for runs of the programs that dump and pack a job.

use super::Case;
use crate::rng::Rng;
use requests::text::{dump, pack};
use std::collections::HashSet;
use std::path::Path;
use std::{fs, io};

/// What may come into a text.
const WORDS: &[&str] = &[
    " ",
    "\n",
    "0",
    "1",
    "7",
    "-",
    "x",
    "\0",
    " 0",
    " 99999999999",
    " 2147483647 0",
    "shape\n",
    "hole\n",
];

/// Writes other files and about so many of the list's into the folder, each with its text, that text with what it is
/// packed to, and a damaged one.
pub fn write_texts(folder: &Path, count: usize, others: &[&str]) -> io::Result<()> {
    fs::create_dir_all(folder)?;
    let files = chosen(count, others)?;
    let rng = &mut Rng::new(21);
    for (number, file) in files.iter().enumerate() {
        let text = dump(file);
        let at = |ending: &str| folder.join(format!("{number}.{ending}"));
        fs::write(at("set"), file)?;
        fs::write(at("dumped"), &text)?;
        write_packing(&folder.join(format!("{number}-as-it-is")), text.as_bytes())?;
        write_packing(
            &folder.join(format!("{number}-damaged")),
            &damaged(rng, &text),
        )?;
    }
    Ok(())
}

/// The other files, and about so many of the list's.
pub(super) fn chosen(count: usize, others: &[&str]) -> io::Result<Vec<Vec<u8>>> {
    let mut files: Vec<Vec<u8>> = others.iter().map(fs::read).collect::<io::Result<_>>()?;
    let mut seen = HashSet::new();
    let mut listed: Vec<Vec<u8>> = super::list().iter().filter_map(Case::file).collect();
    listed.retain(|file| seen.insert(file.clone()));
    let step = listed.len().div_ceil(count.max(1)).max(1);
    files.extend(listed.into_iter().step_by(step));
    Ok(files)
}

/// Writes a text, and what it is packed to: its file, or the words that say why there is none.
fn write_packing(name: &Path, text: &[u8]) -> io::Result<()> {
    let (file, words) = match pack(text) {
        Ok(file) => (file, String::new()),
        Err(fault) => (vec![], fault.words()),
    };
    fs::write(name.with_extension("text"), text)?;
    fs::write(name.with_extension("packed"), file)?;
    fs::write(name.with_extension("words"), words)
}

/// A text in which one character or one word is another, goes, or comes.
fn damaged(rng: &mut Rng, text: &str) -> Vec<u8> {
    let mut bytes = text.as_bytes().to_vec();
    let at = rng.below(bytes.len() + 1);
    let word = rng.pick(WORDS).as_bytes();
    match rng.below(3) {
        0 => bytes.truncate(at),
        1 => drop(bytes.splice(at..at, word.iter().copied())),
        _ => drop(bytes.splice(at..(at + 1).min(bytes.len()), word.iter().copied())),
    }
    bytes
}
