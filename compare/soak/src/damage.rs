//! The damaged files.

use lists::files;
use lists::rng::Rng;
use std::collections::HashSet;
use std::fs;
use std::io;
use std::path::{Path, PathBuf};

/// Writes the files to an empty folder.
pub fn write(root: &Path, folder: &Path, count: &str, seed: &str) -> Result<(), String> {
    let [count, seed] = [count, seed].map(|word| word.parse().ok().filter(|number| *number > 0));
    let numbers = "the count and the seed are numbers from 1 on";
    let count: u64 = count.ok_or(numbers)?;
    let files = files(root, count as usize, &mut Rng::new(seed.ok_or(numbers)?));
    let file = |(number, bytes): (usize, &Vec<u8>)| {
        fs::write(folder.join(format!("{number:06}.set")), bytes)
    };
    let written: io::Result<()> = files.iter().enumerate().try_for_each(file);
    written.map_err(|problem| format!("{}: {problem}", folder.display()))
}

/// The files of the folder, in their order.
pub fn written(folder: &Path) -> Result<Vec<PathBuf>, String> {
    let entries = fs::read_dir(folder).map_err(|problem| problem.to_string())?;
    let mut paths: Vec<PathBuf> = entries
        .filter_map(|entry| Some(entry.ok()?.path()))
        .collect();
    paths.sort();
    Ok(paths)
}

/// About so many files, each once: a third of the case list's, which has each field of both editions damaged; a third of
/// the examples, whole, cut and with a bit flipped; a third of random bytes; and a few that are empty or huge.
fn files(root: &Path, count: usize, rng: &mut Rng) -> Vec<Vec<u8>> {
    let third = count / 3;
    let mut files = extremes();
    files.extend(some(of_the_list(), third, rng));
    files.extend(some(of_examples(root), third, rng));
    files.extend((0..third).map(|_| random(rng)));
    let mut seen = HashSet::new();
    files.retain(|file| seen.insert(file.clone()));
    files
}

/// So many of these, or all.
fn some(mut files: Vec<Vec<u8>>, count: usize, rng: &mut Rng) -> Vec<Vec<u8>> {
    while files.len() > count {
        let place = rng.below(files.len());
        files.swap_remove(place);
    }
    files
}

/// Every file that is read or mended in the case list.
fn of_the_list() -> Vec<Vec<u8>> {
    files::list().iter().filter_map(files::Case::file).collect()
}

/// An example that is longer is left out.
const LONGEST_EXAMPLE: usize = 1000;

/// Every example, set files and lists of cases and what else there is: whole, cut at every byte, with each bit flipped, and
/// with a byte behind it.
fn of_examples(root: &Path) -> Vec<Vec<u8>> {
    let mut files = vec![];
    for example in examples(root) {
        files.extend((0..=example.len()).map(|length| example[..length].to_vec()));
        files.extend((0..8 * example.len()).map(|bit| {
            let mut file = example.clone();
            file[bit / 8] ^= 0x80 >> (bit % 8);
            file
        }));
        files.push([&example[..], &[0]].concat());
    }
    files
}

fn examples(root: &Path) -> Vec<Vec<u8>> {
    let paths = written(&root.join("examples")).unwrap_or_default();
    let files = paths.iter().filter_map(|path| fs::read(path).ok());
    files.filter(|file| file.len() <= LONGEST_EXAMPLE).collect()
}

/// Random bytes, most of them behind the head of a file of some edition with few contours.
fn random(rng: &mut Rng) -> Vec<u8> {
    let length = rng.pick(&[2, 3, 5, 9, 20, 60, 300, 2000]);
    let mut file: Vec<u8> = (0..rng.below(length + 1))
        .map(|_| rng.below(256) as u8)
        .collect();
    let head = [
        rng.pick(&[0x10, 0x20]),
        rng.below(4) as u8,
        0x80,
        rng.below(6) as u8,
    ];
    if rng.below(4) > 0 {
        let known = rng.below(head.len() + 1).min(file.len());
        file[..known].copy_from_slice(&head[..known]);
    }
    file
}

/// The empty file, and files around the most bytes and far beyond, of either edition, of lines and of zeros.
fn extremes() -> Vec<Vec<u8>> {
    let mut files = vec![vec![]];
    for length in [65_535, 65_536, 65_537, 1_000_000] {
        for byte in [0, 0x10, 0x20, b'\n', b'c', 0xff] {
            files.push(vec![byte; length]);
        }
        for head in [[0x1f, 0xff], [0x2f, 0xff]] {
            let mut file = vec![0x80; length];
            file[..2].copy_from_slice(&head);
            files.push(file);
        }
    }
    files
}
