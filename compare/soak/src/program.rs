//! The programs of the repository.

use crate::run::{self, Runs};
use std::fs;
use std::path::{Path, PathBuf};

/// What a program reads.
#[derive(Clone, Copy, Debug, PartialEq, Eq)]
pub enum Reads {
    /// Set files that are sound.
    Sound,
    /// Set files of edition 1, of which it writes what is sound.
    Damaged,
    /// Any files one behind the other, sound or not, of which it tells in words what they came to.
    Any,
    /// Something else, which no set file is.
    Other,
}

pub struct Program {
    pub name: String,
    /// How many files it is given by name; with none it reads standard input.
    pub words: usize,
    pub reads: Reads,
    /// A file for which it writes something on standard output: a sound set file, or else what its own run reads.
    pub answered: PathBuf,
}

/// Every program that is built. Each is run on a sound file first, which builds it anew if that is due, and on one that is
/// cut off: that tells what it reads.
pub fn all(root: &Path, runs: &Runs) -> Result<Vec<Program>, String> {
    let crates = fs::read_dir(root.join("crates")).map_err(|problem| problem.to_string())?;
    let mut names: Vec<String> = crates
        .filter_map(|entry| entry.ok()?.file_name().into_string().ok())
        .filter(|name| root.join("crates").join(name).join("src/main.rt").is_file())
        .collect();
    names.sort();
    let mut programs = vec![];
    for crate_name in names {
        let name = crate_name.trim_end_matches("_main").to_string();
        if !root.join("target/bin").join(&crate_name).is_file() {
            println!("{name}: not built, and left out");
            continue;
        }
        let words = fs::read_to_string(root.join("crates").join(&crate_name).join("args"));
        let mut program = Program {
            name,
            words: words.map_or(0, |words| words.lines().count()),
            reads: Reads::Other,
            answered: runs.sound_path().clone(),
        };
        let silent = try_out(&mut program, runs)?;
        if silent {
            program.answered = root.join("crates").join(&crate_name).join("stdin");
        }
        programs.push(program);
    }
    Ok(programs)
}

/// Tells what the program reads, and whether it writes nothing for a sound set file.
fn try_out(program: &mut Program, runs: &Runs) -> Result<bool, String> {
    let sound = runs.sound();
    let cut = &sound[..sound.len() - 1];
    let [whole, cut] = [&sound[..], cut].map(|file| runs.run(program, 0, file, run::BUILDING));
    program.reads = match (whole.status, cut.status) {
        (Some(0), Some(1)) => Reads::Sound,
        (Some(0), Some(0)) if cut.out.first().is_some_and(u8::is_ascii_lowercase) => Reads::Any,
        (Some(0), Some(0)) => Reads::Damaged,
        (Some(1), Some(1)) => Reads::Other,
        statuses => return Err(format!("{} does not run: {statuses:?}", program.name)),
    };
    Ok(whole.out.is_empty())
}
