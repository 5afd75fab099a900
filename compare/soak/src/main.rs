//! Runs every program that is built over damaged files, by the launcher: none may be stopped by a signal, hang, grow, leave
//! a file behind, or end with another status than what it said and what independent code says of the file.

mod damage;
mod due;
mod edges;
mod memory;
mod program;
mod run;

use program::Program;
use run::{Outcome, Runs};
use std::fs;
use std::path::{Path, PathBuf};
use std::process::ExitCode;
use std::time::Duration;

/// What one program made of all files.
#[derive(Default)]
struct Tally {
    done: usize,
    refused: usize,
    wrong: usize,
    longest: Duration,
}

fn main() -> ExitCode {
    let words: Vec<String> = std::env::args().skip(1).collect();
    let outcome = match words.iter().map(String::as_str).collect::<Vec<_>>()[..] {
        ["files", root, folder, count, seed] => {
            damage::write(root.as_ref(), folder.as_ref(), count, seed).map(|()| 0)
        }
        ["run", root, folder] => soak(root.as_ref(), folder.as_ref()),
        _ => Err("usage: soak files ROOT FOLDER COUNT SEED | soak run ROOT FOLDER".into()),
    };
    match outcome {
        Ok(0) => ExitCode::SUCCESS,
        Ok(_) => ExitCode::FAILURE,
        Err(problem) => {
            eprintln!("soak: {problem}");
            ExitCode::FAILURE
        }
    }
}

/// Runs every program over the files of the folder, prints what came of it, and answers how many runs were not as due. It
/// holds one file at a time: a process that it begins counts as large as it is itself.
fn soak(root: &Path, folder: &Path) -> Result<usize, String> {
    let runs = Runs::new(root).map_err(|problem| format!("no folder to work in: {problem}"))?;
    let programs = program::all(root, &runs)?;
    let first = memory::largest();
    let files = damage::written(folder)?;
    println!("{} files", files.len());
    let mut wrong = 0;
    let mut longest = Duration::ZERO;
    for program in &programs {
        let mut tally = over(program, &files, &runs);
        if let Err(problem) = edges::judged(program, root, &runs) {
            tally.wrong += 1;
            println!("not as due: {}, {problem}", program.name);
        }
        println!(
            "{}: {} done, {} refused, {} not as due",
            program.name, tally.done, tally.refused, tally.wrong
        );
        wrong += tally.wrong;
        longest = longest.max(tally.longest);
    }
    println!("the longest run: {} ms", longest.as_millis());
    let last = memory::largest();
    println!("the largest process: {last} KB, of a sound file {first} KB");
    if last > first + memory::SLACK {
        println!("not as due: it grew");
        wrong += 1;
    }
    println!("{} runs, {wrong} not as due", programs.len() * files.len());
    Ok(wrong)
}

fn over(program: &Program, files: &[PathBuf], runs: &Runs) -> Tally {
    let mut tally = Tally::default();
    for (number, path) in files.iter().enumerate() {
        let file = &fs::read(path).unwrap_or_default();
        let outcome = runs.run(program, number, file, run::LIMIT);
        tally.longest = tally.longest.max(outcome.took);
        match outcome.status {
            Some(0) => tally.done += 1,
            Some(1) => tally.refused += 1,
            _ => {}
        }
        if let Err(problem) = judged(program, file, &outcome, runs) {
            tally.wrong += 1;
            let path = path.display();
            println!("not as due: {}, {path}: {problem}", program.name);
        }
    }
    tally
}

/// What is not as due with a run, if anything.
fn judged(program: &Program, file: &[u8], outcome: &Outcome, runs: &Runs) -> Result<(), String> {
    if outcome.status.is_none() {
        return Err("it was stopped, by a signal or after the time limit".into());
    }
    if let Some(left) = runs.left_behind() {
        return Err(format!("it left {left} behind"));
    }
    due::status(outcome)?;
    due::answer(program, file, outcome)
}
