//! `lists list` writes the list of cases; `lists answers` reads a list and writes the answers
//! to it; `lists listings` writes set files and their listings, `lists changes` pairs of set
//! files and what is said of them, `lists texts` set files and their texts, `lists cleanings` set
//! files and what cleaning makes of them, and `lists pictures` set files and their pictures.

use lists::{answer, files, list, HEADER};
use std::io::{self, BufRead, BufWriter, Write};
use std::process::ExitCode;

fn main() -> ExitCode {
    let words: Vec<String> = std::env::args().skip(1).collect();
    match run(&words) {
        Ok(()) => ExitCode::SUCCESS,
        Err(problem) => {
            eprintln!("lists: {problem}");
            ExitCode::FAILURE
        }
    }
}

fn run(words: &[String]) -> Outcome {
    match words.iter().map(String::as_str).collect::<Vec<_>>()[..] {
        ["list"] => write_list(),
        ["answers"] => write_answers(),
        ["listings", folder] => files::write_listings(folder.as_ref()).map_err(Into::into),
        ["changes", folder, count] => write_changes(folder, count),
        ["texts", folder, count, ref others @ ..] => {
            files::write_texts(folder.as_ref(), count.parse()?, others).map_err(Into::into)
        }
        ["cleanings", folder, count, ref others @ ..] => {
            files::write_cleanings(folder.as_ref(), count.parse()?, others).map_err(Into::into)
        }
        ["pictures", folder, count, ref others @ ..] => {
            files::write_pictures(folder.as_ref(), count.parse()?, others).map_err(Into::into)
        }
        _ => Err(USAGE.into()),
    }
}

const USAGE: &str = "usage: lists list | answers <list | listings FOLDER | changes FOLDER COUNT | \
     texts FOLDER COUNT [FILE]... | cleanings FOLDER COUNT [FILE]... | \
     pictures FOLDER COUNT [FILE]...";

type Outcome = Result<(), Box<dyn std::error::Error>>;

fn write_list() -> Outcome {
    let mut out = BufWriter::new(io::stdout().lock());
    for line in list() {
        writeln!(out, "{line}")?;
    }
    Ok(out.flush()?)
}

/// Reads a list on standard input, and writes the header and a line for each case.
fn write_answers() -> Outcome {
    let mut out = BufWriter::new(io::stdout().lock());
    writeln!(out, "{HEADER}")?;
    for (line, number) in io::stdin().lock().lines().zip(1..) {
        let answer = answer(&line?).map_err(|problem| format!("line {number}: {problem}"))?;
        writeln!(out, "{number} {answer}")?;
    }
    Ok(out.flush()?)
}

/// Writes the chosen pairs of files and so many random ones.
fn write_changes(folder: &str, count: &str) -> Outcome {
    Ok(files::write_changes(folder.as_ref(), count.parse()?)?)
}
