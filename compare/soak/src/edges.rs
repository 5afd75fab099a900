//! Runs in which something cannot be read or written: that is no damaged file.

use crate::program::Program;
use crate::run::Runs;
use std::fs::File;
use std::io;
use std::path::Path;

/// A run that ends at once is made so often, in case its processes end in another order.
const OFTEN: usize = 20;

/// What is not as due of such runs of the program, if anything: the status is 2, standard error says what it is, and
/// standard output does not say that a file is damaged.
pub fn judged(program: &Program, root: &Path, runs: &Runs) -> Result<(), String> {
    let null = || File::open("/dev/null");
    let sound = runs.sound_path();
    let folder = root.join("examples");
    let missing = root.join("examples/none.set");
    let full = || File::options().write(true).open("/dev/full");
    if program.words == 0 {
        for _ in 0..OFTEN {
            two(
                runs.end(program, &[], File::open(&folder), None),
                "a folder as input",
            )?;
        }
        two(
            runs.end(program, &[], File::open(&program.answered), Some(full())),
            "a full disk",
        )
    } else {
        let words = |word| vec![word; program.words];
        two(
            runs.end(program, &words(&folder), null(), None),
            "a folder as input",
        )?;
        two(
            runs.end(program, &words(&missing), null(), None),
            "a file that is not there",
        )?;
        two(
            runs.end(program, &words(sound), null(), Some(full())),
            "a full disk",
        )
    }
}

fn two(outcome: io::Result<crate::run::Outcome>, what: &str) -> Result<(), String> {
    let outcome = outcome.map_err(|problem| format!("{what}: {problem}"))?;
    let said = outcome.err.starts_with("ukmerelt: ") || outcome.err.contains("\nukmerelt: ");
    if outcome.status == Some(2) && said && outcome.out.is_empty() {
        Ok(())
    } else {
        Err(format!(
            "{what} ends with {:?} and {}",
            outcome.status, outcome.err
        ))
    }
}
