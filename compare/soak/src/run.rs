//! One run of a program by the launcher.

use crate::program::Program;
use std::fs::{self, File};
use std::io;
use std::path::{Path, PathBuf};
use std::process::{Child, Command};
use std::thread::sleep;
use std::time::{Duration, Instant};

/// How long a run may take, and one that may have to build the program first.
pub const LIMIT: Duration = Duration::from_secs(20);
pub const BUILDING: Duration = Duration::from_secs(3600);

/// Where runs take place.
pub struct Runs {
    launcher: PathBuf,
    sound: PathBuf,
    folder: PathBuf,
}

/// What came of a run; there is no status where a signal or the time limit stopped it, or nothing ran.
#[derive(Default)]
pub struct Outcome {
    pub status: Option<i32>,
    pub out: Vec<u8>,
    pub err: String,
    pub took: Duration,
}

impl Runs {
    /// Runs of the launcher in this repository, with files in its folder `target/soak`.
    pub fn new(root: &Path) -> io::Result<Runs> {
        let folder = root.join("target/soak");
        fs::create_dir_all(folder.join("tmp"))?;
        Ok(Runs {
            launcher: root.join("ukmerelt"),
            sound: root.join("examples/gasket.set"),
            folder,
        })
    }

    /// A sound file.
    pub fn sound(&self) -> Vec<u8> {
        fs::read(&self.sound).unwrap_or_default()
    }

    /// Where that is.
    pub fn sound_path(&self) -> &PathBuf {
        &self.sound
    }

    /// The program on the file: on standard input, or as one of the files that it is given, each in turn; the others are
    /// sound.
    pub fn run(&self, program: &Program, turn: usize, file: &[u8], limit: Duration) -> Outcome {
        let given = self.folder.join("in");
        let word = |place| {
            if place == turn % program.words {
                &given
            } else {
                &self.sound
            }
        };
        let words: Vec<&PathBuf> = (0..program.words).map(word).collect();
        let input = match words[..] {
            [] => fs::write(&given, file).and_then(|()| File::open(&given)),
            _ => fs::write(&given, file).and_then(|()| File::open("/dev/null")),
        };
        self.end_within(limit, program, &words, input, None)
            .unwrap_or_default()
    }

    /// The program with these words, this input, and this output or one that is kept.
    pub fn end(
        &self,
        program: &Program,
        words: &[&PathBuf],
        input: io::Result<File>,
        output: Option<io::Result<File>>,
    ) -> io::Result<Outcome> {
        self.end_within(LIMIT, program, words, input, output)
    }

    fn end_within(
        &self,
        limit: Duration,
        program: &Program,
        words: &[&PathBuf],
        input: io::Result<File>,
        output: Option<io::Result<File>>,
    ) -> io::Result<Outcome> {
        let [out, err] = ["out", "err"].map(|name| self.folder.join(name));
        let kept = File::create(&out);
        let begun = Instant::now();
        let child = Command::new(&self.launcher)
            .arg(&program.name)
            .args(words)
            .env("TMPDIR", self.folder.join("tmp"))
            .stdin(input?)
            .stdout(output.unwrap_or(kept)?)
            .stderr(File::create(&err)?)
            .spawn()?;
        Ok(Outcome {
            status: ended(child, limit)?,
            took: begun.elapsed(),
            out: fs::read(&out)?,
            err: String::from_utf8_lossy(&fs::read(&err)?).into_owned(),
        })
    }

    /// A file that the last run left in the folder for passing ones.
    pub fn left_behind(&self) -> Option<String> {
        let mut entries = fs::read_dir(self.folder.join("tmp")).ok()?;
        let left = entries.next()?.ok()?;
        Some(left.file_name().to_string_lossy().into_owned())
    }
}

/// The status that a process ends with, if it does by itself within the limit.
fn ended(mut child: Child, limit: Duration) -> io::Result<Option<i32>> {
    let end = Instant::now() + limit;
    loop {
        if let Some(status) = child.try_wait()? {
            return Ok(status.code());
        }
        if Instant::now() > end {
            child.kill()?;
            child.wait()?;
            return Ok(None);
        }
        sleep(Duration::from_millis(2));
    }
}
