//! Reads a drawing in millimetres on standard input, and writes the set file of its contours to standard output.

use std::env;
use std::io::{self, Write};
use std::process::ExitCode;
use ukmerelt::drawing::{Command, Place};
use ukmerelt::flat::buffer::{FlatContoursBuffer, FlatShapesBuffer};
use ukmerelt::Refused;

const HELP: &str = "\
usage: import_mm [--apart] <drawing >set

A drawing has a command on each line: `M x y` begins a contour, `L x y` adds a point to it, `Z` ends it. Coordinates are
millimetres. Empty lines, and what stands behind a `#`, are skipped.

All contours are one shape: the first is its outline, the others are its holes. With --apart each contour is a shape of
its own, without holes.";

fn main() -> ExitCode {
    match run() {
        Ok(()) => ExitCode::SUCCESS,
        Err(problem) => {
            eprintln!("import_mm: {problem}");
            ExitCode::FAILURE
        }
    }
}

fn run() -> Result<(), String> {
    let words: Vec<String> = env::args().skip(1).collect();
    let apart = match words.iter().map(String::as_str).collect::<Vec<_>>()[..] {
        [] => false,
        ["--apart"] => true,
        ["--help"] => {
            println!("{HELP}");
            return Ok(());
        }
        _ => return Err(format!("there is no such flag\n{HELP}")),
    };
    let text = io::read_to_string(io::stdin()).map_err(|problem| problem.to_string())?;
    let file = set_file(&text, apart)?;
    io::stdout()
        .write_all(&file)
        .map_err(|problem| problem.to_string())
}

/// The set file of a drawing, or what is wrong with it, and in which line.
fn set_file(text: &str, apart: bool) -> Result<Vec<u8>, String> {
    let (lines, commands) = read(text)?;
    let contours = FlatContoursBuffer::import_mm(&commands).map_err(|refused| {
        let line = lines[first_refused(&commands)];
        format!("line {line}: {}", in_millimetres(refused))
    })?;
    let file = shapes(contours, apart).write_set();
    file.map_err(|refused| format!("no file carries this drawing: {refused}"))
}

/// The commands of a drawing, and the line of each.
fn read(text: &str) -> Result<(Vec<usize>, Vec<Command>), String> {
    let mut drawing = (vec![], vec![]);
    for (line, number) in text.lines().zip(1..) {
        let line = line.split('#').next().unwrap_or_default();
        let words: Vec<&str> = line.split_whitespace().collect();
        if words.is_empty() {
            continue;
        }
        let command = command(&words).map_err(|problem| format!("line {number}: {problem}"))?;
        drawing.0.push(number);
        drawing.1.push(command);
    }
    Ok(drawing)
}

fn command(words: &[&str]) -> Result<Command, String> {
    match words {
        ["M", x, y] => Ok(Command::Move(place(x, y)?)),
        ["L", x, y] => Ok(Command::Line(place(x, y)?)),
        ["Z"] => Ok(Command::Close),
        ["M" | "L", ..] => Err(format!("{} takes two numbers, x and y", words[0])),
        ["Z", ..] => Err("nothing stands behind Z".into()),
        _ => Err(format!("{} is no command: M, L and Z are", words[0])),
    }
}

fn place(x: &str, y: &str) -> Result<Place, String> {
    Ok(Place::new(number(x)?, number(y)?))
}

fn number(word: &str) -> Result<f64, String> {
    word.parse().map_err(|_| format!("{word} is no number"))
}

/// Which command is the first with which the drawing is refused.
fn first_refused(commands: &[Command]) -> usize {
    let counts: Vec<usize> = (1..=commands.len()).collect();
    counts.partition_point(|&count| FlatContoursBuffer::import_mm(&commands[..count]).is_ok())
}

/// Why a command is refused, for a person who knows of millimetres and no grid.
fn in_millimetres(refused: Refused) -> String {
    match refused {
        Refused::NoDrawing => "no contour is open; M begins one".into(),
        Refused::NotFinite => "a coordinate that is no finite number".into(),
        Refused::OffGrid => "a coordinate beyond 524,288 mm either side of 0".into(),
        Refused::TooMany => "over 65,536 points".into(),
        other => other.to_string(),
    }
}

/// The contours as one shape, or each as its own.
fn shapes(contours: FlatContoursBuffer, apart: bool) -> FlatShapesBuffer {
    let count = contours.ranges.len();
    let shape_ranges = match (apart, count) {
        (true, _) => (0..count).map(|contour| [contour, contour + 1]).collect(),
        (false, 0) => vec![],
        (false, _) => vec![[0, count]],
    };
    FlatShapesBuffer {
        points: contours.points,
        contour_ranges: contours.ranges,
        shape_ranges,
    }
}

#[cfg(test)]
mod tests {
    use super::set_file;
    use ukmerelt::flat::buffer::FlatShapesBuffer;

    const PLATE: &str = include_str!("../../../examples/plate.drawing");

    fn read(text: &str, apart: bool) -> FlatShapesBuffer {
        FlatShapesBuffer::read_set(&set_file(text, apart).unwrap())
            .unwrap()
            .set
    }

    #[test]
    fn the_plate() {
        let file = include_bytes!("../../../examples/plate.set");
        assert_eq!(set_file(PLATE, false).as_deref(), Ok(&file[..]));
    }

    #[test]
    fn one_shape_or_many() {
        assert_eq!(read(PLATE, false).shape_ranges, [[0, 4]]);
        let apart = read(PLATE, true).shape_ranges;
        assert_eq!(apart, [[0, 1], [1, 2], [2, 3], [3, 4]]);
        assert_eq!(set_file("", false), Ok(vec![0x10, 0]));
        assert_eq!(set_file("\n# nothing\n", true), Ok(vec![0x10, 0]));
    }

    #[test]
    fn what_is_wrong_is_said_of_a_line() {
        for (text, problem) in [
            ("M 0 0\nL 1 0\nQ", "line 3: Q is no command: M, L and Z are"),
            ("M 0\n", "line 1: M takes two numbers, x and y"),
            ("M 0 0\n\nL 1 2 3\n", "line 3: L takes two numbers, x and y"),
            ("M 0 0\nZ 1\n", "line 2: nothing stands behind Z"),
            ("M 0 1,5\n", "line 1: 1,5 is no number"),
            ("# a\nL 1 2\n", "line 2: no contour is open; M begins one"),
            (
                "M 0 0\nZ\nZ\nM 0 nan",
                "line 3: no contour is open; M begins one",
            ),
            (
                "M 0 0\nL inf 2\nL 1 2",
                "line 2: a coordinate that is no finite number",
            ),
            (
                "M 0 0\nL 1 2\nL 0 524289\nZ\nZ",
                "line 3: a coordinate beyond 524,288 mm either side of 0",
            ),
        ] {
            assert_eq!(set_file(text, false), Err(problem.into()), "{text:?}");
        }
        let many = format!("M 0 0\n{}", "L 1 2\n".repeat(65_536));
        let problem = "line 65537: over 65,536 points";
        assert_eq!(set_file(&many, false), Err(problem.into()));
        let long = format!("M 0 0\n{}", "L 1 2\n".repeat(8_191));
        assert!(set_file(&long, false).is_err_and(|problem| problem.starts_with("no file carries")));
    }
}
