//! Files with their pictures, for runs of the program that draws a job.

use super::listing::MOST_LISTED;
use super::texts::chosen;
use crate::point::Point;
use requests::edition::{read, Edition, Shape};
use requests::reply::{refused_if, Reply, ROOM};
use requests::walk::{walk, Rule};
use std::path::Path;
use std::{fs, io};

/// How lines, dots and the scale look.
const STYLE: &str = concat!(
    "svg{background:#fff}",
    "path{fill:#d6e4f0;fill-rule:evenodd;stroke:#24557a;stroke-linejoin:round;vector-effect:non-scaling-stroke}",
    ".removed,.kept{stroke-linecap:round}.removed{stroke:#d3382c;stroke-width:6}.kept{stroke-width:3}",
    ".scale{stroke:#000;stroke-width:2}text{font-family:sans-serif}",
);

/// Writes other files and about so many of the list's into the folder, each with its picture.
pub fn write_pictures(folder: &Path, count: usize, others: &[&str]) -> io::Result<()> {
    fs::create_dir_all(folder)?;
    for (number, file) in chosen(count, others)?.iter().enumerate() {
        let at = |ending: &str| folder.join(format!("{number}.{ending}"));
        let refused = |reply| format!("refused {reply}\n");
        fs::write(at("set"), file)?;
        fs::write(at("svg"), picture(file).unwrap_or_else(refused))?;
    }
    Ok(())
}

/// The picture of a file, or the first refusal that is due: that of the reader, or 5 for more points than there is room
/// for.
fn picture(file: &[u8]) -> Reply<String> {
    let (edition, shapes) = read(file)?;
    let points: Vec<Point> = shapes.concat().concat();
    refused_if(points.len() > MOST_LISTED, ROOM)?;
    let [west, east] = ends(points.iter().map(|point| point[0]));
    let [south, north] = ends(points.iter().map(|point| point[1]));
    let [width, height] = [east - west, north - south];
    let letter = width.max(height) / 40 + 1;
    let [margin, below] = [3 * letter, height + 5 * letter];
    let [across, down] = [width + 6 * letter, height + 8 * letter];
    let (bar, label) = scale(width);
    Ok(format!(
        "<svg xmlns=\"http://www.w3.org/2000/svg\" viewBox=\"0 0 {across} {down}\">\n<style>{STYLE}</style>\n\
         <g transform=\"translate({margin} {margin}) scale(1 -1) translate({} {})\">\n{}{}</g>\n\
         <g transform=\"translate({letter} {below}) scale(1.024)\" font-size=\"{letter}\">\n\
         <path class=\"scale\" d=\"M0 0h{bar}\"/>\n<text y=\"1.4em\">{label} mm</text>\n</g>\n</svg>\n",
        -west,
        -north,
        shapes.iter().map(outlines).collect::<String>(),
        dots(edition, &shapes),
    ))
}

/// The least and the greatest of numbers, and of none twice 0.
fn ends(numbers: impl Iterator<Item = i32> + Clone) -> [i64; 2] {
    [numbers.clone().min(), numbers.max()].map(|end| i64::from(end.unwrap_or(0)))
}

/// The longest power of ten micrometres, up to a kilometre, that is no longer than the job is wide, and how many
/// millimetres that is; a millimetre has 1,024 units.
fn scale(width: i64) -> (i64, String) {
    let powers = (0..=9).map(|zeros| 10_i64.pow(zeros));
    let bar = powers
        .filter(|bar| 1024 * bar <= 1000 * width)
        .max()
        .unwrap_or(1);
    (bar, format!("{}", bar as f64 / 1000.0))
}

/// A shape is one path of its contours.
fn outlines(shape: &Shape) -> String {
    let outline = |points: &Vec<Point>| {
        let numbers: String = points
            .concat()
            .iter()
            .map(|number| format!("{number} "))
            .collect();
        if points.is_empty() {
            numbers
        } else {
            format!("M{numbers}Z")
        }
    };
    format!(
        "<path d=\"{}\"/>\n",
        shape.iter().map(outline).collect::<String>()
    )
}

/// A dot for each vertex: those that go, and those that stay, where each contour is cleaned by itself.
fn dots(edition: Edition, shapes: &[Shape]) -> String {
    let rule = match edition {
        Edition::One => Rule::Collinear,
        Edition::Two => Rule::Spike,
    };
    let [mut removed, mut kept] = [String::new(), String::new()];
    for points in shapes.concat() {
        let survivors = walk(rule, &points).survivors.unwrap_or_default();
        for (place, [x, y]) in points.iter().enumerate() {
            let dots = if survivors.contains(&place) {
                &mut kept
            } else {
                &mut removed
            };
            *dots += &format!("M{x} {y}h0");
        }
    }
    format!("<path class=\"removed\" d=\"{removed}\"/>\n<path class=\"kept\" d=\"{kept}\"/>\n")
}
