//! The Rust original beside the library on sets, and plain Rust beside its files; `table` says what is written.

mod cleaning;
mod counter;
mod files;
mod flat;
mod inputs;
mod linked;
mod packing;
mod plain;
mod plain_2;
mod table;
mod time;

use table::asked;

fn main() {
    let kinds = cleaning::kinds();
    kinds.iter().filter(|kind| asked("sets", kind.name)).for_each(cleaning::lines);
    [cleaning::plate()].iter().filter(|kind| asked("sets", kind.name)).for_each(cleaning::line_of_a_plate);
    let [boxes, _, mixed] = kinds;
    [boxes, mixed].iter().filter(|kind| asked("packing", kind.name)).for_each(packing::lines);
    packing::small().iter().filter(|kind| asked("packing", kind.name)).for_each(packing::lines_back);
    if asked("packing", packing::CONTOUR) {
        packing::line_of_a_contour();
    }
    let both = files::sound().into_iter().zip(files::sound_2()).flat_map(|(one, two)| [one, two]);
    both.filter(|kind| asked("files", &kind.name)).for_each(|kind| files::lines(&kind));
    let mended = files::sound().into_iter().chain(files::damaged());
    mended.filter(|kind| asked("files", &kind.name)).for_each(|kind| files::mending(&kind));
    let listed = files::sound().into_iter().chain([files::straight()]);
    listed.filter(|kind| asked("listing", &kind.name)).for_each(|kind| files::put(&kind));
}
