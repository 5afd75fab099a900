//! Where a point lies, beside a plain three-way test and beside our own `contains`; `table` says what is written.

mod counter;
mod inputs;
mod linked;
mod table;
mod time;

use inputs::{Kind, Point, ASKED};
use linked::call;
use std::hint::black_box;

const BOUNDARY: i64 = 1;
const INSIDE: i64 = 2;

/// What a caller would take instead: the parity of the edges, with the boundary told on the way, as Hormann and Agathos
/// have it. It multiplies only where an edge crosses the asked row with an end on either side of the asked point, ends
/// at the first edge that has the point, and tests nothing of its input.
#[inline(never)]
fn plain(contour: &[Point], asked: Point) -> i64 {
    let Some(&last) = contour.last() else { return 0 };
    let Point { x, y } = asked;
    let (mut a, mut inside) = (last, false);
    for &b in contour {
        if b.y == y && (b.x == x || (a.y == y && (b.x > x) == (a.x < x))) {
            return BOUNDARY;
        }
        if (a.y < y) != (b.y < y) {
            if a.x >= x && b.x > x {
                inside = !inside;
            } else if a.x >= x || b.x > x {
                let cross = (a.x as i64 - x as i64) * (b.y as i64 - y as i64)
                    - (b.x as i64 - x as i64) * (a.y as i64 - y as i64);
                if cross == 0 {
                    return BOUNDARY;
                }
                inside ^= (cross > 0) == (b.y > a.y);
            }
        }
        a = b;
    }
    if inside { INSIDE } else { 0 }
}

fn locate(row: &[i32], (x, y): (i32, i32)) -> i64 {
    call!(ukm_locate(row; ; x, y)).place as i64
}

fn contains(row: &[i32], (x, y): (i32, i32)) -> i64 {
    call!(ukm_contains(row; ; x, y)).yes as i64
}

/// A line beside the plain test, and one beside `contains`, which must say yes where a point is inside and no where it is
/// outside; none is on a boundary.
fn lines(kind: &Kind, asked: (i32, i32)) {
    let rows = kind.rows();
    let point = Point::new(asked.0, asked.1);
    let (name, points) = (&kind.name, kind.points());
    table::line(
        name,
        "locate",
        points,
        &mut || kind.contours.iter().map(|c| plain(black_box(c), point)).sum(),
        &mut || rows.iter().map(|r| locate(black_box(r), asked)).sum(),
    );
    table::line(
        name,
        "locate_contains",
        points,
        &mut || rows.iter().map(|r| contains(black_box(r), asked)).sum(),
        &mut || rows.iter().map(|r| locate(black_box(r), asked)).sum::<i64>() / INSIDE,
    );
}

/// The boxes again, asked about a point that many of them have.
fn amid() -> Kind {
    Kind { name: "1000 boxes, asked amid".into(), contours: inputs::boxes(88172645463325252, 1000) }
}

fn main() {
    let asked = |kind: &&Kind| table::asked("places", &kind.name);
    // Straight points and spikes change nothing here.
    let telling = |kind: &&Kind| !kind.name.contains("0 %") || kind.name.contains(" 0 %");
    let kinds = inputs::kinds();
    kinds.iter().filter(telling).chain(&inputs::small()).filter(asked).for_each(|kind| lines(kind, ASKED));
    [amid()].iter().filter(asked).for_each(|kind| lines(kind, (711, 703)));
}
