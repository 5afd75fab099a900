//! Points as the list writes them, and what is reckoned with them.

pub use requests::grid::{Point, LIMIT, MOST_POINTS, NARROW};

/// Numbers off the grid.
pub const OFF_GRID: [i32; 8] = [
    LIMIT + 1,
    LIMIT + 2,
    3 << 29,
    i32::MAX,
    -LIMIT - 1,
    -LIMIT - 2,
    -3 << 29,
    i32::MIN,
];

/// Numbers off the narrow grid, on the grid and off it.
pub const OFF_NARROW: [i32; 8] = [
    NARROW + 1,
    LIMIT,
    LIMIT + 1,
    i32::MAX,
    -NARROW - 1,
    -LIMIT,
    -LIMIT - 1,
    i32::MIN,
];

/// The whole of a grid with this end as a square, counter-clockwise.
pub const fn whole(end: i32) -> [Point; 4] {
    [[-end, -end], [end, -end], [end, end], [-end, end]]
}

pub fn plus(a: Point, b: Point) -> Point {
    [a[0] + b[0], a[1] + b[1]]
}

pub fn minus(a: Point, b: Point) -> Point {
    [a[0] - b[0], a[1] - b[1]]
}

pub fn times(k: i32, a: Point) -> Point {
    [k * a[0], k * a[1]]
}

/// The point of the grid that is nearest to `a`.
pub fn onto_grid(a: Point) -> Point {
    a.map(|number| number.clamp(-LIMIT, LIMIT))
}

/// The grid points of the edge from `a` to `b` are `a` and so many equal steps on.
pub fn steps(a: Point, b: Point) -> (Point, i32) {
    let way = minus(b, a);
    let count = divisor(way[0].abs(), way[1].abs()).max(1);
    (way.map(|number| number / count), count)
}

fn divisor(a: i32, b: i32) -> i32 {
    if b == 0 {
        a
    } else {
        divisor(b, a % b)
    }
}
