//! Where a point lies, as document 02 asks for: inside a contour, on its boundary or outside, and whether a shape has it.

use crate::grid::Point;
use crate::reply::{domain, on_grid, Reply};

/// The numbers are those that the library answers.
#[derive(Clone, Copy, Debug, PartialEq, Eq, PartialOrd, Ord)]
pub enum Place {
    Outside = 0,
    Boundary = 1,
    Inside = 2,
}

/// Where the point lies of the contour in a row, or the first refusal that is due: 1, 2, 3; the asked point off the grid
/// is 3 too.
pub fn locate(row: &[i32], point: Point) -> Reply<Place> {
    domain(row)?;
    on_grid(&point)?;
    let contour: Vec<Point> = row.chunks_exact(2).map(|p| [p[0], p[1]]).collect();
    Ok(place(&contour, point))
}

/// On the boundary if it is on any closed edge; else inside if a way out crosses an odd count of edges.
pub fn place(contour: &[Point], point: Point) -> Place {
    let edges: Vec<Edge> = edges(contour).map(|edge| edge.seen_from(point)).collect();
    if edges.iter().any(Edge::has_origin) {
        return Place::Boundary;
    }
    match edges.iter().filter(|edge| edge.crosses_way_out()).count() % 2 {
        0 => Place::Outside,
        _ => Place::Inside,
    }
}

/// Whether the shape has the point: inside or on the first contour, and not inside any later one.
pub fn in_shape(contours: &[Vec<Point>], point: Point) -> bool {
    let place = |contour: &Vec<Point>| place(contour, point);
    match contours {
        [] => false,
        [first, later @ ..] => {
            place(first) != Place::Outside && later.iter().all(|hole| place(hole) != Place::Inside)
        }
    }
}

/// Two ends, in numbers so wide that every sum and product of them is exact.
struct Edge([[i128; 2]; 2]);

/// Each point and the one after it; after the last comes the first. A single point is an edge to itself.
fn edges(contour: &[Point]) -> impl Iterator<Item = Edge> + '_ {
    let wide = |point: &Point| point.map(i128::from);
    let next = contour.iter().cycle().skip(1);
    contour
        .iter()
        .zip(next)
        .map(move |(a, b)| Edge([wide(a), wide(b)]))
}

impl Edge {
    /// The edge as it lies about the point, which becomes the origin.
    fn seen_from(self, point: Point) -> Edge {
        let [x, y] = point.map(i128::from);
        Edge(self.0.map(|end| [end[0] - x, end[1] - y]))
    }

    /// In one line with both ends, and not on one side of them.
    fn has_origin(&self) -> bool {
        let [a, b] = self.0;
        cross(a, b) == 0 && dot(a, b) <= 0
    }

    /// The way out rises by 1 on 2^40 to the right, so little that it meets no other point of the grid: of an edge
    /// that does not have the origin, the ends lie on two sides of it or on one.
    fn crosses_way_out(&self) -> bool {
        const OUT: [i128; 2] = [1 << 40, 1];
        let [a, b] = self.0;
        let (side_of_a, side_of_b) = (cross(OUT, a).signum(), cross(OUT, b).signum());
        // They meet at s · OUT with s · cross(b - a, OUT) = cross(b, a): ahead if s is above 0.
        let along = [b[0] - a[0], b[1] - a[1]];
        let ahead = cross(along, OUT).signum() == cross(b, a).signum();
        side_of_a != side_of_b && ahead
    }
}

fn cross(a: [i128; 2], b: [i128; 2]) -> i128 {
    a[0] * b[1] - a[1] * b[0]
}

fn dot(a: [i128; 2], b: [i128; 2]) -> i128 {
    a[0] * b[0] + a[1] * b[1]
}

#[cfg(test)]
mod tests {
    use super::Place::{Boundary, Inside, Outside};
    use super::{in_shape, locate, place};
    use crate::grid::{Point, LIMIT};

    const SQUARE: [Point; 4] = [[0, 0], [4, 0], [4, 4], [0, 4]];

    fn divisor(a: i32, b: i32) -> i32 {
        if b == 0 {
            a
        } else {
            divisor(b, a % b)
        }
    }

    /// The grid points of the closed edge, step by step.
    fn stops([a, b]: [Point; 2]) -> Vec<Point> {
        let way = [b[0] - a[0], b[1] - a[1]];
        let count = divisor(way[0].abs(), way[1].abs()).max(1);
        let stop = |k| [a[0] + k * (way[0] / count), a[1] + k * (way[1] / count)];
        (0..=count).map(stop).collect()
    }

    /// All points from `low` to `high` in both coordinates.
    fn block(low: i32, high: i32) -> Vec<Point> {
        let row = |y| (low..=high).map(move |x| [x, y]);
        (low..=high).flat_map(row).collect()
    }

    #[test]
    fn the_boundary_is_the_grid_points_of_the_closed_edges() {
        let points = block(-2, 2);
        for &a in &points {
            for &b in &points {
                let on = stops([a, b]);
                for &asked in &block(-3, 3) {
                    assert_eq!(place(&[a, b], asked) == Boundary, on.contains(&asked));
                    let three = place(&[a, b, [3, 3]], asked) == Boundary;
                    let around = [stops([a, b]), stops([b, [3, 3]]), stops([[3, 3], a])];
                    assert_eq!(three, around.concat().contains(&asked));
                }
            }
        }
    }

    #[test]
    fn a_square_has_its_rim_and_its_inside() {
        for asked in block(-1, 5) {
            let within = |low, high| asked.iter().all(|n| (low..=high).contains(n));
            let expected = match (within(0, 4), within(1, 3)) {
                (true, true) => Inside,
                (true, false) => Boundary,
                _ => Outside,
            };
            assert_eq!(place(&SQUARE, asked), expected, "{asked:?}");
        }
    }

    #[test]
    fn what_has_no_inside_has_a_boundary_still() {
        assert_eq!(place(&[], [0, 0]), Outside);
        for contour in [&[[1, 1]][..], &[[1, 1], [1, 1]]] {
            assert_eq!(place(contour, [1, 1]), Boundary);
            assert_eq!(place(contour, [1, 2]), Outside);
        }
        let doubled = [[0, 0], [4, 0], [4, 4], [4, 8], [4, 4], [0, 4]];
        assert_eq!(place(&doubled, [4, 6]), Boundary);
        assert_eq!(place(&doubled, [3, 6]), Outside);
        // Two laps: nothing is inside by the parity.
        let laps = [SQUARE, SQUARE].concat();
        assert_eq!(place(&laps, [2, 2]), Outside);
        assert_eq!(place(&laps, [0, 2]), Boundary);
    }

    #[test]
    fn neither_the_start_nor_the_order_matters() {
        let contour = [[0, 0], [4, 4], [4, 0], [0, 4], [2, 1], [2, 1]];
        for asked in block(-1, 5) {
            for start in 0..contour.len() {
                let mut turned = contour;
                turned.rotate_left(start);
                assert_eq!(place(&turned, asked), place(&contour, asked));
                turned.reverse();
                assert_eq!(place(&turned, asked), place(&contour, asked));
            }
        }
    }

    #[test]
    fn across_the_whole_grid_one_step_aside_is_told() {
        let thin = [[-LIMIT, -LIMIT], [LIMIT, LIMIT - 1], [-LIMIT, LIMIT]];
        assert_eq!(place(&thin, [-LIMIT + 1, -LIMIT + 1]), Inside);
        assert_eq!(place(&thin, [LIMIT, LIMIT - 1]), Boundary);
        assert_eq!(place(&thin, [0, 0]), Inside);
        assert_eq!(place(&thin, [0, -1]), Outside);
        assert_eq!(place(&[[-LIMIT, -LIMIT], [LIMIT, LIMIT]], [5, 5]), Boundary);
    }

    #[test]
    fn a_pin_on_either_rim_of_a_hole_has_material() {
        let plate = vec![[0, 0], [9, 0], [9, 9], [0, 9]];
        let hole = vec![[3, 3], [3, 6], [6, 6], [6, 3]];
        let shape = [plate, hole];
        for (pin, held) in [
            ([3, 4], true),
            ([6, 4], true),
            ([4, 3], true),
            ([4, 6], true),
            ([3, 3], true),
            ([4, 4], false),
            ([0, 4], true),
            ([9, 9], true),
            ([1, 1], true),
            ([10, 4], false),
        ] {
            assert_eq!(in_shape(&shape, pin), held, "{pin:?}");
        }
        // Inside a hole there is nothing, also where the outline runs.
        let across = [shape[0].clone(), vec![[-1, 3], [1, 3], [1, 5], [-1, 5]]];
        assert!(!in_shape(&across, [0, 4]));
        assert!(in_shape(&across, [0, 3]));
        assert!(!in_shape(&[], [0, 0]));
        assert!(!in_shape(&[vec![], SQUARE.to_vec()], [0, 0]));
        assert!(in_shape(&[SQUARE.to_vec(), vec![]], [0, 0]));
        assert!(in_shape(&[SQUARE.to_vec(), SQUARE.to_vec()], [0, 0]));
    }

    #[test]
    fn the_first_refusal_that_is_due_is_given() {
        let off = LIMIT + 1;
        assert_eq!(locate(&[off], [off, 0]), Err(1));
        assert_eq!(locate(&[off; 131_074], [0, 0]), Err(2));
        assert_eq!(locate(&[off, 0], [0, 0]), Err(3));
        assert_eq!(locate(&[], [0, off]), Err(3));
        assert_eq!(locate(&[], [0, 0]), Ok(Outside));
        assert_eq!(locate(&[LIMIT, -LIMIT], [LIMIT, -LIMIT]), Ok(Boundary));
    }
}
