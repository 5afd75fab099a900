//! Two presses that share a pool, as document 02 asks for: a plain list of contours, the oldest first.

use crate::reply::{on_grid, refused_if, Reply, ODD, RANGES, ROOM, TOO_MANY};

/// The points that the pool holds, and those that are kept for each press.
pub const POOL: usize = 65_536;
pub const KEPT: usize = 16_384;

/// The press's held points would pass the pool less the other's part.
pub const FULL: u8 = 17;
/// Removing with none left.
pub const NONE_LEFT: u8 = 18;

/// A contour of the pool.
#[derive(Clone, Debug, PartialEq, Eq)]
pub struct Contour {
    pub press: usize,
    pub tool: usize,
    pub numbers: Vec<i32>,
}

impl Contour {
    fn points(&self) -> usize {
        self.numbers.len() / 2
    }
}

/// How many points a contour of so many holds.
fn holding(points: usize) -> usize {
    points.max(1)
}

/// A record: where its contour starts and ends in points, its tool and its press.
pub type Record = [usize; 4];

/// The contours of both presses.
#[derive(Clone, Debug, Default, PartialEq, Eq)]
pub struct Pool(pub Vec<Contour>);

impl Pool {
    /// The pool that the first records of a row name, or 6: they are not all there, are not laid end to end within the
    /// points, have no press or no tool, or a press holds what is kept for the other, or both more than the pool.
    pub fn read(points: &[i32], records: &[Record], contours: usize) -> Reply<Pool> {
        refused_if(contours > records.len(), RANGES)?;
        let mut pool = Pool::default();
        let mut end = 0;
        for &[from, to, tool, press] in &records[..contours] {
            refused_if(from != end || to < from || to > points.len() / 2, RANGES)?;
            refused_if(tool > 255 || press > 1, RANGES)?;
            let numbers = points[2 * from..2 * to].to_vec();
            pool.0.push(Contour {
                press,
                tool,
                numbers,
            });
            end = to;
        }
        let held = [pool.held(0), pool.held(1)];
        refused_if(held.iter().any(|&held| held > POOL - KEPT), RANGES)?;
        refused_if(held[0] + held[1] > POOL, RANGES)?;
        Ok(pool)
    }

    /// A press's contours, in order.
    pub fn own(&self, press: usize) -> impl Iterator<Item = &Contour> {
        self.0.iter().filter(move |contour| contour.press == press)
    }

    /// How many points a press holds.
    pub fn held(&self, press: usize) -> usize {
        self.own(press)
            .map(|contour| holding(contour.points()))
            .sum()
    }

    /// The pool less all held.
    pub fn free(&self) -> usize {
        POOL - self.held(0) - self.held(1)
    }

    /// A press adds a contour with tool 0, unless it is refused: 17, or 5 if the pool has not the places.
    pub fn add(&mut self, press: usize, numbers: &[i32], places: bool) -> Reply<()> {
        let others_part = self.held(1 - press).max(KEPT);
        let would_hold = self.held(press) + holding(numbers.len() / 2);
        refused_if(would_hold > POOL - others_part, FULL)?;
        refused_if(!places, ROOM)?;
        self.0.push(Contour {
            press,
            tool: 0,
            numbers: numbers.to_vec(),
        });
        Ok(())
    }

    /// A press removes its newest contour, or 18.
    pub fn remove(&mut self, press: usize) -> Reply<()> {
        let newest = self.0.iter().rposition(|contour| contour.press == press);
        self.0.remove(newest.ok_or(NONE_LEFT)?);
        Ok(())
    }
}

/// The rows in which a pool lies, and how many records are in use.
#[derive(Clone, Debug, PartialEq, Eq)]
pub struct Rows {
    pub points: Vec<i32>,
    pub records: Vec<Record>,
    pub contours: usize,
}

impl Rows {
    pub fn pool(&self) -> Reply<Pool> {
        Pool::read(&self.points, &self.records, self.contours)
    }

    /// The pool has 65,536 places for points and for records.
    fn places(&self) -> bool {
        self.points.len() >= 2 * POOL && self.records.len() >= POOL
    }

    /// A press adds a contour: 1 and 2 of the contour alone, 6 for a pool that is not sound, 3, and then as the pool says.
    pub fn add(&mut self, press: usize, numbers: &[i32]) -> Reply<()> {
        refused_if(numbers.len() % 2 == 1, ODD)?;
        refused_if(numbers.len() / 2 > POOL, TOO_MANY)?;
        let mut pool = self.pool()?;
        on_grid(numbers)?;
        pool.add(press, numbers, self.places())?;
        self.write(&pool);
        Ok(())
    }

    /// A press removes its newest contour.
    pub fn remove(&mut self, press: usize) -> Reply<()> {
        let mut pool = self.pool()?;
        pool.remove(press)?;
        self.write(&pool);
        Ok(())
    }

    /// The pool stands in front of the rows, and what was behind it stays.
    fn write(&mut self, pool: &Pool) {
        let mut end = 0;
        for (contour, record) in pool.0.iter().zip(&mut self.records) {
            let start = end;
            end += contour.points();
            *record = [start, end, contour.tool, contour.press];
            self.points[2 * start..2 * end].copy_from_slice(&contour.numbers);
        }
        self.contours = pool.0.len();
    }
}

#[cfg(test)]
mod tests {
    use super::{Pool, Rows, KEPT, POOL};

    fn rows() -> Rows {
        Rows {
            points: vec![-7; 2 * POOL],
            records: vec![[7; 4]; POOL],
            contours: 0,
        }
    }

    #[test]
    fn later_contours_move_down_over_a_removed_one() {
        let rows = &mut rows();
        assert_eq!(rows.add(0, &[0, 0, 4, 0, 0, 4]), Ok(()));
        assert_eq!(rows.add(1, &[1, 1]), Ok(()));
        assert_eq!(rows.add(0, &[]), Ok(()));
        assert_eq!(rows.add(0, &[2, 2]), Ok(()));
        assert_eq!(rows.remove(1), Ok(()));
        assert_eq!(
            rows.records[..4],
            [[0, 3, 0, 0], [3, 3, 0, 0], [3, 4, 0, 0], [4, 5, 0, 0]]
        );
        assert_eq!(rows.points[6..10], [2, 2, 2, 2]);
        assert_eq!(rows.remove(1), Err(18));
        assert_eq!(rows.pool().unwrap().held(0), 5);
    }

    #[test]
    fn a_press_gets_what_the_other_leaves_it() {
        let mut pool = Pool::default();
        let most = vec![0; 2 * (POOL - KEPT)];
        assert_eq!(
            pool.clone().add(0, &[&most[..], &[0, 0]].concat(), true),
            Err(17)
        );
        assert_eq!(pool.add(0, &most, true), Ok(()));
        assert_eq!(pool.add(0, &[], true), Err(17));
        assert_eq!(pool.add(1, &vec![0; 2 * KEPT], false), Err(5));
        assert_eq!(pool.add(1, &vec![0; 2 * KEPT], true), Ok(()));
        assert_eq!(pool.free(), 0);
        assert_eq!(pool.add(1, &[], false), Err(17));
    }

    #[test]
    fn the_first_refusal_that_is_due_is_given() {
        let mut rows = rows();
        rows.contours = 1;
        assert_eq!(rows.add(0, &[i32::MAX]), Err(1));
        assert_eq!(rows.add(0, &vec![i32::MAX; 2 * POOL + 2]), Err(2));
        assert_eq!(rows.add(0, &[i32::MAX, 0]), Err(6));
        assert_eq!(rows.remove(0), Err(6));
        rows.contours = 0;
        assert_eq!(rows.add(0, &[i32::MAX, 0]), Err(3));
        assert_eq!(rows.add(0, &vec![0; 2 * POOL]), Err(17));
        assert_eq!(rows.remove(0), Err(18));
    }
}
