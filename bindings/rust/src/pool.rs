//! A pool of contours that two presses share.

use crate::int::point::IntPoint;
use crate::library::{self, PoolRecord, MOST};
use crate::refused::Refused;

/// One of the two presses.
#[derive(Debug, Clone, Copy, PartialEq, Eq)]
pub enum Press {
    /// The first.
    First,
    /// The second.
    Second,
}

/// The contours of both presses, in rows that have room for every pool. It holds 65,536 points, of which 16,384 are kept
/// for each press; an empty contour counts as one.
///
/// ```
/// use ukmerelt::pool::{Pool, Press};
/// use ukmerelt::{IntPoint, Refused};
///
/// # fn main() -> Result<(), Refused> {
/// let mut pool = Pool::new();
/// pool.add(Press::First, &[[0, 0], [4, 0], [0, 4]].map(IntPoint::from))?;
/// pool.add(Press::Second, &[])?;
/// assert_eq!((pool.contours(Press::First), pool.held(Press::Second)), (1, 1));
/// assert_eq!(pool.free(), 65_532);
/// pool.remove(Press::First)?;
/// assert_eq!(pool.remove(Press::First), Err(Refused::NoneLeft));
/// # Ok(())
/// # }
/// ```
#[derive(Debug, Clone, PartialEq, Eq)]
pub struct Pool {
    points: Vec<IntPoint>,
    records: Vec<PoolRecord>,
    contours: usize,
}

impl Default for Pool {
    fn default() -> Pool {
        Pool::new()
    }
}

impl Pool {
    /// An empty pool.
    pub fn new() -> Pool {
        Pool {
            points: vec![IntPoint::ZERO; MOST],
            records: vec![[0; 4]; MOST],
            contours: 0,
        }
    }

    /// A press adds a contour, which becomes its newest.
    pub fn add(&mut self, press: Press, contour: &[IntPoint]) -> Result<(), Refused> {
        let Pool {
            points,
            records,
            contours,
        } = self;
        let reply = library::pool_add(points, records, contours, press.is_second(), contour);
        Refused::read(reply, 0)
    }

    /// A press removes its newest contour.
    pub fn remove(&mut self, press: Press) -> Result<(), Refused> {
        let Pool {
            points,
            records,
            contours,
        } = self;
        let reply = library::pool_remove(points, records, contours, press.is_second());
        Refused::read(reply, 0)
    }

    /// How many contours a press has.
    pub fn contours(&self, press: Press) -> usize {
        let second = press.is_second();
        sound(library::pool_contours(&self.points, &self.records, self.contours, second).read())
    }

    /// Contour number k of a press, from 0, the oldest first.
    pub fn contour(&self, press: Press, k: usize) -> Option<&[IntPoint]> {
        let records = &self.records[..self.contours];
        let own = |record: &&PoolRecord| record[3] == usize::from(press.is_second());
        let &[start, end, ..] = records.iter().filter(own).nth(k)?;
        self.points.get(start..end)
    }

    /// How many points a press holds.
    pub fn held(&self, press: Press) -> usize {
        let second = press.is_second();
        sound(library::pool_held(&self.points, &self.records, self.contours, second).read())
    }

    /// The free count: 65,536 less all held.
    pub fn free(&self) -> usize {
        sound(library::pool_free(&self.points, &self.records, self.contours).read())
    }
}

/// What is read of a pool that only the library has written is never refused.
fn sound(count: Result<usize, Refused>) -> usize {
    count.unwrap_or(0)
}

impl Press {
    fn is_second(self) -> bool {
        self == Press::Second
    }
}
