//! What a history leaves, by a plain list of contours.

use super::case::{Call, Case};
use crate::checksum::checksum;
use requests::pool::{Pool, Rows};
use requests::reply::Reply;

/// The rows after a history, and what was told, call by call.
#[derive(Debug)]
pub struct Told {
    pub rows: Rows,
    pub replies: Vec<u8>,
}

/// The calls of a history, one after the other.
pub fn run(case: &Case) -> Told {
    let numbers = case.numbers.all();
    let mut rows = case.rows();
    let mut told = |call: &Call| match call.of(&numbers) {
        (press, Some(contour)) => rows.add(press, contour),
        (press, None) => rows.remove(press),
    };
    let replies = case.calls.iter().map(|call| told(call).err().unwrap_or(0));
    let replies = replies.collect();
    Told { rows, replies }
}

/// How many contours are read by number from the front.
const READ: usize = 16;

/// The last reply, how many there were and their checksum; the count of records in use and the checksums of the rows;
/// of each press its contours, what it holds and its contours by number; and the free count.
pub fn answer(case: &Case) -> String {
    let Told { rows, replies } = run(case);
    let last = replies.last().copied().unwrap_or(0);
    let pool = rows.pool();
    let record_numbers: Vec<i64> = rows.records.concat().iter().map(|&n| n as i64).collect();
    let mut columns = vec![
        last.to_string(),
        replies.len().to_string(),
        checksum(&replies).to_string(),
        rows.contours.to_string(),
        checksum(&rows.points).to_string(),
        checksum(&record_numbers).to_string(),
    ];
    for press in [0, 1] {
        columns.push(read(&pool, |pool| pool.own(press).count()));
        columns.push(read(&pool, |pool| pool.held(press)));
        columns.push(by_number(&pool, press).to_string());
    }
    columns.push(read(&pool, Pool::free));
    columns.join(" ")
}

/// A count of the pool, or the refusal.
fn read(pool: &Reply<Pool>, count: impl Fn(&Pool) -> usize) -> String {
    match pool {
        Ok(pool) => count(pool).to_string(),
        Err(reply) => format!("!{reply}"),
    }
}

/// The first contours of a press, the last and the one past the end: of each its length and its checksum, in one
/// checksum. A part that is refused is empty.
fn by_number(pool: &Reply<Pool>, press: usize) -> u32 {
    let own: Vec<&[i32]> = match pool {
        Ok(pool) => pool
            .own(press)
            .map(|contour| &contour.numbers[..])
            .collect(),
        Err(_) => vec![],
    };
    let first = 0..own.len().min(READ);
    let last = own.len().saturating_sub(1);
    let parts = first.chain([last, own.len()]).flat_map(|number| {
        let part = own.get(number).copied().unwrap_or(&[]);
        [part.len() as i64, checksum(part).into()]
    });
    checksum(&parts.collect::<Vec<i64>>())
}

#[cfg(test)]
mod tests {
    use super::answer;

    #[test]
    fn a_history_is_answered_by_its_end() {
        let answer = |line: &str| answer(&line.parse().unwrap());
        let sound = "h 131072 65536 0 0 4 0 0 0 6 0 1 0 0 0 0 4 0 0 4";
        let columns: Vec<String> = answer(sound).split(' ').map(String::from).collect();
        assert_eq!(columns[..4], ["0", "2", "0", "2"]);
        assert_eq!(
            [&columns[6], &columns[7], &columns[9], &columns[10]],
            ["1", "3", "1", "1"]
        );
        assert_eq!(columns[12], "65532");
        let unsound = answer("h 4 1 2 0 2 1 0 0 0");
        assert!(unsound.starts_with("6 1 6 2 "), "{unsound}");
        assert!(unsound.ends_with(" !6"), "{unsound}");
    }
}
