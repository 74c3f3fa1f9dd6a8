//! Random answer frames and places, made from a seed and a number alone, so that every input can be made again.
use crate::generate::{Pool, Random, broken_frame, words};
use crate::rules::Row;
use crate::script::Read;

/// The family of these inputs among all random ones.
const READS: u64 = 0x25;

/// A number of rows: few most often, now and then a whole frame, or one row more than a frame has.
fn height(r: &mut Random) -> usize {
    match r.below(60) {
        0 => 4096,
        1 => 4097,
        _ => r.pick(&[0, 1, 1, 2, 3, 5, 9]),
    }
}

/// A place below a count most often; at it, behind it, or far outside.
fn place(r: &mut Random, count: usize) -> u64 {
    match r.below(8) {
        0 => r.pick(&[count as u64, count as u64 + 1, 1 << 32, 1 << 63, u64::MAX]),
        _ if count == 0 => 0,
        _ => r.below(count) as u64,
    }
}

/// One word of a frame is another one, or there is a word more or less.
fn broken(r: &mut Random, frame: &mut Vec<i64>) {
    match r.below(4) {
        0 => frame.push(r.pick(&[0, 1])),
        1 => drop(frame.pop()),
        _ if frame.is_empty() => {},
        _ => {
            let at = if r.percent(30) { r.below(frame.len().min(2)) } else { r.below(frame.len()) };
            frame[at] = r.pick(&[-1, 0, 1, 2, 3, 4097, i64::MAX, i64::MIN]);
        },
    }
}

/// The input of this number among a seed's.
pub fn read(seed: u64, number: u64) -> Read {
    let r = &mut Random::of_family(seed, READS, number);
    let (p, distance) = (r.pick(&[0, 0, 1, 1, 2, 3, 7, 8]), r.percent(50));
    let columns = match r.below(10) {
        0 => r.below(12),
        1..=4 => p + 2,
        _ => p + 1,
    };
    let (n, pool, nulls) = (height(r), r.pick(&[Pool::Below(4), Pool::Ends, Pool::Any]), r.pick(&[0, 10, 50]));
    let mut cell = || (!r.percent(nulls)).then(|| pool.value(r));
    let rows: Vec<Row> = (0..n).map(|_| (0..columns).map(|_| cell()).collect()).collect();
    let mut frame = words(&rows, columns);
    if r.percent(10) {
        broken(r, &mut frame);
    } else if r.percent(3) {
        frame = broken_frame(r, columns.max(1));
    }
    let carried = if r.percent(5) { r.pick(&[9, 10, 1 << 32, 1 << 63, u64::MAX]) } else { p as u64 };
    Read { distance, carried, row: place(r, n), column: place(r, columns), frame }
}
