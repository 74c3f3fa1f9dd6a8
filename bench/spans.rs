//! Points in intervals through the C interface, beside a plain Rust loop that makes the same binary searches.
//!
//!     spans COVERED RUNS
//!
//! 4,096 points, and 4,096 intervals of which each covers COVERED points, 1 to 4,096 of them, wherever they begin. Prints
//! the count of pairs and the medians of RUNS runs: nanoseconds of processor time of the loop and of the port. Both write
//! their table into an output of its own that is filled before the clock starts, since fresh memory would come page by page.
//! The tables are compared word by word in every run: where one differs the program says which word and ends with status 1.
use std::ops::Range;

mod clock;

#[path = "../bindings/rust/src/raw.rs"]
#[allow(dead_code)]
mod raw;

use clock::{median, timed};

/// Rows of each side: the most that a call takes.
const ROWS: usize = 4096;
/// The distance of two neighbouring points.
const STEP: i64 = 10;
/// What an output holds before a call; no table has this word.
const BLANK: i64 = -9;

/// Ends the program with one line.
fn die(status: i32, why: &str) -> ! {
    eprintln!("spans: {why}");
    std::process::exit(status)
}

/// The points: one every ten.
fn make_points() -> Vec<i64> {
    (0..ROWS as i64).map(|i| i * STEP).collect()
}

/// The intervals, lower and upper bound in turn: each begins at a point and ends at one, in no order (xorshift).
fn make_intervals(covered: usize) -> Vec<i64> {
    let mut random = 1u64;
    let mut bounds = vec![];
    for _ in 0..ROWS {
        random ^= random << 13;
        random ^= random >> 7;
        random ^= random << 17;
        let first = (random % (ROWS - covered + 1) as u64) as i64;
        bounds.extend([first * STEP, (first + covered as i64 - 1) * STEP]);
    }
    bounds
}

/// Values as a frame of so many columns, none of them null: n, c, the values row by row, the marks.
fn make_frame(values: &[i64], columns: usize) -> Vec<i64> {
    let mut frame = vec![(values.len() / columns) as i64, columns as i64];
    frame.extend(values);
    frame.resize(2 + 2 * values.len(), 1);
    frame
}

/// The points that each interval covers, from the first to behind the last, by two binary searches; both bounds inclusive.
fn covered_points(points: &[i64], bounds: &[i64]) -> Vec<Range<usize>> {
    let range = |b: &[i64]| points.partition_point(|p| *p < b[0])..points.partition_point(|p| *p <= b[1]);
    bounds.chunks_exact(2).map(range).collect()
}

/// Writes the pairs of one interval.
fn put_pairs(interval: usize, points: Range<usize>, out: &mut [i64]) {
    for (pair, point) in out.chunks_exact_mut(2).zip(points) {
        (pair[0], pair[1]) = (interval as i64, point as i64);
    }
}

/// The plain loop: the searches, then the head, the pairs and the marks. The words that it wrote.
#[inline(never)]
fn plain(points: &[i64], bounds: &[i64], out: &mut [i64]) -> usize {
    let ranges = covered_points(points, bounds);
    let pairs: usize = ranges.iter().map(|r| r.len()).sum();
    (out[0], out[1]) = (pairs as i64, 2);
    let mut at = 2;
    for (interval, range) in ranges.into_iter().enumerate() {
        let end = at + 2 * range.len();
        put_pairs(interval, range, &mut out[at..end]);
        at = end;
    }
    out[at..at + 2 * pairs].fill(1);
    2 + 4 * pairs
}

/// The call, both bounds inclusive, which must be accepted. The words that it wrote.
fn port(points: &[i64], intervals: &[i64], out: &mut [i64]) -> usize {
    let said = raw::safe::spans(points, intervals, 1, 1, out);
    if said.refusal != 0 {
        die(1, &format!("the call is refused by {}", said.refusal));
    }
    2 + 4 * said.rows as usize
}

/// Ends the program where a word differs.
fn compare(plain: &[i64], port: &[i64]) {
    if plain.len() != port.len() {
        die(1, &format!("{} words by the loop, {} by the port", plain.len(), port.len()));
    }
    if let Some(at) = (0..plain.len()).find(|at| plain[*at] != port[*at]) {
        die(1, &format!("word {at}: {} by the loop, {} by the port", plain[at], port[at]));
    }
}

/// The case of the arguments: points that an interval covers, and runs; none where they are none.
fn case_of(words: &[String]) -> Option<(usize, usize)> {
    let [covered, runs] = words else { return None };
    let (covered, runs) = (covered.parse().ok()?, runs.parse().ok()?);
    ((1..=ROWS).contains(&covered) && runs > 0).then_some((covered, runs))
}

/// Runs the case and prints its medians.
fn main() {
    let words: Vec<String> = std::env::args().skip(1).collect();
    let Some((covered, runs)) = case_of(&words) else { die(2, "wants COVERED RUNS") };
    let (points, bounds) = (make_points(), make_intervals(covered));
    let (point_frame, interval_frame) = (make_frame(&points, 1), make_frame(&bounds, 2));
    let room = 2 + 4 * covered * ROWS;
    let (mut plain_out, mut port_out) = (vec![BLANK; room], vec![BLANK; room]);
    let (mut plains, mut ports) = (vec![], vec![]);
    for _ in 0..runs {
        plain_out.fill(BLANK);
        port_out.fill(BLANK);
        let (plain_words, plain_time) = timed(|| plain(&points, &bounds, &mut plain_out));
        let (port_words, port_time) = timed(|| port(&point_frame, &interval_frame, &mut port_out));
        compare(&plain_out[..plain_words], &port_out[..port_words]);
        plains.push(plain_time);
        ports.push(port_time);
    }
    println!("{} {} {}", covered * ROWS, median(plains), median(ports));
}
