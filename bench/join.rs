//! The port, through its C interface, beside a plain Rust walk over the same rows.
//!
//!     join GROUPS STRATEGY CHECK FEED KEYS ROWS RUNS [FOLDER]
//!
//! GROUPS 0: no by-column, else one with so many groups. STRATEGY: backward, forward or nearest. CHECK: off, on or strict. FEED:
//! `wanted` hands in a right frame where a turn wants one, `first` hands in all right rows before the first turn. KEYS:
//! `rising` from row to row by 0 to 6, or `one` key in all rows. Both tables have ROWS rows. Prints the medians of RUNS
//! runs: nanoseconds of processor time of the walk, of the port and of one pass over the words of all frames; then the
//! right rows that were held at a turn that wrote, on average. All matches of the two are compared in every run: where one
//! differs the program says which and ends with status 1. With a FOLDER it writes there the columns of both tables and the
//! matches, each a file of 64-bit numbers.
use std::hint::black_box;
use std::path::Path;

#[path = "../bindings/rust/src/raw.rs"]
#[allow(dead_code)]
mod raw;

mod clock;
mod host;
mod tables;
mod walk;

use clock::{median, timed};
use host::{Host, WANTED_ROOM};
use tables::{Table, make_frames, make_table};
use walk::{Strategy, walk};

/// What a run is asked to do.
struct Case {
    groups: usize,
    strategy: Strategy,
    check: usize,
    right_first: bool,
    one_key: bool,
    rows: usize,
    runs: usize,
}

/// Ends the program with one line.
fn die(status: i32, why: &str) -> ! {
    eprintln!("join: {why}");
    std::process::exit(status)
}

/// The case of the arguments, or none where they are none.
fn case_of(words: &[String]) -> Option<Case> {
    let [groups, strategy, check, feed, keys, rows, runs] = words else { return None };
    let one_of = |word: &str, no: &str, yes: &str| [no, yes].iter().position(|w| *w == word).map(|i| i == 1);
    let case = Case {
        groups: groups.parse().ok()?,
        strategy: Strategy::of_name(strategy)?,
        check: ["off", "on", "strict"].iter().position(|w| w == check)?,
        right_first: one_of(feed, "wanted", "first")?,
        one_key: one_of(keys, "rising", "one")?,
        rows: rows.parse().ok()?,
        runs: runs.parse().ok()?,
    };
    (case.runs > 0).then_some(case)
}

/// Opens the join of a case.
fn open(case: &Case) -> Host {
    let options = raw::Options {
        by: (case.groups > 0) as u64,
        strategy: case.strategy as u64,
        allow_eq: 1,
        tolerance: -1,
        check: case.check as u64,
        ..raw::Options::default()
    };
    Host::open(options, if case.right_first || case.one_key { case.rows } else { WANTED_ROOM }, case.rows)
}

/// What was written, as the walk tells it: a right row's number for each left row, -1 for none.
fn matches(host: &Host) -> Vec<i64> {
    let number = |(number, mark): (&i64, &i64)| if *mark == 1 { *number } else { -1 };
    host.frames().flat_map(|(numbers, marks)| numbers.iter().zip(marks).map(number)).collect()
}

/// One pass over the words of the frames: each is read and compared once. It finds none of them.
#[inline(never)]
fn one_pass(frames: &[Vec<i64>], sought: i64) -> bool {
    frames.iter().any(|frame| frame.contains(&sought))
}

/// Ends the program where a match differs.
fn compare(walked: &[i64], matched: &[i64]) {
    if walked.len() != matched.len() {
        die(1, &format!("{} rows by the walk, {} by the port", walked.len(), matched.len()));
    }
    if let Some(row) = (0..walked.len()).find(|row| walked[*row] != matched[*row]) {
        die(1, &format!("left row {row}: {} by the walk, {} by the port", walked[row], matched[row]));
    }
}

/// An empty vector with room for so many numbers, whose memory is there.
fn room(numbers: usize) -> Vec<i64> {
    let mut room = vec![1; numbers];
    room.clear();
    room
}

/// Writes a column of numbers to a file of the folder.
fn write_column(folder: &Path, name: &str, column: &[i64]) {
    let bytes: Vec<u8> = column.iter().flat_map(|number| number.to_le_bytes()).collect();
    if let Err(why) = std::fs::write(folder.join(name), bytes) {
        die(2, &format!("{name}: {why}"));
    }
}

/// Writes the columns of both tables and the matches.
fn write_all(folder: &Path, left: &Table, right: &Table, matches: &[i64]) {
    for (side, table) in [("left", left), ("right", right)] {
        write_column(folder, &format!("{side}.groups"), &table.groups);
        write_column(folder, &format!("{side}.keys"), &table.keys);
    }
    write_column(folder, "matches", matches);
}

/// Runs the case and prints its medians.
fn main() {
    let words: Vec<String> = std::env::args().skip(1).collect();
    let (asked, folder) = words.split_at(words.len().min(7));
    let Some(case) = case_of(asked) else { die(2, "wants GROUPS STRATEGY CHECK FEED KEYS ROWS RUNS [FOLDER]") };
    let step = if case.one_key { 0 } else { 6 };
    let (left, right) = (make_table(case.rows, case.groups, step, 1), make_table(case.rows, case.groups, step, 2));
    let (left_frames, right_frames) = (make_frames(&left), make_frames(&right));
    let (mut walks, mut ports, mut passes, mut held) = (vec![], vec![], vec![], 0);
    for _ in 0..case.runs {
        let mut walked = room(case.rows);
        let ((), walk_time) = timed(|| walk(&left, &right, case.strategy, &mut walked));
        let mut host = open(&case);
        let ((), port_time) = timed(|| host.run(&left_frames, &right_frames, case.right_first));
        let pass = || one_pass(&left_frames, black_box(i64::MIN)) | one_pass(&right_frames, black_box(i64::MIN));
        let (_, pass_time) = timed(pass);
        compare(&walked, &matches(&host));
        held = host.held / host.turns.max(1);
        walks.push(walk_time);
        ports.push(port_time);
        passes.push(pass_time);
        if let [folder] = folder {
            write_all(Path::new(folder), &left, &right, &walked);
        }
    }
    println!("{} {} {} {held}", median(walks), median(ports), median(passes));
}
