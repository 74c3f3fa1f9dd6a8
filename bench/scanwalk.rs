//! Scan and walk on the same sorted runs: crates/scanwalk, through its two exported functions.
//!
//!     scanwalk RUNS
//!
//! For runs of 16, 256 and 4,096 rows and each strategy a line: the rows, the strategy, the medians over RUNS runs of the
//! picoseconds of processor time that the scan and the walk took a left row, and how often the walk's cursors moved. Both
//! calls judge their frames first; the walk's also asks whether they are sorted. The outputs of the two are compared, and
//! the moves are held to the rows of both runs; calls that are to be refused are tried first. Where one of this fails the
//! program says so and ends with status 1.
mod clock;
mod tables;

use clock::{median, timed};
use tables::{make_frames, make_table};

/// The rows of a run.
const SIZES: [usize; 3] = [16, 256, 4096];
/// The strategies, in the order of their numbers.
const STRATEGIES: [&str; 3] = ["backward", "forward", "nearest"];
/// The rows that a run meets at least before its time is taken: a clock tells no single call of sixteen rows.
const MET: usize = 1 << 22;

/// What a call answers: 0 or the refusal's number, and how often the cursors moved.
#[repr(C)]
struct Driven {
    refusal: u64,
    moves: u64,
}

/// Declares calls that read two frames and write an output.
macro_rules! drives {
    ($($name:ident),*) => {
        unsafe extern "C" {
            $(fn $name(
                strategy: u8,
                left: *const i64,
                left_len: usize,
                right: *const i64,
                right_len: usize,
                out: *mut i64,
                out_len: usize,
            ) -> Driven;)*
        }
    };
}

drives!(scanwalk_scan, scanwalk_walk);

/// Ends the program with one line.
fn die(status: i32, why: &str) -> ! {
    eprintln!("scanwalk: {why}");
    std::process::exit(status)
}

/// One of the two calls.
fn call(walked: bool, strategy: usize, left: &[i64], right: &[i64], out: &mut [i64]) -> Driven {
    let function = if walked { scanwalk_walk } else { scanwalk_scan };
    // SAFETY: the slices are as long as their lengths say, and none of them overlaps the output.
    unsafe {
        function(strategy as u8, left.as_ptr(), left.len(), right.as_ptr(), right.len(), out.as_mut_ptr(), out.len())
    }
}

/// A call that must not be refused; its moves.
fn drive(walked: bool, strategy: usize, left: &[i64], right: &[i64], out: &mut [i64]) -> u64 {
    let driven = call(walked, strategy, left, right, out);
    if driven.refusal != 0 {
        die(1, &format!("a call is refused by {}", driven.refusal));
    }
    driven.moves
}

/// Both calls are refused by the number that is due, and alter no word.
fn refuse(walked: bool, strategy: usize, right: &[i64], room: usize, due: u64) {
    let left = [2, 1, 3, 4, 1, 1];
    let mut out = vec![7; room];
    let driven = call(walked, strategy, &left, right, &mut out);
    if (driven.refusal, driven.moves) != (due, 0) || out.iter().any(|word| *word != 7) {
        die(1, &format!("a call is answered by {} and {}, where {due} and 0 are due", driven.refusal, driven.moves));
    }
}

/// What is refused: a strategy that there is not, words that are no frame, a short output; and a walk of unsorted keys.
fn refusals() {
    let (sorted, unsorted) = ([2, 1, 5, 6, 1, 1], [2, 1, 6, 5, 1, 1]);
    for walked in [false, true] {
        refuse(walked, 3, &sorted, 6, 1);
        refuse(walked, 0, &sorted[..5], 6, 5);
        refuse(walked, 0, &sorted, 5, 6);
    }
    refuse(true, 0, &unsorted, 6, 14);
}

/// The picoseconds a left row that so many calls took.
fn picoseconds(calls: usize, rows: usize, mut call: impl FnMut() -> u64) -> u128 {
    let (_, time) = timed(|| (0..calls).map(|_| call()).sum::<u64>());
    time * 1000 / (calls * rows) as u128
}

/// Compares and times scan and walk of two frames of so many rows; prints the line.
fn measure(rows: usize, strategy: usize, left: &[i64], right: &[i64], runs: usize) {
    let (mut scanned, mut walked) = (vec![7; 2 + 2 * rows], vec![7; 2 + 2 * rows]);
    drive(false, strategy, left, right, &mut scanned);
    let moves = drive(true, strategy, left, right, &mut walked);
    let name = STRATEGIES[strategy];
    if scanned != walked {
        die(1, &format!("{name}, {rows} rows: scan and walk give other matches"));
    }
    if moves as usize > 2 * rows {
        die(1, &format!("{name}, {rows} rows: the cursors moved {moves} times"));
    }
    let (mut scans, mut walks) = (vec![], vec![]);
    for _ in 0..runs {
        scans.push(picoseconds((MET / rows / rows).max(1), rows, || drive(false, strategy, left, right, &mut scanned)));
        walks.push(picoseconds(MET / rows, rows, || drive(true, strategy, left, right, &mut walked)));
    }
    println!("{rows} {name} {} {} {moves}", median(scans), median(walks));
}

/// Measures each size and strategy.
fn main() {
    let words: Vec<String> = std::env::args().skip(1).collect();
    let runs = match words.as_slice() {
        [runs] => runs.parse().ok().filter(|runs| *runs > 0),
        _ => None,
    };
    let Some(runs) = runs else { die(2, "wants RUNS") };
    refusals();
    let frame = |rows, seed| make_frames(&make_table(rows, 0, 6, seed)).remove(0);
    for rows in SIZES {
        let (left, right) = (frame(rows, 1), frame(rows, 2));
        for strategy in 0..STRATEGIES.len() {
            measure(rows, strategy, &left, &right, runs);
        }
    }
}
