//! A whole answer frame read cell by cell, through the C interface, beside a plain Rust loop over the same words.
//!
//!     readers ROWS RUNS
//!
//! A frame of ROWS rows, at most 4,096, and 10 columns, as a join writes it that carries eight and adds the distance; one cell in
//! seven is null. Port: one view of the distance reader, then one call for each cell. Loop: the same rules over the words, the
//! length and each mark, and then each cell by its place. Both write the cells as options, in order. A run reads the frame as often
//! as makes 4,096 rows. Prints the medians of RUNS runs, nanoseconds of processor time for one whole frame: of the loop, of the port,
//! of the port's view alone, and of one `rowkeeper_read_distance`, which asks the rules for its one place. The cells are compared
//! one by one in every run: where one differs the program says which and ends with status 1.
use std::hint::black_box;

mod clock;

#[path = "../bindings/rust/src/raw.rs"]
#[allow(dead_code)]
mod raw;

use clock::{median, timed};
use raw::safe;

/// The columns of the frame: a number, what is carried, a distance.
const CARRIED: u64 = 8;
const COLUMNS: usize = CARRIED as usize + 2;

/// The rows that a frame can have.
const MOST: usize = 4096;

/// Ends the program with one line.
fn die(status: i32, why: &str) -> ! {
    eprintln!("readers: {why}");
    std::process::exit(status)
}

/// The frame: each cell has its own value, one in seven is null.
fn make_frame(rows: usize) -> Vec<i64> {
    let cells = rows * COLUMNS;
    let value = |at: usize| if at % 7 == 3 { 0 } else { at as i64 * 3 };
    let mut frame = vec![rows as i64, COLUMNS as i64];
    frame.extend((0..cells).map(value));
    frame.extend((0..cells).map(|at| (at % 7 != 3) as i64));
    frame
}

/// The plain loop; whether the words are a frame that a reader shows.
#[inline(never)]
fn plain(frame: &[i64], out: &mut [Option<i64>]) -> bool {
    let [rows @ 0..=4096, columns, cells @ ..] = frame else { return false };
    let known = *columns == CARRIED as i64 + 1 || *columns == CARRIED as i64 + 2;
    if !known || cells.len() != 2 * *rows as usize * *columns as usize {
        return false;
    }
    let (values, marks) = cells.split_at(cells.len() / 2);
    if !values.iter().zip(marks).all(|(value, mark)| *mark == 1 || (*mark == 0 && *value == 0)) {
        return false;
    }
    for (cell, (value, mark)) in out.iter_mut().zip(values.iter().zip(marks)) {
        *cell = (*mark != 0).then_some(*value);
    }
    true
}

/// The same by a view; whether it is not refused.
#[inline(never)]
fn port(frame: &[i64], out: &mut [Option<i64>]) -> bool {
    let view = safe::view_distance(CARRIED, frame);
    let mut out = out.iter_mut();
    for row in 0..view.rows {
        for column in 0..view.columns {
            let cell = safe::view_cell(view.rows, view.columns, frame, row, column);
            if let Some(place) = out.next() {
                *place = (cell.mark != 0).then_some(cell.value);
            }
        }
    }
    view.refusal == 0
}

/// The time of a call made so often, for one of them.
fn each(times: usize, mut call: impl FnMut() -> bool) -> u128 {
    let (fine, time) = timed(|| (0..times).all(|_| black_box(call())));
    if !fine {
        die(1, "the frame is refused");
    }
    time / times as u128
}

/// Runs the case and prints its medians.
fn run(rows: usize, runs: usize) {
    let (frame, times) = (make_frame(rows), MOST / rows);
    let blank = vec![Some(-9); rows * COLUMNS];
    let (mut by_loop, mut by_port) = (blank.clone(), blank.clone());
    let mut times_of = [vec![], vec![], vec![], vec![]];
    for _ in 0..runs {
        by_loop.copy_from_slice(&blank);
        by_port.copy_from_slice(&blank);
        times_of[0].push(each(times, || plain(black_box(&frame), &mut by_loop)));
        times_of[1].push(each(times, || port(black_box(&frame), &mut by_port)));
        times_of[2].push(each(times, || safe::view_distance(CARRIED, black_box(&frame)).refusal == 0));
        times_of[3].push(each(times, || safe::read_distance(CARRIED, black_box(&frame), 0, 0).refusal == 0));
        if let Some(at) = (0..by_loop.len()).find(|at| by_loop[*at] != by_port[*at]) {
            die(1, &format!("cell {at}: {:?} by the loop, {:?} by the port", by_loop[at], by_port[at]));
        }
    }
    let [by_loop, by_port, view, read] = times_of.map(median);
    println!("{by_loop} {by_port} {view} {read}");
}

/// Runs the case of the arguments.
fn main() {
    let words: Vec<usize> = std::env::args().skip(1).filter_map(|word| word.parse().ok()).collect();
    match words[..] {
        [rows @ 1..=MOST, runs @ 1..=usize::MAX] => run(rows, runs),
        _ => die(2, "wants ROWS, 1 to 4,096, and RUNS"),
    }
}
