//! Two whole tables joined by one call, rowkeeper_join_cut, beside the plain join over the same rows, both through the C interface.
//!
//!     cuts GROUPS CARRIED STRATEGY CHECK ROWS RUNS
//!
//! Both tables have ROWS rows: a group, of GROUPS of equal size, 17 at least, and a key that rises by 0 to 6 from row to row; right
//! rows carry CARRIED columns, 0 or 1. STRATEGY: backward, forward or nearest. The plain join gets the rows in frames of 4,096, a right
//! frame where a turn wants one, and judges their order if CHECK is on; the call gets both tables whole and always judges them, once
//! with no boundary and once with 16, groups at even distances. Prints the least of RUNS runs each, nanoseconds of processor time: of the
//! plain join, of the call with no boundary, of the call with 16. Every output is filled before the clock starts, since fresh memory
//! would come page by page; the areas of the call, which it measures alone, are not. The answers of the three are compared in every run,
//! word by word: where one differs the program says which and ends with status 1.
#[path = "../bindings/rust/src/raw.rs"]
#[allow(dead_code)]
mod raw;

#[allow(dead_code)]
mod clock;
#[allow(dead_code)]
mod host;
#[allow(dead_code)]
mod tables;
#[allow(dead_code)]
mod walk;

use clock::timed;
use host::{Host, WANTED_ROOM};
use tables::{FRAME_ROWS, Table, make_table};
use walk::Strategy;

/// The boundaries that the call takes at most.
const BOUNDARIES: usize = 16;
/// What an output holds before a call; no answer has this word.
const BLANK: i64 = -9;

/// What is measured.
struct Case {
    groups: usize,
    carried: usize,
    strategy: Strategy,
    check: bool,
    rows: usize,
    runs: usize,
}

/// Two tables in words, and their frames.
struct Input {
    left: Vec<i64>,
    right: Vec<i64>,
    left_frames: Vec<Vec<i64>>,
    right_frames: Vec<Vec<i64>>,
}

/// Ends the program with one line.
fn die(status: i32, why: &str) -> ! {
    eprintln!("cuts: {why}");
    std::process::exit(status)
}

/// The case of the arguments, or none where they are none.
fn case_of(words: &[String]) -> Option<Case> {
    let [groups, carried, strategy, check, rows, runs] = words else { return None };
    let case = Case {
        groups: groups.parse().ok()?,
        carried: ["0", "1"].iter().position(|word| word == carried)?,
        strategy: Strategy::of_name(strategy)?,
        check: ["off", "on"].iter().position(|word| word == check)? == 1,
        rows: rows.parse().ok()?,
        runs: runs.parse().ok()?,
    };
    (case.groups > BOUNDARIES && case.rows > 0 && case.runs > 0).then_some(case)
}

/// A table in words: the group, the key, and where a column is carried a number of each row's own.
fn make_words(table: &Table, carried: usize) -> Vec<i64> {
    let (rows, columns) = (table.keys.len(), 2 + carried);
    let mut words = vec![rows as i64, columns as i64];
    for (row, (group, key)) in table.groups.iter().zip(&table.keys).enumerate() {
        words.extend([*group, *key]);
        words.extend((0..carried).map(|_| row as i64 * 3));
    }
    words.resize(2 + 2 * rows * columns, 1);
    words
}

/// The frames of a table in words.
fn make_frames(table: &[i64]) -> Vec<Vec<i64>> {
    let columns = table[1] as usize;
    let (values, marks) = table[2..].split_at(table.len() / 2 - 1);
    let cells = FRAME_ROWS * columns;
    let frame = |(values, marks): (&[i64], &[i64])| {
        [&[(values.len() / columns) as i64, columns as i64], values, marks].concat()
    };
    values.chunks(cells).zip(marks.chunks(cells)).map(frame).collect()
}

/// Both tables of a case.
fn make_input(case: &Case) -> Input {
    let left = make_words(&make_table(case.rows, case.groups, 6, 1), 0);
    let right = make_words(&make_table(case.rows, case.groups, 6, 2), case.carried);
    let (left_frames, right_frames) = (make_frames(&left), make_frames(&right));
    Input { left, right, left_frames, right_frames }
}

/// So many boundaries: groups at even distances.
fn make_boundaries(case: &Case, count: usize) -> Vec<i64> {
    let group = |place: usize| ((place + 1) * case.groups / (count + 1)) as i64;
    let head = [count as i64, 1].into_iter();
    head.chain((0..count).map(group)).chain((0..count).map(|_| 1)).collect()
}

/// The options of a case.
fn options(case: &Case) -> raw::Options {
    raw::Options {
        by: 1,
        strategy: case.strategy as u64,
        allow_eq: 1,
        tolerance: -1,
        check: case.check as u64,
        carried: case.carried as u64,
        ..raw::Options::default()
    }
}

/// What the frames of a join have, as one table.
fn appended(host: &Host, case: &Case) -> Vec<i64> {
    let mut table = vec![case.rows as i64, 1 + case.carried as i64];
    host.frames().for_each(|(values, _)| table.extend_from_slice(values));
    host.frames().for_each(|(_, marks)| table.extend_from_slice(marks));
    table
}

/// The time of the call with so many boundaries, which must write what the join wrote.
fn time_call(case: &Case, input: &Input, area: &[i64], count: usize, joined: &[i64]) -> u128 {
    let (boundaries, mut out) = (make_boundaries(case, count), vec![BLANK; joined.len()]);
    let call = || raw::safe::join_cut(options(case), &input.left, &input.right, &boundaries, area, area, &mut out);
    let (said, time) = timed(call);
    if said.refusal != 0 {
        die(1, &format!("the call with {count} boundaries is refused by {}", said.refusal));
    }
    if let Some(at) = (0..out.len()).find(|at| out[*at] != joined[*at]) {
        die(1, &format!("word {at}: {} by the join, {} with {count} boundaries", joined[at], out[at]));
    }
    time
}

/// Runs the case and prints the least times.
fn run(case: &Case) {
    let input = make_input(case);
    // Long enough for any pair: a table's words, and two for each frame that its rows are cut into.
    let area = vec![0; input.left.len().max(input.right.len()) + 2 * input.left_frames.len()];
    let mut least = [u128::MAX; 3];
    for _ in 0..case.runs {
        let mut host = Host::open(options(case), WANTED_ROOM, case.rows);
        let ((), plain) = timed(|| host.run(&input.left_frames, &input.right_frames, false));
        let joined = appended(&host, case);
        let calls = [0, BOUNDARIES].map(|count| time_call(case, &input, &area, count, &joined));
        [plain, calls[0], calls[1]].into_iter().zip(&mut least).for_each(|(time, least)| *least = time.min(*least));
    }
    println!("{} {} {}", least[0], least[1], least[2]);
}

/// Runs the case of the arguments.
fn main() {
    let words: Vec<String> = std::env::args().skip(1).collect();
    match case_of(&words) {
        Some(case) => run(&case),
        None => die(2, "wants GROUPS, 17 at least, CARRIED STRATEGY CHECK ROWS RUNS"),
    }
}
