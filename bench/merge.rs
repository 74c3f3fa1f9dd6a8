//! Two books merged through the C interface, beside Rust's own stable merge of two sorted vectors of the same rows.
//!
//!     merge GROUPS CODES ROWS RUNS
//!
//! Two books of ROWS rows each: a group where GROUPS is not 0, of so many, a key, and one carried column. With CODES 1 the
//! groups have a list of ranks, at most 64 of them. Rows of both books lie between each other, and one in eight has a row
//! of the other book that compares equal. Rust's merge is `sort_by` over both vectors, one behind the other: it is stable,
//! finds the two sorted parts and merges them. Prints the medians of RUNS runs: nanoseconds of processor time of Rust's merge
//! and of the port, which also judges both books. Every output is filled before the clock starts, since fresh memory would
//! come page by page. The merged rows are compared in every run: where one differs the program says which and ends with
//! status 1.
mod books;
mod clock;

#[path = "../bindings/rust/src/raw.rs"]
#[allow(dead_code)]
mod raw;

use books::{Case, Row, case_of, make_book, make_table, options, order};
use clock::{median, timed};

/// What an output holds before a call; no table has this word.
const BLANK: i64 = -9;
/// Ends the program with one line.
fn die(status: i32, why: &str) -> ! {
    eprintln!("merge: {why}");
    std::process::exit(status)
}

/// Rust's own merge, into a vector that has room.
#[inline(never)]
fn rust<const C: usize>(case: &Case, house: &[Row<C>], festival: &[Row<C>], all: &mut Vec<Row<C>>) {
    all.clear();
    all.extend_from_slice(house);
    all.extend_from_slice(festival);
    if case.ranked { all.sort_by(|a, b| order(true, a, b)) } else { all.sort_by(|a, b| order(false, a, b)) }
}

/// Ends the program where a row differs.
fn compare<const C: usize>(all: &[Row<C>], out: &[i64]) {
    let table = make_table(all);
    if let Some(at) = (0..table.len()).find(|at| table[*at] != out[*at]) {
        die(1, &format!("word {at}: {} by Rust's merge, {} by the port", table[at], out[at]));
    }
}

/// Runs the case and prints its medians.
fn run<const C: usize>(case: &Case) {
    let (house, festival) = (make_book::<C>(case, 1, 1), make_book::<C>(case, 1, 2));
    let (house_table, festival_table, options) = (make_table(&house), make_table(&festival), options::<C>(case));
    let mut all = vec![[Some(BLANK); C]; 2 * case.rows];
    let mut out = vec![BLANK; 2 + 4 * case.rows * C];
    let (mut rusts, mut ports) = (vec![], vec![]);
    for _ in 0..case.runs {
        out.fill(BLANK);
        let (_, rust_time) = timed(|| rust(case, &house, &festival, &mut all));
        let (said, port_time) = timed(|| raw::safe::merge(options, &house_table, &festival_table, &mut out));
        if said.refusal != 0 {
            die(1, &format!("the call is refused by {}", said.refusal));
        }
        compare(&all, &out);
        rusts.push(rust_time);
        ports.push(port_time);
    }
    println!("{} {}", median(rusts), median(ports));
}

/// Runs the case of the arguments.
fn main() {
    let words: Vec<String> = std::env::args().skip(1).collect();
    let Some(case) = case_of(&words) else { die(2, "wants GROUPS CODES ROWS RUNS") };
    if case.groups == 0 { run::<2>(&case) } else { run::<3>(&case) }
}
