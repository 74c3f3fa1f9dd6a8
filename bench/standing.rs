//! Which notice stands, through the C interface, beside a plain Rust loop that tells it in one pass over the same table.
//!
//!     standing GROUPS CODES ROWS RUNS
//!
//! A book of ROWS rows: a group where GROUPS is not 0, of so many, a key, and one carried column, which says 1 in one row of the
//! book. With CODES 1 the groups have a list of ranks, at most 64 of them. One row in four is corrected by the next. The loop goes
//! from the last row back, looks at every mark, compares each row with the next one, whether they are in order and whether the
//! next one corrects it, and writes the same table; it has written before it knows that the book is one and sorted. Prints the medians of RUNS runs: nanoseconds of processor time of the loop and of the port. Every output is
//! filled before the clock starts, since fresh memory would come page by page. The tables are compared word by word in every run:
//! where one differs the program says which word and ends with status 1.
use std::cmp::Ordering;

mod books;
mod clock;

#[path = "../bindings/rust/src/raw.rs"]
#[allow(dead_code)]
mod raw;

use books::{Case, Row, case_of, make_book, make_table, options, order};
use clock::{median, timed};

/// What an output holds before a call; no table has this word.
const BLANK: i64 = -9;

/// Ends the program with one line.
fn die(status: i32, why: &str) -> ! {
    eprintln!("standing: {why}");
    std::process::exit(status)
}

/// The cells of a row, and whether each mark fits its value.
#[inline(always)]
fn row_of<const C: usize>(values: &[i64], marks: &[i64], i: usize) -> (Row<C>, bool) {
    let (values, marks) = (&values[i * C..(i + 1) * C], &marks[i * C..(i + 1) * C]);
    let fits = values.iter().zip(marks).all(|(value, mark)| *mark == 1 || (*mark == 0 && *value == 0));
    (std::array::from_fn(|column| (marks[column] == 1).then_some(values[column])), fits)
}

/// The plain loop; whether the words are a book that is sorted.
#[inline(never)]
fn plain<const C: usize>(ranked: bool, table: &[i64], out: &mut [i64]) -> bool {
    let n = table[0] as usize;
    let (from_values, from_marks) = table[2..].split_at(n * C);
    let (head, cells) = out.split_at_mut(2);
    let (values, marks) = cells.split_at_mut(2 * n);
    (head[0], head[1]) = (n as i64, 2);
    let (mut last, mut next, mut fine) = (n, None, true);
    for i in (0..n).rev() {
        let (row, fits) = row_of::<C>(from_values, from_marks, i);
        let way = next.map_or(Ordering::Less, |next| order(ranked, &row, &next));
        fine &= fits && way != Ordering::Greater;
        if way != Ordering::Equal {
            last = i;
        }
        let nameless = (0..C - 1).any(|column| row[column].is_none());
        let stands = !nameless && last == i && row[C - 1] != Some(1);
        let named = !nameless && !stands;
        (values[2 * i], values[2 * i + 1]) = (stands as i64, if named { last as i64 } else { 0 });
        (marks[2 * i], marks[2 * i + 1]) = (1, named as i64);
        next = Some(row);
    }
    fine
}

/// Ends the program where a word differs.
fn compare(plain: &[i64], port: &[i64]) {
    if let Some(at) = (0..plain.len()).find(|at| plain[*at] != port[*at]) {
        die(1, &format!("word {at}: {} by the loop, {} by the port", plain[at], port[at]));
    }
}

/// Runs the case and prints its medians.
fn run<const C: usize>(case: &Case) {
    let rows = make_book::<C>(case, 0, 1);
    let (table, options) = (make_table(&rows), options::<C>(case));
    let (mut plain_out, mut port_out) = (vec![BLANK; 2 + 4 * case.rows], vec![BLANK; 2 + 4 * case.rows]);
    let (mut plains, mut ports) = (vec![], vec![]);
    for _ in 0..case.runs {
        plain_out.fill(BLANK);
        port_out.fill(BLANK);
        let (fine, plain_time) = timed(|| plain::<C>(case.ranked, &table, &mut plain_out));
        let (said, port_time) = timed(|| raw::safe::standing(options, &table, 0, &mut port_out));
        if said.refusal != 0 || !fine {
            die(1, &format!("the call is refused by {}", said.refusal));
        }
        compare(&plain_out, &port_out);
        plains.push(plain_time);
        ports.push(port_time);
    }
    println!("{} {}", median(plains), median(ports));
}

/// Runs the case of the arguments.
fn main() {
    let words: Vec<String> = std::env::args().skip(1).collect();
    let Some(case) = case_of(&words) else { die(2, "wants GROUPS CODES ROWS RUNS") };
    if case.groups == 0 { run::<2>(&case) } else { run::<3>(&case) }
}
