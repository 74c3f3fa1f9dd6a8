//! Takings through the C interface, beside a hash map of sums in Rust over the same sales.
//!
//!     takings GROUPS ANY ROWS RUNS
//!
//! ROWS sales in frames of 4,096, of so many groups, each group as often as the others: in group order, or with ANY 1 in any order.
//! One in eight has no match, one in sixteen a match without an amount. The map reads the same words of the same frames, without
//! judging them, into a map that is empty at the start. Then the first half of the frames and the second, each added by itself, are
//! joined: the map takes the sums of another one in. Prints the medians of RUNS runs, nanoseconds of processor time: adding by the map
//! and by the port, joining by the map and by the port. The sums are compared in every run: where one differs the program says so and
//! ends with status 1.
mod clock;

#[path = "../bindings/rust/src/raw.rs"]
#[allow(dead_code)]
mod raw;

use std::collections::HashMap;

use clock::{median, timed};

/// Rows in a frame.
const FRAME_ROWS: usize = 4096;

/// The sums of each group, and the matched sales without an amount.
#[derive(Clone, Default)]
struct Sums {
    map: HashMap<i64, (i64, i64)>,
    number: i64,
}

/// A table of takings and the number beside it.
#[derive(Clone)]
struct Account {
    table: Vec<i64>,
    number: i64,
}

/// A left frame and its answer frame.
type Pair = [Vec<i64>; 2];

/// Ends the program with one line.
fn die(status: i32, why: &str) -> ! {
    eprintln!("takings: {why}");
    std::process::exit(status)
}

/// Rows of two columns without nulls but those that are told, as a frame.
fn frame(rows: &[[Option<i64>; 2]]) -> Vec<i64> {
    let cells = || rows.iter().flatten();
    let head = [rows.len() as i64, 2].into_iter();
    head.chain(cells().map(|cell| cell.unwrap_or(0))).chain(cells().map(|cell| cell.is_some() as i64)).collect()
}

/// The frames of all sales (xorshift).
fn make_frames(groups: usize, any: bool, rows: usize) -> Vec<Pair> {
    let mut random = 88172645463325252u64;
    let mut next = || {
        random ^= random << 13;
        random ^= random >> 7;
        random ^= random << 17;
        random >> 16
    };
    let mut all: Vec<i64> = (0..rows).map(|row| (row * groups / rows) as i64).collect();
    (1..rows).filter(|_| any).for_each(|i| all.swap(i, next() as usize % (i + 1)));
    let mut pair = |groups: &[i64]| {
        let lefts: Vec<_> = groups.iter().map(|group| [Some(*group), Some(0)]).collect();
        let answer = |_: &i64| match next() % 16 {
            0 | 1 => [None, None],
            2 => [Some(1), None],
            _ => [Some(1), Some(next() as i64 % 10000)],
        };
        [frame(&lefts), frame(&groups.iter().map(answer).collect::<Vec<_>>())]
    };
    all.chunks(FRAME_ROWS).map(&mut pair).collect()
}

/// The sums of frames by the map.
#[inline(never)]
fn map_added(frames: &[Pair]) -> Sums {
    let mut sums = Sums::default();
    for [left, answers] in frames {
        let rows = left[0] as usize;
        let (groups, group_marks) = left[2..].split_at(2 * rows);
        let (values, marks) = answers[2..].split_at(2 * rows);
        for i in (0..rows).map(|row| 2 * row) {
            match (group_marks[i] == 1 && marks[i] == 1, marks[i + 1] == 1) {
                (true, true) => {
                    let row = sums.map.entry(groups[i]).or_insert((0, 0));
                    (row.0, row.1) = (row.0 + values[i + 1], row.1 + 1);
                },
                (true, false) => sums.number += 1,
                _ => {},
            }
        }
    }
    sums
}

/// The sums of another map, taken in.
#[inline(never)]
fn map_joined(sums: &mut Sums, other: &Sums) {
    for (group, (total, count)) in &other.map {
        let row = sums.map.entry(*group).or_insert((0, 0));
        (row.0, row.1) = (row.0 + total, row.1 + count);
    }
    sums.number += other.number;
}

/// Goes on with what a call wrote; the old table is the next output.
fn take(account: &mut Account, out: &mut Vec<i64>, taken: raw::Taken) {
    if taken.refusal != 0 {
        die(1, &format!("a call is refused by {}", taken.refusal));
    }
    std::mem::swap(&mut account.table, out);
    account.number = taken.number;
}

/// The words of a table that was written.
fn words(table: &[i64]) -> &[i64] {
    &table[..2 + 6 * table[0] as usize]
}

/// The sums of frames by the port, with two tables of room for all groups and a frame.
#[inline(never)]
fn port_added(options: raw::Options, frames: &[Pair], tables: &mut [Vec<i64>; 2]) -> Account {
    let [mut table, mut out] = std::mem::take(tables);
    (table[0], table[1]) = (0, 3);
    let mut account = Account { table, number: 0 };
    for [left, answers] in frames {
        let taken = raw::safe::takings_add(options, words(&account.table), account.number, left, answers, &mut out);
        take(&mut account, &mut out, taken);
    }
    tables[1] = out;
    account
}

/// Ends the program where sums differ.
fn compare(sums: &Sums, account: &Account) {
    let table = words(&account.table);
    let rows = table[2..2 + 3 * table[0] as usize].chunks(3);
    let same = |row: &[i64]| sums.map.get(&row[0]) == Some(&(row[1], row[2]));
    if sums.map.len() != rows.len() || !rows.clone().all(same) || !rows.is_sorted() || sums.number != account.number {
        die(1, "the sums of the map and of the port differ");
    }
}

/// Runs the case and prints its medians.
fn run(groups: usize, any: bool, rows: usize, runs: usize) {
    let (frames, room) = (make_frames(groups, any, rows), 2 + 6 * (groups + FRAME_ROWS));
    let options = raw::Options { by: 1, tolerance: -1, carried: 1, ..raw::Options::default() };
    let (first, second) = frames.split_at(frames.len() / 2);
    let mut times: [Vec<u128>; 4] = Default::default();
    for _ in 0..runs {
        let blank = || [vec![-9; room], vec![-9; room]];
        let (mut tables, mut both) = (blank(), [blank(), blank()]);
        let (sums, map_time) = timed(|| map_added(&frames));
        let (account, port_time) = timed(|| port_added(options, &frames, &mut tables));
        compare(&sums, &account);
        let (mut one, other) = (map_added(first), map_added(second));
        let (mut house, festival) =
            (port_added(options, first, &mut both[0]), port_added(options, second, &mut both[1]));
        let (_, map_join) = timed(|| map_joined(&mut one, &other));
        let mut out = vec![-9; 2 + 12 * groups];
        let (taken, port_join) = timed(|| {
            let [table, more] = [words(&house.table), words(&festival.table)];
            raw::safe::takings_join(options, table, house.number, more, festival.number, &mut out)
        });
        take(&mut house, &mut out, taken);
        compare(&one, &house);
        [map_time, port_time, map_join, port_join].into_iter().zip(&mut times).for_each(|(time, all)| all.push(time));
    }
    let [map, port, map_join, port_join] = times.map(median);
    println!("{map} {port} {map_join} {port_join}");
}

/// Runs the case of the arguments.
fn main() {
    let words: Vec<Option<usize>> = std::env::args().skip(1).map(|word| word.parse().ok()).collect();
    match words[..] {
        [Some(groups @ 1..), Some(any @ 0..=1), Some(rows @ 1..), Some(runs @ 1..)] => {
            run(groups, any == 1, rows, runs)
        },
        _ => die(2, "wants GROUPS ANY ROWS RUNS"),
    }
}
