//! Random calls over takings, and random trees of them, made from a seed and a number alone, so that every input can be made again.
use crate::generate::{Pool, Random, words};
use crate::generate_books::{Shape, broken, output, refused, rows};
use crate::generate_cuts::{ascending, shaped};
use crate::rules::Row;
use crate::script::{Adding, Joining, Options};
use crate::takings::{self, AMOUNT, SALES};

/// The families of these inputs among all random ones.
const ADDINGS: u64 = 0x2e;
const JOININGS: u64 = 0x2f;
const TREES: u64 = 0x30;

/// Options that no call refuses, nearly always with a carried column, and what tables under them are made of.
fn carrying(r: &mut Random) -> (Options, Shape) {
    let (mut o, s) = shaped(r);
    if r.percent(96) {
        o.carried = o.carried.max(1);
    }
    (o, s)
}

/// The total and the count of a row: most of them small, some at their limits.
fn sums(r: &mut Random) -> [i64; 2] {
    let count = r.pick(&[1, 1, 1, 2, 2, 3, 7, 100, 100, 5000, SALES / 2, SALES - 1, SALES]);
    let most = count * AMOUNT;
    [r.pick(&[0, 1, -1, 99, 12345, -700, most, -most, most - 1, 1 - most]).clamp(-most, most), count]
}

/// The rows of a table of takings: at most so many groups.
fn subtotals(r: &mut Random, o: &Options, s: &Shape, many: usize) -> Vec<Row> {
    let groups = if o.b == 0 { vec![vec![]; many.min(1)] } else { ascending(r, o, s, &[], many) };
    let row = |group: Row| group.into_iter().chain(sums(r).map(Some)).collect();
    groups.into_iter().map(row).collect()
}

/// A count of rows.
fn many(r: &mut Random) -> usize {
    r.pick(&[0, 0, 1, 1, 2, 2, 3, 4, 6, 12])
}

/// The same rows with something that is refused by 12, 14 or 15.
fn spoiled(r: &mut Random, o: &Options, rows: &mut Vec<Row>) {
    if rows.is_empty() {
        return;
    }
    let (i, j, column) = (r.below(rows.len()), r.below(rows.len()), r.below(o.b + 2));
    let count = rows[i][o.b + 1].unwrap_or(1).min(SALES);
    match r.below(7) {
        0 => rows[i][column] = None,
        1 => rows.insert(i, rows[i].clone()),
        2 => rows.swap(i, j),
        3 if o.ranks.given => rows[i][o.ranks.column as usize] = Some(Pool::Any.value(r)),
        4 => rows[i][o.b + 1] = Some(r.pick(&[0, -1, i64::MIN, i64::MAX, SALES + 1])),
        _ => rows[i][o.b] = Some(r.pick(&[count * AMOUNT + 1, -count * AMOUNT - 1, i64::MIN, i64::MAX])),
    }
}

/// The words of a table: a few rows wrong, now and then the words themselves; once in a while more rows than a frame has.
fn table(r: &mut Random, o: &Options, s: &Shape) -> Vec<i64> {
    let long = o.b == 1 && !o.ranks.given && r.below(60) == 0;
    let many = many(r);
    let mut rows = if long { ladder(o) } else { subtotals(r, o, s, many) };
    if r.percent(9) {
        spoiled(r, o, &mut rows);
    }
    let words = words(&rows, o.b + 2);
    if r.below(40) == 0 { broken(r, words) } else { words }
}

/// More rows than a frame has, of one by-column without a list.
fn ladder(o: &Options) -> Vec<Row> {
    let step = if o.descending[0] { -1 } else { 1 };
    (0..4100).map(|i| vec![Some(step * i), Some(i), Some(1)]).collect()
}

/// A number beside a table: small, or at its limits, or beyond them.
fn number(r: &mut Random) -> i64 {
    match r.below(30) {
        0 => r.pick(&[-1, i64::MIN, SALES + 1, i64::MAX]),
        1 | 2 => r.pick(&[SALES, SALES - 1, SALES / 2]),
        _ => r.below(9) as i64,
    }
}

/// An answer row of so many columns. The amount of a row without a right number may be any: it is not looked at.
fn answer(r: &mut Random, columns: usize, wild: bool) -> Row {
    let number = (!r.percent(25)).then(|| r.below(50) as i64);
    let within = [0, 1, -1, 250, 1999, -80, 12345, AMOUNT, -AMOUNT, AMOUNT - 1];
    let beyond = [AMOUNT + 1, -AMOUNT - 1, i64::MIN, i64::MAX];
    let far = number.is_none() && r.percent(30) || wild && r.percent(20);
    let amount = (!r.percent(15)).then(|| if far { r.pick(&beyond) } else { r.pick(&within) });
    let rest = (2..columns).map(|_| Some(Pool::Ends.value(r)).filter(|_| !r.percent(30)));
    let all: Row = [number, amount].into_iter().chain(rest.collect::<Row>()).collect();
    all[..columns].to_vec()
}

/// A left frame and its answer frame, rows in any order.
fn frames(r: &mut Random, o: &Options, s: &Shape, wrong: bool) -> [Vec<i64>; 2] {
    let unlisted = wrong && r.percent(30);
    let mut left = rows(r, o, s, o.b + 1, unlisted);
    if r.percent(50) {
        (1..left.len()).for_each(|i| left.swap(i, r.below(i + 1)));
    }
    let p = o.carried as usize;
    let columns = if wrong && r.percent(15) { r.pick(&[1, p, p + 3, 9]) } else { 1 + p + r.below(2) };
    let wild = wrong && r.percent(30);
    let mut answers: Vec<Row> = left.iter().map(|_| answer(r, columns, wild)).collect();
    if wrong && r.percent(15) {
        answers.pop();
    }
    [words(&left, o.b + 1), words(&answers, columns)]
}

/// The adding of this number among a seed's, and its options.
pub fn adding(seed: u64, number_of: u64) -> (Options, Adding) {
    let r = &mut Random::of_family(seed, ADDINGS, number_of);
    let (mut o, s) = carrying(r);
    let (table, wrong) = (table(r, &o, &s), r.percent(25));
    let told = |r: &mut Random, words: Vec<i64>| match r.below(40) {
        0 => broken(r, words),
        1 if r.percent(40) => vec![words[0], 0],
        2 if r.percent(40) => vec![0, r.pick(&[0, 1 << 40, i64::MAX])],
        _ => words,
    };
    let [left, answers] = frames(r, &o, &s, wrong).map(|words| told(r, words));
    if r.percent(6) {
        refused(r, &mut o);
    }
    let mut call = Adding { output: 0, number: number(r), table, left, answers };
    let needed = takings::added(&o, &call).map_or_else(|_| 2 + 6 * r.below(5), |added| added.sums.words(&o).1.len());
    call.output = output(r, needed);
    (o, call)
}

/// The joining of this number among a seed's, and its options.
pub fn joining(seed: u64, number_of: u64) -> (Options, Joining) {
    let r = &mut Random::of_family(seed, JOININGS, number_of);
    let (mut o, s) = carrying(r);
    let tables = [table(r, &o, &s), table(r, &o, &s)];
    if r.percent(6) {
        refused(r, &mut o);
    }
    let mut call = Joining { output: 0, numbers: [number(r), number(r)], tables };
    let needed = takings::joined(&o, &call).map_or_else(|_| 2 + 6 * r.below(5), |(_, sums)| sums.words(&o).1.len());
    call.output = output(r, needed);
    (o, call)
}

/// A call of a tree over a list of accounts: a frame added to one of them, or one joined with another, which leaves the list: the last
/// account takes its place.
#[derive(Clone, Copy, Debug, PartialEq)]
pub enum Step {
    Add { to: usize, frame: usize },
    Join { to: usize, other: usize },
}

/// Frames with their answers, tables with their numbers, and two orders in which all of them become one table: the empty tables that an
/// order begins with beside those, and its calls.
pub struct Tree {
    pub frames: Vec<[Vec<i64>; 2]>,
    pub accounts: Vec<(Vec<i64>, i64)>,
    pub orders: [(usize, Vec<Step>); 2],
}

/// An order of calls over so many frames and tables.
fn order(r: &mut Random, frames: usize, accounts: usize) -> (usize, Vec<Step>) {
    let empty = 1 + r.below(3);
    let (mut left, mut accounts, mut steps): (Vec<usize>, _, _) = ((0..frames).collect(), accounts + empty, vec![]);
    while !left.is_empty() || accounts > 1 {
        let to = r.below(accounts);
        if !left.is_empty() && (accounts == 1 || r.percent(60)) {
            let frame = left.swap_remove(r.below(left.len()));
            steps.push(Step::Add { to, frame });
        } else if accounts > 1 {
            let other = (to + 1 + r.below(accounts - 1)) % accounts;
            steps.push(Step::Join { to, other });
            accounts -= 1;
        }
    }
    (empty, steps)
}

/// The tree of this number among a seed's, and its options: nothing of it is refused but by 15 for sums that are too large.
pub fn tree(seed: u64, number_of: u64) -> (Options, Tree) {
    let r = &mut Random::of_family(seed, TREES, number_of);
    let (mut o, s) = carrying(r);
    o.carried = o.carried.max(1);
    let mut frames: Vec<_> = (0..r.below(5)).map(|_| frames(r, &o, &s, false)).collect();
    frames.retain(|[left, _]| left[0] <= 4096);
    let full = r.percent(20);
    let accounts = (0..r.below(4)).map(|_| {
        let mut rows = subtotals(r, &o, &s, 3);
        let small = |row: &Row| row[o.b + 1].is_some_and(|count| count < SALES / 2);
        rows.retain(|row| full || small(row));
        (words(&rows, o.b + 2), r.below(4) as i64)
    });
    let accounts: Vec<_> = accounts.collect();
    let orders = [0, 1].map(|_| order(r, frames.len(), accounts.len()));
    (o, Tree { frames, accounts, orders })
}
