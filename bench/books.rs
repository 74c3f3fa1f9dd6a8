//! Books of the bench: their case, their rows, their words, their options.
use std::cmp::Ordering;

use crate::raw;

/// The most codes of a list.
const CODES: usize = 64;

/// A row of so many cells: as many bytes as its values and marks have in a table.
pub type Row<const C: usize> = [Option<i64>; C];

/// What is measured.
pub struct Case {
    pub groups: usize,
    pub ranked: bool,
    pub rows: usize,
    pub runs: usize,
}

/// The case of the arguments, or none where they are none.
pub fn case_of(words: &[String]) -> Option<Case> {
    let numbers: Vec<usize> = words.iter().map(|word| word.parse().ok()).collect::<Option<_>>()?;
    let &[groups, codes, rows, runs] = &numbers[..] else { return None };
    let listed = codes == 0 || (codes == 1 && (1..=CODES).contains(&groups));
    (listed && runs > 0).then_some(Case { groups, ranked: codes == 1, rows, runs })
}

/// The code of a group: with a list, groups are in the order of their places, and the codes fall.
fn code_of(case: &Case, group: usize) -> i64 {
    if case.ranked { (case.groups - group) as i64 * 3 } else { group as i64 }
}

/// A book: so many rows in each group, with keys that rise by steps of 1 to 4, or 0 to 3 if equal ones are wanted (xorshift). The
/// last cell is the number of the row.
pub fn make_book<const C: usize>(case: &Case, least: i64, mut random: u64) -> Vec<Row<C>> {
    let groups = case.groups.max(1);
    let mut book = Vec::with_capacity(case.rows);
    for group in 0..groups {
        let mut key = 0;
        for row in case.rows * group / groups..case.rows * (group + 1) / groups {
            random ^= random << 13;
            random ^= random >> 7;
            random ^= random << 17;
            key += least + (random % 4) as i64;
            let mut cells = [Some(row as i64); C];
            cells[0] = Some(code_of(case, group));
            cells[C - 2] = Some(key);
            book.push(cells);
        }
    }
    book
}

/// Rows as a table: n, c, the values row by row, the marks.
pub fn make_table<const C: usize>(rows: &[Row<C>]) -> Vec<i64> {
    let mut table = vec![rows.len() as i64, C as i64];
    table.extend(rows.iter().flatten().map(|cell| cell.unwrap_or(0)));
    table.extend(rows.iter().flatten().map(|cell| cell.is_some() as i64));
    table
}

/// The options of the case.
pub fn options<const C: usize>(case: &Case) -> raw::Options {
    let mut codes = [0; CODES];
    for (place, code) in codes.iter_mut().enumerate().take(if case.ranked { case.groups } else { 0 }) {
        *code = code_of(case, place);
    }
    let ranks = raw::Ranks {
        given: case.ranked as u64,
        column: 0,
        count: if case.ranked { case.groups as u64 } else { 0 },
        codes,
    };
    raw::Options {
        by: (C - 2) as u64,
        strategy: 0,
        allow_eq: 1,
        tolerance: -1,
        check: 0,
        descending: [0; 4],
        nulls_last: [0; 4],
        carried: 1,
        ranks,
        with_distance: 0,
    }
}

/// Two rows in the declared order: the groups, by their list where there is one, then the keys.
#[inline(always)]
pub fn order<const C: usize>(ranked: bool, a: &Row<C>, b: &Row<C>) -> Ordering {
    for column in 0..C - 2 {
        let groups = a[column].cmp(&b[column]);
        if groups != Ordering::Equal {
            return if ranked { groups.reverse() } else { groups };
        }
    }
    a[C - 2].cmp(&b[C - 2])
}
