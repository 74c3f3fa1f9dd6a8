//! The plain walk: an as-of join of two whole, sorted tables in memory with two places that only move on.
use crate::tables::Table;

/// Which right row a left row takes; the numbers are those of the C interface.
#[derive(Clone, Copy, PartialEq)]
pub enum Strategy {
    Backward = 0,
    Forward = 1,
    Nearest = 2,
}

impl Strategy {
    /// The strategy of a name.
    pub fn of_name(name: &str) -> Option<Strategy> {
        match name {
            "backward" => Some(Strategy::Backward),
            "forward" => Some(Strategy::Forward),
            "nearest" => Some(Strategy::Nearest),
            _ => None,
        }
    }
}

/// The last right row with a key not greater; -1 for none. Rows are numbered from `first` on.
fn backward(left: &[i64], right: &[i64], first: usize, matches: &mut Vec<i64>) {
    let mut at = 0;
    for key in left {
        while at < right.len() && right[at] <= *key {
            at += 1;
        }
        matches.push(if at == 0 { -1 } else { (first + at - 1) as i64 });
    }
}

/// The first right row with a key not smaller.
fn forward(left: &[i64], right: &[i64], first: usize, matches: &mut Vec<i64>) {
    let mut at = 0;
    for key in left {
        while at < right.len() && right[at] < *key {
            at += 1;
        }
        matches.push(if at == right.len() { -1 } else { (first + at) as i64 });
    }
}

/// The last of the rows that have the key of row `at`.
fn last_equal(keys: &[i64], at: usize) -> usize {
    let mut last = at;
    while last + 1 < keys.len() && keys[last + 1] == keys[at] {
        last += 1;
    }
    last
}

/// The nearest right row: of two as near the greater key, of equal keys the last row.
fn nearest(left: &[i64], right: &[i64], first: usize, matches: &mut Vec<i64>) {
    let mut at = 0;
    for key in left {
        while at < right.len() && right[at] <= *key {
            at += 1;
        }
        let after_is_nearer = at > 0 && at < right.len() && right[at].abs_diff(*key) <= key.abs_diff(right[at - 1]);
        let row = if at < right.len() && (at == 0 || after_is_nearer) {
            Some(last_equal(right, at))
        } else {
            at.checked_sub(1)
        };
        matches.push(row.map_or(-1, |row| (first + row) as i64));
    }
}

/// The end of the run of equal groups that starts at a row.
fn run_end(groups: &[i64], from: usize) -> usize {
    let mut to = from;
    while to < groups.len() && groups[to] == groups[from] {
        to += 1;
    }
    to
}

/// The matches of two sorted tables, for each left row the number of its right row or -1, into a vector that has none yet.
pub fn walk(left: &Table, right: &Table, strategy: Strategy, matches: &mut Vec<i64>) {
    let run = match strategy {
        Strategy::Backward => backward,
        Strategy::Forward => forward,
        Strategy::Nearest => nearest,
    };
    if left.groups.is_empty() {
        return run(&left.keys, &right.keys, 0, matches);
    }
    let (mut i, mut j) = (0, 0);
    while i < left.groups.len() {
        let to = run_end(&left.groups, i);
        while j < right.groups.len() && right.groups[j] < left.groups[i] {
            j += 1;
        }
        let has_group = j < right.groups.len() && right.groups[j] == left.groups[i];
        let end = if has_group { run_end(&right.groups, j) } else { j };
        run(&left.keys[i..to], &right.keys[j..end], j, matches);
        (i, j) = (to, end);
    }
}
