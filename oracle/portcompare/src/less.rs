//! Making an input that differs small.
use std::time::{Duration, Instant};

/// Parts of so many rows, long ones first: halves, quarters and on, to single rows. Each is where it begins and how long it
/// is.
pub fn parts(rows: usize) -> impl Iterator<Item = (usize, usize)> {
    let lengths = std::iter::successors(Some(rows.div_ceil(2)), |n| (*n > 1).then(|| n / 2));
    let lengths = lengths.take_while(|n| *n > 0);
    lengths.flat_map(move |n| (0..rows).step_by(n).map(move |from| (from, n.min(rows - from))))
}

/// A table without so many rows from one on.
pub fn without_rows(words: &[i64], from: usize, count: usize) -> Vec<i64> {
    let (n, c) = (words[0] as usize, words[1] as usize);
    let keep = |at: &usize| !(from..from + count).contains(&((at % (n * c)) / c));
    let cells = (0..2 * n * c).filter(keep).map(|at| words[2 + at]);
    [(n - count) as i64, c as i64].into_iter().chain(cells).collect()
}

/// An input that still differs and that has no smaller one that does, with how it differs; or the smallest that is found in the time that
/// is spent on it.
pub fn smallest<T>(
    mut input: T,
    spent: Duration,
    smaller: impl for<'a> Fn(&'a T) -> Box<dyn Iterator<Item = T> + 'a>,
    differs: impl Fn(&T) -> Option<String>,
) -> (T, String) {
    let start = Instant::now();
    let less = |input: &T| {
        let mut tried = smaller(input).take_while(|_| start.elapsed() < spent);
        tried.find_map(|less| differs(&less).map(|why| (less, why)))
    };
    let mut why = differs(&input).unwrap_or_default();
    while let Some((less, new)) = less(&input) {
        (input, why) = (less, new);
    }
    (input, why)
}
