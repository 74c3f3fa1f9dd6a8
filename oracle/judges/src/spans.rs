//! SCOPE 19, points in intervals, as plainly as it can be said: every pair of rows is looked at. It shares no code with the
//! Rust's driver, with the stand-ins or with the step rules.
use crate::script::{Answer, Spans};

/// The numbers of the refusals, in the order in which they are looked for.
pub const REFUSALS: [u8; 4] = [1, 5, 16, 6];

/// The most rows that a side may have: "Both sides hold at most 4,096 rows; more are 5."
const MOST: i64 = 4096;

/// A side's rows, each cell null or a number; none where its words break SCOPE's frame rule or have other columns than these.
fn rows(words: &[i64], columns: usize) -> Option<Vec<Vec<Option<i64>>>> {
    let [n, c, cells @ ..] = words else { return None };
    if *n < 0 || *n > MOST || *c != columns as i64 || cells.len() != 2 * *n as usize * columns {
        return None;
    }
    let (values, marks) = cells.split_at(cells.len() / 2);
    let mut all = vec![];
    for (value, mark) in values.iter().zip(marks) {
        match (mark, value) {
            (1, value) => all.push(Some(*value)),
            (0, 0) => all.push(None),
            _ => return None,
        }
    }
    Some(all.chunks(columns).map(|row| row.to_vec()).collect())
}

/// A flag: "each inclusive or exclusive as chosen".
fn inclusive(word: i64) -> Option<bool> {
    [false, true].into_iter().find(|flag| *flag as i64 == word)
}

/// "Points are one column of sorted integers without null": the points, or none where they are not so.
fn sorted_points(rows: &[Vec<Option<i64>>]) -> Option<Vec<i64>> {
    let points = rows.iter().map(|row| row[0]).collect::<Option<Vec<i64>>>()?;
    for i in 1..points.len() {
        if points[i - 1] > points[i] {
            return None;
        }
    }
    Some(points)
}

/// Whether a point lies inside an interval's bounds; "a null bound drops the row".
fn inside(interval: &[Option<i64>], point: i64, lower_in: bool, upper_in: bool) -> bool {
    let [Some(lower), Some(upper)] = *interval else { return false };
    let above = if lower_in { point >= lower } else { point > lower };
    let below = if upper_in { point <= upper } else { point < upper };
    above && below
}

/// "every pair of interval row and point row inside its bounds, each once, by interval row and then by point row, as a
/// two-column table; rows are numbered from 0 as handed in, dropped ones counted". Output is not looked at: the words that
/// are to be written, or the number of the refusal.
pub fn table(call: &Spans) -> Result<Vec<i64>, u8> {
    let (Some(lower_in), Some(upper_in)) = (inclusive(call.lower), inclusive(call.upper)) else { return Err(1) };
    let (points, intervals) = (rows(&call.points, 1).ok_or(5)?, rows(&call.intervals, 2).ok_or(5)?);
    let points = sorted_points(&points).ok_or(16)?;
    let mut values = vec![];
    for (i, interval) in intervals.iter().enumerate() {
        for (j, point) in points.iter().enumerate() {
            if inside(interval, *point, lower_in, upper_in) {
                values.extend([i as i64, j as i64]);
            }
        }
    }
    let marks = vec![1; values.len()];
    Ok([vec![values.len() as i64 / 2, 2], values, marks].concat())
}

/// The answer: "too short an output is 6", after all others.
pub fn answer(call: &Spans) -> Answer {
    match table(call) {
        Err(number) => Answer::Refused(number),
        Ok(words) if words.len() > call.output => Answer::Refused(6),
        Ok(words) => Answer::Table(words),
    }
}
