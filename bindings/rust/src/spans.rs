//! Which points lie inside the bounds of which intervals.
use crate::Refusal;
use crate::raw::safe;

/// Whether each bound of an interval is itself inside.
#[derive(Clone, Copy, Debug, PartialEq, Eq)]
pub struct Bounds {
    /// Whether the lower one is.
    pub lower_inclusive: bool,
    /// Whether the upper one is.
    pub upper_inclusive: bool,
}

impl Bounds {
    /// Both bounds are inside.
    pub const INCLUSIVE: Bounds = Bounds { lower_inclusive: true, upper_inclusive: true };
    /// Neither is.
    pub const EXCLUSIVE: Bounds = Bounds { lower_inclusive: false, upper_inclusive: false };
}

/// The pairs that a call listed: interval by interval, and for each in the points' order.
#[derive(Clone, Copy, Debug, PartialEq, Eq)]
pub struct Pairs<'o> {
    numbers: &'o [i64],
}

impl<'o> Pairs<'o> {
    /// How many there are.
    pub fn len(&self) -> usize {
        self.numbers.len() / 2
    }

    /// Whether there is none.
    pub fn is_empty(&self) -> bool {
        self.numbers.is_empty()
    }

    /// The number of the interval's row and that of the point's row, both from 0 as they were handed in.
    pub fn iter(&self) -> impl Iterator<Item = (u64, u64)> + use<'o> {
        self.numbers.chunks_exact(2).map(|pair| (pair[0] as u64, pair[1] as u64))
    }
}

/// The words of output that so many pairs take. There are at most as many pairs as points times intervals.
pub const fn spans_words(pairs: usize) -> usize {
    2 + 4 * pairs
}

/// Lists every point inside the bounds of every interval. Points are a frame of one column, none null and none greater than
/// the next; intervals a frame of two, lower and upper bound, where a row with a null covers nothing. Refused by 5 where
/// they are no such frames, by 16 where points are null or out of order, by 6 where the output is too short: then no word of
/// it is altered.
pub fn spans<'o>(
    points: &[i64],
    intervals: &[i64],
    bounds: Bounds,
    output: &'o mut [i64],
) -> Result<Pairs<'o>, Refusal> {
    let (lower, upper) = (bounds.lower_inclusive as u64, bounds.upper_inclusive as u64);
    let written = safe::spans(points, intervals, lower, upper, output);
    Refusal::of(written.refusal)?;
    Ok(Pairs { numbers: &output[2..2 + 2 * written.rows as usize] })
}
