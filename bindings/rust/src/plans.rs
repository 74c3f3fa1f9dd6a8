//! How large an area to lend: the figures of a schedule, worked out before any join is opened.
use crate::raw::safe;
use crate::{Options, Refusal};

/// The figures of the schedule in which all left frames wait, a right frame is handed in only when a turn wants one, and right is
/// ended after the last, or at the start if there is none.
#[derive(Clone, Copy, Debug, PartialEq, Eq)]
pub struct Plan {
    /// The most right rows that are held at once: with room for so many no right frame is refused by 6, with room for one fewer
    /// one is, unless this is 0. [`Join::right_words`](crate::Join::right_words) tells the words of such an area.
    pub rows: usize,
    /// The turn calls up to the last frame written, those that want right rows among them.
    pub turns: usize,
    /// The right frames taken; those behind them are never wanted.
    pub rights: usize,
}

/// Works out how large a right area a join over these two sorted tables wants. The tables are as a [`Book`](crate::Book): the left
/// one with by-values and key, the right one with what is carried behind them; each is cut in frames of these heights. Refused by 1,
/// 10 or 11 for options that opening would refuse, by 5 where one of the two is no table of its columns, by 12 where it has a value
/// that the list of ranks lacks, by 14 where one is not sorted, by 17 where a height is below 0 or above 4,096 or they do not add up to
/// their table. Nothing is written, and no match is made.
pub fn plan(
    options: &Options,
    left: &[i64],
    right: &[i64],
    left_heights: &[i64],
    right_heights: &[i64],
) -> Result<Plan, Refusal> {
    let planned = safe::plan(options.raw(), left, right, left_heights, right_heights);
    Refusal::of(planned.refusal)?;
    Ok(Plan { rows: planned.rows as usize, turns: planned.turns as usize, rights: planned.rights as usize })
}
