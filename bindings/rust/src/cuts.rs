//! Where a sorted table is cut for a list of groups, so that the parts can be joined apart, and two tables joined so, pair by pair.
use alloc::vec;
use alloc::vec::Vec;

use crate::raw::{MOST_ROWS, safe};
use crate::{Matches, Options, Refusal};

/// The boundaries that are taken at most.
const MOST_BOUNDARIES: usize = 16;

/// Which rows a table has.
#[derive(Clone, Copy, Debug, PartialEq, Eq)]
pub enum Side {
    /// Left rows: by-values and key.
    Left = 0,
    /// Right rows: by-values, key, what is carried.
    Right = 1,
}

/// Tells where a sorted table is cut for each of at most 16 boundaries: the number of its rows before the first whose group is not less
/// than the boundary in the declared order, or of all its rows if there is none. The table is as a [`Book`](crate::Book), of left rows or
/// of right ones; boundaries are a frame of the by-columns alone, one group a row, strictly ascending, none null.
///
/// Both tables of a join cut at the same boundaries, each pair of parts joined by itself and the answers appended, with the right rows of
/// the pairs before added to each right number, are the answers of the uncut tables.
///
/// Refused by 1, 10 or 11 for options that opening would refuse, by 5 where the table is none of its side's columns or the boundaries are
/// no frame of the by-columns, by 12 where one of them has a value that the list of ranks lacks, by 14 where the table is not sorted, by
/// 18 where boundaries are too many, null, out of order, or any at all without by-columns.
pub fn cut(options: &Options, side: Side, table: &[i64], boundaries: &[i64]) -> Result<Vec<usize>, Refusal> {
    let mut output = [0; 2 + 2 * MOST_BOUNDARIES];
    let written = safe::cut(options.raw(), side as u64, table, boundaries, &mut output);
    Refusal::of(written.refusal)?;
    Ok(output[2..2 + written.rows as usize].iter().map(|place| *place as usize).collect())
}

/// Joins two sorted tables whole, cut at 0 to 16 boundaries: each pair of parts by itself, the answers as one table. That is the answer
/// of the uncut tables, whatever the boundaries: a match for each left row, with the number of its right row in the whole right table.
/// Tables and boundaries are those of [`cut()`], [`Join::output_words`](crate::Join::output_words) tells how long an output the left
/// table's rows want, and the options' check does not matter: both tables are always judged.
///
/// The call measures the areas that the pairs would be joined in and uses no word of them. So this lends it words that are allocated and
/// never touched, some more than the larger table has; [`join_cut_in`] takes areas whose lengths are to be judged.
///
/// Refused by 1, 10 or 11 for options that opening would refuse, by 5 where a table is none of its side's columns or the boundaries are
/// no frame of the by-columns, by 12 where one of the three has a value that the list of ranks lacks, by 14 where a table is not sorted,
/// by 18 where boundaries are too many, null, out of order, or any at all without by-columns, by 6 where the output is too short: then
/// no word of it is altered.
pub fn join_cut<'o>(
    options: &Options,
    left: &[i64],
    right: &[i64],
    boundaries: &[i64],
    output: &'o mut [i64],
) -> Result<Matches<'o>, Refusal> {
    // Both areas may be the same words, since the call does not write them. Many zeros come from the system as pages that take no
    // memory before they are touched.
    let area = vec![0; area_words(left, right)];
    join_cut_in(options, left, right, boundaries, &area, &area, output)
}

/// The same with areas as a host would lend them to join the pairs one after the other: the left one holds all left frames of a pair, of
/// 4,096 rows each and one of what is left, the right one as many rows as [`plan()`](crate::plan()) says of the pair's parts in such
/// frames. Areas that are too short for any of the pairs are refused by 6, beside what [`join_cut`] refuses. No word of them is read or
/// written, and the two may be one.
pub fn join_cut_in<'o>(
    options: &Options,
    left: &[i64],
    right: &[i64],
    boundaries: &[i64],
    left_area: &[i64],
    right_area: &[i64],
    output: &'o mut [i64],
) -> Result<Matches<'o>, Refusal> {
    let written = safe::join_cut(options.raw(), left, right, boundaries, left_area, right_area, output);
    Refusal::of(written.refusal)?;
    Ok(Matches::of(output, options.distance))
}

/// The words that are enough for either area, whatever the boundaries. A table has 2 words and its cells; its rows as frames have 2 words
/// for each frame and the same cells, so 2 words more for each 4,096 rows, and a row has 2 words at least. No more right rows are held
/// than there are.
fn area_words(left: &[i64], right: &[i64]) -> usize {
    right.len().max(left.len() + left.len() / MOST_ROWS)
}
