//! Takings by group: the amounts of matched sales, summed and counted, frame by frame or as subtotals joined later.
use alloc::{vec, vec::Vec};
use core::iter::FusedIterator;

use crate::raw::{MOST_ROWS, Taken, safe};
use crate::{Options, Refusal};

/// What the sales of a group add up to.
#[derive(Clone, Copy, Debug, PartialEq, Eq)]
pub struct Taking<'a> {
    /// Its by-values.
    pub group: &'a [i64],
    /// The sum of the amounts.
    pub total: i64,
    /// How many sales with an amount there are, at least one.
    pub sales: u64,
}

/// A table of takings: for each group with a sale that has an amount its total and its sale count, in group order, and beside it how
/// many matched sales have no amount. The amount is the first carried column.
///
/// In whatever order frames are added and takings joined, the table and the number come out the same. A call that is refused changes
/// nothing.
#[derive(Clone, Debug, PartialEq, Eq)]
pub struct Takings {
    options: Options,
    words: Vec<i64>,
    number: i64,
}

impl Takings {
    /// Takings without a sale. Refused by 1, 10 or 11 for options that opening would refuse, by 13 where nothing is carried.
    pub fn new(options: &Options) -> Result<Takings, Refusal> {
        Takings::from_words(options, &[0, options.by.len() as i64 + 2], 0)
    }

    /// Takings whose words were kept, and the number beside them. Refused as [`Takings::new`], by 5 where the words are no table of a
    /// column for each by-column, the total and the sale count, by 12 where they have a value that the list of ranks lacks, by 14 where
    /// they have a null or groups that do not ascend, by 15 where a count is below 1, a total is larger than so many sales can give, or
    /// there are more than 2^31 sales, with an amount or without.
    pub fn from_words(options: &Options, words: &[i64], unpriced: u64) -> Result<Takings, Refusal> {
        let (empty, mut out) = ([0, options.by.len() as i64 + 2], vec![0; words.len().max(2)]);
        let number = i64::try_from(unpriced).unwrap_or(-1);
        let taken = safe::takings_join(options.raw(), words, number, &empty, 0, &mut out);
        let mut takings = Takings { options: options.clone(), words: vec![], number: 0 };
        takings.take(taken, out)?;
        Ok(takings)
    }

    /// Adds the matched sales of a left frame: the answers are the words that the join wrote for it. A left row with a null by-value
    /// counts as not matched. Refused by 5 where one of the two is no frame or they have unequal heights, by 12 where the left frame
    /// has a value that the list of ranks lacks, by 13 where the answers have another number of columns, by 15 where a matched sale's
    /// amount is outside −1,000,000,000 to 1,000,000,000 or there would be more than 2^31 sales, with an amount or without.
    pub fn add(&mut self, left: &[i64], answers: &[i64]) -> Result<(), Refusal> {
        let rows = left.first().map_or(0, |rows| (*rows).clamp(0, MOST_ROWS as i64) as usize);
        let mut out = vec![0; self.room(rows)];
        let taken = safe::takings_add(self.options.raw(), &self.words, self.number, left, answers, &mut out);
        self.take(taken, out)
    }

    /// Joins other takings, made under the same order of groups, which stay as they are: the rows of both, those of one group added
    /// up. Refused by 5, 12 or 14 where the other's groups are of other columns or in another order, by 15 where there would be more
    /// than 2^31 sales, with an amount or without.
    pub fn join(&mut self, other: &Takings) -> Result<(), Refusal> {
        let mut out = vec![0; self.room(other.len())];
        let options = self.options.raw();
        let taken = safe::takings_join(options, &self.words, self.number, &other.words, other.number, &mut out);
        self.take(taken, out)
    }

    /// The words of the table with so many rows more.
    fn room(&self, more: usize) -> usize {
        2 + 2 * (self.len() + more) * self.columns()
    }

    /// Goes on with what a call wrote.
    fn take(&mut self, taken: Taken, mut out: Vec<i64>) -> Result<(), Refusal> {
        Refusal::of(taken.refusal)?;
        out.truncate(2 + 2 * taken.rows as usize * self.columns());
        (self.words, self.number) = (out, taken.number);
        Ok(())
    }

    /// A column for each by-column, the total, the sale count.
    fn columns(&self) -> usize {
        self.options.by.len() + 2
    }

    /// How many groups have a sale with an amount.
    pub fn len(&self) -> usize {
        self.words[0] as usize
    }

    /// Whether none has.
    pub fn is_empty(&self) -> bool {
        self.len() == 0
    }

    /// How many matched sales have no amount.
    pub fn unpriced(&self) -> u64 {
        self.number as u64
    }

    /// The table's words: rows, columns, values, marks. [`Takings::from_words`] takes them with the number beside them.
    pub fn words(&self) -> &[i64] {
        &self.words
    }

    /// The groups in order, each with what its sales add up to.
    pub fn iter(&self) -> impl ExactSizeIterator<Item = Taking<'_>> + FusedIterator {
        let by = self.columns() - 2;
        let values = &self.words[2..2 + self.len() * self.columns()];
        values.chunks_exact(by + 2).map(move |row| Taking {
            group: &row[..by],
            total: row[by],
            sales: row[by + 1] as u64,
        })
    }
}
