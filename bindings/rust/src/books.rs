//! Books of notices: sorted tables of right rows, of any length.
use core::iter::FusedIterator;
use core::ops::Deref;

use crate::raw::{MOST_ROWS, safe};
use crate::{Frame, Options, Refusal};

/// A table of right rows, of any length: by-values in order, the key, what is carried. Its words are those of a frame without
/// the limit of rows: the number of rows and of columns, all values, all marks.
#[derive(Clone, Copy, Debug, PartialEq, Eq)]
pub struct Book<'a> {
    words: &'a [i64],
}

impl<'a> Book<'a> {
    /// How many rows it has.
    pub fn len(&self) -> usize {
        self.words[0] as usize
    }

    /// Whether it has none.
    pub fn is_empty(&self) -> bool {
        self.len() == 0
    }

    /// How many columns it has.
    pub fn columns(&self) -> usize {
        self.words[1] as usize
    }

    /// A cell; `None` is a null. The row and the column must be there.
    pub fn cell(&self, row: usize, column: usize) -> Option<i64> {
        let (rows, columns) = (self.len(), self.columns());
        assert!(row < rows && column < columns, "no cell {row}, {column} among {rows} rows of {columns}");
        let at = 2 + row * columns + column;
        (self.words[at + rows * columns] == 1).then(|| self.words[at])
    }

    /// The frames of the book, of 4,096 rows each, save the last, for a join.
    pub fn frames(&self) -> impl ExactSizeIterator<Item = Frame> + FusedIterator + use<'a> {
        let (words, rows, columns) = (self.words, self.len(), self.columns());
        let (values, marks) = words[2..].split_at(rows * columns);
        let part = move |of: &'a [i64], from: usize| &of[from..of.len().min(from + MOST_ROWS * columns)];
        (0..rows.div_ceil(MOST_ROWS)).map(move |frame| {
            let from = frame * MOST_ROWS * columns;
            Frame::of_words(columns, part(values, from), part(marks, from))
        })
    }
}

impl Deref for Book<'_> {
    type Target = [i64];

    /// Its words, which can be handed on as a book.
    fn deref(&self) -> &[i64] {
        self.words
    }
}

/// The words of a table of so many right rows under these options; `None` if there are more than can be lent.
pub fn book_words(options: &Options, rows: usize) -> Option<usize> {
    rows.checked_mul(options.right_columns())?.checked_mul(2)?.checked_add(2)
}

/// Merges two sorted books of right rows into one: every row of both, in the order that each book has them, and of rows that
/// compare equal the house's first. Refused by 1, 10 or 11 for options that opening would refuse, by 5 where one of the two is
/// no table of these columns, by 12 where it has a value that the list of ranks lacks, by 14 where one is not sorted, by 6
/// where the output is too short: then no word of it is altered.
pub fn merge<'o>(
    options: &Options,
    house: &[i64],
    festival: &[i64],
    output: &'o mut [i64],
) -> Result<Book<'o>, Refusal> {
    let written = safe::merge(options.raw(), house, festival, output);
    Refusal::of(written.refusal)?;
    Ok(Book { words: &output[..2 + 2 * written.rows as usize * options.right_columns()] })
}

/// What is told of one row of a book.
#[derive(Clone, Copy, Debug, PartialEq, Eq)]
pub enum Notice {
    /// It stands: no later row has its group and key, and it does not withdraw.
    Stands,
    /// It does not stand: the last row of its group and key has this number, its own if it withdraws itself.
    LeftOut(u64),
    /// Its key or a by-value is null: it neither stands nor is there another of its kind.
    Nameless,
}

/// The notices of a book, one for each of its rows.
#[derive(Clone, Copy, Debug, PartialEq, Eq)]
pub struct Notices<'o> {
    words: &'o [i64],
}

impl<'o> Notices<'o> {
    /// How many there are.
    pub fn len(&self) -> usize {
        self.words.len() / 4
    }

    /// Whether there is none.
    pub fn is_empty(&self) -> bool {
        self.words.is_empty()
    }

    /// What is told of each row, in the book's order.
    pub fn iter(&self) -> impl Iterator<Item = Notice> + use<'o> {
        let (values, marks) = self.words.split_at(self.words.len() / 2);
        values.chunks_exact(2).zip(marks.chunks_exact(2)).map(|(value, mark)| match (value[0], mark[1]) {
            (1, _) => Notice::Stands,
            (_, 1) => Notice::LeftOut(value[1] as u64),
            _ => Notice::Nameless,
        })
    }
}

/// The words of output that the notices of so many rows take; `None` if there are more than can be lent.
pub fn standing_words(rows: usize) -> Option<usize> {
    rows.checked_mul(4)?.checked_add(2)
}

/// Tells which notices of a sorted book stand: of each group and key the last row, unless it withdraws, which it does if its
/// carried column of this place, from 0, is 1. Refused by 1, 10 or 11 for options that opening would refuse, by 5 where the words
/// are no table of these columns, by 12 where they have a value that the list of ranks lacks, by 13 for a place that is no
/// carried column, by 14 where the book is not sorted, by 6 where the output is too short: then no word of it is altered.
pub fn standing<'o>(
    options: &Options,
    book: &[i64],
    place: usize,
    output: &'o mut [i64],
) -> Result<Notices<'o>, Refusal> {
    let written = safe::standing(options.raw(), book, place as u64, output);
    Refusal::of(written.refusal)?;
    Ok(Notices { words: &output[2..2 + 4 * written.rows as usize] })
}
