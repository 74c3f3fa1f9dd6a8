//! The two answer readers: what a turn wrote, row by row and cell by cell.
use core::iter::FusedIterator;

use crate::Refusal;
use crate::raw::{Viewed, safe};

/// A view of an answer frame: the reader's rules were asked once, and every cell is read by what they told.
#[derive(Clone, Copy, Debug, PartialEq, Eq)]
pub struct View<'a> {
    words: &'a [i64],
    rows: u64,
    columns: u64,
    carried: u64,
}

/// A row of a view.
#[derive(Clone, Copy, Debug, PartialEq, Eq)]
pub struct ViewRow<'a> {
    view: View<'a>,
    row: u64,
}

impl<'a> View<'a> {
    /// What a view told, or its refusal.
    fn of(viewed: Viewed, carried: u64, words: &'a [i64]) -> Result<View<'a>, Refusal> {
        Refusal::of(viewed.refusal)?;
        Ok(View { words, rows: viewed.rows, columns: viewed.columns, carried })
    }

    /// How many rows the frame has.
    pub fn len(&self) -> usize {
        self.rows as usize
    }

    /// Whether it has none.
    pub fn is_empty(&self) -> bool {
        self.rows == 0
    }

    /// How many columns it has: the number, what is carried and, where the join added one, the distance.
    pub fn columns(&self) -> usize {
        self.columns as usize
    }

    /// A cell; `None` is a null, and so is every place outside the frame.
    pub fn cell(&self, row: usize, column: usize) -> Option<i64> {
        let cell = safe::view_cell(self.rows, self.columns, self.words, row as u64, column as u64);
        (cell.mark != 0).then_some(cell.value)
    }

    /// The rows, in order.
    pub fn rows(&self) -> impl ExactSizeIterator<Item = ViewRow<'a>> + DoubleEndedIterator + FusedIterator + use<'a> {
        let view = *self;
        (0..self.len()).map(move |row| ViewRow { view, row: row as u64 })
    }
}

impl<'a> ViewRow<'a> {
    /// A cell of the row; `None` is a null, and so is every column that the frame does not have.
    pub fn cell(&self, column: usize) -> Option<i64> {
        self.view.cell(self.row as usize, column)
    }

    /// The number of the right row that matched; `None` if none did.
    pub fn number(&self) -> Option<u64> {
        self.cell(0).map(|number| number as u64)
    }

    /// A carried cell of that row, by its place among the carried columns, from 0. A place that is none of them is `None`, the
    /// distance too: it is no carried cell.
    pub fn carried(&self, place: usize) -> Option<i64> {
        if (place as u64) < self.view.carried { self.cell(place + 1) } else { None }
    }

    /// How far the left row's key is from the match's; `None` where nothing matched, where it is more than 2^63 − 1, and where
    /// the frame has no distance.
    pub fn distance(&self) -> Option<u64> {
        self.cell(self.view.carried as usize + 1).map(|distance| distance as u64)
    }

    /// All cells of the row, column by column.
    pub fn cells(&self) -> impl ExactSizeIterator<Item = Option<i64>> + DoubleEndedIterator + FusedIterator + use<'a> {
        let row = *self;
        (0..row.view.columns()).map(move |column| row.cell(column))
    }
}

/// The plain reader's view of an answer frame, by the number of columns that its join carries. It shows frames of 1 + carried
/// columns. Refused by 10 where more than eight are carried, by 5 where the words are no frame, by 13 where the frame has
/// another number of columns: one with a distance is refused, so that no distance is taken for a price.
pub fn view_plain(carried: usize, frame: &[i64]) -> Result<View<'_>, Refusal> {
    View::of(safe::view_plain(carried as u64, frame), carried as u64, frame)
}

/// The distance reader's view of an answer frame: as [`view_plain`], and frames of 2 + carried columns as well, of which the last
/// is the distance.
pub fn view_distance(carried: usize, frame: &[i64]) -> Result<View<'_>, Refusal> {
    View::of(safe::view_distance(carried as u64, frame), carried as u64, frame)
}
