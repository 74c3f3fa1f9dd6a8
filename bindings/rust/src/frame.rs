//! Frames: rows as the words that a call takes.
use alloc::vec;
use alloc::vec::Vec;
use core::fmt;
use core::iter::FusedIterator;
use core::ops::Deref;

use crate::raw::MOST_ROWS;

/// The words of some rows, kept by the frame rule: the number of rows and of columns, all values, all marks.
#[derive(Clone, Debug, PartialEq, Eq)]
pub struct Frame {
    words: Vec<i64>,
}

/// Why rows or columns make no frame.
#[derive(Clone, Copy, Debug, PartialEq, Eq)]
#[non_exhaustive]
pub enum FrameError {
    /// There are more than 4,096 rows.
    TooManyRows,
    /// A row has another number of columns than was said.
    OtherColumns,
    /// A column, or the marks of one, has another number of rows than the first column.
    OtherRows,
}

/// A column of a table: a value for each row, and marks that tell which of them are null.
///
/// Slices, arrays and vectors of values are columns without nulls.
#[derive(Clone, Copy, Debug, PartialEq, Eq)]
pub struct Column<'a> {
    values: &'a [i64],
    marks: Option<&'a [bool]>,
}

impl<'a> Column<'a> {
    /// A column without nulls.
    pub const fn new(values: &'a [i64]) -> Column<'a> {
        Column { values, marks: None }
    }

    /// A column with a mark for each value: true if the value is present, false if it is null. What stands in the place of
    /// a null is not read.
    pub const fn with_marks(values: &'a [i64], marks: &'a [bool]) -> Column<'a> {
        Column { values, marks: Some(marks) }
    }

    /// Whether there are so many values, and as many marks if there are marks.
    fn has_rows(&self, rows: usize) -> bool {
        self.values.len() == rows && self.marks.is_none_or(|marks| marks.len() == rows)
    }

    /// The column from one row up to another, which it has.
    fn part(&self, from: usize, to: usize) -> Column<'a> {
        Column { values: &self.values[from..to], marks: self.marks.map(|marks| &marks[from..to]) }
    }

    /// Writes the column to its places in a frame's values and marks: the first cell of each, then every so many words.
    /// The marks are all 1 before.
    fn write(&self, columns: usize, values: &mut [i64], marks: &mut [i64]) {
        values.iter_mut().step_by(columns).zip(self.values).for_each(|(cell, value)| *cell = *value);
        let cells = values.iter_mut().zip(marks).step_by(columns);
        for ((value, mark), present) in cells.zip(self.marks.unwrap_or_default()) {
            if !present {
                (*value, *mark) = (0, 0);
            }
        }
    }
}

impl<'a> From<&'a [i64]> for Column<'a> {
    /// The column of these values.
    fn from(values: &'a [i64]) -> Column<'a> {
        Column::new(values)
    }
}

impl<'a, const N: usize> From<&'a [i64; N]> for Column<'a> {
    /// The column of these values.
    fn from(values: &'a [i64; N]) -> Column<'a> {
        Column::new(values)
    }
}

impl<'a> From<&'a Vec<i64>> for Column<'a> {
    /// The column of these values.
    fn from(values: &'a Vec<i64>) -> Column<'a> {
        Column::new(values)
    }
}

/// The length of columns that all have one.
fn rows_of<'a>(mut columns: impl Iterator<Item = Column<'a>> + Clone) -> Result<usize, FrameError> {
    let rows = columns.clone().next().map_or(0, |column| column.values.len());
    match columns.all(|column| column.has_rows(rows)) {
        true => Ok(rows),
        false => Err(FrameError::OtherRows),
    }
}

impl Frame {
    /// The frame of these rows: by-values in order, the key, and of right rows what they carry; `None` is a null.
    pub fn new<R: AsRef<[Option<i64>]>>(columns: usize, rows: &[R]) -> Result<Frame, FrameError> {
        if rows.len() > MOST_ROWS {
            return Err(FrameError::TooManyRows);
        } else if rows.iter().any(|row| row.as_ref().len() != columns) {
            return Err(FrameError::OtherColumns);
        }
        let cells = || rows.iter().flat_map(|row| row.as_ref());
        let mut words = vec![rows.len() as i64, columns as i64];
        words.extend(cells().map(|cell| cell.unwrap_or(0)));
        words.extend(cells().map(|cell| cell.is_some() as i64));
        Ok(Frame { words })
    }

    /// The frame of rows that are a key alone, for a join without by-columns.
    pub fn of_keys(keys: &[i64]) -> Result<Frame, FrameError> {
        Frame::of_columns(&[keys])
    }

    /// The frame of these columns: the by-columns in order, the key, and of right rows the carried columns, all of one length.
    /// [`Frames`] cuts longer ones.
    ///
    /// ```
    /// use rowkeeper::{Column, Frame};
    ///
    /// let (performances, minutes) = (vec![7, 7, 8], vec![12, 15, 3]);
    /// let frame = Frame::of_columns(&[&performances, &minutes])?;
    /// assert_eq!(frame, Frame::new(2, &[[Some(7), Some(12)], [Some(7), Some(15)], [Some(8), Some(3)]])?);
    ///
    /// // The minute of the second row is not known.
    /// let known = Column::with_marks(&minutes, &[true, false, true]);
    /// let frame = Frame::of_columns(&[Column::new(&performances), known])?;
    /// assert_eq!(frame, Frame::new(2, &[[Some(7), Some(12)], [Some(7), None], [Some(8), Some(3)]])?);
    /// # Ok::<(), rowkeeper::FrameError>(())
    /// ```
    pub fn of_columns<'a, C: Into<Column<'a>> + Copy>(columns: &[C]) -> Result<Frame, FrameError> {
        let each = columns.iter().map(|column| (*column).into());
        match rows_of(each.clone())? {
            rows if rows > MOST_ROWS => Err(FrameError::TooManyRows),
            rows => Ok(Frame::of_part(each, 0, rows)),
        }
    }

    /// The frame of these values and marks, row by row, as a table has them; not more rows than a frame can have.
    pub(crate) fn of_words(columns: usize, values: &[i64], marks: &[i64]) -> Frame {
        let mut words = vec![(values.len() / columns) as i64, columns as i64];
        words.extend_from_slice(values);
        words.extend_from_slice(marks);
        Frame { words }
    }

    /// The frame of these columns from one row up to another, which they all have; not more rows than a frame can have.
    fn of_part<'a>(columns: impl ExactSizeIterator<Item = Column<'a>>, from: usize, to: usize) -> Frame {
        let (rows, count) = (to - from, columns.len());
        let mut words = vec![1; 2 + 2 * rows * count];
        (words[0], words[1]) = (rows as i64, count as i64);
        let (values, marks) = words[2..].split_at_mut(rows * count);
        for (place, column) in columns.enumerate().take_while(|_| rows > 0) {
            column.part(from, to).write(count, &mut values[place..], &mut marks[place..]);
        }
        Frame { words }
    }
}

impl Deref for Frame {
    type Target = [i64];

    /// Its words.
    fn deref(&self) -> &[i64] {
        &self.words
    }
}

impl AsRef<[i64]> for Frame {
    /// Its words.
    fn as_ref(&self) -> &[i64] {
        &self.words
    }
}

/// The frames of a table that is given by columns, of 4,096 rows each, save the last: an iterator that makes each frame when
/// it is asked for.
///
/// ```
/// use rowkeeper::Frames;
///
/// let minutes: Vec<i64> = (0..10_000).collect();
/// let rows: Vec<i64> = Frames::of_columns(&[&minutes])?.map(|frame| frame[0]).collect();
/// assert_eq!(rows, [4096, 4096, 1808]);
/// # Ok::<(), rowkeeper::FrameError>(())
/// ```
#[derive(Clone, Debug)]
pub struct Frames<'a> {
    columns: Vec<Column<'a>>,
    from: usize,
    rows: usize,
}

impl<'a> Frames<'a> {
    /// The frames of these columns: the by-columns in order, the key, and of right rows the carried columns, all of one length,
    /// whatever it is.
    pub fn of_columns<C: Into<Column<'a>> + Copy>(columns: &[C]) -> Result<Frames<'a>, FrameError> {
        let columns: Vec<Column<'a>> = columns.iter().map(|column| (*column).into()).collect();
        let rows = rows_of(columns.iter().copied())?;
        Ok(Frames { columns, from: 0, rows })
    }
}

impl Iterator for Frames<'_> {
    type Item = Frame;

    /// The next frame.
    fn next(&mut self) -> Option<Frame> {
        let (from, to) = (self.from, self.rows.min(self.from + MOST_ROWS));
        self.from = to;
        (from < to).then(|| Frame::of_part(self.columns.iter().copied(), from, to))
    }

    /// How many are left.
    fn size_hint(&self) -> (usize, Option<usize>) {
        let left = (self.rows - self.from).div_ceil(MOST_ROWS);
        (left, Some(left))
    }
}

impl ExactSizeIterator for Frames<'_> {}

impl FusedIterator for Frames<'_> {}

impl fmt::Display for FrameError {
    /// What is wrong with the rows.
    fn fmt(&self, f: &mut fmt::Formatter<'_>) -> fmt::Result {
        match self {
            FrameError::TooManyRows => write!(f, "a frame has at most {MOST_ROWS} rows"),
            FrameError::OtherColumns => write!(f, "a row has another number of columns"),
            FrameError::OtherRows => {
                write!(f, "a column, or its marks, has another number of rows than the first column")
            },
        }
    }
}

impl core::error::Error for FrameError {}
