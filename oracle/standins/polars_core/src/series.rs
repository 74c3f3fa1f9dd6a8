//! One column's cells under a name.
use std::ops::Range;
use std::sync::Arc;

use polars_error::{PolarsResult, polars_err};
use polars_utils::pl_str::PlSmallStr;

use crate::chunked_array::BinaryOffsetChunked;
use crate::value::AnyValue;

/// A name and a part of shared cells, so that a slice copies nothing. With a list its values compare by their places in
/// it, and stay the numbers that they are: the list belongs to the column, as an enumeration's categories do.
#[derive(Clone, Debug)]
pub struct Series {
    name: PlSmallStr,
    cells: Arc<Vec<Option<i64>>>,
    part: Range<usize>,
    list: Option<Arc<[i64]>>,
}

impl Series {
    /// The series of these cells.
    pub fn new(name: PlSmallStr, cells: Vec<Option<i64>>) -> Self {
        let part = 0..cells.len();
        Self { name, cells: Arc::new(cells), part, list: None }
    }

    /// The same cells, which compare by this list of codes.
    pub fn with_list(self, codes: Arc<[i64]>) -> Self {
        Self { list: Some(codes), ..self }
    }

    /// Other cells of the same name, which compare as these do.
    pub fn with_cells(&self, cells: Vec<Option<i64>>) -> Self {
        Self { list: self.list.clone(), ..Self::new(self.name, cells) }
    }

    /// Its name.
    pub fn name(&self) -> &PlSmallStr {
        &self.name
    }

    /// Its cells.
    pub fn values(&self) -> &[Option<i64>] {
        &self.cells[self.part.clone()]
    }

    /// How many cells it has.
    pub fn len(&self) -> usize {
        self.part.len()
    }

    /// Whether it has none.
    pub fn is_empty(&self) -> bool {
        self.part.is_empty()
    }

    /// The cells from `offset` on, `len` of them; out of bounds is a panic, as the join must never ask for it.
    pub fn slice(&self, offset: i64, len: usize) -> Series {
        let offset = usize::try_from(offset).unwrap();
        assert!(offset + len <= self.len(), "slice {offset}+{len} of {}", self.len());
        let start = self.part.start + offset;
        Self { part: start..start + len, ..self.clone() }
    }

    /// SCOPE 4.9: a number as it compares here: with a list by its place there, the list's length where that lacks it.
    fn any_value(&self, number: i64) -> AnyValue<'static> {
        let Some(codes) = &self.list else { return AnyValue::Int64(number) };
        let place = codes.iter().position(|code| *code == number);
        AnyValue::Ranked(place.unwrap_or(codes.len()), number)
    }

    /// The value at a place.
    ///
    /// # Safety
    /// Nothing is asked of the caller: the index is checked.
    pub unsafe fn get_unchecked(&self, idx: usize) -> AnyValue<'_> {
        self.values()[idx].map_or(AnyValue::Null, |number| self.any_value(number))
    }

    /// The series as encoded rows, which it never is; the as-of join never asks for it.
    pub fn binary_offset(&self) -> PolarsResult<&BinaryOffsetChunked> {
        Err(polars_err!(InvalidOperation: "column {} is not binary", self.name.as_str()))
    }
}
