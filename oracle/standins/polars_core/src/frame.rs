//! Frames: rows of columns of equal height.
use std::sync::Arc;

use polars_error::{PolarsResult, polars_err};
use polars_utils::pl_str::PlSmallStr;

use crate::chunked_array::{BooleanChunked, IdxCa};
use crate::schema::{Schema, SchemaRef};
use crate::series::Series;
use crate::value::AnyValue;

pub mod builder;

/// How a column is sorted.
#[derive(Clone, Copy, Debug, Default)]
pub struct SortOptions {
    descending: bool,
}

impl SortOptions {
    /// The same in this direction.
    pub fn with_order_descending(self, descending: bool) -> Self {
        Self { descending }
    }
}

/// A column of a frame.
#[derive(Clone, Debug)]
pub struct Column(Series);

impl Column {
    /// The column of these cells.
    pub fn new(name: PlSmallStr, cells: Vec<Option<i64>>) -> Self {
        Self(Series::new(name, cells))
    }

    /// The same cells, which compare by this list of codes.
    pub fn with_list(self, codes: Arc<[i64]>) -> Self {
        Self(self.0.with_list(codes))
    }

    /// Other cells of the same name, which compare as these do.
    fn with_cells(&self, cells: Vec<Option<i64>>) -> Self {
        Self(self.0.with_cells(cells))
    }

    /// Its name.
    pub fn name(&self) -> &PlSmallStr {
        self.0.name()
    }

    /// Its cells.
    pub fn values(&self) -> &[Option<i64>] {
        self.0.values()
    }

    /// Its series.
    pub fn as_materialized_series(&self) -> &Series {
        &self.0
    }

    /// The column as plain numbers, which it is.
    pub fn to_physical_repr(&self) -> Column {
        self.clone()
    }

    /// SCOPE 8.2: the place of the first cell that is not null.
    pub fn first_non_null(&self) -> Option<usize> {
        self.values().iter().position(Option::is_some)
    }

    /// SCOPE 8.6: the place of the last cell that is not null.
    pub fn last_non_null(&self) -> Option<usize> {
        self.values().iter().rposition(Option::is_some)
    }

    /// SCOPE 19: a row with a null bound has no pair; which cells are there.
    pub fn is_not_null(&self) -> BooleanChunked {
        BooleanChunked::new(self.values().iter().map(|cell| Some(cell.is_some())).collect())
    }

    /// The same cells in order, which range_join.rs compares its points with.
    pub fn sort(&self, options: SortOptions) -> PolarsResult<Column> {
        let mut cells = self.values().to_vec();
        cells.sort();
        if options.descending {
            cells.reverse();
        }
        Ok(Column::new(*self.name(), cells))
    }

    /// The value at a place.
    ///
    /// # Safety
    /// Nothing is asked of the caller: the index is checked.
    pub unsafe fn get_unchecked(&self, idx: usize) -> AnyValue<'_> {
        unsafe { self.0.get_unchecked(idx) }
    }

    /// The cells from `offset` on, `len` of them.
    pub fn slice(&self, offset: i64, len: usize) -> Column {
        Column(self.0.slice(offset, len))
    }
}

impl PartialEq for Column {
    /// Equal cells; a null equals a null.
    fn eq(&self, other: &Self) -> bool {
        self.values() == other.values()
    }
}

/// Rows of named columns.
#[derive(Clone, Debug)]
pub struct DataFrame {
    height: usize,
    columns: Vec<Column>,
    schema: SchemaRef,
}

impl DataFrame {
    /// The frame of these columns, all of this height.
    pub fn new(height: usize, columns: Vec<Column>) -> Self {
        let schema = Arc::new(Schema::of_names(columns.iter().map(|c| *c.name())));
        Self::with_schema(height, columns, schema)
    }

    /// The frame of these columns, whose schema is known.
    fn with_schema(height: usize, columns: Vec<Column>, schema: SchemaRef) -> Self {
        assert!(columns.iter().all(|c| c.values().len() == height));
        Self { height, columns, schema }
    }

    /// A frame of this schema without rows.
    pub fn empty_with_schema(schema: &Schema) -> Self {
        Self::empty_with_arc_schema(Arc::new(schema.clone()))
    }

    /// A frame of this shared schema without rows.
    pub fn empty_with_arc_schema(schema: SchemaRef) -> Self {
        let columns = schema.names().map(|n| Column::new(*n, vec![])).collect();
        Self::with_schema(0, columns, schema)
    }

    /// Its rows.
    pub fn height(&self) -> usize {
        self.height
    }

    /// Its schema.
    pub fn schema(&self) -> &SchemaRef {
        &self.schema
    }

    /// Its columns.
    pub fn columns(&self) -> &[Column] {
        &self.columns
    }

    /// Where a column stands.
    fn position(&self, name: &str) -> PolarsResult<usize> {
        let found = self.columns.iter().position(|c| c.name().as_str() == name);
        found.ok_or_else(|| polars_err!(ColumnNotFound: "{name}"))
    }

    /// The column of a name.
    pub fn column(&self, name: &str) -> PolarsResult<&Column> {
        Ok(&self.columns[self.position(name)?])
    }

    /// The frame of these columns alone.
    pub fn select<I, S>(&self, names: I) -> PolarsResult<DataFrame>
    where
        I: IntoIterator<Item = S>,
        S: AsRef<str>,
    {
        let columns = names.into_iter().map(|n| self.column(n.as_ref()).cloned());
        Ok(Self::new(self.height, columns.collect::<PolarsResult<_>>()?))
    }

    /// The rows from `offset` on, `len` of them; out of bounds is a panic, as the join must never ask for it.
    pub fn slice(&self, offset: i64, len: usize) -> DataFrame {
        let columns = self.columns.iter().map(|c| c.slice(offset, len)).collect();
        Self::with_schema(len, columns, self.schema.clone())
    }

    /// Puts another frame's rows below these.
    pub fn vstack_mut_owned(&mut self, other: DataFrame) -> PolarsResult<&mut Self> {
        if self.schema != other.schema {
            return Err(polars_err!(ShapeMismatch: "{:?} {:?}", self.schema, other.schema));
        }
        if self.height == 0 {
            *self = other;
            return Ok(self);
        }
        let both = |(a, b): (&Column, &Column)| a.with_cells([a.values(), b.values()].concat());
        let columns = self.columns.iter().zip(&other.columns).map(both).collect();
        *self = Self::with_schema(self.height + other.height, columns, self.schema.clone());
        Ok(self)
    }

    /// These rows with another frame's below them.
    pub fn vstack(&self, other: &DataFrame) -> PolarsResult<DataFrame> {
        let mut out = self.clone();
        out.vstack_mut_owned(other.clone())?;
        Ok(out)
    }

    /// These columns with another frame's beside them.
    pub fn hstack(&self, other: &DataFrame) -> PolarsResult<DataFrame> {
        if self.height != other.height {
            return Err(polars_err!(ShapeMismatch: "{} {}", self.height, other.height));
        }
        Ok(Self::new(self.height, [&self.columns[..], &other.columns[..]].concat()))
    }

    /// Takes a column out.
    pub fn drop_in_place(&mut self, name: &str) -> PolarsResult<Column> {
        let column = self.columns.remove(self.position(name)?);
        *self = Self::new(self.height, std::mem::take(&mut self.columns));
        Ok(column)
    }

    /// The rows that a mask keeps, in their order.
    pub fn filter(&self, mask: &BooleanChunked) -> PolarsResult<DataFrame> {
        if mask.values().len() != self.height {
            return Err(polars_err!(ShapeMismatch: "{} {}", self.height, mask.values().len()));
        }
        let kept: Vec<usize> = (0..self.height).filter(|i| mask.values()[*i] == Some(true)).collect();
        let pick = |c: &Column| c.with_cells(kept.iter().map(|i| c.values()[*i]).collect());
        let columns = self.columns.iter().map(pick).collect();
        Ok(Self::with_schema(kept.len(), columns, self.schema.clone()))
    }

    /// Makes each column one piece, which it is.
    pub fn rechunk_mut_par(&mut self) -> &mut Self {
        self
    }

    /// SCOPE 12.5: the row of each index, a row of nulls where it is null.
    pub fn take(&self, idx: &IdxCa) -> PolarsResult<DataFrame> {
        let pick = |c: &Column| {
            let cell = |i: &Option<u32>| i.and_then(|i| c.values()[i as usize]);
            c.with_cells(idx.values().iter().map(cell).collect())
        };
        let columns = self.columns.iter().map(pick).collect();
        Ok(Self::with_schema(idx.values().len(), columns, self.schema.clone()))
    }

    /// As `take`.
    ///
    /// # Safety
    /// Nothing is asked of the caller: the indices are checked.
    pub unsafe fn take_unchecked(&self, idx: &IdxCa) -> DataFrame {
        self.take(idx).unwrap()
    }
}
