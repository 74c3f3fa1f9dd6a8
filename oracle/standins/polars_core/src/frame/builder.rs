//! Frames made of copied rows. Each side's rows of a pair are copied, so numbers among their columns tell
//! which rows met.
use arrow::array::builder::ShareStrategy;

use crate::frame::{Column, DataFrame};
use crate::schema::SchemaRef;

/// The rows copied so far, column by column.
pub struct DataFrameBuilder {
    schema: SchemaRef,
    columns: Vec<Vec<Option<i64>>>,
    height: usize,
}

impl DataFrameBuilder {
    /// No rows of this schema.
    pub fn new(schema: SchemaRef) -> Self {
        let columns = schema.names().map(|_| vec![]).collect();
        Self { schema, columns, height: 0 }
    }

    /// How many rows it has.
    pub fn len(&self) -> usize {
        self.height
    }

    /// Whether it has none.
    pub fn is_empty(&self) -> bool {
        self.height == 0
    }

    /// Copies `length` rows of a frame of the same schema, from `start` on.
    pub fn subslice_extend(&mut self, other: &DataFrame, start: usize, length: usize, share: ShareStrategy) {
        self.subslice_extend_repeated(other, start, length, 1, share);
    }

    /// The same so many times, one after the other.
    pub fn subslice_extend_repeated(
        &mut self,
        other: &DataFrame,
        start: usize,
        length: usize,
        repeats: usize,
        _share: ShareStrategy,
    ) {
        assert_eq!(&self.schema, other.schema());
        for (cells, column) in self.columns.iter_mut().zip(other.columns()) {
            let part = &column.values()[start..start + length];
            cells.extend(std::iter::repeat_n(part, repeats).flatten());
        }
        self.height += length * repeats;
    }

    /// The frame of the rows so far; none are left.
    pub fn freeze_reset(&mut self) -> DataFrame {
        let cells = self.columns.iter_mut().map(std::mem::take);
        let columns = self.schema.names().zip(cells).map(|(name, cells)| Column::new(*name, cells)).collect();
        DataFrame::new(std::mem::take(&mut self.height), columns)
    }
}
