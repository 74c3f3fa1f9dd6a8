//! Typed arrays with nulls: the encoded rows of several by-columns, the indices of rows, and masks of rows.
use std::fmt::Debug;
use std::ops::BitAnd;

use polars_utils::pl_str::PlSmallStr;

use crate::value::AnyValue;

/// A row index.
pub type IdxSize = u32;

/// What an array of this type holds.
pub trait PolarsDataType {
    type Owned: Clone + Debug + PartialEq;
}

/// Arrays of bytes.
#[derive(Clone, Debug)]
pub struct BinaryOffsetType;

/// Arrays of row indices.
#[derive(Clone, Debug)]
pub struct IdxType;

/// Arrays of yes and no.
#[derive(Clone, Debug)]
pub struct BooleanType;

impl PolarsDataType for BooleanType {
    type Owned = bool;
}

impl PolarsDataType for BinaryOffsetType {
    type Owned = Vec<u8>;
}

impl PolarsDataType for IdxType {
    type Owned = IdxSize;
}

/// An array with nulls.
#[derive(Clone, Debug)]
pub struct ChunkedArray<T: PolarsDataType>(Vec<Option<T::Owned>>);

/// An array of bytes.
pub type BinaryOffsetChunked = ChunkedArray<BinaryOffsetType>;

/// An array of row indices.
pub type IdxCa = ChunkedArray<IdxType>;

/// A mask of rows.
pub type BooleanChunked = ChunkedArray<BooleanType>;

impl<T: PolarsDataType> ChunkedArray<T> {
    /// The array of these values.
    pub fn new(values: Vec<Option<T::Owned>>) -> Self {
        Self(values)
    }

    /// Its values.
    pub fn values(&self) -> &[Option<T::Owned>] {
        &self.0
    }
}

impl ChunkedArray<IdxType> {
    /// The array of these indices, none of them null; its name is not kept.
    pub fn new_vec(_name: PlSmallStr, indices: Vec<IdxSize>) -> Self {
        Self(indices.into_iter().map(Some).collect())
    }

    /// How many indices it has.
    pub fn len(&self) -> usize {
        self.0.len()
    }

    /// Whether it has none.
    pub fn is_empty(&self) -> bool {
        self.0.is_empty()
    }

    /// Its indices; a null is a panic, as range_join.rs must never ask for it.
    pub fn into_no_null_iter(&self) -> impl Iterator<Item = IdxSize> {
        self.0.iter().map(|i| i.unwrap())
    }
}

impl BitAnd for ChunkedArray<BooleanType> {
    type Output = Self;

    /// The rows that both masks keep; neither has a null.
    fn bitand(self, other: Self) -> Self {
        assert_eq!(self.0.len(), other.0.len());
        let both = |(a, b): (Option<bool>, Option<bool>)| Some(a.unwrap() && b.unwrap());
        Self(self.0.into_iter().zip(other.0).map(both).collect())
    }
}

impl ChunkedArray<BinaryOffsetType> {
    /// The bytes at a place, or none where null.
    ///
    /// # Safety
    /// Nothing is asked of the caller: the index is checked.
    pub unsafe fn get_unchecked(&self, idx: usize) -> Option<&[u8]> {
        self.0[idx].as_deref()
    }

    /// The bytes at a place that is not null; the as-of join never asks for it.
    ///
    /// # Safety
    /// Nothing is asked of the caller: the index is checked.
    pub unsafe fn get_any_value_bypass_validity(&self, idx: usize) -> AnyValue<'_> {
        AnyValue::Binary(self.0[idx].as_deref().unwrap())
    }
}

pub mod row_encode {
    use polars_error::PolarsResult;
    use polars_utils::pl_str::PlSmallStr;

    use super::BinaryOffsetChunked;
    use crate::frame::Column;
    use crate::value::AnyValue;

    /// SCOPE 4.2 and 4.9: one value as bytes that compare like it: a number, or a place in a list and then the number.
    fn encode_value(value: AnyValue<'_>, descending: bool) -> impl Iterator<Item = u8> {
        let number = |value: i64| (value as u64) ^ (1 << 63);
        let words = match value {
            AnyValue::Int64(value) => vec![number(value)],
            AnyValue::Ranked(place, value) => vec![place as u64, number(value)],
            AnyValue::Null | AnyValue::Binary(_) => unreachable!("no number is encoded"),
        };
        words.into_iter().flat_map(move |word| (if descending { !word } else { word }).to_be_bytes())
    }

    /// SCOPE 4.6 and 4.7 (`broadcast_nulls`): each row of the by-columns as bytes that compare like it, or none for a null
    /// group.
    pub fn _get_rows_encoded_ca(
        _name: PlSmallStr,
        by: &[Column],
        descending: &[bool],
        nulls_last: &[bool],
        broadcast_nulls: bool,
    ) -> PolarsResult<BinaryOffsetChunked> {
        assert!(by.len() == descending.len() && by.len() == nulls_last.len());
        let height = by.first().map_or(0, |c| c.values().len());
        let row = |i: usize| {
            let mut bytes = Vec::with_capacity(17 * by.len());
            for ((col, desc), last) in by.iter().zip(descending).zip(nulls_last) {
                match unsafe { col.get_unchecked(i) } {
                    AnyValue::Null if broadcast_nulls => return None,
                    AnyValue::Null => bytes.extend([if *last { 2 } else { 0 }; 9]),
                    value => {
                        bytes.push(1);
                        bytes.extend(encode_value(value, *desc));
                    },
                }
            }
            Some(bytes)
        };
        Ok(BinaryOffsetChunked::new((0..height).map(row).collect()))
    }
}
