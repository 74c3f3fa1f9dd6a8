//! One cell's value.
use std::cmp::Ordering;

use polars_utils::nulls::IsNull;

/// A cell's value: null, a number, a number of a column with a list, behind its place there, or the bytes of an encoded
/// row.
#[derive(Clone, Debug)]
pub enum AnyValue<'a> {
    Null,
    Int64(i64),
    Ranked(usize, i64),
    Binary(&'a [u8]),
}

impl AnyValue<'_> {
    /// Whether it is null.
    pub fn is_null(&self) -> bool {
        matches!(self, AnyValue::Null)
    }
}

impl IsNull for AnyValue<'_> {
    /// Whether it is null, for `reorder_cmp`.
    fn is_null(&self) -> bool {
        AnyValue::is_null(self)
    }
}

impl PartialEq for AnyValue<'_> {
    /// SCOPE 4.1: a null equals a null.
    fn eq(&self, other: &Self) -> bool {
        self.partial_cmp(other) == Some(Ordering::Equal)
    }
}

impl PartialOrd for AnyValue<'_> {
    /// SCOPE 4.3 and 7.7: keys ascend, nulls first. SCOPE 4.9: by place in a list; those that it lacks have one place,
    /// and compare by number.
    fn partial_cmp(&self, other: &Self) -> Option<Ordering> {
        use AnyValue::*;
        match (self, other) {
            (Null, Null) => Some(Ordering::Equal),
            (Null, _) => Some(Ordering::Less),
            (_, Null) => Some(Ordering::Greater),
            (Int64(a), Int64(b)) => Some(a.cmp(b)),
            (Ranked(p, a), Ranked(q, b)) => Some((p, a).cmp(&(q, b))),
            (Binary(a), Binary(b)) => Some(a.cmp(b)),
            _ => unreachable!("values of two types compared"),
        }
    }
}

/// A value that stands alone; the join's tolerance is one.
#[derive(Clone, Debug)]
pub struct Scalar(AnyValue<'static>);

impl Scalar {
    /// A number.
    pub fn from_i64(value: i64) -> Self {
        Self(AnyValue::Int64(value))
    }

    /// Its value.
    pub fn into_value(self) -> AnyValue<'static> {
        self.0
    }
}
