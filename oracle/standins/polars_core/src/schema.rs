//! Names and types of a frame's columns. Names stay out of SCOPE; every type is `Int64`.
use std::sync::Arc;

use polars_error::{PolarsResult, polars_err};
use polars_utils::pl_str::PlSmallStr;

/// The type of a column: whole numbers are all that SCOPE keeps.
#[derive(Clone, Debug, PartialEq)]
pub enum DataType {
    Int64,
}

/// The columns' names and types, in order.
#[derive(Clone, Debug, PartialEq, Default)]
pub struct Schema(Vec<(PlSmallStr, DataType)>);

/// A shared schema.
pub type SchemaRef = Arc<Schema>;

impl Schema {
    /// The schema of number columns of these names.
    pub fn of_names(names: impl IntoIterator<Item = PlSmallStr>) -> Self {
        Self(names.into_iter().map(|n| (n, DataType::Int64)).collect())
    }

    /// The type of a column, if it is there.
    pub fn get(&self, name: &str) -> Option<&DataType> {
        self.0.iter().find(|(n, _)| n.as_str() == name).map(|(_, t)| t)
    }

    /// Whether a column is there.
    pub fn contains(&self, name: &str) -> bool {
        self.get(name).is_some()
    }

    /// All names, in order.
    pub fn names(&self) -> impl Iterator<Item = &PlSmallStr> {
        self.0.iter().map(|(n, _)| n)
    }

    /// The schema of these columns alone.
    pub fn try_project<I, S>(&self, columns: I) -> PolarsResult<Self>
    where
        I: IntoIterator<Item = S>,
        S: AsRef<str>,
    {
        let find = |c: S| {
            let found = self.0.iter().find(|(n, _)| n.as_str() == c.as_ref());
            found.cloned().ok_or_else(|| polars_err!(ColumnNotFound: "{}", c.as_ref()))
        };
        columns.into_iter().map(find).collect::<PolarsResult<_>>().map(Self)
    }
}
