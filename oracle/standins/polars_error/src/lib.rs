//! Stand-in: the errors that the join and these stand-ins make.
use std::fmt;

/// What went wrong; the join itself makes only `InvalidOperation`, for rows out of order.
#[derive(Debug, Clone, PartialEq)]
pub enum PolarsError {
    InvalidOperation(String),
    ColumnNotFound(String),
    ShapeMismatch(String),
}

impl fmt::Display for PolarsError {
    /// The error as its debug text, for panics of the driver.
    fn fmt(&self, f: &mut fmt::Formatter<'_>) -> fmt::Result {
        fmt::Debug::fmt(self, f)
    }
}

impl std::error::Error for PolarsError {}

/// The result that every fallible function of the files gives.
pub type PolarsResult<T> = Result<T, PolarsError>;

/// Makes an error of a kind from a format and its arguments.
#[macro_export]
macro_rules! polars_err {
    ($kind:ident: $($arg:tt)*) => { $crate::PolarsError::$kind(format!($($arg)*)) };
}
