//! Stand-in: frames of named columns of 64-bit numbers with nulls. SCOPE 2; here a
//! cell is `Some` or `None`.

pub mod chunked_array;
pub mod frame;
pub mod schema;
pub mod series;
pub mod utils;
pub mod value;

pub mod prelude {
    pub use polars_error::{PolarsError, PolarsResult, polars_err};
    pub use polars_utils::pl_str::PlSmallStr;

    pub use crate::chunked_array::{
        BinaryOffsetChunked, BinaryOffsetType, BooleanChunked, ChunkedArray, IdxCa, IdxSize, IdxType, row_encode,
    };
    pub use crate::frame::{Column, DataFrame, SortOptions};
    pub use crate::schema::{DataType, Schema, SchemaRef};
    pub use crate::series::Series;
    pub use crate::value::{AnyValue, Scalar};
}
