//! Helpers over frames.
use crate::frame::DataFrame;

/// asof_join.rs names this trait; what it calls on frames is their own here.
pub trait Container {}

impl Container for DataFrame {}

/// All frames' rows, one below the other.
pub fn accumulate_dataframes_vertical_unchecked(dfs: impl IntoIterator<Item = DataFrame>) -> DataFrame {
    let mut dfs = dfs.into_iter();
    let mut acc = dfs.next().unwrap();
    for df in dfs {
        acc.vstack_mut_owned(df).unwrap();
    }
    acc
}
