//! Stand-in: a frame that never spills and is registered nowhere. Spilling stays out of SCOPE.
use std::ops::{Deref, DerefMut};

use polars_core::frame::DataFrame;

/// A frame that the real crate could move to disk.
#[derive(Debug)]
pub struct SpillFrame(DataFrame);

/// Where a frame would be registered; none ever is.
pub struct SpillContext;

/// How a frame would be registered; none ever is.
pub struct SpillParam;

impl SpillContext {
    /// Registers nothing: no `SpillContext` is ever handed out.
    pub fn register(&self, _frame: &SpillFrame, _param: SpillParam) {}
}

/// A frame lent for reading.
pub struct PinnedRef<'a, T>(&'a T);

impl<T> Deref for PinnedRef<'_, T> {
    type Target = T;

    /// The lent frame.
    fn deref(&self) -> &T {
        self.0
    }
}

/// A frame lent for changing.
pub struct PinnedFrameMut<'a>(&'a mut DataFrame);

impl Deref for PinnedFrameMut<'_> {
    type Target = DataFrame;

    /// The lent frame.
    fn deref(&self) -> &DataFrame {
        self.0
    }
}

impl DerefMut for PinnedFrameMut<'_> {
    /// The lent frame, to change.
    fn deref_mut(&mut self) -> &mut DataFrame {
        self.0
    }
}

impl SpillFrame {
    /// A frame, registered nowhere.
    pub fn new_unregistered(df: DataFrame) -> Self {
        Self(df)
    }

    /// The frame's rows.
    pub fn height(&self) -> usize {
        self.0.height()
    }

    /// What it was registered with: nothing.
    pub fn unregister(&mut self) -> Option<(SpillContext, SpillParam)> {
        None
    }

    /// The frame itself.
    pub async fn into_df(self) -> DataFrame {
        self.0
    }

    /// The frame itself, without waiting.
    pub fn into_df_blocking(self) -> DataFrame {
        self.0
    }

    /// The frame, lent for reading.
    pub async fn get(&self) -> PinnedRef<'_, DataFrame> {
        PinnedRef(&self.0)
    }

    /// The frame, lent for reading, without waiting.
    pub fn get_blocking(&self) -> PinnedRef<'_, DataFrame> {
        PinnedRef(&self.0)
    }

    /// The frame, lent for changing.
    pub async fn get_mut(&mut self) -> PinnedFrameMut<'_> {
        PinnedFrameMut(&mut self.0)
    }

    /// The frame, lent for changing, without waiting.
    pub fn get_mut_blocking(&mut self) -> PinnedFrameMut<'_> {
        PinnedFrameMut(&mut self.0)
    }
}
