//! Stand-in: the helpers of polars_utils that the files use.

pub mod pl_str {
    use std::ops::Deref;

    /// A column's name. Names stay out of SCOPE; the driver's are all fixed.
    #[derive(Clone, Copy, Debug, Default, PartialEq, Eq, PartialOrd, Ord, Hash)]
    pub struct PlSmallStr(&'static str);

    impl PlSmallStr {
        /// No name.
        pub const EMPTY: Self = Self("");

        /// A fixed name.
        pub const fn from_static(s: &'static str) -> Self {
            Self(s)
        }

        /// The name as text.
        pub fn as_str(&self) -> &str {
            self.0
        }
    }

    impl Deref for PlSmallStr {
        type Target = str;

        /// The name as text.
        fn deref(&self) -> &str {
            self.0
        }
    }

    impl AsRef<str> for PlSmallStr {
        /// The name as text.
        fn as_ref(&self) -> &str {
            self.0
        }
    }
}

pub mod nulls {
    /// Values that may be null.
    pub trait IsNull {
        /// Whether it is null.
        fn is_null(&self) -> bool;
    }

    impl<T> IsNull for Option<T> {
        /// None is null.
        fn is_null(&self) -> bool {
            self.is_none()
        }
    }
}

pub mod sort {
    use std::cmp::Ordering;

    use crate::nulls::IsNull;

    /// SCOPE 4.1 and 4.2: two cells of one column.
    pub fn reorder_cmp<T: IsNull + PartialOrd>(a: &T, b: &T, descending: bool, nulls_last: bool) -> Ordering {
        match (a.is_null(), b.is_null()) {
            (true, true) => Ordering::Equal,
            (true, false) if nulls_last => Ordering::Greater,
            (true, false) => Ordering::Less,
            (false, true) if nulls_last => Ordering::Less,
            (false, true) => Ordering::Greater,
            (false, false) => {
                let ord = a.partial_cmp(b).unwrap();
                if descending { ord.reverse() } else { ord }
            },
        }
    }
}

pub mod range {
    use std::ops::{Bound, Range, RangeBounds, RangeTo};

    /// SCOPE 6.1: the range with both ends told; one out of bounds is a panic, as the join must
    /// never ask for it.
    pub fn check_range<R: RangeBounds<usize>>(range: R, bounds: RangeTo<usize>) -> Range<usize> {
        let start = match range.start_bound() {
            Bound::Included(x) => *x,
            Bound::Excluded(x) => x + 1,
            Bound::Unbounded => 0,
        };
        let end = match range.end_bound() {
            Bound::Included(x) => x + 1,
            Bound::Excluded(x) => *x,
            Bound::Unbounded => bounds.end,
        };
        assert!(start <= end && end <= bounds.end, "range {start}..{end} out of ..{}", bounds.end);
        start..end
    }
}

pub mod itertools {
    /// The one iterator method that the files add.
    pub trait Itertools: Iterator {
        /// All items in a vector.
        fn collect_vec(self) -> Vec<Self::Item>
        where
            Self: Sized,
        {
            self.collect()
        }
    }

    impl<I: Iterator + ?Sized> Itertools for I {}
}

pub mod scratch_vec {
    /// A vector that is used again and again.
    pub struct ScratchVec<T>(Vec<T>);

    impl<T> Default for ScratchVec<T> {
        /// An empty one.
        fn default() -> Self {
            Self(Vec::new())
        }
    }

    impl<T> ScratchVec<T> {
        /// The vector, emptied.
        pub fn get(&mut self) -> &mut Vec<T> {
            self.0.clear();
            &mut self.0
        }
    }
}

pub mod priority {
    use std::cmp::Ordering;

    /// A value with a rank; the rank alone is compared.
    pub struct Priority<P, V>(pub P, pub V);

    impl<P: PartialEq, V> PartialEq for Priority<P, V> {
        /// Equal rank.
        fn eq(&self, other: &Self) -> bool {
            self.0 == other.0
        }
    }

    impl<P: Eq, V> Eq for Priority<P, V> {}

    impl<P: Ord, V> PartialOrd for Priority<P, V> {
        /// By rank.
        fn partial_cmp(&self, other: &Self) -> Option<Ordering> {
            Some(self.cmp(other))
        }
    }

    impl<P: Ord, V> Ord for Priority<P, V> {
        /// By rank.
        fn cmp(&self, other: &Self) -> Ordering {
            self.0.cmp(&other.0)
        }
    }
}

pub mod relaxed_cell {
    use std::cell::Cell;

    /// A number that several tasks share; there is one thread only, so a cell.
    #[derive(Default, Debug)]
    pub struct RelaxedCell<T: Copy>(Cell<T>);

    impl<T: Copy> RelaxedCell<T> {
        /// What it holds.
        pub fn load(&self) -> T {
            self.0.get()
        }

        /// Sets what it holds.
        pub fn store(&self, value: T) {
            self.0.set(value)
        }
    }

    impl RelaxedCell<u64> {
        /// Adds to it and gives what it held.
        pub fn fetch_add(&self, value: u64) -> u64 {
            self.0.replace(self.0.get() + value)
        }

        /// Raises it to a value and gives what it held.
        pub fn fetch_max(&self, value: u64) -> u64 {
            self.0.replace(self.0.get().max(value))
        }
    }
}
