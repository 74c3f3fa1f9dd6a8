//! Stand-in: the functions whose meaning SCOPE gives in sections 4, 9 and 10, and in 19 for `search_sorted`.

pub mod series {
    use polars_core::prelude::*;

    /// The lengths of the runs of equal neighbours.
    fn lengths<T: PartialEq>(values: &[T], out: &mut Vec<IdxSize>) {
        out.clear();
        out.extend(values.chunk_by(|a, b| a == b).map(|run| run.len() as IdxSize));
    }

    /// SCOPE 9.1: runs of equal groups, for one by-column.
    pub fn rle_lengths(col: &Column, out: &mut Vec<IdxSize>) -> PolarsResult<()> {
        lengths(col.values(), out);
        Ok(())
    }

    /// SCOPE 9.1 for several by-columns, encoded.
    pub fn rle_lengths_helper_ca(ca: &ChunkedArray<BinaryOffsetType>, out: &mut Vec<IdxSize>) {
        lengths(ca.values(), out);
    }

    /// On which side of equal points a search ends.
    #[derive(Clone, Copy, Debug)]
    pub enum SearchSortedSide {
        Left,
        Right,
    }

    impl SearchSortedSide {
        /// The other side; range_join.rs asks for it where points descend.
        pub fn flip(self) -> Self {
            match self {
                Self::Left => Self::Right,
                Self::Right => Self::Left,
            }
        }
    }

    /// SCOPE 19.7: Left is the first point at or above a value, Right the first above it; where there is none, the end of the
    /// points. Which side a bound takes is range_join.rs's own. SCOPE knows no descending points, and drops a null
    /// bound before.
    pub fn search_sorted(
        points: &Series,
        bounds: &Series,
        side: SearchSortedSide,
        descending: bool,
    ) -> PolarsResult<IdxCa> {
        assert!(!descending, "SCOPE 19 is ascending only");
        let first = |bound: i64| {
            let found = points.values().iter().map(|p| p.expect("a point is not null")).position(|p| match side {
                SearchSortedSide::Left => p >= bound,
                SearchSortedSide::Right => p > bound,
            });
            found.unwrap_or(points.len()) as IdxSize
        };
        let bounds = bounds.values().iter().map(|b| b.expect("a null bound drops the row before"));
        Ok(IdxCa::new_vec(PlSmallStr::EMPTY, bounds.map(first).collect()))
    }
}

pub mod frame {
    use polars_core::prelude::*;

    /// SCOPE 3.1: the strategies.
    #[derive(Clone, Copy, Debug, PartialEq)]
    pub enum AsofStrategy {
        Backward,
        Forward,
        Nearest,
    }

    /// SCOPE 3: strategy, tolerance, by-columns, equality and order check.
    #[derive(Clone, Debug)]
    pub struct AsOfOptions {
        pub strategy: AsofStrategy,
        pub tolerance: Option<Scalar>,
        pub left_by: Option<Vec<PlSmallStr>>,
        pub right_by: Option<Vec<PlSmallStr>>,
        pub allow_eq: bool,
        pub check_sortedness: bool,
    }

    /// The kinds of join; the node unpacks the as-of one.
    #[derive(Clone, Debug)]
    pub enum JoinType {
        Inner,
        AsOf(Box<AsOfOptions>),
    }

    /// SCOPE 19: how the left side's value stands to the right side's.
    #[derive(Clone, Copy, Debug)]
    pub enum InequalityOperator {
        Lt,
        LtEq,
        Gt,
        GtEq,
    }

    /// The comparisons of a join by one or two of them.
    #[derive(Clone, Debug)]
    pub struct IEJoinOptions {
        pub operator1: InequalityOperator,
        pub operator2: Option<InequalityOperator>,
    }

    /// Which side is kept in memory; range_join.rs takes its points from it where both sides could be.
    #[derive(Clone, Copy, Debug)]
    pub enum JoinBuildSide {
        PreferLeft,
        PreferRight,
        ForceLeft,
        ForceRight,
    }

    /// A join's kind, the suffix of its columns' names, which stays out of SCOPE, and the side to keep in memory.
    #[derive(Clone, Debug)]
    pub struct JoinArgs {
        pub how: JoinType,
        pub suffix: Option<PlSmallStr>,
        pub build_side: Option<JoinBuildSide>,
    }

    impl JoinArgs {
        /// Whether two key columns of one name become one; the driver's have two names, so it is not seen.
        pub fn should_coalesce(&self) -> bool {
            true
        }
    }

    /// Whether two columns can be joined at all: all are numbers here. The node asks for no order check in it.
    pub fn _check_asof_columns(
        _left: &Series,
        _right: &Series,
        _has_tolerance: bool,
        check_sortedness: bool,
        _by_groups_present: bool,
    ) -> PolarsResult<()> {
        assert!(!check_sortedness);
        Ok(())
    }

    /// The left columns with the right ones beside them; suffixes stay out of SCOPE.
    pub fn _finish_join(left: DataFrame, right: DataFrame, _suffix: Option<PlSmallStr>) -> PolarsResult<DataFrame> {
        left.hstack(&right)
    }

    /// SCOPE 10.2 and 10.3: the row that is chosen, before the tolerance is asked.
    fn choice(right: &[Option<i64>], v: i64, strategy: AsofStrategy, allow_eq: bool) -> Option<(usize, i64)> {
        let mut keys = right.iter().enumerate().filter_map(|(i, k)| k.map(|k| (i, k)));
        match strategy {
            AsofStrategy::Backward => keys.rfind(|&(_, k)| k < v || (allow_eq && k == v)),
            AsofStrategy::Forward => keys.find(|&(_, k)| k > v || (allow_eq && k == v)),
            AsofStrategy::Nearest => {
                assert!(allow_eq, "SCOPE gives Nearest without equality no meaning");
                keys.max_by_key(|&(i, k)| (std::cmp::Reverse(k.abs_diff(v)), k, i))
            },
        }
    }

    /// SCOPE 10.1 and 10.4: null keys match nothing, and a choice beyond the tolerance is none.
    pub fn _join_asof_dispatch(
        left: &Series,
        right: &Series,
        strategy: AsofStrategy,
        tolerance: Option<AnyValue<'static>>,
        allow_eq: bool,
    ) -> PolarsResult<IdxCa> {
        let tolerance = tolerance.map(|t| match t {
            AnyValue::Int64(t) => u64::try_from(t).unwrap(),
            _ => unreachable!(),
        });
        let find = |v: i64| {
            let (at, key) = choice(right.values(), v, strategy, allow_eq)?;
            tolerance.is_none_or(|t| key.abs_diff(v) <= t).then_some(at as IdxSize)
        };
        Ok(IdxCa::new(left.values().iter().map(|v| v.and_then(find)).collect()))
    }

    pub mod is_sorted {
        use std::cell::RefCell;
        use std::cmp::Ordering;

        use polars_core::prelude::*;
        use polars_utils::sort::reorder_cmp;

        thread_local! {
            /// The key column of every check that said no: the Rust's one error does not say which side it was.
            pub static FAULTS: RefCell<Vec<PlSmallStr>> = const { RefCell::new(Vec::new()) };
        }

        /// Frames whose order can be asked for.
        pub trait DataFrameIsSorted {
            /// Whether the rows are in order by these columns.
            fn is_sorted(&self, by: &[PlSmallStr], descending: &[bool], nulls_last: &[bool]) -> PolarsResult<bool>;
        }

        /// A cell as it compares.
        fn cell(column: &Column, row: usize) -> AnyValue<'_> {
            // SAFETY: the index is checked all the same.
            unsafe { column.get_unchecked(row) }
        }

        impl DataFrameIsSorted for DataFrame {
            /// SCOPE 4.4 and 4.5: whether rows are sorted; a column with a list is compared by it.
            fn is_sorted(&self, by: &[PlSmallStr], descending: &[bool], nulls_last: &[bool]) -> PolarsResult<bool> {
                assert!(by.len() == descending.len() && by.len() == nulls_last.len());
                let columns = by.iter().map(|n| self.column(n)).collect::<PolarsResult<Vec<_>>>()?;
                let cmp = |i: usize, j: usize| {
                    let cells = columns.iter().zip(descending).zip(nulls_last);
                    let ords = cells.map(|((c, d), l)| reorder_cmp(&cell(c, i), &cell(c, j), *d, *l));
                    ords.fold(Ordering::Equal, Ordering::then)
                };
                let sorted = (1..self.height()).all(|i| cmp(i - 1, i).is_le());
                if !sorted {
                    FAULTS.with_borrow_mut(|f| f.push(*by.last().unwrap()));
                }
                Ok(sorted)
            }
        }
    }
}
