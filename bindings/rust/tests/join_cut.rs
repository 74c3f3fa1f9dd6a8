//! Tables joined pair by pair over the archive: random tables beside the driver's answers, lengths of areas to the word, every refusal.
use std::hint::black_box;

use rowkeeper::{
    ByColumn, Frame, Join, Match, Options, Ranks, Refusal, Side, Strategy, asof, cut, join_cut, join_cut_in, plan,
};

mod random;

use random::Random;

type Row = Vec<Option<i64>>;

const STRATEGIES: [Strategy; 3] = [Strategy::Backward, Strategy::Forward, Strategy::Nearest];

impl Random {
    /// A number below n, or in one of ten cases a null.
    fn cell(&mut self, n: u64) -> Option<i64> {
        (self.below(10) > 0).then(|| self.below(n) as i64)
    }

    /// Options of every kind, with up to two by-columns and so many columns that are carried.
    fn options(&mut self, carried: usize) -> Options {
        let strategy = STRATEGIES[self.below(3) as usize];
        let allow_eq = strategy == Strategy::Nearest || self.below(2) == 0;
        let tolerance = (self.below(2) == 0).then(|| self.below(5));
        let column = |r: &mut Self| ByColumn { descending: r.below(3) == 0, nulls_last: r.below(3) == 0 };
        let by: Vec<ByColumn> = (0..self.below(3)).map(|_| column(self)).collect();
        let listed = !by.is_empty() && self.below(3) == 0;
        let ranks = listed.then(|| Ranks::new(by.len() - 1, [2, 0, 5, 4, 1, 3]));
        Options {
            strategy,
            allow_eq,
            tolerance,
            by,
            carried,
            ranks,
            distance: self.below(2) == 0,
            ..Options::default()
        }
    }

    /// A sorted table of up to 40 rows, with nulls; groups are 1 to 4.
    fn table(&mut self, options: &Options, carried: usize) -> Vec<Row> {
        let (by, count) = (options.by.len(), [0, 1, 10, 40][self.below(4) as usize]);
        let row = |r: &mut Self| {
            let groups: Row = (0..by).map(|_| r.cell(4).map(|group| group + 1)).collect();
            groups.into_iter().chain([r.cell(12)]).chain((0..carried).map(|_| r.cell(500))).collect()
        };
        let mut rows: Vec<Row> = (0..count).map(|_| row(self)).collect();
        rows.sort_by_key(|row| (order_of(options, row), row[by]));
        rows
    }

    /// Up to 16 different groups in order, those of rows and others: 0 to 5 in each column.
    fn boundaries(&mut self, options: &Options) -> Vec<Row> {
        let (by, count) = (options.by.len(), [0, 1, 2, 5, 16][self.below(5) as usize]);
        let group = |r: &mut Self| (0..by).map(|_| Some(r.below(6) as i64)).collect();
        let mut groups: Vec<Row> = (0..if by == 0 { 0 } else { count }).map(|_| group(self)).collect();
        groups.sort_by_key(|group| order_of(options, group));
        groups.dedup();
        groups
    }
}

/// What the group of a row is sorted by: for each column nulls before or behind all others, else its place, in its direction.
fn order_of(options: &Options, row: &[Option<i64>]) -> Vec<(i8, i64)> {
    let place = |column: usize, value: i64| match &options.ranks {
        Some(list) if list.column == column => list.codes.iter().position(|code| *code == value).unwrap() as i64,
        _ => value,
    };
    let order = |(column, by): (usize, &ByColumn)| match row[column] {
        None => (if by.nulls_last { 1 } else { -1 }, 0),
        Some(value) => (0, place(column, value) * if by.descending { -1 } else { 1 }),
    };
    options.by.iter().enumerate().map(order).collect()
}

/// The words of a table of any number of rows.
fn words(columns: usize, rows: &[Row]) -> Vec<i64> {
    let cells = || rows.iter().flatten();
    let head = [rows.len() as i64, columns as i64].into_iter();
    head.chain(cells().map(|cell| cell.unwrap_or(0))).chain(cells().map(|cell| cell.is_some() as i64)).collect()
}

/// The words of columns that have no nulls.
fn of_columns(columns: &[Vec<i64>]) -> Vec<i64> {
    let row = |i: usize| columns.iter().map(|column| Some(column[i])).collect();
    words(columns.len(), &(0..columns[0].len()).map(row).collect::<Vec<_>>())
}

/// The frames of a table, of so many rows each.
fn frames(columns: usize, rows: &[Row], height: usize) -> Vec<Frame> {
    rows.chunks(height).map(|rows| Frame::new(columns, rows).unwrap()).collect()
}

/// An output for so many rows, with one word behind it.
fn output(options: &Options, rows: usize) -> Vec<i64> {
    vec![-9; Join::output_words(options, rows) + 1]
}

/// Random tables, every option, boundaries that are there and that are not: the matches of the driver, with what is carried and the
/// distance. How many matches there were, and how many boundaries.
fn as_by_driver<const P: usize>(r: &mut Random) -> [usize; 2] {
    let options = r.options(P);
    let (left, right, boundaries) = (r.table(&options, 0), r.table(&options, P), r.boundaries(&options));
    let (lefts, rights) = (frames(options.columns(), &left, 7), frames(options.right_columns(), &right, 9));
    let joined = asof(&options, &lefts, &rights).unwrap();
    let want: Vec<Option<Match<P>>> = joined.carrying().collect::<Result<_, _>>().unwrap();
    let groups = words(options.by.len(), &boundaries);
    let (left, right) = (words(options.columns(), &left), words(options.right_columns(), &right));
    let mut written = output(&options, want.len());
    let found = join_cut(&options, &left, &right, &groups, &mut written).unwrap();
    assert_eq!((found.len(), found.carried()), (want.len(), P));
    assert!(found.carrying().eq(want.iter().copied()), "{options:?} {left:?} {right:?} {groups:?}");
    assert!(found.iter().eq(want.iter().map(|found| found.map(|found| found.number))));
    assert_eq!(written.last(), Some(&-9), "the word behind the table stays");
    [want.iter().flatten().count(), boundaries.len()]
}

/// With nothing carried, a price, and the most.
#[test]
fn random_tables() {
    let (r, mut met) = (&mut Random(4), [0, 0]);
    for _ in 0..1000 {
        for [matches, boundaries] in [as_by_driver::<0>(r), as_by_driver::<1>(r), as_by_driver::<8>(r)] {
            met = [met[0] + matches, met[1] + boundaries];
        }
    }
    assert!(met[0] > 5_000 && met[1] > 3_000, "{met:?}");
}

/// Rows from one up to another.
fn part(columns: &[Vec<i64>], from: usize, to: usize) -> Vec<i64> {
    of_columns(&columns.iter().map(|column| column[from..to].to_vec()).collect::<Vec<_>>())
}

/// The heights of so many rows in full frames and one of what is left.
fn heights(rows: usize) -> Vec<i64> {
    (0..rows).step_by(4096).map(|from| (rows - from).min(4096) as i64).collect()
}

/// The words of the two areas that the pairs need, by where the tables are cut and by the plan of each pair.
fn needed(options: &Options, left: &[Vec<i64>], right: &[Vec<i64>], boundaries: &[i64]) -> [usize; 2] {
    let ends = |side, table: &[Vec<i64>]| {
        let mut ends = cut(options, side, &of_columns(table), boundaries).unwrap();
        ends.push(table[0].len());
        ends
    };
    let (mut from, mut need) = ([0, 0], [0, 0]);
    for (l, r) in ends(Side::Left, left).into_iter().zip(ends(Side::Right, right)) {
        let (lefts, rights) = (heights(l - from[0]), heights(r - from[1]));
        let tables = [part(left, from[0], l), part(right, from[1], r)];
        let held = plan(options, &tables[0], &tables[1], &lefts, &rights).unwrap().rows;
        let waiting = lefts.iter().map(|rows| 2 + 2 * *rows as usize * options.columns()).sum();
        need = [need[0].max(waiting), need[1].max(Join::right_words(options, held))];
        from = [l, r];
    }
    need
}

/// Areas that are just enough for the pairs, by the cuts and the plans, and areas and outputs that are one word short; parts of several
/// frames, and parts without rows on either side.
#[test]
fn areas_to_the_word() {
    let left = [(0..20_000).map(|i| i / 6_000).collect(), (0..20_000).map(|i| i % 6_000).collect::<Vec<i64>>()];
    let right: [Vec<i64>; 3] = [
        (0..15_000).map(|i| i / 5_000 + 1).collect(),
        (0..15_000).map(|i| i % 5_000 * 2).collect(),
        (0..15_000).map(|i| -i).collect(),
    ];
    for (strategy, groups) in STRATEGIES.into_iter().zip([&[][..], &[1, 2], &[0, 1, 2, 3, 9]]) {
        let options = Options { strategy, by: vec![ByColumn::default()], carried: 1, ..Options::default() };
        let boundaries = Frame::of_keys(groups).unwrap();
        let [l, r] = needed(&options, &left, &right, &boundaries);
        let (lefts, rights) = (of_columns(&left), of_columns(&right));
        let mut written = vec![-9; Join::output_words(&options, 20_000)];
        let blank = written.clone();
        let mut join = |l: usize, r: usize, less: usize| {
            let (area, end) = (vec![3; l.max(r)], written.len() - less);
            let out = &mut written[..end];
            let said = join_cut_in(&options, &lefts, &rights, &boundaries, &area[..l], &area[..r], out);
            assert!(black_box(&area).iter().all(|word| *word == 3), "no word of an area is written");
            (said.map(|found| found.iter().flatten().count()), written.clone())
        };
        for (l, r, less) in [(l - 1, r, 0), (l, r - 1, 0), (0, 0, 0), (l, r, 1)] {
            assert_eq!(join(l, r, less), (Err(Refusal::NoRoom), blank.clone()));
        }
        let matched = join(l, r, 0).0.unwrap();
        let mut other = blank.clone();
        let again = join_cut(&options, &lefts, &rights, &boundaries, &mut other).unwrap();
        assert!(matched > 8_000 && again.iter().flatten().count() == matched);
    }
}

/// Tables about as long as some frames, of the fewest columns: the words that the call is lent are enough; no rows at all.
#[test]
fn lent_by_itself() {
    for rows in [0, 1, 4095, 4096, 4097, 8192, 8193, 40_961] {
        let keys = of_columns(&[(0..rows).collect()]);
        for (left, right) in [(&keys, &vec![0, 1]), (&keys, &keys), (&vec![0, 1], &keys)] {
            let (options, matched) = (Options::default(), if right[0] == 0 { 0 } else { left[0] as usize });
            let mut written = output(&options, left[0] as usize);
            let found = join_cut(&options, left, right, &[0, 0], &mut written).unwrap();
            assert_eq!((found.len(), found.iter().flatten().count()), (left[0] as usize, matched));
            assert!(found.iter().zip(0..).all(|(found, row)| found.is_none_or(|number| number == row)));
        }
    }
}

/// Sixteen boundaries and seventeen, those of absent groups, and halves without rows.
#[test]
fn boundaries() {
    let options = Options { by: vec![ByColumn::default()], ..Options::default() };
    let (left, right) = (of_columns(&[vec![1, 4, 4], vec![5, 6, 7]]), of_columns(&[vec![1, 2, 4], vec![5, 5, 7]]));
    let said = |left: &[i64], right: &[i64], groups: &[i64]| {
        let mut written = output(&options, 3);
        let found = join_cut(&options, left, right, &Frame::of_keys(groups).unwrap(), &mut written);
        found.map(|found| found.iter().collect::<Vec<_>>())
    };
    let numbers: Vec<i64> = (-5..12).collect();
    for groups in [&numbers[..16], &[3], &[i64::MIN, i64::MAX], &[2, 3, 4], &[]] {
        assert_eq!(said(&left, &right, groups), Ok(vec![Some(0), None, Some(2)]));
        assert_eq!(said(&left, &[0, 2], groups), Ok(vec![None; 3]));
        assert_eq!(said(&[0, 2], &right, groups), Ok(vec![]));
    }
    assert_eq!(said(&left, &right, &numbers), Err(Refusal::BadBoundaries));
}

/// Every refusal in its order.
#[test]
fn refusals() {
    let by_one = Options { by: vec![ByColumn::default()], ..Options::default() };
    let rows = |groups: [i64; 2]| of_columns(&[groups.to_vec(), vec![1, 1]]);
    let at = |groups: &[i64]| of_columns(&[groups.to_vec()]);
    let (fine, fallen) = (rows([1, 2]), rows([2, 1]));
    let said = |options: &Options, left: &[i64], right: &[i64], boundaries: &[i64]| {
        join_cut_in(options, left, right, boundaries, &[], &[], &mut []).unwrap_err()
    };
    let listed = |column| Options { ranks: Some(Ranks::new(column, [8, 9])), ..by_one.clone() };
    let bad = Options { tolerance: Some(u64::MAX), carried: 9, ..listed(1) };
    assert_eq!(said(&bad, &[], &[], &[]), Refusal::BadOptions);
    assert_eq!(said(&Options { carried: 9, ..listed(1) }, &[], &[], &[]), Refusal::TooManyCarried);
    assert_eq!(said(&listed(1), &[], &[], &[]), Refusal::BadRanks);
    for (left, right, boundaries) in
        [(&fine[1..], &fine, &at(&[7])), (&fine, &at(&[1]), &at(&[7])), (&fine, &fine, &fine)]
    {
        assert_eq!(said(&listed(0), left, right, boundaries), Refusal::BadFrame);
    }
    assert_eq!(said(&Options { carried: 1, ..by_one.clone() }, &fine, &fine, &at(&[1])), Refusal::BadFrame);
    let eights = rows([9, 8]);
    for (left, right, group) in [(&fine, &eights, 8), (&eights, &fine, 8), (&eights, &eights, 7)] {
        assert_eq!(said(&listed(0), left, right, &at(&[group, group])), Refusal::UnknownCode);
    }
    assert_eq!(said(&by_one, &fallen, &fine, &at(&[2, 1])), Refusal::Unsorted);
    assert_eq!(said(&by_one, &fine, &fallen, &at(&[2, 1])), Refusal::Unsorted);
    let null = words(1, &[vec![None], vec![Some(1)]]);
    for boundaries in [&at(&[2, 1]), &at(&[2, 2]), &at(&(0..17).collect::<Vec<_>>()), &null] {
        assert_eq!(said(&by_one, &fine, &fine, boundaries), Refusal::BadBoundaries);
    }
    assert_eq!(said(&Options::default(), &at(&[5]), &at(&[5]), &[1, 0]), Refusal::BadBoundaries);
    assert_eq!(said(&by_one, &fine, &fine, &at(&[2])), Refusal::NoRoom);
}
