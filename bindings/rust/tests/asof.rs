//! The driver: whole tables by any cut and every option, lists of ranks among them, what it asks for and when, areas that grow,
//! what is carried, and refusals.
use std::cell::Cell;

use rowkeeper::{ByColumn, Check, Column, Frame, Frames, Match, Options, Ranks, Refusal, Strategy, asof};

mod random;

use random::Random;

type Row = [Option<i64>; 2];
type Matches = Vec<Option<u64>>;

impl Random {
    /// A table of up to 40 rows, sorted as these options want it: a group and a key, some of them null.
    fn table(&mut self, options: &Options) -> Vec<Row> {
        let count = self.below(41);
        let groups = options.ranks.as_ref().map_or_else(|| (0..4).collect(), |list| list.codes.clone());
        let mut cell = |n| (self.below(10) > 0).then(|| self.below(n) as i64);
        let group = |place: i64| groups[place as usize];
        let mut rows: Vec<Row> = (0..count).map(|_| [cell(groups.len() as u64).map(group), cell(12)]).collect();
        rows.sort_by_key(|[group, key]| (order_of(options, *group), *key));
        rows
    }

    /// No list for the by-column, or one of up to six codes in any order.
    fn ranks(&mut self) -> Option<Ranks> {
        let mut codes: Vec<i64> = (0..1 + self.below(6) as i64).map(|i| 7 * i - 9).collect();
        (0..codes.len()).for_each(|i| codes.swap(i, self.below(i as u64 + 1) as usize));
        (self.below(2) == 0).then(|| Ranks::new(0, codes))
    }

    /// A table as frames of no more than so many rows, some of them empty.
    fn cut(&mut self, mut rows: &[Row], most: u64) -> Vec<Frame> {
        let mut frames = vec![];
        while !rows.is_empty() {
            let (frame, rest) = rows.split_at(rows.len().min(self.below(most + 1) as usize));
            frames.push(Frame::new(2, frame).unwrap());
            rows = rest;
        }
        frames
    }

    /// Options of every kind, with one by-column.
    fn options(&mut self) -> Options {
        let strategy = [Strategy::Backward, Strategy::Forward, Strategy::Nearest][self.below(3) as usize];
        let allow_eq = strategy == Strategy::Nearest || self.below(2) == 0;
        let tolerance = (self.below(2) == 0).then(|| self.below(5));
        let check = [Check::Off, Check::On, Check::Strict][self.below(3) as usize];
        let by = vec![ByColumn { descending: self.below(4) == 0, nulls_last: self.below(4) == 0 }];
        Options { strategy, allow_eq, tolerance, check, by, ranks: self.ranks(), ..Options::default() }
    }
}

/// What a by-value is sorted by: nulls before or behind all others, else its place in the list or its number, in its direction.
fn order_of(options: &Options, group: Option<i64>) -> (i64, usize) {
    let ByColumn { descending, nulls_last } = options.by[0];
    let Some(value) = group else { return (if nulls_last { 1 } else { -1 }, 0) };
    let codes = options.ranks.as_ref().map_or(&[0, 1, 2, 3][..], |list| &list.codes);
    let place = codes.iter().position(|code| *code == value).unwrap();
    (0, if descending { codes.len() - place } else { place })
}

/// The match of a left row by SCOPE 14's rule, over the whole right table.
fn plain_match(options: &Options, left: &Row, right: &[Row]) -> Option<u64> {
    let [Some(group), Some(key)] = *left else { return None };
    let qualifies = |row: &&(usize, i64)| {
        let side = match options.strategy {
            Strategy::Backward => row.1 <= key,
            Strategy::Forward => row.1 >= key,
            Strategy::Nearest => true,
        };
        side && (options.allow_eq || row.1 != key) && options.tolerance.is_none_or(|t| row.1.abs_diff(key) <= t)
    };
    let of_group = |(number, row): (usize, &Row)| match row {
        [Some(g), Some(k)] if *g == group => Some((number, *k)),
        _ => None,
    };
    let rows: Vec<(usize, i64)> = right.iter().enumerate().filter_map(of_group).collect();
    let rows = rows.iter().filter(qualifies);
    let taken = match options.strategy {
        Strategy::Backward => rows.max_by_key(|(number, k)| (*k, *number)),
        Strategy::Forward => rows.min_by_key(|(number, k)| (*k, *number)),
        Strategy::Nearest => rows.max_by_key(|(number, k)| (-(k - key).abs(), *k, *number)),
    };
    taken.map(|(number, _)| *number as u64)
}

/// A frame of keys.
fn keys(keys: &[i64]) -> Frame {
    Frame::of_keys(keys).unwrap()
}

/// All matches of two tables of keys, which no call refuses.
fn joined(options: &Options, lefts: &[Frame], rights: &[Frame]) -> Matches {
    asof(options, lefts, rights).unwrap().collect::<Result<_, _>>().unwrap()
}

/// Both tables in any cut, with every option, give the matches of the whole-table rule.
#[test]
fn any_cut_and_options() {
    let r = &mut Random(1);
    let mut matched = 0;
    for _ in 0..3000 {
        let options = r.options();
        let (left, right, most) = (r.table(&options), r.table(&options), 1 + r.below(20));
        let want: Matches = left.iter().map(|row| plain_match(&options, row, &right)).collect();
        let (lefts, rights) = (r.cut(&left, most), r.cut(&right, most));
        matched += want.iter().flatten().count();
        assert_eq!(joined(&options, &lefts, &rights), want, "{options:?}, left {lefts:?}, right {rights:?}");
    }
    assert!(matched > 10_000, "{matched}");
}

/// A table with P carried cells behind each row, in no order, some of them null.
fn carrying<const P: usize>(r: &mut Random, rows: &[Row]) -> Vec<(Row, [Option<i64>; P])> {
    let mut cell = || (r.below(4) > 0).then(|| r.below(1000) as i64 - 500);
    rows.iter().map(|row| (*row, std::array::from_fn(|_| cell()))).collect()
}

/// Both tables in any cut, with every option and P carried columns: the same matches, each with the cells of its right row, and in
/// half of the cases with its distance.
fn any_cut_with<const P: usize>(r: &mut Random) -> usize {
    let options = Options { carried: P, distance: r.below(2) == 0, ..r.options() };
    let (left, right, most) = (r.table(&options), r.table(&options), 1 + r.below(20));
    let right = carrying::<P>(r, &right);
    let keyed: Vec<Row> = right.iter().map(|(row, _)| *row).collect();
    let number = |row: &Row| plain_match(&options, row, &keyed);
    let far = |row: &Row, number: u64| keyed[number as usize][1].unwrap().abs_diff(row[1].unwrap());
    let found = |row: &Row, number: u64| {
        let distance = options.distance.then(|| far(row, number));
        Match { number, carried: right[number as usize].1, distance }
    };
    let want: Vec<Option<Match<P>>> = left.iter().map(|row| number(row).map(|number| found(row, number))).collect();
    let wide: Vec<Vec<_>> = right.iter().map(|(row, cells)| [&row[..], cells].concat()).collect();
    let cuts = wide.chunks(most as usize).map(|rows| Frame::new(2 + P, rows).unwrap());
    let (lefts, rights): (_, Vec<Frame>) = (r.cut(&left, most), cuts.collect());
    let joined = asof(&options, &lefts, &rights).unwrap();
    assert_eq!(joined.clone().carrying().collect::<Result<Vec<_>, _>>().unwrap(), want, "{lefts:?} {rights:?}");
    let numbers: Vec<_> = want.iter().map(|found| found.map(|found| found.number)).collect();
    assert_eq!(joined.clone().collect::<Result<Vec<_>, _>>().unwrap(), numbers);
    let (mut joined, mut by_frames) = (joined, vec![]);
    while let Some(matches) = joined.next_matches().unwrap() {
        assert_eq!(matches.carried(), P);
        by_frames.extend(matches.carrying());
    }
    assert_eq!(by_frames, want);
    want.iter().flatten().flat_map(|found| found.carried).flatten().count()
}

/// What is carried comes with the match, for no column, few and the most.
#[test]
fn any_cut_and_carried() {
    let r = &mut Random(3);
    let mut cells = [0; 4];
    for _ in 0..400 {
        let some = [any_cut_with::<0>(r), any_cut_with::<1>(r), any_cut_with::<2>(r), any_cut_with::<8>(r)];
        (0..4).for_each(|i| cells[i] += some[i]);
    }
    assert!(cells[0] == 0 && cells[1..].iter().all(|n| *n > 1000), "{cells:?}");
}

/// Long columns with prices, cut into full frames; what is left of a frame that was begun has its cells too.
#[test]
fn columns_with_prices() {
    let (keys, prices): (Vec<i64>, Vec<i64>) = (0..10_000).map(|key| (key, 7 * key)).unzip();
    let known: Vec<bool> = keys.iter().map(|key| key % 3 > 0).collect();
    let rights = [Column::new(&keys), Column::with_marks(&prices, &known)];
    let options = Options { carried: 1, ..Options::default() };
    let joined = asof(&options, Frames::of_columns(&[&keys]).unwrap(), Frames::of_columns(&rights).unwrap()).unwrap();
    let want =
        |key: i64| Some(Match { number: key as u64, carried: [(key % 3 > 0).then_some(7 * key)], distance: None });
    assert!(joined.clone().carrying().map(Result::unwrap).eq((0..10_000).map(want)));
    let mut begun = joined;
    assert_eq!((begun.next(), begun.next()), (Some(Ok(Some(0))), Some(Ok(Some(1)))));
    let rest = begun.next_matches().unwrap().unwrap();
    assert!(rest.len() == 4094 && rest.carrying().eq((2..4096).map(want)));
    let carrying = begun.carrying::<1>();
    assert_eq!(carrying.size_hint(), (0, None));
    assert!(carrying.map(Result::unwrap).eq((4096..10_000).map(want)));
}

/// Long columns at the ends of the 64-bit range, cut into full frames, with distances: those above 2^63 − 1 are not told.
#[test]
fn columns_with_distances() {
    let lefts: Vec<i64> = (-5_000..5_000).collect();
    let options = Options { distance: true, ..Options::default() };
    let joined = asof(&options, Frames::of_columns(&[&lefts]).unwrap(), [keys(&[i64::MIN])]).unwrap();
    let want = |key: i64| {
        let distance = Some(key.abs_diff(i64::MIN)).filter(|far| *far <= i64::MAX as u64);
        Some(Match { number: 0, carried: [], distance })
    };
    assert!(joined.carrying().map(Result::unwrap).eq((-5_000..5_000).map(want)));
    assert_eq!((want(-1).unwrap().distance, want(0).unwrap().distance), (Some(i64::MAX as u64), None));
}

/// The driver is not taken for one that carries another number of columns.
#[test]
#[should_panic(expected = "the join carries another number of columns")]
fn another_number_carried() {
    drop(asof(&Options::default(), [keys(&[1])], [keys(&[1])]).unwrap().carrying::<1>());
}

/// Long columns with nulls first, cut into full frames: a left key takes the right row of the greatest even key not above it.
#[test]
fn columns() {
    let column = |nulls: usize, keys: &[i64]| {
        ([&vec![-7; nulls], keys].concat(), [vec![false; nulls], vec![true; keys.len()]].concat())
    };
    let (left, left_marks) = column(50, &(0..20_000).collect::<Vec<_>>());
    let (right, right_marks) = column(100, &(0..10_000).map(|i| 2 * i).collect::<Vec<_>>());
    let lefts = Frames::of_columns(&[Column::with_marks(&left, &left_marks)]).unwrap();
    let rights = Frames::of_columns(&[Column::with_marks(&right, &right_marks)]).unwrap();
    let found: Matches = asof(&Options::default(), lefts, rights).unwrap().collect::<Result<_, _>>().unwrap();
    let want: Matches = (0..50).map(|_| None).chain((0..20_000).map(|key| Some(100 + key / 2))).collect();
    assert!(found == want);
}

/// Tables without rows, and without frames.
#[test]
fn empty_tables() {
    let (none, empty, some) = (vec![], vec![keys(&[]), keys(&[])], vec![keys(&[1, 2])]);
    for lefts in [&none, &empty] {
        for rights in [&none, &empty, &some] {
            assert_eq!(joined(&Options::default(), lefts, rights), []);
        }
    }
    for rights in [&none, &empty] {
        assert_eq!(joined(&Options::default(), &some, rights), [None, None]);
    }
}

/// A frame of either side is asked for when it is needed and not before, and no right frame behind the last left row's match.
#[test]
fn asked_for_when_needed() {
    let (lefts_asked, rights_asked) = (Cell::new(0), Cell::new(0));
    let lefts = [3, 4, 25].iter().map(|key| {
        lefts_asked.set(lefts_asked.get() + 1);
        keys(&[*key])
    });
    let rights = (0..).map(|tens| {
        rights_asked.set(rights_asked.get() + 1);
        keys(&(10 * tens..10 * tens + 10).collect::<Vec<_>>())
    });
    let mut matches = asof(&Options::default(), lefts, rights).unwrap();
    let asked = || (lefts_asked.get(), rights_asked.get());
    assert_eq!(asked(), (0, 0));
    assert_eq!((matches.next(), asked()), (Some(Ok(Some(3))), (1, 1)));
    assert_eq!((matches.next(), asked()), (Some(Ok(Some(4))), (2, 1)));
    assert_eq!((matches.next(), asked()), (Some(Ok(Some(25))), (3, 3)));
    assert_eq!((matches.next(), asked()), (None, (3, 3)));
    assert_eq!((matches.next(), asked()), (None, (3, 3)));
}

/// The areas grow where right rows must be held, and stay small where they need not be.
#[test]
fn areas() {
    let frame: Vec<i64> = vec![7; 100];
    let equal: Vec<Frame> = (0..100).map(|_| keys(&frame)).collect();
    let mut held = asof(&Options::default(), [keys(&[7])], &equal).unwrap();
    assert_eq!((held.next(), held.next()), (Some(Ok(Some(9999))), None));
    let words = held.join().right_area().len();
    assert!((20_000..=80_000).contains(&words), "{words} words for 10,000 rows");

    let rising: Vec<Frame> = (0..1000).map(|i| keys(&(100 * i..100 * i + 100).collect::<Vec<_>>())).collect();
    let mut passed = asof(&Options::default(), &rising, &rising).unwrap();
    for row in 0..100_000 {
        assert_eq!(passed.next(), Some(Ok(Some(row))));
        assert!(passed.join().held() <= 200);
    }
    assert_eq!(passed.next(), None);
    let (left, right) = (passed.join().left_area().len(), passed.join().right_area().len());
    assert!(left == 202 && right <= 1000, "{left} and {right} words");
}

/// Left frames that get higher and lower: the left area and the output grow by doubling.
#[test]
fn frames_of_all_heights() {
    let heights = (1..=64).chain((1..=64).rev()).chain([4096, 0, 4096, 1]);
    let lefts: Vec<Frame> = heights.map(|height| keys(&vec![5; height])).collect();
    let rows: usize = lefts.iter().map(|frame| frame[0] as usize).sum();
    assert_eq!(joined(&Options::default(), &lefts, &[keys(&[1, 5])]), vec![Some(1); rows]);
}

/// Matches by frames, also behind single ones; what is left is told.
#[test]
fn by_frames() {
    let lefts = [keys(&[1, 2, 3]), keys(&[]), keys(&[4, 5])];
    let mut matches = asof(&Options::default(), &lefts, [keys(&[2, 4])]).unwrap();
    assert_eq!(matches.size_hint(), (0, None));
    assert_eq!((matches.next(), matches.size_hint()), (Some(Ok(None)), (2, None)));
    let mut frames: Vec<Matches> = vec![];
    while let Some(frame) = matches.next_matches().unwrap() {
        frames.push(frame.iter().collect());
    }
    assert_eq!(frames, [[Some(0), Some(0)], [Some(1), Some(1)]]);
    assert_eq!((matches.next(), matches.size_hint()), (None, (0, Some(0))));
}

/// A refusal is the last item; the matches before it stand. Options are refused at once.
#[test]
fn refusals() {
    let nearest = Options { strategy: Strategy::Nearest, allow_eq: false, ..Options::default() };
    assert_eq!(asof(&nearest, [keys(&[1])], [keys(&[1])]).unwrap_err(), Refusal::BadOptions);
    for carried in [9, usize::MAX] {
        let many = Options { carried, ..Options::default() };
        assert_eq!(asof(&many, [keys(&[1])], [keys(&[1])]).unwrap_err(), Refusal::TooManyCarried);
    }
    let listed = |codes: &[i64]| {
        let by = vec![ByColumn::default()];
        Options { by, ranks: Some(Ranks::new(0, codes)), ..Options::default() }
    };
    assert_eq!(asof(&listed(&[]), [keys(&[1])], [keys(&[1])]).unwrap_err(), Refusal::BadRanks);
    let frame = |band| Frame::new(2, &[[Some(band), Some(1)]]).unwrap();
    let mut unknown = asof(&listed(&[30, 10]), [frame(30), frame(20)], [frame(30)]).unwrap();
    assert_eq!((unknown.next(), unknown.next()), (Some(Ok(Some(0))), Some(Err(Refusal::UnknownCode))));
    assert_eq!(unknown.next(), None);
    let cases = [
        (vec![keys(&[1, 2]), keys(&[4, 3])], vec![keys(&[1, 9])], 2, Refusal::LeftOrder),
        (vec![keys(&[1, 2]), keys(&[1])], vec![keys(&[1, 9])], 2, Refusal::LeftOrder),
        (vec![keys(&[1]), keys(&[5])], vec![keys(&[1, 3]), keys(&[2, 9])], 1, Refusal::RightOrder),
        (vec![keys(&[1]), Frame::new(2, &[[Some(1); 2]]).unwrap()], vec![keys(&[1, 9])], 1, Refusal::BadFrame),
        (vec![keys(&[1])], vec![Frame::new(2, &[[Some(1); 2]]).unwrap()], 0, Refusal::BadFrame),
    ];
    for (lefts, rights, before, refusal) in cases {
        let mut matches = asof(&Options::default(), &lefts, &rights).unwrap();
        assert!((0..before).all(|_| matches.next() == Some(Ok(Some(0)))));
        assert_eq!(matches.next(), Some(Err(refusal)), "{lefts:?} {rights:?}");
        assert_eq!((matches.next(), matches.next_matches()), (None, Ok(None)));
        let mut matches = asof(&Options::default(), &lefts, &rights).unwrap();
        let ended = std::iter::from_fn(|| matches.next_matches().map(|frame| frame.map(|_| ())).transpose()).last();
        assert_eq!(ended, Some(Err(refusal)));
    }
}

/// Words that are no frame at all, of either side.
#[test]
fn words_that_are_no_frame() {
    let right = vec![vec![1, 1, 5, 1]];
    for words in [vec![], vec![1], vec![i64::MAX, 1], vec![-1, 1], vec![1, 1, 5, 2], vec![4097, 1]] {
        let one = [words];
        let mut matches = asof(&Options::default(), &one, &right).unwrap();
        assert_eq!(matches.next(), Some(Err(Refusal::BadFrame)));
        let mut matches = asof(&Options::default(), &right, &one).unwrap();
        assert_eq!((matches.next(), matches.next()), (Some(Err(Refusal::BadFrame)), None));
    }
}
