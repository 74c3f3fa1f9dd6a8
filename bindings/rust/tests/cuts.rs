//! Cuts over the archive: the places, that parts joined apart are the uncut join, and every refusal.
use rowkeeper::{ByColumn, Frame, Frames, Match, Options, Ranks, Refusal, Side, Strategy, asof, cut};

/// Options with one by-column.
fn by_one() -> Options {
    Options { by: vec![ByColumn::default()], ..Options::default() }
}

/// A table of rows that have a group and a key.
fn rows(rows: &[(i64, i64)]) -> Frame {
    let cells: Vec<_> = rows.iter().map(|(group, key)| [Some(*group), Some(*key)]).collect();
    Frame::new(2, &cells).unwrap()
}

/// Boundaries of one by-column.
fn groups(groups: &[i64]) -> Frame {
    Frame::of_keys(groups).unwrap()
}

/// Groups that are there, that are absent, before all and behind all; no rows, no boundary, all sixteen.
#[test]
fn places() {
    let sales = rows(&[(1, 10), (1, 20), (2, 5), (4, 7), (4, 9)]);
    let at = |boundaries: &[i64]| cut(&by_one(), Side::Left, &sales, &groups(boundaries)).unwrap();
    assert_eq!(at(&[2, 3]), [2, 3]);
    assert_eq!(at(&[i64::MIN, 1, 4, i64::MAX]), [0, 0, 3, 5]);
    assert_eq!(at(&[]), []);
    assert_eq!(at(&(0..16).collect::<Vec<_>>()), [[0, 0, 2, 3, 3].as_slice(), &[5; 11]].concat());
    assert_eq!(cut(&by_one(), Side::Right, &rows(&[]), &groups(&[2, 3])), Ok(vec![0, 0]));
    assert_eq!(cut(&Options::default(), Side::Left, &groups(&[5, 6]), &[0, 0]), Ok(vec![]));
}

/// Descending with nulls last, a list, and more rows than a frame has.
#[test]
fn orders() {
    let falling = Options { by: vec![ByColumn { descending: true, nulls_last: true }], ..Options::default() };
    let table = Frame::new(2, &[[Some(4), Some(1)], [Some(2), Some(1)], [None, Some(1)]]).unwrap();
    assert_eq!(cut(&falling, Side::Left, &table, &groups(&[5, 3, 1])), Ok(vec![0, 1, 2]));
    let listed = Options { ranks: Some(Ranks::new(0, [30, 10, 20])), ..by_one() };
    let table = rows(&[(30, 1), (10, 1), (10, 2), (20, 1)]);
    assert_eq!(cut(&listed, Side::Left, &table, &groups(&[30, 10, 20])), Ok(vec![0, 1, 3]));
    let many: Vec<i64> = [9000, 2].into_iter().chain((0..9000).flat_map(|i| [i, 0])).chain([1; 18000]).collect();
    assert_eq!(cut(&by_one(), Side::Right, &many, &groups(&[1, 5000, 9000])), Ok(vec![1, 5000, 9000]));
}

/// The matches of these rows, with the price that right rows carry and the distance.
fn joined(options: &Options, left: &[Vec<i64>; 2], right: &[Vec<i64>; 3]) -> Vec<Option<Match<1>>> {
    let (lefts, rights) =
        (Frames::of_columns(&left.each_ref()).unwrap(), Frames::of_columns(&right.each_ref()).unwrap());
    asof(options, lefts, rights).unwrap().carrying().collect::<Result<_, _>>().unwrap()
}

/// The words of columns that have no nulls.
fn words(columns: &[Vec<i64>]) -> Vec<i64> {
    let rows = columns[0].len();
    let values = (0..rows).flat_map(|i| columns.iter().map(move |column| column[i]));
    let head = [rows as i64, columns.len() as i64];
    head.into_iter().chain(values).chain(vec![1; rows * columns.len()]).collect()
}

/// Two tables cut at the same boundaries, each pair of parts joined by itself, the answers appended with the right numbers counted on:
/// the uncut join, with prices and distances.
#[test]
fn apart_as_uncut() {
    let left = [(0..200).map(|i| i / 20).collect(), (0..200).map(|i| i % 20 * 7).collect()];
    let right: [Vec<i64>; 3] = [
        (0..300).map(|i| i / 25).collect(),
        (0..300).map(|i| i % 25 * 5).collect(),
        (0..300).map(|i| 1000 + i).collect(),
    ];
    for strategy in [Strategy::Backward, Strategy::Forward, Strategy::Nearest] {
        let options = Options { strategy, carried: 1, distance: true, tolerance: Some(30), ..by_one() };
        let boundaries = groups(&[-1, 0, 3, 4, 9, 11, 50]);
        let lefts = cut(&options, Side::Left, &words(&left), &boundaries).unwrap();
        let rights = cut(&options, Side::Right, &words(&right), &boundaries).unwrap();
        let (mut from, mut all) = ([0, 0], vec![]);
        for to in lefts.iter().zip(&rights).map(|(l, r)| [*l, *r]).chain([[200, 300]]) {
            let left = left.each_ref().map(|column: &Vec<i64>| column[from[0]..to[0]].to_vec());
            let right = right.each_ref().map(|column| column[from[1]..to[1]].to_vec());
            let on = |found: Match<1>| Match { number: found.number + from[1] as u64, ..found };
            all.extend(joined(&options, &left, &right).into_iter().map(|found| found.map(on)));
            from = to;
        }
        assert_eq!(all, joined(&options, &left, &right));
        assert!(all.iter().flatten().any(|found| found.number > 100 && found.distance > Some(0)));
    }
}

/// Every refusal in its order.
#[test]
fn refusals() {
    let (fine, fallen) = (rows(&[(1, 1), (2, 2)]), rows(&[(2, 2), (1, 1)]));
    let said =
        |options: &Options, table: &[i64], boundaries: &[i64]| cut(options, Side::Left, table, boundaries).unwrap_err();
    let listed = |column| Options { ranks: Some(Ranks::new(column, [8, 9])), ..by_one() };
    assert_eq!(said(&Options { tolerance: Some(u64::MAX), carried: 9, ..by_one() }, &[], &[]), Refusal::BadOptions);
    assert_eq!(said(&Options { carried: 9, ..listed(1) }, &[], &[]), Refusal::TooManyCarried);
    assert_eq!(said(&listed(1), &[], &[]), Refusal::BadRanks);
    assert_eq!(said(&listed(0), &fine, &[]), Refusal::BadFrame);
    assert_eq!(said(&by_one(), &fine[1..], &groups(&[2])), Refusal::BadFrame);
    assert_eq!(said(&by_one(), &fallen, &fine), Refusal::BadFrame);
    let carrying = Options { carried: 1, ..by_one() };
    assert_eq!(cut(&carrying, Side::Right, &fine, &groups(&[2])), Err(Refusal::BadFrame));
    assert_eq!(cut(&carrying, Side::Left, &fine, &groups(&[2])), Ok(vec![1]));
    assert_eq!(said(&listed(0), &fallen, &groups(&[8])), Refusal::UnknownCode);
    assert_eq!(said(&listed(0), &rows(&[(9, 1), (8, 1)]), &groups(&[7])), Refusal::UnknownCode);
    assert_eq!(said(&by_one(), &fallen, &groups(&[2, 1])), Refusal::Unsorted);
    let seventeen: Vec<i64> = (0..17).collect();
    let null = Frame::new(1, &[[None], [Some(1)]]).unwrap();
    for boundaries in [&groups(&[2, 1]), &groups(&[2, 2]), &groups(&seventeen), &null] {
        assert_eq!(said(&by_one(), &fine, boundaries), Refusal::BadBoundaries);
    }
    assert_eq!(said(&Options::default(), &groups(&[5]), &[1, 0]), Refusal::BadBoundaries);
}
