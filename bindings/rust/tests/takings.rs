//! Takings over the archive: against a map of sums, in any order of adding and joining, at their limits, and every refusal.
use std::collections::BTreeMap;

use rowkeeper::{ByColumn, Frame, Join, Options, Ranks, Refusal, Takings, Turn};

/// Options with one by-column and a price that is carried.
fn priced() -> Options {
    Options { by: vec![ByColumn::default()], carried: 1, ..Options::default() }
}

/// A left frame of sales: group and key.
fn sales(groups: &[Option<i64>]) -> Frame {
    let rows: Vec<_> = groups.iter().map(|group| [*group, Some(0)]).collect();
    Frame::new(2, &rows).unwrap()
}

/// An answer frame of right numbers and amounts.
fn answers(rows: &[(Option<i64>, Option<i64>)]) -> Frame {
    Frame::new(2, &rows.iter().map(|(number, amount)| [*number, *amount]).collect::<Vec<_>>()).unwrap()
}

/// The words of a table of takings of one by-column.
fn table(rows: &[[i64; 3]]) -> Vec<i64> {
    let head = [rows.len() as i64, 3];
    head.into_iter().chain(rows.iter().flatten().copied()).chain(vec![1; 3 * rows.len()]).collect()
}

/// The rows of takings of one by-column.
fn rows(takings: &Takings) -> Vec<(i64, i64, u64)> {
    takings.iter().map(|row| (row.group[0], row.total, row.sales)).collect()
}

/// Numbers that look random and are the same in every run.
fn next(state: &mut u64) -> u64 {
    *state ^= *state << 13;
    *state ^= *state >> 7;
    *state ^= *state << 17;
    *state
}

/// What a join wrote is added: matched sales with a price, without one, and a sale without a match.
#[test]
fn of_a_join() {
    let options = priced();
    let mut join = Join::open_rows(&options, 8, 8).unwrap();
    let notices = [[Some(1), Some(10), Some(1800)], [Some(1), Some(20), None], [Some(2), Some(5), Some(2500)]];
    join.right(&Frame::new(3, &notices).unwrap()).unwrap();
    join.end_right().unwrap();
    let left = Frame::of_columns(&[&[1, 1, 1, 2], &[5, 15, 25, 6]]).unwrap();
    join.left(&left).unwrap();
    let mut output = [0; 64];
    let Turn::Wrote { matches, .. } = join.turn(&mut output).unwrap() else { panic!("nothing was written") };
    let mut takings = Takings::new(&options).unwrap();
    takings.add(&left, &matches.to_words()).unwrap();
    assert_eq!((rows(&takings), takings.unpriced()), (vec![(1, 1800, 1), (2, 2500, 1)], 1));
    assert_eq!(takings.words(), table(&[[1, 1800, 1], [2, 2500, 1]]));
    assert_eq!(Takings::from_words(&options, takings.words(), 1), Ok(takings));
}

/// Random frames added one after the other, and each by itself with the subtotals joined in any order: the sums by a map.
#[test]
fn all_orders() {
    let (mut state, options) = (7, Options { by: vec![ByColumn { descending: true, nulls_last: false }], ..priced() });
    for _ in 0..200 {
        let (mut whole, mut parts, mut map, mut unpriced) =
            (Takings::new(&options).unwrap(), vec![], BTreeMap::new(), 0);
        for _ in 0..next(&mut state) % 6 {
            let height = next(&mut state) % 9;
            let pick = |state: &mut u64, nulls| (next(state) % 10 >= nulls).then(|| next(state) as i64 % 7);
            let groups: Vec<_> = (0..height).map(|_| pick(&mut state, 1)).collect();
            let said: Vec<_> = (0..height).map(|_| (pick(&mut state, 3), pick(&mut state, 2))).collect();
            for (group, (number, amount)) in groups.iter().zip(&said) {
                match (group, number, amount) {
                    (Some(group), Some(_), Some(amount)) => {
                        let row = map.entry(-group).or_insert((0, 0));
                        (row.0, row.1) = (row.0 + amount, row.1 + 1);
                    },
                    (Some(_), Some(_), None) => unpriced += 1,
                    _ => {},
                }
            }
            let (left, said) = (sales(&groups), answers(&said));
            whole.add(&left, &said).unwrap();
            let mut part = Takings::new(&options).unwrap();
            part.add(&left, &said).unwrap();
            parts.push(part);
        }
        while parts.len() > 1 {
            let part = parts.swap_remove(next(&mut state) as usize % parts.len());
            let to = next(&mut state) as usize % parts.len();
            parts[to].join(&part).unwrap();
        }
        let sums: Vec<_> = map.iter().map(|(group, (total, sales))| (-group, *total, *sales)).collect();
        assert_eq!((rows(&whole), whole.unpriced()), (sums, unpriced));
        assert!(parts.iter().all(|part| *part == whole));
    }
}

/// 2^31 sales by subtotals joined with themselves; one more is refused, and nothing changes.
#[test]
fn limits() {
    let (left, said) = (sales(&[Some(7)]), answers(&[(Some(0), Some(1_000_000_000))]));
    let mut takings = Takings::new(&priced()).unwrap();
    takings.add(&left, &said).unwrap();
    for _ in 0..31 {
        takings.join(&takings.clone()).unwrap();
    }
    assert_eq!(rows(&takings), [(7, (1 << 31) * 1_000_000_000, 1 << 31)]);
    let full = takings.clone();
    assert_eq!(takings.add(&left, &said), Err(Refusal::Beyond));
    assert_eq!(takings.join(&full), Err(Refusal::Beyond));
    assert_eq!(takings, full);
    takings.add(&left, &answers(&[(Some(0), None)])).unwrap();
    assert_eq!(takings.unpriced(), 1);
    let many = Takings::from_words(&priced(), &[0, 3], 1 << 31).unwrap();
    assert_eq!(takings.join(&many), Err(Refusal::Beyond));
    for (row, unpriced) in
        [([1, 0, 0], 0), ([1, 1_000_000_001, 1], 0), ([1, 1, 1], (1 << 31) + 1), ([1, 1, 1], u64::MAX)]
    {
        assert_eq!(Takings::from_words(&priced(), &table(&[row]), unpriced), Err(Refusal::Beyond));
    }
    let far = |amount| Takings::new(&priced()).unwrap().add(&left, &answers(&[(Some(0), Some(amount))]));
    assert_eq!((far(1_000_000_000), far(-1_000_000_000)), (Ok(()), Ok(())));
    assert_eq!((far(1_000_000_001), far(-1_000_000_001)), (Err(Refusal::Beyond), Err(Refusal::Beyond)));
}

/// Every other refusal in its order; what is refused changes nothing.
#[test]
fn refusals() {
    let listed = |column| Options { ranks: Some(Ranks::new(column, [8, 9])), ..priced() };
    let opened = |options: &Options| Takings::new(options).unwrap_err();
    assert_eq!(opened(&Options { tolerance: Some(u64::MAX), carried: 9, ..priced() }), Refusal::BadOptions);
    assert_eq!(opened(&Options { carried: 9, ..listed(1) }), Refusal::TooManyCarried);
    assert_eq!(opened(&listed(1)), Refusal::BadRanks);
    assert_eq!(opened(&Options { carried: 0, ..priced() }), Refusal::BadColumns);
    let of = |options: &Options, words: &[i64]| Takings::from_words(options, words, 0).unwrap_err();
    assert_eq!(of(&priced(), &[0, 2]), Refusal::BadFrame);
    assert_eq!(of(&priced(), &[]), Refusal::BadFrame);
    assert_eq!(of(&listed(0), &table(&[[7, 1, 1]])), Refusal::UnknownCode);
    assert_eq!(of(&priced(), &table(&[[2, 1, 1], [1, 1, 1]])), Refusal::Unsorted);
    assert_eq!(of(&priced(), &table(&[[2, 1, 1], [2, 1, 1]])), Refusal::Unsorted);
    let mut takings = Takings::from_words(&listed(0), &table(&[[9, 1, 1]]), 3).unwrap();
    let (before, said) = (takings.clone(), answers(&[(Some(0), Some(1))]));
    assert_eq!(takings.add(&sales(&[]), &said), Err(Refusal::BadFrame));
    assert_eq!(takings.add(&[], &said), Err(Refusal::BadFrame));
    assert_eq!(takings.add(&sales(&[Some(7)]), &said), Err(Refusal::UnknownCode));
    assert_eq!(takings.add(&sales(&[Some(8)]), &Frame::of_keys(&[0]).unwrap()), Err(Refusal::BadColumns));
    let other = Takings::from_words(&priced(), &table(&[[7, 1, 1]]), 0).unwrap();
    assert_eq!(takings.join(&other), Err(Refusal::UnknownCode));
    assert_eq!(
        takings.join(&Takings::new(&Options { carried: 1, ..Options::default() }).unwrap()),
        Err(Refusal::BadFrame)
    );
    assert_eq!(takings, before);
    takings.add(&sales(&[Some(8)]), &said).unwrap();
    assert_eq!(rows(&takings), [(8, 1, 1), (9, 1, 1)]);
}
