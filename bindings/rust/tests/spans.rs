//! Spans over the archive: the bounds, the order and the numbers of pairs, every refusal, and all pairs by two plain loops.
use rowkeeper::{Bounds, Frame, Refusal, raw, spans, spans_words};

type Interval = [Option<i64>; 2];

/// The four choices of bounds.
const CHOICES: [Bounds; 4] = [
    Bounds::EXCLUSIVE,
    Bounds { lower_inclusive: false, upper_inclusive: true },
    Bounds { lower_inclusive: true, upper_inclusive: false },
    Bounds::INCLUSIVE,
];

/// The pairs, with an output that is just long enough, or the refusal.
fn pairs(points: &[i64], intervals: &[Interval], bounds: Bounds) -> Result<Vec<(u64, u64)>, Refusal> {
    let mut output = vec![7; spans_words(points.len() * intervals.len())];
    let points = Frame::of_keys(points).unwrap();
    let intervals = Frame::new(2, intervals).unwrap();
    Ok(spans(&points, &intervals, bounds, &mut output)?.iter().collect())
}

/// What is inside, told by two plain loops.
fn plain(points: &[i64], intervals: &[Interval], bounds: Bounds) -> Vec<(u64, u64)> {
    let mut found = vec![];
    for (i, [lower, upper]) in intervals.iter().enumerate() {
        let (Some(lower), Some(upper)) = (lower, upper) else { continue };
        for (j, point) in points.iter().enumerate() {
            let above = if bounds.lower_inclusive { point >= lower } else { point > lower };
            let below = if bounds.upper_inclusive { point <= upper } else { point < upper };
            if above && below {
                found.push((i as u64, j as u64));
            }
        }
    }
    found
}

/// Each bound inclusive or not; equal points are pairs of their own; a row with a null bound is counted.
#[test]
fn bounds() {
    let points = [10, 20, 20, 30];
    let intervals = [[Some(10), Some(20)], [Some(10), None], [Some(20), Some(10)], [Some(20), Some(30)]];
    assert_eq!(pairs(&points, &intervals, CHOICES[0]), Ok(vec![]));
    assert_eq!(pairs(&points, &intervals, CHOICES[1]), Ok(vec![(0, 1), (0, 2), (3, 3)]));
    assert_eq!(pairs(&points, &intervals, CHOICES[2]), Ok(vec![(0, 0), (3, 1), (3, 2)]));
    assert_eq!(pairs(&points, &intervals, CHOICES[3]), Ok(vec![(0, 0), (0, 1), (0, 2), (3, 1), (3, 2), (3, 3)]));
}

/// The ends of all numbers.
#[test]
fn ends() {
    let points = [i64::MIN, -1, 0, i64::MAX];
    let all = [[Some(i64::MIN), Some(i64::MAX)]];
    assert_eq!(pairs(&points, &all, Bounds::INCLUSIVE), Ok(vec![(0, 0), (0, 1), (0, 2), (0, 3)]));
    assert_eq!(pairs(&points, &all, Bounds::EXCLUSIVE), Ok(vec![(0, 1), (0, 2)]));
}

/// The words of the output: the table, and behind it what was there.
#[test]
fn words() {
    let (points, intervals) = (Frame::of_keys(&[10, 20]).unwrap(), Frame::new(2, &[[Some(5), Some(20)]]).unwrap());
    let mut output = [7; 12];
    let listed = spans(&points, &intervals, Bounds::INCLUSIVE, &mut output).unwrap();
    assert_eq!((listed.len(), listed.is_empty()), (2, false));
    assert_eq!(output, [2, 2, 0, 0, 0, 1, 1, 1, 1, 1, 7, 7]);
    let none = Frame::new::<Interval>(2, &[]).unwrap();
    assert!(spans(&points, &none, Bounds::INCLUSIVE, &mut output).unwrap().is_empty());
    assert_eq!(output[..4], [0, 2, 0, 0]);
}

/// Every refusal, in checking order, alters no word.
#[test]
fn refusals() {
    let (points, intervals) = (Frame::of_keys(&[10, 20]).unwrap(), Frame::new(2, &[[Some(5), Some(20)]]).unwrap());
    let falling = Frame::of_keys(&[20, 10]).unwrap();
    let null = Frame::new(1, &[[Some(10)], [None]]).unwrap();
    let mut output = [7; 10];
    let mut refused = |points: &[i64], intervals: &[i64], [lower, upper]: [u64; 2], room| {
        let written = raw::safe::spans(points, intervals, lower, upper, &mut output[..room]);
        assert_eq!((written.rows, output), (0, [7; 10]));
        written.refusal
    };
    assert_eq!(refused(&falling, &[], [2, 0], 0), 1);
    assert_eq!(refused(&falling, &[], [0, u64::MAX], 0), 1);
    assert_eq!(refused(&falling, &points, [1, 1], 0), 5);
    assert_eq!(refused(&intervals, &intervals, [1, 1], 10), 5);
    assert_eq!(refused(&[], &intervals, [1, 1], 10), 5);
    assert_eq!(refused(&falling, &intervals, [1, 1], 0), 16);
    assert_eq!(refused(&null, &intervals, [1, 1], 0), 16);
    assert_eq!(refused(&points, &intervals, [1, 1], 9), 6);
    assert_eq!(refused(&points, &intervals, [1, 1], 0), 6);
    assert_eq!(spans(&points, &intervals, Bounds::INCLUSIVE, &mut output[..9]), Err(Refusal::NoRoom));
    assert_eq!(spans(&null, &intervals, Bounds::INCLUSIVE, &mut output), Err(Refusal::BadPoints));
    assert!(spans(&points, &intervals, Bounds::INCLUSIVE, &mut output).is_ok());
}

/// 4,096 rows of each side, and one more.
#[test]
fn row_limit() {
    let keys: Vec<i64> = (0..4097).collect();
    let rows: Vec<Interval> = keys.iter().map(|key| [Some(*key), Some(*key)]).collect();
    let due: Vec<(u64, u64)> = (0..4096).map(|i| (i, i)).collect();
    let mut output = vec![7; spans_words(4096)];
    let (points, intervals) = (Frame::of_keys(&keys[..4096]).unwrap(), Frame::new(2, &rows[..4096]).unwrap());
    assert_eq!(spans(&points, &intervals, Bounds::INCLUSIVE, &mut output).unwrap().iter().collect::<Vec<_>>(), due);
    let long = |columns: i64, count: usize| [vec![4097, columns], vec![0; count], vec![1; count]].concat();
    assert_eq!(spans(&long(1, 4097), &intervals, Bounds::INCLUSIVE, &mut output), Err(Refusal::BadFrame));
    assert_eq!(spans(&points, &long(2, 8194), Bounds::INCLUSIVE, &mut output), Err(Refusal::BadFrame));
}

/// Small points and intervals, all choices: what two plain loops find.
#[test]
fn all_pairs() {
    let mut z = 1u64;
    let mut below = |n: u64| {
        z = z.wrapping_mul(6364136223846793005).wrapping_add(1442695040888963407);
        (z >> 33) % n
    };
    for _ in 0..2000 {
        let mut points: Vec<i64> = (0..below(7)).map(|_| below(9) as i64 - 4).collect();
        points.sort();
        let mut bound = || (below(8) > 0).then(|| below(11) as i64 - 5);
        let count = bound().unwrap_or(0).unsigned_abs() as usize;
        let intervals: Vec<Interval> = (0..count).map(|_| [bound(), bound()]).collect();
        for bounds in CHOICES {
            assert_eq!(pairs(&points, &intervals, bounds), Ok(plain(&points, &intervals, bounds)));
        }
    }
}
