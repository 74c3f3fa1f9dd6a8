//! Random points and intervals, made from a seed and a number alone, so that every input can be made again.
use crate::generate::{Random, words};
use crate::generate_books::{broken_so, output};
use crate::rules::Row;
use crate::script::Spans;
use crate::spans;

/// The family of these inputs among all random ones.
const FAMILY: u64 = 0x29;

/// The most rows that a side may have.
const MOST: usize = 4096;

/// Where values come from: so many from a first one on, or both ends of the 64-bit range and around 0.
#[derive(Clone, Copy)]
enum Pool {
    From(i64, usize),
    Ends,
}

impl Pool {
    /// A value of the pool.
    fn value(self, r: &mut Random) -> i64 {
        const ENDS: [i64; 9] = [i64::MIN, i64::MIN + 1, i64::MIN + 2, -1, 0, 1, i64::MAX - 2, i64::MAX - 1, i64::MAX];
        match self {
            Pool::From(first, count) => first + r.below(count) as i64,
            Pool::Ends => r.pick(&ENDS),
        }
    }

    /// A bound: a value of the pool, or one beside it.
    fn bound(self, r: &mut Random) -> i64 {
        self.value(r).saturating_add(r.pick(&[-1, 0, 0, 0, 1]))
    }
}

/// What an input is made of: rows of both sides, values, how many of a hundred bounds are null, and whether intervals are
/// so short that few points lie in one.
struct Shape {
    points: usize,
    intervals: usize,
    pool: Pool,
    nulls: usize,
    short: bool,
}

/// A long side's rows.
fn long(r: &mut Random) -> usize {
    let any = 1 + r.below(MOST);
    r.pick(&[MOST, MOST, MOST - 1, any])
}

/// A shape: mostly few rows, now and then one side long, seldom both, with short intervals then.
fn shape(r: &mut Random) -> Shape {
    let (points, intervals, short) = match r.below(400) {
        0 => (long(r), long(r), true),
        1..=4 => (long(r), r.below(5), false),
        5..=8 => (r.below(5), long(r), false),
        9..=40 => (r.below(40), r.below(40), false),
        41..=48 => (r.below(130), r.below(130), false),
        _ => (r.below(9), r.below(9), false),
    };
    let count = if short { 1 << 20 } else { r.pick(&[2, 5, 12, 40, 4096]) };
    let first = r.pick(&[0, -(count as i64) / 2, i64::MIN, i64::MAX - count as i64 + 1]);
    let pool = if !short && r.percent(25) { Pool::Ends } else { Pool::From(first, count) };
    Shape { points, intervals, pool, nulls: r.pick(&[0, 0, 0, 10, 30]), short }
}

/// The points: most often sorted, else two of them exchanged, one replaced, or some null.
fn points(r: &mut Random, s: &Shape) -> Vec<Row> {
    let mut values: Vec<i64> = (0..s.points).map(|_| s.pool.value(r)).collect();
    values.sort();
    let mut rows: Vec<Row> = values.into_iter().map(|v| vec![Some(v)]).collect();
    if rows.is_empty() {
        return rows;
    }
    let (i, j) = (r.below(rows.len()), r.below(rows.len()));
    match r.below(40) {
        0 | 1 => rows.swap(i, j),
        2 | 3 => rows.swap(i, i.saturating_sub(1)),
        4 => rows[i] = vec![Some(s.pool.value(r))],
        5 | 6 => rows[i] = vec![None],
        7 => rows[0] = vec![None],
        _ => {},
    }
    rows
}

/// An interval: lower below upper most often, else equal, above, or as they come; a bound may be null.
fn interval(r: &mut Random, s: &Shape) -> Row {
    let (a, b) = (s.pool.bound(r), s.pool.bound(r));
    let (lower, upper) = match r.below(10) {
        _ if s.short => (a, a.saturating_add(r.below(1 << 13) as i64)),
        0 => (a, a),
        1 => (a.max(b), a.min(b)),
        2 | 3 => (a, b),
        _ => (a.min(b), a.max(b)),
    };
    [lower, upper].into_iter().map(|bound| Some(bound).filter(|_| !r.percent(s.nulls))).collect()
}

/// The same words with something in them that breaks the frame rule, most of the time.
fn broken(r: &mut Random, frame: Vec<i64>) -> Vec<i64> {
    match r.below(10) {
        8 => words(&vec![vec![Some(0); frame[1] as usize]; MOST + 1], frame[1] as usize),
        kind => broken_so(r, kind, &[-1, 4097, i64::MIN, i64::MAX, 1 << 62, 1 << 32], frame),
    }
}

/// Breaks one of both tables, or both, or takes each for the other.
fn break_tables(r: &mut Random, call: &mut Spans) {
    let which = r.below(10);
    if which < 5 {
        call.points = broken(r, std::mem::take(&mut call.points));
    }
    if (4..9).contains(&which) {
        call.intervals = broken(r, std::mem::take(&mut call.intervals));
    }
    if which == 9 {
        std::mem::swap(&mut call.points, &mut call.intervals);
    }
}

/// The input of this number among a seed's.
pub fn input(seed: u64, number: u64) -> Spans {
    let r = &mut Random::of_family(seed, FAMILY, number);
    let s = shape(r);
    let (mut lower, mut upper) = (r.below(2) as i64, r.below(2) as i64);
    if r.percent(3) {
        let other = r.pick(&[2, 3, -1, 256, 1 << 32, i64::MIN, i64::MAX]);
        if r.percent(50) { lower = other } else { upper = other }
    }
    let points = words(&points(r, &s), 1);
    let intervals: Vec<Row> = (0..s.intervals).map(|_| interval(r, &s)).collect();
    let mut call = Spans { lower, upper, output: 0, points, intervals: words(&intervals, 2) };
    if r.percent(8) {
        break_tables(r, &mut call);
    }
    let needed = spans::table(&call).map_or(2 + 4 * r.below(5), |words| words.len());
    call.output = output(r, needed);
    call
}

/// All lists of up to this many of these rows.
fn all_lists(rows: &[Row], most: usize) -> Vec<Vec<Row>> {
    let mut lists = vec![vec![]];
    for at in (0..most).map(|n| (0..n).map(|k| rows.len().pow(k as u32)).sum::<usize>()) {
        let longer =
            lists[at..].iter().flat_map(|list: &Vec<Row>| rows.iter().map(|r| [&list[..], &[r.clone()]].concat()));
        let longer: Vec<Vec<Row>> = longer.collect();
        lists.extend(longer);
    }
    lists
}

/// All short inputs: every list of up to three points and of up to one interval over null, -1, 0 and 1, with every choice of
/// bounds, and an output that is just enough.
pub fn all_short() -> impl Iterator<Item = Spans> {
    let cells = [None, Some(-1), Some(0), Some(1)];
    let points = all_lists(&cells.map(|cell| vec![cell]), 3);
    let bounds: Vec<Row> = cells.iter().flat_map(|lower| cells.iter().map(|upper| vec![*lower, *upper])).collect();
    let intervals = all_lists(&bounds, 1);
    let flags = [(0, 0), (0, 1), (1, 0), (1, 1)];
    let count = points.len() * intervals.len() * flags.len();
    (0..count).map(move |i| {
        let (lower, upper) = flags[i % 4];
        let (points, intervals) = (&points[i / 4 / intervals.len()], &intervals[i / 4 % intervals.len()]);
        let call = Spans { lower, upper, output: 0, points: words(points, 1), intervals: words(intervals, 2) };
        Spans { output: spans::table(&call).map_or(2, |words| words.len()), ..call }
    })
}
