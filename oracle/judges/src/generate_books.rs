//! Random books, made from a seed and a number alone, so that every input can be made again.
use crate::books;
use crate::generate::{NO_FLAGS, Pool, Random, words};
use crate::rules::Row;
use crate::script::{MOST_CODES, Merge, Options, Plan, Ranks, Standing};
use crate::whole_table::sort;

/// The families of these inputs among all random ones.
const MERGES: u64 = 0x26;
const STANDINGS: u64 = 0x27;
const PLANS: u64 = 0x2b;

/// What books are made of: values, how many of a hundred are null, and the codes of the list where there is one.
pub(crate) struct Shape {
    pub(crate) keys: Pool,
    pub(crate) groups: Pool,
    carried: Pool,
    nulls: usize,
    pub(crate) codes: Vec<i64>,
}

/// Up to so many codes, no two of them equal, in any order.
fn codes(r: &mut Random) -> Vec<i64> {
    let (most, pool) =
        (r.pick(&[1, 2, 3, 3, 5, MOST_CODES]), r.pick(&[Pool::Below(5), Pool::Below(100), Pool::Ends, Pool::Any]));
    let mut codes = vec![];
    for _ in 0..4 * most {
        let code = pool.value(r);
        if codes.len() < most && !codes.contains(&code) {
            codes.push(code);
        }
    }
    codes
}

/// Options that no call refuses, and what books under them are made of.
pub(crate) fn options(r: &mut Random) -> (Options, Shape) {
    let b = r.pick(&[0, 0, 0, 1, 1, 1, 2, 2, 3, 4]);
    let strategy = r.below(3) as i64;
    let small = [Pool::Below(2), Pool::Below(3), Pool::Below(6), Pool::Below(40), Pool::Ends, Pool::Any];
    let listed = b > 0 && r.percent(40);
    let codes = if listed { codes(r) } else { vec![] };
    let ranks = if listed { Ranks::of(r.below(b) as u64, codes.len() as u64, &codes) } else { Ranks::none() };
    let options = Options {
        b,
        strategy,
        eq: strategy == 2 || r.percent(60),
        tolerance: r.pick(&[-1, 0, 3, i64::MAX]),
        check: r.percent(50),
        strict: false,
        carried: r.pick(&[0, 0, 0, 1, 1, 2, 3, 8]),
        distance: r.percent(30) as u64,
        ranks,
        descending: (0..b).map(|_| r.percent(50)).collect(),
        nulls_last: (0..b).map(|_| r.percent(50)).collect(),
    };
    let groups = if b > 2 { Pool::Below(2) } else { r.pick(&[Pool::Below(2), Pool::Below(3), Pool::Ends]) };
    let shape = Shape { keys: r.pick(&small), groups, carried: r.pick(&small), nulls: r.pick(&[0, 0, 10, 30]), codes };
    (options, shape)
}

/// The same options with something that opening refuses by 1, 10 or 11.
pub(crate) fn refused(r: &mut Random, o: &mut Options) {
    match r.below(10) {
        0 => o.strategy = r.pick(&[3, 255]),
        1 => o.tolerance = r.pick(&[-2, i64::MIN]),
        2 => (o.strategy, o.eq) = (2, false),
        3 => {
            o.b = r.pick(&[5, 6]);
            (o.descending, o.nulls_last) = (vec![false; o.b], vec![false; o.b]);
        },
        4 | 5 => o.carried = r.pick(&[9, 10, 1 << 32, 1 << 63, u64::MAX]),
        6 => o.ranks = Ranks::of(r.below(5) as u64, r.pick(&[0, 65, 1 << 40, u64::MAX]), &[3; MOST_CODES]),
        7 => o.ranks = Ranks::of(o.b as u64 + r.below(3) as u64, 2, &[3, 4]),
        8 => o.distance = r.pick(&NO_FLAGS),
        _ => o.ranks = Ranks::of(0, 3, &[3, 4, 3]),
    }
}

/// A cell of the right rows' column j.
fn cell(r: &mut Random, o: &Options, s: &Shape, j: usize) -> Option<i64> {
    if r.percent(s.nulls) {
        return None;
    }
    let listed = o.ranks.given && o.ranks.column == j as u64;
    Some(match () {
        _ if listed => r.pick(&s.codes),
        _ if j < o.b => s.groups.value(r),
        _ if j == o.b => s.keys.value(r),
        _ => s.carried.value(r),
    })
}

/// A book's rows: sorted; a few of them exchanged, or one with a value that the list lacks, if it is to be refused.
fn book(r: &mut Random, o: &Options, s: &Shape, wrong: bool) -> Vec<Row> {
    rows(r, o, s, o.b + 1 + o.carried as usize, wrong)
}

/// The same of a table of so many columns.
pub(crate) fn rows(r: &mut Random, o: &Options, s: &Shape, columns: usize, wrong: bool) -> Vec<Row> {
    let long = 4090 + r.below(20);
    let many = if r.percent(1) && r.percent(10) { long } else { r.pick(&[0, 1, 2, 3, 5, 8, 20]) };
    let mut rows = sorted(r, o, s, columns, many);
    if wrong {
        spoil(r, o, &mut rows);
    }
    rows
}

/// So many rows of so many columns, sorted.
pub(crate) fn sorted(r: &mut Random, o: &Options, s: &Shape, columns: usize, many: usize) -> Vec<Row> {
    let mut rows: Vec<Row> = (0..many).map(|_| (0..columns).map(|j| cell(r, o, s, j)).collect()).collect();
    sort(o, &mut rows);
    rows
}

/// Exchanges two rows, or puts a value into one that the list lacks.
pub(crate) fn spoil(r: &mut Random, o: &Options, rows: &mut [Row]) {
    if rows.is_empty() {
        return;
    }
    let (i, j) = (r.below(rows.len()), r.below(rows.len()));
    if o.ranks.given && r.percent(50) {
        rows[i][o.ranks.column as usize] = Some(Pool::Any.value(r));
    } else {
        rows.swap(i, j);
    }
}

/// The same words with something in them that breaks the table rule, most of the time.
pub(crate) fn broken(r: &mut Random, words: Vec<i64>) -> Vec<i64> {
    let kind = r.below(9);
    broken_so(r, kind, &[-1, i64::MIN, i64::MAX, 1 << 62, 1 << 32], words)
}

/// The same, broken in this way out of nine; one of them gives it a number of rows that it cannot have.
pub(crate) fn broken_so(r: &mut Random, kind: usize, rows: &[i64], mut words: Vec<i64>) -> Vec<i64> {
    let last = words.len() - 1;
    let half = 2 + (words.len() - 2) / 2;
    match kind {
        0 => words.truncate(r.below(words.len())),
        1 => words.push(r.pick(&[0, 1])),
        2 => words[0] += r.pick(&[-1, 1]),
        3 => words[0] = r.pick(rows),
        4 => words[1] = r.pick(&[0, 1, 2, 3, -1, i64::MIN, i64::MAX]),
        5 => words[last] = r.pick(&[2, -1, i64::MIN, i64::MAX, 256]),
        6 => words[half.min(last)] = r.pick(&[2, -1, 0]),
        7 if half <= last => (words[2], words[half]) = (r.pick(&[1, -1, i64::MIN]), 0),
        _ => words.clear(),
    }
    words
}

/// A book's words: one in sixteen broken.
fn table(r: &mut Random, o: &Options, s: &Shape, wrong: bool) -> Vec<i64> {
    let words = words(&book(r, o, s, wrong), o.b + 1 + o.carried as usize);
    if r.below(16) == 0 { broken(r, words) } else { words }
}

/// The output's length: just enough, longer, one short, or any that is shorter.
pub(crate) fn output(r: &mut Random, needed: usize) -> usize {
    match r.below(20) {
        0 | 1 => needed - 1,
        2 => needed - 2,
        3 => r.below(needed),
        4..=9 => needed + 1 + r.below(9),
        _ => needed,
    }
}

/// The merge of this number among a seed's, and its options.
pub fn merge(seed: u64, number: u64) -> (Options, Merge) {
    let r = &mut Random::of_family(seed, MERGES, number);
    let (mut o, s) = options(r);
    let (wrong, both) = (r.percent(12), r.percent(60));
    let (house, festival) = (table(r, &o, &s, wrong && both), table(r, &o, &s, wrong));
    let mut call = Merge { output: 0, house, festival };
    if r.percent(6) {
        refused(r, &mut o);
    }
    let needed = books::merged(&o, &call).map_or_else(|_| 2 + 4 * r.below(5), |words| words.len());
    call.output = output(r, needed);
    (o, call)
}

/// A place among the carried columns, now and then none of them.
fn place(r: &mut Random, carried: u64) -> u64 {
    match r.below(12) {
        0 => r.pick(&[carried, carried.wrapping_add(1), 8, 1 << 32, 1 << 63, u64::MAX]),
        _ if carried == 0 => 0,
        _ => r.below(carried as usize) as u64,
    }
}

/// The question which notice stands of this number among a seed's, and its options. Keys are few, so that notices are corrected,
/// and one carried cell in three withdraws.
pub fn standing(seed: u64, number: u64) -> (Options, Standing) {
    let r = &mut Random::of_family(seed, STANDINGS, number);
    let (mut o, mut s) = options(r);
    (s.keys, s.carried) = (r.pick(&[Pool::Below(2), Pool::Below(4), Pool::Below(9), Pool::Ends]), Pool::Below(3));
    o.carried = if r.percent(90) { o.carried.max(1) } else { 0 };
    let wrong = r.percent(12);
    let book = table(r, &o, &s, wrong);
    if r.percent(6) {
        refused(r, &mut o);
    }
    let mut call = Standing { place: place(r, o.carried.min(8)), output: 0, book };
    let needed = books::listed(&o, &call).map_or_else(|_| 2 + 4 * r.below(5), |words| words.len());
    call.output = output(r, needed);
    (o, call)
}

/// Heights that cut so many rows, of at most so many each; now and then others.
fn heights(r: &mut Random, rows: usize, most: usize, wrong: bool) -> Vec<i64> {
    let (mut left, mut heights) = (rows, vec![]);
    while left > 0 || r.percent(10) {
        let height = r.below(most.min(left) + 1);
        heights.push(height as i64);
        left -= height;
    }
    if wrong {
        let at = r.below(heights.len() + 1);
        match r.below(5) {
            0 => heights.insert(at, r.pick(&[1, -1, 4097, i64::MIN, i64::MAX])),
            1 => heights.extend([-1, 1]),
            2 => heights.extend([i64::MAX, i64::MAX, 2]),
            _ if at < heights.len() => heights[at] += r.pick(&[-1, 1, 4097, i64::MIN]),
            _ => heights.truncate(at / 2),
        }
    }
    heights
}

/// The plan of this number among a seed's, and its options.
pub fn plan(seed: u64, number: u64) -> (Options, Plan) {
    let r = &mut Random::of_family(seed, PLANS, number);
    let (mut o, mut s) = options(r);
    if r.percent(50) {
        s.keys = r.pick(&[Pool::Below(40), Pool::Below(200), Pool::Any]);
    }
    let (c, w) = (o.b + 1, o.b + 1 + o.carried as usize);
    let wrong = [r.percent(4), r.percent(4), r.percent(4), r.percent(4)];
    let (left, right) = (rows(r, &o, &s, c, wrong[0]), rows(r, &o, &s, w, wrong[1]));
    let most = |r: &mut Random, many: usize| if many > 100 { r.pick(&[700, 4096]) } else { r.pick(&[1, 2, 3, 5, 20]) };
    let (tall, high) = (most(r, left.len()), most(r, right.len()));
    let left_heights = heights(r, left.len(), tall, wrong[2]);
    let right_heights = heights(r, right.len(), high, wrong[3]);
    let told = |r: &mut Random, rows: &[Row], columns: usize| {
        let words = words(rows, columns);
        if r.below(32) == 0 { broken(r, words) } else { words }
    };
    let (left, right) = (told(r, &left, c), told(r, &right, w));
    if r.percent(6) {
        refused(r, &mut o);
    }
    (o, Plan { left, right, left_heights, right_heights })
}
