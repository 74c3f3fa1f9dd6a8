//! Short scripts, all of them: every small table under every option, and every pair of port calls.
use crate::script::{Call, Open, Options, Ranks};

/// A row of one to three cells.
type Row = Vec<Option<i64>>;

/// All rows of b by-columns and a key over null and the numbers below these: by-values, keys.
fn all_rows(b: usize, below: [i64; 2]) -> Vec<Row> {
    let cells = |below: i64| [None].into_iter().chain((0..below).map(Some));
    let with = |rows: Vec<Row>, below: i64| {
        rows.iter().flat_map(|r| cells(below).map(|c| [r.as_slice(), &[c]].concat())).collect()
    };
    with((0..b).fold(vec![vec![]], |rows, _| with(rows, below[0])), below[1])
}

/// A cell that row i carries in column j: each row others, nulls among them.
fn carried_cell(i: usize, j: usize) -> Option<i64> {
    ((i + j) % 3 != 2).then_some(7 - 5 * i as i64 + j as i64)
}

/// All tables of up to this many of these rows, as frames' words, with so many carried cells behind each row.
fn all_frames(rows: &[Row], most: usize, carried: usize) -> Vec<Vec<i64>> {
    let mut tables: Vec<Vec<&Row>> = vec![vec![]];
    let mut last = tables.clone();
    for _ in 0..most {
        last = last.iter().flat_map(|t| rows.iter().map(|r| [t.as_slice(), &[r]].concat())).collect();
        tables.extend(last.iter().cloned());
    }
    let c = (rows[0].len() + carried) as i64;
    let row =
        |(i, r): (usize, &&Row)| (*r).iter().copied().chain((0..carried).map(move |j| carried_cell(i, j))).collect();
    let frame = |t: &Vec<&Row>| {
        let t: Vec<Row> = t.iter().enumerate().map(row).collect();
        let cells = || t.iter().flatten();
        let mut out = vec![t.len() as i64, c];
        out.extend(cells().map(|x| x.unwrap_or(0)));
        out.extend(cells().map(|x| x.is_some() as i64));
        out
    };
    tables.iter().map(frame).collect()
}

/// All options of this shape.
fn all_options(s: &Small) -> Vec<Options> {
    let mut out = vec![];
    for bits in 0..2 << (2 * s.b) {
        let on = |i: usize| bits >> i & 1 == 1;
        for (strategy, eq) in [(0, true), (0, false), (1, true), (1, false), (2, true)] {
            for tolerance in s.tolerances {
                let (descending, nulls_last) = ((0..s.b).map(|j| on(1 + 2 * j)), (0..s.b).map(|j| on(2 + 2 * j)));
                out.push(Options {
                    b: s.b,
                    strategy,
                    eq,
                    tolerance: *tolerance,
                    check: on(0),
                    strict: false,
                    carried: s.carried as u64,
                    distance: s.distance as u64,
                    ranks: s.list.map_or(Ranks::none(), |(at, codes)| Ranks::of(at, codes.len() as u64, codes)),
                    descending: descending.collect(),
                    nulls_last: nulls_last.collect(),
                });
            }
        }
    }
    out
}

/// Opens with areas that are enough for one small frame a side.
fn opens(options: &Options) -> Vec<Call> {
    let open = Open { options: options.clone(), left_words: 64, right_words: 64 };
    open.calls(options.carried == 0 && options.distance == 0 && !options.ranks.given)
}

/// One right frame, one left frame, a turn with right open and one with right ended.
fn one_frame_each(o: &Options, left: &[i64], right: &[i64]) -> Vec<Call> {
    let turn = || Call::Turn(2 + 2 * left[0] as usize * (1 + o.carried as usize + o.distance as usize));
    let (left, right) = (Call::Left(left.to_vec()), Call::Right(right.to_vec()));
    opens(o).into_iter().chain([right, left, turn(), Call::End, turn()]).collect()
}

/// What the tables of short scripts are made of.
#[derive(Clone, Copy)]
struct Small<'a> {
    b: usize,
    /// By-values and keys are null or numbers below these.
    below: [i64; 2],
    /// The most rows, left and right.
    most: [usize; 2],
    tolerances: &'a [i64],
    carried: usize,
    /// Whether the distance is written.
    distance: bool,
    /// The column of a list, and its codes.
    list: Option<(u64, &'a [i64])>,
}

/// No by-columns; keys null, 0, 1, 2.
const KEYS: Small =
    Small { b: 0, below: [0, 3], most: [2, 3], tolerances: &[-1, 0, 1], carried: 0, distance: false, list: None };

/// One by-column; groups and keys null, 0, 1.
const GROUPS: Small =
    Small { b: 1, below: [2, 2], most: [1, 2], tolerances: &[-1], carried: 0, distance: false, list: None };

/// Hands every script of all small tables to `each`, until it says stop.
fn tables(s: Small, each: &mut dyn FnMut(&[Call]) -> bool) -> bool {
    let rows = all_rows(s.b, s.below);
    let (left, right) = (all_frames(&rows, s.most[0], 0), all_frames(&rows, s.most[1], s.carried));
    let scripts = all_options(&s).into_iter().flat_map(|o| {
        let right = &right;
        left.iter().flat_map(move |l| right.iter().map(move |r| (l, r))).map(move |(l, r)| one_frame_each(&o, l, r))
    });
    scripts.into_iter().all(|s| each(&s))
}

/// Every pair of port calls, with a frame waiting or none, and a turn after them.
fn ports(each: &mut dyn FnMut(&[Call]) -> bool) -> bool {
    let all: Vec<[u8; 3]> = (0..27).map(|i| [i / 9, i / 3 % 3, i % 3]).collect();
    let open = opens(&all_options(&Small { tolerances: &[-1], ..KEYS })[0]);
    let pairs = all.iter().flat_map(|p| all.iter().map(move |q| (p, q)));
    let mut scripts = pairs.flat_map(|(p, q)| [false, true].map(|waits| (p, q, waits)));
    scripts.all(|(p, q, waits)| {
        let mut calls = open.clone();
        calls.extend(waits.then(|| Call::Left(vec![0, 1])));
        calls.extend([Call::Ports(*p), Call::Turn(2), Call::Ports(*q), Call::Turn(2), Call::Ports(*p)]);
        each(&calls)
    })
}

/// All of it without lists: tables without by-columns and with one; the same with fewer rows and one or two carried
/// columns, with the distance, and with both.
pub fn all(each: &mut dyn FnMut(&[Call]) -> bool) -> bool {
    let prices = Small { most: [2, 2], tolerances: &[-1, 0], carried: 2, ..KEYS };
    let group_prices = Small { most: [1, 1], carried: 1, ..GROUPS };
    let far = Small { most: [2, 2], distance: true, ..KEYS };
    let far_prices = Small { distance: true, ..group_prices };
    ports(each) && [KEYS, GROUPS, prices, group_prices, far, far_prices].into_iter().all(|small| tables(small, each))
}

/// The same with lists: one by-column whose list turns the numbers round, or lacks one of them; two by-columns, of which
/// either has a list.
pub fn listed(each: &mut dyn FnMut(&[Call]) -> bool) -> bool {
    let round: [&[i64]; 2] = [&[1, 0], &[1]];
    let one = round.map(|codes| Small { list: Some((0, codes)), ..GROUPS });
    let two = [0, 1].map(|at| Small { b: 2, below: [2, 1], most: [1, 1], list: Some((at, &[1, 0])), ..GROUPS });
    one.into_iter().chain(two).all(|small| tables(small, each))
}

/// Right tables with values that the list lacks, as only a host can write them: groups null, 0, 1, 2, of which the list
/// has 1.
pub fn lacked(each: &mut dyn FnMut(&[Call]) -> bool) -> bool {
    tables(Small { below: [3, 1], list: Some((0, &[1])), most: [1, 3], ..GROUPS }, each)
}
