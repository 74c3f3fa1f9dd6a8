//! Random scripts, made from a seed and a number alone, so that every one can be made again.
use crate::generate_ranks::{self, Listed, Values};
use crate::rules::Rules;
use crate::script::{Answer, Call, Judge, Open, Options, Place, Ranks, opening};
use crate::whole_table::{self, Row};
use crate::words::{CARRIED, CHECK, COUNTERS, DISTANCE, ENDED, PRUNED, QUEUE_START, RANKS, ROWS, SEQUENCE, STATE};

/// What a script is made to reach.
#[derive(Clone, Copy, Debug, PartialEq)]
pub enum Kind {
    /// Both sides sorted, everything handed in and turned: for the whole-table rule.
    Whole,
    /// Sorted, nearly sorted and unsorted sides, all options, ports and ends of right at any moment.
    Mixed,
    /// Turns in Flush: frames wait when left is done.
    Flush,
    /// One by-column with nulls last over unsorted rows, many null groups.
    NullsLast,
    /// The order check on, rows out of order here and there: faults at each place.
    Order,
    /// Keys, groups and tolerances at both ends of the 64-bit range.
    Ends,
    /// Small areas, broken frames, calls at the wrong time: what SCOPE refuses, and the Rust does not know.
    Refusals,
    /// As refusals, and between the calls the host alters words of the join and of the areas.
    Handed,
    /// One to three distinct keys in long runs, in any order: equal keys on both sides.
    Equal,
    /// Thousands of rows a side, frames of up to 4,096: long groups and long runs of equal keys, both ends of the 64-bit
    /// range. A script of this kind takes as long as a thousand others.
    Large,
    /// The order check strict, many null keys, rows out of order here and there: what the Rust does not have.
    Strict,
}

/// Numbers in the place of a flag that are none.
pub(crate) const NO_FLAGS: [u64; 5] = [2, 3, 255, 1 << 63, u64::MAX];

/// The kinds that the recorded sample is made of: it stays as it is when a kind is added.
pub const RECORDED: [Kind; 6] = [Kind::Whole, Kind::Mixed, Kind::Flush, Kind::NullsLast, Kind::Order, Kind::Ends];

/// All kinds that the Rust and the rules are compared on, but for large tables.
pub const COMPARED: [Kind; 7] = {
    let [a, b, c, d, e, f] = RECORDED;
    [a, b, c, d, e, f, Kind::Equal]
};

impl Kind {
    /// The kind of a name, as the command line gives it.
    pub fn named(name: &str) -> Option<Kind> {
        let all = COMPARED.into_iter().chain([Kind::Refusals, Kind::Handed, Kind::Large, Kind::Strict]);
        all.into_iter().find(|k| format!("{k:?}").eq_ignore_ascii_case(name))
    }
}

/// A source of random numbers (splitmix64).
pub struct Random(u64);

impl Random {
    /// The source of a script: its seed, kind and number.
    fn new(seed: u64, kind: Kind, number: u64) -> Self {
        Self::of_family(seed, kind as u64 + 1, number)
    }

    /// The source of what a script carries: another one than that of its calls, which are the same whatever it carries.
    fn of_carried(seed: u64, kind: Kind, number: u64) -> Self {
        Self::of_family(seed, kind as u64 + 65, number)
    }

    /// The source of a script's list: another one too.
    pub(crate) fn of_list(seed: u64, kind: Kind, number: u64) -> Self {
        Self::of_family(seed, kind as u64 + 129, number)
    }

    /// The source of what a host does to the word for the distance: another one too.
    fn of_distance(seed: u64, kind: Kind, number: u64) -> Self {
        Self::of_family(seed, kind as u64 + 193, number)
    }

    /// The source of a number among a seed's scripts of a family: kinds of scripts over joins have 1 to 11, what they carry
    /// 65 to 75, their lists 129 to 139, their distances 193 to 203.
    pub(crate) fn of_family(seed: u64, family: u64, number: u64) -> Self {
        let mut out = Random(seed ^ (family << 56));
        out.0 = out.next() ^ number.wrapping_mul(0x9E37_79B9_7F4A_7C15);
        out.next();
        out
    }

    /// Any 64 bits.
    fn next(&mut self) -> u64 {
        self.0 = self.0.wrapping_add(0x9E37_79B9_7F4A_7C15);
        let mut z = self.0;
        z = (z ^ (z >> 30)).wrapping_mul(0xBF58_476D_1CE4_E5B9);
        z = (z ^ (z >> 27)).wrapping_mul(0x94D0_49BB_1331_11EB);
        z ^ (z >> 31)
    }

    /// A number below n.
    pub(crate) fn below(&mut self, n: usize) -> usize {
        (self.next() >> 11) as usize % n
    }

    /// True in so many of a hundred cases.
    pub(crate) fn percent(&mut self, n: usize) -> bool {
        self.below(100) < n
    }

    /// One of these.
    pub(crate) fn pick<T: Copy>(&mut self, from: &[T]) -> T {
        from[self.below(from.len())]
    }
}

/// Where values come from.
#[derive(Clone, Copy)]
pub(crate) enum Pool {
    /// 0 to this less 1, so that equal values are common.
    Below(usize),
    /// Both ends of the 64-bit range, and around 0.
    Ends,
    /// Any 64 bits, and often an end.
    Any,
}

impl Pool {
    /// A value of the pool.
    pub(crate) fn value(self, r: &mut Random) -> i64 {
        const ENDS: [i64; 9] = [i64::MIN, i64::MIN + 1, i64::MIN + 2, -1, 0, 1, i64::MAX - 2, i64::MAX - 1, i64::MAX];
        match self {
            Pool::Below(n) => r.below(n) as i64,
            Pool::Ends => r.pick(&ENDS),
            Pool::Any if r.percent(30) => r.pick(&ENDS),
            Pool::Any => r.next() as i64,
        }
    }
}

/// How a side's rows stand.
#[derive(Clone, Copy, PartialEq)]
enum Arrangement {
    Sorted,
    Nearly,
    Unsorted,
}

/// What a script's tables are made of.
struct Shape {
    options: Options,
    keys: Pool,
    groups: Pool,
    null_keys: usize,
    null_groups: usize,
    /// What rows have in the column of the list.
    listed: Option<Values>,
    /// The fewest and the most rows a side.
    least: usize,
    rows: usize,
}

/// A tolerance: none, 0, the greatest, or near the distances of the keys.
fn tolerance(r: &mut Random, keys: Pool) -> i64 {
    match (r.below(10), keys) {
        (0..=3, _) => -1,
        (4, _) => 0,
        (5, _) => i64::MAX,
        (6, Pool::Ends | Pool::Any) => r.pick(&[i64::MAX - 1, i64::MAX - 2, 1 << 62]),
        _ => 1 + r.below(4) as i64,
    }
}

/// Options with this many by-columns that carry nothing, write no distance and have no list.
fn options(r: &mut Random, b: usize, keys: Pool) -> Options {
    let strategy = r.below(3) as i64;
    Options {
        b,
        strategy,
        eq: strategy == 2 || r.percent(60),
        tolerance: tolerance(r, keys),
        check: r.percent(50),
        strict: false,
        carried: 0,
        distance: 0,
        ranks: Ranks::none(),
        descending: (0..b).map(|_| r.percent(50)).collect(),
        nulls_last: (0..b).map(|_| r.percent(50)).collect(),
    }
}

/// The shape of a kind's scripts; with a list there is a by-column.
fn shape(r: &mut Random, kind: Kind, lists: bool) -> Shape {
    let b = match kind {
        Kind::NullsLast => 1,
        _ if lists => r.pick(&[1, 1, 1, 2, 2, 3, 4]),
        _ => r.pick(&[0, 0, 0, 1, 1, 1, 2, 2, 3, 4]),
    };
    let small = [Pool::Below(3), Pool::Below(6), Pool::Below(12), Pool::Below(40), Pool::Ends];
    let keys = match kind {
        Kind::Ends => Pool::Ends,
        Kind::Equal => r.pick(&[Pool::Below(1), Pool::Below(2), Pool::Below(3)]),
        _ => r.pick(&small),
    };
    let groups = match b {
        _ if kind == Kind::Ends || r.percent(5) => Pool::Ends,
        3 | 4 => Pool::Below(2),
        _ => r.pick(&[Pool::Below(2), Pool::Below(3)]),
    };
    let mut options = options(r, b, keys);
    let (mut null_keys, mut null_groups) = (r.pick(&[0, 0, 10, 30]), r.pick(&[0, 0, 10, 25]));
    match kind {
        Kind::NullsLast => {
            (options.nulls_last[0], options.check, null_groups) = (true, r.percent(15), 30);
        },
        Kind::Order => (options.check, null_keys) = (true, r.pick(&[0, 20, 40])),
        Kind::Strict => (options.check, options.strict, null_keys) = (true, true, r.pick(&[0, 20, 40, 60])),
        _ => {},
    }
    let rows = match kind {
        Kind::Equal => r.pick(&[30, 60, 120]),
        _ if r.percent(2) => 60,
        _ => r.pick(&[3, 6, 10, 16, 24]),
    };
    Shape { options, keys, groups, null_keys, null_groups, listed: None, least: 0, rows }
}

/// The shape of a script with large tables: few groups or many, keys in long runs or seldom equal.
fn large_shape(r: &mut Random, lists: bool) -> Shape {
    let b = if lists { r.pick(&[1, 1, 2, 3, 4]) } else { r.pick(&[0, 0, 1, 1, 2, 3, 4]) };
    let keys = [Pool::Below(1), Pool::Below(3), Pool::Below(40), Pool::Below(2000), Pool::Ends, Pool::Any, Pool::Any];
    let keys = r.pick(&keys);
    let groups = r.pick(&[Pool::Below(1), Pool::Below(2), Pool::Below(3), Pool::Below(60), Pool::Ends]);
    let (null_keys, null_groups) = (r.pick(&[0, 0, 1, 10, 60]), r.pick(&[0, 0, 1, 10]));
    let (options, rows) = (options(r, b, keys), r.pick(&[4000, 7000, 9000, 12_000]));
    Shape { options, keys, groups, null_keys, null_groups, listed: None, least: 1500, rows }
}

/// A value of the shape's by-column j: of the list's, what belongs there.
fn by_value(r: &mut Random, s: &Shape, j: usize) -> i64 {
    let listed = s.listed.as_ref().and_then(|values| values.value(r, j));
    listed.unwrap_or_else(|| s.groups.value(r))
}

/// A row of the shape.
fn row(r: &mut Random, s: &Shape) -> Row {
    let mut out: Row = vec![];
    for j in 0..s.options.b {
        out.push(if r.percent(s.null_groups) { None } else { Some(by_value(r, s, j)) });
    }
    out.push(if r.percent(s.null_keys) { None } else { Some(s.keys.value(r)) });
    out
}

/// A side's whole table, sorted by the whole-table judge's own order: the step rules have no say in what is sorted.
fn table(r: &mut Random, s: &Shape, how: Arrangement) -> Vec<Row> {
    let count = s.least + r.below(s.rows - s.least + 1);
    let mut rows: Vec<Row> = (0..count).map(|_| row(r, s)).collect();
    if how != Arrangement::Unsorted {
        whole_table::sort(&s.options, &mut rows);
    }
    if how == Arrangement::Nearly && !rows.is_empty() {
        let (i, j) = (r.below(rows.len()), r.below(rows.len()));
        match r.below(3) {
            0 => rows.swap(i, j),
            1 => rows[i] = row(r, s),
            _ => rows[i..].rotate_left(1),
        }
    }
    rows
}

/// What a script carries, and whether its answers tell the distance.
struct Carried {
    r: Random,
    p: usize,
    /// The source of what is done to the word for the distance, where it is on.
    distance: Option<Random>,
    /// Whether one line opens the join, which can only say that nothing is carried and no distance written.
    one_line: bool,
}

impl Carried {
    /// Nothing, as one line says.
    fn nothing(seed: u64, kind: Kind, number: u64) -> Self {
        Carried { r: Random::of_carried(seed, kind, number), p: 0, distance: None, one_line: true }
    }

    /// What it carries else, with the distance.
    fn with_distance(seed: u64, kind: Kind, number: u64) -> Self {
        let distance = Some(Random::of_distance(seed, kind, number));
        Carried { distance, one_line: false, ..Self::at_least(0, seed, kind, number) }
    }

    /// True in so many of a hundred cases where the distance is on.
    fn distance_percent(&mut self, n: usize) -> bool {
        self.distance.as_mut().is_some_and(|r| r.percent(n))
    }

    /// Up to eight columns, often few, and at least so many.
    fn at_least(least: usize, seed: u64, kind: Kind, number: u64) -> Self {
        let mut r = Random::of_carried(seed, kind, number);
        let p = if r.percent(12) { 4 + r.below(5) } else { r.pick(&[0, 0, 0, 1, 1, 1, 2, 2, 2, 3]) }.max(least);
        let one_line = p == 0 && r.percent(50);
        Carried { r, p, distance: None, one_line }
    }

    /// Puts carried cells behind the right rows, in no order: nulls, small numbers, any 64 bits and both ends of their range.
    fn carry(&mut self, right: &mut [Row]) {
        let pools = [Pool::Below(3), Pool::Below(1000), Pool::Ends, Pool::Any];
        let (pool, nulls) = (self.r.pick(&pools), self.r.pick(&[0, 10, 40, 100]));
        for row in right {
            for _ in 0..self.p {
                row.push(if self.r.percent(nulls) { None } else { Some(pool.value(&mut self.r)) });
            }
        }
    }

    /// More columns than can be carried: one more, or so many that a width that counts them is no 64-bit number.
    fn too_many(&mut self) -> u64 {
        const MANY: [u64; 6] = [10, 1 << 32, i64::MAX as u64, 1 << 63, u64::MAX - 5, u64::MAX];
        if self.r.percent(50) { 9 } else { self.r.pick(&MANY) }
    }
}

/// A frame's words.
pub(crate) fn words(rows: &[Row], c: usize) -> Vec<i64> {
    let cells = || rows.iter().flatten();
    let mut out = vec![rows.len() as i64, c as i64];
    out.extend(cells().map(|x| x.unwrap_or(0)));
    out.extend(cells().map(|x| x.is_some() as i64));
    out
}

/// How a table is cut into frames of so many columns.
type Cut = fn(&mut Random, &[Row], usize) -> Vec<Vec<i64>>;

/// A table cut into frames: whole, row by row, or anywhere, with empty ones among them.
fn cut(r: &mut Random, rows: &[Row], c: usize) -> Vec<Vec<i64>> {
    let widest = r.pick(&[1, 3, 3, 6, usize::MAX]).min(rows.len().max(1));
    let mut frames = vec![];
    let mut rest = rows;
    while !rest.is_empty() || r.percent(10) {
        let n = if r.percent(8) { 0 } else { (1 + r.below(widest)).min(rest.len()) };
        let (frame, after) = rest.split_at(n);
        frames.push(words(frame, c));
        rest = after;
    }
    frames
}

/// A large table cut into frames: of 4,096 rows, of hundreds or thousands, with short and empty ones among them.
fn cut_large(r: &mut Random, rows: &[Row], c: usize) -> Vec<Vec<i64>> {
    let widest = r.pick(&[4096, 4096, 4096, 2500, 700]);
    let mut frames = vec![];
    let mut rest = rows;
    while !rest.is_empty() {
        let n = match r.below(10) {
            0 => r.below(3),
            1..=7 => widest,
            _ => 1 + r.below(widest),
        };
        let (frame, after) = rest.split_at(n.min(rest.len()));
        frames.push(words(frame, c));
        rest = after;
    }
    frames
}

/// The columns of an answer.
fn answer_columns(o: &Options) -> usize {
    1 + o.carried as usize + o.distance as usize
}

/// The columns of left frames, and of right ones.
fn columns(o: &Options) -> [usize; 2] {
    [o.b + 1, o.b + 1 + o.carried as usize]
}

/// What is still to be handed in, and the script so far. The rules' join stands beside it, to know when a turn would be
/// idle and what SCOPE refuses.
struct Draft {
    /// What the join is opened with, and whether in one line.
    open: Open,
    one_line: bool,
    left: Vec<Vec<i64>>,
    right: Vec<Vec<i64>>,
    output: usize,
    calls: Vec<Call>,
    rules: Rules,
    /// Whether calls that SCOPE refuses stay in the script.
    keep_refused: bool,
}

impl Draft {
    /// Cuts both tables, and opens with areas for all of them, so that 6 never arises.
    fn new(r: &mut Random, options: Options, tables: [&[Row]; 2], cut: Cut, one_line: bool) -> Self {
        let [left_columns, right_columns] = columns(&options);
        let (mut left, mut right) = (cut(r, tables[0], left_columns), cut(r, tables[1], right_columns));
        let left_words = left.iter().map(Vec::len).sum();
        let right_words = right.iter().map(|f| 2 * right_columns * f[0] as usize).sum();
        let longest = left.iter().map(|f| f[0] as usize).max().unwrap_or(0);
        let output = 2 + 2 * longest * answer_columns(&options);
        left.reverse();
        right.reverse();
        let open = Open { options, left_words, right_words };
        let (calls, rules, keep_refused) = (vec![], Rules::default(), false);
        let mut out = Draft { open, one_line, left, right, output, calls, rules, keep_refused };
        out.open();
        out
    }

    /// Begins the script anew, with what the join is opened with.
    fn open(&mut self) {
        self.calls.clear();
        let calls = self.open.clone().calls(self.one_line);
        calls.into_iter().for_each(|call| self.push(call));
    }

    /// Adds a call, unless SCOPE refuses it and such calls are left out.
    fn push(&mut self, call: Call) {
        let answer = self.rules.call(&call);
        if self.keep_refused || !matches!(answer, Answer::Refused(1..=7)) {
            self.calls.push(call);
        }
    }

    /// Whether a left frame waits.
    fn waits(&self) -> bool {
        self.rules.look().is_some_and(|l| l.queue_words > 0)
    }

    /// Hands in the next left frame, if one is left.
    fn left(&mut self) {
        if let Some(frame) = self.left.pop() {
            self.push(Call::Left(frame));
        }
    }

    /// Hands in the next right frame, if one is left.
    fn right(&mut self) {
        if let Some(frame) = self.right.pop() {
            self.push(Call::Right(frame));
        }
    }

    /// A turn with output enough for any frame; an idle one now and then only.
    fn turn(&mut self, r: &mut Random) {
        if self.waits() || r.percent(15) {
            self.push(Call::Turn(self.output));
        }
    }

    /// A port call, its ports Done in so many of a hundred cases.
    fn ports(&mut self, r: &mut Random, left_done: usize, send_done: usize) {
        let port = |r: &mut Random, done: usize| if r.percent(done) { 2 } else { r.pick(&[0, 1, 1]) };
        let ports = [port(r, left_done), port(r, 20), port(r, send_done)];
        self.push(Call::Ports(ports));
    }

    /// Whether frames are still to be handed in.
    fn open_ends(&self) -> bool {
        !self.left.is_empty() || !self.right.is_empty()
    }

    /// Ends right and turns what waits, until nothing does or an order fault ends it.
    fn finish(&mut self, r: &mut Random) {
        self.push(Call::End);
        let stopped = |d: &Draft| d.rules.look().is_none_or(|l| l.failed || l.state == 2);
        while self.waits() && !stopped(self) {
            self.turn(r);
        }
        self.turn(r);
    }
}

/// Hands everything in at random, with turns between, then ends right and makes a turn for each frame: enough, whatever
/// the earlier turns did.
fn whole(r: &mut Random, mut d: Draft) -> Vec<Call> {
    let frames = d.left.len();
    while d.open_ends() {
        match r.below(7) {
            0 | 1 => d.left(),
            2 | 3 => d.right(),
            4 if d.right.is_empty() => d.push(Call::End),
            _ => d.turn(r),
        }
    }
    d.push(Call::End);
    (0..frames).for_each(|_| d.push(Call::Turn(d.output)));
    d.calls
}

/// Anything at any moment.
fn mixed(r: &mut Random, mut d: Draft) -> Vec<Call> {
    let (early_end, ports) = (r.pick(&[0, 0, 4]), r.pick(&[0, 10, 25]));
    d.keep_refused = r.percent(10);
    let mut steps = 60;
    while steps > 0 && (d.open_ends() || r.percent(70)) {
        steps -= 1;
        let left_done = if d.left.is_empty() { 30 } else { 3 };
        match r.below(100) {
            0..=21 => d.left(),
            22..=45 => d.right(),
            46..=53 if d.right.is_empty() => d.push(Call::End),
            x if x < 46 + early_end => d.push(Call::End),
            x if x < 54 + ports => d.ports(r, left_done, 3),
            _ => d.turn(r),
        }
    }
    if r.percent(80) {
        d.finish(r);
    }
    d.ports(r, 50, 10);
    d.calls
}

/// Frames that wait when left is done, then turns, right frames, ports and the end of right in Flush, to Done.
fn flush(r: &mut Random, mut d: Draft) -> Vec<Call> {
    while !d.left.is_empty() {
        d.left();
        if r.percent(40) {
            d.right();
        }
        if r.percent(15) {
            d.turn(r);
        }
    }
    d.push(Call::Ports([2, r.below(3) as u8, r.below(2) as u8]));
    for _ in 0..2 + r.below(20) {
        match r.below(10) {
            0..=2 => d.right(),
            3 => d.ports(r, 60, 2),
            4 if d.right.is_empty() || r.percent(20) => d.push(Call::End),
            _ => d.turn(r),
        }
    }
    d.finish(r);
    d.ports(r, 90, 5);
    d.calls
}

/// Frames on both sides with turns between, in so many of a hundred cases with the end of right and a turn for each.
fn plain(r: &mut Random, mut d: Draft, finished: usize) -> Vec<Call> {
    while d.open_ends() {
        match r.below(5) {
            0 => d.left(),
            1..=3 => d.right(),
            _ => d.turn(r),
        }
    }
    if r.percent(finished) {
        d.finish(r);
    }
    d.calls
}

/// A frame that breaks the frame rule, most of the time.
pub(crate) fn broken_frame(r: &mut Random, c: usize) -> Vec<i64> {
    let mut out = words(&vec![vec![Some(1); c]; r.below(3)], c);
    match r.below(6) {
        0 => out.truncate(r.below(out.len() + 1)),
        1 => out.push(0),
        2 => out[0] = r.pick(&[-1, 4097, i64::MIN, i64::MAX]),
        3 => out[1] = r.pick(&[0, 1, 2, 6, -1]),
        4 => *out.last_mut().unwrap() = r.pick(&[2, -1, 0]),
        _ => (0..out.len()).for_each(|i| out[i] = r.below(3) as i64),
    }
    out
}

/// A frame that a side may refuse: one that breaks the frame rule, or one with the other side's columns.
fn bad_frame(r: &mut Random, [own, other]: [usize; 2]) -> Vec<i64> {
    if r.percent(30) {
        return words(&vec![vec![Some(1); other]; r.below(3)], other);
    }
    broken_frame(r, own)
}

/// Other options than a draft began with: small areas, and now and then ones that SCOPE refuses. The frames stay as they are.
fn small_open(r: &mut Random, d: &mut Draft, carried: &mut Carried, listed: &mut Listed) {
    let Open { options: o, left_words, right_words } = &mut d.open;
    (*left_words, *right_words) = (r.below(*left_words + 8), r.below(*right_words + 8));
    let change = r.below(40);
    match change {
        0 => o.strategy = r.pick(&[-1, 3]),
        1 => o.tolerance = r.pick(&[-2, i64::MIN]),
        2 => (o.strategy, o.eq) = (2, false),
        _ => {},
    }
    // Several refusals of an opening too: of those that apply the first counts.
    if change == 3 || change == 4 || (change < 3 && carried.r.percent(30)) {
        (o.carried, d.one_line) = (carried.too_many(), false);
    }
    if listed.gives && listed.r.percent(if change < 5 { 40 } else { 12 }) {
        listed.spoil(o.b, &mut o.ranks);
    }
    if carried.distance_percent(if change < 5 { 20 } else { 5 }) {
        o.distance = carried.distance.as_mut().map_or(0, |r| r.pick(&NO_FLAGS));
    }
}

/// Any call, also ones that SCOPE refuses.
fn any_call(r: &mut Random, d: &mut Draft, columns: [usize; 2]) {
    let [left, right] = columns;
    match r.below(20) {
        0..=4 => d.left(),
        5..=9 => d.right(),
        10 => d.push(Call::Left(bad_frame(r, [left, right]))),
        11 => d.push(Call::Right(bad_frame(r, [right, left]))),
        12 if r.percent(30) => d.push(Call::End),
        13 => d.ports(r, 10, 3),
        14 => d.push(Call::Turn(r.below(d.output + 1))),
        15 => d.push(Call::State),
        _ => d.turn(r),
    }
}

/// Opens a draft again, with small areas if so said, and keeps what SCOPE refuses; the columns of its frames.
fn open_again(r: &mut Random, d: &mut Draft, small: bool, carried: &mut Carried, listed: &mut Listed) -> [usize; 2] {
    let columns = columns(&d.open.options);
    d.keep_refused = true;
    if small {
        small_open(r, d, carried, listed);
    }
    d.open();
    columns
}

/// Small areas, short outputs, broken frames and calls at the wrong time.
fn refusals(r: &mut Random, mut d: Draft, carried: &mut Carried, listed: &mut Listed) -> Vec<Call> {
    let columns = open_again(r, &mut d, true, carried, listed);
    for _ in 0..10 + r.below(30) {
        any_call(r, &mut d, columns);
    }
    d.calls
}

/// Another word for a field of the join: near what it is, small, or at an end of the 64-bit range.
fn other_word(r: &mut Random, at: usize, old: i64) -> i64 {
    const NEAR: [i64; 6] = [-2, -1, 1, 2, 3, 4];
    const ENDS: [i64; 8] = [i64::MIN, i64::MIN + 1, i64::MAX, i64::MAX - 1, i64::MAX - 3, -1, -2, -4];
    match (at, r.below(10)) {
        (PRUNED | SEQUENCE, 0..=4) => r.pick(&ENDS),
        (3 | CHECK..CARRIED | STATE..SEQUENCE, 0..=7) => r.below(2) as i64,
        (at, 0..=7) if ROWS.contains(&at) => r.below(2) as i64,
        (_, 0) => r.pick(&ENDS),
        (_, 1..=6) => old.wrapping_add(r.pick(&NEAR)),
        _ => r.below(8) as i64,
    }
}

/// The host alters a word of the join; most words that make it refused in every call are set right after one call.
fn alter_join(r: &mut Random, d: &mut Draft, columns: [usize; 2]) {
    let Some((words, ..)) = d.rules.all_words() else { return };
    let at = match r.below(12) {
        0..=4 => COUNTERS + r.below(ROWS[0] - COUNTERS),
        5 | 6 => r.below(RANKS),
        7 => CARRIED,
        8 => RANKS,
        _ => ROWS[0] + r.below(words.len() - ROWS[0]),
    };
    let (at, word) = match at {
        RANKS => generate_ranks::other_list_word(r, &words),
        at => (at, other_word(r, at, words[at])),
    };
    d.push(Call::Put(Place::Join, at, word));
    if d.rules.broken() {
        any_call(r, d, columns);
        if r.percent(90) {
            d.push(Call::Put(Place::Join, at, words[at]));
        }
    }
}

/// The host lays down a remembered row that no turn has left there, so that the check against it decides alone.
fn alter_row(r: &mut Random, d: &mut Draft) {
    let first = r.pick(&[ROWS[0], ROWS[1], ROWS[1]]);
    let keys = [0, 1, 2, 5, 11, i64::MIN, i64::MAX];
    d.push(Call::Put(Place::Join, first, 1));
    for j in 0..5 {
        d.push(Call::Put(Place::Join, first + 1 + j, r.pick(&keys)));
        d.push(Call::Put(Place::Join, first + 6 + j, r.pick(&[1, 1, 1, 0, 2, -1])));
    }
}

/// The host alters a word of an area: a mark that is neither 0 nor 1, a null's value, a waiting frame's head.
fn alter_area(r: &mut Random, d: &mut Draft) {
    let Some((_, left, right)) = d.rules.all_words() else { return };
    let (place, length) = if r.percent(30) { (Place::Left, left.len()) } else { (Place::Right, right.len()) };
    let word = r.pick(&[0, 0, 1, 1, 2, -1, 3, 5, i64::MIN, i64::MAX, 4096]);
    if length > 0 {
        d.push(Call::Put(place, r.below(length), word));
    }
}

/// The host alters a mark of a carried cell that is held, or its value, so that what stands there is no cell of a frame.
fn alter_carried(r: &mut Random, d: &mut Draft) {
    let Some((words, _, right)) = d.rules.all_words() else { return };
    let ([first, width], look) = (columns(&d.open.options), d.rules.look().unwrap());
    // Only where no width was altered, and so where all held rows are in the area.
    if words[CARRIED] as usize != width - first || look.held == 0 || d.rules.broken() {
        return;
    }
    let (capacity, row) = (right.len() / (2 * width), look.base + r.below(look.held));
    if first < width {
        let at = row * width + first + r.below(width - first);
        d.push(Call::Put(Place::Right, capacity * width + at, r.pick(&[0, 0, 2, -1, 7, i64::MIN])));
        d.push(Call::Put(Place::Right, at, r.pick(&[5, -5, i64::MAX])));
    }
}

/// The host alters what the list has a say in: values of held, waiting and remembered rows, or the list itself; often a
/// turn comes next.
fn alter_listed(r: &mut Random, d: &mut Draft, columns: [usize; 2]) {
    let puts = match r.below(8) {
        0..=3 => generate_ranks::alter_held(r, &d.rules),
        4 => generate_ranks::alter_remembered(r, &d.rules),
        5 => generate_ranks::alter_list(r, &d.rules),
        _ => {
            let Some((put, back)) = generate_ranks::alter_waiting(r, &d.rules, false) else { return };
            d.push(put);
            if r.percent(60) {
                d.turn(r)
            } else {
                any_call(r, d, columns)
            }
            if r.percent(70) { vec![back] } else { vec![] }
        },
    };
    puts.into_iter().for_each(|put| d.push(put));
    if r.percent(50) {
        d.turn(r);
    }
}

/// The host alters the word for the distance: off, so that later answers lack the column, or to what is no flag, most often
/// for one call.
fn alter_distance(r: &mut Random, d: &mut Draft, carried: &mut Carried, columns: [usize; 2]) {
    let Some((words, source)) = d.rules.all_words().map(|(words, ..)| words).zip(carried.distance.as_mut()) else {
        return;
    };
    let word = if source.percent(40) { 1 - words[DISTANCE].clamp(0, 1) } else { source.pick(&NO_FLAGS) as i64 };
    d.push(Call::Put(Place::Join, DISTANCE, word));
    if source.percent(50) {
        d.turn(r)
    } else {
        any_call(r, d, columns)
    }
    if d.rules.broken() && source.percent(90) {
        d.push(Call::Put(Place::Join, DISTANCE, source.below(2) as i64));
    }
}

/// Calls on joins and areas that no call has left so.
fn handed(r: &mut Random, mut d: Draft, carried: &mut Carried, listed: &mut Listed) -> Vec<Call> {
    let small = r.percent(50);
    let columns = open_again(r, &mut d, small, carried, listed);
    for _ in 0..10 + r.below(30) {
        match r.below(24) {
            _ if listed.gives && listed.r.percent(25) => alter_listed(r, &mut d, columns),
            _ if carried.distance_percent(10) => alter_distance(r, &mut d, carried, columns),
            0..=2 => alter_join(r, &mut d, columns),
            3 | 4 => alter_area(r, &mut d),
            5 => alter_row(r, &mut d),
            6 | 7 => alter_carried(r, &mut d),
            _ => any_call(r, &mut d, columns),
        }
    }
    d.calls
}

/// How both sides of a kind's scripts stand.
fn arrangements(r: &mut Random, kind: Kind) -> [Arrangement; 2] {
    use Arrangement::*;
    match kind {
        Kind::Whole => [Sorted, Sorted],
        Kind::NullsLast => [r.pick(&[Unsorted, Unsorted, Nearly]), Unsorted],
        Kind::Large => {
            let unsorted = r.pick(&[[Unsorted, Sorted], [Sorted, Unsorted], [Unsorted, Unsorted]]);
            r.pick(&[[Sorted, Sorted], [Sorted, Sorted], [Nearly, Nearly], [Sorted, Nearly], unsorted])
        },
        Kind::Order | Kind::Strict => r.pick(&[[Nearly, Sorted], [Sorted, Nearly], [Nearly, Nearly], [Sorted, Sorted]]),
        _ => [r.pick(&[Sorted, Sorted, Nearly, Unsorted]), r.pick(&[Sorted, Sorted, Nearly, Unsorted])],
    }
}

/// Makes the areas just large enough: 6 still never arises, and live rows and frames must move to the front.
fn tighten(r: &mut Random, calls: &mut [Call]) {
    let mut rules = Rules::default();
    let (mut left, mut held) = (0, 0);
    for call in calls.iter() {
        rules.call(call);
        let Some(look) = rules.look() else { continue };
        (left, held) = (left.max(look.queue_words), held.max(look.held));
    }
    let (open, lines) = opening(calls).expect("a script opens first");
    let row = 2 * columns(&open.options)[1];
    let open = Open { left_words: left, right_words: row * held + r.below(row), ..open };
    calls[..lines].clone_from_slice(&open.calls(lines == 1));
}

/// How many turns a run may make at most: none, few, or more than wait.
fn run_turns(r: &mut Random) -> usize {
    match r.below(10) {
        0 => 0,
        1..=6 => 1 + r.below(4),
        7 => 5 + r.below(20),
        _ => r.pick(&[1000, 1 << 32, i64::MAX as usize]),
    }
}

/// The length of a run's output: what its turns write, a little more, much more; or, in so many of a hundred cases, less,
/// so that it is too short at first or after some turns.
fn run_output(r: &mut Random, rules: &Rules, k: usize, short: usize, spare: usize) -> usize {
    const ENOUGH: usize = 9 << 16;
    let Answer::Ran(ran) = rules.clone().call(&Call::Run(k, ENOUGH)) else { return r.below(20) };
    match (r.percent(short), ran.words.len()) {
        (true, 0) => r.below(6),
        (true, needed) if r.percent(30) => needed - 1,
        (true, needed) => r.below(needed),
        (false, needed) => needed + spare + r.pick(&[0, 0, 1, 2, 9, 200]),
    }
}

/// What a host alters before a run, so that a later turn of it is refused: the numbers of turns are used up after some,
/// or, where the first frame has no row, the remembered right row is greater than most and right has ended; with a list,
/// a frame behind the front has a value that it lacks.
fn alter_for_run(r: &mut Random, rules: &Rules) -> Vec<Call> {
    let Some((words, left, _)) = rules.all_words() else { return vec![] };
    let put = |at: usize, word: i64| Call::Put(Place::Join, at, word);
    if words[RANKS] == 1 && r.percent(60) {
        return generate_ranks::alter_waiting(r, rules, true).into_iter().map(|(put, _)| put).collect();
    }
    if left.get(words[QUEUE_START] as usize) == Some(&0) && r.percent(70) {
        let row = (0..11).map(|j| put(ROWS[1] + j, if (1..=5).contains(&j) { i64::MAX } else { 1 }));
        return row.chain([put(CHECK, 1), put(ENDED, 1)]).collect();
    }
    vec![put(SEQUENCE, r.pick(&[-2, -4, -4, -6, -8]))]
}

/// A script that gets runs in it, the rules' join beside it.
struct Runs {
    calls: Vec<Call>,
    rules: Rules,
    /// How many of a hundred outputs are too short.
    short: usize,
    /// Words that the others are longer than what is written, so that an order fault is not taken for want of output.
    spare: usize,
    /// Whether the host alters words.
    alters: bool,
}

impl Runs {
    /// Adds a call.
    fn push(&mut self, call: Call) {
        self.rules.call(&call);
        self.calls.push(call);
    }

    /// Adds a run, most often only where a frame waits.
    fn run(&mut self, r: &mut Random) {
        let waits = self.rules.look().is_some_and(|l| l.queue_words > 0);
        if !waits && r.percent(70) {
            return;
        }
        let lists = self.rules.options().is_some_and(|o| o.ranks.given);
        if self.alters && r.percent(if lists { 40 } else { 15 }) {
            alter_for_run(r, &self.rules).into_iter().for_each(|call| self.push(call));
        }
        let k = run_turns(r);
        let output = run_output(r, &self.rules, k, self.short, self.spare);
        self.push(Call::Run(k, output));
    }
}

/// A script with runs in it: some turns become runs, others fall away, so that frames pile up for the next run; runs come
/// where no turn was too, and at the end.
fn with_runs(r: &mut Random, kind: Kind, calls: Vec<Call>) -> Vec<Call> {
    let (short, piling) = match kind {
        Kind::Whole => (0, r.pick(&[10, 50, 80])),
        Kind::Refusals | Kind::Handed => (30, r.pick(&[50, 80, 95])),
        _ => (6, r.pick(&[10, 50, 80])),
    };
    let distance = opening(&calls).map_or(0, |(open, _)| open.options.distance as usize % 2);
    let spare = if kind == Kind::Large { 2 + (18 + 2 * distance) * 4096 } else { 0 };
    let mut out = Runs { calls: vec![], rules: Rules::default(), short, spare, alters: kind == Kind::Handed };
    for call in calls {
        match call {
            Call::Turn(_) if r.percent(piling) => {},
            Call::Turn(_) if r.percent(75) => out.run(r),
            // What opens is one line or two, and nothing between.
            Call::Options(_) => {
                out.push(call);
                continue;
            },
            call => out.push(call),
        }
        if r.percent(5) {
            out.run(r);
        }
    }
    (0..r.below(4)).for_each(|_| out.run(r));
    out.calls
}

/// Where a move goes in a script whose areas have room: to areas at least as long as the opened ones, for a moment to ones
/// that are just enough, or to none, since one of the two is a word too short.
fn move_with_room(r: &mut Random, o: &Open, rules: &Rules, short: bool) -> Vec<Call> {
    const MORE: [usize; 6] = [0, 0, 1, 2, 7, 50];
    let Some(look) = rules.look() else { return vec![] };
    let full = Call::Move(o.left_words + r.pick(&MORE), o.right_words + r.pick(&MORE));
    let (waiting, held) = (look.queue_words, 2 * columns(&o.options)[1] * look.held);
    match r.below(10) {
        0 | 1 => vec![Call::Move(waiting, held), full],
        2 if short && waiting > 0 => vec![Call::Move(waiting - 1, o.right_words)],
        3 if short && held > 0 => vec![Call::Move(o.left_words, held - 1)],
        _ => vec![full],
    }
}

/// A script with moves in it. One that is to find no room moves to areas of any lengths; one for the whole-table rule makes
/// no move that is refused.
fn with_moves(r: &mut Random, kind: Kind, calls: Vec<Call>) -> Vec<Call> {
    let Some((o, lines)) = opening(&calls) else { unreachable!() };
    let (mut out, mut rules) = (vec![], Rules::default());
    for (i, call) in calls.into_iter().enumerate() {
        rules.call(&call);
        out.push(call);
        if i + 1 < lines || !r.percent(8) {
            continue;
        }
        let moves = match with_room(kind) {
            true => move_with_room(r, &o, &rules, kind != Kind::Whole),
            false => vec![Call::Move(r.below(o.left_words + 8), r.below(o.right_words + 8))],
        };
        moves.iter().for_each(|call| drop(rules.call(call)));
        out.extend(moves);
    }
    out
}

/// The calls of a kind's script over areas that are large enough, save for kinds that are to find no room.
fn calls(r: &mut Random, kind: Kind, carried: &mut Carried, listed: &mut Listed) -> Vec<Call> {
    let large = kind == Kind::Large;
    let mut s = if large { large_shape(r, listed.gives) } else { shape(r, kind, listed.gives) };
    s.listed = listed.give(&mut s.options, kind);
    let hows = arrangements(r, kind);
    let left = table(r, &s, hows[0]);
    s.listed.iter_mut().for_each(|values| values.lacking = listed.lacking);
    let mut right = table(r, &s, hows[1]);
    carried.carry(&mut right);
    (s.options.carried, s.options.distance) = (carried.p as u64, carried.distance.is_some() as u64);
    let (ranks, one_line) = (s.options.ranks.clone(), carried.one_line && !listed.gives);
    let d = Draft::new(r, s.options, [&left, &right], if large { cut_large } else { cut }, one_line);
    let calls = match kind {
        Kind::Whole => whole(r, d),
        Kind::Mixed | Kind::Ends => mixed(r, d),
        Kind::Flush => flush(r, d),
        Kind::NullsLast | Kind::Order | Kind::Equal | Kind::Strict => plain(r, d, 90),
        // What the rules refuse stays, so that a frame that they should take is missed.
        Kind::Large => plain(r, Draft { keep_refused: true, ..d }, 100),
        Kind::Refusals => refusals(r, d, carried, listed),
        Kind::Handed => handed(r, d, carried, listed),
    };
    if listed.gives { listed.with_lacking(&ranks, calls) } else { calls }
}

/// Whether a kind's scripts find room for all that they hand in.
fn with_room(kind: Kind) -> bool {
    kind == Kind::Large || COMPARED.contains(&kind)
}

/// The calls of a script without runs and moves. Areas stay long where the host is to write values that the list lacks:
/// frames with these are refused here.
fn with_turns(kind: Kind, seed: u64, number: u64, carried: &mut Carried, listed: &mut Listed) -> Vec<Call> {
    let r = &mut Random::new(seed, kind, number);
    let mut calls = calls(r, kind, carried, listed);
    if with_room(kind) && listed.lacking == 0 && r.percent(50) {
        tighten(r, &mut calls);
    }
    calls
}

/// The script of this number among a seed's scripts of a kind.
pub fn script(kind: Kind, seed: u64, number: u64) -> Vec<Call> {
    let listed = &mut Listed::nothing(seed, kind, number);
    with_turns(kind, seed, number, &mut Carried::at_least(0, seed, kind, number), listed)
}

/// The same script with at least one carried column.
pub fn script_with_carried(kind: Kind, seed: u64, number: u64) -> Vec<Call> {
    let listed = &mut Listed::nothing(seed, kind, number);
    with_turns(kind, seed, number, &mut Carried::at_least(1, seed, kind, number), listed)
}

/// The same script with nothing carried. Where all that it hands in finds room, its calls are the same but for the right
/// frames and the lengths of right area and outputs.
pub fn script_without_carried(kind: Kind, seed: u64, number: u64) -> Vec<Call> {
    let listed = &mut Listed::nothing(seed, kind, number);
    with_turns(kind, seed, number, &mut Carried::nothing(seed, kind, number), listed)
}

/// The same script, whose answers tell the distance. Where all that it hands in finds room, its calls are the same but for
/// the opening and the lengths of outputs.
pub fn script_with_distance(kind: Kind, seed: u64, number: u64) -> Vec<Call> {
    let listed = &mut Listed::nothing(seed, kind, number);
    with_turns(kind, seed, number, &mut Carried::with_distance(seed, kind, number), listed)
}

/// Another script of the kind, in which a by-column has a list of codes, and frames that 12 refuses stand among the others.
pub fn script_with_list(kind: Kind, seed: u64, number: u64) -> Vec<Call> {
    let listed = &mut Listed::list(0, seed, kind, number);
    with_turns(kind, seed, number, &mut Carried::at_least(0, seed, kind, number), listed)
}

/// The same with values among those of the right rows that the list lacks, as only a host can write them.
pub fn script_with_lacked(kind: Kind, seed: u64, number: u64) -> Vec<Call> {
    let listed = &mut Listed::list(20, seed, kind, number);
    with_turns(kind, seed, number, &mut Carried::at_least(0, seed, kind, number), listed)
}

/// A script with runs in the place of turns, and with moves in half of all. One for the whole-table rule has outputs
/// enough, and turns at its end what still waits; so does one with large tables.
fn with_runs_and_moves(kind: Kind, seed: u64, number: u64, mut carried: Carried, listed: &mut Listed) -> Vec<Call> {
    let r = &mut Random::new(seed, kind, number);
    let carried = &mut carried;
    let calls = calls(r, kind, carried, listed);
    let mut calls = with_runs(r, kind, calls);
    if matches!(kind, Kind::Whole | Kind::Large) {
        calls.push(Call::Run(1 << 20, (1 + carried.p + carried.distance.is_some() as usize) << 16));
    }
    if with_room(kind) && r.percent(50) {
        tighten(r, &mut calls);
    }
    if r.percent(50) { with_moves(r, kind, calls) } else { calls }
}

/// The script of this number with runs and moves.
pub fn script_with_runs(kind: Kind, seed: u64, number: u64) -> Vec<Call> {
    let (carried, listed) = (Carried::at_least(0, seed, kind, number), &mut Listed::nothing(seed, kind, number));
    with_runs_and_moves(kind, seed, number, carried, listed)
}

/// The script with the distance of this number with runs and moves.
pub fn script_with_distance_and_runs(kind: Kind, seed: u64, number: u64) -> Vec<Call> {
    let (carried, listed) = (Carried::with_distance(seed, kind, number), &mut Listed::nothing(seed, kind, number));
    with_runs_and_moves(kind, seed, number, carried, listed)
}

/// The script with a list of this number with runs and moves.
pub fn script_with_list_and_runs(kind: Kind, seed: u64, number: u64) -> Vec<Call> {
    let (carried, listed) = (Carried::at_least(0, seed, kind, number), &mut Listed::list(0, seed, kind, number));
    with_runs_and_moves(kind, seed, number, carried, listed)
}

/// The script with a list of this number with runs and moves, whose answers tell the distance.
pub fn script_with_list_and_distance(kind: Kind, seed: u64, number: u64) -> Vec<Call> {
    let (carried, listed) = (Carried::with_distance(seed, kind, number), &mut Listed::list(0, seed, kind, number));
    with_runs_and_moves(kind, seed, number, carried, listed)
}
