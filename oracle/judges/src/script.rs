//! Call scripts: the calls, their answers, and the text form of both.
use std::fmt;

/// The most codes of a list.
pub const MOST_CODES: usize = 64;

/// A list of codes, by whose places one by-column compares, as a line or a join's words give it: nothing is checked yet.
#[derive(Clone, Debug, PartialEq)]
pub struct Ranks {
    /// Whether there is one at all.
    pub given: bool,
    pub column: u64,
    /// How many codes it has.
    pub count: u64,
    /// Its codes; the words behind them are free.
    pub codes: [i64; MOST_CODES],
}

impl Ranks {
    /// No list.
    pub fn none() -> Ranks {
        Ranks { given: false, column: 0, count: 0, codes: [0; MOST_CODES] }
    }

    /// The list of these codes for a column. It may say that there are more than can be handed in.
    pub fn of(column: u64, count: u64, codes: &[i64]) -> Ranks {
        let mut out = Ranks { given: true, column, count, ..Ranks::none() };
        out.codes[..codes.len()].copy_from_slice(codes);
        out
    }

    /// The codes that a line writes: as many as it counts, or all that can be handed in.
    fn line(&self) -> &[i64] {
        &self.codes[..codes_in_line(self.count)]
    }
}

/// How many codes a line writes for this count of them.
fn codes_in_line(count: u64) -> usize {
    count.min(MOST_CODES as u64) as usize
}

/// A join's options, as the line gives them: nothing is checked yet.
#[derive(Clone, Debug, PartialEq)]
pub struct Options {
    pub b: usize,
    pub strategy: i64,
    pub eq: bool,
    pub tolerance: i64,
    pub check: bool,
    /// Whether the check is strict; it is on then.
    pub strict: bool,
    /// p, the columns that are carried.
    pub carried: u64,
    /// Whether the distance is written: 1 on, 0 off, any other number neither.
    pub distance: u64,
    pub ranks: Ranks,
    pub descending: Vec<bool>,
    pub nulls_last: Vec<bool>,
}

/// What a join is opened with: its options, and the lengths of its areas in words.
#[derive(Clone, Debug, PartialEq)]
pub struct Open {
    pub options: Options,
    pub left_words: usize,
    pub right_words: usize,
}

impl Open {
    /// The lines that open a join so: one, which says that nothing is carried, no list given and no distance written, or the
    /// options and then the areas.
    pub fn calls(self, one_line: bool) -> Vec<Call> {
        if one_line {
            assert!(self.options.carried == 0 && self.options.distance == 0 && !self.options.ranks.given);
            return vec![Call::Open(self)];
        }
        vec![Call::Options(self.options), Call::Opens(self.left_words, self.right_words)]
    }
}

/// What a script's first lines open, and how many lines these are.
pub fn opening(calls: &[Call]) -> Option<(Open, usize)> {
    match calls {
        [Call::Open(open), ..] => Some((open.clone(), 1)),
        [Call::Options(options), Call::Opens(left_words, right_words), ..] => {
            let (options, left_words, right_words) = (options.clone(), *left_words, *right_words);
            Some((Open { options, left_words, right_words }, 2))
        },
        _ => None,
    }
}

/// The options that the last `options` line told.
#[derive(Default, Clone)]
pub struct Told(Option<Options>);

impl Told {
    /// What a call over tables answers with these options; that none were told where none were.
    pub fn with(&self, answer: impl FnOnce(&Options) -> Answer) -> Answer {
        self.0.as_ref().map_or(Answer::NoOptions, answer)
    }

    /// What a call opens a join with, or its answer where it tells options, or opens though none were told; none for all
    /// other calls.
    pub fn opens(&mut self, call: &Call) -> Option<Result<Open, Answer>> {
        match call {
            Call::Open(open) => Some(Ok(open.clone())),
            Call::Options(options) => {
                self.0 = Some(options.clone());
                Some(Err(Answer::Ok))
            },
            Call::Opens(left_words, right_words) => {
                let open = |options| Open { options, left_words: *left_words, right_words: *right_words };
                Some(self.0.clone().map(open).ok_or(Answer::NoOptions))
            },
            _ => None,
        }
    }
}

/// SCOPE 19.1, points in intervals: whether the lower and the upper bound are inclusive, the length of the output in words, and
/// the words of both tables. Nothing is checked yet: any words can stand in the place of a flag or of a table.
#[derive(Clone, Debug, PartialEq)]
pub struct Spans {
    pub lower: i64,
    pub upper: i64,
    pub output: usize,
    pub points: Vec<i64>,
    pub intervals: Vec<i64>,
}

/// SCOPE 19.9, two books merged: the length of the output in words, and the words of both books. Nothing is checked yet. The
/// options are those of the last `options` line.
#[derive(Clone, Debug, PartialEq)]
pub struct Merge {
    pub output: usize,
    pub house: Vec<i64>,
    pub festival: Vec<i64>,
}

/// SCOPE 19.12, which notice stands: the place of the withdrawal column among the carried ones, the length of the output in words,
/// and the words of the book. Nothing is checked yet. The options are those of the last `options` line.
#[derive(Clone, Debug, PartialEq)]
pub struct Standing {
    pub place: u64,
    pub output: usize,
    pub book: Vec<i64>,
}

/// SCOPE 19.24, how large an area to lend: the words of both tables, and the heights of their frames. Nothing is checked yet. The
/// options are those of the last `options` line.
#[derive(Clone, Debug, PartialEq)]
pub struct Plan {
    pub left: Vec<i64>,
    pub right: Vec<i64>,
    pub left_heights: Vec<i64>,
    pub right_heights: Vec<i64>,
}

/// SCOPE 19.27, where a table is cut: whether it is one of left rows, 0, or of right ones, 1, the length of the output in words, the
/// words of the table and those of the boundaries. Nothing is checked yet. The options are those of the last `options` line.
#[derive(Clone, Debug, PartialEq)]
pub struct Places {
    pub side: u64,
    pub output: usize,
    pub table: Vec<i64>,
    pub boundaries: Vec<i64>,
}

/// SCOPE 19.34, two tables cut at boundaries and joined pair by pair: the lengths of the left area, of the right one and of the output
/// in words, and the words of both tables and of the boundaries. Nothing is checked yet. The options are those of the last `options`
/// line.
#[derive(Clone, Debug, PartialEq)]
pub struct Pairs {
    pub areas: [usize; 2],
    pub output: usize,
    pub left: Vec<i64>,
    pub right: Vec<i64>,
    pub boundaries: Vec<i64>,
}

/// SCOPE 19.30, a frame's sales added to a table of takings: the length of the output in words, the number beside the table, and the
/// words of the table, of the left frame and of its answer frame. Nothing is checked yet. The options are those of the last `options`
/// line.
#[derive(Clone, Debug, PartialEq)]
pub struct Adding {
    pub output: usize,
    pub number: i64,
    pub table: Vec<i64>,
    pub left: Vec<i64>,
    pub answers: Vec<i64>,
}

/// SCOPE 19.31, two tables of takings joined: the length of the output in words, the numbers beside the tables, and the words of both.
/// Nothing is checked yet. The options are those of the last `options` line.
#[derive(Clone, Debug, PartialEq)]
pub struct Joining {
    pub output: usize,
    pub numbers: [i64; 2],
    pub tables: [Vec<i64>; 2],
}

/// SCOPE 19.17, a place of an answer frame: which reader, p, the place, and the words of the frame. Nothing is checked yet.
#[derive(Clone, Debug, PartialEq)]
pub struct Read {
    pub distance: bool,
    pub carried: u64,
    pub row: u64,
    pub column: u64,
    pub frame: Vec<i64>,
}

/// One line of a script.
#[derive(Clone, Debug, PartialEq)]
pub enum Call {
    /// Opens a join that carries nothing, writes no distance and has no list.
    Open(Open),
    /// The options of all later lines that open.
    Options(Options),
    /// Opens a join with these options and areas of so many words, left and right.
    Opens(usize, usize),
    Left(Vec<i64>),
    Right(Vec<i64>),
    End,
    Ports([u8; 3]),
    Turn(usize),
    /// At most so many turns, and the length of the output in words.
    Run(usize, usize),
    /// To new areas of so many words, left and right.
    Move(usize, usize),
    State,
    /// Needs no open join.
    Spans(Spans),
    /// Need no open join, and options that were told.
    Merge(Merge),
    Standing(Standing),
    Plan(Plan),
    Places(Places),
    Pairs(Pairs),
    TakingsAdd(Adding),
    TakingsJoin(Joining),
    /// Needs neither.
    Read(Read),
    /// Not of the shared script form: the words of both areas, for tests of the definitions.
    Areas,
    /// Not of the shared script form: the words of the join, as the C interface lays them out.
    Words,
    /// Not of the shared script form: a word of the join, of the left or of the right area is altered by the host.
    Put(Place, usize, i64),
}

/// What the host alters a word of.
#[derive(Clone, Copy, Debug, PartialEq)]
pub enum Place {
    Join,
    Left,
    Right,
}

/// The words of a join as the C interface lays them out (include/rowkeeper.h): the layout's, 14 of options, 67 of their list
/// and one for the distance, 8 of the places of the list's codes, 9 of counters and flags, and 11 for each remembered row.
pub type JoinWords = [i64; 122];

/// What `state` tells of a join.
#[derive(Clone, Debug, PartialEq)]
pub struct Look {
    pub base: usize,
    pub held: usize,
    pub pruned: u64,
    pub queue_start: usize,
    pub queue_words: usize,
    pub state: u8,
    pub ended: bool,
    pub failed: bool,
    pub sequence: u64,
    pub left: Option<Vec<Option<i64>>>,
    pub right: Option<Vec<Option<i64>>>,
}

/// What stopped a run: its turns are used, or the answer of the turn that wrote nothing.
#[derive(Clone, Copy, Debug, PartialEq)]
pub enum Stop {
    Used,
    Wants,
    Idle,
    Refused(u8),
}

/// What a run made: the turns that wrote, the count of the words that they wrote, what stopped it, and these words.
#[derive(Clone, Debug, PartialEq)]
pub struct Ran {
    pub turns: u64,
    pub count: u64,
    pub stop: Stop,
    pub words: Vec<i64>,
}

/// The answer to one line.
#[derive(Clone, Debug, PartialEq)]
pub enum Answer {
    Ok,
    Refused(u8),
    Ports([u8; 3], u8),
    Wrote(u64, Vec<i64>),
    Ran(Ran),
    Wants,
    Idle,
    NoJoin,
    /// A join was to be opened, and no line before told its options.
    NoOptions,
    State(Box<Look>),
    /// The words of the left area, then those of the right one.
    Areas(Vec<i64>, Vec<i64>),
    /// The words of the join.
    Words(Box<JoinWords>),
    /// All words of the table that was written.
    Table(Vec<i64>),
    /// The number beside a table of takings, and all words of the table that was written.
    Took(i64, Vec<i64>),
    /// The figures of a plan: rows held, turns, right frames.
    Planned([u64; 3]),
    /// The value and the mark of a place.
    Cell(i64, i64),
    /// A refused call altered a word of its output, which none may do.
    Altered,
    /// `-`: the call has no counterpart here.
    Nothing,
}

/// A remembered row: `-` for none, or its cells with commas, `null` for a null.
fn row_text(row: &Option<Vec<Option<i64>>>) -> String {
    let cell = |c: &Option<i64>| c.map_or("null".to_string(), |x| x.to_string());
    row.as_ref().map_or("-".to_string(), |r| r.iter().map(cell).collect::<Vec<_>>().join(","))
}

/// The words of each turn's answer among those of a run: n, its columns c, n × c values, n × c marks. What is cut off comes
/// as it is.
pub fn answers(mut words: &[i64]) -> impl Iterator<Item = &[i64]> {
    std::iter::from_fn(move || {
        let [n, c, ..] = words else { return Some(std::mem::take(&mut words)).filter(|w| !w.is_empty()) };
        let length = usize::try_from(n.saturating_mul(*c).saturating_mul(2).saturating_add(2)).unwrap_or(usize::MAX);
        let (answer, rest) = words.split_at(length.min(words.len()));
        words = rest;
        Some(answer)
    })
}

/// What an answer's words have in them: matched rows, and their carried cells with a value and without.
pub fn written(words: &[i64]) -> [u64; 3] {
    let (n, c) = (words[0] as usize, words[1] as usize);
    let marks = &words[2 + n * c..];
    let matched = marks.chunks(c.max(1)).filter(|row| row[0] == 1);
    matched.fold([0; 3], |[rows, values, nulls], row| {
        let present = row[1..].iter().filter(|m| **m == 1).count();
        [rows + 1, values + present as u64, nulls + (c - 1 - present) as u64]
    })
}

/// The words of a turn's answer without its last column: what is written without the distance.
fn without_last(words: &[i64]) -> Vec<i64> {
    let [n, c, cells @ ..] = words else { return words.to_vec() };
    let kept = cells.chunks(*c as usize).flat_map(|row| &row[..row.len() - 1]);
    [*n, c - 1].into_iter().chain(kept.copied()).collect()
}

/// An answer without the last column of all that was written.
pub fn without_distance(answer: &Answer) -> Answer {
    match answer {
        Answer::Wrote(sequence, words) => Answer::Wrote(*sequence, without_last(words)),
        Answer::Ran(ran) => {
            let words: Vec<i64> = answers(&ran.words).flat_map(without_last).collect();
            Answer::Ran(Ran { count: words.len() as u64, words, ..ran.clone() })
        },
        other => other.clone(),
    }
}

/// The same script with options that write no distance.
pub fn without_distances(calls: &[Call]) -> Vec<Call> {
    let plain = |call: &Call| match call {
        Call::Options(o) => Call::Options(Options { distance: 0, ..o.clone() }),
        other => other.clone(),
    };
    calls.iter().map(plain).collect()
}

/// Writes words, each after a space.
fn words(f: &mut fmt::Formatter<'_>, words: &[i64]) -> fmt::Result {
    words.iter().try_for_each(|w| write!(f, " {w}"))
}

impl fmt::Display for Look {
    /// The answer to `state`.
    fn fmt(&self, f: &mut fmt::Formatter<'_>) -> fmt::Result {
        write!(f, "base {} held {} pruned {} ", self.base, self.held, self.pruned)?;
        write!(f, "queue {} {} state {} ", self.queue_start, self.queue_words, self.state)?;
        write!(f, "ended {} failed {} ", self.ended as u8, self.failed as u8)?;
        write!(f, "sequence {} left {} right {}", self.sequence, row_text(&self.left), row_text(&self.right))
    }
}

impl fmt::Display for Stop {
    /// As in a turn's answer, or `k`.
    fn fmt(&self, f: &mut fmt::Formatter<'_>) -> fmt::Result {
        match self {
            Stop::Used => write!(f, "k"),
            Stop::Wants => write!(f, "{}", Answer::Wants),
            Stop::Idle => write!(f, "{}", Answer::Idle),
            Stop::Refused(n) => write!(f, "{}", Answer::Refused(*n)),
        }
    }
}

impl fmt::Display for Ran {
    /// The answer to `run`.
    fn fmt(&self, f: &mut fmt::Formatter<'_>) -> fmt::Result {
        write!(f, "ran {} {} {}", self.turns, self.count, self.stop)?;
        words(f, &self.words)
    }
}

impl fmt::Display for Answer {
    /// The answer's line.
    fn fmt(&self, f: &mut fmt::Formatter<'_>) -> fmt::Result {
        match self {
            Answer::Ok => write!(f, "ok"),
            Answer::Refused(n) => write!(f, "refused {n}"),
            Answer::Ports([l, r, s], state) => write!(f, "ok {l} {r} {s} {state}"),
            Answer::Wrote(seq, w) => write!(f, "wrote {seq}").and_then(|_| words(f, w)),
            Answer::Ran(ran) => write!(f, "{ran}"),
            Answer::Wants => write!(f, "wants"),
            Answer::Idle => write!(f, "idle"),
            Answer::NoJoin => write!(f, "no join"),
            Answer::NoOptions => write!(f, "no options"),
            Answer::State(look) => write!(f, "{look}"),
            Answer::Areas(left, right) => write!(f, "areas")
                .and_then(|_| words(f, left))
                .and_then(|_| write!(f, " |"))
                .and_then(|_| words(f, right)),
            Answer::Words(w) => write!(f, "words").and_then(|_| words(f, &w[..])),
            Answer::Table(w) => write!(f, "ok").and_then(|_| words(f, w)),
            Answer::Took(number, w) => write!(f, "ok {number}").and_then(|_| words(f, w)),
            Answer::Planned([rows, turns, rights]) => write!(f, "ok {rows} {turns} {rights}"),
            Answer::Cell(value, mark) => write!(f, "cell {value} {mark}"),
            Answer::Altered => write!(f, "altered"),
            Answer::Nothing => write!(f, "-"),
        }
    }
}

impl Options {
    /// Writes both flags of each by-column.
    fn flags(&self, f: &mut fmt::Formatter<'_>) -> fmt::Result {
        let mut flags = self.descending.iter().zip(&self.nulls_last);
        flags.try_for_each(|(d, n)| write!(f, " {} {}", *d as u8, *n as u8))
    }
}

impl fmt::Display for Options {
    /// The first five words of the lines `open` and `options`.
    fn fmt(&self, f: &mut fmt::Formatter<'_>) -> fmt::Result {
        write!(
            f,
            "{} {} {} {} {}",
            self.b,
            self.strategy,
            self.eq as u8,
            self.tolerance,
            self.check as u8 + self.strict as u8
        )
    }
}

impl fmt::Display for Ranks {
    /// Its words in the line `options`: whether there is one, its column, its count, its codes.
    fn fmt(&self, f: &mut fmt::Formatter<'_>) -> fmt::Result {
        write!(f, "{} {} {}", self.given as u8, self.column as i64, self.count as i64)?;
        words(f, self.line())
    }
}

/// Writes tables, each behind a `|`.
fn tables(f: &mut fmt::Formatter<'_>, tables: &[&[i64]]) -> fmt::Result {
    tables.iter().try_for_each(|table| write!(f, " |").and_then(|_| words(f, table)))
}

impl fmt::Display for Spans {
    /// The call's line.
    fn fmt(&self, f: &mut fmt::Formatter<'_>) -> fmt::Result {
        write!(f, "spans {} {} {}", self.lower, self.upper, self.output)?;
        tables(f, &[&self.points, &self.intervals])
    }
}

impl fmt::Display for Merge {
    /// The call's line.
    fn fmt(&self, f: &mut fmt::Formatter<'_>) -> fmt::Result {
        write!(f, "merge {}", self.output)?;
        tables(f, &[&self.house, &self.festival])
    }
}

impl fmt::Display for Standing {
    /// The call's line.
    fn fmt(&self, f: &mut fmt::Formatter<'_>) -> fmt::Result {
        write!(f, "standing {} {}", self.place as i64, self.output)?;
        tables(f, &[&self.book])
    }
}

impl fmt::Display for Plan {
    /// The call's line.
    fn fmt(&self, f: &mut fmt::Formatter<'_>) -> fmt::Result {
        write!(f, "plan")?;
        tables(f, &[&self.left, &self.right, &self.left_heights, &self.right_heights])
    }
}

impl fmt::Display for Places {
    /// The call's line.
    fn fmt(&self, f: &mut fmt::Formatter<'_>) -> fmt::Result {
        write!(f, "place {} {}", self.side as i64, self.output)?;
        tables(f, &[&self.table, &self.boundaries])
    }
}

impl fmt::Display for Pairs {
    /// The call's line.
    fn fmt(&self, f: &mut fmt::Formatter<'_>) -> fmt::Result {
        write!(f, "cut {} {} {}", self.areas[0], self.areas[1], self.output)?;
        tables(f, &[&self.left, &self.right, &self.boundaries])
    }
}

impl fmt::Display for Adding {
    /// The call's line.
    fn fmt(&self, f: &mut fmt::Formatter<'_>) -> fmt::Result {
        write!(f, "takings-add {} {}", self.output, self.number)?;
        tables(f, &[&self.table, &self.left, &self.answers])
    }
}

impl fmt::Display for Joining {
    /// The call's line.
    fn fmt(&self, f: &mut fmt::Formatter<'_>) -> fmt::Result {
        write!(f, "takings-join {} {} {}", self.output, self.numbers[0], self.numbers[1])?;
        tables(f, &[&self.tables[0], &self.tables[1]])
    }
}

impl fmt::Display for Read {
    /// The call's line.
    fn fmt(&self, f: &mut fmt::Formatter<'_>) -> fmt::Result {
        let reader = if self.distance { "distance" } else { "plain" };
        write!(f, "read {reader} {} {} {}", self.carried as i64, self.row as i64, self.column as i64)?;
        tables(f, &[&self.frame])
    }
}

impl fmt::Display for Call {
    /// The call's line.
    fn fmt(&self, f: &mut fmt::Formatter<'_>) -> fmt::Result {
        match self {
            Call::Open(Open { options, left_words, right_words }) => {
                write!(f, "open {options}")?;
                options.flags(f)?;
                write!(f, " {left_words} {right_words}")
            },
            Call::Options(o) => {
                write!(f, "options {o} {} {} {}", o.carried as i64, o.distance as i64, o.ranks)?;
                o.flags(f)
            },
            Call::Opens(left_words, right_words) => write!(f, "opens {left_words} {right_words}"),
            Call::Left(w) => write!(f, "left").and_then(|_| words(f, w)),
            Call::Right(w) => write!(f, "right").and_then(|_| words(f, w)),
            Call::End => write!(f, "end"),
            Call::Ports([l, r, s]) => write!(f, "ports {l} {r} {s}"),
            Call::Turn(o) => write!(f, "turn {o}"),
            Call::Run(k, o) => write!(f, "run {k} {o}"),
            Call::Move(l, r) => write!(f, "move {l} {r}"),
            Call::State => write!(f, "state"),
            Call::Spans(s) => write!(f, "{s}"),
            Call::Merge(m) => write!(f, "{m}"),
            Call::Standing(s) => write!(f, "{s}"),
            Call::Plan(p) => write!(f, "{p}"),
            Call::Places(p) => write!(f, "{p}"),
            Call::Pairs(p) => write!(f, "{p}"),
            Call::TakingsAdd(t) => write!(f, "{t}"),
            Call::TakingsJoin(t) => write!(f, "{t}"),
            Call::Read(r) => write!(f, "{r}"),
            Call::Areas => write!(f, "areas"),
            Call::Words => write!(f, "words"),
            Call::Put(Place::Join, at, word) => write!(f, "put {at} {word}"),
            Call::Put(Place::Left, at, word) => write!(f, "put-left {at} {word}"),
            Call::Put(Place::Right, at, word) => write!(f, "put-right {at} {word}"),
        }
    }
}

/// A word that says on or off.
fn flag(word: i64) -> Result<bool, String> {
    match word {
        0 => Ok(false),
        1 => Ok(true),
        _ => Err(format!("{word} is neither 0 nor 1")),
    }
}

/// A word that counts.
fn count(word: i64) -> Result<usize, String> {
    usize::try_from(word).map_err(|_| format!("{word} is no count"))
}

/// A word for the order check: 0 off, 1 on, 2 strict.
fn setting(word: i64) -> Result<i64, String> {
    (0..=2).contains(&word).then_some(word).ok_or(format!("{word} is no setting of the order check"))
}

/// The first five words of a line with options, p and the distance, the list, and both flags of each by-column.
fn parse_options(a: &[i64], adds: [u64; 2], ranks: Ranks, flags: &[i64]) -> Result<Options, String> {
    let every = |from: usize| flags.iter().skip(from).step_by(2).map(|w| flag(*w)).collect::<Result<Vec<_>, _>>();
    Ok(Options {
        b: count(a[0])?,
        strategy: a[1],
        eq: flag(a[2])?,
        tolerance: a[3],
        check: setting(a[4])? > 0,
        strict: setting(a[4])? == 2,
        carried: adds[0],
        distance: adds[1],
        ranks,
        descending: every(0)?,
        nulls_last: every(1)?,
    })
}

/// The words of an `open` line. Their number depends on the first one.
fn parse_open(a: &[i64]) -> Result<Open, String> {
    let b = count(*a.first().ok_or("open brings no words")?)?;
    if a.len() != b.saturating_mul(2).saturating_add(7) {
        return Err(format!("open with {b} by-columns needs 7 + 2 × {b} words, not {}", a.len()));
    }
    let (options, areas) = a.split_at(5 + 2 * b);
    let options = parse_options(options, [0, 0], Ranks::none(), &options[5..])?;
    Ok(Open { options, left_words: count(areas[0])?, right_words: count(areas[1])? })
}

/// The words of an `options` line: ten, the codes of the list, the flags of the by-columns. A p, a distance, a column or a
/// count above 2^63 − 1 is written as the negative word of the same bits; of a count above 64, 64 codes follow.
fn parse_options_line(a: &[i64]) -> Result<Options, String> {
    let [b, _, _, _, _, carried, distance, ranked, column, codes, rest @ ..] = a else {
        return Err(format!("options needs 10 words or more, not {}", a.len()));
    };
    let (b, column, codes) = (count(*b)?, *column as u64, *codes as u64);
    let follow = codes_in_line(codes);
    if rest.len() != b.saturating_mul(2).saturating_add(follow) {
        return Err(format!("options with {b} by-columns and {follow} codes does not take {} words", a.len()));
    } else if !flag(*ranked)? && (column, codes) != (0, 0) {
        return Err("options: without a list of codes COLUMN and K are 0".to_string());
    }
    let (list, flags) = rest.split_at(follow);
    let ranks = if flag(*ranked)? { Ranks::of(column, codes, list) } else { Ranks::none() };
    parse_options(a, [*carried as u64, *distance as u64], ranks, flags)
}

/// The words of a `ports` line.
fn parse_ports(a: &[i64]) -> Result<[u8; 3], String> {
    let [l, r, s] = *a else { return Err(format!("ports needs 3 words, not {}", a.len())) };
    if [l, r, s].iter().any(|p| !(0..=2).contains(p)) {
        return Err(format!("ports {l} {r} {s}: a port is 0, 1 or 2"));
    }
    Ok([l as u8, r as u8, s as u8])
}

/// The words of a `put` line: a place among the join's or an area's words, and the word.
fn parse_put(place: Place, a: &[i64]) -> Result<Call, String> {
    let [at, word] = *a else { return Err(format!("put needs 2 words, not {}", a.len())) };
    let at = count(at)?;
    if place == Place::Join && at >= size_of::<JoinWords>() / 8 {
        return Err(format!("a join has no word {at}"));
    }
    Ok(Call::Put(place, at, word))
}

/// Numbers.
fn numbers(words: &[&str]) -> Result<Vec<i64>, String> {
    words.iter().map(|w| w.parse::<i64>().map_err(|_| format!("{w} is no 64-bit signed word"))).collect()
}

/// The words of a line with tables: those before the first `|`, so many, and the tables, so many, each behind a `|`.
fn parse_tables<const W: usize, const T: usize>(
    name: &str,
    words: &[&str],
) -> Result<([i64; W], [Vec<i64>; T]), String> {
    let mut parts = words.split(|w| *w == "|").map(numbers).collect::<Result<Vec<_>, _>>()?;
    let first = parts.remove(0);
    let many = parts.len();
    let tables = parts.try_into().map_err(|_| format!("{name} needs {T} tables, each behind a |, not {many}"))?;
    let many = first.len();
    let first = first.try_into().map_err(|_| format!("{name} needs {W} words before its tables, not {many}"))?;
    Ok((first, tables))
}

/// The words of a `spans` line: both flags and the output's length, the points, the intervals.
fn parse_spans(words: &[&str]) -> Result<Call, String> {
    let ([lower, upper, output], [points, intervals]) = parse_tables("spans", words)?;
    Ok(Call::Spans(Spans { lower, upper, output: count(output)?, points, intervals }))
}

/// The words of a `merge` line: the output's length, the house's book, the festival's.
fn parse_merge(words: &[&str]) -> Result<Call, String> {
    let ([output], [house, festival]) = parse_tables("merge", words)?;
    Ok(Call::Merge(Merge { output: count(output)?, house, festival }))
}

/// The words of a `standing` line: the place, the output's length, the book. A place above 2^63 − 1 is written as the negative
/// word of the same bits.
fn parse_standing(words: &[&str]) -> Result<Call, String> {
    let ([place, output], [book]) = parse_tables("standing", words)?;
    Ok(Call::Standing(Standing { place: place as u64, output: count(output)?, book }))
}

/// The words of a `plan` line: the left table, the right one, the heights of each.
fn parse_plan(words: &[&str]) -> Result<Call, String> {
    let ([], [left, right, left_heights, right_heights]) = parse_tables("plan", words)?;
    Ok(Call::Plan(Plan { left, right, left_heights, right_heights }))
}

/// The words of a `place` line: the side, the output's length, the table, the boundaries. A side above 2^63 − 1 is written as the
/// negative word of the same bits.
fn parse_place(words: &[&str]) -> Result<Call, String> {
    let ([side, output], [table, boundaries]) = parse_tables("place", words)?;
    Ok(Call::Places(Places { side: side as u64, output: count(output)?, table, boundaries }))
}

/// The words of a `cut` line: the lengths of both areas and of the output, the left table, the right one, the boundaries.
fn parse_cut(words: &[&str]) -> Result<Call, String> {
    let ([left_words, right_words, output], [left, right, boundaries]) = parse_tables("cut", words)?;
    let areas = [count(left_words)?, count(right_words)?];
    Ok(Call::Pairs(Pairs { areas, output: count(output)?, left, right, boundaries }))
}

/// The words of a `takings-add` line: the output's length, the number, the table, the left frame, its answer frame.
fn parse_takings_add(words: &[&str]) -> Result<Call, String> {
    let ([output, number], [table, left, answers]) = parse_tables("takings-add", words)?;
    Ok(Call::TakingsAdd(Adding { output: count(output)?, number, table, left, answers }))
}

/// The words of a `takings-join` line: the output's length, both numbers, both tables.
fn parse_takings_join(words: &[&str]) -> Result<Call, String> {
    let ([output, number, other], tables) = parse_tables("takings-join", words)?;
    Ok(Call::TakingsJoin(Joining { output: count(output)?, numbers: [number, other], tables }))
}

/// The words of a `read` line: which reader, p, row and column, the frame. What is above 2^63 − 1 is written as the negative word
/// of the same bits.
fn parse_read(words: &[&str]) -> Result<Call, String> {
    let distance = match words.first() {
        Some(&"plain") => false,
        Some(&"distance") => true,
        _ => return Err("read needs plain or distance first".to_string()),
    };
    let ([carried, row, column], [frame]) = parse_tables("read", &words[1..])?;
    let (carried, row, column) = (carried as u64, row as u64, column as u64);
    Ok(Call::Read(Read { distance, carried, row, column, frame }))
}

/// A call that brings tables, if the line is one.
fn parse_over_tables(name: &str, words: &[&str]) -> Option<Result<Call, String>> {
    Some(match name {
        "spans" => parse_spans(words),
        "merge" => parse_merge(words),
        "standing" => parse_standing(words),
        "plan" => parse_plan(words),
        "place" => parse_place(words),
        "cut" => parse_cut(words),
        "takings-add" => parse_takings_add(words),
        "takings-join" => parse_takings_join(words),
        "read" => parse_read(words),
        _ => return None,
    })
}

/// One line: none where it holds no call, an error where it is malformed.
pub fn parse_line(line: &str) -> Result<Option<Call>, String> {
    let parts: Vec<&str> = line.split('#').next().unwrap_or("").split_ascii_whitespace().collect();
    let [name, words @ ..] = parts.as_slice() else { return Ok(None) };
    if let Some(call) = parse_over_tables(name, words) {
        return call.map(Some);
    }
    let a = numbers(words)?;
    let call = match (*name, a.as_slice()) {
        ("open", a) => Call::Open(parse_open(a)?),
        ("options", a) => Call::Options(parse_options_line(a)?),
        ("opens", [l, r]) => Call::Opens(count(*l)?, count(*r)?),
        ("left", _) => Call::Left(a),
        ("right", _) => Call::Right(a),
        ("ports", a) => Call::Ports(parse_ports(a)?),
        ("turn", [o]) => Call::Turn(count(*o)?),
        ("run", [k, o]) => Call::Run(count(*k)?, count(*o)?),
        ("move", [l, r]) => Call::Move(count(*l)?, count(*r)?),
        ("end", []) => Call::End,
        ("state", []) => Call::State,
        ("areas", []) => Call::Areas,
        ("words", []) => Call::Words,
        ("put", a) => parse_put(Place::Join, a)?,
        ("put-left", a) => parse_put(Place::Left, a)?,
        ("put-right", a) => parse_put(Place::Right, a)?,
        ("opens" | "turn" | "run" | "move" | "end" | "state" | "areas" | "words", a) => {
            return Err(format!("{name} does not take {} words", a.len()));
        },
        _ => return Err(format!("{name} is no call")),
    };
    Ok(Some(call))
}

/// A whole script, for texts that belong to the oracle itself.
pub fn parse_script(text: &str) -> Result<Vec<Call>, String> {
    let line = |(i, l): (usize, &str)| parse_line(l).map_err(|e| format!("line {}: {e}", i + 1)).transpose();
    text.lines().enumerate().filter_map(line).collect()
}

/// Whoever answers calls: the Rust, or the rules read from SCOPE.
pub trait Judge {
    /// The answer to a call.
    fn call(&mut self, call: &Call) -> Answer;
}
