//! A judge that knows nothing of the Rust: SCOPE's step rules, sentence by sentence, as plainly as they can be said. It
//! speaks the whole script language, with areas, all refusals and `state`. It shares no code with the Rust's driver,
//! with the stand-ins or with the judge of the whole-table rule.
use std::cmp::Ordering;

use crate::script::{Answer, Call, JoinWords, Judge, Look, MOST_CODES, Open, Options, Place, Ran, Ranks, Stop, Told};
use crate::words::{self, Rising, RowWords};
use crate::{books, cuts, pairs, plans, readers, spans, takings};

/// A cell: null, or a number.
pub type Cell = Option<i64>;

/// A row: b by-values, then the key, then, on the right, what it carries. Only writing looks at that.
pub type Row = Vec<Cell>;

/// How a column compares: both flags, and the codes of its list; none where it has no list.
#[derive(Default)]
struct Rule<'a> {
    descending: bool,
    nulls_last: bool,
    codes: &'a [i64],
}

/// "Opening may give, for one by-column, a list of 1 to 64 codes": the codes of a list that opening takes.
fn codes(o: &Options) -> &[i64] {
    &o.ranks.codes[..o.ranks.count as usize]
}

/// How by-column j compares.
fn rule(o: &Options, j: usize) -> Rule<'_> {
    let codes = if o.ranks.given && o.ranks.column == j as u64 { codes(o) } else { &[] };
    Rule { descending: o.descending[j], nulls_last: o.nulls_last[j], codes }
}

/// "that column then compares by place in the list"; "A … value that the list lacks … stands after the listed ones, by
/// number". Without a list it lacks every value.
fn rank(codes: &[i64], value: i64) -> (usize, i64) {
    (codes.iter().position(|code| *code == value).unwrap_or(codes.len()), value)
}

/// "Null equals null; it stands before every value, or after where nulls last is set, whatever the direction. Values
/// compare as numbers, reversed if descending"; with a list by place in it, "reversed if descending, nulls as before".
fn compare_cells(x: Cell, y: Cell, rule: &Rule) -> Ordering {
    match (x, y) {
        (Some(x), Some(y)) if rule.descending => rank(rule.codes, y).cmp(&rank(rule.codes, x)),
        (Some(x), Some(y)) => rank(rule.codes, x).cmp(&rank(rule.codes, y)),
        (None, None) => Ordering::Equal,
        (None, Some(_)) => {
            if rule.nulls_last {
                Ordering::Greater
            } else {
                Ordering::Less
            }
        },
        (Some(_), None) => {
            if rule.nulls_last {
                Ordering::Less
            } else {
                Ordering::Greater
            }
        },
    }
}

/// "Rows compare by by-columns in order": two rows' groups.
fn compare_groups(o: &Options, x: &Row, y: &Row) -> Ordering {
    for j in 0..o.b {
        let by = compare_cells(x[j], y[j], &rule(o, j));
        if by != Ordering::Equal {
            return by;
        }
    }
    Ordering::Equal
}

/// "The key is ascending, nulls first."
fn compare_keys(x: Cell, y: Cell) -> Ordering {
    compare_cells(x, y, &Rule::default())
}

/// "Rows compare by by-columns in order, then key."
fn compare_rows(o: &Options, x: &Row, y: &Row) -> Ordering {
    compare_groups(o, x, y).then(compare_keys(x[o.b], y[o.b]))
}

/// "Sorted: no row is greater than the next."
fn sorted(o: &Options, rows: &[Row]) -> bool {
    rows.windows(2).all(|two| compare_rows(o, &two[0], &two[1]) != Ordering::Greater)
}

/// "Over lower..upper, probe (lower + upper) ÷ 2 rounded down; true moves upper to it, false moves lower past it; the
/// answer is lower."
fn search(mut lower: usize, mut upper: usize, test: impl Fn(usize) -> bool) -> usize {
    while lower < upper {
        let probe = (lower + upper) / 2;
        if test(probe) { upper = probe } else { lower = probe + 1 }
    }
    lower
}

/// "narrow start and end by each by-value of the last left row": the first held row that is not before the value, and
/// the first that is after it, column by column.
fn narrow(o: &Options, held: &[Row], by: &Row) -> (usize, usize) {
    let (mut start, mut end) = (0, held.len());
    for j in 0..o.b {
        let at = |i: usize| compare_cells(held[i][j], by[j], &rule(o, j));
        start = search(start, end, |i| at(i) != Ordering::Less);
        end = search(start, end, |i| at(i) == Ordering::Greater);
    }
    (start, end)
}

/// "Need more": whether the held rows may not be enough for this left frame.
fn need_more(o: &Options, left: &[Row], held: &[Row]) -> bool {
    let Some(last) = left.last() else { return false };
    if held.is_empty() {
        return true;
    }
    let (start, end) = narrow(o, held, last);
    if start == held.len() || end < held.len() {
        return start == held.len();
    }
    let first_at_least = |v: Cell, from: usize| search(from, end, |i| compare_keys(held[i][o.b], v) != Ordering::Less);
    let first_above = |v: Cell, from: usize| search(from, end, |i| compare_keys(held[i][o.b], v) == Ordering::Greater);
    let v = last[o.b];
    let find = match (o.strategy, o.eq) {
        (1, true) | (0, false) => first_at_least(v, start),
        (1, false) | (0, true) => first_above(v, start),
        _ => {
            let above = first_above(v, start);
            if above == held.len() { above } else { first_above(held[above][o.b], above) }
        },
    };
    find >= held.len()
}

/// "the frame's first row with a key".
fn first_keyed<'a>(o: &Options, rows: &'a [Row]) -> Option<&'a Row> {
    rows.iter().find(|r| r[o.b].is_some())
}

/// "the frame's last row with a key".
fn last_keyed<'a>(o: &Options, rows: &'a [Row]) -> Option<&'a Row> {
    rows.iter().rev().find(|r| r[o.b].is_some())
}

/// Whether the earlier row, if any, is greater than the later one, if any.
fn out_of_order(o: &Options, earlier: Option<&Row>, later: Option<&Row>) -> bool {
    earlier.zip(later).is_some_and(|(e, l)| compare_rows(o, e, l) == Ordering::Greater)
}

/// "A group is null if any by-value is."
fn null_group(o: &Options, row: &Row) -> bool {
    row[..o.b].contains(&None)
}

/// "A run is consecutive rows of equal group; neighbouring null groups form one run.": where each run starts and ends.
fn runs(o: &Options, rows: &[Row]) -> Vec<(usize, usize)> {
    let mut out: Vec<(usize, usize)> = vec![];
    for (i, row) in rows.iter().enumerate() {
        let same = |before: &Row| match (null_group(o, before), null_group(o, row)) {
            (false, false) => compare_groups(o, before, row) == Ordering::Equal,
            (x, y) => x && y,
        };
        match out.last_mut() {
            Some(run) if same(&rows[run.1 - 1]) => run.1 = i + 1,
            _ => out.push((i, i + 1)),
        }
    }
    out
}

/// "The distance of two keys is the greater less the smaller".
fn distance(x: i64, y: i64) -> i128 {
    (x as i128 - y as i128).abs()
}

/// "Nearest: least distance, then greater key, then last position.": whether a later row is chosen over an earlier one.
fn nearer(v: i64, earlier: i64, later: i64) -> bool {
    match distance(later, v).cmp(&distance(earlier, v)) {
        Ordering::Less => true,
        Ordering::Equal => later >= earlier,
        Ordering::Greater => false,
    }
}

/// "Matching": the place of the chosen row among rows of one group, for a left key.
fn choose(o: &Options, key: Cell, rows: &[Row]) -> Option<usize> {
    let v = key?;
    let mut chosen: Option<(usize, i64)> = None;
    for (i, row) in rows.iter().enumerate() {
        let Some(k) = row[o.b] else { continue };
        let better = match o.strategy {
            0 => k < v || (o.eq && k == v),
            1 => (k > v || (o.eq && k == v)) && chosen.is_none(),
            _ => chosen.is_none_or(|(_, c)| nearer(v, c, k)),
        };
        if better {
            chosen = Some((i, k));
        }
    }
    let (i, k) = chosen?;
    (o.tolerance < 0 || distance(k, v) <= o.tolerance as i128).then_some(i)
}

/// "One right cursor serves the frame: for each left run that isn't null it passes null runs and runs before the left
/// group; an equal run is used, else an empty one.": each left row's place among the held rows.
fn match_frame(o: &Options, left: &[Row], held: &[Row]) -> Vec<Option<usize>> {
    if o.b == 0 {
        return left.iter().map(|x| choose(o, x[0], held)).collect();
    }
    let right_runs = runs(o, held);
    let mut cursor = right_runs.iter().peekable();
    let mut out = vec![];
    for (from, to) in runs(o, left) {
        let group = &left[from];
        let mut used = (0, 0);
        if !null_group(o, group) {
            let passed = |r: &Row| null_group(o, r) || compare_groups(o, r, group) == Ordering::Less;
            while cursor.next_if(|run| passed(&held[run.0])).is_some() {}
            let equal = cursor.peek().filter(|run| compare_groups(o, &held[run.0], group) == Ordering::Equal);
            used = equal.map_or((0, 0), |run| **run);
        }
        let rows = &held[used.0..used.1];
        out.extend(left[from..to].iter().map(|x| choose(o, x[o.b], rows).map(|i| used.0 + i)));
    }
    out
}

/// "An answer frame has 1 + p columns"; "A join may be opened to add a last answer column: the distance".
fn answer_columns(o: &Options) -> usize {
    1 + o.carried as usize + o.distance as usize
}

/// The distance of two keys as a cell: "null for none or above 2^63 − 1".
fn distance_cell(left: Cell, right: Cell) -> Cell {
    i64::try_from(distance(left?, right?)).ok()
}

/// The row of an answer for a left row and the place of its match among the held rows, of which the first has the number
/// `first`.
fn answer_row(o: &Options, left: &Row, first: u64, held: &[Row], chosen: Option<usize>) -> Row {
    let Some(i) = chosen else { return vec![None; answer_columns(o)] };
    let mut out = [&[Some((first + i as u64) as i64)], &held[i][o.b + 1..]].concat();
    if o.distance == 1 {
        out.push(distance_cell(left[o.b], held[i][o.b]));
    }
    out
}

/// "Prune": how many held rows stand before the split by this left row.
fn split(o: &Options, by: &Row, held: &[Row]) -> usize {
    let (start, end) = narrow(o, held, by);
    let first = search(start, end, |i| compare_keys(held[i][o.b], by[o.b]) != Ordering::Less);
    if o.strategy == 1 || first == start { first } else { first - 1 }
}

/// 1: "Opening with b above 4, strategy outside 0 to 2, tolerance below −1, or Nearest without equality gives no join.", or with
/// a distance that is no flag.
fn bad_options(o: &Options) -> bool {
    let strategy = (0..=2).contains(&o.strategy) && (o.eq || o.strategy != 2);
    o.b > 4 || !strategy || o.tolerance < -1 || o.distance > 1
}

/// 10: "p above 8, at opening after 1".
fn many_carried(o: &Options) -> bool {
    o.carried > 8
}

/// 11: "a list empty or too long, with a code twice or for a column that is no by-column, at opening after 10".
fn bad_ranks(o: &Options) -> bool {
    let twice = |codes: &[i64]| codes.iter().enumerate().any(|(i, code)| codes[..i].contains(code));
    o.ranks.given && (!(1..=64).contains(&o.ranks.count) || o.ranks.column >= o.b as u64 || twice(codes(o)))
}

/// The places of a list's codes in the order of the codes as numbers, and zeros behind them: an opened join keeps them
/// beside its options.
pub fn rising(ranks: &Ranks) -> Rising {
    let mut out = [0; MOST_CODES];
    if ranks.given {
        let mut places: Vec<u8> = (0..ranks.count as u8).collect();
        places.sort_by_key(|place| ranks.codes[*place as usize]);
        out[..places.len()].copy_from_slice(&places);
    }
    out
}

/// 12: "a value that the list lacks in any frame 5 looks at, after 5 and like it". A null is no value.
fn lacks(o: &Options, rows: &[Row]) -> bool {
    let mut values = rows.iter().filter_map(|row| row[o.ranks.column as usize]);
    o.ranks.given && values.any(|value| !codes(o).contains(&value))
}

/// "Mark 1 is present, 0 is null with value 0; no other mark. Its length is exactly 2 + 2nc words."
fn frame_ok(c: usize, words: &[i64]) -> bool {
    if words.len() < 2 || words[0] < 0 || words[0] > 4096 || words[1] != c as i64 {
        return false;
    }
    let nc = words[0] as usize * c;
    words.len() == 2 + 2 * nc && (2..2 + nc).all(|i| words[i + nc] == 1 || (words[i + nc] == 0 && words[i] == 0))
}

/// Rows from two parallel arrays: "any nonzero mark is present, and a null's value is not read".
fn rows_of(c: usize, n: usize, values: &[i64], marks: &[i64]) -> Vec<Row> {
    let cell = |at: usize| if marks[at] == 0 { None } else { Some(values[at]) };
    (0..n).map(|i| (0..c).map(|j| cell(i * c + j)).collect()).collect()
}

/// The rows of a frame that keeps the frame rule.
pub fn frame_rows(c: usize, words: &[i64]) -> Vec<Row> {
    let n = words[0] as usize;
    rows_of(c, n, &words[2..], &words[2 + n * c..])
}

/// Where an order fault was seen, for the counts of a run.
#[derive(Clone, Copy, Debug, PartialEq)]
pub enum Fault {
    LeftContinuity,
    LeftFrame,
    Held,
    Split,
}

impl Fault {
    /// "8. Left out of order", "9. Right out of order, held rows or split".
    fn number(self) -> u8 {
        match self {
            Fault::LeftContinuity | Fault::LeftFrame => 8,
            Fault::Held | Fault::Split => 9,
        }
    }
}

/// What a turn that writes changes. Where a side has no row to remember, the remembered one stays.
struct Written {
    /// "An answer frame has 1 + p columns: the right number, then the matched row's carried values, all null for none.", and
    /// where it is asked for the distance as "a last answer column".
    answer: Vec<Row>,
    dropped: usize,
    left: Option<Row>,
    right: Option<Row>,
}

/// An open join with its two areas.
#[derive(Clone)]
pub struct Join {
    o: Options,
    /// The places of the codes of the options' list.
    rising: Rising,
    left_area: Vec<i64>,
    right_area: Vec<i64>,
    look: Look,
    /// The words of the remembered rows, left and right.
    rows: [RowWords; 2],
    /// The join's words where a host has altered them so that no join has them.
    strange: Option<JoinWords>,
    fault: Option<Fault>,
}

/// The words with which scripts begin a left area of this length.
fn new_left(length: usize) -> Vec<i64> {
    (0..length as i64).map(|i| (7 * i) % 11 - 5).collect()
}

/// The words with which scripts begin a right area of this length.
fn new_right(length: usize) -> Vec<i64> {
    (0..length as i64).map(|i| (5 * i) % 13 - 6).collect()
}

impl Join {
    /// "A fresh join is Running, right not ended, not failed, no row remembered, counters 0"; the areas' words are
    /// those that scripts begin with. Or the refusal's number.
    fn open(open: Open) -> Result<Join, u8> {
        let o = open.options;
        if bad_options(&o) {
            return Err(1);
        } else if many_carried(&o) {
            return Err(10);
        } else if bad_ranks(&o) {
            return Err(11);
        }
        let look = Look {
            base: 0,
            held: 0,
            pruned: 0,
            queue_start: 0,
            queue_words: 0,
            state: 0,
            ended: false,
            failed: false,
            sequence: 0,
            left: None,
            right: None,
        };
        let (left_area, right_area) = (new_left(open.left_words), new_right(open.right_words));
        let (rising, rows) = (rising(&o.ranks), [[0; 11]; 2]);
        Ok(Join { o, rising, left_area, right_area, look, rows, strange: None, fault: None })
    }

    /// The join's words, as the C interface lays them out.
    fn words(&self) -> JoinWords {
        self.strange.unwrap_or_else(|| words::encode(&self.o, &self.rising, &self.look, &self.rows))
    }

    /// A word of the join is altered by the host.
    fn put(&mut self, at: usize, word: i64) {
        let mut all = self.words();
        all[at] = word;
        match words::decode(&all) {
            Some((o, rising, look, rows)) => {
                (self.o, self.rising, self.look, self.rows, self.strange) = (o, rising, look, rows, None);
            },
            None => self.strange = Some(all),
        }
    }

    /// A word of an area is altered by the host. Nothing happens where the area has no such word.
    fn put_area(area: &mut [i64], at: usize, word: i64) -> Answer {
        let Some(place) = area.get_mut(at) else { return Answer::Nothing };
        *place = word;
        Answer::Ok
    }

    /// What is no call of the port: looking at the join and its areas, and altering them.
    fn host(&mut self, call: &Call) -> Option<Answer> {
        Some(match *call {
            Call::State if self.strange.is_some() => Answer::Nothing,
            Call::State => Answer::State(Box::new(self.look.clone())),
            Call::Areas => Answer::Areas(self.left_area.clone(), self.right_area.clone()),
            Call::Words => Answer::Words(Box::new(self.words())),
            Call::Put(Place::Join, at, word) => {
                self.put(at, word);
                Answer::Ok
            },
            Call::Put(Place::Left, at, word) => Self::put_area(&mut self.left_area, at, word),
            Call::Put(Place::Right, at, word) => Self::put_area(&mut self.right_area, at, word),
            _ => return None,
        })
    }

    /// "left frames b + 1".
    fn left_columns(&self) -> usize {
        self.o.b + 1
    }

    /// "right frames then have b + 1 + p columns, the carried ones after the key".
    fn right_columns(&self) -> usize {
        self.o.b + 1 + self.o.carried as usize
    }

    /// "Right capacity R is the area's words ÷ 2c, rounded down."; "R counts rows of the new width".
    fn capacity(&self) -> usize {
        self.right_area.len() / (2 * self.right_columns())
    }

    /// "Held row i has values from word (base + i) × c and marks from (R + base + i) × c."
    fn held_rows(&self) -> Vec<Row> {
        let (c, base) = (self.right_columns(), self.look.base);
        let values = &self.right_area[base * c..];
        let marks = &self.right_area[(self.capacity() + base) * c..];
        rows_of(c, self.look.held, values, marks)
    }

    /// Whether the list's places are not those of its codes in rising order. Those behind the count are free, as its
    /// words are.
    fn bad_rising(&self) -> bool {
        let count = self.o.ranks.count as usize;
        self.o.ranks.given && self.rising[..count] != rising(&self.o.ranks)[..count]
    }

    /// 2: whether the fields cannot be those of a join; "a join holding such a p is 2", and so is one that holds a list
    /// which is 11, or other places of its codes. No call reaches it; a host that alters its words can.
    fn broken(&self) -> bool {
        let l = &self.look;
        self.strange.is_some()
            || bad_options(&self.o)
            || many_carried(&self.o)
            || bad_ranks(&self.o)
            || self.bad_rising()
            || l.base as u128 + l.held as u128 > self.capacity() as u128
            || l.queue_start as u128 + l.queue_words as u128 > self.left_area.len() as u128
            || l.pruned as u128 + l.held as u128 > i64::MAX as u128
            || l.sequence % 2 == 1
    }

    /// A left call: refusals 4, 5, 12, 6, then "Waiting left frames stand back to back".
    fn left(&mut self, words: &[i64]) -> Answer {
        let (c, room, waiting) = (self.left_columns(), self.left_area.len(), self.look.queue_words);
        if self.look.state != 0 {
            return Answer::Refused(4);
        } else if !frame_ok(c, words) {
            return Answer::Refused(5);
        } else if lacks(&self.o, &frame_rows(c, words)) {
            return Answer::Refused(12);
        } else if waiting + words.len() > room {
            return Answer::Refused(6);
        }
        let start = self.look.queue_start;
        if start + waiting + words.len() > room {
            self.left_area.copy_within(start..start + waiting, 0);
            self.look.queue_start = 0;
        }
        let to = self.look.queue_start + waiting;
        self.left_area[to..to + words.len()].copy_from_slice(words);
        self.look.queue_words += words.len();
        Answer::Ok
    }

    /// A right call: refusals 4, 5, 12, 6, 7, then its rows are held.
    fn right(&mut self, words: &[i64]) -> Answer {
        let c = self.right_columns();
        if self.look.ended || self.look.state == 2 {
            return Answer::Refused(4);
        } else if !frame_ok(c, words) {
            return Answer::Refused(5);
        } else if lacks(&self.o, &frame_rows(c, words)) {
            return Answer::Refused(12);
        }
        let n = words[0] as usize;
        if self.look.held + n > self.capacity() {
            return Answer::Refused(6);
        } else if self.look.pruned as u128 + self.look.held as u128 + n as u128 > i64::MAX as u128 {
            return Answer::Refused(7);
        }
        self.append_right(n, &words[2..]);
        Answer::Ok
    }

    /// "Where an append would pass the end, the live rows or frames move to the front first".
    fn append_right(&mut self, n: usize, cells: &[i64]) {
        let (c, r, held) = (self.right_columns(), self.capacity(), self.look.held);
        if self.look.base + held + n > r {
            let from = self.look.base * c;
            self.right_area.copy_within(from..from + held * c, 0);
            self.right_area.copy_within(r * c + from..r * c + from + held * c, r * c);
            self.look.base = 0;
        }
        let to = (self.look.base + held) * c;
        self.right_area[to..to + n * c].copy_from_slice(&cells[..n * c]);
        self.right_area[r * c + to..r * c + to + n * c].copy_from_slice(&cells[n * c..]);
        self.look.held += n;
    }

    /// An end-of-right call: refusal 4, then right has ended.
    fn end(&mut self) -> Answer {
        if self.look.ended || self.look.state == 2 {
            return Answer::Refused(4);
        }
        self.look.ended = true;
        Answer::Ok
    }

    /// A move: refusal 6, then "the words that wait stand from word 0 of the new left area on; the values of the held rows
    /// from word 0 of the new right area on, their marks from word R × c on … All other words of both stay."
    fn move_to(&mut self, left_words: usize, right_words: usize) -> Answer {
        let (c, held, waiting) = (self.right_columns(), self.look.held, self.look.queue_words);
        let (rows, new_rows) = (self.capacity(), right_words / (2 * c));
        if waiting > left_words || held > new_rows {
            return Answer::Refused(6);
        }
        let (mut left, mut right) = (new_left(left_words), new_right(right_words));
        let (start, base) = (self.look.queue_start, self.look.base);
        left[..waiting].copy_from_slice(&self.left_area[start..start + waiting]);
        for i in 0..held * c {
            right[i] = self.right_area[base * c + i];
            right[new_rows * c + i] = self.right_area[(rows + base) * c + i];
        }
        (self.left_area, self.right_area) = (left, right);
        (self.look.queue_start, self.look.base) = (0, 0);
        Answer::Ok
    }

    /// "Ports", for left, right, send; refused by 2 and 3 alone.
    fn ports(&mut self, [left, right, send]: [u8; 3]) -> Answer {
        const BLOCKED: u8 = 0;
        const DONE: u8 = 2;
        let look = &mut self.look;
        if send == DONE {
            look.state = 2;
        } else if look.state == 0 && left == DONE {
            look.state = 1;
        }
        if look.state == 1 && look.queue_words == 0 {
            look.state = 2;
        }
        let ready_unless = |others: &[u8]| if others.contains(&BLOCKED) { 0 } else { 1 };
        let ports = match look.state {
            0 => [ready_unless(&[right, send]), ready_unless(&[left, send]), ready_unless(&[left, right])],
            1 => [2, ready_unless(&[send]), ready_unless(&[right])],
            _ => [2, 2, 2],
        };
        Answer::Ports(ports, look.state)
    }

    /// 5: "The front's length is what its n and c give; it breaks the rule if that exceeds the queue words or these are
    /// below 2." The waiting front frame's words, or none where they break the rule.
    fn front(&self) -> Option<&[i64]> {
        let queue = &self.left_area[self.look.queue_start..][..self.look.queue_words];
        let rows = queue.first().filter(|n| (0..=4096).contains(*n))?;
        let length = 2 + 2 * *rows as usize * self.left_columns();
        queue.get(..length).filter(|frame| frame_ok(self.left_columns(), frame))
    }

    /// "Left: the remembered row must not be greater than the frame's first row with a key; … Then frame and held rows
    /// must each be sorted." "Strict … remembers the last left row of any frame that has one, key or not, and compares it
    /// with the next frame's first row."
    fn order_check(&self, left: &[Row], held: &[Row]) -> Result<(), Fault> {
        let o = &self.o;
        let first = if o.strict { left.first() } else { first_keyed(o, left) };
        if out_of_order(o, self.look.left.as_ref(), first) {
            return Err(Fault::LeftContinuity);
        } else if !sorted(o, left) {
            return Err(Fault::LeftFrame);
        } else if !sorted(o, held) {
            return Err(Fault::Held);
        }
        Ok(())
    }

    /// "With the check on: the row before the split is the last row with a key in the part before it, or else the
    /// remembered row; it must not be greater than the first row with a key after the split, and is then remembered."
    /// None where the remembered row stays. "Order, search and groups ignore the carried ones": they are not remembered.
    fn split_check(&self, held: &[Row], at: usize) -> Result<Option<Row>, Fault> {
        let before = last_keyed(&self.o, &held[..at]);
        if out_of_order(&self.o, before.or(self.look.right.as_ref()), first_keyed(&self.o, &held[at..])) {
            return Err(Fault::Split);
        }
        Ok(before.map(|row| row[..=self.o.b].to_vec()))
    }

    /// "Otherwise: left continuity; prune by row 0 if the check is off; sorted checks; match; prune by the last row".
    fn work(&self, left: &[Row], mut held: &[Row]) -> Result<Written, Fault> {
        let o = &self.o;
        if o.check {
            self.order_check(left, held)?;
        }
        let mut dropped = 0;
        if let (false, Some(first), false) = (o.check, left.first(), held.is_empty()) {
            dropped = split(o, first, held);
            held = &held[dropped..];
        }
        let first = self.look.pruned + dropped as u64;
        let matches = left.iter().zip(match_frame(o, left, held));
        let answer = matches.map(|(row, chosen)| answer_row(o, row, first, held, chosen)).collect();
        let mut right = None;
        if let (Some(last), false) = (left.last(), held.is_empty()) {
            let at = split(o, last, held);
            if o.check {
                right = self.split_check(held, at)?;
            }
            dropped += at;
        }
        let last = if o.strict { left.last() } else { last_keyed(o, left) };
        Ok(Written { answer, dropped, left: last.filter(|_| o.check).cloned(), right })
    }

    /// "Turn": refusals 4 to 9 in order, 12 after 5, Idle, Wants right, or what it writes.
    fn turn(&mut self, output: usize) -> Answer {
        if self.look.state == 2 {
            return Answer::Refused(4);
        } else if self.look.queue_words == 0 {
            return Answer::Idle;
        }
        let Some(front) = self.front() else { return Answer::Refused(5) };
        let (length, left, held) = (front.len(), frame_rows(self.left_columns(), front), self.held_rows());
        if lacks(&self.o, &left) {
            return Answer::Refused(12);
        } else if !self.look.ended && need_more(&self.o, &left, &held) {
            return Answer::Wants;
        } else if output < 2 + 2 * left.len() * answer_columns(&self.o) {
            return Answer::Refused(6);
        } else if self.look.sequence == u64::MAX - 1 {
            return Answer::Refused(7);
        }
        match self.work(&left, &held) {
            Ok(written) => self.leave(length, written),
            Err(fault) => {
                self.look.failed = true;
                self.fault = Some(fault);
                Answer::Refused(fault.number())
            },
        }
    }

    /// "the frame leaves the queue, sequence + 2"; written is a frame of 1 + p columns, or 2 + p, "carried values … with mark 1,
    /// nulls as 0 and 0".
    fn leave(&mut self, length: usize, written: Written) -> Answer {
        let look = &mut self.look;
        let sequence = look.sequence;
        look.base += written.dropped;
        look.held -= written.dropped;
        look.pruned += written.dropped as u64;
        look.queue_start += length;
        look.queue_words -= length;
        look.sequence += 2;
        for (side, row, remembered) in [(0, written.left, &mut look.left), (1, written.right, &mut look.right)] {
            if let Some(row) = row {
                self.rows[side] = words::row_words(&row);
                *remembered = Some(row);
            }
        }
        let cells = || written.answer.iter().flatten();
        let mut words = vec![written.answer.len() as i64, answer_columns(&self.o) as i64];
        words.extend(cells().map(|cell| cell.unwrap_or(0)));
        words.extend(cells().map(|cell| cell.is_some() as i64));
        Answer::Wrote(sequence, words)
    }

    /// "`run` makes at most k turns and reports how many it made, the words written back to back, and the answer that
    /// stopped it … Only turns that wrote count; after k of them, or with k = 0, it tries no other." Each turn is lent
    /// what the earlier ones left of the output. Numbers that no join has are refused before any turn is.
    fn run(&mut self, k: usize, output: usize) -> Ran {
        let (mut turns, mut words) = (0, vec![]);
        let mut stop = self.strange.map_or(Stop::Used, |_| Stop::Refused(2));
        while stop == Stop::Used && turns < k as u64 {
            match self.call(&Call::Turn(output - words.len())) {
                Answer::Wrote(_, more) => (turns, words) = (turns + 1, [words, more].concat()),
                Answer::Wants => stop = Stop::Wants,
                Answer::Idle => stop = Stop::Idle,
                Answer::Refused(number) => stop = Stop::Refused(number),
                _ => unreachable!(),
            }
        }
        Ran { turns, count: words.len() as u64, stop, words }
    }

    /// "numbers in checking order": 2 and 3 come first in every call; in a run, in each of its turns. A move asks no 3.
    fn call(&mut self, call: &Call) -> Answer {
        if let Some(answer) = self.host(call) {
            return answer;
        } else if let Call::Run(k, output) = *call {
            return Answer::Ran(self.run(k, output));
        } else if self.broken() {
            return Answer::Refused(2);
        } else if let Call::Move(left, right) = *call {
            return self.move_to(left, right);
        } else if self.look.failed {
            return Answer::Refused(3);
        }
        match call {
            Call::Left(words) => self.left(words),
            Call::Right(words) => self.right(words),
            Call::End => self.end(),
            Call::Ports(ports) => self.ports(*ports),
            Call::Turn(output) => self.turn(*output),
            Call::Open(_)
            | Call::Options(_)
            | Call::Opens(..)
            | Call::Spans(_)
            | Call::Merge(_)
            | Call::Standing(_)
            | Call::Read(_)
            | Call::Plan(_)
            | Call::Places(_)
            | Call::Pairs(_)
            | Call::TakingsAdd(_)
            | Call::TakingsJoin(_) => unreachable!(),
            Call::Run(..) | Call::Move(..) | Call::State | Call::Areas | Call::Words | Call::Put(..) => unreachable!(),
        }
    }
}

/// The judge that answers by SCOPE's step rules.
#[derive(Default, Clone)]
pub struct Rules {
    told: Told,
    join: Option<Join>,
}

impl Rules {
    /// What `state` would tell, if a join is open.
    pub fn look(&self) -> Option<&Look> {
        self.join.as_ref().map(|j| &j.look)
    }

    /// The open join's words and those of its areas, for a look at every word.
    pub fn all_words(&self) -> Option<(JoinWords, &[i64], &[i64])> {
        self.join.as_ref().map(|j| (j.words(), &j.left_area[..], &j.right_area[..]))
    }

    /// The open join's options.
    pub fn options(&self) -> Option<&Options> {
        self.join.as_ref().map(|j| &j.o)
    }

    /// Whether every call would be refused by 2.
    pub fn broken(&self) -> bool {
        self.join.as_ref().is_some_and(Join::broken)
    }

    /// Where the fault that stopped the join was seen.
    pub fn fault(&self) -> Option<Fault> {
        self.join.as_ref().and_then(|j| j.fault)
    }
}

impl Judge for Rules {
    /// Opens, or asks the open join; a call on tables needs none.
    fn call(&mut self, call: &Call) -> Answer {
        match (call, self.told.opens(call), &mut self.join) {
            (Call::Spans(spans), ..) => spans::answer(spans),
            (Call::Merge(merge), ..) => self.told.with(|o| books::merge(o, merge)),
            (Call::Standing(standing), ..) => self.told.with(|o| books::standing(o, standing)),
            (Call::Plan(plan), ..) => self.told.with(|o| plans::plan(o, plan)),
            (Call::Places(call), ..) => self.told.with(|o| cuts::place(o, call)),
            (Call::Pairs(call), ..) => self.told.with(|o| pairs::cut(o, call)),
            (Call::TakingsAdd(call), ..) => self.told.with(|o| takings::add(o, call)),
            (Call::TakingsJoin(call), ..) => self.told.with(|o| takings::join(o, call)),
            (Call::Read(read), ..) => readers::answer(read),
            (_, Some(Ok(open)), join) => {
                let opened = Join::open(open);
                let answer = opened.as_ref().map_or_else(|number| Answer::Refused(*number), |_| Answer::Ok);
                *join = opened.ok();
                answer
            },
            (_, Some(Err(answer)), _) => answer,
            (_, _, None) => Answer::NoJoin,
            (call, _, Some(join)) => join.call(call),
        }
    }
}
