//! A judge that knows nothing of steps: SCOPE's whole-table rule by brute force, straight from its sentences, with an order, a
//! sorting and a matching of its own. It shares no function with the step rules, the stand-ins or the Rust's driver, and looks
//! at no call's inside: only at what was handed in and what was answered.
//!
//! Up to the first accepted row that is out of order every match must be the whole table's; behind it a match must at
//! least be a row that qualifies. Order faults and refusals 1, 3 to 6 and 10 to 12 are judged everywhere. It takes from
//! nowhere how many rows are held or when more are needed: a want is due wherever a frame waits and right is open, and a
//! right frame may be refused by 6 where all rows accepted so far would not fit.
use crate::script::{Answer, Call, Open, Options, Ran, Stop, opening};

/// A row as handed in: b by-values, then the key, then, of a right row, what it carries; none is null.
pub type Row = Vec<Option<i64>>;

/// What judged scripts had in them.
#[derive(Default, Clone)]
pub struct Counts {
    pub scripts: u64,
    /// Scripts whose sides are sorted to their end.
    pub sorted: u64,
    pub rows: u64,
    /// Rows that were written before any row out of order was accepted: their matches are the whole table's.
    pub whole: u64,
    pub matched: u64,
    /// Cells, null or not, that came with the matches.
    pub carried: u64,
    /// Distances of matches: written, and null since they are above 2^63 − 1; of these, exactly 2^63 − 1 and exactly 2^63.
    pub distances: [u64; 4],
    pub wants: u64,
    /// Order faults, each of them due.
    pub faults: u64,
    /// Frames that were never turned.
    pub waiting: u64,
    /// Lists that opening refused, and frames that were refused for a value that their list lacks.
    pub bad_lists: u64,
    pub unlisted: u64,
}

impl Counts {
    /// Adds another script's counts.
    pub fn add(&mut self, other: &Counts) {
        self.scripts += other.scripts;
        self.sorted += other.sorted;
        self.rows += other.rows;
        self.whole += other.whole;
        self.matched += other.matched;
        self.carried += other.carried;
        (0..4).for_each(|i| self.distances[i] += other.distances[i]);
        self.wants += other.wants;
        self.faults += other.faults;
        self.waiting += other.waiting;
        self.bad_lists += other.bad_lists;
        self.unlisted += other.unlisted;
    }
}

/// The list that the options give, if they give one: its column, and its codes in their order.
fn list(o: &Options) -> Option<(usize, &[i64])> {
    let many = o.ranks.count as usize;
    o.ranks.given.then(|| (o.ranks.column as usize, &o.ranks.codes[..many]))
}

/// Where a value of column j stands: "as numbers", or, with a list, "by place in the list"; "a … value that the list
/// lacks … stands after the listed ones, by number, before any reversal".
fn standing(o: &Options, j: usize, value: i64) -> i128 {
    const BEHIND_ALL_PLACES: i128 = 1 << 66;
    let Some((_, codes)) = list(o).filter(|(column, _)| *column == j) else { return value as i128 };
    match (0..).zip(codes).find(|(_, code)| **code == value) {
        Some((place, _)) => place,
        None => BEHIND_ALL_PLACES + value as i128,
    }
}

/// Where a cell stands on the line of whole numbers: "Null … stands before every value, or after where nulls last is set,
/// whatever the direction. Values compare …, reversed if descending."
fn place(standing: Option<i128>, descending: bool, nulls_last: bool) -> i128 {
    const BEYOND: i128 = 1 << 70;
    let sign = |reversed: bool| if reversed { -1 } else { 1 };
    standing.map_or(-BEYOND * sign(nulls_last), |at| at * sign(descending))
}

/// A row's places: "by-columns in order, then key", the key "ascending, nulls first".
pub(crate) fn places<'a>(o: &'a Options, row: &'a Row) -> impl Iterator<Item = i128> + 'a {
    group_places(o, row).chain([place(row[o.b].map(i128::from), false, false)])
}

/// Those of its group, which is its first b cells.
pub fn group_places<'a>(o: &'a Options, row: &'a Row) -> impl Iterator<Item = i128> + 'a {
    let by = move |j: usize| place(row[j].map(|v| standing(o, j, v)), o.descending[j], o.nulls_last[j]);
    (0..o.b).map(by)
}

/// Sorts rows as the options declare.
pub fn sort(o: &Options, rows: &mut [Row]) {
    rows.sort_by_cached_key(|row| places(o, row).collect::<Vec<_>>());
}

/// "Sorted: no row is greater than the next.": whether the second row may follow the first.
fn may_follow(o: &Options, row: &Row, next: &Row) -> bool {
    places(o, row).le(places(o, next))
}

/// "Sorted", of all these rows.
pub fn is_sorted(o: &Options, rows: &[Row]) -> bool {
    (1..rows.len()).all(|i| may_follow(o, &rows[i - 1], &rows[i]))
}

/// "right frames then have b + 1 + p columns, the carried ones after the key, left frames b + 1": cells of a left row, and of
/// a right one.
fn widths(o: &Options) -> [usize; 2] {
    [o.b + 1, o.b + 1 + o.carried as usize]
}

/// The frame rule: "rows n (0 to 4,096), columns c, then two parallel arrays of n × c"; "Mark 1 is present, 0 is null with
/// value 0; no other mark."
fn keeps_rule(width: usize, words: &[i64]) -> bool {
    let [n @ 0..=4096, c, cells @ ..] = words else { return false };
    let pairs = *n as usize * width;
    let cell = |at: usize| matches!((cells[at], cells[pairs + at]), (_, 1) | (0, 0));
    *c == width as i64 && cells.len() == 2 * pairs && (0..pairs).all(cell)
}

/// The rows of a frame's words: "two parallel arrays of n × c, values and marks, row by row".
fn rows(words: &[i64]) -> Vec<Row> {
    let (n, c) = (words[0] as usize, words[1] as usize);
    let (values, marks) = words[2..].split_at(n * c);
    let cells: Vec<_> = values.iter().zip(marks).map(|(v, m)| if *m == 1 { Some(*v) } else { None }).collect();
    cells.chunks(c).map(|row| row.to_vec()).collect()
}

/// "a right row qualifies if no key or by-value of either row is null, its group is equal, its key lies on the
/// strategy's side (any, for Nearest) and its distance is within the tolerance": how far it is, if it qualifies. What it
/// carries is not asked.
fn qualifies(o: &Options, left: &Row, right: &Row) -> Option<i128> {
    let has_null = |row: &Row| row[..=o.b].contains(&None);
    if has_null(left) || has_null(right) || left[..o.b] != right[..o.b] {
        return None;
    }
    let (v, key) = (left[o.b]? as i128, right[o.b]? as i128);
    let side = match o.strategy {
        0 => key <= v,
        1 => key >= v,
        _ => true,
    };
    let distance = (key - v).abs();
    let near = o.tolerance == -1 || distance <= o.tolerance as i128;
    (side && near && (o.eq || key != v)).then_some(distance)
}

/// "Backward: last row by position … Forward: first … Nearest: least distance, then greater key, then last position."
/// The number of the chosen one among the right rows that qualify.
fn whole_table_match(o: &Options, left: &Row, right: &[Row]) -> Option<usize> {
    let mut found = right.iter().enumerate().filter_map(|(i, r)| qualifies(o, left, r).map(|far| (i, far)));
    match o.strategy {
        0 => found.next_back(),
        1 => found.next(),
        _ => found.max_by_key(|(i, far)| (-far, right[*i][o.b], *i)),
    }
    .map(|(i, _)| i)
}

/// The cells of an answer's row: "1 + p columns", and, with the distance, one more.
pub(crate) fn answer_width(o: &Options) -> usize {
    match o.distance {
        0 => 1 + o.carried as usize,
        _ => 2 + o.carried as usize,
    }
}

/// "The distance of two keys is the greater less the smaller, up to 2^64 − 1."
fn apart(o: &Options, left: &Row, right: &Row) -> Option<u128> {
    let (one, other) = (left[o.b]? as i128, right[o.b]? as i128);
    Some((one.max(other) - one.min(other)) as u128)
}

/// The distance as it is written: "null for none or above 2^63 − 1".
fn far(o: &Options, left: &Row, right: &Row) -> Option<i64> {
    const MOST: u128 = (1 << 63) - 1;
    apart(o, left, right).filter(|distance| *distance <= MOST).map(|distance| distance as i64)
}

/// The words that a turn writes for the matches of these left rows: for each "the right number, then the matched row's carried
/// values, all null for none", then, if it is asked for, the distance; values row by row, then marks row by row.
fn written(o: &Options, front: &[Row], matches: &[Option<usize>], right: &[Row]) -> Vec<i64> {
    let [first, width] = widths(o);
    let mut values = vec![matches.len() as i64, answer_width(o) as i64];
    let mut marks = vec![];
    for (left, found) in front.iter().zip(matches) {
        let mut cells = vec![found.map(|number| number as i64)];
        cells.extend((first..width).map(|j| found.and_then(|number| right[number][j])));
        if o.distance == 1 {
            cells.push(found.and_then(|number| far(o, left, &right[number])));
        }
        for cell in cells {
            values.push(cell.unwrap_or(0));
            marks.push(cell.is_some() as i64);
        }
    }
    [values, marks].concat()
}

/// The answer of two whole tables, as one table: the match of each left row among all right rows.
pub fn whole_table(o: &Options, left: &[Row], right: &[Row]) -> Vec<i64> {
    let matches: Vec<_> = left.iter().map(|row| whole_table_match(o, row, right)).collect();
    written(o, left, &matches, right)
}

/// How many of these matches have which distance: as in `Counts`. None where no distance is written.
fn distances(o: &Options, front: &[Row], matches: &[Option<usize>], right: &[Row]) -> [u64; 4] {
    let of = |(left, found): (&Row, &Option<usize>)| found.and_then(|number| apart(o, left, &right[number]));
    let all = front.iter().zip(matches).filter_map(of).filter(|_| o.distance == 1);
    all.fold([0; 4], |[written, above, most, next], distance| {
        let (is_most, is_next) = (distance == (1 << 63) - 1, distance == 1 << 63);
        let within = distance < 1 << 63;
        [written + within as u64, above + !within as u64, most + is_most as u64, next + is_next as u64]
    })
}

/// "a list empty or too long, with a code twice or for a column that is no by-column".
fn no_list(o: &Options) -> bool {
    let (k, mut seen) = (&o.ranks, std::collections::BTreeSet::new());
    let many = k.count as usize;
    k.given
        && (k.count == 0 || k.count > 64 || k.column as usize >= o.b || !k.codes[..many].iter().all(|c| seen.insert(c)))
}

/// 1, then 10, then 11: what options are refused by at opening, or 0.
pub fn no_options(o: &Options) -> u8 {
    match () {
        _ if o.b > 4 || ![0, 1, 2].contains(&o.strategy) || o.tolerance < -1 || (!o.eq && o.strategy == 2) => 1,
        _ if ![0, 1].contains(&o.distance) => 1,
        _ if o.carried > 8 => 10,
        _ if no_list(o) => 11,
        _ => 0,
    }
}

/// 12: whether a row has "a value that the list lacks". A null is no value.
pub fn has_unlisted_row(o: &Options, row: &Row) -> bool {
    let unlisted = |(column, codes): (usize, &[i64])| matches!(row[column], Some(value) if !codes.contains(&value));
    list(o).is_some_and(unlisted)
}

/// 12, of a frame's rows.
fn has_unlisted(o: &Options, words: &[i64]) -> bool {
    rows(words).iter().any(|row| has_unlisted_row(o, row))
}

/// A side's accepted rows, and how many of them, from the first on, are sorted.
#[derive(Default)]
struct Side {
    rows: Vec<Row>,
    sorted: usize,
}

impl Side {
    /// Adds a frame's rows.
    fn add(&mut self, o: &Options, words: &[i64]) {
        for row in rows(words) {
            let follows = self.rows.last().is_none_or(|last| may_follow(o, last, &row));
            self.sorted += (self.is_sorted() && follows) as usize;
            self.rows.push(row);
        }
    }

    /// Whether all rows are sorted.
    fn is_sorted(&self) -> bool {
        self.sorted == self.rows.len()
    }
}

/// The part of a script in which both sides are sorted: how many calls it has, and the right rows accepted in it.
fn sorted_part(o: &Options, calls: &[Call], answers: &[Answer]) -> (usize, Vec<Row>) {
    let (mut left, mut right) = (Side::default(), Side::default());
    for (i, pair) in calls.iter().zip(answers).enumerate() {
        let before = right.rows.len();
        match pair {
            (Call::Left(words), Answer::Ok) => left.add(o, words),
            (Call::Right(words), Answer::Ok) => right.add(o, words),
            _ => continue,
        }
        if !left.is_sorted() || !right.is_sorted() {
            right.rows.truncate(before);
            return (i, right.rows);
        }
    }
    (calls.len(), right.rows)
}

/// How far the answers to a script are judged.
struct Judged<'a> {
    o: &'a Options,
    /// The lengths of the areas: those of the opening, or of the last move.
    left_words: usize,
    right_words: usize,
    /// The right rows of the whole table, while the calls are in the part of the script that is sorted.
    table: Option<Vec<Row>>,
    right: Side,
    /// Frames that wait, with the words in them.
    waiting: std::collections::VecDeque<&'a [i64]>,
    waiting_words: usize,
    turned: u64,
    /// The last row with a key of the frames that were turned; under strict the last row, key or not.
    last: Option<Row>,
    ended: bool,
    left_done: bool,
    done: bool,
    failed: bool,
    counts: Counts,
}

/// How an answer is judged: fine, or why not.
type Verdict = Result<(), String>;

/// Fine where it holds.
fn due(holds: bool, what: &str) -> Verdict {
    if holds { Ok(()) } else { Err(what.to_string()) }
}

impl<'a> Judged<'a> {
    /// A frame for which this refusal is due.
    fn refused(&mut self, number: u8, answer: &Answer) -> Verdict {
        self.counts.unlisted += (number == 12) as u64;
        due(*answer == Answer::Refused(number), &format!("{number} is due"))
    }

    /// A left frame: 3, 4, 5, 12, 6 or taken.
    fn left(&mut self, words: &'a [i64], answer: &Answer) -> Verdict {
        let refusal = match () {
            _ if self.failed => 3,
            _ if self.left_done || self.done => 4,
            _ if !keeps_rule(widths(self.o)[0], words) => 5,
            _ if has_unlisted(self.o, words) => 12,
            _ if self.waiting_words + words.len() > self.left_words => 6,
            _ => 0,
        };
        if refusal > 0 {
            return self.refused(refusal, answer);
        }
        self.waiting.push_back(words);
        self.waiting_words += words.len();
        due(*answer == Answer::Ok, "the frame is to be taken")
    }

    /// A right frame: 3, 4, 5, 12, 6 or taken. How many rows are held is not known, only that it is no more than came in.
    fn right(&mut self, words: &[i64], answer: &Answer) -> Verdict {
        let refusal = match () {
            _ if self.failed => 3,
            _ if self.ended || self.done => 4,
            _ if !keeps_rule(widths(self.o)[1], words) => 5,
            _ if has_unlisted(self.o, words) => 12,
            _ => 0,
        };
        if refusal > 0 {
            return self.refused(refusal, answer);
        }
        let (n, room) = (words[0] as usize, self.right_words / (2 * widths(self.o)[1]));
        if *answer == Answer::Refused(6) {
            return due(self.right.rows.len() + n > room, "all rows would fit");
        }
        self.right.add(self.o, words);
        due(*answer == Answer::Ok && n <= room, "the frame is to be taken, or 6 is due")
    }

    /// A move to areas of these lengths: 6 or taken, whatever came before. How many rows are held is not known.
    fn moved(&mut self, left_words: usize, right_words: usize, answer: &Answer) -> Verdict {
        let (short, room) = (self.waiting_words > left_words, right_words / (2 * widths(self.o)[1]));
        if *answer == Answer::Refused(6) {
            return due(short || self.right.rows.len() > room, "everything would fit");
        }
        (self.left_words, self.right_words) = (left_words, right_words);
        due(*answer == Answer::Ok && !short, "the join is to be moved, or 6 is due")
    }

    /// The end of right: 3, 4 or taken.
    fn end(&mut self, answer: &Answer) -> Verdict {
        match answer {
            Answer::Refused(3) => due(self.failed, "no order fault came before"),
            Answer::Refused(4) => due(!self.failed && (self.ended || self.done), "right is open"),
            Answer::Ok => {
                let open = !self.failed && !self.ended && !self.done;
                self.ended = true;
                due(open, "it is to be refused")
            },
            _ => due(false, "no such answer is due"),
        }
    }

    /// "The node is done from an accepted port call on that came with send Done, or that, with left Done in it or in an
    /// earlier one, found no frame waiting."
    fn ports(&mut self, [left, _, send]: [u8; 3], answer: &Answer) -> Verdict {
        if self.failed {
            return due(*answer == Answer::Refused(3), "3 is due");
        }
        self.left_done |= left == 2;
        self.done |= send == 2 || (self.left_done && self.waiting.is_empty());
        let state = if self.done { 2 } else { self.left_done as u8 };
        due(matches!(answer, Answer::Ports(_, told) if *told == state), &format!("node state {state} is due"))
    }

    /// Whether a row counts between frames: those with a key, under strict all.
    fn counts_between(&self, row: &Row) -> bool {
        self.o.strict || row[self.o.b].is_some()
    }

    /// Whether the front frame is out of order: in itself, or behind the rows of earlier frames that count.
    fn left_fault(&self, front: &[Row]) -> bool {
        let first = front.iter().find(|r| self.counts_between(r));
        let seam = self.last.iter().zip(first).all(|(last, first)| may_follow(self.o, last, first));
        self.o.check && !(seam && is_sorted(self.o, front))
    }

    /// An order fault: 8 where left rows are out of order, else 9 where right rows are.
    fn fault(&mut self, number: u8, front: &[Row]) -> Verdict {
        let left = self.left_fault(front);
        self.failed = true;
        self.counts.faults += 1;
        match number {
            8 => due(left, "the left rows are in order, or the check is off"),
            _ => due(!left && self.o.check && !self.right.is_sorted(), "9 is not due"),
        }
    }

    /// The words of the answer to a frame of so many rows: "6 wants 2 + 2n(1 + p) words of output", with the distance "then
    /// wants 2 + 2n(2 + p)".
    fn answer_words(&self, n: usize) -> usize {
        2 + 2 * n * answer_width(self.o)
    }

    /// The matches that these words tell, if each is an accepted right row that qualifies, and the words are what is written
    /// for them, with the cells that these rows carry and with their distances.
    fn all_qualify(&self, front: &[Row], words: &[i64]) -> Option<Vec<Option<usize>>> {
        let (n, c, rows) = (front.len(), answer_width(self.o), &self.right.rows);
        if words.len() != self.answer_words(n) {
            return None;
        }
        let (values, marks) = words[2..].split_at(n * c);
        let told = |i: usize| (marks[i * c] == 1).then(|| values[i * c] as usize);
        let fits =
            |i: usize, number: usize| rows.get(number).is_some_and(|r| qualifies(self.o, &front[i], r).is_some());
        let matches: Vec<_> = (0..n).map(told).collect();
        let all = matches.iter().enumerate().all(|(i, found)| found.is_none_or(|number| fits(i, number)));
        (all && *words == written(self.o, front, &matches, rows)).then_some(matches)
    }

    /// A turn that wrote these words for the front frame.
    fn wrote(&mut self, front: &[Row], words: &[i64]) -> Verdict {
        due(!self.left_fault(front), "8 is due")?;
        due(!self.o.check || self.right.is_sorted(), "9 is due")?;
        if let Some(table) = &self.table {
            let want: Vec<_> = front.iter().map(|x| whole_table_match(self.o, x, table)).collect();
            let want = written(self.o, front, &want, table);
            due(*words == want, &format!("the whole table gives {want:?}"))?;
            self.counts.whole += front.len() as u64;
        }
        let wrong = "a match does not qualify, its row carries other cells, or has another distance";
        let matches = self.all_qualify(front, words).ok_or(wrong)?;
        let matched = matches.iter().flatten().count() as u64;
        let far = distances(self.o, front, &matches, &self.right.rows);
        (0..4).for_each(|i| self.counts.distances[i] += far[i]);
        self.counts.rows += front.len() as u64;
        self.counts.matched += matched;
        self.counts.carried += matched * self.o.carried;
        self.last = front.iter().rfind(|r| self.counts_between(r)).cloned().or(self.last.take());
        self.waiting_words -= self.waiting.pop_front().map_or(0, <[i64]>::len);
        self.turned += 1;
        Ok(())
    }

    /// A turn with an output of so many words.
    fn turn(&mut self, output: usize, answer: &Answer) -> Verdict {
        if self.failed || self.done {
            let refusal = if self.failed { 3 } else { 4 };
            return due(*answer == Answer::Refused(refusal), &format!("{refusal} is due"));
        }
        let Some(frame) = self.waiting.front() else { return due(*answer == Answer::Idle, "no frame waits") };
        let front = rows(frame);
        let short = output < self.answer_words(front.len());
        match answer {
            Answer::Wants => {
                self.counts.wants += 1;
                due(!self.ended && !front.is_empty(), "nothing more is needed")
            },
            Answer::Refused(6) => due(short, "the output is enough"),
            _ if short => due(false, "the output is too short"),
            Answer::Refused(number @ (8 | 9)) => self.fault(*number, &front),
            Answer::Wrote(sequence, words) if *sequence == 2 * self.turned => self.wrote(&front, words),
            _ => due(false, "no such answer is due"),
        }
    }

    /// A run of at most k turns: its words are those of its turns, and what stopped it is what a further turn answers, or
    /// that k of them wrote.
    fn run(&mut self, k: usize, output: usize, ran: &Ran) -> Verdict {
        let (mut rest, before) = (&ran.words[..], self.turned);
        while let [n, ..] = rest {
            let length = self.answer_words(*n as usize);
            let (words, further) = rest.split_at_checked(length).ok_or("a turn's words are cut off")?;
            let wrote = Answer::Wrote(2 * self.turned, words.to_vec());
            self.turn(output.saturating_sub(ran.words.len() - rest.len()), &wrote)?;
            rest = further;
        }
        let made = self.turned - before;
        due(ran.turns == made && ran.count == ran.words.len() as u64, &format!("{made} turns wrote"))?;
        due((made == k as u64) == (ran.stop == Stop::Used), &format!("{made} turns wrote"))?;
        let last = match ran.stop {
            Stop::Used => return Ok(()),
            Stop::Wants => Answer::Wants,
            Stop::Idle => Answer::Idle,
            Stop::Refused(number) => Answer::Refused(number),
        };
        self.turn(output.saturating_sub(ran.words.len()), &last)
    }

    /// One call and its answer.
    fn judge(&mut self, call: &'a Call, answer: &Answer) -> Verdict {
        match (call, answer) {
            (Call::Left(words), _) => self.left(words, answer),
            (Call::Right(words), _) => self.right(words, answer),
            (Call::End, _) => self.end(answer),
            (Call::Ports(ports), _) => self.ports(*ports, answer),
            (Call::Turn(output), _) => self.turn(*output, answer),
            (Call::Run(k, output), Answer::Ran(ran)) => self.run(*k, *output, ran),
            (Call::Move(left, right), _) => self.moved(*left, *right, answer),
            (Call::State | Call::Areas | Call::Words, _) => Ok(()),
            _ => due(false, "no such answer is due"),
        }
    }
}

/// Judges the answers to a script that opens once: of as many calls as were answered. A script in which the host alters words
/// itself is not judged.
pub fn judge(calls: &[Call], answers: &[Answer]) -> Result<Counts, String> {
    let Some((Open { options: o, left_words, right_words }, lines)) = opening(calls) else {
        panic!("a script opens first")
    };
    if calls.iter().any(|call| matches!(call, Call::Put(..))) {
        return Ok(Counts::default());
    }
    let (o, refusal, opened) = (&o, no_options(&o), &answers[lines - 1]);
    if refusal > 0 {
        let why = format!("open: {refusal} is due");
        let counts = Counts { bad_lists: (refusal == 11) as u64, ..Counts::default() };
        return due(*opened == Answer::Refused(refusal), &why).map(|_| counts);
    }
    due(*opened == Answer::Ok, "open: nothing is to be refused")?;
    let (rest, answers) = (&calls[lines..], &answers[lines..]);
    let (until, table) = sorted_part(o, rest, answers);
    let mut judged = Judged {
        o,
        left_words,
        right_words,
        table: Some(table),
        right: Side::default(),
        waiting: Default::default(),
        waiting_words: 0,
        turned: 0,
        last: None,
        ended: false,
        left_done: false,
        done: false,
        failed: false,
        counts: Counts { scripts: 1, sorted: (until == rest.len()) as u64, ..Counts::default() },
    };
    for (i, (call, answer)) in rest.iter().zip(answers).enumerate() {
        judged.table = judged.table.filter(|_| i < until);
        judged.judge(call, answer).map_err(|why| format!("{call}: {answer}: {why}"))?;
    }
    judged.counts.waiting = judged.waiting.len() as u64;
    Ok(judged.counts)
}

/// Judges the answers to a script whose sides are sorted, which ends right and then makes enough turns: at its end no frame
/// waits.
pub fn judge_whole(calls: &[Call], answers: &[Answer]) -> Result<Counts, String> {
    let counts = judge(calls, answers)?;
    due(counts.sorted == 1, "the sides are not sorted")?;
    due(counts.waiting == 0, &format!("{} frames never turned", counts.waiting))?;
    Ok(counts)
}
