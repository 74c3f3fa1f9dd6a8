//! The join and its calls.
use alloc::vec;
use alloc::vec::Vec;
use core::array;

use crate::raw::{self, safe};
use crate::{NodeState, Options, Port, Ports, Refusal};

/// A join with the two areas that it works in. An area is anything that holds words: a `Vec<i64>`, an array, a
/// `&mut [i64]` that is lent for the join's whole life.
#[derive(Clone, Debug)]
pub struct Join<A = Vec<i64>> {
    join: raw::Join,
    left: A,
    right: A,
}

/// The answer of a turn that was not refused.
#[derive(Clone, Copy, Debug, PartialEq, Eq)]
pub enum Turn<'o> {
    /// The matches of the frame that waited first; frames are numbered 0, 2, 4 and so on.
    Wrote {
        /// The number of the frame.
        sequence: u64,
        /// Its matches.
        matches: Matches<'o>,
    },
    /// Right rows that are still to come might match: hand in more, or end right.
    WantsRight,
    /// No frame waits.
    Idle,
}

/// What a run made, and what ended it.
#[derive(Clone, Copy, Debug, PartialEq, Eq)]
pub struct Run<'o> {
    /// What its turns wrote. It stands whatever ended the run.
    pub written: Written<'o>,
    /// What ended it.
    pub stop: Stop,
}

/// What ended a run.
#[derive(Clone, Copy, Debug, PartialEq, Eq)]
pub enum Stop {
    /// As many turns wrote as the run was given; no other was tried.
    TurnsUsed,
    /// The next turn wants right rows: hand in more, or end right.
    WantsRight,
    /// No frame waits any more.
    Idle,
    /// The next turn was refused.
    Refused(Refusal),
}

/// What the turns of a run wrote, one behind the other.
#[derive(Clone, Copy, Debug, PartialEq, Eq)]
pub struct Written<'o> {
    first: u64,
    turns: usize,
    distance: bool,
    words: &'o [i64],
}

impl<'o> Written<'o> {
    /// How many turns wrote.
    pub fn len(&self) -> usize {
        self.turns
    }

    /// Whether no turn wrote.
    pub fn is_empty(&self) -> bool {
        self.turns == 0
    }

    /// For each turn, in order, the number of its frame (0, 2, 4 and so on) and its matches.
    pub fn iter(&self) -> impl Iterator<Item = (u64, Matches<'o>)> + use<'o> {
        let (first, distance, mut rest) = (self.first, self.distance, self.words);
        (0..self.turns as u64).map(move |turn| {
            let matches = Matches::of(rest, distance);
            rest = &rest[matches.words()..];
            (first + 2 * turn, matches)
        })
    }
}

/// The match of a left row: its right row, which carries P columns.
#[derive(Clone, Copy, Debug, PartialEq, Eq)]
pub struct Match<const P: usize> {
    /// The number of the right row: its place among all right rows, from 0.
    pub number: u64,
    /// What the right row carries, in the order of its columns; `None` is a null.
    pub carried: [Option<i64>; P],
    /// The distance of the two keys; `None` if it is above 2^63 − 1, or the join was opened without [`Options::distance`].
    pub distance: Option<u64>,
}

/// The matches that a turn wrote, one for each row of its frame; or those that [`join_cut`](crate::join_cut) wrote, one for each row of
/// its left table, which is meant then where a frame is named.
#[derive(Clone, Copy, Debug, PartialEq, Eq)]
pub struct Matches<'o> {
    /// The number of a right row, what it carries, and, if that is told, the distance.
    columns: usize,
    distance: bool,
    values: &'o [i64],
    marks: &'o [i64],
}

impl<'o> Matches<'o> {
    /// The matches at the front of an output, whose last column is the distance or not.
    pub(crate) fn of(output: &'o [i64], distance: bool) -> Matches<'o> {
        let (rows, columns) = (output[0] as usize, output[1] as usize);
        let (values, marks) = output[2..2 + 2 * rows * columns].split_at(rows * columns);
        Matches { columns, distance, values, marks }
    }

    /// Those from a row on.
    pub(crate) fn rest(self, from: usize) -> Matches<'o> {
        let from = from * self.columns;
        Matches { values: &self.values[from..], marks: &self.marks[from..], ..self }
    }

    /// How many words of the output they are, with the two in front of them.
    fn words(&self) -> usize {
        2 + 2 * self.values.len()
    }

    /// The words of these matches as an answer frame, as [`Takings::add`](crate::Takings::add) takes them.
    pub fn to_words(&self) -> Vec<i64> {
        let head = [self.len() as i64, self.columns as i64];
        [&head, self.values, self.marks].concat()
    }

    /// How many rows the frame has.
    pub fn len(&self) -> usize {
        self.values.len() / self.columns
    }

    /// Whether the frame has no row.
    pub fn is_empty(&self) -> bool {
        self.values.is_empty()
    }

    /// How many columns the right rows carry.
    pub fn carried(&self) -> usize {
        self.columns - 1 - self.distance as usize
    }

    /// For each row of the frame, in order, the number of its right row: its place among all right rows, from 0.
    pub fn iter(&self) -> impl Iterator<Item = Option<u64>> + use<'o> {
        let cells = self.values.iter().zip(self.marks).step_by(self.columns);
        cells.map(|(number, mark)| (*mark != 0).then_some(*number as u64))
    }

    /// For each row of the frame, in order, its match: the number of the right row, what it carries, and the distance if the
    /// join tells it.
    ///
    /// ```
    /// use rowkeeper::{Frame, Join, Match, Options, Turn};
    ///
    /// let mut join = Join::open_rows(&Options { carried: 1, ..Options::default() }, 10, 10)?;
    /// join.right(&Frame::new(2, &[[Some(10), Some(1800)], [Some(20), None], [Some(30), Some(2500)]])?)?;
    /// join.left(&Frame::of_keys(&[5, 15, 25])?)?;
    /// let mut output = [0; 64];
    /// let Turn::Wrote { matches, .. } = join.turn(&mut output)? else { panic!("nothing was written") };
    /// let prices: Vec<_> = matches.carrying().map(|found| found.map(|Match { carried: [price], .. }| price)).collect();
    /// assert_eq!(prices, [None, Some(Some(1800)), Some(None)]);
    /// # Ok::<(), Box<dyn std::error::Error>>(())
    /// ```
    ///
    /// # Panics
    ///
    /// If P is not [`Matches::carried`].
    pub fn carrying<const P: usize>(&self) -> impl Iterator<Item = Option<Match<P>>> + use<'o, P> {
        assert_eq!(P, self.carried(), "the join carries another number of columns");
        let (values, marks) = (self.values.chunks_exact(self.columns), self.marks.chunks_exact(self.columns));
        let distance = self.distance;
        values.zip(marks).map(move |(values, marks)| match_of(values, marks, distance))
    }

    /// What the right row of a row of the frame carries in a column, from 0: `None` is a null, or that there is no match.
    ///
    /// # Panics
    ///
    /// If the frame has no such row, or as many columns are not carried.
    pub fn cell(&self, row: usize, column: usize) -> Option<i64> {
        assert!(column < self.carried(), "the join carries {} columns", self.carried());
        let at = row * self.columns + 1 + column;
        (self.marks[at] != 0).then_some(self.values[at])
    }

    /// The distance of the key of a row of the frame from that of its right row: `None` if there is no match, the distance is
    /// above 2^63 − 1, or the join was opened without [`Options::distance`].
    ///
    /// ```
    /// use rowkeeper::{Frame, Join, Options, Turn};
    ///
    /// let mut join = Join::open_rows(&Options { distance: true, ..Options::default() }, 10, 10)?;
    /// join.right(&Frame::of_keys(&[10, 20, 20, 30])?)?;
    /// join.left(&Frame::of_keys(&[5, 20, 25])?)?;
    /// let mut output = [0; 64];
    /// let Turn::Wrote { matches, .. } = join.turn(&mut output)? else { panic!("nothing was written") };
    /// assert_eq!([0, 1, 2].map(|row| matches.distance(row)), [None, Some(0), Some(5)]);
    /// # Ok::<(), Box<dyn std::error::Error>>(())
    /// ```
    ///
    /// # Panics
    ///
    /// If the frame has no such row.
    pub fn distance(&self, row: usize) -> Option<u64> {
        let at = row * self.columns + self.columns - 1;
        let present = self.marks[at] != 0;
        (self.distance && present).then_some(self.values[at] as u64)
    }
}

/// The match of a row of an output: the number of the right row, P cells, and the distance if that is told.
pub(crate) fn match_of<const P: usize>(values: &[i64], marks: &[i64], distance: bool) -> Option<Match<P>> {
    let cell = |at: usize| (marks[at] != 0).then_some(values[at]);
    let number = cell(0)? as u64;
    let distance = if distance { cell(1 + P) } else { None };
    let carried = array::from_fn(|column| cell(1 + column));
    Some(Match { number, carried, distance: distance.map(|far| far as u64) })
}

impl Join<Vec<i64>> {
    /// Opens a join with areas for so many left rows that wait at once, in frames of one row or more, and so many right rows
    /// that are held at once.
    ///
    /// ```
    /// use rowkeeper::{Frame, Join, Options, Refusal};
    ///
    /// let mut join = Join::open_rows(&Options::default(), 2, 3)?;
    /// join.left(&Frame::of_keys(&[5])?)?;
    /// join.left(&Frame::of_keys(&[20])?)?;
    /// join.right(&Frame::of_keys(&[10, 20, 30])?)?;
    /// assert_eq!(join.right(&Frame::of_keys(&[40])?), Err(Refusal::NoRoom));
    /// # Ok::<(), Box<dyn std::error::Error>>(())
    /// ```
    pub fn open_rows(options: &Options, left_rows: usize, right_rows: usize) -> Result<Self, Refusal> {
        Join::open(options, Join::left_words(options, left_rows, 1), Join::right_words(options, right_rows))
    }

    /// Opens a join with areas of so many words. [`Join::left_words`] and [`Join::right_words`] say what is needed.
    pub fn open(options: &Options, left_words: usize, right_words: usize) -> Result<Self, Refusal> {
        let join = opened(options)?;
        Ok(Join { join, left: vec![0; left_words], right: vec![0; right_words] })
    }

    /// The words of the left area for so many waiting frames of so many rows each.
    pub fn left_words(options: &Options, frames: usize, rows: usize) -> usize {
        frames.saturating_mul(row_words(rows, options.columns()).saturating_add(2))
    }

    /// The words of the right area for so many held rows.
    pub fn right_words(options: &Options, rows: usize) -> usize {
        row_words(rows, options.right_columns())
    }

    /// The words of an output for a left frame of so many rows.
    pub fn output_words(options: &Options, rows: usize) -> usize {
        row_words(rows, options.answer_columns()).saturating_add(2)
    }

    /// The words of an output for a run of so many turns, where no left frame has more rows than this. As many words as wait
    /// ([`Join::waiting_words`]) are enough for any number of turns if an answer has no more columns than a left row; else
    /// [`Options::answer_columns`] times as many are.
    pub fn run_words(options: &Options, turns: usize, rows: usize) -> usize {
        turns.saturating_mul(Join::output_words(options, rows))
    }

    /// Makes the right area larger, to hold so many rows at least; what is held and what waits stays. Nothing is done if it
    /// can hold as many. No answer to a later call is another one, save that frames find more room. Refused by 2.
    ///
    /// ```
    /// use rowkeeper::{Frame, Join, Options, Refusal};
    ///
    /// let mut join = Join::open_rows(&Options::default(), 10, 3)?;
    /// join.right(&Frame::of_keys(&[10, 20])?)?;
    /// let more = Frame::of_keys(&[30, 40])?;
    /// assert_eq!(join.right(&more), Err(Refusal::NoRoom));
    /// join.grow_right(2 * join.held() as usize + 2)?;
    /// join.right(&more)?;
    /// # Ok::<(), Box<dyn std::error::Error>>(())
    /// ```
    pub fn grow_right(&mut self, rows: usize) -> Result<(), Refusal> {
        let raw::Options { by, carried, .. } = self.join.options;
        if by > raw::MOST_BY as u64 || carried > raw::MOST_CARRIED as u64 {
            return Err(Refusal::BadJoin);
        }
        self.grow(self.left.len(), row_words(rows, (by + 1 + carried) as usize))
    }

    /// Makes the left area larger, to so many words at least; what waits and what is held stays. Nothing is done if it has
    /// as many. No answer to a later call is another one, save that frames find more room. Refused by 2.
    pub fn grow_left(&mut self, words: usize) -> Result<(), Refusal> {
        self.grow(words, self.right.len())
    }

    /// Moves the join to areas of these lengths if one of them is longer than it is; neither is shorter then.
    fn grow(&mut self, left: usize, right: usize) -> Result<(), Refusal> {
        if left > self.left.len() || right > self.right.len() {
            *self = self.moved(vec![0; left], vec![0; right])?;
        }
        Ok(())
    }
}

/// The words of so many rows, their values and their marks; the greatest number if there is no such number.
fn row_words(rows: usize, columns: usize) -> usize {
    rows.saturating_mul(columns.saturating_mul(2))
}

/// A fresh join of these options.
fn opened(options: &Options) -> Result<raw::Join, Refusal> {
    let took = raw::rowkeeper_open(options.raw());
    Refusal::of(took.refusal)?;
    Ok(took.join)
}

impl<A: AsRef<[i64]> + AsMut<[i64]>> Join<A> {
    /// Opens a join over these areas; their words may be anything.
    pub fn with_areas(options: &Options, left: A, right: A) -> Result<Self, Refusal> {
        Ok(Join { join: opened(options)?, left, right })
    }

    /// A join of parts that [`Join::parts`] gave, perhaps to a file. They may be anything: every call judges them.
    pub fn from_parts(join: raw::Join, left: A, right: A) -> Self {
        Join { join, left, right }
    }

    /// All that the join is: its own words and those of its areas.
    pub fn parts(&self) -> (raw::Join, &[i64], &[i64]) {
        (self.join, self.left.as_ref(), self.right.as_ref())
    }

    /// The same join in other areas, longer or shorter, whose words may be anything: what waits and what is held is copied
    /// to them. Later answers are the same, save that frames may find more room or less. Refused by 6 if the areas are too
    /// short, by 2 if this is no join. This one stays as it is, with its own areas.
    ///
    /// ```
    /// use rowkeeper::{Frame, Join, Options};
    ///
    /// let (mut left, mut right) = ([0; 4], [0; 2]);
    /// let mut small = Join::with_areas(&Options::default(), &mut left[..], &mut right[..])?;
    /// small.right(&Frame::of_keys(&[10])?)?;
    /// let mut large = small.moved(vec![0; 100], vec![0; 100])?;
    /// large.right(&Frame::of_keys(&[20, 30])?)?;
    /// assert_eq!((small.held(), large.held()), (1, 3));
    /// # Ok::<(), Box<dyn std::error::Error>>(())
    /// ```
    pub fn moved<B: AsRef<[i64]> + AsMut<[i64]>>(&self, mut left: B, mut right: B) -> Result<Join<B>, Refusal> {
        let took = safe::move_join(self.join, self.left.as_ref(), self.right.as_ref(), left.as_mut(), right.as_mut());
        Refusal::of(took.refusal)?;
        Ok(Join { join: took.join, left, right })
    }

    /// Gives the areas back.
    pub fn into_areas(self) -> (A, A) {
        (self.left, self.right)
    }

    /// The words of the left area.
    pub fn left_area(&self) -> &[i64] {
        self.left.as_ref()
    }

    /// The words of the right area.
    pub fn right_area(&self) -> &[i64] {
        self.right.as_ref()
    }

    /// Goes on with the join that a call handed back.
    fn took(&mut self, took: raw::Took) -> Result<(), Refusal> {
        self.join = took.join;
        Refusal::of(took.refusal)
    }

    /// Hands in a left frame, which then waits. Any words may come; those that are no frame are refused.
    pub fn left(&mut self, frame: &[i64]) -> Result<(), Refusal> {
        let took = safe::left(self.join, self.left.as_mut(), self.right.as_ref(), frame);
        self.took(took)
    }

    /// Hands in a right frame, whose rows are then held. Any words may come; those that are no frame are refused.
    pub fn right(&mut self, frame: &[i64]) -> Result<(), Refusal> {
        let took = safe::right(self.join, self.left.as_ref(), self.right.as_mut(), frame);
        self.took(took)
    }

    /// Ends right: no right frame comes any more.
    pub fn end_right(&mut self) -> Result<(), Refusal> {
        let took = safe::end_right(self.join, self.left.as_ref(), self.right.as_ref());
        self.took(took)
    }

    /// A port call: what the ports say comes in, what they are told comes back.
    pub fn ports(&mut self, ports: Ports) -> Result<Ports, Refusal> {
        let (left, right, send) = (ports.left as u64, ports.right as u64, ports.send as u64);
        let ported = safe::ports(self.join, self.left.as_ref(), self.right.as_ref(), left, right, send);
        self.join = ported.join;
        Refusal::of(ported.refusal)?;
        Ok(Ports { left: port(ported.left), right: port(ported.right), send: port(ported.send) })
    }

    /// A turn: the matches of the frame that waited first, written to the output.
    pub fn turn<'o>(&mut self, output: &'o mut [i64]) -> Result<Turn<'o>, Refusal> {
        let turned = safe::turn(self.join, self.left.as_ref(), self.right.as_ref(), output);
        self.join = turned.join;
        Refusal::of(turned.refusal)?;
        Ok(match turned.answer {
            raw::WROTE => {
                Turn::Wrote { sequence: turned.sequence, matches: Matches::of(output, self.tells_distance()) }
            },
            raw::WANTS_RIGHT => Turn::WantsRight,
            _ => Turn::Idle,
        })
    }

    /// A run: so many turns at most, each writing behind the one before; the first that does not write ends it.
    pub fn run<'o>(&mut self, turns: usize, output: &'o mut [i64]) -> Run<'o> {
        let first = self.join.sequence;
        let ran = safe::run(self.join, turns, self.left.as_ref(), self.right.as_ref(), output);
        self.join = ran.join;
        let stop = match (Refusal::of(ran.refusal), ran.stop) {
            (Err(refusal), _) => Stop::Refused(refusal),
            (_, raw::TURNS_USED) => Stop::TurnsUsed,
            (_, raw::WANTS_RIGHT) => Stop::WantsRight,
            _ => Stop::Idle,
        };
        let (turns, words) = (ran.turns as usize, &output[..ran.words as usize]);
        Run { written: Written { first, turns, distance: self.tells_distance(), words }, stop }
    }

    /// Whether answers tell the distance.
    pub fn tells_distance(&self) -> bool {
        self.join.options.with_distance == 1
    }

    /// The node's state. A join that was made of any words can have another number than there is: then it is none.
    pub fn state(&self) -> Option<NodeState> {
        NodeState::of(self.join.state)
    }

    /// How many right rows are held.
    pub fn held(&self) -> u64 {
        self.join.held
    }

    /// How many right rows were dropped.
    pub fn pruned(&self) -> u64 {
        self.join.pruned
    }

    /// How many words of left frames wait.
    pub fn waiting_words(&self) -> u64 {
        self.join.queue_words
    }

    /// Whether right has ended.
    pub fn right_ended(&self) -> bool {
        self.join.right_ended == 1
    }

    /// Whether a turn found rows out of order; every call is refused then.
    pub fn failed(&self) -> bool {
        self.join.failed == 1
    }
}

/// A port of its code. The library gives no other codes.
fn port(code: u64) -> Port {
    Port::of(code).unwrap_or(Port::Done)
}
