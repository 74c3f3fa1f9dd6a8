//! A join through the C interface over frames of two tables, with its areas, and an output that its turns write one behind the other.
use crate::tables::FRAME_ROWS;
use crate::{die, raw};

/// Right rows that the right area has room for where right frames come as they are wanted: four frames.
pub const WANTED_ROOM: usize = 4 * FRAME_ROWS;
/// The answers of a turn.
const WROTE: u64 = 0;
const WANTS_RIGHT: u64 = 1;
const IDLE: u64 = 2;

/// A join with its areas, and what its turns wrote, back to back.
pub struct Host {
    join: raw::Join,
    left: Vec<i64>,
    right: Vec<i64>,
    output: Vec<i64>,
    written: usize,
    /// Turns that wrote, and the right rows that were held at them.
    pub turns: u64,
    pub held: u64,
}

impl Host {
    /// Opens a join, with room for one left frame, so many right rows, and what its turns write for so many left rows. All memory is
    /// there before the first call: areas and output are filled, since zeros would come page by page.
    pub fn open(options: raw::Options, room: usize, rows: usize) -> Host {
        let (by, carried) = (options.by as usize, options.carried as usize);
        let columns = 1 + carried + options.with_distance as usize;
        Host {
            join: took(raw::rowkeeper_open(options)),
            left: vec![1; 2 + 2 * FRAME_ROWS * (by + 1)],
            right: vec![1; 2 * room * (by + 1 + carried)],
            output: vec![1; 2 * rows.div_ceil(FRAME_ROWS) + 2 * rows * columns],
            written: 0,
            turns: 0,
            held: 0,
        }
    }

    /// Hands in a right frame.
    fn right(&mut self, frame: &[i64]) {
        self.join = took(raw::safe::right(self.join, &self.left, &mut self.right, frame));
    }

    /// Hands in a left frame.
    fn left(&mut self, frame: &[i64]) {
        self.join = took(raw::safe::left(self.join, &mut self.left, &self.right, frame));
    }

    /// Ends right.
    fn end_right(&mut self) {
        self.join = took(raw::safe::end_right(self.join, &self.left, &self.right));
    }

    /// A turn, which writes behind the one before; its answer.
    fn turn(&mut self) -> u64 {
        let t = raw::safe::turn(self.join, &self.left, &self.right, &mut self.output[self.written..]);
        if t.answer == WROTE {
            self.written += words(&self.output[self.written..]);
            self.turns += 1;
            self.held += self.join.held;
        }
        self.join = t.join;
        t.answer
    }

    /// Makes turns until every left frame is written: the next left frame where none waits, the next right frame where one is wanted,
    /// or all of them before the first turn.
    pub fn run(&mut self, left: &[Vec<i64>], right: &[Vec<i64>], right_first: bool) {
        let (mut lefts, mut rights) = (left.iter(), right.iter());
        if right_first {
            rights.by_ref().for_each(|frame| self.right(frame));
            self.end_right();
        }
        loop {
            match self.turn() {
                WROTE => {},
                WANTS_RIGHT => match rights.next() {
                    Some(frame) => self.right(frame),
                    None => self.end_right(),
                },
                IDLE => match lefts.next() {
                    Some(frame) => self.left(frame),
                    None => return,
                },
                _ => die(1, "a turn is refused"),
            }
        }
    }

    /// What was written, frame by frame: the values of each, and its marks.
    pub fn frames(&self) -> impl Iterator<Item = (&[i64], &[i64])> {
        let mut rest = &self.output[..self.written];
        std::iter::from_fn(move || {
            let (frame, behind) = rest.split_at(words(rest));
            rest = behind;
            (!frame.is_empty()).then(|| frame[2..].split_at(frame.len() / 2 - 1))
        })
    }
}

/// The words of the frame at the front of an output, or none where there are no words.
fn words(output: &[i64]) -> usize {
    match output {
        [rows, columns, ..] => 2 + 2 * (rows * columns) as usize,
        _ => 0,
    }
}

/// The join of a call that must be accepted.
fn took(t: raw::Took) -> raw::Join {
    if t.refusal != 0 {
        die(1, &format!("a call is refused by {}", t.refusal));
    }
    t.join
}
