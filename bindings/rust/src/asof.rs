//! The whole loop of a join: frames of two tables in, matches out.
use alloc::vec::Vec;
use core::iter::FusedIterator;

use crate::join::match_of;
use crate::{Join, Match, Matches, Options, Refusal, Turn};

/// Joins two tables, each an iterator of frames, to an iterator of matches: for each left row, in order, the number of its
/// right row, which is its place among all right rows from 0, or none. [`AsOf::carrying`] gives what the right row carries
/// too, and the distance of the two keys if the options ask for it.
///
/// A frame is whatever has the words of one: a [`Frame`](crate::Frame), one of [`Frames`](crate::Frames), a vector of words,
/// a reference to any of them. Frames may be cut anywhere and may be empty; those of 4,096 rows are the quickest. A left
/// frame is asked for when all matches of the one before were given, a right frame when a turn wants right rows: once the
/// last left row has its match, no further one. What is in memory at any time is one left frame, its matches, and the right
/// rows that are held; the areas for these grow as frames need them, at least to twice their length, and never shrink.
///
/// Refused by 1 if the options are invalid, by 10 if too many columns are carried, by 11 if the list of ranks is invalid. A frame or
/// a turn that is refused is an item of the iterator, and its last.
///
/// If the source of a table can fail, it must not just end there: where right rows are missing, matches are wrong. Such a
/// host makes the calls of [`Join`] itself, or drops the matches if it finds out later.
///
/// ```
/// use rowkeeper::{ByColumn, Frames, Options, asof};
///
/// // Sales and price notices of two performances, each by columns: the performance, the minute.
/// let (sale_of, sale_at) = (vec![1, 1, 2, 2], vec![5, 20, 7, 25]);
/// let (notice_of, notice_at) = (vec![1, 1, 2], vec![10, 20, 7]);
/// let options = Options { by: vec![ByColumn::default()], ..Options::default() };
/// let sales = Frames::of_columns(&[&sale_of, &sale_at])?;
/// let notices = Frames::of_columns(&[&notice_of, &notice_at])?;
///
/// let matches: Vec<Option<u64>> = asof(&options, sales, notices)?.collect::<Result<_, _>>()?;
/// assert_eq!(matches, [None, Some(1), Some(2), Some(2)]);
/// # Ok::<(), Box<dyn std::error::Error>>(())
/// ```
pub fn asof<L, R>(options: &Options, lefts: L, rights: R) -> Result<AsOf<L::IntoIter, R::IntoIter>, Refusal>
where
    L: IntoIterator<Item: AsRef<[i64]>>,
    R: IntoIterator<Item: AsRef<[i64]>>,
{
    let join = Join::open(options, 0, 0)?;
    let (lefts, rights) = (lefts.into_iter(), rights.into_iter());
    let columns = options.answer_columns();
    Ok(AsOf { join, columns, lefts, rights, output: Vec::new(), rows: 0, given: 0, ended: false })
}

/// The matches of two tables, row by row: what [`asof`] gives.
#[derive(Clone, Debug)]
pub struct AsOf<L, R> {
    join: Join,
    /// The columns of what a turn writes.
    columns: usize,
    lefts: L,
    rights: R,
    /// What the last turn wrote.
    output: Vec<i64>,
    /// The rows of its frame, and how many of their matches were given.
    rows: usize,
    given: usize,
    /// Whether no further call is made: there is no left frame any more, or a call was refused.
    ended: bool,
}

impl<L: Iterator<Item: AsRef<[i64]>>, R: Iterator<Item: AsRef<[i64]>>> AsOf<L, R> {
    /// The matches of the next left frame that has rows, all at once, or those that are left of the frame that `next` has
    /// begun; none after the last.
    ///
    /// ```
    /// use rowkeeper::{Frame, Options, asof};
    ///
    /// let (lefts, rights) = ([Frame::of_keys(&[5, 20])?, Frame::of_keys(&[25])?], [Frame::of_keys(&[10, 20, 30])?]);
    /// let mut joined = asof(&Options::default(), &lefts, &rights)?;
    /// let mut heights = vec![];
    /// while let Some(matches) = joined.next_matches()? {
    ///     heights.push(matches.len());
    /// }
    /// assert_eq!(heights, [2, 1]);
    /// # Ok::<(), Box<dyn std::error::Error>>(())
    /// ```
    pub fn next_matches(&mut self) -> Result<Option<Matches<'_>>, Refusal> {
        if !self.fill()? {
            return Ok(None);
        }
        let from = core::mem::replace(&mut self.given, self.rows);
        Ok(Some(Matches::of(&self.output, self.join.tells_distance()).rest(from)))
    }

    /// The same matches, each with what its right row carries, and with its distance if the options ask for that.
    ///
    /// ```
    /// use rowkeeper::{Frames, Match, Options, asof};
    ///
    /// // Sales, and price notices with the price and the number of the sheet that it is on.
    /// let (sale_at, notice_at) = (vec![5, 15, 25], vec![10, 20]);
    /// let (price, sheet) = (vec![1800, 2200], vec![7, 7]);
    /// let options = Options { carried: 2, ..Options::default() };
    /// let joined = asof(&options, Frames::of_columns(&[&sale_at])?, Frames::of_columns(&[&notice_at, &price, &sheet])?)?;
    ///
    /// let matches: Vec<Option<Match<2>>> = joined.carrying().collect::<Result<_, _>>()?;
    /// assert_eq!(matches[0], None);
    /// assert_eq!(matches[1], Some(Match { number: 0, carried: [Some(1800), Some(7)], distance: None }));
    /// assert_eq!(matches[2], Some(Match { number: 1, carried: [Some(2200), Some(7)], distance: None }));
    /// # Ok::<(), Box<dyn std::error::Error>>(())
    /// ```
    ///
    /// # Panics
    ///
    /// If P is not the number of carried columns that the options have.
    pub fn carrying<const P: usize>(self) -> Carrying<L, R, P> {
        let number = self.columns - self.join.tells_distance() as usize;
        assert_eq!(1 + P, number, "the join carries another number of columns");
        Carrying(self)
    }

    /// The join as the last call left it: what is held, how many words its areas have.
    pub fn join(&self) -> &Join {
        &self.join
    }

    /// Goes on to the next left row; where its match begins in the output, its values and its marks.
    fn next_place(&mut self) -> Option<Result<[usize; 2], Refusal>> {
        if self.given == self.rows {
            match self.fill() {
                Ok(true) => {},
                Ok(false) => return None,
                Err(refusal) => return Some(Err(refusal)),
            }
        }
        let place = 2 + self.given * self.columns;
        self.given += 1;
        Some(Ok([place, place + self.rows * self.columns]))
    }

    /// Makes calls until there are matches to give; whether there are any. After a refusal there are none.
    fn fill(&mut self) -> Result<bool, Refusal> {
        while self.given == self.rows && !self.ended {
            let step = self.step();
            self.ended |= step.is_err();
            step?;
        }
        Ok(self.given < self.rows)
    }

    /// A turn, and the call that its answer asks for.
    fn step(&mut self) -> Result<(), Refusal> {
        match self.join.turn(&mut self.output)? {
            Turn::Wrote { matches, .. } => (self.rows, self.given) = (matches.len(), 0),
            Turn::WantsRight => match self.rights.next() {
                Some(frame) => self.right(frame.as_ref())?,
                None => self.join.end_right()?,
            },
            Turn::Idle => match self.lefts.next() {
                Some(frame) => self.left(frame.as_ref())?,
                None => self.ended = true,
            },
        }
        Ok(())
    }

    /// Hands in a left frame, in a larger area if there is no room; no other frame waits. Its matches find room too.
    fn left(&mut self, frame: &[i64]) -> Result<(), Refusal> {
        match self.join.left(frame) {
            Err(Refusal::NoRoom) => {
                self.join.grow_left(frame.len().max(2 * self.join.left_area().len()))?;
                self.join.left(frame)?;
            },
            answer => answer?,
        }
        // An accepted frame has its rows in its first word. What the last turn wrote was given.
        let words = 2 + 2 * frame[0] as usize * self.columns;
        if words > self.output.len() {
            self.output.resize(words.max(2 * self.output.len()), 0);
        }
        Ok(())
    }

    /// Hands in a right frame, in a larger area if there is no room: for twice as many rows as are held then.
    fn right(&mut self, frame: &[i64]) -> Result<(), Refusal> {
        match self.join.right(frame) {
            Err(Refusal::NoRoom) => {
                self.join.grow_right(2 * (self.join.held() as usize + frame[0] as usize))?;
                self.join.right(frame)
            },
            answer => answer,
        }
    }
}

impl<L: Iterator<Item: AsRef<[i64]>>, R: Iterator<Item: AsRef<[i64]>>> Iterator for AsOf<L, R> {
    type Item = Result<Option<u64>, Refusal>;

    /// The match of the next left row.
    fn next(&mut self) -> Option<Self::Item> {
        Some(self.next_place()?.map(|[value, mark]| (self.output[mark] != 0).then_some(self.output[value] as u64)))
    }

    /// The matches that are written come in any case; how many left rows follow is not known.
    fn size_hint(&self) -> (usize, Option<usize>) {
        let written = self.rows - self.given;
        (written, self.ended.then_some(written))
    }
}

impl<L: Iterator<Item: AsRef<[i64]>>, R: Iterator<Item: AsRef<[i64]>>> FusedIterator for AsOf<L, R> {}

/// The matches of two tables, row by row, with what the right rows carry: what [`AsOf::carrying`] gives.
#[derive(Clone, Debug)]
pub struct Carrying<L, R, const P: usize>(AsOf<L, R>);

impl<L: Iterator<Item: AsRef<[i64]>>, R: Iterator<Item: AsRef<[i64]>>, const P: usize> Iterator for Carrying<L, R, P> {
    type Item = Result<Option<Match<P>>, Refusal>;

    /// The match of the next left row.
    fn next(&mut self) -> Option<Self::Item> {
        let (place, distance) = (self.0.next_place()?, self.0.join.tells_distance());
        Some(place.map(|[values, marks]| match_of(&self.0.output[values..], &self.0.output[marks..], distance)))
    }

    /// As without what is carried.
    fn size_hint(&self) -> (usize, Option<usize>) {
        self.0.size_hint()
    }
}

impl<L: Iterator<Item: AsRef<[i64]>>, R: Iterator<Item: AsRef<[i64]>>, const P: usize> FusedIterator
    for Carrying<L, R, P>
{
}
