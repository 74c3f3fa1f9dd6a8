//! Rowkeeper's as-of join for Rust hosts, over the archive. No dependency, no std: core and alloc are enough.
//!
//! [`asof`] joins two tables, each an iterator of frames, to an iterator of matches, and makes all calls itself:
//!
//! ```
//! use rowkeeper::{Frames, Options, asof};
//!
//! // Right rows 10, 20, 20, 30; left rows 5, 20, 25: each takes the last right row whose key is not greater.
//! let (left, right) = (vec![5, 20, 25], vec![10, 20, 20, 30]);
//! for found in asof(&Options::default(), Frames::of_columns(&[&left])?, Frames::of_columns(&[&right])?)? {
//!     match found? {
//!         Some(number) => println!("right row {number}"),
//!         None => println!("no right row"),
//!     }
//! }
//! # Ok::<(), Box<dyn std::error::Error>>(())
//! ```
//!
//! A host that makes the calls itself has a [`Join`]. It owns the two areas that it works in, so no call can be lent another
//! join's; frames are made by [`Frame`], so they keep the frame rule; what a turn wrote is seen through [`Matches`], so
//! nothing else of the output is. Calls that are refused say why by a [`Refusal`] and change nothing, save that
//! [`Refusal::LeftOrder`] and [`Refusal::RightOrder`] mark the join failed. After [`Refusal::NoRoom`] the areas can grow.
//! Nothing is copied to keep words from being altered during a call: the borrow of a `&[i64]` or `&mut [i64]` lasts until the
//! call returns, so safe code on no thread can write to it meanwhile.
//!
//! ```
//! use rowkeeper::{Frame, Join, Options, Turn};
//!
//! let mut join = Join::open_rows(&Options::default(), 10, 10)?;
//! join.right(&Frame::of_keys(&[10, 20, 20, 30])?)?;
//! join.left(&Frame::of_keys(&[5, 20, 25])?)?;
//! let mut output = [0; 64];
//! let Turn::Wrote { matches, .. } = join.turn(&mut output)? else { panic!("nothing was written") };
//! assert_eq!(matches.iter().collect::<Vec<_>>(), [None, Some(2), Some(2)]);
//! # Ok::<(), Box<dyn std::error::Error>>(())
//! ```
//!
//! A run makes many turns in one call; what it wrote stands whatever ended it:
//!
//! ```
//! use rowkeeper::{Frame, Join, Options, Stop};
//!
//! let mut join = Join::open_rows(&Options::default(), 10, 10)?;
//! join.right(&Frame::of_keys(&[10, 20, 20, 30])?)?;
//! join.left(&Frame::of_keys(&[5, 20])?)?;
//! join.left(&Frame::of_keys(&[25])?)?;
//! let mut output = vec![0; join.waiting_words() as usize];
//! let run = join.run(usize::MAX, &mut output);
//! assert_eq!(run.stop, Stop::Idle);
//! let all: Vec<_> = run.written.iter().flat_map(|(_, matches)| matches.iter()).collect();
//! assert_eq!(all, [None, Some(2), Some(2)]);
//! # Ok::<(), Box<dyn std::error::Error>>(())
//! ```
//!
//! Right rows may carry up to eight columns behind their key, which come with the match: a price, say, that need not be looked
//! up by the number of its row then.
//!
//! ```
//! use rowkeeper::{Frames, Match, Options, asof};
//!
//! // The same rows; the right ones have prices.
//! let (left, right, price) = (vec![5, 20, 25], vec![10, 20, 20, 30], vec![1800, 2200, 2300, 2500]);
//! let options = Options { carried: 1, ..Options::default() };
//! let joined = asof(&options, Frames::of_columns(&[&left])?, Frames::of_columns(&[&right, &price])?)?;
//! for found in joined.carrying() {
//!     match found? {
//!         Some(Match { number, carried: [Some(price)], .. }) => println!("right row {number} at {price}"),
//!         Some(Match { number, carried: [None], .. }) => println!("right row {number}, which has no price"),
//!         None => println!("no right row"),
//!     }
//! }
//! # Ok::<(), Box<dyn std::error::Error>>(())
//! ```
//!
//! A join may be opened to tell the distance of the two keys too: how old a notice was when the sale was made.
//!
//! ```
//! use rowkeeper::{Frames, Match, Options, asof};
//!
//! let (sale_at, notice_at) = (vec![5, 20, 25], vec![10, 20, 20, 30]);
//! let options = Options { distance: true, ..Options::default() };
//! let joined = asof(&options, Frames::of_columns(&[&sale_at])?, Frames::of_columns(&[&notice_at])?)?;
//! let matches: Vec<Option<Match<0>>> = joined.carrying().collect::<Result<_, _>>()?;
//! let ages: Vec<Option<u64>> = matches.iter().map(|found| found.and_then(|found| found.distance)).collect();
//! assert_eq!(ages, [None, Some(0), Some(5)]);
//! # Ok::<(), Box<dyn std::error::Error>>(())
//! ```
//!
//! Both tables are sorted by their by-columns, then by the key. One by-column may have codes that do not follow its order: then
//! [`Ranks`] lists them as they come.
//!
//! ```
//! use rowkeeper::{ByColumn, Frames, Options, Ranks, asof};
//!
//! // Stalls have the code 30, the circle 10, the gods 20, and both tables are sorted in this order.
//! let (band, sale_at) = (vec![30, 30, 10, 20], vec![5, 25, 15, 15]);
//! let (notice_band, notice_at) = (vec![30, 10, 20, 20], vec![10, 10, 10, 20]);
//! let options = Options {
//!     by: vec![ByColumn::default()],
//!     ranks: Some(Ranks::new(0, [30, 10, 20])),
//!     ..Options::default()
//! };
//! let sales = Frames::of_columns(&[&band, &sale_at])?;
//! let notices = Frames::of_columns(&[&notice_band, &notice_at])?;
//! let matches: Vec<Option<u64>> = asof(&options, sales, notices)?.collect::<Result<_, _>>()?;
//! assert_eq!(matches, [None, Some(0), Some(1), Some(2)]);
//! # Ok::<(), Box<dyn std::error::Error>>(())
//! ```
//!
//! Without a join, [`spans()`] lists which points lie inside the bounds of which intervals:
//!
//! ```
//! use rowkeeper::{Bounds, Frame, spans, spans_words};
//!
//! // Performances at minutes 10, 20 and 30; passes from 10 to 20 and from 25 to 90, both ends inclusive.
//! let minutes = Frame::of_keys(&[10, 20, 30])?;
//! let passes = Frame::new(2, &[[Some(10), Some(20)], [Some(25), Some(90)]])?;
//! let mut output = vec![0; spans_words(3 * 2)];
//! let pairs = spans(&minutes, &passes, Bounds::INCLUSIVE, &mut output)?;
//! assert_eq!(pairs.iter().collect::<Vec<_>>(), [(0, 0), (0, 1), (1, 2)]);
//! # Ok::<(), Box<dyn std::error::Error>>(())
//! ```
//!
//! Nor need [`merge()`] one: it makes one sorted book of two, of any length, and a join takes the frames of it.
//!
//! ```
//! use rowkeeper::{Frame, Frames, Options, asof, book_words, merge};
//!
//! // A house's notices at minutes 10 and 30, its festival's at 20, each with a price.
//! let options = Options { carried: 1, ..Options::default() };
//! let house = Frame::of_columns(&[&[10, 30], &[1800, 2500]])?;
//! let festival = Frame::of_columns(&[&[20], &[2200]])?;
//! let mut output = vec![0; book_words(&options, 2 + 1).unwrap()];
//! let season = merge(&options, &house, &festival, &mut output)?;
//! let sales = vec![25];
//! let matches: Vec<Option<u64>> = asof(&options, Frames::of_columns(&[&sales])?, season.frames())?.collect::<Result<_, _>>()?;
//! assert_eq!(matches, [Some(1)]);
//! # Ok::<(), Box<dyn std::error::Error>>(())
//! ```
//!
//! A later notice of the same group and key corrects an earlier one. [`standing()`] tells which notices of a book stand:
//!
//! ```
//! use rowkeeper::{Frame, Notice, Options, standing, standing_words};
//!
//! // Two notices of minute 10 and one of minute 20, which is withdrawn: its carried column says 1.
//! let options = Options { carried: 1, ..Options::default() };
//! let book = Frame::of_columns(&[&[10, 10, 20], &[0, 0, 1]])?;
//! let mut output = vec![0; standing_words(3).unwrap()];
//! let notices: Vec<Notice> = standing(&options, &book, 0, &mut output)?.iter().collect();
//! assert_eq!(notices, [Notice::LeftOut(1), Notice::Stands, Notice::LeftOut(2)]);
//! # Ok::<(), Box<dyn std::error::Error>>(())
//! ```
//!
//! What a turn wrote can be kept as words and read later: [`view_plain`] and [`view_distance`] are told how many columns the join
//! carried, and give the rows of the frame.
//!
//! ```
//! use rowkeeper::{Refusal, view_distance, view_plain};
//!
//! // Two sales of a join that carries a price: one took notice 2 at 2,300, one none.
//! let answer = [2, 2, 2, 2300, 0, 0, 1, 1, 0, 0];
//! let prices: Vec<Option<i64>> = view_plain(1, &answer)?.rows().map(|row| row.carried(0)).collect();
//! assert_eq!(prices, [Some(2300), None]);
//!
//! // The same sales with the distance in a last column: the plain reader does not take it for a price.
//! let answer = [2, 3, 2, 2300, 5, 0, 0, 0, 1, 1, 1, 0, 0, 0];
//! assert_eq!(view_plain(2, &answer)?.columns(), 3, "with another p than the join's nothing can be told");
//! assert_eq!(view_plain(1, &answer), Err(Refusal::BadColumns));
//! let ages: Vec<Option<u64>> = view_distance(1, &answer)?.rows().map(|row| row.distance()).collect();
//! assert_eq!(ages, [Some(5), None]);
//! # Ok::<(), Refusal>(())
//! ```
//!
//! If memory is to be fixed beforehand, [`plan()`] tells how large a right area two sorted tables want:
//!
//! ```
//! use rowkeeper::{Frame, Join, Options, plan};
//!
//! // Four sales in two frames, five notices in three. The last notice is never wanted, and four rows are held at most.
//! let sales = Frame::of_keys(&[5, 15, 20, 25])?;
//! let notices = Frame::of_keys(&[10, 20, 20, 30, 40])?;
//! let options = Options::default();
//! let wanted = plan(&options, &sales, &notices, &[2, 2], &[2, 2, 1])?;
//! assert_eq!((wanted.rows, wanted.turns, wanted.rights), (4, 4, 2));
//! assert_eq!(Join::right_words(&options, wanted.rows), 8);
//! # Ok::<(), Box<dyn std::error::Error>>(())
//! ```
//!
//! A large join can be made in parts, on machines of their own: [`cut()`] tells where both tables are cut for a list of groups.
//!
//! ```
//! use rowkeeper::{ByColumn, Frame, Frames, Options, Side, asof, cut};
//!
//! // Sales and notices of performances 1 to 4, both cut before performance 2 and before performance 4.
//! let (sale_of, sale_at) = (vec![1, 1, 2, 4], vec![10, 20, 5, 7]);
//! let (notice_of, notice_at) = (vec![1, 2, 3, 4, 4], vec![15, 1, 6, 3, 9]);
//! let options = Options { by: vec![ByColumn::default()], ..Options::default() };
//! let boundaries = Frame::of_columns(&[&[2, 4]])?;
//! let sales = cut(&options, Side::Left, &Frame::of_columns(&[&sale_of, &sale_at])?, &boundaries)?;
//! let notices = cut(&options, Side::Right, &Frame::of_columns(&[&notice_of, &notice_at])?, &boundaries)?;
//! assert_eq!((&sales[..], &notices[..]), (&[2, 3][..], &[1, 3][..]));
//!
//! // The last parts joined by themselves: the notices of the parts before are counted on.
//! let left = Frames::of_columns(&[&sale_of[3..], &sale_at[3..]])?;
//! let right = Frames::of_columns(&[&notice_of[3..], &notice_at[3..]])?;
//! let numbers: Vec<Option<u64>> = asof(&options, left, right)?.collect::<Result<_, _>>()?;
//! assert_eq!(numbers.iter().map(|number| number.map(|n| n + 3)).collect::<Vec<_>>(), [Some(3)]);
//! # Ok::<(), Box<dyn std::error::Error>>(())
//! ```
//!
//! Two whole tables need no frames at all: [`join_cut`] joins them where they lie, pair by pair at such groups or at none, and judges
//! both.
//!
//! ```
//! use rowkeeper::{ByColumn, Frame, Join, Options, join_cut};
//!
//! // The same sales and notices, at the same boundaries: right numbers are those of all notices.
//! let options = Options { by: vec![ByColumn::default()], ..Options::default() };
//! let sales = Frame::of_columns(&[&[1, 1, 2, 4], &[10, 20, 5, 7]])?;
//! let notices = Frame::of_columns(&[&[1, 2, 3, 4, 4], &[15, 1, 6, 3, 9]])?;
//! let mut output = vec![0; Join::output_words(&options, 4)];
//! let matches = join_cut(&options, &sales, &notices, &Frame::of_columns(&[&[2, 4]])?, &mut output)?;
//! assert_eq!(matches.iter().collect::<Vec<_>>(), [None, Some(0), Some(1), Some(3)]);
//! # Ok::<(), Box<dyn std::error::Error>>(())
//! ```
//!
//! [`Takings`] add up what matched sales brought in, by group: frame by frame, or as subtotals that are joined later. In any order the
//! same comes out.
//!
//! ```
//! use rowkeeper::{ByColumn, Frame, Options, Takings};
//!
//! // Sales of performances 1, 1 and 2, and what a join wrote for them: the notice's number and its price, which the second lacks.
//! let options = Options { by: vec![ByColumn::default()], carried: 1, ..Options::default() };
//! let sales = Frame::of_columns(&[&[1, 1, 2], &[10, 20, 5]])?;
//! let answers = Frame::new(2, &[[Some(0), Some(1800)], [Some(1), None], [Some(2), Some(2500)]])?;
//! let mut morning = Takings::new(&options)?;
//! morning.add(&sales, &answers)?;
//!
//! let mut evening = Takings::new(&options)?;
//! evening.add(&Frame::of_columns(&[&[2], &[9]])?, &Frame::new(2, &[[Some(2), Some(2500)]])?)?;
//! evening.join(&morning)?;
//! let rows: Vec<_> = evening.iter().map(|row| (row.group[0], row.total, row.sales)).collect();
//! assert_eq!((rows, evening.unpriced()), (vec![(1, 1800, 1), (2, 5000, 2)], 1));
//! # Ok::<(), Box<dyn std::error::Error>>(())
//! ```
//!
//! A join cannot be lent its own area as a frame, and neither an output nor a driver can be altered while its matches are
//! looked at:
//!
//! ```compile_fail,E0502
//! # let mut join = rowkeeper::Join::open(&rowkeeper::Options::default(), 64, 64).unwrap();
//! join.left(join.left_area());
//! ```
//!
//! ```compile_fail,E0506
//! # let mut join = rowkeeper::Join::open(&rowkeeper::Options::default(), 64, 64).unwrap();
//! let mut output = [0; 64];
//! let turn = join.turn(&mut output);
//! output[0] = 1;
//! drop(turn);
//! ```
//!
//! ```compile_fail,E0499
//! # let lefts = [rowkeeper::Frame::of_keys(&[1]).unwrap()];
//! # let mut joined = rowkeeper::asof(&rowkeeper::Options::default(), &lefts, &lefts).unwrap();
//! let matches = joined.next_matches();
//! joined.next();
//! drop(matches);
//! ```
//!
//! Refusals may come with any version, so a match over them has an arm for others:
//!
//! ```compile_fail,E0004
//! # use rowkeeper::Refusal::*;
//! fn known(refusal: rowkeeper::Refusal) -> bool {
//!     match refusal {
//!         BadOptions | BadJoin | Failed | Closed | BadFrame | NoRoom | UsedUp | LeftOrder | RightOrder => true,
//!         TooManyCarried | BadRanks | UnknownCode | BadColumns | Unsorted | BadPoints => true,
//!     }
//! }
//! ```
#![no_std]
#![deny(missing_docs)]

extern crate alloc;

use alloc::vec::Vec;
use core::{array, fmt};

mod asof;
mod books;
mod cuts;
mod frame;
mod join;
mod numbers;
mod plans;
pub mod raw;
mod readers;
mod spans;
mod takings;

pub use asof::{AsOf, Carrying, asof};
pub use books::{Book, Notice, Notices, book_words, merge, standing, standing_words};
pub use cuts::{Side, cut, join_cut, join_cut_in};
pub use frame::{Column, Frame, FrameError, Frames};
pub use join::{Join, Match, Matches, Run, Stop, Turn, Written};
pub use numbers::{Check, NodeState, Port, Refusal, Strategy};
pub use plans::{Plan, plan};
pub use readers::{View, ViewRow, view_distance, view_plain};
pub use spans::{Bounds, Pairs, spans, spans_words};
pub use takings::{Taking, Takings};

/// How a by-column is sorted.
#[derive(Clone, Copy, Debug, Default, PartialEq, Eq)]
pub struct ByColumn {
    /// Whether its numbers descend, or its codes go from the last of their [`Ranks`] to the first.
    pub descending: bool,
    /// Whether its nulls come last.
    pub nulls_last: bool,
}

/// The codes of a by-column in the order in which rows are sorted by them, if that is not the order of numbers.
///
/// Rows are compared by a code's place in the list; values are equal if they are the same code. Frames may have listed codes and
/// nulls in that column and no other value: [`Refusal::UnknownCode`].
#[derive(Clone, Debug, PartialEq, Eq)]
pub struct Ranks {
    /// The by-column, from 0.
    pub column: usize,
    /// Its codes in order, at least one and at most 64, each once.
    pub codes: Vec<i64>,
}

impl Ranks {
    /// The list of a by-column, from 0.
    ///
    /// ```
    /// use rowkeeper::{ByColumn, Join, Options, Ranks, Refusal};
    ///
    /// let by = vec![ByColumn::default()];
    /// let list = |codes: &[i64]| Options { by: by.clone(), ranks: Some(Ranks::new(0, codes)), ..Options::default() };
    /// assert!(Join::open_rows(&list(&[30, 10, 20]), 10, 10).is_ok());
    /// assert_eq!(Join::open_rows(&list(&[30, 10, 30]), 10, 10).unwrap_err(), Refusal::BadRanks);
    /// ```
    pub fn new(column: usize, codes: impl Into<Vec<i64>>) -> Ranks {
        Ranks { column, codes: codes.into() }
    }

    /// The list in numbers. Of one that is too long the first codes, and its own length, which is refused.
    fn raw(&self) -> raw::Ranks {
        let mut codes = [0; raw::MOST_RANKS];
        codes.iter_mut().zip(&self.codes).for_each(|(word, code)| *word = *code);
        raw::Ranks { given: 1, column: self.column as u64, count: self.codes.len() as u64, codes }
    }
}

/// What a join is opened with.
#[derive(Clone, Debug, PartialEq, Eq)]
pub struct Options {
    /// Which right row a left row takes.
    pub strategy: Strategy,
    /// Whether an equal key matches. Nearest needs it.
    pub allow_eq: bool,
    /// The greatest distance of two keys, up to 2^63 − 1; none: any.
    pub tolerance: Option<u64>,
    /// Whether turns check that rows are in order.
    pub check: Check,
    /// The by-columns, at most four. Behind them a row has its key.
    pub by: Vec<ByColumn>,
    /// How many columns right rows carry behind their key, at most eight. They come with the match.
    pub carried: usize,
    /// The codes by whose places one by-column is sorted; none: all are sorted by number.
    pub ranks: Option<Ranks>,
    /// Whether the distance of the two keys comes with the match.
    pub distance: bool,
}

impl Default for Options {
    /// Backward with equality, any distance, the check on, no by-columns, nothing carried, no list of ranks, distances not
    /// told.
    fn default() -> Self {
        Options {
            strategy: Strategy::Backward,
            allow_eq: true,
            tolerance: None,
            check: Check::On,
            by: Vec::new(),
            carried: 0,
            ranks: None,
            distance: false,
        }
    }
}

impl Options {
    /// How many columns a left row has: the by-columns and the key.
    pub fn columns(&self) -> usize {
        self.by.len() + 1
    }

    /// How many columns a right row has: those of a left row, and behind them what it carries.
    pub fn right_columns(&self) -> usize {
        self.columns().saturating_add(self.carried)
    }

    /// How many columns an answer has: the number of the right row, what that carries, and the distance if it is told.
    pub fn answer_columns(&self) -> usize {
        self.carried.saturating_add(1 + self.distance as usize)
    }

    /// The options in numbers. What no number can say is said by one that is refused.
    fn raw(&self) -> raw::Options {
        let flag = |j: usize, of: fn(&ByColumn) -> bool| self.by.get(j).is_some_and(of) as u64;
        raw::Options {
            by: self.by.len() as u64,
            strategy: self.strategy as u64,
            allow_eq: self.allow_eq as u64,
            tolerance: self.tolerance.map_or(-1, |t| i64::try_from(t).unwrap_or(i64::MIN)),
            check: self.check as u64,
            descending: array::from_fn(|j| flag(j, |by| by.descending)),
            nulls_last: array::from_fn(|j| flag(j, |by| by.nulls_last)),
            carried: self.carried as u64,
            ranks: self.ranks.as_ref().map_or_else(raw::Ranks::default, Ranks::raw),
            with_distance: self.distance as u64,
        }
    }
}

impl Refusal {
    /// The refusal of a number, or none if the call was not refused.
    fn of(number: u64) -> Result<(), Refusal> {
        if number == 0 {
            return Ok(());
        }
        let known = Refusal::ALL.into_iter().find(|refusal| number == refusal.number().into());
        Err(known.expect("the library has a refusal that this version does not know"))
    }

    /// Its number.
    pub fn number(self) -> u8 {
        self as u8
    }
}

impl fmt::Display for Refusal {
    /// The number and what it says.
    fn fmt(&self, f: &mut fmt::Formatter<'_>) -> fmt::Result {
        write!(f, "refused by {}: {}", self.number(), self.text())
    }
}

impl core::error::Error for Refusal {}

/// The three ports of the node.
#[derive(Clone, Copy, Debug, PartialEq, Eq)]
pub struct Ports {
    /// Where left frames come in.
    pub left: Port,
    /// Where right frames come in.
    pub right: Port,
    /// Where matches go out.
    pub send: Port,
}
