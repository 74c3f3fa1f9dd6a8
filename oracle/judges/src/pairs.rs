//! SCOPE 19.34 to 19.36, two sorted tables cut at boundaries and joined pair by pair, as plainly as it can be said: what is written by the
//! whole-table rule over the uncut tables, in which no boundary counts; what the areas need by the rows of each pair, counted from the
//! rows alone. No pair is joined here. It shares no code with the port or with the step rules.
use crate::books::{table_rows, words};
use crate::cuts::{self, bad_boundaries, columns, cut_at, groups};
use crate::plans::{FramesOf, counted};
use crate::script::{Answer, Options, Pairs};
use crate::whole_table::{Row, answer_width, has_unlisted_row, is_sorted, no_options, whole_table};

/// The rows of a full frame.
const FULL: usize = 4096;

/// What the call is refused for, in checking order: each number of SCOPE 19.36 with all that it stands for.
#[derive(Clone, Copy, Debug, PartialEq, Eq)]
pub enum Reason {
    Options,
    Carried,
    List,
    Left,
    Right,
    Boundaries,
    LeftCode,
    RightCode,
    BoundaryCode,
    LeftUnsorted,
    RightUnsorted,
    Many,
    NoColumns,
    Null,
    Equal,
    Falling,
    LeftArea,
    RightArea,
    Output,
}

impl Reason {
    /// All of them with their numbers and names.
    pub const ALL: [(Reason, u8, &str); 19] = [
        (Reason::Options, 1, "options"),
        (Reason::Carried, 10, "carried columns"),
        (Reason::List, 11, "a list"),
        (Reason::Left, 5, "the left table"),
        (Reason::Right, 5, "the right table alone"),
        (Reason::Boundaries, 5, "boundaries alone"),
        (Reason::LeftCode, 12, "the left table"),
        (Reason::RightCode, 12, "the right table alone"),
        (Reason::BoundaryCode, 12, "a boundary alone"),
        (Reason::LeftUnsorted, 14, "the left table"),
        (Reason::RightUnsorted, 14, "the right table alone"),
        (Reason::Many, 18, "too many"),
        (Reason::NoColumns, 18, "no by-columns"),
        (Reason::Null, 18, "a null"),
        (Reason::Equal, 18, "equal neighbours"),
        (Reason::Falling, 18, "a boundary below the one before"),
        (Reason::LeftArea, 6, "the left area"),
        (Reason::RightArea, 6, "the right area alone"),
        (Reason::Output, 6, "the output alone"),
    ];

    /// Its number.
    pub fn number(self) -> u8 {
        Reason::ALL[self as usize].1
    }

    /// "18 (as 19.28)".
    fn of_boundaries(bad: cuts::Reason) -> Reason {
        match bad {
            cuts::Reason::Many => Reason::Many,
            cuts::Reason::NoColumns => Reason::NoColumns,
            cuts::Reason::Null => Reason::Null,
            cuts::Reason::Equal => Reason::Equal,
            cuts::Reason::Falling => Reason::Falling,
            other => unreachable!("{other:?} is no refusal by 18"),
        }
    }
}

/// Both tables' rows, and the boundaries.
pub struct Tables {
    pub left: Vec<Row>,
    pub right: Vec<Row>,
    pub groups: Vec<Row>,
}

/// A pair of parts: how many right rows are in the pairs before, the words that it needs of the left area, and the rows that it needs
/// room for in the right one.
pub struct Pair<'a> {
    pub left: &'a [Row],
    pub right: &'a [Row],
    pub before: usize,
    pub left_words: usize,
    pub held: usize,
}

/// The words that a call needs: of the left area, of the right one, of the output.
#[derive(Clone, Copy, Debug, PartialEq, Eq)]
pub struct Needs {
    pub areas: [usize; 2],
    pub output: usize,
}

/// The rows and the boundaries, or why the call is refused; areas and output are not looked at. Each number is looked for in all three
/// before the next.
pub fn judged(o: &Options, call: &Pairs) -> Result<Tables, Reason> {
    match no_options(o) {
        0 => {},
        1 => return Err(Reason::Options),
        10 => return Err(Reason::Carried),
        _ => return Err(Reason::List),
    }
    let left = table_rows(columns(o, 0), &call.left).ok_or(Reason::Left)?;
    let right = table_rows(columns(o, 1), &call.right).ok_or(Reason::Right)?;
    let groups = groups(o, &call.boundaries).ok_or(Reason::Boundaries)?;
    let lacks = |rows: &[Row]| rows.iter().any(|row| has_unlisted_row(o, row));
    match () {
        _ if lacks(&left) => Err(Reason::LeftCode),
        _ if lacks(&right) => Err(Reason::RightCode),
        _ if lacks(&groups) => Err(Reason::BoundaryCode),
        _ if !is_sorted(o, &left) => Err(Reason::LeftUnsorted),
        _ if !is_sorted(o, &right) => Err(Reason::RightUnsorted),
        _ => match bad_boundaries(o, &groups) {
            Some(bad) => Err(Reason::of_boundaries(bad)),
            None => Ok(Tables { left, right, groups }),
        },
    }
}

/// "in frames of 4,096 rows and one of what is left over": of no rows there is no frame.
pub fn full_frames(o: &Options, left: &[Row], right: &[Row]) -> FramesOf {
    let frames = |rows: &[Row], side: u64| rows.chunks(FULL).map(|rows| words(rows, columns(o, side))).collect();
    FramesOf { lefts: frames(left, 0), rights: frames(right, 1) }
}

/// "the left area holds all left frames of a pair one behind the other, the right one as many rows as the first figure of the pair's plan
/// (19.25) says".
fn pair<'a>(o: &Options, left: &'a [Row], right: &'a [Row], before: usize) -> Pair<'a> {
    let frames = full_frames(o, left, right);
    let left_words = frames.lefts.iter().map(Vec::len).sum();
    Pair { left, right, before, left_words, held: counted(o, &frames)[0] as usize }
}

/// "Both tables are cut for each boundary in order, which gives a pair of parts more than there are boundaries, and any part may be
/// empty."
pub fn pairs<'a>(o: &Options, tables: &'a Tables) -> Vec<Pair<'a>> {
    let (mut out, mut from) = (vec![], [0, 0]);
    let cuts = tables.groups.iter().map(|group| [cut_at(o, &tables.left, group), cut_at(o, &tables.right, group)]);
    for to in cuts.chain([[tables.left.len(), tables.right.len()]]) {
        out.push(pair(o, &tables.left[from[0]..to[0]], &tables.right[from[1]..to[1]], from[1]));
        from = to;
    }
    out
}

/// What the call needs: the areas "each lent once and used for every pair"; of the output "2 + 2n(1 + p) words, with the distance
/// 2 + 2n(2 + p), for n left rows".
pub fn needs(o: &Options, pairs: &[Pair]) -> Needs {
    let rows: usize = pairs.iter().map(|pair| pair.left.len()).sum();
    let left = pairs.iter().map(|pair| pair.left_words).max().unwrap_or(0);
    let held = pairs.iter().map(|pair| pair.held).max().unwrap_or(0);
    Needs { areas: [left, 2 * columns(o, 1) * held], output: 2 + 2 * rows * answer_width(o) }
}

/// The words that are written, or why the call is refused: "an area is too short for any of the pairs, or the output has fewer …" comes
/// last.
pub fn written(o: &Options, call: &Pairs, tables: &Tables, needs: &Needs) -> Result<Vec<i64>, Reason> {
    match () {
        _ if call.areas[0] < needs.areas[0] => Err(Reason::LeftArea),
        _ if call.areas[1] < needs.areas[1] => Err(Reason::RightArea),
        _ if call.output < needs.output => Err(Reason::Output),
        _ => Ok(whole_table(o, &tables.left, &tables.right)),
    }
}

/// The answer to the call.
pub fn cut(o: &Options, call: &Pairs) -> Answer {
    let due = judged(o, call).and_then(|tables| written(o, call, &tables, &needs(o, &pairs(o, &tables))));
    due.map_or_else(|reason| Answer::Refused(reason.number()), Answer::Table)
}
