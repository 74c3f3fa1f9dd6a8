//! SCOPE 19.27 and 19.28, where a table is cut for a list of boundary groups, as plainly as it can be said: for each boundary the rows
//! are looked at from the first on. And what the places are for: two tables cut at them, each pair of parts joined by itself, the answers
//! appended with the right numbers counted on. The order of groups is that of the whole-table judge. It shares no code with the port or
//! with the step rules.
use crate::books::{table_rows, words};
use crate::script::{Answer, Call, Judge, Options, Places};
use crate::whole_table::{Row, group_places, has_unlisted_row, is_sorted, no_options};

/// What the call is refused for, in checking order: each number of SCOPE 19.28 with all that it stands for.
#[derive(Clone, Copy, Debug, PartialEq, Eq)]
pub enum Reason {
    Options,
    Side,
    Carried,
    List,
    Table,
    Boundaries,
    TableCode,
    BoundaryCode,
    Unsorted,
    Many,
    NoColumns,
    Null,
    Equal,
    Falling,
    Short,
}

impl Reason {
    /// All of them with their numbers and names.
    pub const ALL: [(Reason, u8, &str); 15] = [
        (Reason::Options, 1, "options"),
        (Reason::Side, 1, "a side that is none"),
        (Reason::Carried, 10, "carried columns"),
        (Reason::List, 11, "a list"),
        (Reason::Table, 5, "a table"),
        (Reason::Boundaries, 5, "boundaries alone"),
        (Reason::TableCode, 12, "a table"),
        (Reason::BoundaryCode, 12, "a boundary alone"),
        (Reason::Unsorted, 14, "rows out of order"),
        (Reason::Many, 18, "too many"),
        (Reason::NoColumns, 18, "no by-columns"),
        (Reason::Null, 18, "a null"),
        (Reason::Equal, 18, "equal neighbours"),
        (Reason::Falling, 18, "a boundary below the one before"),
        (Reason::Short, 6, "the output"),
    ];

    /// Its number.
    pub fn number(self) -> u8 {
        Reason::ALL[self as usize].1
    }
}

/// A table's rows and the boundaries that it is cut for.
pub struct Cut {
    pub rows: Vec<Row>,
    pub groups: Vec<Row>,
}

/// The columns of "a table of left rows or of right ones".
pub fn columns(o: &Options, side: u64) -> usize {
    if side == 1 { o.b + 1 + o.carried as usize } else { o.b + 1 }
}

/// "a frame of b columns, one group a row": so with a frame's limit of rows; b may be 0, then it has no cell.
pub(crate) fn groups(o: &Options, boundaries: &[i64]) -> Option<Vec<Row>> {
    match boundaries {
        [n @ 0..=4096, 0] if o.b == 0 => Some(vec![vec![]; *n as usize]),
        [0..=4096, ..] if o.b > 0 => table_rows(o.b, boundaries),
        _ => None,
    }
}

/// Whether a group is less than another "in the declared order".
fn less(o: &Options, x: &Row, y: &Row) -> bool {
    group_places(o, x).lt(group_places(o, y))
}

/// "more than 16 boundaries, one where b is 0, one that is null in any column, or boundaries that do not ascend strictly".
pub(crate) fn bad_boundaries(o: &Options, groups: &[Row]) -> Option<Reason> {
    let equal = |two: &[Row]| group_places(o, &two[0]).eq(group_places(o, &two[1]));
    match () {
        _ if groups.len() > 16 => Some(Reason::Many),
        _ if o.b == 0 && !groups.is_empty() => Some(Reason::NoColumns),
        _ if groups.iter().any(|group| group.contains(&None)) => Some(Reason::Null),
        _ if groups.windows(2).any(equal) => Some(Reason::Equal),
        _ if groups.windows(2).any(|two| less(o, &two[1], &two[0])) => Some(Reason::Falling),
        _ => None,
    }
}

/// The rows and the boundaries, or why the call is refused; the output is not looked at. Each number is looked for in both before the
/// next.
pub fn judged(o: &Options, call: &Places) -> Result<Cut, Reason> {
    match (no_options(o), call.side) {
        (1, _) => return Err(Reason::Options),
        (_, 2..) => return Err(Reason::Side),
        (10, _) => return Err(Reason::Carried),
        (11, _) => return Err(Reason::List),
        _ => {},
    }
    let rows = table_rows(columns(o, call.side), &call.table).ok_or(Reason::Table)?;
    let groups = groups(o, &call.boundaries).ok_or(Reason::Boundaries)?;
    let lacks = |rows: &[Row]| rows.iter().any(|row| has_unlisted_row(o, row));
    match () {
        _ if lacks(&rows) => Err(Reason::TableCode),
        _ if lacks(&groups) => Err(Reason::BoundaryCode),
        _ if !is_sorted(o, &rows) => Err(Reason::Unsorted),
        _ => bad_boundaries(o, &groups).map_or(Ok(Cut { rows, groups }), Err),
    }
}

/// "cut … before its first row whose group is not less than the boundary in the declared order; if there is none, behind its last row".
pub fn cut_at(o: &Options, rows: &[Row], group: &Row) -> usize {
    rows.iter().position(|row| !less(o, row, group)).unwrap_or(rows.len())
}

/// "a table of one column with the place of the cut, in rows, for each boundary in order".
pub fn placed(o: &Options, cut: &Cut) -> Vec<i64> {
    let place = |group: &Row| vec![Some(cut_at(o, &cut.rows, group) as i64)];
    words(&cut.groups.iter().map(place).collect::<Vec<_>>(), 1)
}

/// The words that are written, or why the call is refused: "the output has fewer than 2 + 2k words for k boundaries" comes last.
pub fn due(o: &Options, call: &Places) -> Result<Vec<i64>, Reason> {
    let cut = judged(o, call)?;
    if call.output < 2 + 2 * cut.groups.len() { Err(Reason::Short) } else { Ok(placed(o, &cut)) }
}

/// The answer to the call.
pub fn place(o: &Options, call: &Places) -> Answer {
    due(o, call).map_or_else(|reason| Answer::Refused(reason.number()), Answer::Table)
}

/// Two sorted tables, the boundaries at which both are cut, and how the parts are fed: the rows of a frame, left and right, and whether
/// all right rows are handed in before the first turn.
pub struct Apart {
    pub left: Vec<Row>,
    pub right: Vec<Row>,
    pub boundaries: Vec<i64>,
    pub heights: [usize; 2],
    pub eager: bool,
}

/// The answers of a join over these rows, row by row: by calls of the judge, with room for everything.
pub fn joined(judge: &mut dyn Judge, o: &Options, of: &Apart, left: &[Row], right: &[Row]) -> Vec<Row> {
    let (c, w) = (columns(o, 0), columns(o, 1));
    let ok = |answer: Answer| assert_eq!(answer, Answer::Ok);
    let lefts: Vec<Vec<i64>> = left.chunks(of.heights[0]).map(|rows| words(rows, c)).collect();
    let mut rights = right.chunks(of.heights[1]).map(|rows| words(rows, w));
    judge.call(&Call::Options(o.clone()));
    ok(judge.call(&Call::Opens(lefts.iter().map(Vec::len).sum(), 2 * w * right.len())));
    if of.eager {
        rights.by_ref().for_each(|frame| ok(judge.call(&Call::Right(frame))));
        ok(judge.call(&Call::End));
    }
    lefts.iter().for_each(|frame| ok(judge.call(&Call::Left(frame.clone()))));
    let (wide, mut out) = (1 + o.carried as usize + o.distance as usize, vec![]);
    while out.len() < left.len() {
        match judge.call(&Call::Turn(2 + 2 * of.heights[0] * wide)) {
            Answer::Wrote(_, words) => out.extend(table_rows(wide, &words).expect("a turn writes a frame")),
            Answer::Wants => ok(judge.call(&rights.next().map_or(Call::End, Call::Right))),
            answer => panic!("a turn was answered {answer}"),
        }
    }
    out
}

/// "each pair of parts joined by itself … and the answers appended with the right numbers counted on": the parts end at these places,
/// left and right.
pub fn appended(judge: &mut dyn Judge, o: &Options, of: &Apart, places: [&[usize]; 2]) -> Vec<Row> {
    let (mut out, mut from) = (vec![], [0, 0]);
    let ends = [of.left.len(), of.right.len()];
    let cuts = places[0].iter().zip(places[1]).map(|(left, right)| [*left, *right]);
    for to in cuts.chain([ends]) {
        let mut part = joined(judge, o, of, &of.left[from[0]..to[0]], &of.right[from[1]..to[1]]);
        part.iter_mut().for_each(|row| row[0] = row[0].map(|number| number + from[1] as i64));
        out.extend(part);
        from = to;
    }
    out
}
