//! SCOPE 19.8 to 19.16, books of notices, as plainly as they can be said. Two books merged: all rows of both, one behind the other,
//! sorted without moving equal rows past each other. Which notice stands: every row is compared with all others. The order is
//! that of the whole-table judge. It shares no code with the port or with the step rules.
use crate::script::{Answer, Merge, Options, Standing};
use crate::whole_table::{Row, has_unlisted_row, is_sorted, no_options, sort};

/// The numbers of the refusals of a merge, in the order in which they are looked for.
pub const MERGE_REFUSALS: [u8; 7] = [1, 10, 11, 5, 12, 14, 6];

/// Those of standing.
pub const STANDING_REFUSALS: [u8; 8] = [1, 10, 11, 5, 12, 13, 14, 6];

/// A book's rows; none where its words break the frame rule "without its row limit", or have other columns than a right row.
fn rows(o: &Options, words: &[i64]) -> Option<Vec<Row>> {
    table_rows(o.b + 1 + o.carried as usize, words)
}

/// The rows of a table of these columns; none where the words are none.
pub fn table_rows(columns: usize, words: &[i64]) -> Option<Vec<Row>> {
    let [n, c, cells @ ..] = words else { return None };
    if *n < 0 || *c != columns as i64 || cells.len() as i128 != *n as i128 * 2 * columns as i128 {
        return None;
    }
    Some(cells_of(cells)?.chunks(columns).map(|row| row.to_vec()).collect())
}

/// The cells of values and, behind them, their marks; none where a mark is none, or a null has a value.
pub(crate) fn cells_of(words: &[i64]) -> Option<Row> {
    let (values, marks) = words.split_at(words.len() / 2);
    let cell = |(value, mark): (&i64, &i64)| match (mark, value) {
        (1, value) => Some(Some(*value)),
        (0, 0) => Some(None),
        _ => None,
    };
    values.iter().zip(marks).map(cell).collect()
}

/// The words of a table.
pub fn words(rows: &[Row], columns: usize) -> Vec<i64> {
    let cells = || rows.iter().flatten();
    let head = [rows.len() as i64, columns as i64].into_iter();
    head.chain(cells().map(|cell| cell.unwrap_or(0))).chain(cells().map(|cell| cell.is_some() as i64)).collect()
}

/// These books' rows, or the first refusal: "options that meet 1, 10 or 11 are refused first"; "tables meet 5 without its row
/// limit, and 12". Each number is looked for in all books before the next.
fn judged(o: &Options, books: &[&[i64]]) -> Result<Vec<Vec<Row>>, u8> {
    match no_options(o) {
        0 => {},
        number => return Err(number),
    }
    let books = books.iter().map(|words| rows(o, words)).collect::<Option<Vec<_>>>().ok_or(5)?;
    if books.iter().flatten().any(|row| has_unlisted_row(o, row)) {
        return Err(12);
    }
    Ok(books)
}

/// "every row of both, none added, rows that compare equal with the house's first, each book's own order kept"; "14, a book not
/// sorted". Output is not looked at: the words that are to be written, or the number of the refusal.
pub fn merged(o: &Options, call: &Merge) -> Result<Vec<i64>, u8> {
    let books = judged(o, &[&call.house, &call.festival])?;
    if books.iter().any(|rows| !is_sorted(o, rows)) {
        return Err(14);
    }
    let mut all = books.concat();
    sort(o, &mut all);
    Ok(words(&all, o.b + 1 + o.carried as usize))
}

/// The answer: "an output too short is 6", after all others.
fn with_room(table: Result<Vec<i64>, u8>, output: usize) -> Answer {
    match table {
        Err(number) => Answer::Refused(number),
        Ok(words) if words.len() > output => Answer::Refused(6),
        Ok(words) => Answer::Table(words),
    }
}

/// The answer to a merge.
pub fn merge(o: &Options, call: &Merge) -> Answer {
    with_room(merged(o, call), call.output)
}

/// What is said of a row: "1 if it stands, else 0, and the row it names, null for none or where it stands". "of each group and key
/// the last row, none if its carried withdrawal column is 1; null keys and null groups never stand"; "Each row left out names the
/// last row of its group and key, a withdrawn last row thus itself; a null key or group names none."
fn notice(o: &Options, column: usize, rows: &[Row], i: usize) -> Row {
    let of = |row: usize| &rows[row][..=o.b];
    if of(i).contains(&None) {
        return vec![Some(0), None];
    }
    let last = (0..rows.len()).rev().find(|row| of(*row) == of(i)).unwrap_or(i);
    if last == i && rows[i][column] != Some(1) { vec![Some(1), None] } else { vec![Some(0), Some(last as i64)] }
}

/// "The withdrawal column is given by its place among the p carried ones, from 0; any other place gives 13, then an unsorted
/// table 14". Output is not looked at: the words that are to be written, or the number of the refusal.
pub fn listed(o: &Options, call: &Standing) -> Result<Vec<i64>, u8> {
    let rows = judged(o, &[&call.book])?.remove(0);
    if call.place >= o.carried {
        return Err(13);
    } else if !is_sorted(o, &rows) {
        return Err(14);
    }
    let column = o.b + 1 + call.place as usize;
    let notices: Vec<Row> = (0..rows.len()).map(|i| notice(o, column, &rows, i)).collect();
    Ok(words(&notices, 2))
}

/// The answer to standing.
pub fn standing(o: &Options, call: &Standing) -> Answer {
    with_room(listed(o, call), call.output)
}
