//! SCOPE 19.29 to 19.33, takings by performance, as plainly as they can be said: a map from each group to its total and its sale count,
//! in the whole-table judge's order of groups, into which every row and every sale is added one by one. Sums are 128 bits wide. It shares
//! no code with the port or with the step rules.
use std::collections::BTreeMap;

use crate::books::{table_rows, words};
use crate::script::{Adding, Answer, Joining, Options};
use crate::whole_table::{Row, group_places, has_unlisted_row, no_options};

/// The largest size of an amount.
pub const AMOUNT: i64 = 1_000_000_000;

/// The most sales of a table, and the largest number beside it.
pub const SALES: i64 = 1 << 31;

/// What a call is refused for, in checking order: each number of SCOPE 19.33 with all that it stands for.
#[derive(Clone, Copy, Debug, PartialEq, Eq)]
pub enum Reason {
    Options,
    Carried,
    List,
    Table,
    Left,
    Answers,
    Heights,
    TableCode,
    LeftCode,
    NothingCarried,
    Columns,
    Null,
    Equal,
    Falling,
    Amount,
    Count,
    Total,
    Number,
    Counts,
    Numbers,
    Short,
}

impl Reason {
    /// All of them with their numbers and names.
    pub const ALL: [(Reason, u8, &str); 21] = [
        (Reason::Options, 1, "options"),
        (Reason::Carried, 10, "carried columns"),
        (Reason::List, 11, "a list"),
        (Reason::Table, 5, "a table"),
        (Reason::Left, 5, "a left frame alone"),
        (Reason::Answers, 5, "an answer frame alone"),
        (Reason::Heights, 5, "unequal heights"),
        (Reason::TableCode, 12, "a table"),
        (Reason::LeftCode, 12, "a left frame alone"),
        (Reason::NothingCarried, 13, "nothing carried"),
        (Reason::Columns, 13, "another column count"),
        (Reason::Null, 14, "a null"),
        (Reason::Equal, 14, "equal neighbours"),
        (Reason::Falling, 14, "a group below the one before"),
        (Reason::Amount, 15, "an amount"),
        (Reason::Count, 15, "a count"),
        (Reason::Total, 15, "a total"),
        (Reason::Number, 15, "a number"),
        (Reason::Counts, 15, "the counts together"),
        (Reason::Numbers, 15, "the number of the result"),
        (Reason::Short, 6, "the output"),
    ];

    /// Its number.
    pub fn number(self) -> u8 {
        Reason::ALL[self as usize].1
    }
}

/// A matched sale: "its answer row has a right number and none of its by-values is null; its amount is the first carried column".
#[derive(Clone, Debug, PartialEq)]
pub struct Sale {
    pub group: Row,
    pub amount: Option<i64>,
}

/// A table and the number beside it, as sums: each group by its places in the declared order, with its cells, total and count.
#[derive(Clone, Debug, Default, PartialEq)]
pub struct Sums {
    pub rows: BTreeMap<Vec<i128>, (Row, i128, i128)>,
    pub number: i128,
}

impl Sums {
    /// Adds to a group's row, "or makes one".
    fn add(&mut self, o: &Options, group: &[Option<i64>], total: i64, count: i64) {
        let group = group.to_vec();
        let row = self.rows.entry(group_places(o, &group).collect()).or_insert((group, 0, 0));
        (row.1, row.2) = (row.1 + total as i128, row.2 + count as i128);
    }

    /// Adds the rows of a table without nulls and the number beside it.
    pub fn add_table(&mut self, o: &Options, rows: &[Row], number: i64) {
        let cell = |row: &Row, j: usize| row[j].expect("no null");
        rows.iter().for_each(|row| self.add(o, &row[..o.b], cell(row, o.b), cell(row, o.b + 1)));
        self.number += number as i128;
    }

    /// "Each matched sale with an amount is added to its group's row …; each without an amount adds 1 to the number."
    pub fn add_sales(&mut self, o: &Options, sales: &[Sale]) {
        for sale in sales {
            match sale.amount {
                Some(amount) => self.add(o, &sale.group, amount, 1),
                None => self.number += 1,
            }
        }
    }

    /// All sales with an amount.
    pub fn sales(&self) -> i128 {
        self.rows.values().map(|(_, _, count)| count).sum()
    }

    /// "the result's counts together, or its number, are above 2^31".
    fn beyond(&self) -> Option<Reason> {
        match () {
            _ if self.sales() > SALES as i128 => Some(Reason::Counts),
            _ if self.number > SALES as i128 => Some(Reason::Numbers),
            _ => None,
        }
    }

    /// The number and the words of the table.
    pub fn words(&self, o: &Options) -> (i64, Vec<i64>) {
        let number = |sum: i128| Some(i64::try_from(sum).expect("a sum within its limits"));
        let row = |(group, total, count): &(Row, i128, i128)| {
            group.iter().copied().chain([number(*total), number(*count)]).collect()
        };
        (self.number as i64, words(&self.rows.values().map(row).collect::<Vec<Row>>(), o.b + 2))
    }
}

/// The rows of a frame of so many columns, which may be none; nothing where the words break the frame rule.
fn frame(columns: usize, words: &[i64]) -> Option<Vec<Row>> {
    match words {
        [n @ 0..=4096, 0] if columns == 0 => Some(vec![vec![]; *n as usize]),
        [0..=4096, ..] if columns > 0 => table_rows(columns, words),
        _ => None,
    }
}

/// The rows of a frame of as many columns as it says.
fn any_frame(words: &[i64]) -> Option<Vec<Row>> {
    frame(usize::try_from(*words.get(1)?).ok()?, words)
}

/// Options that every call refuses.
fn options(o: &Options) -> Result<(), Reason> {
    match no_options(o) {
        0 => Ok(()),
        1 => Err(Reason::Options),
        10 => Err(Reason::Carried),
        _ => Err(Reason::List),
    }
}

/// "a table has a null, or groups that do not ascend strictly".
fn unsorted(o: &Options, rows: &[Row]) -> Option<Reason> {
    let both = |two: &[Row]| [0, 1].map(|i| group_places(o, &two[i]).collect::<Vec<_>>());
    match () {
        _ if rows.iter().any(|row| row.contains(&None)) => Some(Reason::Null),
        _ if rows.windows(2).map(both).any(|[x, y]| x == y) => Some(Reason::Equal),
        _ if rows.windows(2).map(both).any(|[x, y]| x > y) => Some(Reason::Falling),
        _ => None,
    }
}

/// "a count is below 1; a total is larger in size than its count times 1,000,000,000".
fn beyond(o: &Options, rows: &[Row]) -> Option<Reason> {
    let cell = |row: &Row, j: usize| row[j].map_or(0, i128::from);
    match () {
        _ if rows.iter().any(|row| cell(row, o.b + 1) < 1) => Some(Reason::Count),
        _ if rows.iter().any(|row| cell(row, o.b).abs() > cell(row, o.b + 1) * AMOUNT as i128) => Some(Reason::Total),
        _ => None,
    }
}

/// "a number is below 0 or above 2^31".
fn bad_number(number: i64) -> Option<Reason> {
    (!(0..=SALES).contains(&number)).then_some(Reason::Number)
}

/// Whether rows have "a number in the ranked column that the list lacks".
fn lacks(o: &Options, rows: &[Row]) -> bool {
    rows.iter().any(|row| has_unlisted_row(o, row))
}

/// Fails with the reason that there is.
fn unless(reason: Option<Reason>) -> Result<(), Reason> {
    reason.map_or(Ok(()), Err)
}

/// The matched sales of a left frame's rows and those of its answer frame.
fn sales(o: &Options, left: &[Row], answers: &[Row]) -> Vec<Sale> {
    let matched = |(row, answer): &(&Row, &Row)| answer[0].is_some() && !row[..o.b].contains(&None);
    let sale = |(row, answer): (&Row, &Row)| Sale { group: row[..o.b].to_vec(), amount: answer[1] };
    left.iter().zip(answers).filter(matched).map(sale).collect()
}

/// What is added: the table's rows, and the frame's sales.
pub struct Added {
    pub rows: Vec<Row>,
    pub sales: Vec<Sale>,
    pub sums: Sums,
}

/// What a frame's sales and a table give, or why the call is refused; the output is not looked at. Each number is looked for in all that
/// is handed in before the next.
pub fn added(o: &Options, call: &Adding) -> Result<Added, Reason> {
    options(o)?;
    let rows = table_rows(o.b + 2, &call.table).ok_or(Reason::Table)?;
    let left = frame(o.b + 1, &call.left).ok_or(Reason::Left)?;
    let answers = any_frame(&call.answers).ok_or(Reason::Answers)?;
    let columns = call.answers[1] as u64;
    match () {
        _ if left.len() != answers.len() => return Err(Reason::Heights),
        _ if lacks(o, &rows) => return Err(Reason::TableCode),
        _ if lacks(o, &left) => return Err(Reason::LeftCode),
        _ if o.carried == 0 => return Err(Reason::NothingCarried),
        _ if columns != o.carried + 1 && columns != o.carried + 2 => return Err(Reason::Columns),
        _ => unless(unsorted(o, &rows))?,
    }
    let sales = sales(o, &left, &answers);
    let large = |sale: &Sale| sale.amount.is_some_and(|amount| !(-AMOUNT..=AMOUNT).contains(&amount));
    unless(sales.iter().any(large).then_some(Reason::Amount))?;
    unless(beyond(o, &rows).or(bad_number(call.number)))?;
    let mut sums = Sums::default();
    sums.add_table(o, &rows, call.number);
    sums.add_sales(o, &sales);
    unless(sums.beyond())?;
    Ok(Added { rows, sales, sums })
}

/// What two tables give, or why the call is refused; the output is not looked at.
pub fn joined(o: &Options, call: &Joining) -> Result<([Vec<Row>; 2], Sums), Reason> {
    options(o)?;
    let rows = |i: usize| table_rows(o.b + 2, &call.tables[i]).ok_or(Reason::Table);
    let tables = [rows(0)?, rows(1)?];
    match () {
        _ if tables.iter().any(|rows| lacks(o, rows)) => return Err(Reason::TableCode),
        _ if o.carried == 0 => return Err(Reason::NothingCarried),
        _ => {},
    }
    unless(tables.iter().find_map(|rows| unsorted(o, rows)))?;
    unless(tables.iter().find_map(|rows| beyond(o, rows)))?;
    unless(call.numbers.into_iter().find_map(bad_number))?;
    let mut sums = Sums::default();
    (0..2).for_each(|i| sums.add_table(o, &tables[i], call.numbers[i]));
    unless(sums.beyond())?;
    Ok((tables, sums))
}

/// What is written, or why the call is refused: "the output has fewer words than the result" comes last.
pub fn due(o: &Options, sums: Result<Sums, Reason>, output: usize) -> Result<(i64, Vec<i64>), Reason> {
    let (number, words) = sums?.words(o);
    if output < words.len() { Err(Reason::Short) } else { Ok((number, words)) }
}

/// The answer that says so.
fn answer(due: Result<(i64, Vec<i64>), Reason>) -> Answer {
    due.map_or_else(|reason| Answer::Refused(reason.number()), |(number, words)| Answer::Took(number, words))
}

/// The answer to adding.
pub fn add(o: &Options, call: &Adding) -> Answer {
    answer(due(o, added(o, call).map(|added| added.sums), call.output))
}

/// The answer to joining.
pub fn join(o: &Options, call: &Joining) -> Answer {
    answer(due(o, joined(o, call).map(|(_, sums)| sums), call.output))
}
