//! SCOPE 19.27 and 19.28, where a table is cut: random tables and boundaries through the port and the plain reading; and random pairs of
//! tables cut at the places that the port tells, each pair of parts joined by itself through the port, beside the uncut join.
use judges::cuts::{self, Apart, Cut, Reason};
use judges::generate_cuts;
use judges::rules::Rules;
use judges::script::{Answer, Call, Judge, Options, Places};
use port::Port;

use crate::cases::{self, Cases, caught, numbered, same, shown};

/// One input of so many has a pair of tables beside it that is cut and joined.
const EVERY: u64 = 10;

/// What a run must have met.
const CASES: [&str; 24] = [
    "accepted",
    "of left rows",
    "of right rows",
    "with a boundary whose group is there",
    "with one that is absent between two rows",
    "with one before the first row",
    "with one behind the last row",
    "without rows",
    "without by-columns",
    "without a boundary",
    "with 16 boundaries",
    "with null groups first",
    "with null groups last",
    "with a descending column",
    "with a list",
    "with carried columns",
    "with more than 4096 rows",
    "with words behind what is written",
    "refused one word short",
    "refused with 17 boundaries",
    "refused with 4096 boundaries or more",
    "pairs of tables",
    "of them with matches whose numbers are counted on",
    "of them with carried cells and distances there",
];

/// What a run had in it.
struct Tally {
    cases: Cases,
    /// Pairs of parts that were joined, and rows that were answered.
    parts: u64,
    rows: u64,
}

/// Where the cuts of a table lie.
fn lie(o: &Options, cut: &Cut) -> [bool; 4] {
    let (mut lies, n) = ([false; 4], cut.rows.len());
    for group in &cut.groups {
        let at = cuts::cut_at(o, &cut.rows, group);
        let there = cut.rows.get(at).is_some_and(|row| row[..o.b] == group[..]);
        let kinds = [there, !there && 0 < at && at < n, !there && at == 0 && n > 0, at == n && n > 0];
        (0..4).for_each(|i| lies[i] |= kinds[i]);
    }
    lies
}

impl Tally {
    /// Counts an input that is accepted.
    fn accepted(&mut self, o: &Options, call: &Places, cut: &Cut) {
        let [there, between, before, behind] = lie(o, cut);
        let null = |at: Option<&Vec<Option<i64>>>| at.is_some_and(|row| row[..o.b].first() == Some(&None));
        let nulls = [null(cut.rows.first()), null(cut.rows.last())].map(|is| is && !cut.groups.is_empty());
        self.cases.meet(0, &[true, call.side == 0, call.side == 1, there, between, before, behind]);
        self.cases.meet(7, &[cut.rows.is_empty(), o.b == 0, o.b > 0 && cut.groups.is_empty(), cut.groups.len() == 16]);
        self.cases.meet(11, &[nulls[0], nulls[1], o.descending.contains(&true), o.ranks.given]);
        let longer = call.output > 2 + 2 * cut.groups.len();
        self.cases.meet(15, &[call.side == 1 && o.carried > 0, cut.rows.len() > 4096, longer]);
    }

    /// Counts an input that is refused.
    fn refused(&mut self, o: &Options, call: &Places, why: Reason) {
        self.cases.refuse(why as usize);
        let needed = cuts::judged(o, call).map_or(0, |cut| 2 + 2 * cut.groups.len());
        let many = call.boundaries.first().copied().unwrap_or(0);
        let limit = matches!(why, Reason::Many | Reason::Boundaries) && many >= 4096;
        self.cases
            .meet(18, &[why == Reason::Short && call.output + 1 == needed, why == Reason::Many && many == 17, limit]);
    }
}

impl cases::Tally for Tally {
    fn missing(&self) -> Option<String> {
        self.cases.missing()
    }

    fn line(&self) -> String {
        self.cases.line(&format!(" ({} parts, {} rows)", self.parts, self.rows))
    }
}

/// Runs a call through the port and the plain reading.
fn one(o: &Options, call: &Places, tally: &mut Tally) -> Result<(), String> {
    tally.cases.inputs += 1;
    same(&mut Port::default(), o, &Call::Places(call.clone()), &cuts::place(o, call))?;
    match (cuts::due(o, call), cuts::judged(o, call)) {
        (Ok(_), Ok(cut)) => tally.accepted(o, call, &cut),
        (Err(why), _) => tally.refused(o, call, why),
        _ => unreachable!(),
    }
    Ok(())
}

/// The places at which the port cuts a table of this side.
fn places(port: &mut Port, o: &Options, of: &Apart, side: u64) -> Vec<usize> {
    let rows = if side == 1 { &of.right } else { &of.left };
    let table = judges::books::words(rows, cuts::columns(o, side));
    let call = Places { side, output: 2 + 2 * 16, table, boundaries: of.boundaries.clone() };
    port.call(&Call::Options(o.clone()));
    match port.call(&Call::Places(call)) {
        Answer::Table(words) => words[2..2 + words[0] as usize].iter().map(|place| *place as usize).collect(),
        answer => panic!("the cut of a sorted table was answered {answer}"),
    }
}

/// Cuts two tables and joins each pair of parts by itself: the answers appended must be those of the uncut tables, which the port and the
/// step rules must tell alike.
fn pair(o: &Options, of: &Apart, tally: &mut Tally) -> Result<(), String> {
    let mut port = Port::default();
    let places = [places(&mut port, o, of, 0), places(&mut port, o, of, 1)];
    let apart = cuts::appended(&mut port, o, of, [&places[0], &places[1]]);
    let whole = cuts::joined(&mut port, o, of, &of.left, &of.right);
    if let Some(wrong) = port.wrong() {
        return Err(wrong.to_string());
    } else if whole != cuts::joined(&mut Rules::default(), o, of, &of.left, &of.right) {
        return Err("the port and the step rules join the uncut tables differently".to_string());
    } else if apart != whole {
        return Err(format!("cut at {places:?} the answers are {apart:?}, uncut they are {whole:?}"));
    }
    let first = places[1].first().copied().unwrap_or(of.right.len()) as i64;
    let on = |row: &Vec<Option<i64>>| row[0].is_some_and(|number| first > 0 && number >= first);
    let full = |row: &Vec<Option<i64>>| o.carried > 0 && o.distance == 1 && on(row) && !row.contains(&None);
    tally.parts += places[0].len() as u64 + 1;
    tally.rows += whole.len() as u64;
    tally.cases.meet(21, &[true, whole.iter().any(on), whole.iter().any(full)]);
    Ok(())
}

/// An input, and beside one in ten a pair of tables; the difference, with the lines that show it.
fn input(seed: u64, number: u64, tally: &mut Tally) -> Result<(), String> {
    let (o, call) = generate_cuts::place(seed, number);
    one(&o, &call, tally).map_err(|why| shown(why, &o, &call))?;
    if number % EVERY != 0 {
        return Ok(());
    }
    let (o, of) = generate_cuts::apart(seed, number);
    caught(|| pair(&o, &of, tally)).map_err(|why| {
        let tables = format!("left {:?}, right {:?}, cut at {:?}", of.left, of.right, of.boundaries);
        shown(format!("two tables: {why}"), &o, &tables)
    })
}

/// Runs COUNT inputs; whether there was no difference and everything was met.
pub fn compare_all(seed: u64, count: u64) -> bool {
    let tally = Tally { cases: Cases::with_reasons(&CASES, &Reason::ALL), parts: 0, rows: 0 };
    cases::compare("places", tally, numbered(seed, count), |number, tally| input(seed, number, tally))
}
