//! SCOPE 19.34 to 19.36, two tables cut and joined pair by pair: random tables, boundaries, areas and outputs through the port and the plain
//! reading. And, where tables and boundaries are fine, each pair of parts joined by itself through the port, by the schedule of its plan in
//! areas of just the plan's size, beside the call in areas of just enough words; shorter ones must be refused by 6.
use judges::books::{table_rows, words};
use judges::generate_pairs;
use judges::pairs::{self, Needs, Pair, Reason, Tables};
use judges::plans::{self, FramesOf};
use judges::script::{Answer, Call, Judge, Options, Pairs, Plan};
use port::Port;

use crate::cases::{self, Cases, caught, numbered, shown};

/// From so many inputs on a run must have met everything; a shorter one may miss what is rare.
const ALL_MET: u64 = 20_000;

/// What a run must have met, the last five in the second judging.
const CASES: [&str; 36] = [
    "accepted",
    "backward",
    "forward",
    "nearest",
    "with matches",
    "with carried cells",
    "with a distance",
    "with numbers counted on",
    "with a tolerance",
    "with a list",
    "with a descending column",
    "with nulls last",
    "with a null group",
    "without by-columns",
    "with four by-columns",
    "with eight carried columns",
    "without a boundary",
    "with 16 boundaries",
    "with a boundary that both tables lack",
    "with a left part that is empty alone",
    "with a right part that is empty alone",
    "with two empty parts",
    "with more than one left frame in a pair",
    "with more than one right frame in a pair",
    "with more rows held than a frame has",
    "with fewer rows held than a part has",
    "with areas and output of just enough words",
    "with words behind what is written",
    "refused with 17 boundaries",
    "refused with 4096 boundaries or more",
    "refused one word short",
    "joined apart",
    "of them with more than one pair",
    "refused with a left area one word short",
    "with a right area one word and one row short",
    "with an output one word short",
];

/// The place of the first of these.
const APART: usize = 31;

/// What a run had in it.
struct Tally {
    cases: Cases,
    /// Pairs that were joined apart, and rows that were answered.
    pairs: u64,
    rows: u64,
}

impl Tally {
    /// Counts what the answer to an accepted call is.
    fn written(&mut self, o: &Options, all: &[Pair], written: &[i64]) {
        let first = all.get(1).map_or(0, |pair| pair.before) as i64;
        let rows = table_rows(written[1] as usize, written).expect("a table is written");
        let matched = || rows.iter().filter(|row| row[0].is_some());
        let on = |row: &Vec<Option<i64>>| row[0].is_some_and(|number| first > 0 && number >= first);
        let carried = o.carried > 0 && matched().any(|row| row[1].is_some());
        let distance = o.distance == 1 && matched().any(|row| row[row.len() - 1].is_some());
        let some = matched().next().is_some();
        self.cases.meet(0, &[true, some && o.strategy == 0, some && o.strategy == 1, some && o.strategy == 2]);
        self.cases.meet(4, &[some, carried, distance, rows.iter().any(on), some && o.tolerance >= 0]);
    }

    /// Counts what the options and the tables of an accepted call are.
    fn tables(&mut self, o: &Options, tables: &Tables) {
        let many = tables.groups.len();
        let null = |row: &Vec<Option<i64>>| row[..o.b].contains(&None);
        let nulls = tables.left.iter().chain(&tables.right).any(null);
        let cut = |is: bool| is && many > 0;
        self.cases.meet(9, &[cut(o.ranks.given), cut(o.descending.contains(&true))]);
        self.cases.meet(11, &[cut(nulls && o.nulls_last.contains(&true)), cut(nulls), o.b == 0, cut(o.b == 4)]);
        self.cases.meet(15, &[o.carried == 8, o.b > 0 && many == 0, many == 16]);
        let lacks = |rows: &[Vec<Option<i64>>], group: &[Option<i64>]| rows.iter().all(|row| row[..o.b] != *group);
        let absent = |group: &Vec<Option<i64>>| lacks(&tables.left, group) && lacks(&tables.right, group);
        self.cases.meet(18, &[tables.groups.iter().any(absent)]);
    }

    /// Counts what the pairs of an accepted call are.
    fn parts(&mut self, all: &[Pair]) {
        let any = |is: &dyn Fn(&Pair) -> bool| all.iter().any(is);
        let left = any(&|pair| pair.left.is_empty() && !pair.right.is_empty());
        let right = any(&|pair| !pair.left.is_empty() && pair.right.is_empty());
        let both = any(&|pair| pair.left.is_empty() && pair.right.is_empty());
        self.cases.meet(19, &[left, right, both && all.len() > 1]);
        self.cases.meet(22, &[any(&|pair| pair.left.len() > 4096), any(&|pair| pair.right.len() > 4096)]);
        let fewer = any(&|pair| !pair.left.is_empty() && pair.held < pair.right.len());
        self.cases.meet(24, &[any(&|pair| pair.held > 4096), fewer]);
    }

    /// Counts a call that is accepted.
    fn accepted(&mut self, o: &Options, call: &Pairs, tables: &Tables, all: &[Pair], written: &[i64]) {
        self.written(o, all, written);
        self.tables(o, tables);
        self.parts(all);
        let Needs { areas, output } = pairs::needs(o, all);
        self.cases.meet(26, &[call.areas == areas && call.output == output, call.output > output]);
    }

    /// Counts a call that is refused.
    fn refused(&mut self, call: &Pairs, why: Reason, needs: Option<Needs>) {
        self.cases.refuse(why as usize);
        let many = call.boundaries.first().copied().unwrap_or(0);
        let limit = matches!(why, Reason::Many | Reason::Boundaries) && many >= 4096;
        let short = needs.is_some_and(|needs| match why {
            Reason::LeftArea => call.areas[0] + 1 == needs.areas[0],
            Reason::RightArea => call.areas[1] + 1 == needs.areas[1],
            _ => call.output + 1 == needs.output,
        });
        self.cases.meet(28, &[why == Reason::Many && many == 17, limit, short]);
    }
}

impl cases::Tally for Tally {
    fn missing(&self) -> Option<String> {
        self.cases.missing().filter(|_| self.cases.inputs >= ALL_MET)
    }

    fn line(&self) -> String {
        self.cases.line(&format!(" ({} pairs, {} rows)", self.pairs, self.rows))
    }
}

/// A port's answer to a call.
fn asked(o: &Options, call: Call) -> Result<Answer, String> {
    cases::asked(&mut Port::default(), o, &call)
}

/// The first figure of the pair's plan by the port: it must be the one that is counted from the rows.
fn planned(o: &Options, of: &FramesOf, pair: &Pair) -> Result<(), String> {
    let heights = |frames: &[Vec<i64>]| frames.iter().map(|frame| frame[0]).collect();
    let (left_heights, right_heights) = (heights(&of.lefts), heights(&of.rights));
    let (left, right) = (words(pair.left, o.b + 1), words(pair.right, o.b + 1 + o.carried as usize));
    match asked(o, Call::Plan(Plan { left, right, left_heights, right_heights }))? {
        Answer::Planned([rows, ..]) if rows == pair.held as u64 => Ok(()),
        answer => Err(format!("the plan of a pair is answered {answer}, counted from its rows it holds {}", pair.held)),
    }
}

/// "Each pair is joined by itself by the schedule of 19.24 … and the answers are appended as one table with the right rows of the pairs
/// before added to each right number": through the port, in areas of just the plan's size.
fn joined_apart(o: &Options, all: &[Pair], wide: usize) -> Result<Vec<i64>, String> {
    let mut rows = vec![];
    for pair in all {
        let (of, held, from) = (pairs::full_frames(o, pair.left, pair.right), pair.held, rows.len());
        planned(o, &of, pair)?;
        let mut port = Port::default();
        let said = plans::answered(&mut port, o, &of, held, &mut rows);
        if said.short || said.rows != held as u64 {
            return Err(format!("with room for {held} rows the schedule of a pair comes to {said:?}"));
        } else if let Some(wrong) = port.wrong() {
            return Err(wrong.to_string());
        }
        rows[from..].iter_mut().for_each(|row| row[0] = row[0].map(|number| number + pair.before as i64));
    }
    Ok(words(&rows, wide))
}

/// The call with just enough room must answer what the pairs joined apart come to, and with less room it must be refused by 6.
fn apart(o: &Options, call: &Pairs, all: &[Pair], tally: &mut Tally) -> Result<(), String> {
    let Needs { areas: [left, right], output } = pairs::needs(o, all);
    let row = 2 * (o.b + 1 + o.carried as usize);
    let with = |areas: [usize; 2], output: usize| asked(o, Call::Pairs(Pairs { areas, output, ..call.clone() }));
    let Answer::Table(written) = with([left, right], output)? else {
        return Err(format!("areas of {left} and {right} words and an output of {output} are not enough"));
    };
    let apart = joined_apart(o, all, written[1] as usize)?;
    if apart != written {
        return Err(format!("the pairs joined apart come to {apart:?}, the call answers {written:?}"));
    }
    let shorter = [
        (left > 0, [left.wrapping_sub(1), right], output),
        (right > 0, [left, right.wrapping_sub(1)], output),
        (right > 0, [left, right.wrapping_sub(row)], output),
        (true, [left, right], output - 1),
    ];
    for (is, areas, output) in shorter {
        if is && with(areas, output)? != Answer::Refused(6) {
            return Err(format!("areas of {areas:?} words and an output of {output} are not refused by 6"));
        }
    }
    tally.pairs += all.len() as u64;
    tally.rows += written[0] as u64;
    tally.cases.meet(APART, &[true, all.len() > 1, left > 0, right > 0, true]);
    Ok(())
}

/// The port's answer to a call must be the one that is due.
fn same(o: &Options, call: &Pairs, due: Answer) -> Result<(), String> {
    cases::same(&mut Port::default(), o, &Call::Pairs(call.clone()), &due)
}

/// Runs a call through the port and the plain reading; and through the second judging, if its tables and boundaries are fine.
fn one(o: &Options, call: &Pairs, tally: &mut Tally) -> Result<(), String> {
    tally.cases.inputs += 1;
    let tables = match pairs::judged(o, call) {
        Ok(tables) => tables,
        Err(why) => {
            tally.refused(call, why, None);
            return same(o, call, Answer::Refused(why.number()));
        },
    };
    let all = pairs::pairs(o, &tables);
    let needs = pairs::needs(o, &all);
    match pairs::written(o, call, &tables, &needs) {
        Ok(words) => {
            tally.accepted(o, call, &tables, &all, &words);
            same(o, call, Answer::Table(words))?;
        },
        Err(why) => {
            tally.refused(call, why, Some(needs));
            same(o, call, Answer::Refused(why.number()))?;
        },
    }
    apart(o, call, &all, tally)
}

/// Runs COUNT inputs; whether there was no difference and, in a run that is long enough, everything was met.
pub fn compare_all(seed: u64, count: u64) -> bool {
    let tally = Tally { cases: Cases::with_reasons(&CASES, &Reason::ALL), pairs: 0, rows: 0 };
    cases::compare("cuts", tally, numbered(seed, count), |number, tally| {
        let (o, call) = generate_pairs::cut(seed, number);
        caught(|| one(&o, &call, tally)).map_err(|why| shown(why, &o, &call))
    })
}
