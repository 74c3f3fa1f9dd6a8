//! SCOPE 19.29 to 19.33, takings: random calls through the port and the plain reading; and random trees of calls, each in two orders
//! through the port, beside the sums of all that went into them.
use judges::generate_takings::{self, Step, Tree};
use judges::script::{Adding, Answer, Call, Joining, Options};
use judges::takings::{self, AMOUNT, Added, Reason, SALES, Sums};
use port::Port;

use crate::cases::{self, Cases, caught, numbered};

/// One input of so many has a sale beside it that is doubled up to the most that there can be.
const EVERY: u64 = 100;

/// What a run must have met.
const CASES: [&str; 31] = [
    "added",
    "to a row that was there",
    "to a new one",
    "with a row that stays",
    "with a sale without an amount",
    "with a left row without a match",
    "of them with an amount that would be refused",
    "with a left row of null group",
    "with an amount of 1,000,000,000",
    "with one of −1,000,000,000",
    "without by-columns",
    "without a distance",
    "with a distance",
    "with more than one carried column",
    "with a descending column",
    "with a list",
    "with groups out of order",
    "with more than 2,500 sales",
    "to a table of more than 4,096 rows",
    "joined",
    "with rows of one group",
    "with a total at its limit",
    "with 2^31 sales",
    "with a number of 2^31",
    "with an output of just enough words",
    "with words behind what is written",
    "refused one word short",
    "trees in two orders",
    "of them with a call refused by 15",
    "sales doubled to 2^31",
    "of them refused with one more",
];

/// What a run had in it.
struct Tally {
    cases: Cases,
    /// Calls of trees, and sales that they were given.
    calls: u64,
    sales: u64,
}

impl Tally {
    /// Counts what is written for any call.
    fn written(&mut self, o: &Options, sums: &Sums, output: usize) {
        let limit = |total: &i128, count: &i128| total.abs() == count * AMOUNT as i128;
        let needed = 2 + 2 * sums.rows.len() * (o.b + 2);
        self.cases.meet(21, &[sums.rows.values().any(|(_, total, count)| limit(total, count))]);
        self.cases.meet(22, &[sums.sales() == SALES as i128, sums.number == SALES as i128]);
        self.cases.meet(24, &[output == needed, output > needed]);
    }

    /// Counts an adding that is accepted.
    fn added(&mut self, o: &Options, call: &Adding, added: &Added) {
        let groups: Vec<_> = added.sales.iter().filter(|sale| sale.amount.is_some()).map(|sale| &sale.group).collect();
        let there = |group: &Vec<Option<i64>>| added.rows.iter().any(|row| row[..o.b] == group[..]);
        let stays = added.rows.iter().any(|row| groups.iter().all(|group| row[..o.b] != group[..]));
        let (old, new) = (groups.iter().any(|group| there(group)), groups.iter().any(|group| !there(group)));
        self.cases.meet(0, &[true, old, new, stays, added.sales.iter().any(|sale| sale.amount.is_none())]);
        let rows = |words: &[i64], columns: usize| judges::books::table_rows(columns, words).expect("a frame");
        let (left, answers) = (rows(&call.left, o.b + 1), rows(&call.answers, call.answers[1] as usize));
        let far = |row: &Vec<Option<i64>>| row[0].is_none() && row[1].is_some_and(|a| a.unsigned_abs() > AMOUNT as u64);
        self.cases.meet(5, &[answers.iter().any(|row| row[0].is_none()), answers.iter().any(far)]);
        let null = left.iter().zip(&answers).any(|(row, answer)| answer[0].is_some() && row[..o.b].contains(&None));
        let amount = |of: i64| added.sales.iter().any(|sale| sale.amount == Some(of));
        self.cases.meet(7, &[null, amount(AMOUNT), amount(-AMOUNT), o.b == 0 && !groups.is_empty()]);
        let distance = call.answers[1] as u64 == o.carried + 2;
        let full = |is: bool| is && !groups.is_empty();
        self.cases.meet(11, &[full(!distance), full(distance), full(o.carried > 1)]);
        self.cases.meet(14, &[full(o.descending.contains(&true)), full(o.ranks.given)]);
        let places = |group: &&Vec<Option<i64>>| judges::whole_table::group_places(o, group).collect::<Vec<_>>();
        let falls = groups.windows(2).any(|two| places(&two[0]) > places(&two[1]));
        self.cases.meet(16, &[falls, added.sales.len() > 2500, added.rows.len() > 4096]);
    }

    /// Counts a refusal; whether the output is one word short is told.
    fn refused(&mut self, why: Reason, short: bool) {
        self.cases.refuse(why as usize);
        self.cases.meet(26, &[short]);
    }
}

impl cases::Tally for Tally {
    fn missing(&self) -> Option<String> {
        self.cases.missing()
    }

    fn line(&self) -> String {
        self.cases.line(&format!(" (trees: {} calls, {} sales)", self.calls, self.sales))
    }
}

/// The port's answer to a call, which must be that of the plain reading.
fn asked(port: &mut Port, o: &Options, call: &Call) -> Result<Answer, String> {
    let due = match call {
        Call::TakingsAdd(call) => takings::add(o, call),
        Call::TakingsJoin(call) => takings::join(o, call),
        _ => unreachable!(),
    };
    cases::same(port, o, call, &due).map_err(|why| format!("{why}: {call}"))?;
    Ok(due)
}

/// Runs an adding.
fn one_added(o: &Options, call: &Adding, tally: &mut Tally) -> Result<(), String> {
    asked(&mut Port::default(), o, &Call::TakingsAdd(call.clone()))?;
    match takings::added(o, call) {
        Ok(added) if call.output >= added.sums.words(o).1.len() => {
            tally.added(o, call, &added);
            tally.written(o, &added.sums, call.output);
        },
        Ok(added) => tally.refused(Reason::Short, call.output + 1 == added.sums.words(o).1.len()),
        Err(why) => tally.refused(why, false),
    }
    Ok(())
}

/// Runs a joining.
fn one_joined(o: &Options, call: &Joining, tally: &mut Tally) -> Result<(), String> {
    asked(&mut Port::default(), o, &Call::TakingsJoin(call.clone()))?;
    match takings::joined(o, call) {
        Ok((tables, sums)) if call.output >= sums.words(o).1.len() => {
            tally.cases.meet(19, &[true, sums.rows.len() < tables[0].len() + tables[1].len()]);
            tally.written(o, &sums, call.output);
        },
        Ok((_, sums)) => tally.refused(Reason::Short, call.output + 1 == sums.words(o).1.len()),
        Err(why) => tally.refused(why, false),
    }
    Ok(())
}

/// A table of takings and the number beside it.
type Account = (Vec<i64>, i64);

/// Room for all rows of these tables and one for each row of a frame.
fn room(o: &Options, tables: &[&[i64]]) -> usize {
    2 + 2 * (o.b + 2) * tables.iter().map(|words| words[0] as usize).sum::<usize>()
}

/// What the calls of an order give through the port; none where one is refused.
fn given(o: &Options, tree: &Tree, order: usize, tally: &mut Tally) -> Result<Option<Account>, String> {
    let (empty, steps) = &tree.orders[order];
    let mut accounts = tree.accounts.clone();
    accounts.extend(vec![(vec![0, o.b as i64 + 2], 0); *empty]);
    let mut port = Port::default();
    for step in steps {
        let (to, call) = match *step {
            Step::Add { to, frame } => {
                let ((table, number), [left, answers]) = (accounts[to].clone(), tree.frames[frame].clone());
                let output = room(o, &[&table, &left]);
                (to, Call::TakingsAdd(Adding { output, number, table, left, answers }))
            },
            Step::Join { to, other } => {
                let [(one, number), (two, beside)] = [accounts[to].clone(), accounts[other].clone()];
                let output = room(o, &[&one, &two]);
                let call = Joining { output, numbers: [number, beside], tables: [one, two] };
                (to, Call::TakingsJoin(call))
            },
        };
        tally.calls += 1;
        let Answer::Took(number, table) = asked(&mut port, o, &call)? else { return Ok(None) };
        accounts[to] = (table, number);
        if let Step::Join { other, .. } = *step {
            accounts.swap_remove(other);
        }
    }
    Ok(accounts.pop())
}

/// The sums of all that goes into a tree.
fn whole(o: &Options, tree: &Tree, tally: &mut Tally) -> Sums {
    let mut sums = Sums::default();
    for (table, number) in &tree.accounts {
        sums.add_table(o, &judges::books::table_rows(o.b + 2, table).expect("a table"), *number);
    }
    for [left, answers] in &tree.frames {
        let call = Adding {
            output: 0,
            number: 0,
            table: vec![0, o.b as i64 + 2],
            left: left.clone(),
            answers: answers.clone(),
        };
        let sales = takings::added(o, &call).map(|added| added.sales).expect("a frame");
        tally.sales += sales.len() as u64;
        sums.add_sales(o, &sales);
    }
    sums
}

/// Runs a tree in both orders: each gives the sums, or, where there are more sales than can be, is refused.
fn one_tree(o: &Options, tree: &Tree, tally: &mut Tally) -> Result<(), String> {
    let gave = [given(o, tree, 0, tally)?, given(o, tree, 1, tally)?];
    tally.cases.meet(27, &[true, gave.contains(&None)]);
    let sums = whole(o, tree, tally);
    let whole = (sums.sales() <= SALES as i128).then(|| sums.words(o)).map(|(number, words)| (words, number));
    if gave[0] != whole || gave[1] != whole {
        return Err(format!("the two orders give {gave:?}, the sums are {whole:?}"));
    }
    Ok(())
}

/// Joins what a frame gave with itself until it has 2^31 sales; one sale more must be refused by 15.
fn doubled(o: &Options, tally: &mut Tally) -> Result<(), String> {
    let o = &Options { carried: o.carried.max(1), ..o.clone() };
    let group: Vec<_> = (0..o.b)
        .map(|j| Some(if o.ranks.given && o.ranks.column == j as u64 { o.ranks.codes[0] } else { 7 }))
        .collect();
    let left = judges::books::words(&[group.into_iter().chain([Some(1)]).collect()], o.b + 1);
    let row = [Some(0), Some(AMOUNT)].into_iter().chain((1..o.carried).map(|_| None)).collect();
    let answers = judges::books::words(&[row], 1 + o.carried as usize);
    let (empty, output) = (vec![0, o.b as i64 + 2], 2 + 2 * (o.b + 2));
    let add = |table, number| {
        Call::TakingsAdd(Adding { output, number, table, left: left.clone(), answers: answers.clone() })
    };
    let mut port = Port::default();
    let mut said = asked(&mut port, o, &add(empty, 0))?;
    for _ in 0..31 {
        let Answer::Took(number, table) = said else { return Err(format!("doubling was answered {said}")) };
        let call = Joining { output, numbers: [number; 2], tables: [table.clone(), table] };
        said = asked(&mut port, o, &Call::TakingsJoin(call))?;
    }
    let Answer::Took(0, table) = said else { return Err(format!("doubling was answered {said}")) };
    let full = table[2 + o.b] == SALES * AMOUNT && table[3 + o.b] == SALES;
    let more = asked(&mut port, o, &add(table, 0))?;
    tally.cases.meet(29, &[full, more == Answer::Refused(15)]);
    if full && more == Answer::Refused(15) { Ok(()) } else { Err(format!("one sale more was answered {more}")) }
}

/// An input: an adding or a joining in turn, a tree, and beside one in a hundred a sale that is doubled.
fn input(seed: u64, number: u64, tally: &mut Tally) -> Result<(), String> {
    tally.cases.inputs += 1;
    let (o, said) = if number % 2 == 0 {
        let (o, call) = generate_takings::adding(seed, number);
        let said = one_added(&o, &call, tally);
        (o, said)
    } else {
        let (o, call) = generate_takings::joining(seed, number);
        let said = one_joined(&o, &call, tally);
        (o, said)
    };
    said.map_err(|why| format!("{why}\n    {}", Call::Options(o)))?;
    let (o, tree) = generate_takings::tree(seed, number);
    let doubled = if number % EVERY == 0 { doubled(&o, tally) } else { Ok(()) };
    let said = doubled.and_then(|_| one_tree(&o, &tree, tally));
    said.map_err(|why| format!("a tree: {why}\n    {}\n    {:?}", Call::Options(o), tree.orders))
}

/// Runs COUNT inputs; whether there was no difference and everything was met.
pub fn compare_all(seed: u64, count: u64) -> bool {
    let tally = Tally { cases: Cases::with_reasons(&CASES, &Reason::ALL), calls: 0, sales: 0 };
    cases::compare("takings", tally, numbered(seed, count), |number, tally| caught(|| input(seed, number, tally)))
}
