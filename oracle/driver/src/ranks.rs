//! Lists of codes (SCOPE 3.10, 4.9): what the self-test asks of scripts that give one, beside the steps that all scripts
//! share.
use judges::generate::{COMPARED, Kind, script_with_lacked, script_with_list, script_with_list_and_runs};
use judges::rules::Rules;
use judges::script::{Answer, Call, Judge, Look, Options, Ranks, Stop, opening};

use crate::compare::{self, Tally};
use crate::rust::{Rust, Ways};
use crate::selftest::{self, Makes, Step, failure};

/// Scripts with lists, without frames that have a value which the list lacks: for a node that takes all its frames at once.
pub const TAKEN: Makes = Makes {
    turns: |kind, seed, number| taken(script_with_list(kind, seed, number)),
    runs: |kind, seed, number| taken(script_with_list_and_runs(kind, seed, number)),
};

/// The codes of the options' list.
fn codes(o: &Options) -> &[i64] {
    &o.ranks.codes[..o.ranks.count as usize]
}

/// The places of a frame's values in the column of the options' list.
fn places_in(o: &Options, words: &[i64]) -> impl Iterator<Item = usize> {
    let (n, c, column) = (words[0] as usize, words[1] as usize, o.ranks.column as usize);
    (0..n).map(move |i| 2 + i * c + column).filter(move |at| words[at + n * c] == 1)
}

/// The script without frames that have a value which the list lacks, whatever they are refused by. They change nothing, so
/// all else is answered as it was.
pub fn taken(calls: Vec<Call>) -> Vec<Call> {
    let o = options(&calls);
    let listed = |words: &[i64]| places_in(&o, words).all(|at| codes(&o).contains(&words[at]));
    let keep = |call: &Call| match call {
        Call::Left(words) | Call::Right(words) => !o.ranks.given || listed(words),
        _ => true,
    };
    calls.into_iter().filter(keep).collect()
}

/// Worked cases of lists.
pub fn cases() -> Step {
    selftest::cases(include_str!("../ranks.txt"))
}

/// The options that a script opens with.
fn options(calls: &[Call]) -> Options {
    opening(calls).expect("a script opens first").0.options
}

/// A code's place in the options' list.
fn place(o: &Options, code: i64) -> i64 {
    codes(o).iter().position(|c| *c == code).expect("the list has the code") as i64
}

/// A frame's words with places in the stead of codes.
fn frame_by_place(o: &Options, words: &[i64]) -> Vec<i64> {
    let mut out = words.to_vec();
    places_in(o, words).for_each(|at| out[at] = place(o, words[at]));
    out
}

/// A call with places in the stead of codes, and without a list.
fn call_by_place(o: &Options, call: &Call) -> Call {
    match call {
        Call::Options(o) => Call::Options(Options { ranks: Ranks::none(), ..o.clone() }),
        Call::Left(words) => Call::Left(frame_by_place(o, words)),
        Call::Right(words) => Call::Right(frame_by_place(o, words)),
        call => call.clone(),
    }
}

/// What `state` tells of a join, with places in the stead of codes in the remembered rows.
fn look_by_place(o: &Options, look: &Look) -> Look {
    let column = o.ranks.column as usize;
    let row = |row: &Option<Vec<Option<i64>>>| {
        let mut out = row.clone();
        out.iter_mut().for_each(|cells| cells[column] = cells[column].map(|code| place(o, code)));
        out
    };
    Look { left: row(&look.left), right: row(&look.right), ..look.clone() }
}

/// A list is nothing but its places: the same scripts with places in the stead of codes, which compare as numbers. The
/// rules give the same answers, and after each call the same join; the Rust gives the same answers.
pub fn places(seed: u64, count: u64) -> Step {
    let (mut calls, mut turned) = (0, 0);
    for (kind, i) in COMPARED.into_iter().flat_map(|kind| (0..count).map(move |i| (kind, i))) {
        let with = (TAKEN.turns)(kind, seed, i);
        let o = options(&with);
        let without: Vec<Call> = with.iter().map(|call| call_by_place(&o, call)).collect();
        let (mut rules, mut plain) = (Rules::default(), Rules::default());
        for (call, other) in with.iter().zip(&without) {
            let (said, alone) = (rules.call(call), plain.call(other));
            let look = rules.look().map(|look| look_by_place(&o, look));
            if said != alone || look.as_ref() != plain.look() {
                return Err(failure("places do not stand for codes", &with, &format!("{call}: {said}, else {alone}")));
            }
            (calls, turned) = (calls + 1, turned + matches!(said, Answer::Wrote(..)) as u64);
        }
        let [said, alone] = [&with, &without].map(|calls| compare::answers(&mut Rust::default(), calls));
        if said != alone {
            return Err(failure("places do not stand for codes in the Rust", &with, &format!("{kind:?} {i}")));
        }
    }
    if turned == 0 {
        return Err("nothing was tested".into());
    }
    Ok(format!("{calls} calls, {turned} turns that wrote: the same with places in the stead of codes"))
}

/// Values that the list lacks in held and remembered rows, by the step rules and by the Rust: the host writes them into
/// held rows, the node is handed them.
pub fn lacked(seed: u64, count: u64) -> Step {
    let ways = Ways { writes: true, ..Ways::default() };
    let (mut all, mut frames) = (Tally::default(), 0);
    for kind in COMPARED {
        all.add(&selftest::steps(script_with_lacked, kind, seed, count, ways)?);
        frames += (0..count).map(|i| refused_right(&script_with_lacked(kind, seed, i))).sum::<u64>();
    }
    let [_, _, held, split] = all.faults;
    if [all.matched, all.wants, held, frames].contains(&0) {
        return Err("nothing was tested".into());
    } else if split != 0 {
        return Err("a fault at the split alone, which docs/DIFFERENCES.md calls impossible".into());
    }
    Ok(format!("{frames} right frames with values that the list lacks; {all}"))
}

/// How many right frames of a script are refused by 12.
fn refused_right(calls: &[Call]) -> u64 {
    let mut rules = Rules::default();
    let refused = |call: &&Call| rules.call(call) == Answer::Refused(12) && matches!(call, Call::Right(_));
    calls.iter().filter(refused).count() as u64
}

/// What scripts had in them in which the host writes what it likes.
#[derive(Default, Debug)]
struct Written {
    /// Frames, turns and runs that were refused by 12, and runs among these after a turn that wrote.
    frames: u64,
    turns: u64,
    runs: u64,
    later: u64,
    /// Calls that were refused by 2 while the list was bad or its places were.
    broken: u64,
    /// Turns that wrote, and that an order fault stopped, over held rows with a value that the list lacks.
    wrote: u64,
    faults: u64,
}

impl Written {
    /// Counts a call and its answer; whether held rows lacked a value and whether the list was bad before it.
    fn count(&mut self, call: &Call, answer: &Answer, lacked: bool, bad: bool) {
        match (call, answer) {
            (Call::Left(_) | Call::Right(_), Answer::Refused(12)) => self.frames += 1,
            (Call::Turn(_), Answer::Refused(12)) => self.turns += 1,
            (Call::Turn(_), Answer::Wrote(..)) if lacked => self.wrote += 1,
            (Call::Turn(_), Answer::Refused(9)) if lacked => self.faults += 1,
            (Call::Run(..), Answer::Ran(ran)) if ran.stop == Stop::Refused(12) => {
                self.runs += 1;
                self.later += (ran.turns > 0) as u64;
            },
            (_, Answer::Refused(2)) if bad => self.broken += 1,
            _ => {},
        }
    }
}

/// Whether a held row has a value that the list lacks.
fn lacks_held(rules: &Rules) -> bool {
    let (Some(o), Some(look), Some((_, _, right))) = (rules.options(), rules.look(), rules.all_words()) else {
        return false;
    };
    if !o.ranks.given || rules.broken() {
        return false;
    }
    let c = o.b + 1 + o.carried as usize;
    let (capacity, column) = (right.len() / (2 * c), o.ranks.column as usize);
    let at = |i: usize| (look.base + i) * c + column;
    (0..look.held).any(|i| right[capacity * c + at(i)] != 0 && !codes(o).contains(&right[at(i)]))
}

/// Scripts in which the host writes words of joins and areas, by the rules alone: what they reach. The port is asked
/// about them.
pub fn handed(seed: u64, count: u64) -> Step {
    let mut all = Written::default();
    for i in 0..count {
        let makes = [script_with_list, script_with_list_and_runs];
        let calls = makes[i as usize % 2](Kind::Handed, seed, i);
        let mut rules = Rules::default();
        for call in &calls {
            let (lacked, bad) = (lacks_held(&rules), rules.broken() && rules.options().is_some_and(|o| o.ranks.given));
            let answer = rules.call(call);
            all.count(call, &answer, lacked, bad);
        }
    }
    let Written { frames, turns, runs, later, broken, wrote, faults } = all;
    if [frames, turns, runs, later, broken, wrote, faults].contains(&0) {
        return Err(format!("nothing was tested: {all:?}"));
    }
    let refused = format!("refused by 12 {frames} frames, {turns} turns and {runs} runs, {later} of them after a turn");
    let over = format!("over held values that the list lacks {wrote} turns wrote, {faults} were refused by 9");
    Ok(format!("{count} scripts: {refused}; {broken} calls by 2 with a list; {over}"))
}
