//! Running a script through the port, through SCOPE's step rules and through the Rust, asking the whole-table judge about what
//! they answered, and making a script that differs small.
use std::fmt;
use std::panic::{AssertUnwindSafe, catch_unwind};
use std::time::Duration;

use judges::generate::Kind;
use judges::rules::Rules;
use judges::script::{Answer, Call, Judge, opening};
use judges::whole_table;
use oracle::compare::{Tally, agrees, no_counterpart, panic_text, parted};
use oracle::rust::Rust;
use port::Port;

use crate::less::{self, parts, without_rows};

/// How long a differing script is made smaller.
const SPENT: Duration = Duration::from_secs(20);

/// What a run had in it.
#[derive(Default, Clone)]
pub struct Counts {
    pub tally: Tally,
    pub refused: [u64; 13],
    /// Moves that were made, refused by 2 and refused by 6.
    pub moves: [u64; 3],
    /// Calls that the host made on words that it altered itself.
    pub altered: u64,
}

impl Counts {
    /// Adds another run's counts.
    pub fn add(&mut self, other: &Counts) {
        self.tally.add(&other.tally);
        self.altered += other.altered;
        (0..3).for_each(|n| self.moves[n] += other.moves[n]);
        (0..13).for_each(|n| self.refused[n] += other.refused[n]);
    }

    /// Counts a call's answer, given in this node state.
    fn count(&mut self, call: &Call, answer: &Answer, state: u8) {
        match (call, answer) {
            (Call::Move(..), Answer::Ok) => self.moves[0] += 1,
            (Call::Move(..), Answer::Refused(2)) => self.moves[1] += 1,
            (Call::Move(..), Answer::Refused(6)) => self.moves[2] += 1,
            _ => {},
        }
        self.tally.calls += 1;
        self.tally.count(answer, state);
        if let Answer::Refused(n) = answer {
            self.refused[(*n as usize).min(12)] += 1;
            self.tally.unlisted += (*n == 12) as u64;
        }
    }
}

impl fmt::Display for Counts {
    /// The counts on one line.
    fn fmt(&self, f: &mut fmt::Formatter<'_>) -> fmt::Result {
        write!(f, "{}; refused by 1 to 12: {:?}; ", self.tally, &self.refused[1..])?;
        let [made, bad, short] = self.moves;
        write!(f, "{made} moves, {bad} refused by 2, {short} by 6; {} words altered", self.altered)
    }
}

/// Whether the Rust is asked too: it has no counterpart of what these kinds are made of.
fn asks_rust(kind: Kind) -> bool {
    !matches!(kind, Kind::Refusals | Kind::Handed | Kind::Strict)
}

/// The Rust beside the port, as far as both go the same way.
struct Beside {
    rust: Rust,
    parted: bool,
}

impl Beside {
    /// How the Rust's answer differs from the port's, and whether it was compared at all.
    fn differs(&mut self, call: &Call, said: &Answer) -> Result<bool, String> {
        if self.parted {
            return Ok(false);
        }
        let rust = self.rust.call(call);
        self.parted = parted(call, said);
        if no_counterpart(said) {
            return Ok(false);
        } else if !agrees(&rust, &self.rust.shared(said)) {
            return Err(format!("the port says {said}, the Rust says {rust}"));
        }
        Ok(true)
    }
}

/// What stands first in two lists at the same place and differs.
fn first_difference(what: &str, port: &[i64], rules: &[i64]) -> Option<String> {
    let at = (0..port.len().max(rules.len())).find(|i| port.get(*i) != rules.get(*i))?;
    Some(format!("word {at} of {what}: the port has {:?}, SCOPE has {:?}", port.get(at), rules.get(at)))
}

/// How the port's join and areas differ from the rules', word by word.
fn words_differ(port: &Port, rules: &Rules) -> Option<String> {
    match (port.all_words(), rules.all_words()) {
        (None, None) => None,
        (Some((join, left, right)), Some((join2, left2, right2))) => first_difference("the join", &join, &join2)
            .or_else(|| first_difference("the left area", left, left2))
            .or_else(|| first_difference("the right area", right, right2)),
        (port, _) => Some(format!("{} the port has a join", if port.is_some() { "only" } else { "not" })),
    }
}

/// Runs a script through all; the first difference, if any.
fn run(calls: &[Call], kind: Kind, counts: &mut Counts) -> Result<(), String> {
    let (mut port, mut rules) = (Port::default(), Rules::default());
    let mut beside = Beside { rust: Rust::default(), parted: !asks_rust(kind) };
    let mut answers = vec![];
    for (i, call) in calls.iter().enumerate() {
        let state = rules.look().map_or(0, |l| l.state);
        let (said, ruled) = (port.call(call), rules.call(call));
        let differs = |why: String| format!("call {}, {call}: {why}", i + 1);
        if said != ruled {
            return Err(differs(format!("the port says {said}, SCOPE says {ruled}")));
        } else if let Some(wrong) = port.wrong() {
            return Err(differs(wrong.to_string()));
        } else if let Some(why) = words_differ(&port, &rules) {
            return Err(differs(why));
        }
        counts.tally.compared += beside.differs(call, &said).map_err(differs)? as u64;
        counts.altered += matches!(call, Call::Put(..)) as u64;
        counts.count(call, &said, state);
        answers.push(said);
    }
    counts.tally.script(calls);
    rules.fault().into_iter().for_each(|f| counts.tally.fault(f));
    counts.tally.judged.add(&whole_table::judge(calls, &answers).map_err(|why| format!("whole table: {why}"))?);
    Ok(())
}

/// Runs a script through all. A panic is a difference like any other.
pub fn all(calls: &[Call], kind: Kind, counts: &mut Counts) -> Result<(), String> {
    let run = catch_unwind(AssertUnwindSafe(|| run(calls, kind, counts)));
    run.unwrap_or_else(|p| Err(format!("panic: {}", panic_text(p))))
}

/// How many rows a call's frame has, if it is one that a row can be taken from.
fn rows(call: &Call) -> usize {
    let (Call::Left(w) | Call::Right(w)) = call else { return 0 };
    let [n @ 1..=4096, c @ 1..=13, cells @ ..] = w.as_slice() else { return 0 };
    if cells.len() == 2 * *n as usize * *c as usize { *n as usize } else { 0 }
}

/// The script less some rows of a call's frame.
fn less_rows(calls: &[Call], i: usize, from: usize, count: usize) -> Vec<Call> {
    let mut script = calls.to_vec();
    if let Call::Left(w) | Call::Right(w) = &mut script[i] {
        *w = without_rows(w, from, count);
    }
    script
}

/// All scripts that are this one less a call, or less rows of a frame: long parts of it first, then single rows. What opens
/// stays.
fn smaller(calls: &[Call]) -> impl Iterator<Item = Vec<Call>> {
    let lines = opening(calls).expect("a script opens first").1;
    let less = |i: usize| [&calls[..i], &calls[i + 1..]].concat();
    let frames = (lines..calls.len()).flat_map(|i| parts(rows(&calls[i])).map(move |(from, n)| (i, from, n)));
    (lines..calls.len()).map(less).chain(frames.map(|(i, from, n)| less_rows(calls, i, from, n)))
}

/// A script that still differs and that no call and no row can be taken from, with how it differs; or the smallest that is
/// found in the time that is spent on it.
pub fn smallest(calls: &[Call], kind: Kind) -> (Vec<Call>, String) {
    let differs = |calls: &Vec<Call>| all(calls, kind, &mut Counts::default()).err();
    less::smallest(calls.to_vec(), SPENT, |calls| Box::new(smaller(calls)), differs)
}
