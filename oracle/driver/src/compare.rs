//! Running one script through the Rust and through the rules, and through the Rust and the whole-table rule.
use std::fmt;
use std::panic::{AssertUnwindSafe, catch_unwind};

use judges::rules::Fault;
use judges::script::{self, Answer, Call, Judge, Ran, Stop};
use judges::whole_table;

use crate::pulled::Pulled;
use crate::rust::{Inside, Rust, Ways};

/// What a run had in it, so that one that tests nothing is seen.
#[derive(Default, Clone)]
pub struct Tally {
    pub scripts: u64,
    pub calls: u64,
    pub compared: u64,
    pub written: u64,
    pub rows: u64,
    pub matched: u64,
    /// Cells that came with matches, distances among them: with a value, and null.
    pub carried: [u64; 2],
    pub wants: u64,
    pub idle: u64,
    pub faults: [u64; 4],
    pub in_flush: u64,
    pub states: [u64; 3],
    /// Scripts whose answers tell the distance.
    pub distances: u64,
    /// Scripts that give a list of codes, and calls that are refused by 12.
    pub lists: u64,
    pub unlisted: u64,
    pub runs: Runs,
    /// What the whole-table judge was asked about.
    pub judged: whole_table::Counts,
}

/// The runs among the calls.
#[derive(Default, Clone)]
pub struct Runs {
    pub made: u64,
    pub turns: u64,
    /// Runs of more than one turn.
    pub several: u64,
    pub rows: u64,
    pub matched: u64,
    /// Cells that came with matches: with a value, and null.
    pub carried: [u64; 2],
    /// How often each stopped a run: k used, wants, idle, the refusals 1 to 9 in the places 3 to 11, and 12 in the last.
    pub stops: [u64; 13],
    /// The same of runs in which a turn had written before.
    pub after: [u64; 13],
}

impl Runs {
    /// Adds another run's counts.
    fn add(&mut self, other: &Runs) {
        self.made += other.made;
        self.turns += other.turns;
        self.several += other.several;
        self.rows += other.rows;
        self.matched += other.matched;
        (0..2).for_each(|i| self.carried[i] += other.carried[i]);
        (0..13).for_each(|i| self.stops[i] += other.stops[i]);
        (0..13).for_each(|i| self.after[i] += other.after[i]);
    }

    /// Counts one run, with the rows that its turns wrote.
    fn count(&mut self, ran: &Ran) {
        let stop = match ran.stop {
            Stop::Used => 0,
            Stop::Wants => 1,
            Stop::Idle => 2,
            Stop::Refused(12) => 12,
            Stop::Refused(n) => 2 + (n as usize).clamp(1, 9),
        };
        self.made += 1;
        self.turns += ran.turns;
        self.several += (ran.turns > 1) as u64;
        self.stops[stop] += 1;
        self.after[stop] += (ran.turns > 0) as u64;
        for words in script::answers(&ran.words) {
            let [matched, values, nulls] = script::written(words);
            self.rows += words[0] as u64;
            self.matched += matched;
            self.carried = [self.carried[0] + values, self.carried[1] + nulls];
        }
    }
}

impl fmt::Display for Runs {
    /// The counts on one line.
    fn fmt(&self, f: &mut fmt::Formatter<'_>) -> fmt::Result {
        let Runs { made, turns, several, rows, matched, carried: [values, nulls], stops, after } = self;
        write!(f, "{made} runs of {turns} turns, {several} of more than one, wrote {rows} rows, {matched} matched, ")?;
        write!(f, "{values} carried values, {nulls} nulls; ")?;
        let by = |f: &mut fmt::Formatter<'_>, [k, wants, idle, refused @ .., twelve]: [u64; 13]| {
            write!(f, "by k {k}, wants {wants}, idle {idle}, refused by 1 to 9 {refused:?}, by 12 {twelve}")
        };
        write!(f, "stopped ")?;
        by(f, *stops)?;
        write!(f, "; after a turn ")?;
        by(f, *after)
    }
}

impl Tally {
    /// Adds another run's counts.
    pub fn add(&mut self, other: &Tally) {
        self.scripts += other.scripts;
        self.calls += other.calls;
        self.compared += other.compared;
        self.written += other.written;
        self.rows += other.rows;
        self.matched += other.matched;
        (0..2).for_each(|i| self.carried[i] += other.carried[i]);
        self.wants += other.wants;
        self.idle += other.idle;
        self.in_flush += other.in_flush;
        self.distances += other.distances;
        self.lists += other.lists;
        self.unlisted += other.unlisted;
        self.runs.add(&other.runs);
        self.judged.add(&other.judged);
        (0..4).for_each(|i| self.faults[i] += other.faults[i]);
        (0..3).for_each(|i| self.states[i] += other.states[i]);
    }

    /// Counts one answer, given in this node state.
    pub fn count(&mut self, answer: &Answer, state: u8) {
        match answer {
            Answer::Wrote(_, words) => {
                let [matched, values, nulls] = script::written(words);
                self.written += 1;
                self.rows += words[0] as u64;
                self.matched += matched;
                self.carried = [self.carried[0] + values, self.carried[1] + nulls];
                self.in_flush += (state == 1) as u64;
            },
            Answer::Ran(ran) => self.runs.count(ran),
            Answer::Wants => self.wants += 1,
            Answer::Idle => self.idle += 1,
            Answer::Ports(_, state) => self.states[*state as usize] += 1,
            _ => {},
        }
    }

    /// Counts a script, and whether it gives a list or its answers tell the distance.
    pub fn script(&mut self, calls: &[Call]) {
        let options = script::opening(calls).map(|(open, _)| open.options);
        self.scripts += 1;
        self.lists += options.as_ref().is_some_and(|o| o.ranks.given) as u64;
        self.distances += options.is_some_and(|o| o.distance == 1) as u64;
    }

    /// Counts an order fault by the place where the rules saw it.
    pub fn fault(&mut self, fault: Fault) {
        self.faults[fault as usize] += 1;
    }
}

impl fmt::Display for Tally {
    /// The counts on one line.
    fn fmt(&self, f: &mut fmt::Formatter<'_>) -> fmt::Result {
        let [continuity, frame, held, split] = self.faults;
        let [running, flush, done] = self.states;
        write!(f, "{} scripts, {} calls, {} compared; ", self.scripts, self.calls, self.compared)?;
        write!(f, "{} turns wrote {} rows, {} matched, ", self.written, self.rows, self.matched)?;
        write!(f, "{} carried values, {} nulls, ", self.carried[0], self.carried[1])?;
        write!(f, "{} of the turns in Flush; ", self.in_flush)?;
        write!(f, "{} wants, {} idle; ", self.wants, self.idle)?;
        write!(f, "faults 8: {continuity} between frames, {frame} in a frame, 9: {held} held, {split} split; ")?;
        write!(f, "ports: {running} Running, {flush} Flush, {done} Done")?;
        if self.lists > 0 {
            write!(f, "; {} scripts with a list, {} calls refused by 12", self.lists, self.unlisted)?;
        }
        let whole_table::Counts { scripts, sorted, rows, whole, .. } = self.judged;
        if scripts > 0 {
            write!(f, "; by the whole table {scripts} scripts, {sorted} sorted, {whole} of {rows} rows")?;
        }
        if self.distances > 0 {
            let [written, above, most, next] = self.judged.distances;
            write!(
                f,
                "; {} scripts with the distance, {written} distances, {most} of them 2^63 − 1, ",
                self.distances
            )?;
            write!(f, "{above} above, {next} of them 2^63")?;
        }
        if self.runs.made == 0 { Ok(()) } else { write!(f, "; {}", self.runs) }
    }
}

/// How the Rust and a judge differ.
#[derive(Clone, PartialEq, Debug)]
pub enum Difference {
    /// Another answer than the rules give, or a panic.
    Answer(String),
    /// The same answers, but other rows held or remembered.
    Inside(String),
}

/// Whether SCOPE refuses the call by 1 to 7 or 10 to 12, a run in its first turn: the Rust has no counterpart.
pub fn no_counterpart(answer: &Answer) -> bool {
    matches!(answer, Answer::Refused(1..=7 | 10..=12) | Answer::NoJoin)
        || matches!(answer, Answer::State(_) | Answer::Areas(..) | Answer::Words(_))
        || matches!(answer, Answer::Ran(Ran { turns: 0, stop: Stop::Refused(1..=7 | 12), .. }))
}

/// Whether the Rust went another way than SCOPE from here on: it knows no areas and no outputs, so it took what SCOPE refused.
/// A move changes nothing for it, refused or not.
pub fn parted(call: &Call, answer: &Answer) -> bool {
    !matches!(call, Call::Move(..))
        && matches!(answer, Answer::Refused(2 | 6 | 7) | Answer::Ran(Ran { stop: Stop::Refused(2 | 6 | 7), .. }))
}

/// Whether the Rust's answer is this one, of which it is asked what it can know (`Rust::shared`). Where SCOPE refuses a later turn of a run by 1 to 7 the Rust may go on: its first
/// turns must have written the same.
pub fn agrees(rust: &Answer, said: &Answer) -> bool {
    match (rust, said) {
        (Answer::Ran(all), Answer::Ran(part)) if matches!(part.stop, Stop::Refused(1..=7)) => {
            all.turns >= part.turns && all.words.starts_with(&part.words)
        },
        _ => rust == said,
    }
}

/// What the rules hold and remember, as the Rust tells it: rows that wait in the right pipe are held.
fn rules_inside(pulled: &Pulled) -> Option<Inside> {
    let look = pulled.rules.look().filter(|l| !l.failed)?;
    let held = look.held + pulled.rows();
    Some(Inside { held, pruned: look.pruned, left: look.left.clone(), right: look.right.clone() })
}

/// What the Rust holds and remembers, while it has not failed.
fn rust_inside(rust: &Rust) -> Option<Inside> {
    rust.join.as_ref().filter(|j| !j.failed()).map(|j| j.inside())
}

/// Runs a script through both, and what they answered by the whole-table judge. An answer that differs comes before a
/// difference inside, even a later one.
fn run_both(calls: &[Call], ways: Ways, tally: &mut Tally) -> Result<(), Difference> {
    let (mut rust, mut pulled) = (Rust::fed(ways), Pulled::new(ways));
    let (mut inside, mut answers) = (Ok(()), vec![]);
    for (i, call) in calls.iter().enumerate() {
        let state = pulled.rules.look().map_or(0, |l| l.state);
        let (said, ruled) = (rust.call(call), pulled.call(call));
        tally.calls += 1;
        tally.unlisted += (ruled == Answer::Refused(12)) as u64;
        let known = !no_counterpart(&ruled);
        if known && !agrees(&said, &rust.shared(&ruled)) {
            return Err(Difference::Answer(format!(
                "call {}, {call}: the Rust says {said}, SCOPE says {ruled}",
                i + 1
            )));
        } else if known {
            tally.compared += 1;
            tally.count(&ruled, state);
        }
        answers.push(ruled);
        if answers.last().is_some_and(|answer| parted(call, answer)) {
            break;
        }
        let (is, should) = (rust_inside(&rust), rules_inside(&pulled));
        if known && inside.is_ok() && is != should {
            let text = format!("call {}, {call}: the Rust has {is:?}, SCOPE has {should:?}", i + 1);
            inside = Err(Difference::Inside(text));
        }
    }
    tally.script(calls);
    pulled.rules.fault().into_iter().for_each(|f| tally.fault(f));
    if !ways.right_pipe && !ways.writes {
        let judged = whole_table::judge(calls, &answers);
        tally.judged.add(&judged.map_err(|why| Difference::Answer(format!("whole table: {why}")))?);
    }
    inside
}

/// Text of a panic, which is a difference like any other: SCOPE knows no panic.
pub fn panic_text(panic: Box<dyn std::any::Any + Send>) -> String {
    let text = panic.downcast_ref::<String>().cloned();
    text.or_else(|| panic.downcast_ref::<&str>().map(|s| s.to_string())).unwrap_or_default()
}

/// Compares the Rust with the rules on one script.
pub fn with_rules(calls: &[Call], ways: Ways, tally: &mut Tally) -> Result<(), Difference> {
    let run = catch_unwind(AssertUnwindSafe(|| run_both(calls, ways, tally)));
    run.unwrap_or_else(|p| Err(Difference::Answer(format!("panic: {}", panic_text(p)))))
}

/// All answers of a judge to a script.
pub fn answers(judge: &mut impl Judge, calls: &[Call]) -> Vec<Answer> {
    calls.iter().map(|c| judge.call(c)).collect()
}

/// Compares the Rust with the whole-table rule on one script of sorted sides. The Rust writes no distance, and is asked for none.
pub fn with_whole_table(calls: &[Call], ways: Ways, counts: &mut whole_table::Counts) -> Result<(), String> {
    let run = catch_unwind(AssertUnwindSafe(|| {
        let said = answers(&mut Rust::fed(ways), calls);
        whole_table::judge_whole(&script::without_distances(calls), &said)
    }));
    counts.add(&run.unwrap_or_else(|p| Err(format!("panic: {}", panic_text(p))))?);
    Ok(())
}
