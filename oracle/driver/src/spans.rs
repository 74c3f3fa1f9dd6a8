//! SCOPE 19, points in intervals: the Rust beside the plain reading.
use std::fmt;
use std::panic::{AssertUnwindSafe, catch_unwind};

use judges::generate_spans::{all_short, input};
use judges::rules::Rules;
use judges::script::{Answer, Call, Judge, Spans, parse_script};
use judges::spans::{self, REFUSALS};

use crate::compare::panic_text;
use crate::range::{self, Ways};
use crate::rust::Rust;
use crate::selftest::by_hand;

/// What a run had in it, so that one that tests nothing is seen.
#[derive(Default, Clone)]
pub struct Tally {
    pub inputs: u64,
    pub accepted: u64,
    pub pairs: u64,
    /// Accepted inputs with more pairs than fit one frame of the Rust's.
    pub long: u64,
    /// Accepted inputs of which a row was dropped for a null bound.
    pub dropped: u64,
    /// Inputs that the Rust answered too.
    pub by_rust: u64,
    /// How often each of the refusals came, in the order of `REFUSALS`.
    pub refused: [u64; 4],
}

impl Tally {
    /// Counts one input and its answer.
    pub fn count(&mut self, call: &Spans, answer: &Answer, by_rust: bool) {
        self.inputs += 1;
        self.by_rust += by_rust as u64;
        match answer {
            Answer::Table(words) => {
                let marks = &call.intervals[2 + (call.intervals.len() - 2) / 2..];
                self.accepted += 1;
                self.pairs += words[0] as u64;
                self.long += (words[0] > 4096) as u64;
                self.dropped += marks.contains(&0) as u64;
            },
            Answer::Refused(number) => {
                let at = REFUSALS.iter().position(|n| n == number);
                at.into_iter().for_each(|at| self.refused[at] += 1);
            },
            _ => {},
        }
    }

    /// What a run never met, though it is made to.
    pub fn missing(&self) -> Option<String> {
        let met = [("pairs", self.pairs), ("pairs beyond one frame", self.long), ("null bounds", self.dropped)];
        let none = met.iter().find(|(_, n)| *n == 0).map(|(what, _)| what.to_string());
        let refused = REFUSALS.iter().zip(self.refused).find(|(_, n)| *n == 0);
        none.or(refused.map(|(number, _)| format!("refusals by {number}")))
    }
}

impl fmt::Display for Tally {
    /// The counts on one line.
    fn fmt(&self, f: &mut fmt::Formatter<'_>) -> fmt::Result {
        let Tally { inputs, accepted, pairs, long, dropped, by_rust, refused } = self;
        write!(f, "{inputs} inputs, {accepted} accepted with {pairs} pairs ({long} with more than 4096, ")?;
        write!(f, "{dropped} with null bounds), {by_rust} by the Rust too; ")?;
        write!(f, "refused by 1 {}, 5 {}, 16 {}, 6 {}", refused[0], refused[1], refused[2], refused[3])
    }
}

/// Whether the Rust says what is due beside an answer: the same table; where the output is too short, a table that is longer
/// than it; nothing where it has no counterpart.
fn agrees(call: &Spans, rust: &Answer, said: &Answer) -> bool {
    match (said, rust) {
        (Answer::Refused(6), Answer::Table(words)) => words.len() > call.output,
        (Answer::Refused(1 | 5 | 16), rust) => *rust == Answer::Nothing,
        (said, rust) => rust == said,
    }
}

/// Beginning of an answer, for a line that can be read.
pub fn short(answer: &Answer) -> String {
    let text = answer.to_string();
    text.char_indices().nth(200).map_or(text.clone(), |(at, _)| format!("{}…", &text[..at]))
}

/// Asks the Rust for an answer beside one that was said; whether it has one, or how the two differ. A panic is a difference
/// like any other.
pub fn with_rust(call: &Spans, said: &Answer, ways: Ways) -> Result<bool, String> {
    let rust = catch_unwind(AssertUnwindSafe(|| range::answer(call, ways)))
        .map_err(|p| format!("the Rust panics: {}", panic_text(p)))?;
    if agrees(call, &rust, said) {
        return Ok(rust != Answer::Nothing);
    }
    Err(format!("the Rust says {}, SCOPE 19 says {}", short(&rust), short(said)))
}

/// Compares the Rust with the plain reading on one input.
pub fn with_rules(call: &Spans, ways: Ways, tally: &mut Tally) -> Result<(), String> {
    let said = spans::answer(call);
    let by_rust = with_rust(call, &said, ways)?;
    tally.count(call, &said, by_rust);
    Ok(())
}

/// Calls with the answers that were read from SCOPE 19 by hand, by the plain reading, and by the Rust.
pub fn cases() -> Result<String, String> {
    let (calls, mut asked) = (by_hand(include_str!("../spans.txt"))?, 0);
    for (call, want) in &calls {
        let (ruled, rust) = (Rules::default().call(call), Rust::default().call(call));
        let Call::Spans(spans) = call else { return Err(format!("{call}: not of SCOPE 19")) };
        if ruled.to_string() != *want || !agrees(spans, &rust, &ruled) {
            return Err(format!("{call}: wanted {want}, the Rust says {rust}, the plain reading says {ruled}"));
        }
        asked += (rust != Answer::Nothing) as usize;
    }
    Ok(format!("{} calls, {asked} of them answered by the Rust", calls.len()))
}

/// A frame of so many rows: values 0, 1, 2 and on, or for intervals each of them as both bounds.
fn ladder(rows: i64, columns: i64) -> Vec<i64> {
    let values = (0..rows).flat_map(|v| std::iter::repeat_n(v, columns as usize));
    let marks = std::iter::repeat_n(1, (rows * columns) as usize);
    [rows, columns].into_iter().chain(values).chain(marks).collect()
}

/// SCOPE 19: each side has at most 4,096 rows.
pub fn longest() -> Result<String, String> {
    let call = |points: i64, intervals: i64| Spans {
        lower: 1,
        upper: 1,
        output: 2 + 4 * 4096,
        points: ladder(points, 1),
        intervals: ladder(intervals, 2),
    };
    let mut tally = Tally::default();
    for (points, intervals, refused) in [(4096, 4096, false), (4097, 4096, true), (4096, 4097, true)] {
        let said = spans::answer(&call(points, intervals));
        if (said == Answer::Refused(5)) != refused {
            return Err(format!("{points} points, {intervals} intervals: {}", short(&said)));
        }
        with_rules(&call(points, intervals), Ways::default(), &mut tally)?;
    }
    if tally.pairs != 4096 {
        return Err(format!("4,096 points and 4,096 intervals of one value each: {} pairs", tally.pairs));
    }
    Ok("4,096 rows a side meet, 4,097 are refused".into())
}

/// What docs/DIFFERENCES.md says of points that SCOPE 19 refuses by 16: the Rust drops those that are null, and asserts
/// that the others are in order.
pub fn findings() -> Result<String, String> {
    let told = |text: &str| {
        let calls = parse_script(text).unwrap();
        let [Call::Spans(call)] = calls.as_slice() else { unreachable!() };
        assert_eq!(spans::answer(call), Answer::Refused(16));
        catch_unwind(|| range::table(call, Ways::default())).map_err(panic_text)
    };
    let nulls = told("spans 1 1 6 | 2 1 0 5 0 1 | 1 2 1 9 1 1");
    if nulls != Ok(Some(vec![1, 2, 0, 1, 1, 1])) {
        return Err(format!("points null, 5: {nulls:?}"));
    }
    let hook = std::panic::take_hook();
    std::panic::set_hook(Box::new(|_| {}));
    let unsorted = told("spans 1 1 6 | 2 1 5 1 1 1 | 1 2 1 9 1 1");
    std::panic::set_hook(hook);
    match unsorted {
        Err(text) if text.contains("not sorted correctly") => Ok("null points are dropped, order is asserted".into()),
        other => Err(format!("points 5, 1: {other:?}")),
    }
}

/// A failed input with what went wrong, for the reader to run again.
fn failure(seed: u64, number: u64, call: &Spans, why: &str) -> String {
    format!("points in intervals, seed {seed}, input {number}: {why}\n{call}")
}

/// Random inputs: the Rust and the plain reading; what they had in them.
pub fn random(seed: u64, count: u64) -> Result<String, String> {
    let mut tally = Tally::default();
    for i in 0..count {
        let call = input(seed, i);
        with_rules(&call, Ways::default(), &mut tally).map_err(|why| failure(seed, i, &call, &why))?;
    }
    tally.missing().map_or(Ok(tally.to_string()), |what| Err(format!("nothing was tested: no {what} in {tally}")))
}

/// All short inputs: the Rust and the plain reading.
pub fn short_inputs() -> Result<String, String> {
    let mut tally = Tally::default();
    for call in all_short() {
        with_rules(&call, Ways::default(), &mut tally).map_err(|why| format!("short input: {why}\n{call}"))?;
    }
    Ok(tally.to_string())
}

/// The same answers however the node is fed and its tasks are scheduled: points on either side, points and intervals in
/// frames of any length, several tasks, random order, keys that are taken out or stay.
pub fn ways(seed: u64, count: u64) -> Result<String, String> {
    let mut tally = Tally::default();
    for i in 0..count {
        let bit = |n: u64| (i >> n) % 2 == 1;
        let rows = [1, 2, 3, 4096][(i % 4) as usize];
        let ways = Ways { pipelines: 1 + (i % 3) as usize, points_left: bit(2), rows, temporary: bit(3) };
        polars_async::executor::shuffle(if bit(4) { seed + i } else { 0 });
        let call = input(seed, i);
        let compared = with_rules(&call, ways, &mut tally);
        polars_async::executor::shuffle(0);
        compared.map_err(|why| failure(seed, i, &call, &format!("{ways:?}: {why}")))?;
    }
    Ok(format!("{tally}"))
}

/// The first random input, counted from 1, at which the Rust and the plain reading differ.
pub fn notice(seed: u64, count: u64) -> Option<u64> {
    let differs = |i: &u64| with_rules(&input(seed, *i), Ways::default(), &mut Tally::default()).is_err();
    (0..count).find(differs).map(|i| i + 1)
}
