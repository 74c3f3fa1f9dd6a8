//! SCOPE 19, points in intervals: random inputs through the port, the plain reading and the Rust, and making one that differs
//! small.
use std::time::Duration;

use judges::generate_spans::{all_short, input};
use judges::script::{Call, Judge, Spans};
use judges::spans;
use oracle::range::Ways;
use oracle::spans::{Tally, short, with_rust};
use port::Port;

use crate::cases::{self, compare, numbered};
use crate::less::{parts, smallest, without_rows};

/// How long a differing input is made smaller.
const SPENT: Duration = Duration::from_secs(5);

/// Runs an input through all; the first difference, if any.
fn run(call: &Spans, tally: &mut Tally) -> Result<(), String> {
    let mut port = Port::default();
    let (said, ruled) = (port.call(&Call::Spans(call.clone())), spans::answer(call));
    if said != ruled {
        return Err(format!("the port says {}, SCOPE 19 says {}", short(&said), short(&ruled)));
    } else if let Some(wrong) = port.wrong() {
        return Err(wrong.to_string());
    }
    let by_rust = with_rust(call, &said, Ways::default())?;
    tally.count(call, &said, by_rust);
    Ok(())
}

/// How many rows a table has, if it is one that rows can be taken from.
fn rows(words: &[i64], columns: usize) -> usize {
    let [n, c, cells @ ..] = words else { return 0 };
    let whole = *n > 0 && *c == columns as i64 && cells.len() as i64 == n.saturating_mul(2 * c);
    if whole { *n as usize } else { 0 }
}

/// How many words the output is longer than its table, or shorter; none where there is no table.
fn spare(call: &Spans) -> Option<i64> {
    spans::table(call).ok().map(|words| call.output as i64 - words.len() as i64)
}

/// The input with an output that is longer than its table by so many words.
fn with_spare(call: Spans, spare: Option<i64>) -> Spans {
    let (Some(spare), Ok(words)) = (spare, spans::table(&call)) else { return call };
    Spans { output: (words.len() as i64 + spare).max(0) as usize, ..call }
}

/// All inputs that are this one less some rows of a side, the output as much shorter as the table.
fn smaller(call: &Spans) -> impl Iterator<Item = Spans> {
    let points = parts(rows(&call.points, 1));
    let points = points.map(|(from, n)| Spans { points: without_rows(&call.points, from, n), ..call.clone() });
    let intervals = parts(rows(&call.intervals, 2));
    let less = |(from, n)| Spans { intervals: without_rows(&call.intervals, from, n), ..call.clone() };
    let spare = spare(call);
    points.chain(intervals.map(less)).map(move |less| with_spare(less, spare))
}

impl cases::Tally for Tally {
    fn missing(&self) -> Option<String> {
        self.missing()
    }

    fn line(&self) -> String {
        self.to_string()
    }
}

/// Runs all short inputs and COUNT random ones; whether there was no difference and everything was met.
pub fn compare_all(seed: u64, count: u64) -> bool {
    let random = numbered(seed, count).map(|(name, number)| (name, input(seed, number)));
    let inputs = all_short().map(|call| ("short input".to_string(), call)).chain(random);
    compare("spans", Tally::default(), inputs, |call, tally| {
        run(&call, tally).map_err(|_| {
            let differs = |call: &Spans| run(call, &mut Tally::default()).err();
            let (call, why) = smallest(call.clone(), SPENT, |call| Box::new(smaller(call)), differs);
            format!("{why}\n    {call}")
        })
    })
}
