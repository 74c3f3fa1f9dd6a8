//! A run of random inputs and what it had in it: the same for all kinds of inputs but scripts.
use std::panic::{AssertUnwindSafe, catch_unwind};
use std::time::Instant;

use judges::script::{Answer, Call, Judge, Options};
use port::Port;

use crate::TOLD;

/// Cases that a run must have met and refusals that it must have had, each with how often it did, so that a run that tests nothing is
/// seen.
pub struct Cases {
    pub inputs: u64,
    met: Vec<(&'static str, u64)>,
    refused: Vec<(String, u64)>,
}

impl Cases {
    /// None met yet of these cases and refusals.
    pub fn new(cases: &[&'static str], refusals: impl Iterator<Item = String>) -> Cases {
        let met = cases.iter().map(|what| (*what, 0)).collect();
        Cases { inputs: 0, met, refused: refusals.map(|what| (what, 0)).collect() }
    }

    /// None met yet of these cases and of refusals for these reasons.
    pub fn with_reasons<R>(cases: &[&'static str], reasons: &[(R, u8, &str)]) -> Cases {
        Cases::new(cases, reasons.iter().map(|(_, number, what)| format!("{number} ({what})")))
    }

    /// None met yet of these cases and of refusals by these numbers.
    pub fn with_numbers(cases: &[&'static str], numbers: &[u8]) -> Cases {
        Cases::new(cases, numbers.iter().map(u8::to_string))
    }

    /// Counts these cases, from one on.
    pub fn meet(&mut self, from: usize, is: &[bool]) {
        is.iter().enumerate().for_each(|(i, is)| self.met[from + i].1 += *is as u64);
    }

    /// Counts a refusal by its place.
    pub fn refuse(&mut self, at: usize) {
        self.refused[at].1 += 1;
    }

    /// Counts a refusal by its number, which is among these.
    pub fn refuse_by(&mut self, numbers: &[u8], number: u8) {
        numbers.iter().position(|each| *each == number).into_iter().for_each(|at| self.refuse(at));
    }

    /// What the run never met, though it is made to.
    pub fn missing(&self) -> Option<String> {
        let none = self.met.iter().find(|(_, n)| *n == 0).map(|(what, _)| what.to_string());
        none.or(self.refused.iter().find(|(_, n)| *n == 0).map(|(what, _)| format!("refusals by {what}")))
    }

    /// The counts on one line, with something beside the cases.
    pub fn line(&self, beside: &str) -> String {
        let met: Vec<String> = self.met.iter().map(|(what, n)| format!("{n} {what}")).collect();
        let refused: Vec<String> = self.refused.iter().map(|(what, n)| format!("{what} {n}")).collect();
        format!("{} inputs, {}{beside}; refused by {}", self.inputs, met.join(", "), refused.join(", "))
    }
}

/// What a run had in it.
pub trait Tally {
    /// What the run never met, though it is made to.
    fn missing(&self) -> Option<String>;

    /// The counts on one line.
    fn line(&self) -> String;
}

impl Tally for Cases {
    fn missing(&self) -> Option<String> {
        self.missing()
    }

    fn line(&self) -> String {
        self.line("")
    }
}

/// A seed's inputs by their numbers, each with its name.
pub fn numbered(seed: u64, count: u64) -> impl Iterator<Item = (String, u64)> {
    (0..count).map(move |number| (format!("seed {seed}, input {number}"), number))
}

/// Runs inputs, each with its name, until there are no more or enough have differed; `one` tells how an input differs, with the lines that
/// show it. Whether there was no difference and everything was met.
pub fn compare<T: Tally, I>(
    what: &str,
    mut tally: T,
    inputs: impl Iterator<Item = (String, I)>,
    one: impl Fn(I, &mut T) -> Result<(), String>,
) -> bool {
    let (start, mut told) = (Instant::now(), 0);
    for (name, input) in inputs {
        if let Err(why) = one(input, &mut tally) {
            println!("DIFFERENCE {what}, {name}: {why}");
            told += 1;
        }
        if told == TOLD {
            println!("{TOLD} differences: no more are looked for");
            break;
        }
    }
    let missing = tally.missing().filter(|_| told == 0);
    missing.iter().for_each(|what| println!("FAIL {what}: none in the whole run"));
    let time = start.elapsed().as_secs_f64();
    println!("compared {what} with the port: {}; {told} differences ({time:.1} s)", tally.line());
    told == 0 && missing.is_none()
}

/// What is told, where a panic is a difference like any other.
pub fn caught(tell: impl FnOnce() -> Result<(), String>) -> Result<(), String> {
    let said = catch_unwind(AssertUnwindSafe(tell));
    said.unwrap_or_else(|_| Err("a call was answered otherwise than it is due, or a judge panicked".to_string()))
}

/// A difference with the lines that show it: the options and the call.
pub fn shown(why: String, o: &Options, call: &impl std::fmt::Display) -> String {
    format!("{why}\n    {}\n    {call}", Call::Options(o.clone()))
}

/// The port's answer to a call, under these options if it has some, which must alter nothing but what it writes.
pub fn asked<'a>(port: &mut Port, o: impl Into<Option<&'a Options>>, call: &Call) -> Result<Answer, String> {
    o.into().into_iter().for_each(|o| drop(port.call(&Call::Options(o.clone()))));
    let said = port.call(call);
    port.wrong().map_or(Ok(said), |wrong| Err(wrong.to_string()))
}

/// The same, which must be the answer that is due.
pub fn same<'a>(port: &mut Port, o: impl Into<Option<&'a Options>>, call: &Call, due: &Answer) -> Result<(), String> {
    let said = asked(port, o, call)?;
    if said == *due { Ok(()) } else { Err(format!("the port says {said}, the plain reading says {due}")) }
}
