//! SCOPE 19.8 to 19.36, books of notices, answer readers, plans, places of cuts, joins of cut tables and takings: the plain readings
//! by cases that were read by hand. The Rust has no counterpart.
use judges::rules::Rules;
use judges::script::{Answer, Call, Judge};

use crate::rust::Rust;
use crate::selftest::by_hand;

/// Cases of books.
pub fn cases() -> Result<String, String> {
    judged(include_str!("../books.txt"))
}

/// Cases of answer readers.
pub fn readers() -> Result<String, String> {
    judged(include_str!("../readers.txt"))
}

/// Cases of plans.
pub fn plans() -> Result<String, String> {
    judged(include_str!("../plans.txt"))
}

/// Cases of places of cuts.
pub fn places() -> Result<String, String> {
    judged(include_str!("../places.txt"))
}

/// Cases of two tables cut and joined.
pub fn cuts() -> Result<String, String> {
    judged(include_str!("../cuts.txt"))
}

/// Cases of takings.
pub fn takings() -> Result<String, String> {
    judged(include_str!("../takings.txt"))
}

/// Calls with the answers that were read by hand, by the plain readings; the Rust says nothing to those over tables.
fn judged(text: &str) -> Result<String, String> {
    let calls = by_hand(text)?;
    let is_options = |call: &Call| matches!(call, Call::Options(_));
    let (mut rules, mut rust) = (Rules::default(), Rust::default());
    for (call, want) in &calls {
        let (ruled, by_rust) = (rules.call(call), rust.call(call));
        let silent = match by_rust {
            Answer::Ok => is_options(call),
            _ => matches!(by_rust, Answer::Nothing | Answer::NoOptions),
        };
        if ruled.to_string() != *want || !silent {
            return Err(format!("{call}: wanted {want}, the plain reading says {ruled}, the Rust says {by_rust}"));
        }
    }
    Ok(format!("{} calls", calls.iter().filter(|(call, _)| !is_options(call)).count()))
}
