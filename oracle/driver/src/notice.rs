//! Is it awake? Which judge sees that the Rust was edited, and after how many scripts.
use std::panic::catch_unwind;
use std::path::Path;

use judges::exhaustive;
use judges::generate::{COMPARED, Kind, RECORDED, script, script_with_lacked};
use judges::rules::Rules;
use judges::script::Call;
use judges::whole_table::{self, Counts};

use crate::compare::{self, Difference, Tally};
use crate::rust::{Rust, Ways};
use crate::selftest::{LISTED, Make, PLAIN};
use crate::{ranks, sample, spans};

/// The script, counted from 1, at which each judge saw a difference.
#[derive(Default)]
struct Noticed {
    whole: Option<u64>,
    answers: Option<u64>,
    inside: Option<u64>,
}

impl Noticed {
    /// Shows one script to the step rules; whether more scripts are wanted.
    fn steps(&mut self, number: u64, calls: &[Call], ways: Ways) -> bool {
        match compare::with_rules(calls, ways, &mut Tally::default()) {
            Err(Difference::Answer(_)) => self.answers = self.answers.or(Some(number)),
            Err(Difference::Inside(_)) => self.inside = self.inside.or(Some(number)),
            Ok(()) => {},
        }
        self.answers.is_none()
    }
}

/// The first random script of sorted sides that the whole-table rule does not agree with.
fn by_whole_table(make: Make, seed: u64, count: u64) -> Option<u64> {
    let judge =
        |i: &u64| compare::with_whole_table(&make(Kind::Whole, seed, *i), Ways::default(), &mut Counts::default());
    (0..count).find(|i| judge(i).is_err()).map(|i| i + 1)
}

/// The first recorded script that is not answered as recorded.
fn by_sample(folder: &Path) -> Result<Option<u64>, String> {
    let answered = |calls: &Vec<Call>| -> Vec<String> {
        compare::answers(&mut Rust::default(), calls).iter().map(|a| a.to_string()).collect()
    };
    let recorded = sample::recorded(folder)?;
    let other = |(calls, said): &sample::Recorded| catch_unwind(|| answered(calls)).ok().as_ref() != Some(said);
    Ok(recorded.iter().position(other).map(|i| i as u64 + 1))
}

/// Runs all judges over so many scripts a kind, all kinds in turn, then over every third of all short scripts, and the
/// recorded sample, and prints where each noticed something: `whole N answers N inside N sample N`, `-` for nothing.
pub fn print(seed: u64, count: u64, folder: &Path) -> Result<(), String> {
    std::panic::set_hook(Box::new(|_| {}));
    let mut noticed = Noticed { whole: by_whole_table(script, seed, count), ..Noticed::default() };
    let mut number = 0;
    let random = (0..count).flat_map(|i| RECORDED.map(|kind| (kind, i)));
    let mut open = random.into_iter().all(|(kind, i)| {
        number += 1;
        noticed.steps(number, &script(kind, seed, i), Ways::default())
    });
    if open {
        let mut short = 0;
        open = exhaustive::all(&mut |calls| {
            short += 1;
            number += (short % 3 == 0) as u64;
            short % 3 != 0 || noticed.steps(number, calls, Ways::default())
        });
    }
    let rest = if open { format!(" of {number}") } else { String::new() };
    let [whole, answers, inside] = [noticed.whole, noticed.answers, noticed.inside].map(text);
    println!("whole {whole} answers {answers} inside {inside}{rest} sample {}", text(by_sample(folder)?));
    Ok(())
}

/// The number of a script, `-` for none.
fn text(number: Option<u64>) -> String {
    number.map_or("-".to_string(), |n| n.to_string())
}

/// The first script, all kinds in turn, whose answers by the rules are not right by the whole-table judge.
fn rules_by_whole_table(make: Make, seed: u64, count: u64) -> Option<u64> {
    let kinds = COMPARED.into_iter().chain([Kind::Refusals, Kind::Strict]).collect::<Vec<_>>();
    let wrong = |(kind, i): (Kind, u64)| {
        let calls = make(kind, seed, i);
        let judged = catch_unwind(|| whole_table::judge(&calls, &compare::answers(&mut Rules::default(), &calls)));
        !judged.is_ok_and(|said| said.is_ok())
    };
    let mut scripts = (0..count).flat_map(|i| kinds.iter().map(move |kind| (*kind, i)));
    scripts.position(wrong).map(|i| i as u64 + 1)
}

/// What the step rules notice of the Rust over so many scripts a kind, all kinds in turn.
fn by_rules(make: Make, seed: u64, count: u64, ways: Ways) -> Noticed {
    let mut noticed = Noticed::default();
    let mut scripts = (1..).zip((0..count).flat_map(|i| COMPARED.map(|kind| (kind, i))));
    scripts.all(|(number, (kind, i))| noticed.steps(number, &make(kind, seed, i), ways));
    noticed
}

/// Prints where something is noticed in scripts with lists: in the worked cases, by the two judges, of the Rust by the
/// whole table and by the step rules, and with values that the list lacks; and whether anything is noticed in a tenth as
/// many scripts without.
pub fn print_lists(seed: u64, count: u64) {
    std::panic::set_hook(Box::new(|_| {}));
    let cases = if catch_unwind(ranks::cases).is_ok_and(|said| said.is_ok()) { "-" } else { "yes" };
    let judges = rules_by_whole_table(LISTED.turns, seed, count);
    let whole = by_whole_table(ranks::TAKEN.turns, seed, count);
    let steps = by_rules(LISTED.turns, seed, count, Ways::default());
    let lacked = by_rules(script_with_lacked, seed, count, Ways { writes: true, ..Ways::default() });
    let few = count / 10;
    let alone = by_rules(PLAIN.turns, seed, few, Ways::default());
    let without = [rules_by_whole_table(PLAIN.turns, seed, few), by_whole_table(PLAIN.turns, seed, few), alone.answers];
    let without = without.into_iter().flatten().next().or(alone.inside);
    let lacked = lacked.answers.or(lacked.inside);
    let seen = [judges, whole, steps.answers, steps.inside, lacked, without].map(text);
    let [judges, whole, answers, inside, lacked, without] = seen;
    println!(
        "cases {cases} judges {judges} whole {whole} answers {answers} inside {inside} lacked {lacked} without {without}"
    );
}

/// Prints where the plain reading of SCOPE 19 noticed something: at which of its own cases or random inputs.
pub fn print_spans(seed: u64, count: u64) {
    std::panic::set_hook(Box::new(|_| {}));
    let cases = if catch_unwind(spans::cases).is_ok_and(|said| said.is_ok()) { "-" } else { "yes" };
    let random = spans::notice(seed, count).map_or(format!("- of {count}"), |n| n.to_string());
    println!("cases {cases} inputs {random}");
}
