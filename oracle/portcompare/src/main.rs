//! The port beside its judges, over random scripts. See oracle/README.md.
use std::process::ExitCode;
use std::time::Instant;

mod books;
mod cases;
mod compare;
mod cuts;
mod less;
mod pairs;
mod plans;
mod readers;
mod spans;
mod takings;

use compare::Counts;
use judges::drive::{exit, number};
use judges::generate::{
    COMPARED, Kind, script, script_with_distance, script_with_distance_and_runs, script_with_list,
    script_with_list_and_distance, script_with_list_and_runs, script_with_runs,
};
use judges::script::Call;

/// How many differences are told before a run ends.
const TOLD: usize = 10;

/// All kinds of scripts, large tables last.
const KINDS: [Kind; 11] = {
    let [a, b, c, d, e, f, g] = COMPARED;
    [a, b, c, d, e, f, g, Kind::Refusals, Kind::Handed, Kind::Strict, Kind::Large]
};

/// The place of the kind that comes once in so many scripts.
const LARGE: (usize, u64) = (10, 1000);

/// How scripts are made, in turn: with runs, with a list of codes, with the distance, and with some of these together.
const MAKES: [fn(Kind, u64, u64) -> Vec<Call>; 7] = [
    script,
    script_with_runs,
    script_with_list,
    script_with_list_and_runs,
    script_with_distance,
    script_with_distance_and_runs,
    script_with_list_and_distance,
];

/// The script of this number among a seed's scripts of a kind.
fn made(kind: Kind, seed: u64, number: u64) -> Vec<Call> {
    MAKES[number as usize % MAKES.len()](kind, seed, number)
}

/// Prints a difference with its smallest script.
fn tell(kind: Kind, seed: u64, number: u64) {
    let (calls, why) = compare::smallest(&made(kind, seed, number), kind);
    println!("DIFFERENCE {kind:?}, seed {seed}, script {number}: {why}");
    calls.iter().for_each(|call| println!("    {call}"));
}

/// What can stop a run, with its place among the counts.
const STOPS: [(&str, usize); 12] = [
    ("k", 0),
    ("wants", 1),
    ("idle", 2),
    ("2", 4),
    ("3", 5),
    ("4", 6),
    ("5", 7),
    ("6", 8),
    ("7", 9),
    ("8", 10),
    ("9", 11),
    ("12", 12),
];

/// The places of those that must also have been met after a turn that wrote. 2, 3 and 4 come in the first turn, and 9 almost
/// always does.
const LATER: [usize; 8] = [0, 1, 2, 7, 8, 9, 10, 12];

/// All scripts of a run, by the place of their kind and their number: one with large tables in a thousand, the first of them
/// too, the other kinds in turn.
fn scripts(count: u64) -> impl Iterator<Item = (usize, u64)> {
    let ((large, often), kinds) = (LARGE, KINDS.len() as u64 - 1);
    let one = move |i: u64| if i % often == 0 { (large, i / often) } else { ((i % kinds) as usize, i / kinds) };
    (0..count).map(one)
}

/// What a run never met, though it is made to.
fn missing(all: &Counts) -> Option<String> {
    let tally = &all.tally;
    let met = [
        ("matches", tally.matched),
        ("carried values", tally.carried[0]),
        ("carried nulls", tally.carried[1]),
        ("wants", tally.wants),
        ("idle turns", tally.idle),
        ("Flush", tally.in_flush),
        ("scripts with a list", tally.lists),
        ("distances", tally.judged.distances[0]),
        ("distances above 2^63 − 1", tally.judged.distances[1]),
        ("distances of 2^63 − 1", tally.judged.distances[2]),
        ("distances of 2^63", tally.judged.distances[3]),
    ];
    let none = met.iter().find(|(_, n)| *n == 0).map(|(what, _)| what.to_string());
    let runs = &tally.runs;
    let stopped = STOPS.iter().find(|(_, at)| runs.stops[*at] == 0).map(|(what, _)| format!("runs stopped by {what}"));
    let after = STOPS.iter().find(|(_, at)| LATER.contains(at) && runs.after[*at] == 0);
    let moves = ["moves", "moves refused by 2", "moves refused by 6"].iter().zip(all.moves).find(|(_, n)| *n == 0);
    none.or_else(|| (1..13).find(|n| all.refused[*n] == 0).map(|n| format!("refusals by {n}")))
        .or(stopped)
        .or(after.map(|(what, _)| format!("runs stopped by {what} after a turn")))
        .or(moves.map(|(what, _)| what.to_string()))
}

/// Runs COUNT scripts, the kinds in turn; whether there was no difference and everything was met.
fn compare_all(seed: u64, count: u64) -> bool {
    let start = Instant::now();
    let mut by_kind = vec![Counts::default(); KINDS.len()];
    let mut told = 0;
    for (i, (at, number)) in scripts(count).enumerate() {
        if compare::all(&made(KINDS[at], seed, number), KINDS[at], &mut by_kind[at]).is_err() {
            tell(KINDS[at], seed, number);
            told += 1;
        }
        if told == TOLD {
            println!("{TOLD} differences after {} scripts: no more are looked for", i + 1);
            break;
        }
    }
    let mut all = Counts::default();
    for (kind, counts) in KINDS.iter().zip(&by_kind) {
        println!("  {kind:?}: {counts}");
        all.add(counts);
    }
    let missing = missing(&all).filter(|_| told == 0);
    missing.iter().for_each(|what| println!("FAIL {what}: none in the whole run"));
    let (large, time) = (by_kind[LARGE.0].tally.scripts, start.elapsed().as_secs_f64());
    println!("compared with the port: {all}; {large} scripts with large tables; {told} differences ({time:.1} s)");
    told == 0 && missing.is_none()
}

/// Does what the command line asks for; whether it went well.
fn run(args: &[&str]) -> Result<bool, String> {
    let (compare, seed, count): (fn(u64, u64) -> bool, _, _) = match *args {
        [seed, count] => (compare_all, number(seed)?, number(count)?),
        ["spans", seed, count] => (spans::compare_all, number(seed)?, number(count)?),
        ["merge", seed, count] => (books::compare_merges, number(seed)?, number(count)?),
        ["read", seed, count] => (readers::compare_all, number(seed)?, number(count)?),
        ["standing", seed, count] => (books::compare_standings, number(seed)?, number(count)?),
        ["plan", seed, count] => (plans::compare_all, number(seed)?, number(count)?),
        ["place", seed, count] => (cuts::compare_all, number(seed)?, number(count)?),
        ["cut", seed, count] => (pairs::compare_all, number(seed)?, number(count)?),
        ["takings", seed, count] => (takings::compare_all, number(seed)?, number(count)?),
        _ => {
            let names = "spans, merge, standing, plan, place, cut, takings or read";
            return Err(format!(
                "compare: wants a seed and a count of scripts, or {names}, a seed and a count of inputs"
            ));
        },
    };
    // A panic is told as a difference, so its own words need not be.
    std::panic::set_hook(Box::new(|_| ()));
    Ok(compare(seed, count))
}

/// Runs what the command line asks for.
fn main() -> ExitCode {
    exit(run)
}
