//! The oracle's program; `usage` lists what it does. See oracle/README.md.
use std::io::{BufWriter, Write};
use std::path::Path;
use std::process::ExitCode;

use judges::drive::{drive, exit, number};
use judges::generate::{
    Kind, script, script_with_distance, script_with_distance_and_runs, script_with_list, script_with_list_and_runs,
    script_with_runs,
};
use judges::generate_spans;
use judges::rules::Rules;
use oracle::rust::{Rust, Ways};
use oracle::selftest::{Make, Named, PLAIN};
use oracle::{edits, notice, sample, selftest, spans};

/// What the program can be asked for.
const USAGE: &str = "oracle rust | rules                   answer the script on standard input
oracle generate KIND SEED COUNT       print random scripts (whole mixed flush nullslast order ends equal refusals handed
                                      large strict)
oracle generate KIND SEED COUNT runs  the same scripts with runs in the place of turns
oracle generate KIND SEED COUNT distance
                                      the same scripts, whose answers tell the distance
oracle generate KIND SEED COUNT distance runs
                                      the same scripts with runs in the place of turns
oracle generate KIND SEED COUNT list  print random scripts with a list of codes
oracle generate KIND SEED COUNT list runs
                                      the same scripts with runs in the place of turns
oracle generate spans SEED COUNT      print random points and intervals
oracle selftest SEED COUNT            the test of the oracle itself, COUNT scripts a kind
oracle whole SEED COUNT               the whole-table rule over COUNT scripts
oracle judges SEED COUNT              the step rules by the whole-table judge over COUNT scripts a kind
oracle compare SEED COUNT             the Rust and the step rules over COUNT scripts a kind
oracle large SEED COUNT               the same over COUNT scripts with thousands of rows a side
oracle distances SEED COUNT           the steps of the self-test over scripts with distances, COUNT scripts a kind
oracle lists SEED COUNT               the steps of the self-test over scripts with lists of codes, COUNT scripts a kind
oracle spans SEED COUNT               the range join of the Rust and SCOPE 19 over COUNT inputs
oracle sample write|replay FOLDER     record the sample, or replay it
oracle edits LIST                     print the edits
oracle edit LIST NAME RUST OWN TO     lay an edited copy of the Rust's source and of the oracle down
oracle notice SEED COUNT FOLDER       which judge sees that the Rust was edited, and whether the sample does
oracle notice-lists SEED COUNT        which judge sees it in scripts with lists, and that none does in others
oracle notice-spans SEED COUNT        at which input SCOPE 19 sees that the Rust's range join was edited";

/// How the words behind a count of scripts want them made.
fn maker(words: &[&str]) -> Result<Make, String> {
    match words {
        [] => Ok(script),
        ["runs"] => Ok(script_with_runs),
        ["distance"] => Ok(script_with_distance),
        ["distance", "runs"] => Ok(script_with_distance_and_runs),
        ["list"] => Ok(script_with_list),
        ["list", "runs"] => Ok(script_with_list_and_runs),
        _ => Err(USAGE.to_string()),
    }
}

/// Prints random scripts of a kind.
fn print_scripts(make: Make, kind: &str, seed: u64, count: u64) -> Result<(), String> {
    let kind = Kind::named(kind).ok_or(format!("{kind} is no kind of script"))?;
    let scripts = (0..count).flat_map(|i| make(kind, seed, i));
    let mut output = BufWriter::new(std::io::stdout());
    scripts.into_iter().try_for_each(|call| writeln!(output, "{call}")).map_err(|e| e.to_string())
}

/// Prints random points and intervals.
fn print_spans(seed: u64, count: u64) -> Result<(), String> {
    let mut output = BufWriter::new(std::io::stdout());
    let mut inputs = (0..count).map(|i| generate_spans::input(seed, i));
    inputs.try_for_each(|call| writeln!(output, "{call}")).map_err(|e| e.to_string())
}

/// Steps of the self-test that can be run alone, by name: how many scripts of which seed.
fn steps(name: &str, seed: u64, count: u64) -> Option<Vec<Named>> {
    let step: Named = match name {
        "whole" => ("whole-table rule", Box::new(move || selftest::whole(PLAIN, seed, count, Ways::default()))),
        "compare" => ("step rules", Box::new(move || selftest::all_kinds(PLAIN, seed, count))),
        "judges" => ("the two judges", Box::new(move || selftest::judges(PLAIN, seed, count))),
        "large" => ("large tables", Box::new(move || selftest::large(PLAIN, seed, count))),
        "spans" => ("points in intervals", Box::new(move || spans::random(seed, count))),
        "distances" => return Some(selftest::with_distances(seed, count)),
        "lists" => return Some(selftest::with_lists(seed, count)),
        _ => return None,
    };
    Some(vec![step])
}

/// Replays the recorded sample; whether it went well.
fn replay(folder: &str) -> bool {
    let folder = folder.to_string();
    selftest::run(vec![("recorded sample", Box::new(move || sample::replay(Path::new(&folder))))])
}

/// Does what the command line asks for; whether it went well.
fn run(args: &[&str]) -> Result<bool, String> {
    match *args {
        ["rust"] => drive(&mut Rust::default())?,
        ["rules"] => drive(&mut Rules::default())?,
        ["generate", "spans", seed, count] => print_spans(number(seed)?, number(count)?)?,
        ["generate", kind, seed, count, ref how @ ..] => {
            print_scripts(maker(how)?, kind, number(seed)?, number(count)?)?
        },
        ["selftest", seed, count] => return Ok(selftest::all(number(seed)?, number(count)?)),
        ["sample", "write", folder] => sample::write(Path::new(folder))?,
        ["sample", "replay", folder] => return Ok(replay(folder)),
        ["edits", list] => edits::print(list)?,
        ["edit", list, name, rust, own, to] => {
            edits::apply(list, name, [Path::new(rust), Path::new(own)], Path::new(to))?
        },
        ["notice", seed, count, folder] => notice::print(number(seed)?, number(count)?, Path::new(folder))?,
        ["notice-lists", seed, count] => notice::print_lists(number(seed)?, number(count)?),
        ["notice-spans", seed, count] => notice::print_spans(number(seed)?, number(count)?),
        [name, seed, count] => {
            let steps = steps(name, number(seed)?, number(count)?).ok_or(USAGE.to_string())?;
            return Ok(selftest::run(steps));
        },
        _ => return Err(USAGE.to_string()),
    }
    Ok(true)
}

/// Runs what the command line asks for.
fn main() -> ExitCode {
    exit(run)
}
