//! The recorded sample: small scripts that between them cover every strategy, option, fault and state, with the answers
//! of the unchanged Rust.
use std::collections::BTreeMap;
use std::fs;
use std::path::Path;

use judges::generate::{Kind, RECORDED, script_with_carried, script_without_carried};
use judges::rules::{Rules, frame_rows};
use judges::script::{Answer, Call, Options, opening, parse_script, written};

use crate::compare::answers;
use crate::rust::Rust;

/// The seed of the sample's scripts.
const SEED: u64 = 20;
/// How many scripts it holds that carry nothing, and how many others behind them.
const SCRIPTS: usize = 2000;
const CARRYING: usize = 500;
/// How many scripts at most it takes for one combination of options and event.
const ENOUGH: usize = 12;
/// The longest script it takes, in bytes, so that the sample stays small; one that carries something may be longer.
const LONGEST: [usize; 2] = [260, 420];
/// The longest output of a turn, in words, for which crates/replay has room.
const OUTPUT: usize = 128;

/// What a call did, as far as the coverage asks.
fn event(call: &Call, answer: &Answer, state: u8) -> Option<String> {
    let mode = ["Running", "Flush", "Done"][state as usize];
    Some(match (call, answer) {
        (Call::Turn(_), Answer::Wrote(_, w)) if w[0] == 0 => format!("wrote no row in {mode}"),
        (Call::Turn(_), Answer::Wrote(_, w)) => {
            format!("wrote {} in {mode}", if written(w)[0] > 0 { "matches" } else { "none" })
        },
        (Call::Turn(_), answer) => format!("{answer} in {mode}"),
        (Call::Ports(_), Answer::Ports(_, to)) if *to != state => {
            format!("ports: {mode} to {}", ["Running", "Flush", "Done"][*to as usize])
        },
        (Call::Ports(_), _) => format!("ports in {mode}"),
        (Call::End, _) => format!("end in {mode}"),
        (Call::Right(_), _) if state == 1 => "right in Flush".to_string(),
        _ => return None,
    })
}

/// Nulls and ends of the 64-bit range in a frame with b by-columns.
fn cells(call: &Call, b: usize) -> Vec<&'static str> {
    let (Call::Left(w) | Call::Right(w)) = call else { return vec![] };
    let rows = frame_rows(w[1] as usize, w);
    let mut out = vec![];
    if rows.iter().any(|r| r[b].is_none()) {
        out.push("null key");
    }
    if rows.iter().any(|r| r[..b].contains(&None)) {
        out.push("null group");
    }
    if rows.iter().flatten().any(|c| matches!(c, Some(i64::MIN | i64::MAX))) {
        out.push("ends of the range");
    }
    if rows.is_empty() {
        out.push("empty frame");
    }
    out
}

/// What the matches of a turn brought along.
fn carried(answer: &Answer) -> Vec<&'static str> {
    let Answer::Wrote(_, words) = answer else { return vec![] };
    let [_, values, nulls] = written(words);
    [(values, "carried value"), (nulls, "carried null")].into_iter().filter(|(n, _)| *n > 0).map(|(_, w)| w).collect()
}

/// The options' part of a combination.
fn options(o: &Options) -> String {
    let strategy = ["Backward", "Forward", "Nearest"][o.strategy as usize];
    format!("{strategy} {} check {}", if o.eq { "eq" } else { "no eq" }, if o.check { "on" } else { "off" })
}

/// A tolerance's class.
fn tolerance(o: &Options) -> &'static str {
    match o.tolerance {
        -1 => "no tolerance",
        0 => "tolerance 0",
        i64::MAX => "tolerance 2^63 − 1",
        _ => "other tolerance",
    }
}

/// All combinations that a script covers: options with events, by-columns with events, and what stands alone.
fn covers(calls: &[Call], said: &[Answer]) -> Vec<String> {
    let o = &opening(calls).expect("a script opens first").0.options;
    let mut out = vec![];
    let mut state = 0;
    for (call, answer) in calls.iter().zip(said) {
        let shown = cells(call, o.b).into_iter().chain(carried(answer)).map(String::from);
        for what in event(call, answer, state).into_iter().chain(shown) {
            if o.carried > 0 {
                out.push(format!("{} carried columns: {what}", o.carried));
            }
            out.push(format!("{}: {what}", options(o)));
            out.push(format!("{} by-columns: {what}", o.b));
            out.push(format!("{}: {what}", tolerance(o)));
            for (d, n) in o.descending.iter().zip(&o.nulls_last) {
                out.push(format!("descending {} nulls last {}: {what}", *d as u8, *n as u8));
            }
        }
        if let Answer::Ports(_, to) = answer {
            state = *to;
        }
    }
    out.sort();
    out.dedup();
    out
}

/// How a script is made from its kind, seed and number.
type Make = fn(Kind, u64, u64) -> Vec<Call>;

/// A sample: scripts, the Rust's answers, and how often each combination is covered.
struct Sample {
    scripts: String,
    answers: String,
    count: usize,
    coverage: BTreeMap<String, usize>,
}

impl Sample {
    /// Takes a script where it covers something not yet covered enough, and is short, and SCOPE refuses none of its calls
    /// by 1 to 7.
    fn offer(&mut self, calls: &[Call], everything: bool) {
        let text: String = calls.iter().map(|c| format!("{c}\n")).collect();
        let longest = LONGEST[calls.iter().any(|c| matches!(c, Call::Options(_))) as usize];
        let roomy = |c: &Call| matches!(c, Call::Turn(output) if *output > OUTPUT);
        let ruled = answers(&mut Rules::default(), calls);
        if text.len() > longest || calls.iter().any(roomy) || ruled.iter().any(|a| matches!(a, Answer::Refused(1..=7)))
        {
            return;
        }
        let said = answers(&mut Rust::default(), calls);
        let covers = covers(calls, &said);
        let seen = |c: &String| self.coverage.get(c).is_some_and(|n| *n >= ENOUGH);
        if !everything && covers.iter().all(seen) {
            return;
        }
        covers.into_iter().for_each(|c| *self.coverage.entry(c).or_default() += 1);
        self.scripts += &text;
        said.iter().for_each(|a| self.answers += &format!("{a}\n"));
        self.count += 1;
    }

    /// Fills the sample up to a count of scripts: first what covers something new, then short scripts of every kind until
    /// there are enough.
    fn fill(&mut self, make: Make, count: usize) {
        let offers = |from: u64| (from..).flat_map(move |i| RECORDED.map(|kind| make(kind, SEED, i)));
        offers(0).take(60_000).for_each(|calls| {
            if self.count < count {
                self.offer(&calls, false);
            }
        });
        let mut more = offers(100_000);
        while self.count < count {
            self.offer(&more.next().unwrap(), true);
        }
    }

    /// Chooses the sample: scripts that carry nothing, which stay as they are, then others.
    fn choose() -> Self {
        let mut out = Sample { scripts: String::new(), answers: String::new(), count: 0, coverage: BTreeMap::new() };
        out.fill(script_without_carried, SCRIPTS);
        out.fill(script_with_carried, SCRIPTS + CARRYING);
        out
    }
}

/// Writes the sample and its coverage into a folder.
pub fn write(folder: &Path) -> Result<(), String> {
    let sample = Sample::choose();
    let coverage: String = sample.coverage.iter().map(|(what, n)| format!("{n:5} {what}\n")).collect();
    let files = [("scripts.txt", &sample.scripts), ("answers.txt", &sample.answers), ("coverage.txt", &coverage)];
    for (name, text) in files {
        fs::write(folder.join(name), text).map_err(|e| format!("{name}: {e}"))?;
    }
    let bytes = sample.scripts.len() + sample.answers.len();
    println!("{} scripts, {} bytes, {} combinations", sample.count, bytes, sample.coverage.len());
    Ok(())
}

/// A recorded script with its recorded answers.
pub type Recorded = (Vec<Call>, Vec<String>);

/// All recorded scripts.
pub fn recorded(folder: &Path) -> Result<Vec<Recorded>, String> {
    let read = |name: &str| fs::read_to_string(folder.join(name)).map_err(|e| format!("{name}: {e}"));
    let (scripts, said) = (read("scripts.txt")?, read("answers.txt")?);
    let mut out: Vec<Recorded> = vec![];
    for (call, answer) in parse_script(&scripts)?.into_iter().zip(said.lines()) {
        if matches!(call, Call::Open(_) | Call::Options(_)) {
            out.push((vec![], vec![]));
        }
        let (calls, answers) = out.last_mut().ok_or("the sample does not begin with open")?;
        calls.push(call);
        answers.push(answer.to_string());
    }
    Ok(out)
}

/// Replays the recorded scripts through the Rust and the rules; all answers must be the recorded ones, byte for byte.
pub fn replay(folder: &Path) -> Result<String, String> {
    let read = |name: &str| fs::read_to_string(folder.join(name)).map_err(|e| format!("{name}: {e}"));
    let (scripts, recorded) = (read("scripts.txt")?, read("answers.txt")?);
    let calls = parse_script(&scripts)?;
    let text = |said: Vec<Answer>| said.iter().map(|a| format!("{a}\n")).collect::<String>();
    if text(answers(&mut Rust::default(), &calls)) != recorded {
        return Err("the Rust's answers are not the recorded ones".into());
    } else if text(answers(&mut Rules::default(), &calls)) != recorded {
        return Err("the rules' answers are not the recorded ones".into());
    }
    let opens = calls.iter().filter(|c| matches!(c, Call::Open(_) | Call::Opens(..))).count();
    Ok(format!("{opens} scripts, {} calls: the Rust and the rules answer as recorded", calls.len()))
}
