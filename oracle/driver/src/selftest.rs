//! The oracle's test of itself, which needs no port: the Rust against SCOPE's cases, against the whole-table rule and
//! against the step rules. Every step prints its counts and fails where they show that nothing was tested.
use std::fmt;
use std::time::Instant;

use judges::exhaustive;
use judges::generate::{
    COMPARED, Kind, script, script_with_distance, script_with_distance_and_runs, script_with_list,
    script_with_list_and_runs, script_with_runs, script_without_carried,
};
use judges::rules::{Rules, frame_rows};
use judges::script::{
    Answer, Call, Judge, Options, opening, parse_script, without_distance, without_distances, written,
};
use judges::whole_table::{self, Counts};

use crate::compare::{self, Difference, Tally};
use crate::pulled::{ROOM, all_at_once};
use crate::rust::{Rust, Spoiled, Ways};
use crate::{books, ranks, spans};

/// How a step ends: what it counted, or what went wrong.
pub type Step = Result<String, String>;

/// A step's name, and what it does.
pub type Named = (&'static str, Box<dyn FnOnce() -> Step>);

/// How a script is made from its kind, seed and number.
pub type Make = fn(Kind, u64, u64) -> Vec<Call>;

/// What a step makes its scripts by: with turns, and with runs in their place.
#[derive(Clone, Copy)]
pub struct Makes {
    pub turns: Make,
    pub runs: Make,
}

/// Scripts without lists.
pub const PLAIN: Makes = Makes { turns: script, runs: script_with_runs };

/// Scripts with lists of codes.
pub const LISTED: Makes = Makes { turns: script_with_list, runs: script_with_list_and_runs };

/// Scripts whose answers tell the distance.
pub const DISTANT: Makes = Makes { turns: script_with_distance, runs: script_with_distance_and_runs };

impl Makes {
    /// Every second script with runs.
    fn both(self, kind: Kind, seed: u64, number: u64) -> Vec<Call> {
        (if number % 2 == 0 { self.turns } else { self.runs })(kind, seed, number)
    }
}

/// A failed script with what went wrong, for the reader to run again.
pub(crate) fn failure(what: &str, calls: &[Call], why: &str) -> String {
    let lines: Vec<String> = calls.iter().map(|c| c.to_string()).collect();
    format!("{what}: {why}\n{}", lines.join("\n"))
}

/// Calls, each with the answer that was read by hand: its line begins with =.
pub(crate) fn by_hand(text: &str) -> Result<Vec<(Call, &str)>, String> {
    let lines: Vec<&str> = text.lines().filter(|l| !l.starts_with('=')).collect();
    let calls = parse_script(&lines.join("\n"))?;
    let expected: Vec<&str> = text.lines().filter_map(|l| l.strip_prefix("= ")).collect();
    assert_eq!(calls.len(), expected.len());
    Ok(calls.into_iter().zip(expected).collect())
}

/// Calls with the answers that were read from SCOPE by hand, by the rules, and by the Rust where it has a counterpart:
/// not where the host has altered words.
pub(crate) fn cases(text: &str) -> Step {
    let calls = by_hand(text)?;
    let (mut rust, mut rules, mut parted, mut asked) = (Rust::default(), Rules::default(), false, 0);
    for (call, want) in &calls {
        let (said, ruled) = (rust.call(call), rules.call(call));
        let opens = matches!(call, Call::Open(_) | Call::Opens(..));
        parted &= !opens;
        // The Rust has no strict check: it opens no such join.
        parted |= opens && ruled == Answer::Ok && said == Answer::Nothing;
        parted |= matches!(call, Call::Put(..));
        let known = !parted && !compare::no_counterpart(&ruled);
        if ruled.to_string() != *want || (known && !compare::agrees(&said, &rust.shared(&ruled))) {
            return Err(format!("{call}: wanted {want}, the Rust says {said}, the rules say {ruled}"));
        }
        asked += known as usize;
        parted |= compare::parted(call, &ruled);
    }
    Ok(format!("{} calls, {asked} of them answered by the Rust", calls.len()))
}

/// SCOPE 21: the worked cases.
pub fn counter_cases() -> Step {
    cases(include_str!("../counter.txt"))
}

/// SCOPE 17: runs.
pub fn run_cases() -> Step {
    cases(include_str!("../runs.txt"))
}

/// SCOPE 5.14: moves.
pub fn move_cases() -> Step {
    cases(include_str!("../moves.txt"))
}

/// SCOPE 12.5: the distance.
pub fn distance_cases() -> Step {
    cases(include_str!("../distance.txt"))
}

/// SCOPE 2.2: a frame has at most 4,096 rows, however many columns the right ones carry.
pub fn longest_frames() -> Step {
    let frame = |n: i64, c: i64| [vec![n, c], (0..n * c).map(|i| i / c).collect(), vec![1; (n * c) as usize]].concat();
    for p in [0, 1, 8] {
        let c = 1 + p;
        let mut calls = parse_script(&format!("options 0 0 1 -1 1 {p} 0 0 0 0\nopens 8194 {}", 8192 * c))?;
        let opens = calls.clone();
        let turn = Call::Turn(2 + 8192 * c as usize);
        calls.extend([Call::Right(frame(4096, c)), Call::Left(frame(4096, 1)), Call::End, turn]);
        let mut tally = Tally::default();
        compare::with_rules(&calls, Ways::default(), &mut tally).map_err(|d| format!("{d:?}"))?;
        let mut rules = Rules::default();
        compare::answers(&mut rules, &opens);
        let said = [Call::Left(frame(4097, 1)), Call::Right(frame(4097, c))].map(|call| rules.call(&call));
        if tally.matched != 4096
            || tally.carried != [4096 * p as u64, 0]
            || said != [Answer::Refused(5), Answer::Refused(5)]
        {
            return Err(format!("4,096 rows: {} matched; 4,097 rows: {} {}", tally.matched, said[0], said[1]));
        }
    }
    Ok("4,096 rows match, 4,097 are refused".into())
}

/// Random scripts of sorted sides over random cuts, by the whole-table rule. Frames that SCOPE refuses are left out: the
/// Rust says ok to them.
pub fn whole(makes: Makes, seed: u64, count: u64, ways: Ways) -> Step {
    let mut counts = Counts::default();
    for i in 0..count {
        let calls = ranks::taken((makes.turns)(Kind::Whole, seed, i));
        let judged = compare::with_whole_table(&calls, ways, &mut counts);
        judged.map_err(|why| failure(&format!("whole table, seed {seed}, script {i}"), &calls, &why))?;
    }
    if counts.matched == 0 || counts.wants == 0 || counts.matched == counts.rows {
        return Err("nothing was tested".into());
    }
    let Counts { rows, matched, wants, .. } = counts;
    let said = "0 faults, all as the whole table says";
    Ok(format!("{count} scripts, {rows} rows turned, {matched} matched, {wants} wants, {said}"))
}

/// The two judges against each other: the rules' answers to all kinds of scripts, every second one with runs, by the
/// whole-table judge. The Rust has no part in it.
pub fn judges(makes: Makes, seed: u64, count: u64) -> Step {
    let mut all = Counts::default();
    for kind in COMPARED.into_iter().chain([Kind::Refusals, Kind::Strict]) {
        (0..count).try_for_each(|i| rules_by_whole_table(makes, kind, seed, i, &mut all))?;
    }
    let Counts { scripts, sorted, rows, whole, matched, carried, faults, bad_lists, unlisted, .. } = all;
    if [sorted, whole, matched, carried, faults, rows - whole, scripts - sorted].contains(&0) {
        return Err("nothing was tested".into());
    }
    let said =
        format!("{scripts} scripts, {sorted} sorted; {rows} rows, {matched} matched, {whole} as the whole table gives");
    let said =
        format!("{said} and the others qualify; {carried} carried cells; {faults} order faults where they are due");
    Ok(format!("{said}; {bad_lists} lists refused by 11, {unlisted} frames by 12"))
}

/// The rules' answers to one script, by the whole-table judge.
fn rules_by_whole_table(makes: Makes, kind: Kind, seed: u64, number: u64, all: &mut Counts) -> Result<(), String> {
    let calls = makes.both(kind, seed, number);
    let judge = if kind == Kind::Whole { whole_table::judge_whole } else { whole_table::judge };
    let judged = judge(&calls, &compare::answers(&mut Rules::default(), &calls));
    let what = || format!("rules by the whole table, {kind:?}, seed {seed}, script {number}");
    all.add(&judged.map_err(|why| failure(&what(), &calls, &why))?);
    Ok(())
}

/// The difference's text, whichever it is.
pub(crate) fn text(d: Difference) -> String {
    match d {
        Difference::Answer(t) | Difference::Inside(t) => t,
    }
}

/// Random scripts of one kind, by the step rules.
pub fn steps(make: Make, kind: Kind, seed: u64, count: u64, ways: Ways) -> Result<Tally, String> {
    let mut tally = Tally::default();
    for i in 0..count {
        let calls = make(kind, seed, i);
        let compared = compare::with_rules(&calls, ways, &mut tally);
        compared.map_err(|d| failure(&format!("{kind:?}, seed {seed}, script {i}"), &calls, &text(d)))?;
    }
    Ok(tally)
}

/// Random scripts of all kinds, by the step rules; each kind must reach what it is made for.
pub fn all_kinds(makes: Makes, seed: u64, count: u64) -> Step {
    let mut all = Tally::default();
    for kind in COMPARED {
        let tally = steps(makes.turns, kind, seed, count, Ways::default())?;
        println!("  {kind:?}: {tally}");
        all.add(&tally);
    }
    let [continuity, frame, held, split] = all.faults;
    let reached = [all.matched, all.wants, all.idle, all.in_flush, continuity, frame, held];
    if reached.contains(&0) || all.states.contains(&0) || all.carried.contains(&0) {
        return Err("nothing was tested".into());
    } else if split != 0 {
        return Err("a fault at the split alone, which docs/DIFFERENCES.md calls impossible".into());
    }
    Ok(format!("{all}"))
}

/// A written turn's words without what is carried: n, 1, n right numbers, n marks.
fn numbers_alone(words: &[i64]) -> Vec<i64> {
    let (n, c) = (words[0], words[1] as usize);
    [n, 1].into_iter().chain(words[2..].iter().copied().step_by(c)).collect()
}

/// SCOPE 12.7: what is carried changes nothing else. The same scripts with and without carried columns, by the step rules: the
/// same matches and answers, and after each call the same join.
pub fn carried(seed: u64, count: u64) -> Step {
    let (mut rows, mut cells) = (0, 0);
    for (kind, i) in COMPARED.into_iter().flat_map(|kind| (0..count).map(move |i| (kind, i))) {
        let [with, without] = [script(kind, seed, i), script_without_carried(kind, seed, i)];
        let (mut rules, mut plain) = (Rules::default(), Rules::default());
        let lines = opening(&with).expect("a script opens first").1;
        compare::answers(&mut rules, &with[..lines - 1]);
        if with.len() != without.len() + lines - 1 {
            return Err(failure("another script without carried columns", &with, &format!("{kind:?} {i}")));
        }
        for (call, other) in with[lines - 1..].iter().zip(&without) {
            let (mut said, alone) = (rules.call(call), plain.call(other));
            if let Answer::Wrote(_, words) = &mut said {
                (rows, cells) = (rows + words[0], cells + words[0] * (words[1] - 1));
                *words = numbers_alone(words);
            }
            if said != alone || rules.look() != plain.look() {
                return Err(failure("what is carried changes more", &with, &format!("{call}: {said}, else {alone}")));
            }
        }
    }
    if cells == 0 {
        return Err("nothing was tested".into());
    }
    Ok(format!("{rows} rows written, with {cells} carried cells: everything else is as without"))
}

/// SCOPE 3.11: the distance changes nothing else. The same scripts with and without it, by the step rules: the same answers but
/// for the last column, and after each call the same join.
pub fn distances(seed: u64, count: u64) -> Step {
    let mut all = Counts::default();
    for (kind, i) in COMPARED.into_iter().flat_map(|kind| (0..count).map(move |i| (kind, i))) {
        let with = script_with_distance(kind, seed, i);
        let (mut rules, mut plain, mut answers) = (Rules::default(), Rules::default(), vec![]);
        for (call, other) in with.iter().zip(&without_distances(&with)) {
            let (said, alone) = (rules.call(call), plain.call(other));
            if without_distance(&said) != alone || rules.look() != plain.look() {
                return Err(failure("the distance changes more", &with, &format!("{call}: {said}, else {alone}")));
            }
            answers.push(said);
        }
        all.add(&whole_table::judge(&with, &answers).map_err(|why| failure("distances", &with, &why))?);
    }
    let [written, above, most, next] = all.distances;
    if all.distances.contains(&0) {
        return Err("nothing was tested".into());
    }
    let said = format!("{written} distances written, {most} of them 2^63 − 1, {above} above, {next} of them 2^63");
    Ok(format!("{} scripts, {said}: everything else is as without", all.scripts))
}

/// Scripts with large tables, every second one with runs: by the step rules and by the whole-table judge. Longest frames must
/// have come on both sides, and rows in sorted scripts.
pub fn large(makes: Makes, seed: u64, count: u64) -> Step {
    let (mut tally, mut longest) = (Tally::default(), [0, 0]);
    for i in 0..count {
        let calls = makes.both(Kind::Large, seed, i);
        let compared = compare::with_rules(&calls, Ways::default(), &mut tally);
        compared.map_err(|d| format!("Large, seed {seed}, script {i}: {}", text(d)))?;
        let full = |pick: fn(&Call) -> bool| calls.iter().filter(|c| pick(c)).count();
        longest[0] += full(|c| matches!(c, Call::Left(w) if w[0] == 4096));
        longest[1] += full(|c| matches!(c, Call::Right(w) if w[0] == 4096));
    }
    let rows = tally.rows + tally.runs.rows;
    let judged = &tally.judged;
    if longest.contains(&0) || [judged.whole, judged.matched, judged.carried, rows - judged.matched].contains(&0) {
        return Err("nothing was tested".into());
    }
    Ok(format!("{tally}; frames of 4,096 rows: {} left, {} right", longest[0], longest[1]))
}

/// Random scripts with runs in the place of turns: the Rust by the step rules, and both by the whole-table rule. Runs must
/// have stopped in every way that the Rust knows, and for want of output, after turns that wrote. A fault of right rows alone
/// comes in a run's first turn: no right row comes in during a run.
pub fn runs(makes: Makes, seed: u64, count: u64) -> Step {
    let mut all = Tally::default();
    for kind in COMPARED {
        all.add(&steps(makes.runs, kind, seed, count, Ways::default())?);
    }
    for i in 0..count {
        let calls = ranks::taken((makes.runs)(Kind::Whole, seed, i));
        let rules = whole_table::judge_whole(&calls, &compare::answers(&mut Rules::default(), &calls)).map(|_| ());
        let both = rules.and_then(|_| compare::with_whole_table(&calls, Ways::default(), &mut Counts::default()));
        both.map_err(|why| failure("runs by the whole table", &calls, &why))?;
    }
    let [used, wants, idle, .., short, _, left, right_after, _] = all.runs.after;
    let right = all.runs.stops[11];
    if [all.runs.several, all.runs.matched, used, wants, idle, short, left, right].contains(&0) {
        return Err(format!("nothing was tested: {}", all.runs));
    } else if right_after != 0 {
        return Err(format!("a fault of right rows after a turn of the same run: {}", all.runs));
    }
    Ok(format!("{} scripts, {count} of them by the whole-table rule too: {}", all.scripts, all.runs))
}

/// What hands short scripts to who wants them, until that says stop.
pub type Short = fn(&mut dyn FnMut(&[Call]) -> bool) -> bool;

/// Short scripts, by the step rules.
pub fn short_scripts(all: Short, ways: Ways) -> Step {
    let mut tally = Tally::default();
    let mut wrong = None;
    all(&mut |calls| {
        let compared = compare::with_rules(calls, ways, &mut tally);
        wrong = compared.err().map(|d| failure("short script", calls, &text(d)));
        wrong.is_none()
    });
    wrong.map_or(Ok(format!("{tally}")), Err)
}

/// The same answers however the node is fed and its tasks are scheduled. Where right frames are pulled as the node asks for
/// them, and where all frames come in one phase, the answers are the whole table's on sorted sides, and on all others those
/// of the rules that are given right frames as they are wanted.
pub fn ways(makes: Makes, seed: u64, count: u64) -> Step {
    let pushed = pushed(makes, seed, count)?;
    let (pulled, bursts) = pulled(makes, seed, count)?;
    polars_async::executor::shuffle(0);
    let [between, frame, held, _] = pulled.faults;
    if [frame, held, pulled.matched, bursts.left, bursts.right, bursts.matched].contains(&0) {
        return Err("nothing was tested".into());
    }
    let fed = "scripts fed by pipes, to several tasks, in random order";
    let faults = between + frame + held;
    Ok(format!("{} {fed}; {} pulled, {faults} with order faults; {bursts}", pushed.scripts, pulled.scripts))
}

/// Frames by the left pipe, several compute tasks, tasks in random order.
fn pushed(makes: Makes, seed: u64, count: u64) -> Result<Tally, String> {
    let many = Ways { pipelines: 3, left_pipe: true, ..Ways::default() };
    let all = [(0, many), (seed, many), (seed, Ways::default())].into_iter();
    let mut tally = Tally::default();
    for (order, ways, kind) in all.flat_map(|(order, ways)| COMPARED.map(|kind| (order, ways, kind))) {
        polars_async::executor::shuffle(order);
        tally.add(&steps(makes.turns, kind, seed, count, ways)?);
    }
    Ok(tally)
}

/// Right frames as the node asks for them, and all frames in one phase.
fn pulled(makes: Makes, seed: u64, count: u64) -> Result<(Tally, Bursts), String> {
    let ways = Ways { pipelines: 2, left_pipe: true, right_pipe: true, ..Ways::default() };
    let (mut tally, mut bursts) = (Tally::default(), Bursts::default());
    whole(makes, seed, count, ways)?;
    for kind in COMPARED {
        tally.add(&steps(makes.turns, kind, seed, count, ways)?);
        tally.add(&steps(makes.runs, kind, seed, count, ways)?);
        bursts.run(makes.turns, kind, seed, count)?;
    }
    Ok((tally, bursts))
}

/// What scripts whose frames all come in one phase had in them.
#[derive(Default)]
struct Bursts {
    scripts: u64,
    matched: u64,
    /// Those stopped by an order fault of left rows, and of right rows.
    left: u64,
    right: u64,
    /// Those in which the Rust saw faults of both sides, in no order.
    both: u64,
}

impl Bursts {
    /// Scripts of one kind.
    fn run(&mut self, make: Make, kind: Kind, seed: u64, count: u64) -> Result<(), String> {
        for i in 0..count {
            let calls = make(kind, seed, i);
            self.script(&calls, kind == Kind::Whole).map_err(|why| failure("all frames in one phase", &calls, &why))?;
        }
        Ok(())
    }

    /// All left and right frames of a script in one phase, as the Rust runs them when nobody counts turns.
    fn script(&mut self, calls: &[Call], sorted: bool) -> Result<(), String> {
        let options = opening(calls).expect("a script opens first").0.options;
        let frames = |pick: fn(&Call) -> Option<&Vec<i64>>| calls.iter().filter_map(pick).cloned().collect::<Vec<_>>();
        let left = frames(|c| if let Call::Left(w) = c { Some(w) } else { None });
        let right = frames(|c| if let Call::Right(w) = c { Some(w) } else { None });
        let ways = Ways { pipelines: 3, ..Ways::default() };
        let mut join = crate::rust::Join::open(&options, ways).ok_or("refused")?;
        let (wrote, spoiled) = join.burst(&left, &right).ok_or("no frame")?;
        let (ruled, fault) = all_at_once(&options, &left, &right);
        self.compare(&wrote, spoiled, &ruled, fault)?;
        if sorted { by_whole_table(options, left, right, wrote) } else { Ok(()) }
    }

    /// Without a fault the Rust wrote what the rules wrote. With one, what it wrote of the frames before is the same: its
    /// tasks run ahead of each other, so it may have sent less of them, and frames behind.
    fn compare(
        &mut self,
        wrote: &[Answer],
        spoiled: Option<Spoiled>,
        ruled: &[Answer],
        fault: Option<u8>,
    ) -> Result<(), String> {
        let before = |a: &&Answer| matches!(a, Answer::Wrote(seq, _) if *seq < 2 * ruled.len() as u64);
        let same = wrote.iter().filter(before).all(|a| ruled.contains(a));
        let sides = spoiled.map(|s| (s.left, s.right));
        let stopped = match (fault, sides) {
            (None, None) => wrote.len() == ruled.len(),
            (Some(8), Some((left, _))) => left,
            (Some(9), Some((_, right))) => right,
            _ => false,
        };
        self.scripts += 1;
        self.left += (fault == Some(8)) as u64;
        self.right += (fault == Some(9)) as u64;
        self.both += (sides == Some((true, true))) as u64;
        self.matched += ruled.iter().map(matches).sum::<u64>();
        let text = |answers: &[Answer]| answers.iter().map(|a| a.to_string()).collect::<Vec<_>>().join(", ");
        let what = || format!("the Rust {} {sides:?}, the rules {} {fault:?}", text(wrote), text(ruled));
        if same && stopped { Ok(()) } else { Err(what()) }
    }
}

impl fmt::Display for Bursts {
    /// The counts on one line.
    fn fmt(&self, f: &mut fmt::Formatter<'_>) -> fmt::Result {
        let Bursts { scripts, matched, left, right, both } = self;
        write!(f, "{scripts} in one phase, {matched} rows matched, {left} stopped by 8, {right} by 9, {both} by both")
    }
}

/// How many rows a turn matched.
fn matches(answer: &Answer) -> u64 {
    let Answer::Wrote(_, words) = answer else { return 0 };
    written(words)[0]
}

/// What a sorted script wrote where all its frames came in one phase, by the whole-table rule.
fn by_whole_table(o: Options, left: Vec<Vec<i64>>, right: Vec<Vec<i64>>, wrote: Vec<Answer>) -> Result<(), String> {
    let handed = left.into_iter().map(Call::Left).chain(right.into_iter().map(Call::Right));
    let turns = vec![Call::Turn(ROOM); wrote.len()];
    let opens = [Call::Options(o), Call::Opens(ROOM, ROOM)];
    let calls: Vec<Call> = opens.into_iter().chain(handed).chain(turns).collect();
    let oks = vec![Answer::Ok; calls.len() - wrote.len()];
    whole_table::judge_whole(&calls, &[oks, wrote].concat()).map(|_| ())
}

/// SCOPE 15.12 and 16.1: the rules' own promises, over scripts full of refusals. These must all have come, those of lists
/// too where there are lists.
pub fn refusals(makes: Makes, seed: u64, count: u64, due: &[usize]) -> Step {
    let mut refused = [0u64; 13];
    for i in 0..count {
        let calls = (makes.turns)(Kind::Refusals, seed, i);
        let judged = keeps_count(&calls, &mut refused);
        let judged = judged
            .and_then(|_| whole_table::judge(&calls, &compare::answers(&mut Rules::default(), &calls)).map(|_| ()));
        judged.map_err(|why| failure(&format!("refusals, seed {seed}, script {i}"), &calls, &why))?;
    }
    if due.iter().any(|n| refused[*n] == 0) {
        return Err(format!("a refusal never came: {refused:?}"));
    }
    Ok(format!("{count} scripts, refused by 1 to 12: {:?} (2 and 7 cannot be reached by scripts)", &refused[1..]))
}

/// Counts one script's accepted rows beside the rules.
fn keeps_count(calls: &[Call], refused: &mut [u64; 13]) -> Result<(), String> {
    let mut rules = Rules::default();
    let (mut right, mut left, mut written, mut waiting) = (0, 0, 0, std::collections::VecDeque::new());
    for call in calls {
        let before = rules.look().cloned();
        let answer = rules.call(call);
        let Some(look) = rules.look() else {
            if let Answer::Refused(n) = answer {
                refused[n as usize] += 1;
            }
            continue;
        };
        match (call, &answer) {
            (Call::Right(w), Answer::Ok) => right += frame_rows(w[1] as usize, w).len() as u64,
            (Call::Left(w), Answer::Ok) => {
                left += w[0];
                waiting.push_back(w[0]);
            },
            (_, Answer::Wrote(_, w)) => {
                written += w[0];
                waiting.pop_front();
            },
            (_, Answer::Refused(n)) => {
                refused[*n as usize] += 1;
                let mut same = before.unwrap();
                same.failed |= matches!(n, 8 | 9);
                if same != *look {
                    return Err(format!("{call}: {answer} changed the join"));
                }
            },
            _ => {},
        }
        if right != look.pruned + look.held as u64 || left != written + waiting.iter().sum::<i64>() {
            return Err(format!("{call}: rows are lost"));
        }
    }
    Ok(())
}

/// Runs the steps in order, each with its time; whether all went well.
pub fn run(steps: Vec<Named>) -> bool {
    let mut well = true;
    for (name, step) in steps {
        let start = Instant::now();
        let said = step();
        let mark = if said.is_ok() { "ok  " } else { "FAIL" };
        println!("{mark} {name}: {} ({:.1} s)", said.as_ref().unwrap_or_else(|e| e), start.elapsed().as_secs_f64());
        well &= said.is_ok();
    }
    well
}

/// The refusals that scripts without lists reach, and those that scripts with lists do.
const DUE: [usize; 8] = [1, 3, 4, 5, 6, 8, 9, 10];
const DUE_LISTED: [usize; 10] = [1, 3, 4, 5, 6, 8, 9, 10, 11, 12];

/// The whole self-test with so many random scripts a kind, half as many with distances, and half as many with lists.
pub fn all(seed: u64, count: u64) -> bool {
    let mut steps: Vec<Named> = vec![
        ("worked cases", Box::new(counter_cases)),
        ("runs", Box::new(run_cases)),
        ("moves", Box::new(move_cases)),
        ("longest frames", Box::new(longest_frames)),
        ("findings", Box::new(crate::findings::all)),
        ("all short scripts", Box::new(|| short_scripts(exhaustive::all, Ways::default()))),
        ("whole-table rule", Box::new(move || whole(PLAIN, seed, 2 * count, Ways::default()))),
        ("the two judges", Box::new(move || judges(PLAIN, seed, count))),
        ("step rules", Box::new(move || all_kinds(PLAIN, seed, count))),
        ("carried columns", Box::new(move || carried(seed, count))),
        ("runs", Box::new(move || runs(PLAIN, seed, count))),
        ("large tables", Box::new(move || large(PLAIN, seed, 12.max(count / 200)))),
        ("ways of feeding", Box::new(move || ways(PLAIN, seed, count / 8))),
        ("refusals", Box::new(move || refusals(PLAIN, seed, count, &DUE))),
        ("books, cases", Box::new(books::cases)),
        ("plans, cases", Box::new(books::plans)),
        ("places of cuts, cases", Box::new(books::places)),
        ("cuts, cases", Box::new(books::cuts)),
        ("takings, cases", Box::new(books::takings)),
        ("readers, cases", Box::new(books::readers)),
        ("spans, cases", Box::new(spans::cases)),
        ("spans, longest tables", Box::new(spans::longest)),
        ("spans, findings", Box::new(spans::findings)),
        ("spans, all short inputs", Box::new(spans::short_inputs)),
        ("spans, points in intervals", Box::new(move || spans::random(seed, 4 * count))),
        ("spans, ways of feeding", Box::new(move || spans::ways(seed, count))),
    ];
    steps.extend(with_distances(seed, 250.max(count / 2)));
    steps.extend(with_lists(seed, 250.max(count / 2)));
    run(steps)
}

/// The steps over scripts whose answers tell the distance.
pub fn with_distances(seed: u64, count: u64) -> Vec<Named> {
    vec![
        ("distance, worked cases", Box::new(distance_cases)),
        ("distance, the two judges", Box::new(move || judges(DISTANT, seed, count))),
        ("distance, step rules", Box::new(move || all_kinds(DISTANT, seed, count))),
        ("distance, runs", Box::new(move || runs(DISTANT, seed, count))),
        ("distance, large tables", Box::new(move || large(DISTANT, seed, 12.max(count / 200)))),
        ("distance, refusals", Box::new(move || refusals(DISTANT, seed, 2 * count, &DUE))),
        ("distance and nothing else", Box::new(move || distances(seed, count))),
    ]
}

/// The steps over scripts with lists of codes.
pub fn with_lists(seed: u64, count: u64) -> Vec<Named> {
    let written = Ways { writes: true, ..Ways::default() };
    vec![
        ("lists, worked cases", Box::new(ranks::cases)),
        ("lists, all short scripts", Box::new(|| short_scripts(exhaustive::listed, Ways::default()))),
        ("lists, whole-table rule", Box::new(move || whole(LISTED, seed, count, Ways::default()))),
        ("lists, the two judges", Box::new(move || judges(LISTED, seed, count))),
        ("lists, step rules", Box::new(move || all_kinds(LISTED, seed, count))),
        ("lists, runs", Box::new(move || runs(LISTED, seed, count))),
        ("lists, large tables", Box::new(move || large(LISTED, seed, 12.max(count / 200)))),
        ("lists, ways of feeding", Box::new(move || ways(ranks::TAKEN, seed, count / 8))),
        ("lists, refusals", Box::new(move || refusals(LISTED, seed, count, &DUE_LISTED))),
        ("lists, places for codes", Box::new(move || ranks::places(seed, count))),
        ("lists, short scripts with lacked values", Box::new(move || short_scripts(exhaustive::lacked, written))),
        ("lists, lacked values", Box::new(move || ranks::lacked(seed, count))),
        ("lists, a host that writes", Box::new(move || ranks::handed(seed, 2000.max(count)))),
    ]
}
