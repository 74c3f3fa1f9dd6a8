//! What docs/DIFFERENCES.md says of the Rust, shown again by its smallest scripts.
use std::panic::{AssertUnwindSafe, catch_unwind};

use judges::generate::{Kind, script};
use judges::script::{Answer, Call, Judge, Options, opening, parse_script};

use crate::compare::answers;
use crate::rust::{Join, Rust, Spoiled, Ways};

/// A finding holds, or what was seen instead.
type Found = Result<(), String>;

/// A finding's name, and what shows it again.
type Finding = (&'static str, fn() -> Found);

/// The answers to a script, as lines.
fn said(ways: Ways, text: &str) -> Vec<String> {
    let calls = parse_script(text).unwrap();
    answers(&mut Rust::fed(ways), &calls).iter().map(|a| a.to_string()).collect()
}

/// Holds where the two are equal.
fn equal<T: PartialEq + std::fmt::Debug>(what: &str, is: T, should: T) -> Found {
    if is == should { Ok(()) } else { Err(format!("{what}: {is:?}, not {should:?}")) }
}

/// The options of a script's first line.
fn open(text: &str) -> Options {
    opening(&parse_script(text).unwrap()).expect("a script opens first").0.options
}

/// 1: left and right faults in one turn arise side by side; SCOPE says 8.
fn both_sides() -> Found {
    let text = "open 0 0 1 -1 1 6 4\nright 2 1 1 0 1 1\nend\nleft 2 1 2 1 1 1\nturn 6";
    let mut rust = Rust::default();
    let said = answers(&mut rust, &parse_script(text).unwrap());
    equal("answer", said[4].clone(), Answer::Refused(8))?;
    let spoiled = rust.join.and_then(|j| j.spoiled());
    equal("both sides", spoiled, Some(Spoiled { left: true, right: true, sent: 0 }))
}

/// 2: no spoiled turn had sent anything, though the split is checked after the frame went to the other task.
fn nothing_sent() -> Found {
    let mut spoiled = 0;
    for i in 0..2000 {
        let mut rust = Rust::default();
        script(Kind::Order, 7, i).iter().for_each(|c| drop(rust.call(c)));
        let seen = rust.join.and_then(|j| j.spoiled());
        spoiled += seen.is_some() as u64;
        equal("sent", seen.map_or(0, |s| s.sent), 0)?;
    }
    equal("turns were spoiled", spoiled > 0, true)
}

/// 3: at sequence 2^64 − 2 the Rust panics, after the frame went to the other task.
fn last_sequence() -> Found {
    let mut join = Join::open_any(&open("open 0 0 1 -1 0 4 0"), Ways::default());
    let frame = Call::Left(vec![0, 1]);
    join.set_sequence(i64::MAX as u64 - 1);
    equal("left", [join.call(&frame), join.call(&frame)], [Answer::Ok, Answer::Ok])?;
    equal("last but one", join.turn(), Answer::Wrote(u64::MAX - 3, vec![0, 1]))?;
    equal("panics", panics(|| drop(join.turn())), true)
}

/// Whether it panics; the panic's text is not printed.
fn panics(f: impl FnOnce()) -> bool {
    let hook = std::panic::take_hook();
    std::panic::set_hook(Box::new(|_| {}));
    let out = catch_unwind(AssertUnwindSafe(f)).is_err();
    std::panic::set_hook(hook);
    out
}

/// 4: the Rust pulls right frames only until it needs no more; on unsorted rows the answers are others than over all
/// accepted rows.
fn pulled_rows() -> Found {
    let pulled = Ways { right_pipe: true, ..Ways::default() };
    let checked = "open 0 0 1 -1 1 2 4\nright 2 1 1 0 1 1\nleft 0 1\nturn 2";
    equal("held, checked", said(Ways::default(), checked)[3].as_str(), "refused 9")?;
    equal("pulled, checked", said(pulled, checked)[3].as_str(), "wrote 0 0 1")?;
    let matched = "open 0 1 1 -1 0 6 4\nright 1 1 1 1\nright 1 1 2 1\nleft 2 1 2 0 1 1\nturn 6";
    equal("held", said(Ways::default(), matched)[4].as_str(), "wrote 0 2 1 1 1 1 1")?;
    equal("pulled", said(pulled, matched)[4].as_str(), "wrote 0 2 1 0 0 0 0")
}

/// 5: Nearest without equality is taken by the Rust, which needs more as with equality.
fn nearest_without_equality() -> Found {
    let mut join = Join::open_any(&open("open 0 2 0 -1 0 4 4"), Ways::default());
    let script = parse_script("left 1 1 5 1\nright 1 1 5 1\nturn 4").unwrap();
    let said: Vec<Answer> = script.iter().map(|c| join.call(c)).collect();
    equal("wants", said, vec![Answer::Ok, Answer::Ok, Answer::Wants])
}

/// 6: a turn in Done is unreachable to the Rust.
fn turn_in_done() -> Found {
    let mut join = Join::open_any(&open("open 0 0 1 -1 0 0 0"), Ways::default());
    equal("ports", join.call(&Call::Ports([1, 1, 2])), Answer::Ports([2, 2, 2], 2))?;
    equal("panics", panics(|| drop(join.turn())), true)
}

/// 7: right Done by the ports does not end right; only the end call does.
fn right_done_by_ports() -> Found {
    let text = "open 0 0 1 -1 0 4 0\nleft 1 1 5 1\nports 1 2 1\nturn 4\nend\nturn 4";
    equal("answers", said(Ways::default(), text)[2..].join(", ").as_str(), "ok 1 1 1 0, wants, ok, wrote 0 1 1 0 0")
}

/// All findings that a script can show.
pub fn all() -> Result<String, String> {
    let findings: [Finding; 7] = [
        ("1 both sides", both_sides),
        ("2 nothing sent", nothing_sent),
        ("3 last sequence", last_sequence),
        ("4 pulled rows", pulled_rows),
        ("5 Nearest without equality", nearest_without_equality),
        ("6 turn in Done", turn_in_done),
        ("7 right Done by the ports", right_done_by_ports),
    ];
    for (name, finding) in findings {
        finding().map_err(|why| format!("{name}: {why}"))?;
    }
    Ok(format!("{} of docs/DIFFERENCES.md shown again", findings.len()))
}
