//! What all calls over tables are asked: that they alter nothing but the output's front, and tell what they wrote.
use judges::script::Answer;
use rowkeeper::raw;

use crate::{Guarded, blank, refused};

/// Words that a call only reads, between guard words.
pub fn lent(words: &[i64]) -> Guarded {
    Guarded::new(words.iter().copied())
}

/// An output of this length before the call.
pub fn output(length: usize) -> Guarded {
    Guarded::new((0..length).map(blank))
}

/// Whether an output's words are as they were before the call, from this one on.
pub fn untouched(out: &Guarded, from: usize) -> bool {
    out.get().iter().enumerate().skip(from).all(|(i, w)| *w == blank(i))
}

/// The answer of a call that writes a table of so many columns, and what it did that no answer tells and none may do. Each table
/// comes with the words that it had. A refused call that altered its output answers that it did.
pub fn answer(
    said: raw::Written,
    columns: usize,
    tables: &[(&Guarded, &[i64])],
    out: &Guarded,
) -> (Answer, Option<&'static str>) {
    let length = out.get().len();
    let cells = said.rows.saturating_mul(2).saturating_mul(columns as u64);
    let written = if said.refusal == 0 { cells.saturating_add(2) } else { 0 };
    let end = usize::try_from(written).unwrap_or(usize::MAX).min(length);
    let rest = untouched(out, end);
    let altered = tables.iter().any(|(table, words)| !table.intact() || table.get() != *words);
    let wrongs = [
        (altered, "a table was altered"),
        (!out.intact(), "a guard word of the output was altered"),
        (written > length as u64, "more rows were told than the output has room for"),
        (said.refusal == 0 && !rest, "the output was altered where nothing is written"),
        (said.refusal != 0 && said.rows != 0, "a refused call told rows"),
    ];
    let answer = match said.refusal {
        0 => Answer::Table(out.get()[..end].to_vec()),
        _ if !rest => Answer::Altered,
        number => refused(number),
    };
    (answer, wrongs.into_iter().find(|(is_so, _)| *is_so).map(|(_, what)| what))
}
