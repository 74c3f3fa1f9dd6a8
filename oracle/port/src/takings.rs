//! SCOPE 19.29 to 19.33, takings, by the port: tables, frames and an output, each between guard words.
use judges::script::{Adding, Answer, Joining};
use rowkeeper::raw::{self, safe};

use crate::Guarded;
use crate::tables::{answer, lent, output};

/// The answer of a call under options with so many by-columns, and what it did that no answer tells and none may do.
fn told(said: raw::Taken, by: usize, read: &[(&Guarded, &[i64])], out: &Guarded) -> (Answer, Option<&'static str>) {
    let written = raw::Written { refusal: said.refusal, rows: said.rows };
    let (told, wrong) = answer(written, by.saturating_add(2), read, out);
    let number = (said.refusal != 0 && said.number != 0).then_some("a refused call told a number");
    let told = match told {
        Answer::Table(words) => Answer::Took(said.number, words),
        other => other,
    };
    (told, wrong.or(number))
}

/// A frame's sales added to a table.
pub fn add(options: raw::Options, by: usize, call: &Adding) -> (Answer, Option<&'static str>) {
    let (table, left, answers) = (lent(&call.table), lent(&call.left), lent(&call.answers));
    let mut out = output(call.output);
    let said = safe::takings_add(options, table.get(), call.number, left.get(), answers.get(), out.get_mut());
    told(said, by, &[(&table, &call.table), (&left, &call.left), (&answers, &call.answers)], &out)
}

/// Two tables joined.
pub fn join(options: raw::Options, by: usize, call: &Joining) -> (Answer, Option<&'static str>) {
    let ([number, other_number], [table, other]) = (call.numbers, [lent(&call.tables[0]), lent(&call.tables[1])]);
    let mut out = output(call.output);
    let said = safe::takings_join(options, table.get(), number, other.get(), other_number, out.get_mut());
    told(said, by, &[(&table, &call.tables[0]), (&other, &call.tables[1])], &out)
}
