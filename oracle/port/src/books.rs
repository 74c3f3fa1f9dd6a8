//! SCOPE 19.8 to 19.16, books of notices, by the port: calls over tables and an output, each between guard words.
use judges::script::{Answer, Merge, Standing};
use rowkeeper::raw::{self, safe};

use crate::tables::{answer, lent, output};

/// The answer to a merge of books of so many columns, and what the call did that no answer tells and none may do.
pub fn merge(options: raw::Options, columns: usize, merge: &Merge) -> (Answer, Option<&'static str>) {
    let (house, festival, mut out) = (lent(&merge.house), lent(&merge.festival), output(merge.output));
    let said = safe::merge(options, house.get(), festival.get(), out.get_mut());
    answer(said, columns, &[(&house, &merge.house), (&festival, &merge.festival)], &out)
}

/// The answer to standing, and what the call did that no answer tells and none may do.
pub fn standing(options: raw::Options, standing: &Standing) -> (Answer, Option<&'static str>) {
    let (book, mut out) = (lent(&standing.book), output(standing.output));
    let said = safe::standing(options, book.get(), standing.place, out.get_mut());
    answer(said, 2, &[(&book, &standing.book)], &out)
}
