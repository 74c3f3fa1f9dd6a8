//! SCOPE 19.34 to 19.36, two tables cut and joined pair by pair, by the port: tables, boundaries, two areas and an output, each between
//! guard words. The areas are as a join's are before it is opened.
use judges::script::{Answer, Pairs};
use rowkeeper::raw::{self, safe};

use crate::tables::{answer, lent, output, untouched};
use crate::{Guarded, new_left, new_right};

/// Whether an area has other words than it was lent with, or another guard word.
fn altered(area: &Guarded, lent: &Guarded) -> bool {
    !area.intact() || area.get() != lent.get()
}

/// The answer of the uncut tables, of so many columns, and what the call did that no answer tells and none may do. A call that altered an
/// area, or the output behind what it wrote, answers that it did.
pub fn cut(options: raw::Options, columns: usize, call: &Pairs) -> (Answer, Option<&'static str>) {
    let (left, right, boundaries) = (lent(&call.left), lent(&call.right), lent(&call.boundaries));
    let areas = || (new_left(call.areas[0]), new_right(call.areas[1]));
    let ((left_area, right_area), mut out) = (areas(), output(call.output));
    let said = safe::join_cut(
        options,
        left.get(),
        right.get(),
        boundaries.get(),
        left_area.get(),
        right_area.get(),
        out.get_mut(),
    );
    let read = [(&left, &call.left[..]), (&right, &call.right), (&boundaries, &call.boundaries)];
    let (told, wrong) = answer(said, columns, &read, &out);
    let touched = altered(&left_area, &areas().0) || altered(&right_area, &areas().1);
    let behind = matches!(&told, Answer::Table(words) if !untouched(&out, words.len()));
    let told = if touched || behind { Answer::Altered } else { told };
    (told, wrong.or(touched.then_some("an area was altered")))
}
