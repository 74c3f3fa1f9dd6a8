//! SCOPE 19.23 to 19.26, how large an area to lend, by the port: words that are only read, each slice between guard words.
use judges::script::{Answer, Plan};
use rowkeeper::raw::{self, safe};

use crate::refused;
use crate::tables::lent;

/// The answer to a plan, and what the call did that no answer tells and none may do.
pub fn plan(options: raw::Options, plan: &Plan) -> (Answer, Option<&'static str>) {
    let words = [&plan.left, &plan.right, &plan.left_heights, &plan.right_heights];
    let [left, right, left_heights, right_heights] = words.map(|words| lent(words));
    let said = safe::plan(options, left.get(), right.get(), left_heights.get(), right_heights.get());
    let figures = [said.rows, said.turns, said.rights];
    let lent = [left, right, left_heights, right_heights];
    let altered = lent.iter().zip(words).any(|(lent, words)| !lent.intact() || lent.get() != words);
    let wrongs = [
        (altered, "a table or its heights were altered"),
        (said.refusal != 0 && figures != [0; 3], "a refused call told figures"),
    ];
    let answer = if said.refusal == 0 { Answer::Planned(figures) } else { refused(said.refusal) };
    (answer, wrongs.into_iter().find(|(is_so, _)| *is_so).map(|(_, what)| what))
}
