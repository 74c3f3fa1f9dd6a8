//! SCOPE 19.27 and 19.28, where a table is cut, by the port: a table, boundaries and an output, each between guard words.
use judges::script::{Answer, Places};
use rowkeeper::raw::{self, safe};

use crate::tables::{answer, lent, output};

/// The places of the cuts, and what the call did that no answer tells and none may do.
pub fn place(options: raw::Options, call: &Places) -> (Answer, Option<&'static str>) {
    let (table, boundaries, mut out) = (lent(&call.table), lent(&call.boundaries), output(call.output));
    let said = safe::cut(options, call.side, table.get(), boundaries.get(), out.get_mut());
    answer(said, 1, &[(&table, &call.table), (&boundaries, &call.boundaries)], &out)
}
