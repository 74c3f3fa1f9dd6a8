//! SCOPE 19.17 to 19.22, the answer readers, by the port: one place through the reader, and again through its view.
use judges::script::{Answer, Read};
use rowkeeper::raw::{Cell, Shown, safe};

use crate::refused;
use crate::tables::lent;

/// The place through the reader's view: a view, and then the cell by what it tells.
fn viewed(read: &Read, frame: &[i64]) -> Shown {
    let view = if read.distance { safe::view_distance } else { safe::view_plain };
    let view = view(read.carried, frame);
    match view.refusal {
        0 => {
            let Cell { value, mark } = safe::view_cell(view.rows, view.columns, frame, read.row, read.column);
            Shown { refusal: 0, value, mark }
        },
        // What stands beside a refusal is told too: it must be zeros.
        refusal => Shown { refusal, value: view.rows as i64, mark: view.columns as i64 },
    }
}

/// The answer, and what the calls did that no answer tells and none may do.
pub fn answer(read: &Read) -> (Answer, Option<&'static str>) {
    let frame = lent(&read.frame);
    let one = if read.distance { safe::read_distance } else { safe::read_plain };
    let said = one(read.carried, frame.get(), read.row, read.column);
    let by_view = viewed(read, frame.get());
    let told = |shown: &Shown| (shown.refusal, shown.value, shown.mark);
    let wrongs = [
        (!frame.intact() || frame.get() != read.frame, "the frame was altered"),
        (said.refusal != 0 && (said.value, said.mark) != (0, 0), "a refused read told a word"),
        (told(&said) != told(&by_view), "the view tells another cell than the reader"),
    ];
    let answer = if said.refusal == 0 { Answer::Cell(said.value, said.mark) } else { refused(said.refusal) };
    (answer, wrongs.into_iter().find(|(is_so, _)| *is_so).map(|(_, what)| what))
}
