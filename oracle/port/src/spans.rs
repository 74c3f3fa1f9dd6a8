//! SCOPE 19, points in intervals, by the port: one call over two tables and an output, each between guard words.
use judges::script::{Answer, Spans};
use rowkeeper::raw::safe;

use crate::tables::{answer as told, lent, output};

/// The answer, and what the call did that no answer tells and none may do.
pub fn answer(spans: &Spans) -> (Answer, Option<&'static str>) {
    let (points, intervals, mut out) = (lent(&spans.points), lent(&spans.intervals), output(spans.output));
    let said = safe::spans(points.get(), intervals.get(), spans.lower as u64, spans.upper as u64, out.get_mut());
    told(said, 2, &[(&points, &spans.points), (&intervals, &spans.intervals)], &out)
}
