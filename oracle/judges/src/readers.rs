//! SCOPE 19.17 to 19.22, the two answer readers, as plainly as they can be said: a frame is taken apart into rows of cells, and a
//! place is looked up in these. It shares no code with the port or with the step rules.
use crate::books::cells_of;
use crate::script::{Answer, Read};

/// The numbers of a reader's refusals, in the order in which they are looked for.
pub const READ_REFUSALS: [u8; 3] = [10, 5, 13];

/// The rows of a frame and its columns; none where the words break the frame rule for the columns that they tell. A frame of no
/// columns has rows without cells.
fn rows(words: &[i64]) -> Option<(Vec<Vec<Option<i64>>>, i128)> {
    let [n @ 0..=4096, c @ 0..=i64::MAX, cells @ ..] = words else { return None };
    let (rows, columns) = (*n as usize, *c as i128);
    if cells.len() as i128 != 2 * rows as i128 * columns {
        return None;
    }
    let all = cells_of(cells)?;
    let row = |i: usize| all.iter().skip(i * (all.len() / rows)).take(all.len() / rows).copied().collect();
    Some(((0..rows).map(row).collect(), columns))
}

/// "A plain reader shows the value and mark at each row and column of a frame of 1 + p columns and refuses any other; a distance
/// reader shows 2 + p as well"; "above 8 being 10, checked first; a place outside the frame reads as null"; "13, a column count
/// that the reader does not know, after 12; 5 is here the frame rule alone".
pub fn answer(call: &Read) -> Answer {
    if call.carried > 8 {
        return Answer::Refused(10);
    }
    let Some((rows, columns)) = rows(&call.frame) else { return Answer::Refused(5) };
    let known = [Some(1), call.distance.then_some(2)];
    if !known.iter().flatten().any(|more| columns == call.carried as i128 + more) {
        return Answer::Refused(13);
    }
    let at = |place: u64| usize::try_from(place).unwrap_or(usize::MAX);
    let cell = rows.get(at(call.row)).and_then(|row| row.get(at(call.column))).copied().flatten();
    Answer::Cell(cell.unwrap_or(0), cell.is_some() as i64)
}
