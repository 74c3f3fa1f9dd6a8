//! Words that a host hands in, as the Rust's columns.

/// A frame's columns, or none where its words break SCOPE's frame rule or have other columns: no such frame can be made.
pub fn columns(words: &[i64], c: usize) -> Option<Vec<Vec<Option<i64>>>> {
    let [n, columns, cells @ ..] = words else { return None };
    if !(0..=4096).contains(n) || *columns != c as i64 || cells.len() != 2 * *n as usize * c {
        return None;
    }
    let n = *n as usize;
    let (values, marks) = cells.split_at(n * c);
    if values.iter().zip(marks).any(|(v, m)| !(*m == 1 || (*m == 0 && *v == 0))) {
        return None;
    }
    let cell = |at: usize| (marks[at] == 1).then_some(values[at]);
    Some((0..c).map(|j| (0..n).map(|i| cell(i * c + j)).collect()).collect())
}
