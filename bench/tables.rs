//! The tables that are joined, and the frames that they are cut into.

/// A table without nulls: a group for each row, or none at all, and its key.
pub struct Table {
    pub groups: Vec<i64>,
    pub keys: Vec<i64>,
}

/// Rows in a frame.
pub const FRAME_ROWS: usize = 4096;

/// Numbers that look random and are the same in every run (xorshift).
struct Random(u64);

impl Random {
    /// The next number below a bound.
    fn below(&mut self, bound: u64) -> u64 {
        self.0 ^= self.0 << 13;
        self.0 ^= self.0 >> 7;
        self.0 ^= self.0 << 17;
        self.0 % bound
    }
}

/// A sorted table: its rows in groups of equal size, in each of which the key goes up by 0 to `step` from row to row. With a
/// step of 0 all keys are equal.
pub fn make_table(rows: usize, groups: usize, step: u64, seed: u64) -> Table {
    let mut random = Random(seed);
    let size = rows.div_ceil(groups.max(1));
    let mut table = Table { groups: vec![], keys: vec![] };
    let mut key = 0;
    for row in 0..rows {
        if row % size == 0 {
            key = 0;
        }
        key += random.below(step + 1) as i64;
        table.keys.push(key);
        if groups > 0 {
            table.groups.push((row / size) as i64);
        }
    }
    table
}

/// Rows from..to of a table as a frame: n, c, the values row by row, the marks.
fn make_frame(table: &Table, from: usize, to: usize) -> Vec<i64> {
    let columns = if table.groups.is_empty() { 1 } else { 2 };
    let mut frame = vec![(to - from) as i64, columns as i64];
    for row in from..to {
        if columns == 2 {
            frame.push(table.groups[row]);
        }
        frame.push(table.keys[row]);
    }
    frame.resize(2 + 2 * (to - from) * columns, 1);
    frame
}

/// A table cut into frames.
pub fn make_frames(table: &Table) -> Vec<Vec<i64>> {
    let rows = table.keys.len();
    (0..rows).step_by(FRAME_ROWS).map(|from| make_frame(table, from, rows.min(from + FRAME_ROWS))).collect()
}
