//! A join as words, in the order of include/rowkeeper.h: layout, options, counters and flags, the two remembered rows.
use crate::rules::Row;
use crate::script::{JoinWords, Look, MOST_CODES, Options, Ranks};

/// A remembered row's words: whether there is one, five values, five marks.
pub type RowWords = [i64; 11];

/// The places of a list's codes in the order of the codes as numbers, as a join keeps them: a byte each.
pub type Rising = [u8; MOST_CODES];

/// The first word of every join: the bytes "rowkeep", then the layout's version.
const LAYOUT: i64 = 0x726f_776b_6565_7004;

/// The place of the order check's setting, and of p.
pub const CHECK: usize = 5;
pub const CARRIED: usize = 14;
/// The place of the list: whether there is one; then its column, its count, its codes. Behind it whether the distance is
/// written, then the places of the codes.
pub const RANKS: usize = 15;
pub const CODES: usize = 18;
pub const DISTANCE: usize = 82;
pub const RISING: usize = 83;
/// The place of the first counter, and those of counters and flags that have a name elsewhere.
pub const COUNTERS: usize = 91;
pub const PRUNED: usize = 93;
pub const QUEUE_START: usize = 94;
pub const STATE: usize = 96;
pub const ENDED: usize = 97;
pub const SEQUENCE: usize = 99;
/// The place of the left remembered row and of the right one.
pub const ROWS: [usize; 2] = [100, 111];

/// A row that is remembered: "value and mark 1, or 0 and 0, zeros up to five words".
pub fn row_words(row: &Row) -> RowWords {
    let mut out = [0; 11];
    out[0] = 1;
    for (j, cell) in row.iter().enumerate() {
        (out[1 + j], out[6 + j]) = (cell.unwrap_or(0), cell.is_some() as i64);
    }
    out
}

/// A remembered row's cells: "any nonzero mark is present, and a null's value is not read".
fn row_cells(c: usize, w: &RowWords) -> Option<Option<Row>> {
    let cell = |j: usize| (w[6 + j] != 0).then_some(w[1 + j]);
    Some(flag(w[0])?.then(|| (0..c.min(5)).map(cell).collect()))
}

/// A flag's word, or none where it is neither 0 nor 1.
fn flag(word: i64) -> Option<bool> {
    match word {
        0 => Some(false),
        1 => Some(true),
        _ => None,
    }
}

/// The word of the order check, or none where there is no such setting.
fn setting(word: i64) -> Option<i64> {
    (0..=2).contains(&word).then_some(word)
}

/// Four flags' words.
fn flags(words: &[i64]) -> Option<Vec<bool>> {
    words.iter().map(|w| flag(*w)).collect()
}

/// The options' words, without their list and the distance.
pub fn options(o: &Options) -> [i64; 14] {
    let mut out = [0; 14];
    out[..5].copy_from_slice(&[o.b as i64, o.strategy, o.eq as i64, o.tolerance, o.check as i64 + o.strict as i64]);
    for j in 0..o.descending.len().min(4) {
        (out[5 + j], out[9 + j]) = (o.descending[j] as i64, o.nulls_last[j] as i64);
    }
    out[13] = o.carried as i64;
    out
}

/// The words of the places of a list's codes: eight places a word, the first in the lowest byte.
pub fn rising_words(rising: &Rising) -> [i64; MOST_CODES / 8] {
    std::array::from_fn(|i| i64::from_le_bytes(rising[8 * i..8 * i + 8].try_into().unwrap()))
}

/// The places that these words tell.
fn rising_of(words: &[i64]) -> Rising {
    std::array::from_fn(|p| words[p / 8].to_le_bytes()[p % 8])
}

/// A join's words.
pub fn encode(o: &Options, rising: &Rising, l: &Look, rows: &[RowWords; 2]) -> JoinWords {
    let mut out = [0; 122];
    out[0] = LAYOUT;
    out[1..RANKS].copy_from_slice(&options(o));
    out[RANKS..CODES].copy_from_slice(&[o.ranks.given as i64, o.ranks.column as i64, o.ranks.count as i64]);
    out[CODES..DISTANCE].copy_from_slice(&o.ranks.codes);
    out[DISTANCE] = o.distance as i64;
    out[RISING..COUNTERS].copy_from_slice(&rising_words(rising));
    let counters = [l.base as i64, l.held as i64, l.pruned as i64, l.queue_start as i64, l.queue_words as i64];
    let flags = [l.state as i64, l.ended as i64, l.failed as i64, l.sequence as i64];
    out[COUNTERS..STATE].copy_from_slice(&counters);
    out[STATE..ROWS[0]].copy_from_slice(&flags);
    for (row, at) in rows.iter().zip(ROWS) {
        out[at..at + 11].copy_from_slice(row);
    }
    out
}

/// The list of these words, or none where its flag is neither 0 nor 1. All else may be anything.
fn list(w: &JoinWords) -> Option<Ranks> {
    Some(Ranks {
        given: flag(w[RANKS])?,
        column: w[RANKS + 1] as u64,
        count: w[RANKS + 2] as u64,
        codes: w[CODES..DISTANCE].try_into().unwrap(),
    })
}

/// The options of these words, or none where no options have them.
fn options_of(w: &JoinWords) -> Option<Options> {
    Some(Options {
        b: w[1] as usize,
        strategy: u8::try_from(w[2]).ok()?.into(),
        eq: flag(w[3])?,
        tolerance: w[4],
        check: setting(w[CHECK])? > 0,
        strict: setting(w[CHECK])? == 2,
        carried: w[CARRIED] as u64,
        distance: flag(w[DISTANCE])? as u64,
        ranks: list(w)?,
        descending: flags(&w[6..10])?,
        nulls_last: flags(&w[10..14])?,
    })
}

/// The join of these words, or none where no join has them: another layout, a node state or a flag that there is not, or a
/// strategy that is no byte.
pub fn decode(w: &JoinWords) -> Option<(Options, Rising, Look, [RowWords; 2])> {
    if w[0] != LAYOUT {
        return None;
    }
    let o = options_of(w)?;
    let rows = ROWS.map(|at| w[at..at + 11].try_into().unwrap());
    let c = o.b.saturating_add(1);
    let look = Look {
        base: w[COUNTERS] as usize,
        held: w[COUNTERS + 1] as usize,
        pruned: w[PRUNED] as u64,
        queue_start: w[QUEUE_START] as usize,
        queue_words: w[QUEUE_START + 1] as usize,
        state: u8::try_from(w[STATE]).ok().filter(|s| *s <= 2)?,
        ended: flag(w[ENDED])?,
        failed: flag(w[ENDED + 1])?,
        sequence: w[SEQUENCE] as u64,
        left: row_cells(c, &rows[0])?,
        right: row_cells(c, &rows[1])?,
    };
    Some((o, rising_of(&w[RISING..COUNTERS]), look, rows))
}
