//! Lists of codes in random scripts: those that opening takes and those that it refuses, frames with values that a list
//! lacks, and what a host can write so that held, remembered and waiting rows have such values.
use crate::generate::{Kind, Pool, Random};
use crate::rules::{self, Rules};
use crate::script::{Call, Look, MOST_CODES, Options, Place, Ranks};
use crate::words::{CODES, DISTANCE, RANKS, RISING, ROWS, rising_words};

/// The list that a script gives for one of its by-columns, if it gives one.
pub(crate) struct Listed {
    pub(crate) r: Random,
    pub(crate) gives: bool,
    /// How many of a hundred right rows have a value that the list lacks.
    pub(crate) lacking: usize,
}

/// What the rows of a script have in the column of its list.
pub(crate) struct Values {
    column: usize,
    /// Codes of the list, often few of them.
    codes: Vec<i64>,
    /// Some values that it lacks, and how many of a hundred rows have one of these.
    lacked: Vec<i64>,
    pub(crate) lacking: usize,
}

impl Values {
    /// A value of column j, if that is the list's.
    pub(crate) fn value(&self, r: &mut Random, j: usize) -> Option<i64> {
        let from = |r: &mut Random| if r.percent(self.lacking) { r.pick(&self.lacked) } else { r.pick(&self.codes) };
        (j == self.column).then(|| from(r))
    }
}

impl Listed {
    /// No list.
    pub(crate) fn nothing(seed: u64, kind: Kind, number: u64) -> Self {
        Listed { r: Random::of_list(seed, kind, number), gives: false, lacking: 0 }
    }

    /// A list, and right rows with values that it lacks in so many of a hundred cases.
    pub(crate) fn list(lacking: usize, seed: u64, kind: Kind, number: u64) -> Self {
        Listed { gives: true, lacking, ..Self::nothing(seed, kind, number) }
    }

    /// Gives the options a list for any of their by-columns. Of scripts that the Rust has no part in, some become strict.
    pub(crate) fn give(&mut self, o: &mut Options, kind: Kind) -> Option<Values> {
        if !self.gives {
            return None;
        }
        let r = &mut self.r;
        let column = r.below(o.b);
        let codes = list(r, kind == Kind::Ends);
        o.ranks = Ranks::of(column as u64, codes.len() as u64, &codes);
        if matches!(kind, Kind::Refusals | Kind::Handed) && r.percent(25) {
            (o.check, o.strict) = (true, true);
        }
        let lacked = (0..3).map(|_| lacked(r, &codes)).collect();
        let few = r.pick(&[1, 2, 2, 3, 3, 4, MOST_CODES]).min(codes.len());
        let codes = (0..few).map(|_| r.pick(&codes)).collect();
        Some(Values { column, codes, lacked, lacking: 0 })
    }

    /// A list that opening refuses: without a code, with too many, with one twice, or for a column that is none of b.
    pub(crate) fn spoil(&mut self, b: usize, ranks: &mut Ranks) {
        const MANY: [u64; 7] = [65, 65, 66, 1 << 32, i64::MAX as u64, 1 << 63, u64::MAX];
        const NO_COLUMN: [u64; 6] = [4, 5, 64, 1 << 32, 1 << 63, u64::MAX];
        let (r, many) = (&mut self.r, ranks.count as usize);
        match r.below(5) {
            0 => *ranks = Ranks::of(ranks.column, 0, &[]),
            1 => ranks.count = r.pick(&MANY),
            2 | 3 if many > 1 => {
                let (one, other) = (r.below(many), 1 + r.below(many - 1));
                ranks.codes[(one + other) % many] = ranks.codes[one];
            },
            _ => ranks.column = (b as u64).max(if r.percent(50) { b as u64 } else { r.pick(&NO_COLUMN) }),
        }
    }

    /// The script with frames among its calls, in front of others, that have a value which the list lacks; some of them
    /// break the frame rule too.
    pub(crate) fn with_lacking(&mut self, ranks: &Ranks, calls: Vec<Call>) -> Vec<Call> {
        let mut out = vec![];
        for call in calls {
            let (Call::Left(words) | Call::Right(words)) = &call else {
                out.push(call);
                continue;
            };
            let frame = if self.r.percent(9) { lacking(&mut self.r, ranks, words) } else { None };
            let on_left = matches!(call, Call::Left(_));
            out.extend(frame.map(|words| if on_left { Call::Left(words) } else { Call::Right(words) }));
            out.push(call);
        }
        out
    }
}

/// A list of 1 to 64 codes in any order: often few, now and then as many as there can be; small numbers, both ends of the
/// 64-bit range, or any.
fn list(r: &mut Random, ends: bool) -> Vec<i64> {
    let many = match r.below(10) {
        0..=6 => 1 + r.below(5),
        7 | 8 => 1 + r.below(MOST_CODES),
        _ => MOST_CODES,
    };
    let pools = [Pool::Below(5), Pool::Below(5), Pool::Below(100), Pool::Ends, Pool::Any];
    let pool = if ends { Pool::Ends } else { r.pick(&pools) };
    let mut out = vec![];
    while out.len() < many {
        let code = if r.percent(80) { pool.value(r) } else { Pool::Any.value(r) };
        if !out.contains(&code) {
            out.push(code);
        }
    }
    out
}

/// A value that these codes lack: beside one of them, small, at an end of the 64-bit range, or any.
fn lacked(r: &mut Random, codes: &[i64]) -> i64 {
    loop {
        let value = match r.below(4) {
            0 => r.pick(codes).wrapping_add(r.pick(&[-1, 1])),
            1 => Pool::Below(8).value(r),
            2 => Pool::Ends.value(r),
            _ => Pool::Any.value(r),
        };
        if !codes.contains(&value) {
            return value;
        }
    }
}

/// The places of the values in a column of a frame's words, where they are a frame and a row has a value there.
fn places(words: &[i64], column: usize) -> Vec<usize> {
    let [n @ 0..=4096, c @ 1..=13, cells @ ..] = words else { return vec![] };
    let (n, c) = (*n as usize, *c as usize);
    if cells.len() < 2 * n * c || column >= c {
        return vec![];
    }
    (0..n).map(|i| i * c + column).filter(|at| cells[n * c + at] == 1).map(|at| 2 + at).collect()
}

/// The frame with values that the list lacks, one or more; none where no row has a value there.
fn lacking(r: &mut Random, ranks: &Ranks, words: &[i64]) -> Option<Vec<i64>> {
    let codes = &ranks.codes[..ranks.count.min(MOST_CODES as u64) as usize];
    let places = places(words, ranks.column as usize);
    if codes.is_empty() || places.is_empty() {
        return None;
    }
    let mut out = words.to_vec();
    out[r.pick(&places)] = lacked(r, codes);
    while r.percent(30) {
        out[r.pick(&places)] = lacked(r, codes);
    }
    if r.percent(15) {
        out.push(0);
    }
    Some(out)
}

/// A join with a list that opening takes: its options, its counters, and the words of its areas.
fn listed(rules: &Rules) -> Option<(&Options, &Look, &[i64], &[i64])> {
    let (_, left, right) = rules.all_words()?;
    let o = rules.options().filter(|o| o.ranks.given && !rules.broken())?;
    Some((o, rules.look()?, left, right))
}

/// The codes of a list that opening takes.
fn codes(o: &Options) -> &[i64] {
    &o.ranks.codes[..o.ranks.count as usize]
}

/// What a host writes into held rows: values that the list lacks, in a row or in some neighbours, often the first or the
/// last ones, rising, falling or equal; and marks that say that they are there.
pub(crate) fn alter_held(r: &mut Random, rules: &Rules) -> Vec<Call> {
    let Some((o, look, _, right)) = listed(rules).filter(|(_, look, ..)| look.held > 0) else { return vec![] };
    let width = o.b + 1 + o.carried as usize;
    let (capacity, many) = (right.len() / (2 * width), 1 + r.below(look.held.min(4)));
    let anywhere = r.below(look.held - many + 1);
    let from = r.pick(&[0, look.held - many, anywhere]);
    let mut values: Vec<i64> = (0..many).map(|_| lacked(r, codes(o))).collect();
    match r.below(5) {
        0 | 1 => values.sort(),
        2 | 3 => values.sort_by(|x, y| y.cmp(x)),
        _ => values.fill(lacked(r, codes(o))),
    }
    let mut out = vec![];
    for (i, value) in values.into_iter().enumerate() {
        let at = (look.base + from + i) * width + o.ranks.column as usize;
        out.push(Call::Put(Place::Right, at, value));
        if r.percent(60) {
            out.push(Call::Put(Place::Right, capacity * width + at, r.pick(&[1, 1, 1, 2, -1])));
        }
    }
    out
}

/// For each waiting frame the places in the left area of its values in the list's column.
fn waiting(o: &Options, look: &Look, left: &[i64]) -> Vec<Vec<usize>> {
    let (mut at, end, mut out) = (look.queue_start, look.queue_start + look.queue_words, vec![]);
    while let Some([n @ 0..=4096, c, ..]) = left.get(at..end)
        && *c == o.b as i64 + 1
    {
        let length = 2 + 2 * *n as usize * *c as usize;
        let frame = left.get(at..(at + length).min(end)).unwrap_or(&[]);
        out.push(places(frame, o.ranks.column as usize).iter().map(|place| at + place).collect());
        at += length;
    }
    out
}

/// What a host writes into a waiting frame, or into one that waits behind the front: a value that the list lacks, or
/// another code of it; and what puts it right again.
pub(crate) fn alter_waiting(r: &mut Random, rules: &Rules, behind: bool) -> Option<(Call, Call)> {
    let (o, look, left, _) = listed(rules)?;
    let places = waiting(o, look, left).into_iter().skip(behind as usize).flatten().collect::<Vec<_>>();
    let at = (!places.is_empty()).then(|| r.pick(&places))?;
    let value = if r.percent(80) { lacked(r, codes(o)) } else { r.pick(codes(o)) };
    Some((Call::Put(Place::Left, at, value), Call::Put(Place::Left, at, left[at])))
}

/// What a host writes into a remembered row: a value that the list lacks, or a code of it.
pub(crate) fn alter_remembered(r: &mut Random, rules: &Rules) -> Vec<Call> {
    let Some((o, ..)) = listed(rules) else { return vec![] };
    let value = if r.percent(60) { lacked(r, codes(o)) } else { r.pick(codes(o)) };
    let at = r.pick(&ROWS) + 1 + o.ranks.column as usize;
    vec![Call::Put(Place::Join, at, value), Call::Put(Place::Join, at + 5, r.pick(&[1, 1, 1, 3]))]
}

/// Another list that opening would take: two codes exchanged, another code, one less, one more, or for another column.
fn other_list(r: &mut Random, o: &Options) -> Ranks {
    let (mut out, many, new) = (o.ranks.clone(), o.ranks.count as usize, lacked(r, codes(o)));
    match r.below(6) {
        0 | 1 => out.codes.swap(r.below(many), r.below(many)),
        2 => out.codes[r.below(many)] = new,
        3 if many > 1 => out.count -= 1,
        4 if many < MOST_CODES => (out.codes[many], out.count) = (new, out.count + 1),
        _ => out.column = r.below(o.b) as u64,
    }
    out
}

/// What a host writes to lay down another list, with the places of its codes, so that held and remembered values may be
/// lacked.
pub(crate) fn alter_list(r: &mut Random, rules: &Rules) -> Vec<Call> {
    let Some(((o, ..), (words, ..))) = listed(rules).zip(rules.all_words()) else { return vec![] };
    let ranks = other_list(r, o);
    let mut new = words;
    (new[RANKS + 1], new[RANKS + 2]) = (ranks.column as i64, ranks.count as i64);
    new[CODES..DISTANCE].copy_from_slice(&ranks.codes);
    new[RISING..RISING + MOST_CODES / 8].copy_from_slice(&rising_words(&rules::rising(&ranks)));
    let differs = (RANKS..RISING + MOST_CODES / 8).filter(|at| new[*at] != words[*at]);
    differs.map(|at| Call::Put(Place::Join, at, new[at])).collect()
}

/// Another word in the place of one of a list's words, whether there is a list or not: near what it is, small, at an end,
/// or with one of its bytes another one.
pub(crate) fn other_list_word(r: &mut Random, words: &[i64]) -> (usize, i64) {
    let many = words[RANKS + 2].clamp(0, MOST_CODES as i64 - 1) as usize;
    let near = [CODES + r.below(many + 1), RISING + r.below(many + 1) / 8, RANKS + r.below(3)];
    let at = if r.percent(90) { r.pick(&near) } else { RANKS + r.below(RISING + MOST_CODES / 8 - RANKS) };
    let word = match (at, r.below(6)) {
        (RANKS, 0..=4) => r.below(2) as i64,
        (_, 0) => Pool::Ends.value(r),
        (RISING.., _) => words[at] ^ (1 << r.below(64)),
        (_, 1 | 2) => r.below(70) as i64,
        (_, 3) => words[CODES + r.below(many + 1)],
        _ => words[at].wrapping_add(r.pick(&[-1, 1])),
    };
    (at, word)
}
