//! Random pairs of tables with boundaries, areas and outputs, made from a seed and a number alone, so that every input can be made again.
use crate::cuts::columns;
use crate::generate::{Pool, Random, words};
use crate::generate_books::{Shape, broken, output, refused, sorted, spoil};
use crate::generate_cuts::{ascending, frameful, shaped, spoiled};
use crate::pairs::{self, Needs};
use crate::rules::Row;
use crate::script::{Options, Pairs};

/// The family of these inputs among all random ones.
const PAIRS: u64 = 0x31;

/// How many rows the tables have, left and right: mostly few; now and then one has more than a frame or than two frames, seldom both.
fn heights(r: &mut Random) -> [usize; 2] {
    let few = [0, 1, 2, 3, 5, 8, 12, 20, 40, 60];
    let long = [4096, 4097, 4100, 8192, 8193, 8200];
    match r.below(4000) {
        0 => [r.pick(&[4097, 4500]), r.pick(&[4097, 5000])],
        1..=25 => [r.pick(&long), r.pick(&few)],
        26..=50 => [r.pick(&few), r.pick(&long)],
        _ => [r.pick(&few), r.pick(&few)],
    }
}

/// Options that no call refuses, under any setting of the order check, and what tables under them are made of: mostly few groups and keys,
/// so that rows match; of long tables very few groups, so that a part has more than a frame.
fn made_of(r: &mut Random, long: bool) -> (Options, Shape) {
    let (mut o, mut s) = shaped(r);
    if o.b == 0 && r.percent(60) {
        (o, s) = shaped(r);
    }
    (o.check, o.strict) = r.pick(&[(false, false), (true, false), (true, true)]);
    if r.percent(70) {
        s.groups = r.pick(&[Pool::Below(2), Pool::Below(4), Pool::Below(9)]);
        s.keys = r.pick(&[Pool::Below(6), Pool::Below(40)]);
        (o.tolerance, o.distance) = (r.pick(&[-1, -1, 0, 3, 20]), r.percent(50) as u64);
    }
    if long {
        s.groups = r.pick(&[Pool::Below(1), Pool::Below(2)]);
        s.keys = r.pick(&[Pool::Below(6), Pool::Below(5000), Pool::Any]);
    }
    (o, s)
}

/// Boundaries: groups of one of the tables and others, mostly strictly ascending.
fn boundaries(r: &mut Random, o: &Options, s: &Shape, tables: &[Vec<Row>; 2], wrong: bool) -> Vec<Row> {
    let many = r.pick(&[0, 1, 1, 1, 2, 2, 3, 4, 5, 8, 15, 16, 16, 17]);
    let from = &tables[r.below(2)];
    let mut groups = if r.below(300) == 0 { frameful(r, o) } else { ascending(r, o, s, from, many) };
    if wrong {
        spoiled(r, o, &mut groups);
    }
    groups
}

/// The length of an area: mostly just enough, often longer; one word short, a row short, any that is shorter, or none.
fn area(r: &mut Random, need: usize, row: usize) -> usize {
    match r.below(24) {
        0 => need.saturating_sub(1),
        1 => need.saturating_sub(row),
        2 => r.below(need + 1),
        3 => 0,
        4..=8 => need + 1 + r.below(9),
        9 => need + r.below(4 * row),
        _ => need,
    }
}

/// The lengths of both areas and of the output.
fn lengths(r: &mut Random, o: &Options, call: &mut Pairs) {
    let any = |r: &mut Random| Needs { areas: [r.below(60), r.below(60)], output: 2 + 2 * r.below(20) };
    let judged = pairs::judged(o, call);
    let (needs, rows) = match judged {
        Ok(tables) => (pairs::needs(o, &pairs::pairs(o, &tables)), [2 * columns(o, 0), 2 * columns(o, 1)]),
        Err(_) => (any(r), [2, 2]),
    };
    call.areas = [area(r, needs.areas[0], rows[0]), area(r, needs.areas[1], rows[1])];
    call.output = output(r, needs.output);
}

/// The call of this number among a seed's, and its options.
pub fn cut(seed: u64, number: u64) -> (Options, Pairs) {
    let r = &mut Random::of_family(seed, PAIRS, number);
    let heights = heights(r);
    let (mut o, s) = made_of(r, heights[0].max(heights[1]) > 100);
    let wide = [columns(&o, 0), columns(&o, 1)];
    let mut tables = [0, 1].map(|side| sorted(r, &o, &s, wide[side], heights[side]));
    for rows in &mut tables {
        if r.percent(4) {
            spoil(r, &o, rows);
        }
    }
    let wrong = r.percent(10);
    let groups = boundaries(r, &o, &s, &tables, wrong);
    let told = |r: &mut Random, words: Vec<i64>| if r.below(40) == 0 { broken(r, words) } else { words };
    let [left, right] = [0, 1].map(|side| told(r, words(&tables[side], wide[side])));
    let boundaries = told(r, words(&groups, o.b));
    if r.percent(6) {
        refused(r, &mut o);
    }
    let mut call = Pairs { areas: [0, 0], output: 0, left, right, boundaries };
    lengths(r, &o, &mut call);
    (o, call)
}
