//! Random tables and boundaries at which they are cut, made from a seed and a number alone, so that every input can be made again.
use crate::cuts::{self, Apart, columns};
use crate::generate::{Pool, Random, words};
use crate::generate_books::{Shape, broken, options, output, refused, rows};
use crate::rules::Row;
use crate::script::{Options, Places};
use crate::whole_table::{group_places, sort};

/// The families of these inputs among all random ones.
const PLACES: u64 = 0x2c;
const APART: u64 = 0x2d;

/// Options that no call refuses, and what tables under them are made of: often more groups than books have.
pub(crate) fn shaped(r: &mut Random) -> (Options, Shape) {
    let (o, mut s) = options(r);
    if r.percent(50) {
        s.groups = r.pick(&[Pool::Below(6), Pool::Below(40), Pool::Any]);
    }
    (o, s)
}

/// A group without nulls: that of a row of the table, or one that the table may lack.
fn group(r: &mut Random, o: &Options, s: &Shape, rows: &[Row]) -> Row {
    if !rows.is_empty() && r.percent(40) {
        let row = &rows[r.below(rows.len())][..o.b];
        if !row.contains(&None) {
            return row.to_vec();
        }
    }
    let pool = r.pick(&[s.groups, s.groups, Pool::Below(40), Pool::Ends, Pool::Any]);
    let listed = |j: usize| o.ranks.given && o.ranks.column == j as u64;
    (0..o.b).map(|j| Some(if listed(j) { r.pick(&s.codes) } else { pool.value(r) })).collect()
}

/// At most so many groups, strictly ascending.
pub(crate) fn ascending(r: &mut Random, o: &Options, s: &Shape, rows: &[Row], many: usize) -> Vec<Row> {
    let mut groups: Vec<Row> = vec![];
    for _ in 0..4 * many {
        let next = group(r, o, s, rows);
        if o.b > 0 && groups.len() < many && !groups.contains(&next) {
            groups.push(next);
        }
    }
    groups.sort_by_cached_key(|group| group_places(o, group).collect::<Vec<_>>());
    groups
}

/// The same groups with something that is refused: a null, one twice, two exchanged, a code that the list lacks.
pub(crate) fn spoiled(r: &mut Random, o: &Options, groups: &mut Vec<Row>) {
    if o.b == 0 || groups.is_empty() {
        groups.extend(vec![vec![Some(1); o.b]; r.pick(&[1, 1, 2, 16, 17])]);
        return;
    }
    let (i, j, column) = (r.below(groups.len()), r.below(groups.len()), r.below(o.b));
    match r.below(5) {
        0 => groups[i][column] = None,
        1 => groups.insert(i, groups[i].clone()),
        2 if o.ranks.given => groups[i][o.ranks.column as usize] = Some(Pool::Any.value(r)),
        _ => groups.swap(i, j),
    }
}

/// As many boundaries as a frame may have, or one more.
pub(crate) fn frameful(r: &mut Random, o: &Options) -> Vec<Row> {
    (0..r.pick(&[4096, 4097])).map(|i| vec![Some(i); o.b]).collect()
}

/// The call of this number among a seed's, and its options.
pub fn place(seed: u64, number: u64) -> (Options, Places) {
    let r = &mut Random::of_family(seed, PLACES, number);
    let (mut o, s) = shaped(r);
    let (side, wrong) = (r.below(2) as u64, [r.percent(6), r.percent(10)]);
    let table = rows(r, &o, &s, columns(&o, side), wrong[0]);
    let many = r.pick(&[0, 1, 1, 2, 2, 3, 4, 5, 8, 16, 16, 17]);
    let mut groups = if r.below(300) == 0 { frameful(r, &o) } else { ascending(r, &o, &s, &table, many) };
    if wrong[1] {
        spoiled(r, &o, &mut groups);
    }
    let told = |r: &mut Random, words: Vec<i64>| if r.below(24) == 0 { broken(r, words) } else { words };
    let table = told(r, words(&table, columns(&o, side)));
    let boundaries = told(r, words(&groups, o.b));
    let side = if r.percent(2) { r.pick(&[2, 3, 256, 1 << 32, 1 << 63, u64::MAX]) } else { side };
    if r.percent(6) {
        refused(r, &mut o);
    }
    let mut call = Places { side, output: 0, table, boundaries };
    let needed = cuts::judged(&o, &call).map_or_else(|_| 2 + 2 * r.below(5), |cut| 2 + 2 * cut.groups.len());
    call.output = output(r, needed);
    (o, call)
}

/// A sorted table of this side, with more rows than others have.
fn table(r: &mut Random, o: &Options, s: &Shape, side: u64) -> Vec<Row> {
    let mut all: Vec<Row> = (0..3).flat_map(|_| rows(r, o, s, columns(o, side), false)).collect();
    sort(o, &mut all);
    all
}

/// Two sorted tables and boundaries for both, of this number among a seed's, and their options: none of it is refused.
pub fn apart(seed: u64, number: u64) -> (Options, Apart) {
    let r = &mut Random::of_family(seed, APART, number);
    let (mut o, mut s) = shaped(r);
    if r.percent(80) {
        (s.groups, s.keys) = (r.pick(&[Pool::Below(2), Pool::Below(4)]), r.pick(&[Pool::Below(6), Pool::Below(40)]));
        (o.tolerance, o.distance) = (r.pick(&[-1, -1, 3, 20]), r.percent(60) as u64);
    }
    let (left, right) = (table(r, &o, &s, 0), table(r, &o, &s, 1));
    let many = r.pick(&[1, 2, 3, 5, 16]);
    let from = if r.percent(50) { &left } else { &right };
    let boundaries = words(&ascending(r, &o, &s, from, many), o.b);
    let height =
        |r: &mut Random, many: usize| if many > 100 { r.pick(&[700, 4096]) } else { r.pick(&[1, 2, 3, 5, 20]) };
    let heights = [height(r, left.len()), height(r, right.len())];
    let eager = r.percent(50);
    (o, Apart { left, right, boundaries, heights, eager })
}
