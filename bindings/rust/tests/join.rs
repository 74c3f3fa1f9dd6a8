//! The wrapper over the archive: the worked cases, every refusal, any cut, what is carried, lists of ranks, runs, keeping a join,
//! areas that grow, threads.
use rowkeeper::{
    ByColumn, Check, Frame, Join, Match, NodeState, Options, Port, Ports, Ranks, Refusal, Run, Stop, Strategy, Turn,
    raw,
};

mod random;

use random::Random;

type Row = [Option<i64>; 2];

/// A frame of keys.
fn keys(keys: &[i64]) -> Frame {
    Frame::of_keys(keys).unwrap()
}

/// Options with the check off, as the counter's are.
fn options(strategy: Strategy, allow_eq: bool, tolerance: Option<u64>) -> Options {
    Options { strategy, allow_eq, tolerance, check: Check::Off, ..Options::default() }
}

/// A join that is open, with room enough.
fn open(options: &Options) -> Join {
    Join::open(options, 200, 200).unwrap()
}

/// The matches of a turn, or none where it wrote nothing.
fn turn<A: AsRef<[i64]> + AsMut<[i64]>>(join: &mut Join<A>) -> Option<Vec<Option<u64>>> {
    let mut output = [7; 100];
    match join.turn(&mut output).unwrap() {
        Turn::Wrote { matches, .. } => Some(matches.iter().collect()),
        Turn::WantsRight | Turn::Idle => None,
    }
}

/// The matches of these left keys over right 10, 20, 20, 30, right ended.
fn matches(options: &Options, left: &[i64]) -> Vec<Option<u64>> {
    let mut join = open(options);
    join.right(&keys(&[10, 20, 20, 30])).unwrap();
    join.left(&keys(left)).unwrap();
    join.end_right().unwrap();
    turn(&mut join).unwrap()
}

/// SCOPE 21: the strategies, equality and tolerance.
#[test]
fn counter() {
    use Strategy::*;
    assert_eq!(matches(&options(Backward, true, None), &[5, 20, 25]), [None, Some(2), Some(2)]);
    assert_eq!(matches(&options(Backward, false, None), &[20]), [Some(0)]);
    assert_eq!(matches(&options(Forward, true, None), &[20]), [Some(1)]);
    assert_eq!(matches(&options(Forward, false, None), &[20]), [Some(3)]);
    assert_eq!(matches(&options(Nearest, true, None), &[14, 15, 25]), [Some(0), Some(2), Some(3)]);
    assert_eq!(matches(&options(Backward, true, Some(4)), &[25]), [None]);
    assert_eq!(matches(&options(Backward, true, Some(5)), &[25]), [Some(2)]);
}

/// SCOPE 21: what is held afterwards, and a turn that wants more.
#[test]
fn wants_and_drops() {
    let mut join = open(&options(Strategy::Backward, true, None));
    join.right(&keys(&[10, 20, 20])).unwrap();
    join.left(&keys(&[5, 20, 25])).unwrap();
    let mut output = [7; 9];
    assert_eq!(join.turn(&mut output), Ok(Turn::WantsRight));
    assert_eq!(output, [7; 9]);
    join.right(&keys(&[30])).unwrap();
    let Ok(Turn::Wrote { sequence: 0, matches }) = join.turn(&mut output) else { panic!() };
    assert_eq!((matches.len(), matches.is_empty()), (3, false));
    assert_eq!(output, [3, 1, 0, 2, 2, 0, 1, 1, 7]);
    assert_eq!((join.pruned(), join.held(), join.waiting_words()), (2, 2, 0));
    assert_eq!(join.turn(&mut output), Ok(Turn::Idle));
}

/// The ports: left Done with a frame waiting is Flush, and Done once it is written.
#[test]
fn ports_to_done() {
    let mut join = open(&Options::default());
    join.left(&keys(&[1])).unwrap();
    join.end_right().unwrap();
    assert!(join.right_ended());
    let came = Ports { left: Port::Done, right: Port::Blocked, send: Port::Ready };
    let told = Ports { left: Port::Done, right: Port::Ready, send: Port::Blocked };
    assert_eq!((join.ports(came), join.state()), (Ok(told), Some(NodeState::Flush)));
    assert_eq!(turn(&mut join), Some(vec![None]));
    let done = Ports { left: Port::Done, right: Port::Done, send: Port::Done };
    assert_eq!((join.ports(came), join.state()), (Ok(done), Some(NodeState::Done)));
}

/// 1: options that open no join, among them those that the types allow and no number can say.
#[test]
fn bad_options() {
    let five = Options { by: vec![ByColumn::default(); 5], ..Options::default() };
    let far = Options { tolerance: Some(1 << 63), ..Options::default() };
    let nearest = Options { strategy: Strategy::Nearest, allow_eq: false, ..Options::default() };
    for options in [five, far, nearest] {
        assert_eq!(Join::open(&options, 9, 9).unwrap_err(), Refusal::BadOptions);
    }
    let by = vec![ByColumn::default(); 4];
    let most = Options { tolerance: Some((1 << 63) - 1), by, carried: 8, ..Options::default() };
    assert!(Join::open(&most, 0, 0).is_ok());
}

/// 10: more columns than can be carried, whatever areas are asked for; options that are invalid too are refused by 1.
#[test]
fn too_many_carried() {
    for carried in [9, 10, 1 << 32, usize::MAX - 1, usize::MAX] {
        let options = Options { carried, ..Options::default() };
        assert_eq!(Join::open(&options, 9, 9).unwrap_err(), Refusal::TooManyCarried);
        assert_eq!(Join::open_rows(&options, 1 << 40, 1 << 40).unwrap_err(), Refusal::TooManyCarried);
        assert_eq!(Join::output_words(&options, 1 << 60), usize::MAX);
        let bad = Options { strategy: Strategy::Nearest, allow_eq: false, ..options };
        assert_eq!(Join::open(&bad, 9, 9).unwrap_err(), Refusal::BadOptions);
    }
}

/// Right 10, 20, 20 and 30 with the prices 1800, 2200, none and 2500.
fn priced() -> Join {
    let mut join = open(&Options { carried: 1, ..options(Strategy::Backward, true, None) });
    let prices = [[Some(10), Some(1800)], [Some(20), Some(2200)], [Some(20), None], [Some(30), Some(2500)]];
    join.right(&Frame::new(2, &prices).unwrap()).unwrap();
    join
}

/// SCOPE 21.10: the price comes with the match; with an output that is a word short nothing is lost.
#[test]
fn carried() {
    let mut join = priced();
    join.left(&keys(&[5, 10, 20, 35])).unwrap();
    join.end_right().unwrap();
    let mut output = [7; 19];
    assert_eq!(join.turn(&mut output[..17]), Err(Refusal::NoRoom));
    assert_eq!(output, [7; 19]);
    let Ok(Turn::Wrote { matches, .. }) = join.turn(&mut output) else { panic!() };
    let of = |number, price| Some(Match { number, carried: [price], distance: None });
    let want = [None, of(0, Some(1800)), of(2, None), of(3, Some(2500))];
    assert_eq!(matches.carrying().collect::<Vec<_>>(), want);
    assert_eq!(matches.iter().collect::<Vec<_>>(), [None, Some(0), Some(2), Some(3)]);
    assert_eq!((matches.len(), matches.is_empty(), matches.carried()), (4, false, 1));
    assert_eq!((0..4).map(|row| matches.cell(row, 0)).collect::<Vec<_>>(), [None, Some(1800), None, Some(2500)]);
    assert_eq!(output, [4, 2, 0, 0, 0, 1800, 2, 0, 3, 2500, 0, 0, 1, 1, 1, 0, 1, 1, 7]);
    assert_eq!((Join::output_words(&Options { carried: 1, ..Options::default() }, 4), join.pruned()), (18, 3));
}

/// Frames of the other side's width are none of this side's.
#[test]
fn widths() {
    let options = Options { by: vec![ByColumn::default()], carried: 2, ..Options::default() };
    assert_eq!((options.columns(), options.right_columns()), (2, 4));
    let frame = |columns| Frame::new(columns, &[vec![Some(1); columns]]).unwrap();
    let mut join = Join::open_rows(&options, 1, 1).unwrap();
    assert_eq!((join.left(&frame(4)), join.right(&frame(2))), (Err(Refusal::BadFrame), Err(Refusal::BadFrame)));
    assert_eq!((join.left(&frame(2)), join.right(&frame(4))), (Ok(()), Ok(())));
    assert_eq!((join.left(&frame(2)), join.right(&frame(4))), (Err(Refusal::NoRoom), Err(Refusal::NoRoom)));
}

/// Matches are not taken for those of a join that carries another number of columns.
#[test]
#[should_panic(expected = "the join carries another number of columns")]
fn another_number_carried() {
    let (mut join, mut output) = (priced(), [0; 20]);
    join.left(&keys(&[5])).unwrap();
    let Ok(Turn::Wrote { matches, .. }) = join.turn(&mut output) else { panic!() };
    drop(matches.carrying::<2>());
}

/// No cell is read behind the last column.
#[test]
#[should_panic(expected = "the join carries 1 columns")]
fn no_such_column() {
    let (mut join, mut output) = (priced(), [0; 20]);
    join.left(&keys(&[5, 10])).unwrap();
    let Ok(Turn::Wrote { matches, .. }) = join.turn(&mut output) else { panic!() };
    matches.cell(0, 1);
}

/// A run over frames with what is carried: each turn's part has its own place.
#[test]
fn carried_in_runs() {
    let mut join = priced();
    [&[5, 10][..], &[], &[25]].into_iter().for_each(|left| join.left(&keys(left)).unwrap());
    let mut output = [7; 30];
    let run = join.run(9, &mut output);
    let of = |number, price| Some(Match { number, carried: [price], distance: None });
    let parts: Vec<(u64, Vec<_>)> =
        run.written.iter().map(|(sequence, matches)| (sequence, matches.carrying().collect())).collect();
    assert_eq!(parts, [(0, vec![None, of(0, Some(1800))]), (2, vec![]), (4, vec![of(2, None)])]);
    assert_eq!(run.stop, Stop::Idle);
    assert!(output[18..].iter().all(|w| *w == 7));
}

/// SCOPE 12.5: the distance comes with the match, behind what is carried; 2^63 − 1 is the greatest that is told. With an output
/// that is a word short nothing is lost.
#[test]
fn distances() {
    let options = Options { carried: 1, distance: true, ..options(Strategy::Backward, true, None) };
    assert_eq!(
        (options.answer_columns(), Join::output_words(&options, 4), Join::run_words(&options, 2, 1)),
        (3, 26, 16)
    );
    let mut join = open(&options);
    assert!(join.tells_distance());
    join.right(&Frame::new(2, &[[Some(i64::MIN), Some(7)], [Some(20), None]]).unwrap()).unwrap();
    join.end_right().unwrap();
    join.left(&Frame::new(1, &[[None], [Some(-1)], [Some(0)], [Some(27)]]).unwrap()).unwrap();
    let mut output = [9; 27];
    assert_eq!(join.turn(&mut output[..25]), Err(Refusal::NoRoom));
    assert_eq!(output, [9; 27]);
    let Ok(Turn::Wrote { matches, .. }) = join.turn(&mut output) else { panic!() };
    let of = |number, cell, distance| Some(Match { number, carried: [cell], distance });
    let most = Some(i64::MAX as u64);
    let want = [None, of(0, Some(7), most), of(0, Some(7), None), of(1, None, Some(7))];
    assert_eq!(matches.carrying().collect::<Vec<_>>(), want);
    assert_eq!(matches.iter().collect::<Vec<_>>(), [None, Some(0), Some(0), Some(1)]);
    assert_eq!((matches.len(), matches.carried(), matches.cell(1, 0)), (4, 1, Some(7)));
    assert_eq!((0..4).map(|row| matches.distance(row)).collect::<Vec<_>>(), [None, most, None, Some(7)]);
    assert_eq!(output[..2], [4, 3]);
    assert_eq!(output[26], 9);
}

/// Without it there is no such column, and none is told.
#[test]
fn no_distances() {
    let (mut join, mut output) = (priced(), [0; 20]);
    join.left(&keys(&[5, 10])).unwrap();
    let Ok(Turn::Wrote { matches, .. }) = join.turn(&mut output) else { panic!() };
    assert_eq!((matches.distance(0), matches.distance(1), matches.carried()), (None, None, 1));
    assert!(!join.tells_distance());
}

/// A run over frames with distances, in a join that was kept and taken up again; a flag that is none is refused by 2.
#[test]
fn distances_in_runs() {
    let mut join = open(&Options { distance: true, ..options(Strategy::Nearest, true, None) });
    join.right(&keys(&[10, 20, 20, 30])).unwrap();
    join.end_right().unwrap();
    [&[5, 14][..], &[], &[25]].into_iter().for_each(|left| join.left(&keys(left)).unwrap());
    let (words, left, right) = join.parts();
    let mut join = Join::from_parts(raw::Join::from_words(words.to_words()), left.to_vec(), right.to_vec());
    assert_eq!(
        altered(&join, |j| j.options.with_distance = 2).run(9, &mut [0; 40]).stop,
        Stop::Refused(Refusal::BadJoin)
    );
    let mut output = [7; 30];
    let run = join.run(9, &mut output);
    let of = |number, distance| Some(Match { number, carried: [], distance: Some(distance) });
    let parts: Vec<Vec<_>> = run.written.iter().map(|(_, matches)| matches.carrying().collect()).collect();
    assert_eq!(parts, [vec![of(0, 5), of(0, 4)], vec![], vec![of(3, 5)]]);
    assert_eq!(run.stop, Stop::Idle);
    assert!(output[18..].iter().all(|w| *w == 7));
}

/// Codes of a house: stalls, circle and gods, in this order.
const STALLS: i64 = 30;
const CIRCLE: i64 = 10;
const GODS: i64 = 20;

/// Options with one by-column and these codes for it.
fn ranked(codes: &[i64]) -> Options {
    let by = vec![ByColumn::default()];
    Options { by, check: Check::Strict, ranks: Some(Ranks::new(0, codes)), ..Options::default() }
}

/// A frame of bands and keys.
fn bands(rows: &[(i64, i64)]) -> Frame {
    let rows: Vec<Row> = rows.iter().map(|(band, key)| [Some(*band), Some(*key)]).collect();
    Frame::new(2, &rows).unwrap()
}

/// Right rows and left rows in these frames, right ended: the matches of all turns, or the refusal that stops them.
fn joined(options: &Options, left: &[Frame], right: &Frame) -> Result<Vec<Option<u64>>, Refusal> {
    let (mut join, mut out) = (open(options), vec![]);
    join.right(right)?;
    left.iter().try_for_each(|frame| join.left(frame))?;
    join.end_right()?;
    loop {
        let mut output = [7; 100];
        match join.turn(&mut output)? {
            Turn::Wrote { matches, .. } => out.extend(matches.iter()),
            Turn::WantsRight | Turn::Idle => return Ok(out),
        }
    }
}

/// A by-column goes by the places of its codes, wherever the frames are cut; and by number without the list.
#[test]
fn bands_by_rank() {
    let notices = bands(&[(STALLS, 10), (STALLS, 20), (CIRCLE, 10), (GODS, 15)]);
    let sales = [bands(&[(STALLS, 12), (STALLS, 25), (CIRCLE, 9)]), bands(&[(CIRCLE, 10), (GODS, 99)])];
    let list = ranked(&[STALLS, CIRCLE, GODS]);
    let due = [Some(0), Some(1), None, Some(2), Some(3)];
    assert_eq!(joined(&list, &sales, &notices), Ok(due.to_vec()));
    assert_eq!(joined(&Options { ranks: None, ..list.clone() }, &sales, &notices), Err(Refusal::LeftOrder));
    assert_eq!(joined(&ranked(&[STALLS, GODS, CIRCLE]), &sales, &notices), Err(Refusal::RightOrder));
    let down =
        Options { by: vec![ByColumn { descending: true, nulls_last: false }], ..ranked(&[GODS, CIRCLE, STALLS]) };
    assert_eq!(joined(&down, &sales, &notices), Ok(due.to_vec()));
    let by_number = bands(&[(CIRCLE, 10), (GODS, 15), (STALLS, 10), (STALLS, 20)]);
    assert_eq!(joined(&list, &[bands(&[(CIRCLE, 10)])], &by_number), Err(Refusal::RightOrder));
}

/// Nulls come first or last, whatever the list.
#[test]
fn nulls_and_ranks() {
    let null_first = Frame::new(2, &[[None, Some(1)], [Some(STALLS), Some(1)], [Some(CIRCLE), Some(1)]]).unwrap();
    let null_last = Frame::new(2, &[[Some(STALLS), Some(1)], [Some(CIRCLE), Some(1)], [None, Some(1)]]).unwrap();
    for (nulls_last, good, bad) in [(false, &null_first, &null_last), (true, &null_last, &null_first)] {
        let by = vec![ByColumn { descending: false, nulls_last }];
        let options = Options { by, ..ranked(&[STALLS, CIRCLE]) };
        assert!(joined(&options, std::slice::from_ref(good), good).is_ok());
        assert_eq!(joined(&options, std::slice::from_ref(bad), good), Err(Refusal::LeftOrder));
    }
}

/// 11: lists that open no join, behind 1 and 10. The longest list does, and is kept as it came.
#[test]
fn bad_ranks() {
    let codes: Vec<i64> = (0..200).map(|i| i * 7 % 200).collect();
    for bad in [ranked(&[]), ranked(&codes[..65]), ranked(&codes), ranked(&[1, 2, 1])] {
        assert_eq!(Join::open(&bad, 9, 9).unwrap_err(), Refusal::BadRanks, "{bad:?}");
        let carrying = Options { carried: 9, ..bad };
        assert_eq!(Join::open(&carrying, 9, 9).unwrap_err(), Refusal::TooManyCarried);
        let five = Options { by: vec![ByColumn::default(); 5], ..carrying };
        assert_eq!(Join::open(&five, 9, 9).unwrap_err(), Refusal::BadOptions);
    }
    for (by, column) in [(0, 0), (1, 1), (4, 4), (4, usize::MAX)] {
        let by = vec![ByColumn::default(); by];
        let options = Options { by, ranks: Some(Ranks::new(column, [1])), ..Options::default() };
        assert_eq!(Join::open(&options, 9, 9).unwrap_err(), Refusal::BadRanks);
    }
    let most = Join::open(&ranked(&codes[..64]), 9, 9).unwrap().parts().0.options.ranks;
    assert_eq!((most.given, most.column, most.count, &most.codes[..]), (1, 0, 64, &codes[..64]));
    let none = Join::open(&Options::default(), 9, 9).unwrap().parts().0.options.ranks;
    assert_eq!(none, raw::Ranks::default());
}

/// 12: a value that the list lacks, in its own column alone, in a frame and in one that waits; nothing is changed.
#[test]
fn unknown_code() {
    let options = Options { by: vec![ByColumn::default(); 2], ..ranked(&[STALLS, CIRCLE]) };
    let mut join = Join::open_rows(&options, 2, 0).unwrap();
    let frame = |band| Frame::new(3, &[[band, Some(99), Some(99)]]).unwrap();
    let before = join.clone();
    assert_eq!(join.left(&frame(Some(GODS))), Err(Refusal::UnknownCode));
    assert_eq!(join.right(&frame(Some(GODS))), Err(Refusal::UnknownCode));
    assert_eq!(join.right(&frame(Some(CIRCLE))), Err(Refusal::NoRoom));
    assert_eq!(join.left(&frame(Some(GODS))[..7]), Err(Refusal::BadFrame));
    assert_eq!(join.parts(), before.parts());
    assert_eq!((join.left(&frame(None)), join.left(&frame(Some(STALLS)))), (Ok(()), Ok(())));
    join.end_right().unwrap();
    let (words, mut left, right) = (join.parts().0, join.left_area().to_vec(), join.right_area().to_vec());
    left[8 + 2] = GODS;
    let mut join = Join::from_parts(words, left, right);
    let mut output = [0; 20];
    let run = join.run(9, &mut output);
    assert_eq!((run.written.len(), run.stop), (1, Stop::Refused(Refusal::UnknownCode)));
    let before = join.clone();
    assert_eq!(join.turn(&mut []), Err(Refusal::UnknownCode));
    assert_eq!(join.parts(), before.parts());
}

/// A join that holds a list which is refused, or other places of its codes, is refused by 2.
#[test]
fn altered_ranks() {
    let join = open(&ranked(&[STALLS, CIRCLE, GODS]));
    assert_eq!(join.parts().0.rising[..4], [1, 2, 0, 0]);
    let alterations: [fn(&mut raw::Join); 9] = [
        |j| j.options.ranks.given = 2,
        |j| j.options.ranks.count = 0,
        |j| j.options.ranks.count = 65,
        |j| j.options.ranks.count = u64::MAX,
        |j| j.options.ranks.column = 1,
        |j| j.options.ranks.codes[2] = STALLS,
        |j| j.rising[..3].copy_from_slice(&[0, 1, 2]),
        |j| j.rising[2] = 3,
        |j| j.rising[0] = 255,
    ];
    for alter in alterations {
        let mut strange = altered(&join, alter);
        let before = strange.clone();
        assert_eq!(strange.right(&bands(&[(STALLS, 1)])), Err(Refusal::BadJoin));
        assert_eq!(strange.parts(), before.parts());
    }
    let mut free = altered(&join, |j| (j.options.ranks.codes[3], j.rising[3]) = (STALLS, 255));
    assert_eq!(free.right(&bands(&[(STALLS, 1)])), Ok(()));
}

/// The library is of the version that the wrapper is for, and an opened join has its layout.
#[test]
fn version() {
    assert_eq!(raw::rowkeeper_version(), raw::VERSION_NUMBER);
    assert_eq!(Join::open(&Options::default(), 0, 0).unwrap().parts().0.layout, raw::LAYOUT);
}

/// A join as it is with one thing altered.
fn altered(join: &Join, alter: impl Fn(&mut raw::Join)) -> Join {
    let (mut words, left, right) = join.parts();
    alter(&mut words);
    Join::from_parts(words, left.to_vec(), right.to_vec())
}

/// 2 to 7, each by a call that meets it, with no word altered.
#[test]
fn refusals() {
    let mut join = Join::open(&Options::default(), 10, 4).unwrap();
    join.right(&keys(&[1, 2])).unwrap();
    let odd = altered(&join, |j| j.sequence = 1);
    let other = altered(&join, |j| j.layout = raw::LAYOUT + 1);
    let strange = altered(&join, |j| j.state = 7);
    assert_eq!(strange.state(), None);
    let failed = altered(&join, |j| j.failed = 1);
    let done = altered(&join, |j| j.state = 2);
    let last = altered(&join, |j| (j.held, j.pruned) = (0, i64::MAX as u64));
    let frame = keys(&[3]);
    let cases = [
        (odd, Refusal::BadJoin),
        (other, Refusal::BadJoin),
        (strange, Refusal::BadJoin),
        (failed, Refusal::Failed),
        (done, Refusal::Closed),
        (join.clone(), Refusal::NoRoom),
        (last, Refusal::UsedUp),
    ];
    for (mut join, refusal) in cases {
        let before = join.clone();
        assert_eq!(join.right(&frame), Err(refusal));
        assert_eq!(join.parts(), before.parts());
    }
    assert_eq!(join.left(&[1, 1, 5, 2]), Err(Refusal::BadFrame));
    assert_eq!(join.left(&[]), Err(Refusal::BadFrame));
    join.left(&keys(&[1])).unwrap();
    assert_eq!(join.turn(&mut [0; 3]), Err(Refusal::NoRoom));
    assert_eq!(join.left(&keys(&[1, 2])), Ok(()));
    assert_eq!(join.left(&frame), Err(Refusal::NoRoom));
}

/// 8 and 9 mark the join failed, and then every call is refused by 3.
#[test]
fn out_of_order() {
    for (left, right, refusal) in [([2, 1], [1, 2], Refusal::LeftOrder), ([1, 2], [2, 1], Refusal::RightOrder)] {
        let mut join = open(&Options::default());
        join.left(&keys(&left)).unwrap();
        join.right(&keys(&right)).unwrap();
        join.end_right().unwrap();
        let mut output = [7; 10];
        assert_eq!(join.turn(&mut output), Err(refusal));
        assert!(join.failed() && output == [7; 10]);
        assert_eq!(join.turn(&mut output), Err(Refusal::Failed));
    }
}

/// Numbers, order and texts of refusals.
#[test]
fn numbers() {
    assert_eq!(Refusal::ALL.len(), 18);
    for (refusal, number) in Refusal::ALL.iter().zip(1..) {
        assert_eq!(refusal.number(), number);
        assert!(refusal.to_string().starts_with(&format!("refused by {number}: ")));
    }
}

/// A sorted table of one group column and a key, some of them null.
fn table(r: &mut Random) -> Vec<Row> {
    let count = r.below(30);
    let cell = |r: &mut Random, n| (r.below(10) > 0).then(|| r.below(n) as i64);
    let mut rows: Vec<Row> = (0..count).map(|_| [cell(r, 4), cell(r, 12)]).collect();
    rows.sort();
    rows
}

/// The whole-table rule for Backward: the last right row of the group with a key not greater.
fn whole_table(left: &[Row], right: &[Row]) -> Vec<Option<u64>> {
    let fits = |x: &Row, y: &Row| matches!((x, y), ([Some(g), Some(k)], [Some(h), Some(m)]) if g == h && m <= k);
    left.iter().map(|x| right.iter().rposition(|y| fits(x, y)).map(|i| i as u64)).collect()
}

/// Hands both tables in by random cuts, keeping the join in words between calls now and then; all matches.
fn join_cut(r: &mut Random, left: &[Row], right: &[Row]) -> Vec<Option<u64>> {
    let options = Options { by: vec![ByColumn::default()], ..Options::default() };
    let (mut left_rest, mut right_rest, mut out) = (left, right, vec![]);
    let mut join = Join::open_rows(&options, 5, r.below(9) as usize).unwrap();
    let mut output = vec![0; Join::output_words(&options, 5)];
    loop {
        match join.turn(&mut output).unwrap() {
            Turn::Wrote { matches, .. } => out.extend(matches.iter()),
            Turn::WantsRight if right_rest.is_empty() => join.end_right().unwrap(),
            Turn::WantsRight => {
                let (frame, rest) = right_rest.split_at((1 + r.below(6) as usize).min(right_rest.len()));
                let frame = Frame::new(2, frame).unwrap();
                if join.right(&frame) == Err(Refusal::NoRoom) {
                    join.grow_right(join.held() as usize + frame[0] as usize).unwrap();
                    join.right(&frame).unwrap();
                }
                right_rest = rest;
            },
            Turn::Idle if left_rest.is_empty() => return out,
            Turn::Idle => {
                let (frame, rest) = left_rest.split_at((1 + r.below(5) as usize).min(left_rest.len()));
                join.left(&Frame::new(2, frame).unwrap()).unwrap();
                left_rest = rest;
            },
        }
        if r.below(3) == 0 {
            let (words, left, right) = join.parts();
            let words = raw::Join::from_words(words.to_words());
            join = Join::from_parts(words, left.to_vec(), right.to_vec());
        }
        if r.below(4) == 0 {
            let mut more = |area: &[i64]| vec![-1; area.len() + r.below(9) as usize];
            join = join.moved(more(join.left_area()), more(join.right_area())).unwrap();
        }
    }
}

/// No cutting into frames changes a match; a join that was kept in words, moved to other areas, or grown goes on.
#[test]
fn any_cut() {
    let r = &mut Random(1);
    let mut matched = 0;
    for _ in 0..500 {
        let (left, right) = (table(r), table(r));
        let want = whole_table(&left, &right);
        matched += want.iter().flatten().count();
        assert_eq!(join_cut(r, &left, &right), want, "left {left:?}, right {right:?}");
    }
    assert!(matched > 1000);
}

/// What a run wrote: the number of each frame, and its matches.
fn written(run: &Run) -> Vec<(u64, Vec<Option<u64>>)> {
    assert_eq!(run.written.len(), run.written.iter().count());
    assert_eq!(run.written.is_empty(), run.written.iter().next().is_none());
    run.written.iter().map(|(sequence, matches)| (sequence, matches.iter().collect())).collect()
}

/// Right 10, 20, 20, 30 and left frames of 5, 20; of none; of 25.
fn three_frames() -> Join {
    let mut join = open(&options(Strategy::Backward, true, None));
    join.right(&keys(&[10, 20, 20, 30])).unwrap();
    [&[5, 20][..], &[], &[25]].into_iter().for_each(|left| join.left(&keys(left)).unwrap());
    join
}

/// A run's turns, its output and each way in which it ends.
#[test]
fn runs() {
    let frames = [(0, vec![None, Some(2)]), (2, vec![]), (4, vec![Some(2)])];
    let cases = [
        (0, 9, 0, Stop::TurnsUsed),
        (2, 9, 2, Stop::TurnsUsed),
        (3, 12, 3, Stop::TurnsUsed),
        (4, 12, 3, Stop::Idle),
        (usize::MAX, 12, 3, Stop::Idle),
        (9, 11, 2, Stop::Refused(Refusal::NoRoom)),
        (9, 5, 0, Stop::Refused(Refusal::NoRoom)),
        (2, 8, 2, Stop::TurnsUsed),
    ];
    for (turns, words, made, stop) in cases {
        let (mut join, mut output) = (three_frames(), [7; 20]);
        let run = join.run(turns, &mut output[..words]);
        assert_eq!((written(&run), run.stop), (frames[..made].to_vec(), stop), "{turns} turns, {words} words");
        let used = [0, 6, 8, 12][made];
        assert!(output[used..].iter().all(|w| *w == 7));
        assert_eq!(join.parts().0.sequence, 2 * made as u64);
    }
    assert_eq!((Join::run_words(&Options::default(), 3, 2), three_frames().waiting_words()), (18, 12));
    assert_eq!(Join::run_words(&Options { carried: 2, ..Options::default() }, 3, 2), 42);
}

/// A run that wants right rows after some turns, and one that finds an order fault then: what came before stands.
#[test]
fn runs_that_stop() {
    let mut join = open(&Options::default());
    join.right(&keys(&[1, 3])).unwrap();
    [&[1][..], &[2], &[5, 4], &[6]].into_iter().for_each(|left| join.left(&keys(left)).unwrap());
    let mut output = [7; 20];
    let run = join.run(9, &mut output);
    assert_eq!((written(&run), run.stop), (vec![(0, vec![Some(0)]), (2, vec![Some(0)])], Stop::WantsRight));
    assert!(output[8..].iter().all(|w| *w == 7));
    join.end_right().unwrap();
    let mut failing = three_frames();
    failing.left(&keys(&[40, 35])).unwrap();
    let mut failing = altered(&failing, |j| (j.options.check, j.right_ended) = (1, 1));
    for (join, before) in [(&mut join, 0), (&mut failing, 3)] {
        let run = join.run(9, &mut output);
        assert_eq!((run.written.len(), run.stop), (before, Stop::Refused(Refusal::LeftOrder)));
        assert!(join.failed());
        assert_eq!(join.run(9, &mut output).stop, Stop::Refused(Refusal::Failed));
        assert_eq!(join.run(0, &mut output).stop, Stop::TurnsUsed);
    }
}

/// A run of no turns tries none, so a join that does not hold together is not refused; numbers that are no join are.
#[test]
fn runs_of_no_turns() {
    let join = three_frames();
    let odd = altered(&join, |j| j.sequence = 1);
    let strange = altered(&join, |j| j.state = 3);
    let cases = [(join, Stop::TurnsUsed), (odd, Stop::TurnsUsed), (strange, Stop::Refused(Refusal::BadJoin))];
    for (mut join, stop) in cases {
        let before = join.clone();
        assert_eq!(join.run(0, &mut []).stop, stop);
        assert_eq!(join.parts(), before.parts());
    }
}

/// A run is its turns: on tables cut anywhere, with outputs of any length, both leave the same join and the same words.
#[test]
fn runs_are_turns() {
    let r = &mut Random(2);
    let (mut several, mut short) = (0, 0);
    for _ in 0..500 {
        let carried = r.below(4) as usize;
        let options = Options { by: vec![ByColumn::default()], carried, ..Options::default() };
        let (left, right) = (table(r), table(r));
        let mut join = Join::open(&options, 400, 800).unwrap();
        let wide: Vec<_> =
            right.iter().map(|row| [&row[..], &vec![row[1].map(|key| -key); carried]].concat()).collect();
        join.right(&Frame::new(2 + carried, &wide).unwrap()).unwrap();
        left.chunks(1 + r.below(9) as usize).for_each(|rows| join.left(&Frame::new(2, rows).unwrap()).unwrap());
        (r.below(3) > 0).then(|| join.end_right().unwrap());
        let (turns, words) = (r.below(8) as usize, r.below(120 * (1 + carried as u64)) as usize);
        let (mut one, mut output, mut other) = (join.clone(), vec![7; words], vec![7; words]);
        let run = join.run(turns, &mut output);
        let (mut made, mut at, mut last) = (0, 0, Stop::TurnsUsed);
        while made < turns && last == Stop::TurnsUsed {
            match one.turn(&mut other[at..]) {
                Ok(Turn::Wrote { matches, .. }) => (made, at) = (made + 1, at + 2 + 2 * matches.len() * (1 + carried)),
                Ok(Turn::WantsRight) => last = Stop::WantsRight,
                Ok(Turn::Idle) => last = Stop::Idle,
                Err(refusal) => last = Stop::Refused(refusal),
            }
        }
        assert_eq!((run.written.len(), run.stop), (made, last));
        several += (made > 1) as u32;
        short += (made > 0 && last == Stop::Refused(Refusal::NoRoom)) as u32;
        assert_eq!((join.parts(), output), (one.parts(), other));
    }
    assert!(several > 50 && short > 5, "{several} runs of several turns, {short} cut short");
}

/// A join that holds rows and has frames waiting, neither from the front of its area on: right 10 to 80 with the first three
/// dropped, left 35, 45, 95 waiting behind one that is written.
fn in_the_middle() -> Join {
    let mut join = Join::open_rows(&Options::default(), 8, 9).unwrap();
    join.right(&keys(&[10, 20, 30, 40, 50, 60, 70, 80])).unwrap();
    [&[35][..], &[45], &[95, 96]].into_iter().for_each(|left| join.left(&keys(left)).unwrap());
    assert_eq!(turn(&mut join), Some(vec![Some(2)]));
    let words = join.parts().0;
    assert!(words.base > 0 && words.queue_start > 0 && words.held > 3, "{words:?}");
    join
}

/// What a join still writes, right ended: the matches of all frames that wait.
fn rest<A: AsRef<[i64]> + AsMut<[i64]>>(mut join: Join<A>) -> Vec<Vec<Option<u64>>> {
    join.end_right().unwrap();
    std::iter::from_fn(|| turn(&mut join)).collect()
}

/// Areas that grow keep what waits and what is held, have the room that was asked for, and never get shorter.
#[test]
fn grows() {
    let due = [vec![Some(3)], vec![Some(7), Some(7)]];
    let join = in_the_middle();
    assert_eq!(rest(join.clone()), due);
    for (left, right) in [(0, 0), (33, 0), (0, 10), (1000, 1000), (32, 9)] {
        let mut grown = join.clone();
        grown.grow_left(left).unwrap();
        grown.grow_right(right).unwrap();
        assert_eq!((grown.left_area().len(), grown.right_area().len()), (left.max(32), right.max(9) * 2));
        assert_eq!(
            (grown.held(), grown.pruned(), grown.waiting_words()),
            (join.held(), join.pruned(), join.waiting_words())
        );
        assert_eq!((left > 32 || right > 9) as u64, (grown.parts().0.base == 0) as u64);
        assert_eq!(rest(grown), due);
    }
    let (mut full, frame) = (in_the_middle(), keys(&[90, 100, 110, 120]));
    assert_eq!(full.right(&frame), Err(Refusal::NoRoom));
    full.grow_right(full.held() as usize + 4).unwrap();
    full.right(&frame).unwrap();
    assert_eq!(rest(full), [vec![Some(3)], vec![Some(8), Some(8)]]);
    let (mut full, frame) = (in_the_middle(), keys(&[97; 20]));
    assert_eq!(full.left(&frame), Err(Refusal::NoRoom));
    full.grow_left(full.waiting_words() as usize + frame.len()).unwrap();
    full.left(&frame).unwrap();
    assert_eq!(rest(full).len(), 3);
}

/// With by-columns and carried ones an area has fewer rows; growing counts in rows.
#[test]
fn grows_by_rows() {
    for (by, carried) in (0..=4).flat_map(|by| [0, 1, 3, 8].map(|carried| (by, carried))) {
        let options = Options { by: vec![ByColumn::default(); by], carried, ..Options::default() };
        let mut join = Join::open(&options, 0, 0).unwrap();
        let columns = by + 1 + carried;
        let row = vec![Some(1); columns];
        for rows in 1..5 {
            join.grow_right(rows).unwrap();
            assert_eq!(join.right_area().len(), 2 * rows * columns);
            join.right(&Frame::new(columns, &[&row]).unwrap()).unwrap();
        }
        assert_eq!(join.right(&Frame::new(columns, &[&row]).unwrap()), Err(Refusal::NoRoom));
        let most = Join::open_rows(&options, 3, 2).unwrap();
        assert_eq!((most.left_area().len(), most.right_area().len()), (3 * (2 + 2 * (by + 1)), 2 * 2 * columns));
    }
}

/// A join in areas of another kind, longer or as short as can be; shorter ones are refused, and joins that are none.
#[test]
fn moves() {
    let join = in_the_middle();
    let (waiting, held) = (join.waiting_words() as usize, 2 * join.held() as usize);
    for (left, right) in [(waiting, held), (waiting + 1, held + 1), (waiting + 70, held + 70)] {
        let (mut left, mut right) = (vec![-1; left], vec![-1; right]);
        let moved = join.moved(&mut left[..], &mut right[..]).unwrap();
        assert_eq!((moved.parts().0.base, moved.parts().0.queue_start), (0, 0));
        assert_eq!(rest(moved), rest(join.clone()));
    }
    for (left, right) in [(waiting - 1, held), (waiting, held - 1), (0, 0)] {
        assert_eq!(join.moved(vec![-1; left], vec![-1; right]).unwrap_err(), Refusal::NoRoom);
    }
    let mut failed = altered(&join, |j| j.failed = 1);
    failed.grow_left(100).unwrap();
    assert_eq!((failed.failed(), failed.left_area().len()), (true, 100));
    let alterations: [fn(&mut raw::Join); 8] = [
        |j| j.base = u64::MAX,
        |j| j.queue_start = 1 << 63,
        |j| j.held = 10,
        |j| j.options.by = u64::MAX,
        |j| j.options.carried = 9,
        |j| j.options.carried = u64::MAX,
        |j| j.sequence = 1,
        |j| j.state = 3,
    ];
    for alter in alterations {
        let mut strange = altered(&join, alter);
        let before = strange.clone();
        assert_eq!(strange.grow_right(100), Err(Refusal::BadJoin));
        assert_eq!(strange.grow_left(100), Err(Refusal::BadJoin));
        assert_eq!(strange.moved([0; 99], [0; 99]).unwrap_err(), Refusal::BadJoin);
        assert_eq!(strange.parts(), before.parts());
    }
}

/// Areas that are lent, and joins on several threads at once.
#[test]
fn threads() {
    let work = |seed: u64| {
        let (mut left, mut right) = ([seed as i64; 50], [-1; 50]);
        let mut join = Join::with_areas(&Options::default(), &mut left[..], &mut right[..]).unwrap();
        for i in 0..200 {
            join.right(&keys(&[2 * i, 2 * i + 1])).unwrap();
            join.left(&keys(&[2 * i])).unwrap();
            assert_eq!(turn(&mut join), Some(vec![Some(2 * i as u64)]));
        }
        assert_eq!(join.into_areas().0.len(), 50);
    };
    std::thread::scope(|scope| (0..4).for_each(|seed| drop(scope.spawn(move || work(seed)))));
}
