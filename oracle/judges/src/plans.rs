//! SCOPE 19.23 to 19.26, how large an area to lend: the schedule, made call by call by whoever answers, and its figures read off. The
//! plain reading makes it by the step rules, with room for all right rows; beside it the figures are counted from the rows alone, by the
//! order of the whole-table judge, with no call made. Neither shares code with the port.
use crate::books::table_rows;
use crate::books::words;
use crate::rules::{Row, Rules};
use crate::script::{Answer, Call, Judge, Options, Plan};
use crate::whole_table::{has_unlisted_row, is_sorted, no_options, places};

/// The numbers of the refusals of a plan, in the order in which they are looked for.
pub const PLAN_REFUSALS: [u8; 7] = [1, 10, 11, 5, 12, 14, 17];

/// What a schedule came to: whether a right frame met refusal 6, the most rows held, the turn calls, the right frames taken, the left
/// frames written.
#[derive(Clone, Copy, Debug, Default, PartialEq, Eq)]
pub struct Scheduled {
    pub short: bool,
    pub rows: u64,
    pub turns: u64,
    pub rights: u64,
    pub written: u64,
}

/// The words of both tables' frames.
pub struct FramesOf {
    pub lefts: Vec<Vec<i64>>,
    pub rights: Vec<Vec<i64>>,
}

/// "17, heights below 0, above 4,096 or not adding up to their table": the frames' words, if it is not that.
fn frames(rows: &[Row], columns: usize, heights: &[i64]) -> Option<Vec<Vec<i64>>> {
    let (mut left, mut frames) = (rows, vec![]);
    for height in heights {
        let height = usize::try_from(*height).ok().filter(|h| *h <= 4096 && *h <= left.len())?;
        let (frame, rest) = left.split_at(height);
        frames.push(words(frame, columns));
        left = rest;
    }
    left.is_empty().then_some(frames)
}

/// The frames that the heights cut, or the first refusal; each number is looked for in both tables before the next.
pub fn judged(o: &Options, call: &Plan) -> Result<FramesOf, u8> {
    match no_options(o) {
        0 => {},
        number => return Err(number),
    }
    let (c, w) = (o.b + 1, o.b + 1 + o.carried as usize);
    let (left, right) = (table_rows(c, &call.left).ok_or(5)?, table_rows(w, &call.right).ok_or(5)?);
    if left.iter().chain(&right).any(|row| has_unlisted_row(o, row)) {
        return Err(12);
    } else if !is_sorted(o, &left) || !is_sorted(o, &right) {
        return Err(14);
    }
    let lefts = frames(&left, c, &call.left_heights).ok_or(17)?;
    let rights = frames(&right, w, &call.right_heights).ok_or(17)?;
    Ok(FramesOf { lefts, rights })
}

/// The rows that a join holds now.
fn held(judge: &mut dyn Judge) -> u64 {
    match judge.call(&Call::State) {
        Answer::State(look) => look.held as u64,
        answer => panic!("a join that is open tells its state, not {answer}"),
    }
}

/// "all left frames waiting, a right frame handed over only when a turn wants one, right ended after the last, or at the start where
/// there is none", with a right area for R rows; "Left words and output are taken as enough". Ends at a 6 on the right.
pub fn schedule(judge: &mut dyn Judge, o: &Options, of: &FramesOf, r: usize) -> Scheduled {
    answered(judge, o, of, r, &mut vec![])
}

/// The same, with the answers of all turns that wrote, row by row. The left area has just the words of all left frames.
pub fn answered(judge: &mut dyn Judge, o: &Options, of: &FramesOf, r: usize, out: &mut Vec<Row>) -> Scheduled {
    let (w, wide) = (o.b + 1 + o.carried as usize, 1 + o.carried as usize + o.distance as usize);
    let ok = |answer: Answer| assert_eq!(answer, Answer::Ok);
    let mut said = Scheduled::default();
    judge.call(&Call::Options(o.clone()));
    ok(judge.call(&Call::Opens(of.lefts.iter().map(Vec::len).sum(), 2 * w * r)));
    of.lefts.iter().for_each(|frame| ok(judge.call(&Call::Left(frame.clone()))));
    let mut rights = of.rights.iter();
    if rights.len() == 0 {
        ok(judge.call(&Call::End));
    }
    while (said.written as usize) < of.lefts.len() {
        let rows = of.lefts[said.written as usize][0] as usize;
        said.turns += 1;
        match judge.call(&Call::Turn(2 + 2 * rows * wide)) {
            Answer::Wrote(_, words) => {
                said.written += 1;
                out.extend(table_rows(wide, &words).expect("a turn writes a frame"));
            },
            Answer::Wants => {
                let frame = rights.next().expect("no turn wants right rows once right has ended");
                match judge.call(&Call::Right(frame.clone())) {
                    Answer::Ok => said.rights += 1,
                    Answer::Refused(6) => return Scheduled { short: true, ..said },
                    answer => panic!("a right frame of the schedule was answered {answer}"),
                }
                said.rows = said.rows.max(held(judge));
                if rights.len() == 0 {
                    ok(judge.call(&Call::End));
                }
            },
            answer => panic!("a turn of the schedule was answered {answer}"),
        }
    }
    said
}

/// The rows of all right frames: with room for so many no right frame meets 6.
pub fn all_rows(of: &FramesOf) -> usize {
    of.rights.iter().map(|frame| frame[0] as usize).sum()
}

/// The figures of the schedule by the step rules, with room for all right rows.
pub fn figures(o: &Options, of: &FramesOf) -> [u64; 3] {
    let said = schedule(&mut Rules::default(), o, of, all_rows(of));
    assert!(!said.short);
    [said.rows, said.turns, said.rights]
}

/// Where a row stands: its group and its key on the line of whole numbers.
struct At {
    group: Vec<i128>,
    key: i128,
}

/// Where the rows of a frame stand.
fn standing(o: &Options, columns: usize, frame: &[i64]) -> Vec<At> {
    let at = |row: &Row| {
        let mut group: Vec<i128> = places(o, row).collect();
        let key = group.pop().expect("a row has a key");
        At { group, key }
    };
    table_rows(columns, frame).expect("a frame is a table").iter().map(at).collect()
}

/// Whether a right row that is still to come might match the last left row of a frame: unless a later group is held, or a key of its
/// group behind which none matches. Nearest wants a key behind the first greater one.
fn wants(o: &Options, left: &At, held: &[At]) -> bool {
    let Some(last) = held.last() else { return true };
    if last.group != left.group {
        return last.group < left.group;
    }
    match (o.strategy, o.eq) {
        (0, true) | (1, false) => last.key <= left.key,
        (0, false) | (1, true) => last.key < left.key,
        _ => {
            let greater = held.iter().filter(|row| row.group == left.group && row.key > left.key);
            greater.map(|row| row.key).min().is_none_or(|first| last.key <= first)
        },
    }
}

/// How many held rows no later left row can match: those of earlier groups, and of its own group those before its key; of these
/// Backward and Nearest keep the last.
fn dropped(o: &Options, left: &At, held: &[At]) -> usize {
    let earlier = held.iter().filter(|row| row.group < left.group).count();
    let before = held.iter().filter(|row| row.group == left.group && row.key < left.key).count();
    if o.strategy == 1 { earlier + before } else { earlier.max((earlier + before).saturating_sub(1)) }
}

/// The figures counted from the rows alone.
pub fn counted(o: &Options, of: &FramesOf) -> [u64; 3] {
    let (mut held, mut frames): (Vec<At>, _) = (vec![], of.rights.iter().peekable());
    let [mut rows, mut turns, mut rights] = [0; 3];
    for frame in &of.lefts {
        let frame = standing(o, o.b + 1, frame);
        let last = frame.last();
        while let Some(right) = frames.next_if(|_| last.is_some_and(|left| wants(o, left, &held))) {
            held.extend(standing(o, o.b + 1 + o.carried as usize, right));
            (rows, turns, rights) = (rows.max(held.len() as u64), turns + 1, rights + 1);
        }
        turns += 1;
        if let Some(left) = last {
            held.drain(..dropped(o, left, &held));
        }
    }
    [rows, turns, rights]
}

/// The answer to a plan.
pub fn plan(o: &Options, call: &Plan) -> Answer {
    match judged(o, call) {
        Err(number) => Answer::Refused(number),
        Ok(of) => Answer::Planned(figures(o, &of)),
    }
}
