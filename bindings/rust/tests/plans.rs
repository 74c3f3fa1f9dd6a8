//! Plans over the archive: the figures, that they are those of the schedule and exact, and every refusal.
use rowkeeper::{ByColumn, Frame, Join, Options, Plan, Ranks, Refusal, Strategy, Turn, plan};

/// A table of one column.
fn keys(keys: &[i64]) -> Vec<i64> {
    let head = [keys.len() as i64, 1].into_iter();
    head.chain(keys.iter().copied()).chain(keys.iter().map(|_| 1)).collect()
}

/// The frames of these heights.
fn frames(keys: &[i64], heights: &[i64]) -> Vec<Frame> {
    let mut at = 0;
    let part = |height: &i64| {
        at += *height as usize;
        Frame::of_keys(&keys[at - *height as usize..at]).unwrap()
    };
    heights.iter().map(part).collect()
}

/// The schedule with a right area for so many rows; the refusal that a right frame meets.
fn schedule(options: &Options, lefts: &[Frame], rights: &[Frame], rows: usize) -> Result<Plan, Refusal> {
    let left_words = lefts.iter().map(|frame| frame.len()).sum();
    let mut join = Join::open(options, left_words, Join::right_words(options, rows)).unwrap();
    let mut said = Plan { rows: 0, turns: 0, rights: 0 };
    let (mut written, mut output) = (0, vec![0; Join::output_words(options, 4096)]);
    lefts.iter().for_each(|frame| join.left(frame).unwrap());
    if rights.is_empty() {
        join.end_right().unwrap();
    }
    while written < lefts.len() {
        said.turns += 1;
        if let Turn::WantsRight = join.turn(&mut output).unwrap() {
            join.right(&rights[said.rights])?;
            said.rights += 1;
            said.rows = said.rows.max(join.held() as usize);
            if said.rights == rights.len() {
                join.end_right().unwrap();
            }
        } else {
            written += 1;
        }
    }
    Ok(said)
}

/// The figures are the schedule's; one row fewer meets a 6.
#[test]
fn exact() {
    let (left, right): (Vec<i64>, Vec<i64>) = ((0..60).map(|i| i * i / 9).collect(), (0..90).map(|i| 4 * i).collect());
    for strategy in [Strategy::Backward, Strategy::Forward, Strategy::Nearest] {
        let options = Options { strategy, ..Options::default() };
        for (left_heights, right_heights) in
            [(vec![10; 6], vec![9; 10]), (vec![1; 60], vec![1; 90]), (vec![60], vec![30, 0, 60])]
        {
            let wanted = plan(&options, &keys(&left), &keys(&right), &left_heights, &right_heights).unwrap();
            let (lefts, rights) = (frames(&left, &left_heights), frames(&right, &right_heights));
            assert_eq!(schedule(&options, &lefts, &rights, wanted.rows), Ok(wanted));
            assert_eq!(schedule(&options, &lefts, &rights, wanted.rows - 1), Err(Refusal::NoRoom));
        }
    }
}

/// No left frame, no right frame, frames without rows.
#[test]
fn few_frames() {
    let (none, one) = (keys(&[]), keys(&[5]));
    let said = |left: &[i64], right: &[i64], left_heights: &[i64], right_heights: &[i64]| {
        let said = plan(&Options::default(), left, right, left_heights, right_heights).unwrap();
        (said.rows, said.turns, said.rights)
    };
    assert_eq!(said(&none, &none, &[], &[]), (0, 0, 0));
    assert_eq!(said(&none, &one, &[0, 0], &[1]), (0, 2, 0));
    assert_eq!(said(&one, &none, &[1], &[]), (0, 1, 0));
    assert_eq!(said(&one, &one, &[1], &[0, 1]), (1, 3, 2));
}

/// Every refusal in its order.
#[test]
fn refusals() {
    let (fine, fallen) = (keys(&[1, 2]), keys(&[2, 1]));
    let said = |options: &Options, left: &[i64], right: &[i64], heights: &[i64]| {
        plan(options, left, right, heights, heights).unwrap_err()
    };
    let plain = Options::default();
    let listed =
        |column| Options { by: vec![ByColumn::default()], ranks: Some(Ranks::new(column, [8])), ..Options::default() };
    let codes = |code: i64| vec![1, 2, code, 0, 1, 1];
    assert_eq!(
        said(&Options { tolerance: Some(u64::MAX), carried: 9, ..plain.clone() }, &[], &[], &[]),
        Refusal::BadOptions
    );
    assert_eq!(said(&Options { carried: 9, ..listed(1) }, &[], &[], &[]), Refusal::TooManyCarried);
    assert_eq!(said(&listed(1), &[], &[], &[]), Refusal::BadRanks);
    assert_eq!(said(&listed(0), &codes(7), &codes(8)[1..], &[]), Refusal::BadFrame);
    assert_eq!(said(&Options { carried: 1, ..plain.clone() }, &fine, &fine, &[2]), Refusal::BadFrame);
    assert_eq!(said(&listed(0), &codes(8), &codes(7), &[]), Refusal::UnknownCode);
    assert_eq!(said(&plain, &fallen, &fine, &[]), Refusal::Unsorted);
    assert_eq!(said(&plain, &fine, &fallen, &[]), Refusal::Unsorted);
    for heights in [&[][..], &[1], &[3], &[3, -1], &[2, 4097], &[i64::MAX, i64::MAX, 4]] {
        assert_eq!(said(&plain, &fine, &fine, heights), Refusal::BadHeights);
    }
}
