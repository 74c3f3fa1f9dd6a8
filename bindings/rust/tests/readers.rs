//! The answer readers over the archive: what a turn wrote, frames with a distance, places outside, every refusal in its order.
use rowkeeper::{Frame, Join, Options, Refusal, Turn, View, view_distance, view_plain};

/// Two rows of p 1, (2, 201) and none; and the same with a distance, 5 and none.
const PRICED: [i64; 10] = [2, 2, 2, 201, 0, 0, 1, 1, 0, 0];
const FAR: [i64; 14] = [2, 3, 2, 201, 5, 0, 0, 0, 1, 1, 1, 0, 0, 0];

/// All cells of a view.
fn cells(view: View<'_>) -> Vec<Vec<Option<i64>>> {
    view.rows().map(|row| row.cells().collect()).collect()
}

/// A frame without a distance: both readers show the same.
#[test]
fn priced() {
    for view in [view_plain(1, &PRICED).unwrap(), view_distance(1, &PRICED).unwrap()] {
        assert_eq!((view.len(), view.columns(), view.is_empty()), (2, 2, false));
        assert_eq!(cells(view), [[Some(2), Some(201)], [None, None]]);
        let rows: Vec<_> =
            view.rows().map(|row| (row.number(), row.carried(0), row.carried(1), row.distance())).collect();
        assert_eq!(rows, [(Some(2), Some(201), None, None), (None, None, None, None)]);
    }
}

/// One with a distance: the distance reader shows it in the last column and nowhere else, the plain one refuses the frame.
#[test]
fn with_distance() {
    let view = view_distance(1, &FAR).unwrap();
    assert_eq!(cells(view), [[Some(2), Some(201), Some(5)], [None; 3]]);
    let rows: Vec<_> = view.rows().map(|row| (row.number(), row.carried(0), row.carried(1), row.distance())).collect();
    assert_eq!(rows, [(Some(2), Some(201), None, Some(5)), (None, None, None, None)]);
    assert_eq!(view_plain(1, &FAR), Err(Refusal::BadColumns));
}

/// Places outside the frame are null, however far.
#[test]
fn outside() {
    let view = view_plain(1, &PRICED).unwrap();
    let far = [2, usize::MAX, usize::MAX / 2 + 1, 1 << 32];
    for place in far {
        assert_eq!((view.cell(place, 0), view.cell(0, place), view.cell(place, place)), (None, None, None));
        assert_eq!(view.rows().next().unwrap().carried(place), None);
    }
    assert_eq!(view.rows().next().unwrap().carried(usize::MAX), None);
}

/// Every refusal in its order: 10, 5, 13.
#[test]
fn refusals() {
    for view in [view_plain, view_distance] {
        assert_eq!(view(9, &[]), Err(Refusal::TooManyCarried));
        assert_eq!(view(usize::MAX, &PRICED), Err(Refusal::TooManyCarried));
        assert_eq!(view(8, &[]), Err(Refusal::BadFrame));
        assert_eq!(view(3, &PRICED[..9]), Err(Refusal::BadFrame));
        assert_eq!(view(0, &[1, 1, 5, 0]), Err(Refusal::BadFrame));
        assert_eq!(view(0, &[0, -1]), Err(Refusal::BadFrame));
        assert_eq!(view(2, &PRICED), Err(Refusal::BadColumns));
        assert_eq!(view(0, &[3, 0]), Err(Refusal::BadColumns));
        assert!(view(8, &[0, 9]).unwrap().is_empty());
    }
    assert_eq!(view_plain(0, &PRICED), Err(Refusal::BadColumns));
}

/// What a turn wrote, by the reader that is told the join's p.
#[test]
fn after_a_turn() {
    let options = Options { carried: 1, ..Options::default() };
    let mut join = Join::open_rows(&options, 10, 10).unwrap();
    join.right(&Frame::of_columns(&[&[10, 20, 20, 30], &[1800, 2200, 2300, 2500]]).unwrap()).unwrap();
    join.left(&Frame::of_keys(&[5, 20, 25]).unwrap()).unwrap();
    let mut output = [0; 14];
    assert!(matches!(join.turn(&mut output), Ok(Turn::Wrote { .. })));
    for view in [view_plain, view_distance] {
        let rows = view(1, &output).unwrap().rows();
        assert_eq!(rows.len(), 3);
        let prices: Vec<_> = rows.map(|row| (row.number(), row.carried(0), row.distance())).collect();
        assert_eq!(prices, [(None, None, None), (Some(2), Some(2300), None), (Some(2), Some(2300), None)]);
    }
}

/// The same of a join that adds the distance: the plain reader refuses what it wrote, the distance reader shows it.
#[test]
fn after_a_turn_with_distance() {
    let options = Options { carried: 1, distance: true, ..Options::default() };
    let mut join = Join::open_rows(&options, 10, 10).unwrap();
    join.right(&Frame::of_columns(&[&[10, 20, 20, 30], &[1800, 2200, 2300, 2500]]).unwrap()).unwrap();
    join.left(&Frame::of_keys(&[5, 20, 25]).unwrap()).unwrap();
    let mut output = [0; 20];
    assert!(matches!(join.turn(&mut output), Ok(Turn::Wrote { .. })));
    assert_eq!(view_plain(1, &output), Err(Refusal::BadColumns));
    let ages = view_distance(1, &output).unwrap().rows().map(|row| (row.carried(0), row.distance()));
    assert_eq!(ages.collect::<Vec<_>>(), [(None, None), (Some(2300), Some(0)), (Some(2300), Some(5))]);
}

/// A frame of 4,096 rows and 10 columns, every cell of it.
#[test]
fn longest() {
    let value = |row: usize, column: usize| (10 * row + column) as i64;
    let rows: Vec<Vec<Option<i64>>> = (0..4096)
        .map(|row| (0..10).map(|column| (value(row, column) % 7 != 0).then_some(value(row, column))).collect())
        .collect();
    let frame = Frame::new(10, &rows).unwrap();
    assert_eq!(cells(view_distance(8, &frame).unwrap()), rows);
    assert_eq!(view_plain(8, &frame), Err(Refusal::BadColumns));
}
