//! Frames: by rows, by keys, by columns with and without nulls, cut from long columns, and what makes none.
use rowkeeper::FrameError::{OtherColumns, OtherRows, TooManyRows};
use rowkeeper::{Column, Frame, Frames};

type Row = [Option<i64>; 2];

/// Rows that make no frame.
#[test]
fn of_rows() {
    assert_eq!(Frame::of_keys(&vec![1; 4097]).unwrap_err(), TooManyRows);
    assert_eq!(Frame::of_keys(&vec![1; 4096]).unwrap().len(), 2 + 2 * 4096);
    assert_eq!(Frame::new(2, &vec![[Some(1), None]; 4097]).unwrap_err(), TooManyRows);
    assert_eq!(Frame::new(2, &[vec![Some(1), None], vec![None]]).unwrap_err(), OtherColumns);
    assert_eq!(Frame::new(2, &[[Some(1), None]]).unwrap()[..], [1, 2, 1, 0, 1, 0]);
    assert_eq!(Frame::new::<Row>(2, &[]).unwrap()[..], [0, 2]);
    assert_eq!(Frame::of_keys(&[]).unwrap()[..], [0, 1]);
}

/// The words of columns, with nulls and without, and columns that make no frame.
#[test]
fn of_columns() {
    let (groups, keys) = ([7, 8, 9], [1, 2, 3]);
    let frame = Frame::of_columns(&[&groups, &keys]).unwrap();
    assert_eq!(frame[..], [3, 2, 7, 1, 8, 2, 9, 3, 1, 1, 1, 1, 1, 1]);
    let marked = [Column::with_marks(&groups, &[true, true, false]), Column::with_marks(&keys, &[false, true, true])];
    assert_eq!(Frame::of_columns(&marked).unwrap()[..], [3, 2, 7, 0, 8, 2, 0, 3, 1, 0, 1, 1, 0, 1]);
    assert_eq!(Frame::of_columns::<&[i64]>(&[&[], &[], &[]]).unwrap()[..], [0, 3]);
    assert_eq!(Frame::of_columns::<&[i64]>(&[]).unwrap()[..], [0, 0]);
    assert_eq!(Frame::of_columns(&[&groups[..], &keys[..2]]).unwrap_err(), OtherRows);
    for marks in [&[true; 2][..], &[true; 4]] {
        assert_eq!(Frame::of_columns(&[Column::with_marks(&keys, marks)]).unwrap_err(), OtherRows);
    }
    let long = vec![1; 4097];
    assert_eq!(Frame::of_columns(&[&long, &long]).unwrap_err(), TooManyRows);
    assert_eq!(Frame::of_columns(&[&long[1..]; 5]).unwrap().len(), 2 + 2 * 4096 * 5);
}

/// Columns and rows make the same frame, for up to five columns and any nulls.
#[test]
fn columns_are_rows() {
    let mut z = 1u64;
    let mut below = |n: u64| {
        z = z.wrapping_mul(6364136223846793005).wrapping_add(1442695040888963407);
        (z >> 33) % n
    };
    for _ in 0..500 {
        let (count, rows) = (1 + below(5) as usize, below(9) as usize);
        let values: Vec<Vec<i64>> = (0..count).map(|_| (0..rows).map(|_| below(9) as i64 - 4).collect()).collect();
        let marks: Vec<Vec<bool>> = (0..count).map(|_| (0..rows).map(|_| below(3) > 0).collect()).collect();
        let columns: Vec<_> =
            values.iter().zip(&marks).map(|(values, marks)| Column::with_marks(values, marks)).collect();
        let cell = |row: usize, column: usize| marks[column][row].then_some(values[column][row]);
        let by_rows: Vec<Vec<_>> = (0..rows).map(|row| (0..count).map(|column| cell(row, column)).collect()).collect();
        assert_eq!(Frame::of_columns(&columns), Frame::new(count, &by_rows));
    }
}

/// Long columns are cut every 4,096 rows; the frames are those of their parts.
#[test]
fn cut() {
    for rows in [0, 1, 4095, 4096, 4097, 8192, 10000] {
        let keys: Vec<i64> = (0..rows).collect();
        let marks: Vec<bool> = keys.iter().map(|key| key % 3 > 0).collect();
        let column = Column::with_marks(&keys, &marks);
        let mut frames = Frames::of_columns(&[Column::new(&keys), column]).unwrap();
        for (left, (keys, marks)) in keys.chunks(4096).zip(marks.chunks(4096)).enumerate() {
            assert_eq!(frames.len(), (rows as usize).div_ceil(4096) - left);
            let part = Frame::of_columns(&[Column::new(keys), Column::with_marks(keys, marks)]);
            assert_eq!(frames.next(), Some(part.unwrap()));
        }
        assert_eq!((frames.len(), frames.next()), (0, None));
    }
    assert_eq!(Frames::of_columns(&[&[1, 2][..], &[1]]).unwrap_err(), OtherRows);
}

/// What is said of rows that make no frame.
#[test]
fn texts() {
    assert_eq!(TooManyRows.to_string(), "a frame has at most 4096 rows");
    assert_eq!(OtherColumns.to_string(), "a row has another number of columns");
    assert!(OtherRows.to_string().starts_with("a column, or its marks, has another number of rows"));
}
