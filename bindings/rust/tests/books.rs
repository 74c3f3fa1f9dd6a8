//! Books over the archive: the merged rows, equal rows, long books, every refusal, and the join over what was merged; which
//! notices stand, and that a join picks the same from those that do.
use rowkeeper::Notice::{self, LeftOut, Nameless, Stands};
use rowkeeper::{
    Book, ByColumn, Frame, Frames, Options, Ranks, Refusal, Strategy, asof, book_words, merge, standing, standing_words,
};

type Row = [Option<i64>; 3];

/// One by-column, the key, one carried column.
fn options() -> Options {
    Options { by: vec![ByColumn::default()], carried: 1, ..Options::default() }
}

/// Rows of a group, a key and what is carried.
fn rows(cells: &[[i64; 3]]) -> Vec<Row> {
    cells.iter().map(|row| row.map(Some)).collect()
}

/// The words of a table.
fn table(rows: &[Row]) -> Vec<i64> {
    let cells = || rows.iter().flatten();
    let head = [rows.len() as i64, 3].into_iter();
    head.chain(cells().map(|c| c.unwrap_or(0))).chain(cells().map(|c| c.is_some() as i64)).collect()
}

/// A book's rows.
fn rows_of(book: Book<'_>) -> Vec<Row> {
    (0..book.len()).map(|i| std::array::from_fn(|j| book.cell(i, j))).collect()
}

/// The merged rows, with an output that is just long enough, or the refusal.
fn merged(options: &Options, house: &[Row], festival: &[Row]) -> Result<Vec<Row>, Refusal> {
    let mut output = vec![7; book_words(options, house.len() + festival.len()).unwrap()];
    merge(options, &table(house), &table(festival), &mut output).map(rows_of)
}

/// Rows that compare equal: the house's first, each book's in its order, whatever they carry.
#[test]
fn equal_rows() {
    let (house, festival) = (rows(&[[1, 20, 9], [1, 20, 8]]), rows(&[[1, 10, 1], [1, 20, 2], [1, 20, 3], [2, 0, 4]]));
    let all = rows(&[[1, 10, 1], [1, 20, 9], [1, 20, 8], [1, 20, 2], [1, 20, 3], [2, 0, 4]]);
    assert_eq!(merged(&options(), &house, &festival), Ok(all));
    assert_eq!(merged(&options(), &house, &[]), Ok(house.clone()));
    assert_eq!(merged(&options(), &[], &festival), Ok(festival));
    assert_eq!(merged(&options(), &[], &[]), Ok(vec![]));
}

/// The declared order: descending, nulls last, and a list of ranks.
#[test]
fn declared_order() {
    let falling = Options { by: vec![ByColumn { descending: true, nulls_last: true }], ..options() };
    let (high, low, null) = ([Some(9), Some(1), None], [Some(1), None, Some(5)], [None, Some(0), Some(0)]);
    assert_eq!(merged(&falling, &[low], &[high, null]), Ok(vec![high, low, null]));
    let listed = Options { ranks: Some(Ranks::new(0, [30, 10, 20])), ..options() };
    let (house, festival) = (rows(&[[30, 5, 1], [20, 1, 2]]), rows(&[[30, 4, 3], [10, 9, 4]]));
    assert_eq!(merged(&listed, &house, &festival), Ok(rows(&[[30, 4, 3], [30, 5, 1], [10, 9, 4], [20, 1, 2]])));
}

/// The words of the output: the table, and behind it what was there.
#[test]
fn words() {
    let mut output = [7; 16];
    let house = table(&rows(&[[1, 2, 3]]));
    let book = merge(&options(), &house, &table(&[[None, Some(4), None]]), &mut output).unwrap();
    assert_eq!(book[..], [2, 3, 0, 4, 0, 1, 2, 3, 0, 1, 0, 1, 1, 1]);
    assert_eq!(
        (book.len(), book.columns(), book.is_empty(), book.cell(0, 0), book.cell(1, 2)),
        (2, 3, false, None, Some(3))
    );
    assert_eq!(output[14..], [7, 7]);
}

/// Every refusal in its order, and that none alters a word.
#[test]
fn refusals() {
    let (fine, fallen) = (table(&rows(&[[1, 2, 3]])), table(&rows(&[[1, 5, 0], [1, 4, 0]])));
    let listed = Options { ranks: Some(Ranks::new(0, [8])), ..options() };
    let said = |options: &Options, house: &[i64], festival: &[i64]| {
        let mut output = [7; 13];
        let refusal = merge(options, house, festival, &mut output).unwrap_err();
        assert_eq!(output, [7; 13]);
        refusal
    };
    let strict = Options { tolerance: Some(u64::MAX), carried: 9, ..options() };
    assert_eq!(said(&strict, &[], &[]), Refusal::BadOptions);
    assert_eq!(said(&Options { carried: 9, ..listed.clone() }, &[], &[]), Refusal::TooManyCarried);
    assert_eq!(said(&Options { ranks: Some(Ranks::new(1, [8])), ..options() }, &[], &[]), Refusal::BadRanks);
    assert_eq!(said(&listed, &fallen, &fine[1..]), Refusal::BadFrame);
    assert_eq!(said(&listed, &[0, 3], &fallen), Refusal::UnknownCode);
    assert_eq!(said(&options(), &fallen, &fine), Refusal::Unsorted);
    assert_eq!(said(&options(), &fine, &fallen), Refusal::Unsorted);
    assert_eq!(said(&options(), &fine, &fine), Refusal::NoRoom);
}

/// Books that are longer than a frame, merged and joined: every sale takes the last notice at or before it of both books.
#[test]
fn join_over_a_season() {
    let options = Options { carried: 1, ..Options::default() };
    let (house, festival): (Vec<i64>, Vec<i64>) =
        ((0..5000).map(|i| 4 * i).collect(), (0..5000).map(|i| 4 * i + 1).collect());
    let book = |minutes: &[i64], price: i64| {
        let values = minutes.iter().flat_map(|minute| [*minute, price]);
        [minutes.len() as i64, 2].into_iter().chain(values).chain(vec![1; 2 * minutes.len()]).collect::<Vec<i64>>()
    };
    let mut output = vec![0; book_words(&options, 10_000).unwrap()];
    let season = merge(&options, &book(&house, 1), &book(&festival, 2), &mut output).unwrap();
    assert_eq!(season.frames().map(|frame| frame[0]).collect::<Vec<_>>(), [4096, 4096, 1808]);
    let sales: Vec<i64> = (0..20_000).collect();
    let joined = asof(&options, Frames::of_columns(&[&sales]).unwrap(), season.frames()).unwrap();
    for (sale, found) in joined.carrying::<1>().enumerate() {
        let found = found.unwrap().unwrap();
        assert_eq!(
            (found.number, found.carried),
            ((sale / 4 * 2 + (sale % 4 > 0) as usize) as u64, [Some(1 + (sale % 4 > 0) as i64)])
        );
    }
}

/// A frame is a book.
#[test]
fn frames_are_books() {
    let one = Frame::of_keys(&[1, 5]).unwrap();
    let mut output = [0; 10];
    let book = merge(&Options::default(), &one, &one, &mut output).unwrap();
    assert_eq!((0..4).map(|i| book.cell(i, 0)).collect::<Vec<_>>(), [Some(1), Some(1), Some(5), Some(5)]);
}

/// What is told of each row, with an output that is just long enough, or the refusal.
fn notices(options: &Options, book: &[Row]) -> Result<Vec<Notice>, Refusal> {
    let mut output = vec![7; standing_words(book.len()).unwrap()];
    standing(options, &table(book), 0, &mut output).map(|notices| notices.iter().collect())
}

/// Corrections, withdrawals, nulls.
#[test]
fn which_stand() {
    let book = [
        [None, Some(1), Some(0)],
        [Some(1), None, Some(0)],
        [Some(1), Some(10), Some(0)],
        [Some(1), Some(10), Some(2)],
        [Some(1), Some(20), Some(0)],
        [Some(1), Some(20), Some(1)],
        [Some(2), Some(20), Some(1)],
        [Some(2), Some(20), None],
    ];
    let told = [Nameless, Nameless, LeftOut(3), Stands, LeftOut(5), LeftOut(5), LeftOut(7), Stands];
    assert_eq!(notices(&options(), &book), Ok(told.to_vec()));
    assert_eq!(notices(&options(), &[]), Ok(vec![]));
}

/// Every refusal of standing that a merge has not, and that none alters a word.
#[test]
fn standing_refusals() {
    let said = |options: &Options, book: &[i64], place: usize| {
        let mut output = [7; 5];
        let refusal = standing(options, book, place, &mut output).unwrap_err();
        assert_eq!(output, [7; 5]);
        refusal
    };
    let (fine, fallen) = (table(&rows(&[[1, 2, 3]])), table(&rows(&[[1, 5, 0], [1, 4, 0]])));
    assert_eq!(said(&options(), &fine[1..], 9), Refusal::BadFrame);
    assert_eq!(said(&options(), &fallen, 1), Refusal::BadColumns);
    assert_eq!(said(&options(), &fallen, usize::MAX), Refusal::BadColumns);
    assert_eq!(said(&options(), &fallen, 0), Refusal::Unsorted);
    assert_eq!(said(&options(), &fine, 0), Refusal::NoRoom);
}

/// Without withdrawals Backward and Nearest pick the same notices from the rows that stand as from all rows.
#[test]
fn same_picks() {
    let minutes: Vec<i64> = (0..600).map(|i| i / 3 * 7 % 50 + i / 150 * 50).collect();
    let mut minutes = minutes;
    minutes.sort();
    let (book, sales): (Vec<i64>, Vec<i64>) = (minutes, (0..250).collect());
    let mut output = vec![0; standing_words(book.len()).unwrap()];
    let withdrawn = vec![0; book.len()];
    let words = Frame::of_columns(&[&book, &withdrawn]).unwrap();
    let told = standing(&Options { carried: 1, ..Options::default() }, &words, 0, &mut output).unwrap();
    let places: Vec<usize> = told.iter().enumerate().filter(|(_, notice)| *notice == Stands).map(|(i, _)| i).collect();
    assert!(places.len() < book.len() && !places.is_empty());
    let stand: Vec<i64> = places.iter().map(|i| book[*i]).collect();
    for strategy in [Strategy::Backward, Strategy::Nearest] {
        let options = Options { strategy, ..Options::default() };
        let picks = |right: &Vec<i64>| -> Vec<Option<u64>> {
            let joined = asof(&options, Frames::of_columns(&[&sales]).unwrap(), Frames::of_columns(&[right]).unwrap());
            joined.unwrap().collect::<Result<_, _>>().unwrap()
        };
        let translated: Vec<Option<u64>> =
            picks(&stand).into_iter().map(|found| found.map(|number| places[number as usize] as u64)).collect();
        assert_eq!(picks(&book), translated);
    }
}
