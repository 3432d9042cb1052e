//! The row of a refusal: by hand, against the number of the other reading, and
//! against what closing the table before and behind that row gives.

use independent::fault::{self, Fault};
use independent::random::Random;
use independent::row::{self, Row, ROW_BYTES};
use independent::{check, limits, make, replay_fault};

fn plain(kinds: &[u8]) -> Vec<u8> {
    let rows: Vec<Row> = kinds.iter().map(|kind| Row::plain(*kind)).collect();
    make::bytes_of(&rows)
}

/// The kinds of the rows, the number and the row.
const BY_HAND: [(&[u8], u8, usize); 15] = [
    (&[], 1, 0),
    (&[1, 6], 0, 2),
    (&[1], 4, 1),
    (&[1, 3, 6], 4, 3),
    (&[6], 4, 0),
    (&[1, 6, 2, 6], 4, 2),
    (&[1, 1, 6, 6], 4, 1),
    (&[1, 4, 6], 4, 1),
    (&[1, 3, 4, 4, 6, 6], 4, 3),
    (&[1, 5, 4, 6, 6], 4, 2),
    (&[1, 5, 3, 7, 6, 6, 8, 6], 4, 6),
    (&[1, 3, 8, 6, 6], 4, 2),
    (&[1, 0, 4], 3, 1),
    (&[1, 4, 0], 4, 1),
    (&[1, 3, 5, 6, 4, 6, 6, 13], 3, 7),
];

#[test]
fn by_hand() {
    for (kinds, number, row) in BY_HAND {
        assert_eq!(fault::find(&plain(kinds)), Fault { number, row }, "{kinds:?}");
    }
    let call = |n| Row { n, ..Row::plain(row::CALL) };
    let [open, end] = [row::FUNCTION, row::END].map(Row::plain);
    let rows = make::bytes_of(&[open, call(1), call(2), end, open, call(9), end]);
    assert_eq!(fault::find(&rows), Fault { number: 7, row: 2 });
    assert_eq!(fault::find(&rows[..30]), Fault { number: 4, row: 5 });
    assert_eq!(fault::find(&rows[..31]), Fault { number: 1, row: 5 });
}

#[test]
fn limits() {
    let row_of = |rows: &[u8]| fault::find(rows).row;
    assert_eq!(row_of(&limits::rows(1025)), 1024);
    assert_eq!(row_of(&limits::functions(33)), 3 * 32);
    assert_eq!(row_of(&limits::open(17, &[row::IF, row::LOOP])), 17);
    assert_eq!(row_of(&limits::open_in_else(17)), 2 * 16 + 1);
    assert_eq!(row_of(&limits::regions(65, row::LOOP)), 2 * 63 + 1);
    assert_eq!(row_of(&limits::regions_with_else(65)), 3 * 31 + 2);
    for (rows, number) in limits::all() {
        assert_eq!(fault::find(&rows).number, number);
    }
}

/// How many are open behind these rows, of which none is wrong.
fn open_behind(rows: &[u8]) -> usize {
    rows.chunks(ROW_BYTES).fold(0, |open, bytes| match bytes[0] {
        row::FUNCTION | row::IF | row::LOOP | row::SWITCH => open + 1,
        row::END => open - 1,
        _ => open,
    })
}

/// The table with an end for everything that is open.
fn closed(rows: &[u8]) -> Vec<u8> {
    let ends = plain(&vec![row::END; open_behind(rows)]);
    [rows, &ends].concat()
}

#[test]
fn the_first_row_that_is_wrong() {
    let mut rng = Random::new(5);
    let mut met = [0; 12];
    for _ in 0..20_000 {
        let rows = replay_fault::table(&mut rng);
        let Fault { number, row } = fault::find(&rows);
        assert_eq!(number, check(&rows), "{rows:?}");
        met[usize::from(number)] += 1;
        if ![3, 4, 5, 6, 11].contains(&number) {
            continue;
        }
        let before = &rows[..row * ROW_BYTES];
        let closed = closed(before);
        // 2 where its chain is too long
        assert!(closed.is_empty() || closed.len() > 6144 || [0, 2, 7].contains(&check(&closed)));
        if row * ROW_BYTES < rows.len() {
            let mut behind = rows[..(row + 1) * ROW_BYTES].to_vec();
            assert_eq!(check(&behind), number);
            behind.extend(plain(&[row::END; 18]));
            assert!(behind.len() > 6144 || check(&behind) == number);
        } else {
            assert!(number == 4 && closed.len() > before.len());
        }
    }
    assert!([0, 1, 2, 3, 4, 5, 6, 7, 11].iter().all(|number| met[*number] > 100), "{met:?}");
}
