//! The words of `explain`, copied by hand from docs/PROGRAMS.md.

use independent::explain;
use independent::field;
use independent::printed::Printed;
use independent::random::Random;
use independent::row::{self, Row};
use independent::{make, scene, text};

fn explained(input: &str) -> String {
    let Printed { out, err } = explain::explain(input.as_bytes()).unwrap();
    assert!(err.is_empty() == (out != "unreadable\n"));
    out
}

/// A table of these rows.
fn of_rows(rows: &[Row]) -> String {
    explained(&text::lines(&make::bytes_of(rows), 6))
}

#[test]
fn accepted_and_unreadable() {
    assert_eq!(explained("010000000000\n060000000000"), "accepted\n");
    assert_eq!(explained("010000000000\n06000000000\n"), "unreadable\n");
}

#[test]
fn words_of_1_2_5_and_7() {
    assert_eq!(explained(""), "refused 1 at row 0: no rows\n");
    assert_eq!(
        explained(&"ffffffffffff\n".repeat(2000)),
        "refused 2 at row 1024: over 1,024 rows\n"
    );
    assert_eq!(
        explained(&"010000000000\n060000000000\n".repeat(33)),
        "refused 5 at row 64: a 33rd function\n"
    );
    assert_eq!(
        explained("010000000000\n090000000001\n060000000000"),
        "refused 7 at row 1: call of a function that isn't there\n"
    );
}

#[test]
fn words_of_4() {
    let cases: [(&[u8], &str); 11] = [
        (&[1], "at row 1: something is left open at the end"),
        (&[1, 5, 3], "at row 3: something is left open at the end"),
        (&[1, 1], "at row 1: a function in a function"),
        (&[1, 4], "at row 1: else without an open then part"),
        (&[4], "at row 0: else without an open then part"),
        (&[1, 7], "at row 1: break outside a loop"),
        (&[1, 3, 8], "at row 2: continue outside a loop"),
        (&[8], "at row 0: continue outside a loop"),
        (&[2], "at row 0: outside a function"),
        (&[1, 6, 6], "at row 2: outside a function"),
        (&[9, 1, 6], "at row 0: outside a function"),
    ];
    for (kinds, expected) in cases {
        let rows: Vec<Row> = kinds.iter().map(|kind| Row::plain(*kind)).collect();
        assert_eq!(of_rows(&rows), format!("refused 4 {expected}\n"), "{kinds:?}");
    }
}

/// The digits of a row that meets 3, and the words.
const FIELDS: &[(&str, &str)] = &[
    ("0d0000000000", "unknown kind"),
    ("000000000000", "unknown kind"),
    ("ffffffffffff", "unknown kind"),
    // a do: op 0 uses p and n, op 1 to 3 p and q
    ("020400000000", "op is 4, not 0 to 3"),
    ("02ff00000000", "op is 255, not 0 to 3"),
    ("020410110100", "op is 4, not 0 to 3"),
    ("020010000000", "p is 16, not 0 to 15"),
    ("02000f01ffff", "q is 1, not 0"),
    ("020000100000", "q is 16, not 0"),
    ("020110000000", "p is 16, not 0 to 15"),
    ("02030f100000", "q is 16, not 0 to 15"),
    ("02020f0f0100", "n is 1, not 0"),
    ("02011011bc02", "p is 16, not 0 to 15"),
    ("02010011bc02", "q is 17, not 0 to 15"),
    ("02010000bc02", "n is 700, not 0"),
    // an if or a loop: op 0 and 1 use p and n, op 2 p and q
    ("030300000000", "op is 3, not 0 to 2"),
    ("050300000000", "op is 3, not 0 to 2"),
    ("0304ffffffff", "op is 4, not 0 to 2"),
    ("030010000000", "p is 16, not 0 to 15"),
    ("05010001ffff", "q is 1, not 0"),
    ("0302ff000000", "p is 255, not 0 to 15"),
    ("05020f100000", "q is 16, not 0 to 15"),
    ("05020f0fffff", "n is 65535, not 0"),
    // a call uses n
    ("09010000ffff", "op is 1, not 0"),
    ("09000100ffff", "p is 1, not 0"),
    ("09000010ffff", "q is 16, not 0"),
    // a switch uses p, a case n
    ("0a0100000000", "op is 1, not 0"),
    ("0a0010000000", "p is 16, not 0 to 15"),
    ("0a000f010000", "q is 1, not 0"),
    ("0a000f000100", "n is 1, not 0"),
    ("0b020000ffff", "op is 2, not 0"),
    ("0b000100ffff", "p is 1, not 0"),
    ("0b000001ffff", "q is 1, not 0"),
    // the others use nothing
    ("0c0000000100", "n is 1, not 0"),
    ("0c0001000000", "p is 1, not 0"),
    ("010100000000", "op is 1, not 0"),
    ("040001000000", "p is 1, not 0"),
    ("060000010000", "q is 1, not 0"),
    ("07000000bc02", "n is 700, not 0"),
    ("080000000001", "n is 256, not 0"),
    ("06ffffffffff", "op is 255, not 0"),
    ("060000ffffff", "q is 255, not 0"),
];

#[test]
fn words_of_3() {
    for (digits, words) in FIELDS {
        assert_eq!(explained(digits), format!("refused 3 at row 0: {words}\n"), "{digits}");
        let inside = format!("010000000000\n050000000000\n{digits}\n");
        assert_eq!(explained(&inside), format!("refused 3 at row 2: {words}\n"), "{digits}");
    }
}

/// A field is named exactly where the other reading finds the row wrong.
#[test]
fn a_wrong_row_has_a_wrong_field() {
    let mut rng = Random::new(3);
    let mut wrong = 0;
    for _ in 0..20_000 {
        let mut row = scene::right_row(&mut rng);
        assert_eq!(field::first_wrong(row), None, "{row:?}");
        scene::spoil_byte(&mut rng, &mut row);
        if (row::FUNCTION..=row::DEFAULT).contains(&row.kind) {
            assert_eq!(field::first_wrong(row).is_none(), row.fields_right(), "{row:?}");
            wrong += usize::from(!row.fields_right());
        }
    }
    assert!(wrong > 5000, "{wrong}");
}

/// A function with so many ifs beside each other, then so many loops in each
/// other, then a row.
fn with(beside: usize, open: usize, last: u8) -> String {
    let mut rows = vec![Row::plain(row::FUNCTION)];
    rows.extend([row::IF, row::END].map(Row::plain).repeat(beside));
    rows.extend(vec![Row::plain(row::LOOP); open]);
    rows.push(Row::plain(last));
    of_rows(&rows)
}

#[test]
fn words_of_6() {
    let [if_, loop_] = [row::IF, row::LOOP];
    assert_eq!(with(0, 16, if_), "refused 6 at row 17: a 17th open if or loop\n");
    assert_eq!(with(0, 16, loop_), "refused 6 at row 17: a 17th open if or loop\n");
    // the body and 63 ifs are 64 regions
    assert_eq!(with(63, 0, if_), "refused 6 at row 127: a 65th region\n");
    assert_eq!(with(63, 0, loop_), "refused 6 at row 127: a 65th region\n");
    // the body, 48 ifs and 15 loops too
    assert_eq!(with(48, 15, if_), "refused 6 at row 112: a 65th region\n");
    // the body, 47 ifs and 16 loops too: both limits at once
    assert_eq!(with(47, 16, if_), "refused 6 at row 111: a 17th open if or loop\n");
    assert_eq!(with(47, 16, loop_), "refused 6 at row 111: a 17th open if or loop\n");
    // one region less: only the other limit
    assert_eq!(with(46, 16, loop_), "refused 6 at row 109: a 17th open if or loop\n");
}

/// An else is never a 17th open if or loop.
#[test]
fn words_of_6_at_an_else() {
    let [open, if_, else_, end] = [row::FUNCTION, row::IF, row::ELSE, row::END].map(Row::plain);
    let beside = |count| [vec![open], [if_, end].repeat(count)].concat();
    let rows = [beside(62), vec![if_, else_]].concat();
    assert_eq!(of_rows(&rows), "refused 6 at row 126: a 65th region\n");
    let rows = [beside(47), vec![if_; 16], vec![else_]].concat();
    assert_eq!(of_rows(&rows), "refused 6 at row 111: a 65th region\n");
    // with one region less it opens the 64th, and all is left open
    let rows = [beside(46), vec![if_; 16], vec![else_]].concat();
    assert_eq!(of_rows(&rows), "refused 4 at row 110: something is left open at the end\n");
}
