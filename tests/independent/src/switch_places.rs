//! Every row in every place around a switch, one table each: what is misplaced
//! there and what is not. And the limits, with cases and defaults at them. No
//! chance in here.

use crate::limits::some_do;
use crate::make::case_row;
use crate::row::{self, Row};

/// A table by name.
pub type Named = (String, Vec<Row>);

/// All of them.
pub fn all() -> Vec<Named> {
    let mut tables = Vec::new();
    for (name, place) in places() {
        for row in rows_to_place() {
            let Row { kind, n, .. } = row;
            tables.push((format!("{name}-{kind}-{n}"), in_place(&place, row)));
        }
    }
    tables.extend(near_limits());
    tables
}

const FUNCTION: Row = Row { kind: row::FUNCTION, op: 0, p: 0, q: 0, n: 0 };
const IF: Row = Row { kind: row::IF, op: 1, p: 2, q: 0, n: 3 };
const LOOP: Row = Row { kind: row::LOOP, op: 1, p: 2, q: 0, n: 3 };
const ELSE: Row = Row { kind: row::ELSE, op: 0, p: 0, q: 0, n: 0 };
const SWITCH: Row = Row { kind: row::SWITCH, op: 0, p: 2, q: 0, n: 0 };
const DEFAULT: Row = Row { kind: row::DEFAULT, op: 0, p: 0, q: 0, n: 0 };
const END: Row = Row { kind: row::END, op: 0, p: 0, q: 0, n: 0 };

/// A row of each kind; of a case one with a number that the switches here have,
/// and one with another.
fn rows_to_place() -> Vec<Row> {
    let mut rows: Vec<Row> =
        (row::FUNCTION..=row::DEFAULT).filter(|kind| *kind != row::CASE).map(Row::plain).collect();
    rows.extend([case_row(50), case_row(51)]);
    rows
}

/// Rows that lead to a place.
fn places() -> Vec<(&'static str, Vec<Row>)> {
    let case = case_row(50);
    let body = |rows: &[Row]| [&[FUNCTION], rows].concat();
    vec![
        ("outside", vec![]),
        ("behind-a-function", vec![FUNCTION, SWITCH, case, END, END]),
        ("body", body(&[])),
        ("behind-a-switch", body(&[SWITCH, case, END])),
        ("switch", body(&[SWITCH])),
        ("switch-in-loop", body(&[LOOP, SWITCH])),
        ("switch-in-then", body(&[IF, SWITCH])),
        ("switch-in-case", body(&[SWITCH, case, SWITCH])),
        ("case", body(&[SWITCH, case])),
        ("case-in-loop", body(&[LOOP, SWITCH, case, some_do(1)])),
        ("case-in-then", body(&[IF, SWITCH, case])),
        ("later", body(&[SWITCH, case_row(7), case, some_do(1)])),
        ("later-behind-a-switch", body(&[SWITCH, case, SWITCH, case_row(51), END])),
        ("then-in-case", body(&[SWITCH, case, IF])),
        ("else-in-case", body(&[SWITCH, case, IF, ELSE])),
        ("loop-in-case", body(&[SWITCH, case, LOOP])),
        ("case-in-case", body(&[SWITCH, case_row(51), SWITCH, case])),
        ("default", body(&[SWITCH, case, DEFAULT])),
        ("default-in-loop", body(&[LOOP, SWITCH, case, DEFAULT, some_do(1)])),
        ("alone", body(&[SWITCH, DEFAULT])),
        ("alone-in-then", body(&[IF, SWITCH, DEFAULT])),
        ("then-in-default", body(&[SWITCH, DEFAULT, IF])),
        ("case-in-default", body(&[SWITCH, DEFAULT, SWITCH, case])),
    ]
}

/// The row in its place, and ends for all that is open.
fn in_place(place: &[Row], row: Row) -> Vec<Row> {
    let mut rows = [place, &[row]].concat();
    let count = |is: fn(&Row) -> bool| rows.iter().filter(|row| is(row)).count();
    let opened = count(|row| matches!(row.kind, row::FUNCTION | row::IF | row::LOOP | row::SWITCH));
    let closed = count(|row| row.kind == row::END);
    rows.extend(vec![END; opened.saturating_sub(closed)]);
    rows
}

/// Regions that a function has, and ifs and loops that are open, before a row that
/// opens one more: both below their limits, one at it, both at it.
const NEAR: &[(usize, usize)] = &[
    (17, 15),
    (17, 16),
    (62, 1),
    (62, 16),
    (63, 1),
    (63, 2),
    (63, 15),
    (63, 16),
    (64, 1),
    (64, 2),
    (64, 15),
    (64, 16),
];

/// Tables with so many regions opened and so many open, the last of them a switch
/// with a case; then a later case, a default, or another switch's first case; an if
/// in the case, and an if in a default.
fn near_limits() -> Vec<Named> {
    let ways: [(&str, &[Row]); 5] = [
        ("later", &[case_row(51)]),
        ("default", &[DEFAULT]),
        ("first", &[SWITCH, case_row(50), END]),
        ("if", &[IF, END]),
        ("if-alone", &[SWITCH, DEFAULT, IF, END, END]),
    ];
    let mut tables = Vec::new();
    for (regions, open) in NEAR {
        for (name, rows) in ways {
            let table = near_limit(*regions, *open, rows);
            tables.push((format!("near-{regions}-{open}-{name}"), table));
        }
    }
    tables
}

/// The body is a region, and each open loop, and the case.
fn near_limit(regions: usize, open: usize, last: &[Row]) -> Vec<Row> {
    let beside = [LOOP, END].repeat(regions - 1 - open);
    let around = vec![LOOP; open - 1];
    let case = [SWITCH, case_row(50)];
    [&[FUNCTION], &beside[..], &around, &case, last, &vec![END; open + 1]].concat()
}
