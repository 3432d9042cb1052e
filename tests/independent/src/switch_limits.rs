//! Tables with switches that are worked out, that reach a limit and that pass it
//! (02, No. 1): by their cases, their regions, their chain. No chance in here.

use crate::limits::some_do;
use crate::make::{bytes_of, case_row};
use crate::row::{self, Row};

/// A switch on v0 with the cases 10 and 50 and a default; a do in each.
pub fn worked_switch() -> Vec<u8> {
    let set = |n| Row { kind: row::DO, op: 0, p: 1, q: 0, n };
    let rows =
        [SWITCH, case_row(10), set(1), case_row(50), set(2), Row::plain(row::DEFAULT), set(3), END];
    function(&rows)
}

/// A loop over v0 = 1, 2, .. with v15 = 1: a switch with a continue, a call and a
/// break in its cases, in its default a switch that has only a default.
pub fn bands() -> Vec<u8> {
    let [plus, other] = [Row { op: 2, q: 15, ..DO }, Row { op: 2, p: 1, q: 15, ..DO }];
    let call = Row { n: 1, ..Row::plain(row::CALL) };
    let default = Row::plain(row::DEFAULT);
    let mut rows = vec![FUNCTION, Row { op: 1, n: 6, ..Row::plain(row::LOOP) }, plus, SWITCH];
    rows.extend([case_row(1), Row::plain(row::CONTINUE)]);
    rows.extend([case_row(2), other, call]);
    rows.extend([case_row(5), Row::plain(row::BREAK)]);
    rows.extend([default, SWITCH, default, other, END, SWITCH, END]);
    rows.extend([END, other, END, END]);
    rows.extend([FUNCTION, SWITCH, case_row(2), other, END, END]);
    bytes_of(&rows)
}

const FUNCTION: Row = Row { kind: row::FUNCTION, op: 0, p: 0, q: 0, n: 0 };
const DO: Row = Row { kind: row::DO, op: 0, p: 0, q: 0, n: 0 };
const IF: Row = Row { kind: row::IF, op: 0, p: 3, q: 0, n: 1 };
const LOOP: Row = Row { kind: row::LOOP, op: 0, p: 2, q: 0, n: 1 };
const SWITCH: Row = Row { kind: row::SWITCH, op: 0, p: 0, q: 0, n: 0 };
const DEFAULT: Row = Row { kind: row::DEFAULT, op: 0, p: 0, q: 0, n: 0 };
const END: Row = Row { kind: row::END, op: 0, p: 0, q: 0, n: 0 };
const WRONG: Row = Row { kind: row::DO, op: 4, p: 0, q: 0, n: 0 };
const BAD_CALL: Row = Row { kind: row::CALL, op: 0, p: 0, q: 0, n: 40 };

/// One function of these rows.
fn function(rows: &[Row]) -> Vec<u8> {
    bytes_of(&[&[FUNCTION], rows, &[END]].concat())
}

/// A switch and so many cases, with the numbers 0, 1, .. and nothing in them. Its
/// end is left out.
fn cases(count: u16) -> Vec<Row> {
    [vec![SWITCH], (0..count).map(case_row).collect()].concat()
}

fn ends(count: usize) -> Vec<Row> {
    vec![END; count]
}

/// A switch of so many cases, with these rows in the last part.
fn switch_with(count: u16, rows: &[Row]) -> Vec<u8> {
    function(&[&cases(count), rows, &[END]].concat())
}

/// A switch of so many cases and nothing else.
pub fn one_switch(count: u16) -> Vec<u8> {
    switch_with(count, &[])
}

/// Switches of so many cases, each in the last case of the one before, a do inside
/// all of them.
fn nested(counts: &[u16]) -> Vec<u8> {
    let opened: Vec<Row> = counts.iter().flat_map(|count| cases(*count)).collect();
    function(&[opened, vec![some_do(1)], ends(counts.len())].concat())
}

/// So many loops around a switch of so many cases.
fn in_loops(loops: usize, count: u16) -> Vec<u8> {
    let inner = [cases(count), vec![Row::plain(row::BREAK), END]].concat();
    function(&[vec![LOOP; loops], inner, ends(loops)].concat())
}

/// The limit of 16 open ifs and loops, of which a case is one.
fn open() -> Vec<(Vec<u8>, u8)> {
    let loops = |count: usize| [vec![LOOP; count], ends(count)].concat();
    let in_default = |rows: &[Row]| switch_with(16, &[&[DEFAULT], rows].concat());
    vec![
        (one_switch(16), 0),
        (one_switch(17), 6),
        (switch_with(16, &[some_do(3), DEFAULT, some_do(5)]), 0),
        (in_loops(8, 8), 0),
        (in_loops(8, 9), 6),
        (in_loops(15, 1), 0),
        (in_loops(16, 1), 6),
        (switch_with(8, &loops(8)), 0),
        (switch_with(8, &loops(9)), 6),
        (nested(&[5, 5, 6]), 0),
        (nested(&[5, 5, 7]), 6),
        (nested(&[1; 16]), 0),
        (nested(&[1; 17]), 6),
        (in_default(&[SWITCH, DEFAULT, some_do(1), SWITCH, END, END]), 0),
        (in_default(&[SWITCH, case_row(0), END]), 6),
        (in_default(&[IF, END]), 6),
    ]
}

/// A function with 62 regions, and these rows behind them.
fn behind_62(rows: &[Row]) -> Vec<u8> {
    let pairs = [LOOP, END].repeat(61);
    function(&[&pairs, rows].concat())
}

/// The limit of 64 regions: a first case opens one, a later one two, a default
/// behind a case one, a default that is alone none.
fn regions() -> Vec<(Vec<u8>, u8)> {
    let [one, two, three] = [1, 2, 3].map(case_row);
    vec![
        // 63, 64
        (behind_62(&[SWITCH, one, DEFAULT, END]), 0),
        // 63, then 64 and 65: the if is too many
        (behind_62(&[SWITCH, one, two, END]), 6),
        // 63, 64, 65
        (behind_62(&[SWITCH, one, DEFAULT, END, SWITCH, three, END]), 6),
        // 63, 64, then 65 and 66: the else is too many
        (behind_62(&[IF, END, SWITCH, one, two, END]), 6),
        // 63, 64, then the default
        (behind_62(&[IF, END, SWITCH, one, DEFAULT, END]), 6),
        // 63, 64, and two defaults that are alone
        (behind_62(&[IF, END, LOOP, SWITCH, DEFAULT, SWITCH, DEFAULT, END, END, END]), 0),
        // the body and twice 31; a default more; an if more
        (function(&[cases(16), ends(1), cases(16), ends(1)].concat()), 0),
        (function(&[cases(16), ends(1), cases(16), vec![DEFAULT, END]].concat()), 0),
        (function(&[cases(16), ends(1), cases(16), vec![DEFAULT, END, IF, END]].concat()), 6),
    ]
}

/// Numbers that come twice in a switch, and that come again elsewhere.
fn numbers() -> Vec<(Vec<u8>, u8)> {
    let [one, two] = [1, 2].map(case_row);
    let last = case_row(65_535);
    vec![
        (function(&[SWITCH, one, one, END]), 11),
        (function(&[SWITCH, one, two, last, some_do(1), two, END]), 11),
        (function(&[SWITCH, last, last, END]), 11),
        (function(&[SWITCH, one, SWITCH, one, END, two, SWITCH, one, two, END, END]), 0),
        (function(&[SWITCH, one, END, SWITCH, one, END]), 0),
        (function(&[SWITCH, one, SWITCH, two, END, one, END]), 11),
        (function(&[&cases(16)[..], &[case_row(3), END]].concat()), 11),
        (function(&[&cases(16)[..], &[DEFAULT, case_row(3), END]].concat()), 4),
    ]
}

/// Ten functions of two switches with 16 cases each, then one of dos, so that the
/// chain has so many rows, at least 962. Less than half of them are given.
pub fn chain(count: usize) -> Vec<Row> {
    // 47 rows each: an if, fifteen times an else and an if, sixteen ends
    let pair = [cases(16), ends(1), cases(16), ends(1)].concat();
    let full = [&[FUNCTION], &pair[..], &[END]].concat();
    let mut rows = full.repeat(10);
    rows.push(FUNCTION);
    rows.extend((10 * 96 + 2..count).map(some_do));
    rows.push(END);
    rows
}

/// The chain of `chain` with so many rows before its last end, and these there.
fn chain_with(before: usize, rows: &[Row]) -> Vec<u8> {
    let mut table = chain(before + 1);
    let end = table.len() - 1;
    table.splice(end..end, rows.iter().copied());
    bytes_of(&table)
}

/// Chains of 1,024 rows and of more: 2, unless a row as given or the end of the
/// table is wrong, and before 7.
fn chains() -> Vec<(Vec<u8>, u8)> {
    let behind = |rows: &[Row]| bytes_of(&[&chain(1025)[..], rows].concat());
    let twice = [SWITCH, case_row(7), case_row(7), END];
    vec![
        (chain_with(1023, &[]), 0),
        (chain_with(1024, &[]), 2),
        (chain_with(1022, &[BAD_CALL]), 7),
        (chain_with(1023, &[BAD_CALL]), 2),
        (behind(&[FUNCTION]), 4),
        (behind(&[FUNCTION, SWITCH]), 4),
        (behind(&[FUNCTION, WRONG]), 3),
        (behind(&[FUNCTION, case_row(1)]), 4),
        (behind(&[&[FUNCTION], &twice[..]].concat()), 11),
        (behind(&[FUNCTION, END].repeat(22)), 5),
        (behind(&[&[FUNCTION], &[IF; 17][..]].concat()), 6),
    ]
}

/// Chains that pass 1,024 rows at the function's end, at the switch's end (with its
/// second row and with its first), at the default, at the later case (likewise) and
/// at the first one.
fn crossings() -> Vec<(Vec<u8>, u8)> {
    let rows = [SWITCH, case_row(0), case_row(1), DEFAULT, END];
    let mut tables = vec![(chain_with(1017, &rows), 0)];
    tables.extend((1018..=1024).map(|before| (chain_with(before, &rows), 2)));
    tables
}

/// So many switches with only a default, each in the one around, all closed.
pub fn nested_defaults(count: usize) -> Vec<u8> {
    let opened = [SWITCH, DEFAULT].repeat(count);
    function(&[opened, vec![some_do(1)], ends(count)].concat())
}

/// The same left open.
pub fn open_defaults(count: usize) -> Vec<u8> {
    bytes_of(&[vec![FUNCTION], [SWITCH, DEFAULT].repeat(count)].concat())
}

/// As deep as 1,024 rows allow. What they stand for is a do or nothing.
fn deepest() -> Vec<(Vec<u8>, u8)> {
    let [open, case] = [open_defaults(511), open_defaults(510)];
    vec![
        (nested_defaults(340), 0),
        (open.clone(), 4),
        ([open, bytes_of(&[SWITCH])].concat(), 4),
        ([case, bytes_of(&[SWITCH, case_row(1), case_row(1)])].concat(), 11),
        (function(&[SWITCH, END].repeat(511)), 0),
    ]
}

/// Every one of them, with the number that 02 gives it.
pub fn all() -> Vec<(Vec<u8>, u8)> {
    let mut tables = vec![(worked_switch(), 0), (bands(), 0)];
    tables.extend(open());
    tables.extend(regions());
    tables.extend(numbers());
    tables.extend(chains());
    tables.extend(crossings());
    tables.extend(deepest());
    tables
}
