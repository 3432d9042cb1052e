//! The inputs that are timed: three tables of 1,024 rows and three programs that never end.

use crate::calls::Variables;
use crate::table::switch::{CASE, DEFAULT, SWITCH};
use crate::table::{
    Row, BREAK, CALL, CONTINUE, DO, ELSE, END, FUNCTION, IF, LOOP, MOST_ROWS, ROW_BYTES,
};

/// A table and the first values of its runs.
pub struct Program {
    pub name: &'static str,
    pub rows: Vec<u8>,
    pub variables: Variables,
}

pub(crate) const SET: u8 = 0;
pub(crate) const ADD: u8 = 2;
pub(crate) const SUBTRACT: u8 = 3;
pub(crate) const EQUALS: u8 = 0;
pub(crate) const DIFFERS: u8 = 1;
pub(crate) const LESS: u8 = 2;

pub(crate) fn bytes(rows: &[Row]) -> Vec<u8> {
    rows.as_flattened().to_vec()
}

pub(crate) fn row(kind: u8, op: u8, p: u8, q: u8, n: u16) -> Row {
    let [low, high] = n.to_le_bytes();
    [kind, op, p, q, low, high]
}

pub(crate) fn plain(kind: u8) -> Row {
    row(kind, 0, 0, 0, 0)
}

pub(crate) fn add(p: u8, q: u8) -> Row {
    row(DO, ADD, p, q, 0)
}

pub(crate) fn call(n: usize) -> Row {
    row(CALL, 0, 0, 0, n as u16)
}

/// A do that depends on a number.
fn some_do(i: usize) -> Row {
    let (p, q) = ((i / 4 % 16) as u8, (i / 7 % 16) as u8);
    match i % 4 {
        0 => row(DO, SET, p, 0, i as u16),
        op => row(DO, op as u8, p, q, 0),
    }
}

/// 1,024 rows, of which 16 open and close a function and 32 an if or loop; all else are dos.
pub fn mostly_dos() -> Vec<u8> {
    let mut rows: Vec<Row> = Vec::new();
    for function in 0..8 {
        rows.push(plain(FUNCTION));
        for kind in [IF, LOOP] {
            rows.extend((0..31).map(|i| some_do(function * 64 + i)));
            rows.push(row(kind, DIFFERS, 3, 0, function as u16));
            rows.extend((31..61).map(|i| some_do(function * 64 + i)));
            rows.push(plain(END));
        }
        rows.push(plain(END));
    }
    assert_eq!(rows.len(), MOST_ROWS);
    bytes(&rows)
}

/// 1,024 rows: 32 functions with ifs, elses and loops in each other, breaks, continues and calls.
pub fn nested() -> Vec<u8> {
    let mut rows: Vec<Row> = Vec::new();
    for function in 0..32 {
        rows.push(plain(FUNCTION));
        rows.extend(knot(function));
        rows.push(plain(END));
    }
    assert_eq!(rows.len(), MOST_ROWS);
    bytes(&rows)
}

/// A table of switches whose chain has 1,024 rows: 8 functions with nine tariffs each, of three bands and a default.
pub fn switches() -> Vec<u8> {
    let mut rows: Vec<Row> = Vec::new();
    for function in 0..8 {
        rows.push(plain(FUNCTION));
        for tariff in 0..9 {
            rows.push(row(SWITCH, 0, 3, 0, 0));
            for band in 0..3 {
                rows.push(row(CASE, 0, 0, 0, (10 * band + tariff) as u16));
                rows.push(some_do(9 * function + band));
            }
            rows.push(plain(DEFAULT));
            rows.push(some_do(function + tariff));
            rows.push(plain(END));
            rows.push(some_do(tariff));
        }
        rows.push(plain(END));
    }
    bytes(&rows)
}

/// The thirty rows of a body, seven deep.
fn knot(i: usize) -> [Row; 30] {
    let test = |kind| row(kind, LESS, (i % 16) as u8, (i / 2) as u8, 0);
    let (next, other) = (call((i + 1) % 32), call(31 - i));
    let (if_, loop_, else_, end) = (test(IF), test(LOOP), plain(ELSE), plain(END));
    let (break_, continue_) = (plain(BREAK), plain(CONTINUE));
    [
        loop_,
        if_,
        loop_,
        if_,
        if_,
        some_do(i),
        next, //
        else_,
        loop_,
        if_,
        break_,
        else_,
        continue_,
        end,
        some_do(i + 1), //
        end,
        end,
        other,
        else_,
        break_,
        end,
        other, //
        end,
        continue_,
        else_,
        some_do(i + 2),
        break_,
        end,
        end,
        next,
    ]
}

/// v15 is 1 in every program.
pub(crate) fn first_values() -> Variables {
    let mut variables = [0; 16];
    variables[15] = 1;
    variables
}

pub fn all() -> [Program; 3] {
    let named = |name, rows| Program { name, rows, variables: first_values() };
    [
        named("loops with dos", loops_with_dos()),
        named("nested ifs with breaks", ifs_with_breaks()),
        named("deep calls", deep_calls()),
    ]
}

/// An endless loop around one of 100 rounds with six dos each: v2 and v6 count the rounds, v1 those
/// that are left, and v4 goes from v2 by one more to 1.
fn loops_with_dos() -> Vec<u8> {
    bytes(&[
        plain(FUNCTION),
        row(LOOP, EQUALS, 0, 0, 0),
        row(DO, SET, 1, 0, 100),
        row(LOOP, DIFFERS, 1, 0, 0),
        add(2, 15),
        row(DO, 1, 4, 2, 0),
        add(4, 15),
        row(DO, SUBTRACT, 4, 2, 0),
        add(6, 4),
        row(DO, SUBTRACT, 1, 15, 0),
        plain(END),
        plain(END),
        plain(END),
    ])
}

/// An endless loop that counts v1 up to 10 through three ifs in each other, which break, continue
/// or go on by what v1 is.
fn ifs_with_breaks() -> Vec<u8> {
    bytes(&[
        plain(FUNCTION),
        row(LOOP, EQUALS, 0, 0, 0),
        row(DO, SET, 1, 0, 0),
        row(DO, SET, 2, 0, 6),
        row(LOOP, DIFFERS, 1, 0, 65_535),
        add(1, 15),
        row(IF, LESS, 1, 2, 0),
        row(IF, EQUALS, 1, 0, 3),
        plain(CONTINUE),
        plain(ELSE),
        row(IF, DIFFERS, 1, 0, 5),
        add(3, 1),
        plain(END),
        plain(END),
        plain(ELSE),
        row(IF, EQUALS, 1, 0, 10),
        plain(BREAK),
        plain(END),
        plain(END),
        plain(END),
        plain(END),
        plain(END),
    ])
}

/// An endless loop over a chain of calls: function 0 calls 1, and so on to 15, all sixteen open.
fn deep_calls() -> Vec<u8> {
    let mut rows = vec![plain(FUNCTION), row(LOOP, EQUALS, 0, 0, 0), call(1)];
    rows.extend([plain(END), plain(END)]);
    for function in 1..15 {
        rows.extend([plain(FUNCTION), add(1, 15), call(function + 1), plain(END)]);
    }
    rows.extend([plain(FUNCTION), add(1, 15), plain(END)]);
    bytes(&rows)
}

/// The longest listing that a table may have, in bytes.
pub const MOST_OUT: usize = 2 * MOST_ROWS * crate::harden::LINE_BYTES;

/// The longest source table, in bytes.
pub const MOST_IN: usize = MOST_ROWS * ROW_BYTES;
