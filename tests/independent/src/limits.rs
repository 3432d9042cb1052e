//! The worked listing of 01 and its limit tables ("To run: 1,024 and 1,025 rows;
//! 32 and 33 functions; 16 and 17 open; 64 and 65 regions; recursion to 16 and
//! 17"). No chance in here.

use crate::make::bytes_of;
use crate::row::{self, Row};
use crate::switch_limits;

/// The input of 01's "A table and its listing".
pub fn worked_listing() -> Vec<u8> {
    bytes_of(&[
        Row::plain(row::FUNCTION),
        Row { kind: row::DO, op: 0, p: 0, q: 0, n: 2 },
        Row { kind: row::LOOP, op: 1, p: 0, q: 0, n: 0 },
        Row { kind: row::DO, op: 3, p: 0, q: 1, n: 0 },
        Row::plain(row::END),
        Row::plain(row::END),
    ])
}

/// The same function over and over: rows of a table of so many rows, one
/// function of dos.
pub fn rows(count: usize) -> Vec<u8> {
    let mut rows = vec![Row::plain(row::FUNCTION)];
    for i in 2..count {
        rows.push(some_do(i));
    }
    rows.push(Row::plain(row::END));
    bytes_of(&rows)
}

/// So many rows in 32 functions that call each other, with parts of all sorts.
pub fn rows_of_all_sorts(count: usize) -> Vec<u8> {
    let mut rows = Vec::new();
    for number in 0..32 {
        rows.push(Row::plain(row::FUNCTION));
        rows.extend(piece(number));
        rows.push(Row::plain(row::END));
    }
    let last = rows.pop().expect("the last end");
    for i in rows.len() + 1..count {
        rows.push(some_do(i));
    }
    rows.push(last);
    bytes_of(&rows)
}

/// A body with an if, an else, a loop, a break, a continue and a call.
fn piece(number: u16) -> Vec<Row> {
    let test = |kind, n| Row { kind, op: 1, p: 3, q: 0, n };
    vec![
        test(row::LOOP, number),
        test(row::IF, 1),
        Row::plain(row::BREAK),
        Row::plain(row::ELSE),
        Row { n: 31 - number, ..Row::plain(row::CALL) },
        Row::plain(row::CONTINUE),
        Row::plain(row::END),
        some_do(usize::from(number)),
        Row::plain(row::END),
    ]
}

/// A do row that depends on a number. Those of the numbers from 2 up to 1,024, done one
/// after the other on variables that are small or 0, do not overflow: what one adds, the
/// next takes away.
pub fn some_do(i: usize) -> Row {
    let byte = |i: usize| u8::try_from(i % 16).expect("below 16");
    let (op, p, q) = (byte(i % 4), i / 4, i / 7);
    match op {
        0 => Row { kind: row::DO, op, p: byte(p), q: 0, n: 9 * i as u16 },
        1 => Row { kind: row::DO, op, p: byte(p + 5), q: byte(q), n: 0 },
        2 => Row { kind: row::DO, op, p: byte(p), q: byte(q), n: 0 },
        _ => Row { kind: row::DO, op, p: byte(p), q: byte((i - 1) / 7), n: 0 },
    }
}

/// So many functions, each of which calls the next but the last.
pub fn functions(count: u16) -> Vec<u8> {
    let mut rows = Vec::new();
    for number in 1..=count {
        rows.push(Row::plain(row::FUNCTION));
        if number < count {
            rows.push(Row { n: number, ..Row::plain(row::CALL) });
        }
        rows.push(Row::plain(row::END));
    }
    bytes_of(&rows)
}

/// So many ifs and loops in each other, of these kinds in turn; a do inside.
pub fn open(count: usize, kinds: &[u8]) -> Vec<u8> {
    let mut rows = vec![Row::plain(row::FUNCTION)];
    for i in 0..count {
        rows.push(Row { kind: kinds[i % kinds.len()], op: 0, p: 0, q: 0, n: 0 });
    }
    rows.push(some_do(1));
    rows.extend(vec![Row::plain(row::END); count + 1]);
    bytes_of(&rows)
}

/// So many ifs in each other, each in the else part of the one around.
pub fn open_in_else(count: usize) -> Vec<u8> {
    let mut rows = vec![Row::plain(row::FUNCTION)];
    for _ in 0..count {
        rows.push(Row { kind: row::IF, op: 0, p: 0, q: 0, n: 1 });
        rows.push(Row::plain(row::ELSE));
    }
    rows.extend(vec![Row::plain(row::END); count + 1]);
    bytes_of(&rows)
}

/// A function of so many regions: its body and ifs or loops beside each other.
pub fn regions(count: usize, kind: u8) -> Vec<u8> {
    let mut rows = vec![Row::plain(row::FUNCTION)];
    for _ in 1..count {
        rows.push(Row { kind, op: 0, p: 0, q: 0, n: 7 });
        rows.push(Row::plain(row::END));
    }
    rows.push(Row::plain(row::END));
    bytes_of(&rows)
}

/// The same with else parts: two regions for each if, the last one an else
/// where the count is odd, a then part where it is even.
pub fn regions_with_else(count: usize) -> Vec<u8> {
    let mut rows = vec![Row::plain(row::FUNCTION)];
    let mut made = 1;
    while made < count {
        rows.push(Row { kind: row::IF, op: 0, p: 0, q: 0, n: 7 });
        made += 1;
        if made < count {
            rows.push(Row::plain(row::ELSE));
            made += 1;
        }
        rows.push(Row::plain(row::END));
    }
    rows.push(Row::plain(row::END));
    bytes_of(&rows)
}

/// Function 0 calls itself while v0 is not 0 and takes v1 from it first. With
/// v1 = 1 the first value of v0 is the number of calls.
pub fn recursion() -> Vec<u8> {
    bytes_of(&[
        Row::plain(row::FUNCTION),
        Row { kind: row::IF, op: 1, p: 0, q: 0, n: 0 },
        Row { kind: row::DO, op: 3, p: 0, q: 1, n: 0 },
        Row { kind: row::CALL, op: 0, p: 0, q: 0, n: 0 },
        Row::plain(row::END),
        Row::plain(row::END),
    ])
}

/// A loop that never ends while v0 is 0, with so many dos in it (at least 1).
pub fn endless(dos: usize) -> Vec<u8> {
    let mut rows = vec![Row::plain(row::FUNCTION), Row::plain(row::LOOP)];
    rows.extend(vec![Row { kind: row::DO, op: 2, p: 1, q: 2, n: 0 }; dos]);
    rows.push(Row::plain(row::END));
    rows.push(Row::plain(row::END));
    bytes_of(&rows)
}

/// Every limit table that `check` and `harden` meet, with the number that 01 or 02
/// gives it.
pub fn all() -> Vec<(Vec<u8>, u8)> {
    let mut tables = of_01();
    tables.extend(switch_limits::all());
    tables
}

fn of_01() -> Vec<(Vec<u8>, u8)> {
    let mixed = [row::IF, row::LOOP];
    vec![
        (functions(32), 0),
        (functions(33), 5),
        (open(16, &mixed), 0),
        (open(17, &mixed), 6),
        (open(16, &[row::IF]), 0),
        (open(17, &[row::IF]), 6),
        (open(16, &[row::LOOP]), 0),
        (open(17, &[row::LOOP]), 6),
        (open_in_else(16), 0),
        (open_in_else(17), 6),
        (regions(64, row::IF), 0),
        (regions(65, row::IF), 6),
        (regions(64, row::LOOP), 0),
        (regions(65, row::LOOP), 6),
        (regions_with_else(64), 0),
        (regions_with_else(65), 6),
        (rows(1024), 0),
        (rows(1025), 2),
        (rows_of_all_sorts(1024), 0),
        (rows_of_all_sorts(1025), 2),
    ]
}
