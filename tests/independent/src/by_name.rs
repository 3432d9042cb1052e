//! Rows by what they do, and programs of them that are written by hand.

use crate::machine::Variables;
use crate::make::bytes_of;
use crate::program::Program;
use crate::row::{self, Row};

pub const FUNCTION: Row = Row { kind: row::FUNCTION, op: 0, p: 0, q: 0, n: 0 };
pub const END: Row = Row { kind: row::END, op: 0, p: 0, q: 0, n: 0 };
pub const ELSE: Row = Row { kind: row::ELSE, op: 0, p: 0, q: 0, n: 0 };

/// vp = n
pub fn set(p: u8, n: u16) -> Row {
    Row { kind: row::DO, op: 0, p, q: 0, n }
}

/// vp = vq
pub fn copy(p: u8, q: u8) -> Row {
    Row { kind: row::DO, op: 1, p, q, n: 0 }
}

/// vp = vp + vq
pub fn add(p: u8, q: u8) -> Row {
    Row { kind: row::DO, op: 2, p, q, n: 0 }
}

/// vp = vp - vq
pub fn take(p: u8, q: u8) -> Row {
    Row { kind: row::DO, op: 3, p, q, n: 0 }
}

/// vp = n
pub fn equal(kind: u8, p: u8, n: u16) -> Row {
    Row { kind, op: 0, p, q: 0, n }
}

/// vp differs from n
pub fn differs(kind: u8, p: u8, n: u16) -> Row {
    Row { kind, op: 1, p, q: 0, n }
}

/// vp less than vq
pub fn less(kind: u8, p: u8, q: u8) -> Row {
    Row { kind, op: 2, p, q, n: 0 }
}

pub fn call(n: u16) -> Row {
    Row { n, ..Row::plain(row::CALL) }
}

/// Functions of these rows.
pub fn functions(bodies: &[&[Row]]) -> Vec<u8> {
    let rows: Vec<Row> =
        bodies.iter().flat_map(|body| [&[FUNCTION], *body, &[END]].concat()).collect();
    bytes_of(&rows)
}

/// First values, all else 0.
pub fn values(given: &[(usize, u16)]) -> Variables {
    let mut variables = [0; 16];
    for (at, value) in given {
        variables[*at] = *value;
    }
    variables
}

/// A table with these first values, all else 0.
pub fn of(rows: Vec<u8>, given: &[(usize, u16)]) -> Program {
    Program { rows, variables: values(given) }
}
