//! Which row a refusal of 1 to 7 or 11 is about, from 01 and 02 alone: 1; 2 by the
//! rows as given; row by row 3, 4, 11, 5, 6; the end's 4; 2 by the chain; 7. Rows
//! are those as given.
//!
//! Nothing is kept from row to row: what is open at a row is found by walking back
//! from it (`around`).

use crate::around::{self, Around};
use crate::refusal::Refusal;
use crate::row::{self, Row, ROW_BYTES};
use crate::table::LIMITS;

/// The number, 0 if accepted, and the row: the one that isn't whole (1), the
/// first too many (2), the first that is wrong (3 to 7 and 11), the number of rows
/// where something is left open at the end or where nothing is wrong.
#[derive(Clone, Copy, Debug, PartialEq, Eq)]
pub struct Fault {
    pub number: u8,
    pub row: usize,
}

/// The fault of a source table.
pub fn find(bytes: &[u8]) -> Fault {
    let whole = bytes.len() / ROW_BYTES;
    match cause(bytes) {
        Some((refusal, row)) => Fault { number: refusal.number(), row },
        None => Fault { number: 0, row: whole },
    }
}

/// The first cause, in the order above.
fn cause(bytes: &[u8]) -> Option<(Refusal, usize)> {
    let whole = bytes.len() / ROW_BYTES;
    if bytes.is_empty() || whole * ROW_BYTES != bytes.len() {
        return Some((Refusal::NoWholeRows, whole));
    }
    if whole > LIMITS.rows {
        return Some((Refusal::TooManyRows, LIMITS.rows));
    }
    let rows: Vec<Row> = bytes.chunks(ROW_BYTES).map(Row::read).collect();
    let of_row = |at| of_row(&rows, at).map(|refusal| (refusal, at));
    (0..whole)
        .find_map(of_row)
        .or_else(|| of_end(&rows))
        .or_else(|| of_chain(&rows))
        .or_else(|| of_calls(&rows))
}

/// "row by row 3, 4, 5, 6", 11 "right after 4", where no row before this one is
/// wrong.
fn of_row(rows: &[Row], at: usize) -> Option<Refusal> {
    let around = Around::of(rows, at);
    let row = rows[at];
    if !row.fields_right() {
        Some(Refusal::WrongField)
    } else if misplaced(&around, row.kind) {
        Some(Refusal::Misplaced)
    } else if row.kind == row::CASE && around.has_case(row.n) {
        Some(Refusal::CaseTwice)
    } else if row.kind == row::FUNCTION && functions(&rows[..at]) == LIMITS.functions {
        Some(Refusal::TooManyFunctions)
    } else if overflows(&around, rows, at) {
        Some(Refusal::TooMuchOpen)
    } else {
        None
    }
}

/// "row misplaced: outside a function, a function in a function, else without
/// open then part, break or continue outside a loop"; "A case or default
/// elsewhere, an else straight in either, a row before the first of them, or
/// either after a default"
fn misplaced(around: &Around, kind: u8) -> bool {
    match kind {
        row::CASE | row::DEFAULT => !around.in_switch() || around.behind_default(),
        row::END => around.is_outside(),
        _ if around.before_first() => true,
        row::FUNCTION => !around.is_outside(),
        row::ELSE => !around.in_then(),
        row::BREAK | row::CONTINUE => !around.in_loop(),
        _ => around.is_outside(),
    }
}

/// "a 17th open if or loop, or a 65th region"
fn overflows(around: &Around, rows: &[Row], at: usize) -> bool {
    let is_open = matches!(rows[at].kind, row::IF | row::LOOP | row::CASE);
    let opened = around::regions_of(rows, at);
    (is_open && around.open() == LIMITS.open)
        || (opened > 0 && around.regions() + opened > LIMITS.regions)
}

/// "something left open at the end"
fn of_end(rows: &[Row]) -> Option<(Refusal, usize)> {
    let is_open = !Around::of(rows, rows.len()).is_outside();
    is_open.then_some((Refusal::Misplaced, rows.len()))
}

/// "a chain of over 1,024 rows": the first row with which it has so many.
fn of_chain(rows: &[Row]) -> Option<(Refusal, usize)> {
    let mut chain = 0;
    let is_over = |at: &usize| {
        chain += around::chain_rows_of(rows, *at);
        chain > LIMITS.rows
    };
    (0..rows.len()).find(is_over).map(|at| (Refusal::TooManyRows, at))
}

/// "call of a function that isn't there"
fn of_calls(rows: &[Row]) -> Option<(Refusal, usize)> {
    let count = functions(rows);
    let is_wrong = |row: &Row| row.kind == row::CALL && usize::from(row.n) >= count;
    rows.iter().position(is_wrong).map(|at| (Refusal::NoSuchFunction, at))
}

fn functions(rows: &[Row]) -> usize {
    rows.iter().filter(|row| row.kind == row::FUNCTION).count()
}
