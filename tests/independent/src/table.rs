//! The tree of a source table, as it is hardened and run: functions, statements
//! and the rows that they stand for. A switch is not among them; it has been made
//! into the ifs that it stands for, and all row numbers are those of that chain.
//!
//! Here too is the order of the refusals: 1; 2 by the rows as given; those that
//! go row by row, and the end's 4 (`parse`); 2 by the chain; 7.

use crate::chain;
use crate::parse;
use crate::refusal::Refusal;
use crate::row::{Row, ROW_BYTES};

/// 01, "Limits".
#[derive(Clone, Copy, Debug)]
pub struct Limits {
    /// "1 to 1,024 rows"
    pub rows: usize,
    /// "32 functions"
    pub functions: usize,
    /// "16 ifs and loops open at one row"
    pub open: usize,
    /// "64 regions in a function"
    pub regions: usize,
}

/// The limits of 01.
pub const LIMITS: Limits = Limits { rows: 1024, functions: 32, open: 16, regions: 64 };

/// A whole source table.
#[derive(Clone, Debug, PartialEq, Eq)]
pub struct Table {
    /// How many rows it has, a switch counted as its chain.
    pub rows: usize,
    pub functions: Vec<Function>,
}

/// One function: its row 01, its body and its end row.
#[derive(Clone, Debug, PartialEq, Eq)]
pub struct Function {
    pub opens: usize,
    pub body: Block,
    pub end: usize,
}

/// The direct statements of a region.
pub type Block = Vec<Stmt>;

/// A statement. Every number called `row`, `end` or `opens` is a row number in
/// the whole table.
#[derive(Clone, Debug, PartialEq, Eq)]
pub enum Stmt {
    Do { row: usize, what: Row },
    If { row: usize, test: Row, then: Block, other: Option<Else>, end: usize },
    While { row: usize, test: Row, body: Block, end: usize },
    Break { row: usize },
    Continue { row: usize },
    Call { row: usize, function: u16 },
}

/// An else row and its part.
#[derive(Clone, Debug, PartialEq, Eq)]
pub struct Else {
    pub row: usize,
    pub block: Block,
}

impl Stmt {
    /// The row that the statement begins with.
    pub fn row(&self) -> usize {
        match self {
            Stmt::Do { row, .. }
            | Stmt::If { row, .. }
            | Stmt::While { row, .. }
            | Stmt::Break { row }
            | Stmt::Continue { row }
            | Stmt::Call { row, .. } => *row,
        }
    }

    /// The regions that the statement opens, in the order they open, each with
    /// the row that opens it.
    pub fn parts(&self) -> Vec<(usize, &Block)> {
        match self {
            Stmt::If { row, then, other, .. } => {
                let mut parts = vec![(*row, then)];
                parts.extend(other.iter().map(|e| (e.row, &e.block)));
                parts
            }
            Stmt::While { row, body, .. } => vec![(*row, body)],
            _ => Vec::new(),
        }
    }
}

/// The tree of an accepted table, or the number 1 to 7 or 11 that turns it away.
pub fn parse(bytes: &[u8]) -> Result<Table, Refusal> {
    parse_within(bytes, &LIMITS)
}

/// The same under other limits (the generators make lines of tables that are
/// too large, which must not be read back).
pub fn parse_within(bytes: &[u8], limits: &Limits) -> Result<Table, Refusal> {
    let rows = rows_of(bytes, limits)?;
    let table = chain::table(&parse::functions(&rows, limits)?);
    // "a chain of over 1,024 rows gets it after the end's 4, before 7"
    if table.rows > limits.rows {
        return Err(Refusal::TooManyRows);
    }
    callees_are_there(&table)?;
    Ok(table)
}

/// "Tests 1 and 2 come first".
fn rows_of(bytes: &[u8], limits: &Limits) -> Result<Vec<Row>, Refusal> {
    if bytes.is_empty() || !bytes.len().is_multiple_of(ROW_BYTES) {
        return Err(Refusal::NoWholeRows);
    }
    if bytes.len() / ROW_BYTES > limits.rows {
        return Err(Refusal::TooManyRows);
    }
    Ok(bytes.chunks(ROW_BYTES).map(Row::read).collect())
}

/// "call of a function that isn't there", after everything about rows and the
/// end of the table.
fn callees_are_there(table: &Table) -> Result<(), Refusal> {
    let mut called = Vec::new();
    for function in &table.functions {
        collect_calls(&function.body, &mut called);
    }
    if called.iter().all(|n| usize::from(*n) < table.functions.len()) {
        Ok(())
    } else {
        Err(Refusal::NoSuchFunction)
    }
}

/// The function numbers of all call rows of a block and below it.
fn collect_calls(block: &Block, called: &mut Vec<u16>) {
    for stmt in block {
        if let Stmt::Call { function, .. } = stmt {
            called.push(*function);
        }
        for (_, part) in stmt.parts() {
            collect_calls(part, called);
        }
    }
}
