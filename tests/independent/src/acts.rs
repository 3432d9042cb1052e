//! What each row of a table does and where a run goes on behind it (01, "Running"), for runs
//! that may stand at any row: `source_run` walks the tree, which has no way into the middle
//! of a loop. The rows are those of the chain where there are switches.

use std::ops::RangeInclusive;

use crate::row::Row;
use crate::table::{Block, Else, Function, Stmt, Table};

/// What a row does. Rows are by their number in the whole table.
#[derive(Clone, Copy, Debug, PartialEq, Eq)]
pub enum Act {
    /// a row 01, where no run ever stands
    Opens,
    /// then the row behind it
    Do(Row),
    /// true: the row behind it, false: `past`
    Test { test: Row, past: usize },
    /// a break or continue, an else reached from the then part, the end of an if or a loop
    Goes(usize),
    /// "a call goes to the row after its function's 01"
    Call(usize),
    /// the end of a function
    Returns,
}

/// All rows of a table.
pub struct Acts {
    acts: Vec<Act>,
    /// of each function the rows of its body and its end: those that a run can stand at
    functions: Vec<RangeInclusive<usize>>,
}

/// The innermost loop around a statement.
#[derive(Clone, Copy)]
struct Loop {
    test: usize,
    end: usize,
}

impl Acts {
    pub fn of(table: &Table) -> Acts {
        let rows = |function: &Function| function.opens + 1..=function.end;
        let functions = table.functions.iter().map(rows).collect();
        let mut acts = Acts { acts: vec![Act::Opens; table.rows], functions };
        for function in &table.functions {
            acts.block(&function.body, None);
            acts.acts[function.end] = Act::Returns;
        }
        acts
    }

    pub fn at(&self, row: usize) -> Act {
        self.acts[row]
    }

    /// The rows that a run can stand at in a function, its end the last of them.
    pub fn function(&self, number: usize) -> RangeInclusive<usize> {
        self.functions[number].clone()
    }

    /// Whether a jump from one row to another crosses at most one do and nothing else.
    pub fn narrow(&self, from: usize, to: usize) -> bool {
        let crosses_do = |low: usize| matches!(self.acts[low], Act::Do(_));
        from == to || (from.abs_diff(to) == 1 && crosses_do(from.min(to)))
    }

    fn block(&mut self, block: &Block, around: Option<Loop>) {
        for stmt in block {
            self.acts[stmt.row()] = self.statement(stmt, around);
        }
    }

    /// What the statement's own row does; the rows inside it are noted on the way.
    fn statement(&mut self, stmt: &Stmt, around: Option<Loop>) -> Act {
        let innermost = || around.expect("breaks and continues stand in loops");
        match stmt {
            Stmt::Do { what, .. } => Act::Do(*what),
            Stmt::Break { .. } => Act::Goes(innermost().end + 1),
            Stmt::Continue { .. } => Act::Goes(innermost().test),
            Stmt::Call { function, .. } => Act::Call(usize::from(*function)),
            Stmt::While { row, test, body, end } => {
                self.block(body, Some(Loop { test: *row, end: *end }));
                self.acts[*end] = Act::Goes(*row);
                Act::Test { test: *test, past: end + 1 }
            }
            Stmt::If { test, then, other, end, .. } => {
                self.block(then, around);
                let past = self.other(other.as_ref(), *end, around);
                self.acts[*end] = Act::Goes(end + 1);
                Act::Test { test: *test, past }
            }
        }
    }

    /// The else part; answers where the false test goes: "to the first row of the else part,
    /// or past the end where there is none".
    fn other(&mut self, other: Option<&Else>, end: usize, around: Option<Loop>) -> usize {
        let Some(other) = other else {
            return end + 1;
        };
        self.block(&other.block, around);
        self.acts[other.row] = Act::Goes(end + 1);
        other.row + 1
    }
}
