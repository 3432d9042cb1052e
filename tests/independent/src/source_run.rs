//! A run of a source table, over the tree (01, "Running"; 02, No. 5), in which one do may
//! slip (02, No. 6).

use crate::machine::{do_it, holds, Outcome, Variables, MOST_OPEN_FUNCTIONS};
use crate::row::Row;
use crate::slip::{How, Slip};
use crate::table::{Block, Else, Stmt, Table};

/// A step of the run: the number of the running function, the row, and 01's word
/// for the row's kind.
#[derive(Clone, Copy, Debug, PartialEq, Eq)]
pub struct Reached {
    pub function: usize,
    pub row: usize,
    pub word: &'static str,
}

/// A source run and what it has done so far.
pub struct SourceRun<'a> {
    table: &'a Table,
    budget: u16,
    pub steps: u16,
    pub variables: Variables,
    /// "The trace is the do row numbers in order."
    pub trace: Vec<u16>,
    /// calls made: a call row that opened its function, so not the one that met 3
    pub calls: u16,
    /// "the numbers of those opened and not returned, oldest first"
    pub open: Vec<usize>,
    /// the row that each of these goes on at: of the running one that of the last step, or
    /// where the budget is spent that of the next; of the others the row after the call
    pub at: Vec<usize>,
    /// the rows reached, one for each step
    pub reached: Vec<Reached>,
    /// the one do that is still to slip; of a run as 01 has it, none
    pub(crate) slip: Option<Slip>,
}

/// How a block was left.
#[derive(PartialEq, Eq)]
enum Flow {
    /// past its last statement
    On,
    Broken,
    Continued,
}

impl<'a> SourceRun<'a> {
    pub fn new(table: &'a Table, variables: Variables, budget: u16) -> SourceRun<'a> {
        SourceRun {
            table,
            budget,
            steps: 0,
            variables,
            trace: Vec::new(),
            calls: 0,
            open: vec![0],
            at: vec![first_row(table, 0)],
            reached: Vec::new(),
            slip: None,
        }
    }

    /// "Function 0 runs first."
    pub fn run(&mut self) -> Outcome {
        match self.function(0) {
            Err(outcome) => outcome,
            Ok(()) => unreachable!("the end of the first function stops the run"),
        }
    }

    /// "Each row reached is one step". A run whose budget is spent stops before
    /// the step.
    fn step(&mut self, row: usize, word: &'static str) -> Result<(), Outcome> {
        self.stand(row);
        if self.steps == self.budget {
            return Err(Outcome::BudgetSpent);
        }
        self.steps += 1;
        let function = *self.open.last().expect("one function is open");
        self.reached.push(Reached { function, row, word });
        Ok(())
    }

    /// The running function is at this row.
    fn stand(&mut self, row: usize) {
        *self.at.last_mut().expect("one function is open") = row;
    }

    /// A function that has been opened, "from the row after its function's 01"
    /// to its end row, which "finishes when one function is open".
    fn function(&mut self, number: usize) -> Result<(), Outcome> {
        let table = self.table;
        let flow = self.block(&table.functions[number].body)?;
        assert!(flow == Flow::On, "breaks and continues stand in loops");
        self.step(table.functions[number].end, "end")?;
        if self.open.len() == 1 {
            return Err(Outcome::Finished);
        }
        self.open.pop();
        self.at.pop();
        Ok(())
    }

    fn block(&mut self, block: &Block) -> Result<Flow, Outcome> {
        for stmt in block {
            let flow = self.statement(stmt)?;
            if flow != Flow::On {
                return Ok(flow);
            }
        }
        Ok(Flow::On)
    }

    /// A statement is done once, unless it is the do that slips.
    fn statement(&mut self, stmt: &Stmt) -> Result<Flow, Outcome> {
        match self.slips_at(stmt) {
            None => self.once(stmt),
            Some(How::LeftOut) => Ok(Flow::On),
            Some(How::Twice) => {
                self.once(stmt)?;
                self.once(stmt)
            }
        }
    }

    /// Takes the slip if this is its do and now its time. There is no second one: behind a
    /// do left out, which takes no step, another may be reached at the same step.
    fn slips_at(&mut self, stmt: &Stmt) -> Option<How> {
        let (is_do, steps) = (matches!(stmt, Stmt::Do { .. }), self.steps);
        self.slip.take_if(|slip| is_do && slip.step == steps).map(|slip| slip.how)
    }

    fn once(&mut self, stmt: &Stmt) -> Result<Flow, Outcome> {
        self.step(stmt.row(), word_of(stmt))?;
        match stmt {
            Stmt::Do { row, what } => self.perform(*row, *what)?,
            Stmt::Break { .. } => return Ok(Flow::Broken),
            Stmt::Continue { .. } => return Ok(Flow::Continued),
            Stmt::Call { row, function } => self.call(*row, usize::from(*function))?,
            Stmt::If { test, then, other, end, .. } => {
                return self.conditional(*test, then, other.as_ref(), *end)
            }
            Stmt::While { row, test, body, end } => self.repeat(*row, *test, body, *end)?,
        }
        Ok(Flow::On)
    }

    /// A do that overflows changes nothing; its step has been counted.
    fn perform(&mut self, row: usize, what: Row) -> Result<(), Outcome> {
        self.variables = do_it(what.op, what.p, what.q, what.n, &self.variables)?;
        self.trace.push(u16::try_from(row).expect("row numbers are below 1,024"));
        Ok(())
    }

    fn test(&self, test: Row) -> bool {
        holds(test.op, test.p, test.q, test.n, &self.variables)
    }

    /// "The step that ends in 2 or 3 is counted and that call is not made."
    fn call(&mut self, row: usize, number: usize) -> Result<(), Outcome> {
        if self.open.len() == MOST_OPEN_FUNCTIONS {
            return Err(Outcome::TooManyOpen);
        }
        self.stand(row + 1); // where it goes on after the return
        self.open.push(number);
        self.at.push(first_row(self.table, number));
        self.calls += 1;
        self.function(number)
    }

    /// The test's own step has been counted. "A false test goes to the first row
    /// of the else part, or past the end where there is none."
    fn conditional(
        &mut self,
        test: Row,
        then: &Block,
        other: Option<&Else>,
        end: usize,
    ) -> Result<Flow, Outcome> {
        let (part, closing, word) = match (self.test(test), other) {
            (true, Some(other)) => (then, other.row, "else"),
            (true, None) => (then, end, "end"),
            (false, Some(other)) => (&other.block, end, "end"),
            (false, None) => return Ok(Flow::On),
        };
        let flow = self.block(part)?;
        if flow == Flow::On {
            // The row that closes the part: the else row, which "reached from
            // the then part goes past its end", or the end row.
            self.step(closing, word)?;
        }
        Ok(flow)
    }

    /// The step of the first test has been counted. "break goes past the loop's
    /// end; continue and the loop's end go to its test."
    fn repeat(&mut self, row: usize, test: Row, body: &Block, end: usize) -> Result<(), Outcome> {
        while self.test(test) {
            match self.block(body)? {
                Flow::Broken => return Ok(()),
                Flow::Continued => {}
                Flow::On => self.step(end, "end")?,
            }
            self.step(row, "loop")?; // the test again
        }
        Ok(())
    }
}

/// "the row after its function's 01"
fn first_row(table: &Table, number: usize) -> usize {
    table.functions[number].opens + 1
}

/// The table of row kinds: "if, loop (while)" and so on.
fn word_of(stmt: &Stmt) -> &'static str {
    match stmt {
        Stmt::Do { .. } => "do",
        Stmt::If { .. } => "if",
        Stmt::While { .. } => "loop",
        Stmt::Break { .. } => "break",
        Stmt::Continue { .. } => "continue",
        Stmt::Call { .. } => "call",
    }
}
