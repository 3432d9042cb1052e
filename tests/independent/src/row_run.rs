//! A source run row by row, which can be struck: before a step the running function goes to
//! any of its rows, and goes on from there as 01 says of that row.

use crate::acts::{Act, Acts};
use crate::machine::{do_it, holds, Outcome, Variables, MOST_OPEN_FUNCTIONS};

/// An open function and the row that it is at, or after the return goes on at.
#[derive(Clone, Copy, Debug, PartialEq, Eq)]
pub struct Open {
    pub function: usize,
    pub row: usize,
}

/// A run and what it has done so far.
#[derive(Clone)]
pub struct RowRun<'a> {
    acts: &'a Acts,
    /// oldest first, never empty
    pub open: Vec<Open>,
    pub variables: Variables,
    pub trace: Vec<u16>,
    pub steps: u16,
}

impl<'a> RowRun<'a> {
    /// "A source run starts at the row after row 0."
    pub fn new(acts: &'a Acts, variables: Variables) -> RowRun<'a> {
        let mut run = RowRun { acts, open: Vec::new(), variables, trace: Vec::new(), steps: 0 };
        run.opens(0);
        run
    }

    fn opens(&mut self, function: usize) {
        self.open.push(Open { function, row: *self.acts.function(function).start() });
    }

    /// The running function and its row.
    pub fn stands(&self) -> Open {
        *self.open.last().expect("one function is open")
    }

    fn go(&mut self, row: usize) {
        self.open.last_mut().expect("one function is open").row = row;
    }

    /// The jump: variables, trace, steps and all callers stay as they are.
    pub fn strike(&mut self, row: usize) {
        assert!(self.acts.function(self.stands().function).contains(&row), "no row of it");
        self.go(row);
    }

    /// Goes on until something ends it.
    pub fn run(&mut self, budget: u16) -> Outcome {
        while self.steps < budget {
            if let Err(outcome) = self.step() {
                return outcome;
            }
        }
        Outcome::BudgetSpent
    }

    /// "Each row reached is one step, as is the end row of a function"
    fn step(&mut self) -> Result<(), Outcome> {
        self.steps += 1;
        let row = self.stands().row;
        match self.acts.at(row) {
            Act::Opens => unreachable!("no run stands at a row 01"),
            Act::Do(what) => {
                self.variables = do_it(what.op, what.p, what.q, what.n, &self.variables)?;
                self.trace.push(u16::try_from(row).expect("row numbers are below 1,024"));
                self.go(row + 1);
            }
            Act::Test { test, past } => {
                let holds = holds(test.op, test.p, test.q, test.n, &self.variables);
                self.go(if holds { row + 1 } else { past });
            }
            Act::Goes(to) => self.go(to),
            Act::Call(function) => self.call(row, function)?,
            Act::Returns => self.returns()?,
        }
        Ok(())
    }

    /// The end of a function goes "to the row after the call".
    fn call(&mut self, row: usize, function: usize) -> Result<(), Outcome> {
        if self.open.len() == MOST_OPEN_FUNCTIONS {
            return Err(Outcome::TooManyOpen);
        }
        self.go(row + 1);
        self.opens(function);
        Ok(())
    }

    /// "or finishes when one function is open"
    fn returns(&mut self) -> Result<(), Outcome> {
        if self.open.len() == 1 {
            return Err(Outcome::Finished);
        }
        self.open.pop();
        Ok(())
    }
}
