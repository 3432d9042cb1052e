//! A program in both forms. Used by tests only.

use independent::hardened_run::{HardenedRun, Jump};
use independent::line::Line;
use independent::machine::{Outcome, Variables};
use independent::table::{self, Table};
use independent::{goes_on, harden};

pub struct Pair {
    pub table: Table,
    pub lines: Vec<Line>,
    pub variables: Variables,
    /// for each line the row that the source's run is at
    pub rows_of_lines: Vec<usize>,
}

impl Pair {
    pub fn new(rows: &[u8], variables: Variables) -> Pair {
        let table = table::parse(rows).unwrap();
        let lines = harden::lines(&table);
        let rows_of_lines = goes_on::rows_of_lines(&table);
        Pair { table, lines, variables, rows_of_lines }
    }

    /// A hardened run.
    pub fn struck(&self, budget: u16, jump: Option<Jump>) -> (Outcome, HardenedRun<'_>) {
        let mut run = HardenedRun::new(&self.lines, self.variables);
        (run.run(budget, jump), run)
    }
}
