//! The run of a source table in which one do slips (02, No. 6): "that one do, at that one
//! time, is left out (jump forward) or done twice (back)".

use crate::machine::{Outcome, Variables};
use crate::source_run::SourceRun;
use crate::table::Table;

/// "There a do left out takes no step and one done twice takes two"
#[derive(Clone, Copy, Debug, PartialEq, Eq)]
pub enum How {
    LeftOut,
    Twice,
}

/// The do that the run reaches when it has taken so many steps. Where it reaches another
/// row then, or has ended before, nothing slips.
#[derive(Clone, Copy, Debug, PartialEq, Eq)]
pub struct Slip {
    pub step: u16,
    pub how: How,
}

/// Runs a source table with at most one slip; answers how it ended and what it has done.
/// The budget counts the steps that are taken: none for a do left out, and both of one
/// done twice, either of which may overflow.
pub fn run(
    table: &Table,
    variables: Variables,
    budget: u16,
    slip: Option<Slip>,
) -> (Outcome, SourceRun<'_>) {
    let mut run = SourceRun::new(table, variables, budget);
    run.slip = slip;
    (run.run(), run)
}
