//! The sweep of an unhardened table: every step of the source run struck to every row of the
//! function running then, its end included, with the same first values and budget. Each
//! struck run goes on from a copy of the unstruck one.

use crate::acts::Acts;
use crate::machine::Variables;
use crate::row_run::RowRun;
use crate::table::Table;
use crate::tallies::{Ended, Tallies};

/// None where the unstruck run does not finish in the budget.
pub fn sweep(table: &Table, variables: Variables, budget: u16) -> Option<Tallies> {
    let acts = Acts::of(table);
    let mut tallies = Tallies::of(ended(RowRun::new(&acts, variables), budget))?;
    let mut run = RowRun::new(&acts, variables);
    for step in 0..tallies.unstruck.steps {
        let stands = run.stands();
        for row in acts.function(stands.function) {
            let mut struck = run.clone();
            struck.strike(row);
            tallies.add(acts.narrow(stands.row, row), &ended(struck, budget));
        }
        run.run(step + 1);
    }
    Some(tallies)
}

fn ended(mut run: RowRun, budget: u16) -> Ended {
    let outcome = run.run(budget);
    Ended { outcome, steps: run.steps, trace: run.trace, variables: run.variables }
}
