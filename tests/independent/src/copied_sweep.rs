//! The sweep of a hardened table with its wide and its narrow strikes apart. Each struck run
//! goes on from a copy of the unstruck one, where `sweep` begins each at line 0: most strikes
//! alarm at once, so that nearly all steps are those before them.

use crate::hardened_run::{HardenedRun, Jump};
use crate::line::Line;
use crate::machine::Variables;
use crate::small_jump::{Before, Sort};
use crate::tallies::{Ended, Tallies};

/// None where the unstruck run does not finish in the budget. The lines must be those of an
/// accepted table.
pub fn sweep(lines: &[Line], variables: Variables, budget: u16) -> Option<Tallies> {
    let mut tallies = Tallies::of(ended(HardenedRun::new(lines, variables), budget, None))?;
    let mut run = HardenedRun::new(lines, variables);
    for k in 0..tallies.unstruck.steps {
        let before = Before::of(&run);
        for to in 0..=before.span.m {
            let place = u16::try_from(to).expect("a table has at most 2,048 lines");
            let struck = ended(run.clone(), budget, Some(Jump { k, place }));
            tallies.add(before.sort(lines, to) != Sort::Wide, &struck);
        }
        run.run(k + 1, None);
    }
    Some(tallies)
}

fn ended(mut run: HardenedRun, budget: u16, jump: Option<Jump>) -> Ended {
    let outcome = run.run(budget, jump);
    Ended { outcome, steps: run.steps, trace: run.trace, variables: run.variables }
}
