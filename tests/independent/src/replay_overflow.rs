//! Of `independent replay-run`, the runs by hand that overflow or go up to the edge (02,
//! No. 5).

use crate::by_name::values;
use crate::damage;
use crate::limits;
use crate::machine::NO_JUMP;
use crate::overflow_programs;
use crate::program::Program;
use crate::protocol::{self, Test};
use crate::replay_run::{both, simple};
use crate::strikes::{source_steps, unstruck, word, Standing, Unstruck};

/// All of them.
pub fn all() -> Vec<Test> {
    let mut tests = worked();
    for program in overflow_programs::overflowing() {
        tests.extend(around_the_end(&program));
    }
    for program in overflow_programs::finishing() {
        tests.extend(both(99, &program.variables, &program.rows));
        tests.extend(landings(&program));
    }
    tests
}

/// 01's table with v1 = 3, where 2 - 3 overflows, and with v1 = 1 a jump to that do before
/// anything is done; with budgets that hold the step, just hold it and do not.
fn worked() -> Vec<Test> {
    let rows = limits::worked_listing();
    let lines = damage::hardened(&rows);
    let mut tests = Vec::new();
    for budget in [20, 5, 4, 3, 2] {
        tests.extend(both(budget, &values(&[(1, 3)]), &rows));
    }
    for budget in [20, 2, 1, 0] {
        tests.push(protocol::hardened(simple(budget, 0, 3), &values(&[(1, 1)]), &lines));
    }
    tests
}

/// Budgets that end before the step that overflows, with it and far behind it, in both
/// forms.
fn around_the_end(program: &Program) -> Vec<Test> {
    let Program { rows, variables } = program;
    let lines = damage::hardened(rows);
    let mut tests = both(300, variables, rows).to_vec();
    let steps = unstruck(&lines, variables, 300).steps;
    for budget in [steps - 1, steps] {
        tests.push(protocol::hardened(simple(budget, NO_JUMP, 0), variables, &lines));
    }
    let steps = source_steps(rows, variables, 300);
    for budget in [steps - 1, steps] {
        tests.push(protocol::source(budget, budget.into(), variables, rows));
    }
    tests
}

/// At every step each place before a do that overflows then, with a budget that just holds
/// the step; in short runs each before another sum or difference too, with one that just
/// holds the alarm.
fn landings(program: &Program) -> Vec<Test> {
    let lines = damage::hardened(&program.rows);
    let Unstruck { standing, .. } = unstruck(&lines, &program.variables, 99);
    let short = standing.len() < 9;
    let mut tests = Vec::new();
    for (k, Standing { sums, overflowing, .. }) in standing.iter().enumerate() {
        for place in if short { sums } else { overflowing } {
            let budget = if overflowing.contains(place) { k + 1 } else { k + 2 };
            let how = simple(word(budget), word(k), word(*place));
            tests.push(protocol::hardened(how, &program.variables, &lines));
        }
    }
    tests
}
