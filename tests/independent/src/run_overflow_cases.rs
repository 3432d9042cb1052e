//! Command lines for runs that overflow or go up to the edge: shown and not, in both forms,
//! with budgets around their last step, and struck.

use crate::damage;
use crate::limits;
use crate::overflow_programs;
use crate::program::Program;
use crate::run_cases::{given, hardened, source, Case};
use crate::strikes::{source_steps, unstruck, Standing, Unstruck};

/// All of them.
pub fn all() -> Vec<Case> {
    let mut cases = worked();
    overflow_programs::overflowing().iter().for_each(|program| cases.extend(ending(program)));
    for program in overflow_programs::finishing() {
        cases.extend(both(&program, "show"));
        cases.extend(landings(&program));
    }
    cases.extend(the_largest_budget());
    cases
}

/// The same words for both forms of a table, behind its first values.
fn both(program: &Program, words: &str) -> [Case; 2] {
    let words = format!("{} {words}", given(&program.variables));
    [source(&words, &program.rows), hardened(&words, &damage::hardened(&program.rows))]
}

/// 01's table: 2 - 3 overflows; so does 0 - 1, where a jump comes first.
fn worked() -> Vec<Case> {
    let rows = limits::worked_listing();
    let lines = damage::hardened(&rows);
    let mut cases = Vec::new();
    for words in ["v1=3 show budget=20", "v1=3", "v1=3 show budget=3", "v1=3 show budget=2 trace"] {
        cases.push(source(words, &rows));
        cases.push(hardened(words, &lines));
    }
    for words in ["budget=20 show", "budget=20", "budget=1 show", "budget=0 show", "budget=2 trace"]
    {
        cases.push(hardened(&format!("v1=1 jump=0:3 {words}"), &lines));
    }
    cases
}

/// Whole, and with budgets that end with the step that overflows and before it.
fn ending(program: &Program) -> Vec<Case> {
    let Program { rows, variables } = program;
    let lines = damage::hardened(rows);
    let values = given(variables);
    let mut cases = Vec::from(both(program, "show"));
    cases.extend(both(program, "trace"));
    let steps = source_steps(rows, variables, 300);
    for budget in [steps, steps - 1] {
        cases.push(source(&format!("budget={budget} {values} show"), rows));
    }
    let steps = unstruck(&lines, variables, 300).steps;
    for budget in [steps, steps - 1] {
        cases.push(hardened(&format!("{values} show budget={budget}"), &lines));
    }
    cases
}

/// Every second jump to a do that overflows then, one in two of them with a budget that
/// just holds its step.
fn landings(program: &Program) -> Vec<Case> {
    let lines = damage::hardened(&program.rows);
    let values = given(&program.variables);
    let Unstruck { standing, .. } = unstruck(&lines, &program.variables, 99);
    let mut jumps = Vec::new();
    for (k, Standing { overflowing, .. }) in standing.iter().enumerate() {
        jumps.extend(overflowing.iter().map(|place| (k, place)));
    }
    let mut cases = Vec::new();
    for (number, (k, place)) in jumps.iter().step_by(2).enumerate() {
        let budget = if number % 2 == 0 { k + 1 } else { 99 };
        cases.push(hardened(&format!("show budget={budget} jump={k}:{place} {values}"), &lines));
    }
    cases
}

/// A run whose last step is the last that a budget holds.
fn the_largest_budget() -> Vec<Case> {
    let last = overflow_programs::in_the_last_step_of_all();
    let mut cases = Vec::from(both(&last, ""));
    cases.extend(both(&last, "budget=65534"));
    cases.extend(both(&last, "trace"));
    cases
}
