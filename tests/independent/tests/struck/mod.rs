//! How a struck run ends where its place is beyond m, and where a guard is between (01,
//! "Running"; 02, No. 5). Used by tests only.

use independent::hardened_run::{HardenedRun, Jump};
use independent::line::Line;
use independent::machine::{Outcome, Variables};

use crate::edge::overflows;
use crate::pair::Pair;

/// "with 4 the step struck is not taken"
pub fn beyond(pair: &Pair, before: &HardenedRun, budget: u16, jump: Option<Jump>) {
    let (outcome, run) = pair.struck(budget, jump);
    assert_eq!((outcome, run.steps), (Outcome::PlaceBeyond, before.steps));
    assert_eq!(run.trace, before.trace);
    assert_eq!(run.variables, before.variables);
}

/// A wide jump, with a budget that holds step k: 5 in that step, or the alarm.
pub fn wide_end(pair: &Pair, before: &HardenedRun, budget: u16, k: u16, place: usize) {
    let span = before.span();
    let function = &pair.lines[span.first..span.first + span.m];
    match function.get(place) {
        Some(line) if overflows(line, &before.variables) => {
            wide_overflow(pair, before, budget, k, place)
        }
        _ => wide_jump(pair, before, budget, k, place),
    }
}

/// "A run struck across a guard therefore ends with 5, in the step struck, exactly if it
/// lands before such a do"
fn wide_overflow(pair: &Pair, before: &HardenedRun, budget: u16, k: u16, place: usize) {
    let (outcome, run) = pair.struck(budget, Some(Jump { k, place: place as u16 }));
    assert_eq!((outcome, run.steps), (Outcome::Overflow, k + 1));
    assert_eq!((&run.trace, run.variables), (&before.trace, before.variables));
    let open = |run: &HardenedRun| run.frames.iter().map(|f| f.function).collect::<Vec<_>>();
    assert_eq!(open(&run), open(before));
}

/// The variables behind a do that does not overflow.
fn done(line: Line, v: &Variables) -> Variables {
    let mut after = *v;
    let [p, q] = [line.p, line.q].map(usize::from);
    match line.op {
        0 => after[p] = line.n,
        1 => after[p] = v[q],
        2 => after[p] += v[q],
        _ => after[p] -= v[q],
    }
    after
}

/// "the alarm comes in step k if the place is before a guard, or is m with one
/// function open; in step k + 1 if it is before a do ..., or is m with more
/// open. ... Trace and variables are what the first k steps left, with the do at
/// that place, if one stands there, done on them once."
fn wide_jump(pair: &Pair, before: &HardenedRun, budget: u16, k: u16, place: usize) {
    let span = before.span();
    let line = (place < span.m).then(|| pair.lines[span.first + place]);
    let alarm_step = match line {
        Some(line) if line.is_guard() => k,
        Some(_) => k + 1,
        None if before.frames.len() == 1 => k,
        None => k + 1,
    };
    let mut variables = before.variables;
    let mut trace = before.trace.clone();
    if let Some(line) = line.filter(|line| !line.is_guard()) {
        variables = done(line, &variables);
        trace.push(line.e);
    }
    let (outcome, run) = pair.struck(budget, Some(Jump { k, place: place as u16 }));
    if alarm_step < budget {
        assert_eq!((outcome, run.steps), (Outcome::Alarm, alarm_step + 1));
    } else {
        assert_eq!((outcome, run.steps), (Outcome::BudgetSpent, budget));
    }
    assert_eq!(run.variables, variables);
    assert_eq!(run.trace, trace);
}
