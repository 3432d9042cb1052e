//! Random budgets, jumps and buffers for runs: many where a run ends, or would overflow.

use crate::hardened_run::{spans_of, HardenedRun};
use crate::line::{self, Line};
use crate::machine::{do_it, Outcome, Variables, NO_JUMP};
use crate::protocol::Struck;
use crate::random::Random;
use crate::source_run::SourceRun;
use crate::table;

/// Before a step of a run without a jump: the lines of the running function, its places
/// before a sum or difference, and those of them where it would overflow then.
pub struct Standing {
    pub m: usize,
    pub sums: Vec<usize>,
    pub overflowing: Vec<usize>,
}

/// A run without a jump: its outcome, its steps, and how it stands before each.
pub struct Unstruck {
    pub outcome: Outcome,
    pub steps: u16,
    pub standing: Vec<Standing>,
}

pub fn unstruck(lines: &[u8], variables: &Variables, budget: u16) -> Unstruck {
    let lines = line::from_bytes(lines);
    let mut run = HardenedRun::new(&lines, *variables);
    let mut standing = Vec::new();
    let mut outcome = Outcome::BudgetSpent;
    for step in 1..=budget {
        standing.push(stands(&lines, &run));
        outcome = run.run(step, None);
        if outcome != Outcome::BudgetSpent {
            break;
        }
    }
    Unstruck { outcome, steps: run.steps, standing }
}

fn stands(lines: &[Line], run: &HardenedRun) -> Standing {
    let span = run.span();
    let line = |place: &usize| lines[span.first + place];
    let is_sum = |place: &usize| line(place).kind == line::DO && line(place).op > 1;
    let overflows = |place: &usize| {
        let Line { op, p, q, n, .. } = line(place);
        do_it(op, p, q, n, &run.variables).is_err()
    };
    let sums: Vec<usize> = (0..span.m).filter(is_sum).collect();
    let overflowing = sums.iter().copied().filter(overflows).collect();
    Standing { m: span.m, sums, overflowing }
}

pub fn word(number: usize) -> u16 {
    u16::try_from(number).expect("a small number")
}

/// 0, 1, small, large, 65,535 (which `some_slots` lends too few slots).
pub fn some_budget(rng: &mut Random) -> u16 {
    word(match rng.below(100) {
        0..=3 => 0,
        4..=7 => 1,
        8..=50 => rng.between(2, 40),
        51..=90 => rng.between(40, 300),
        91..=97 => rng.between(300, 1200),
        _ => 65_535,
    })
}

/// The budget, or one that ends just where a run of so many steps does.
fn near(rng: &mut Random, budget: u16, steps: u16) -> u16 {
    match rng.below(20) {
        0 => steps.saturating_sub(1),
        1..=4 => steps,
        5 => steps + 1,
        _ => budget,
    }
}

/// The steps of a source run of an accepted table.
pub fn source_steps(rows: &[u8], variables: &Variables, budget: u16) -> u16 {
    let table = table::parse(rows).expect("an accepted table");
    let mut run = SourceRun::new(&table, *variables, budget);
    run.run();
    run.steps
}

/// Some budget for a source run of an accepted table.
pub fn source_budget(rng: &mut Random, rows: &[u8], variables: &Variables) -> u16 {
    let budget = some_budget(rng);
    let steps = source_steps(rows, variables, budget.min(2000));
    near(rng, budget, steps)
}

/// Mostly as many slots as the budget, sometimes one fewer, none, or more.
pub fn some_slots(rng: &mut Random, budget: u16) -> usize {
    let exact = usize::from(budget);
    if exact > 10_000 {
        return rng.below(50);
    }
    match rng.below(20) {
        0 => exact.saturating_sub(1),
        1 => 0,
        2..=4 => exact + rng.between(1, 20),
        _ => exact,
    }
}

/// A jump within the run, at its end, past it, or none; a place in the running function,
/// its m, or beyond; the budget that is drawn, or one that ends near the jump or the run.
pub fn some_strike(rng: &mut Random, lines: &[u8], variables: &Variables) -> Struck {
    let drawn = some_budget(rng);
    let Unstruck { steps, standing, .. } = unstruck(lines, variables, drawn.min(2000));
    let words = rng.pick(&[1024, 1024, 1024, 1024, 1024, 1024, 1024, 1100, 1100, 1025, 1023, 0]);
    let k = match rng.below(20) {
        0..=3 => NO_JUMP,
        4 => drawn,
        5 => steps,
        6 => steps + word(rng.between(1, 9)),
        _ => word(rng.below(usize::from(steps) + 1)),
    };
    let place = some_place(rng, standing.get(usize::from(k)), lines);
    let budget = match rng.below(20) {
        0..=2 if k < steps => k + 1,
        3 if k < steps => k + 2,
        _ => near(rng, drawn, steps),
    };
    let slots = some_slots(rng, budget);
    Struck { budget, k, place: word(place), slots, words }
}

/// A place of the function that runs then, in some cases one before a do that would
/// overflow; of function 0 where the run is over.
fn some_place(rng: &mut Random, standing: Option<&Standing>, lines: &[u8]) -> usize {
    let m = match standing {
        Some(standing) => standing.m,
        None => spans_of(&line::from_bytes(lines))[0].m,
    };
    let overflowing = standing.map_or(&[][..], |standing| &standing.overflowing);
    match rng.below(20) {
        0..=1 => m,
        2 => m + 1,
        3 => rng.pick(&[65_535, 65_534, 256]),
        4..=9 if !overflowing.is_empty() => rng.pick(overflowing),
        _ => rng.below(m + 1),
    }
}
