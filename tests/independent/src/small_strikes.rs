//! The jumps across a do that a run gives room for; random small jumps, and budgets around the
//! step struck.

use crate::hardened_run::Jump;
use crate::line::{self, Line};
use crate::machine::Variables;
use crate::random::Random;
use crate::small_jump::{befores, Before};
use crate::strikes::word;

/// A jump across a do.
#[derive(Clone, Copy, Debug, PartialEq, Eq)]
pub struct Across {
    pub k: u16,
    pub from: u16,
    pub to: u16,
}

/// Each of them, out of a run that stands so before its steps.
pub fn across_dos(lines: &[Line], befores: &[Before]) -> Vec<Across> {
    let mut jumps = Vec::new();
    for (before, k) in befores.iter().zip(0..) {
        let small = |to: &usize| before.sort(lines, *to).slip().is_some();
        for to in (0..=before.span.m).filter(small) {
            jumps.push(Across { k, from: word(before.place), to: word(to) });
        }
    }
    jumps
}

/// So many steps of the unstruck run are looked at.
const MOST_STEPS: u16 = 300;

/// In most cases a jump across a do, if the run comes to one, else to an equal place; with a
/// budget that doesn't hold its step, ends with it or with the next, or is larger.
pub fn some_small_strike(rng: &mut Random, lines: &[u8], variables: &Variables) -> (Jump, u16) {
    let lines = line::from_bytes(lines);
    let befores = befores(&lines, *variables, MOST_STEPS);
    let across = across_dos(&lines, &befores);
    let jump = if !across.is_empty() && rng.percent(80) {
        let across = rng.pick(&across);
        Jump { k: across.k, place: across.to }
    } else {
        let k = rng.below(befores.len());
        Jump { k: word(k), place: word(befores[k].place) }
    };
    (jump, some_budget(rng, jump.k))
}

fn some_budget(rng: &mut Random, k: u16) -> u16 {
    match rng.below(20) {
        0..=2 => k,
        3..=5 => k + 1,
        6..=8 => k + 2,
        _ => k + 3 + word(rng.below(200)),
    }
}
