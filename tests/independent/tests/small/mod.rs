//! A small jump held against the source's run with the slip that it is (02, No. 6). Used by
//! tests only.

use independent::goes_on;
use independent::hardened_run::{HardenedRun, Jump};
use independent::machine::Outcome;
use independent::slip::{self, Slip};

use crate::pair::Pair;

/// A jump with no guard between, and its slip; none where the places are equal.
#[derive(Clone, Copy, Debug)]
pub struct Small {
    pub jump: Jump,
    pub slip: Option<Slip>,
}

/// The struck run agrees with the slipped one with each of these budgets, which go up: it is
/// one run, stopped at each in turn until it ends. Answers how, and the run.
pub fn agrees<'a>(
    pair: &'a Pair,
    small: &Small,
    budgets: impl IntoIterator<Item = u16>,
) -> (Outcome, HardenedRun<'a>) {
    let mut run = HardenedRun::new(&pair.lines, pair.variables);
    for budget in budgets {
        let outcome = run.run(budget, Some(small.jump));
        agree(pair, small, budget, outcome, &run);
        if outcome != Outcome::BudgetSpent {
            return (outcome, run);
        }
    }
    (Outcome::BudgetSpent, run)
}

/// "outcome, variables, trace and open functions agree at the matching step", and the
/// slipped run takes all of these steps.
fn agree(pair: &Pair, small: &Small, budget: u16, outcome: Outcome, run: &HardenedRun) {
    let slipped = |slip| slip::run(&pair.table, pair.variables, run.matching(), slip);
    let (expected, source) = slipped(small.slip);
    let open: Vec<usize> = run.frames.iter().map(|frame| frame.function).collect();
    assert_eq!(
        (outcome, run.variables, &run.trace, &open, run.matching()),
        (expected, source.variables, &source.trace, &source.open, source.steps),
        "{small:?} with the budget {budget}"
    );
    // With a budget of k or less nothing is struck. The two agree all the same; but a do
    // left out takes no step, and between two times there is none, so that the source's run
    // may be past a slip that is still to come.
    let slip = small.slip.filter(|_| budget > small.jump.k);
    let at = if slip == small.slip { source.at } else { slipped(None).1.at };
    let rows = goes_on::rows(&pair.rows_of_lines, run);
    assert_eq!(rows, at, "{small:?} with the budget {budget}");
}
