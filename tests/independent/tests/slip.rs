//! The small jump told exactly (02, No. 6): every jump with no guard between, of programs by
//! hand, of every short table and of random programs, struck and held against the source's
//! run in which one do is left out or done twice, or against that run as it is.

mod between;
mod counted;
mod letters;
mod pair;
mod short;
mod small;

use between::wide;
use counted::Counted;
use independent::by_name::{self, values};
use independent::hardened_run::{HardenedRun, Jump};
use independent::machine::Outcome;
use independent::program::{self, Program};
use independent::random::Random;
use independent::slip::{self, How, Slip};
use independent::small_jump::{befores, Sort};
use independent::{limits, overflow_programs, sweep_programs};
use pair::Pair;
use small::{agrees, Small};

/// Every jump with no guard between, by 01's definition, out of the first steps of the
/// unstruck run, so many at most.
fn small_jumps(pair: &Pair, most: u16) -> Vec<Small> {
    let mut jumps = Vec::new();
    for (before, k) in befores(&pair.lines, pair.variables, most).iter().zip(0..) {
        let span = before.span;
        let function = &pair.lines[span.first..span.first + span.m];
        for place in (0..=span.m).filter(|place| !wide(function, before.place, *place)) {
            let slip = match before.sort(&pair.lines, place) {
                Sort::Equal => None,
                Sort::Slip(slip) => Some(slip),
                sort => panic!("{sort:?} at step {k} to place {place}"),
            };
            jumps.push(Small { jump: Jump { k, place: place as u16 }, slip });
        }
    }
    jumps
}

/// A run and how it ended.
type Ended<'a> = (Outcome, HardenedRun<'a>);

/// Counts a jump, how the struck run ended with its largest budget, and what is rare.
fn count(met: &mut Counted, small: &Small, unstruck: &Ended, struck: &Ended) {
    let sort = match small.slip.map(|slip| slip.how) {
        None => "equal",
        Some(How::LeftOut) => "left out",
        Some(How::Twice) => "done twice",
    };
    met.add(sort);
    met.add(format!("{sort}, {}", struck.0.words()));
    let in_step_struck =
        |(outcome, run): &Ended| *outcome == Outcome::Overflow && run.steps == small.jump.k + 1;
    if in_step_struck(struck) {
        met.add(format!("{sort}, overflow in the step struck"));
    }
    if in_step_struck(unstruck) {
        met.add(format!("{sort}, where the unstruck run overflows"));
    }
    if struck.0 == Outcome::BudgetSpent && struck.1.frames.len() > 1 {
        met.add(format!("{sort}, budget spent with more than one open"));
    }
    if [unstruck.0, struck.0] == [Outcome::Finished; 2] {
        let same = if unstruck.1.trace == struck.1.trace { "the same" } else { "another" };
        met.add(format!("{sort}, finished with {same} trace"));
    }
    if small.slip.is_none() {
        nothing_is_changed(unstruck, struck);
    }
}

/// "or nothing is changed where the places are equal": the counters neither.
fn nothing_is_changed((outcome, unstruck): &Ended, (ended, struck): &Ended) {
    assert_eq!((ended, struck.steps), (outcome, unstruck.steps));
    assert_eq!(struck.frames, unstruck.frames);
    assert_eq!((&struck.trace, struck.variables), (&unstruck.trace, unstruck.variables));
}

/// Every small jump out of so many first steps, with every budget up to the last number.
fn with_every_budget(met: &mut Counted, program: &Program, steps: u16, most: u16) {
    let pair = Pair::new(&program.rows, program.variables);
    let unstruck = pair.struck(most, None);
    for small in small_jumps(&pair, steps) {
        count(met, &small, &unstruck, &agrees(&pair, &small, 0..=most));
    }
}

/// Loops, breaks, continues, calls, recursions, switches, and dos at the edges of sums; runs
/// that finish, that never do, and that end with 3 and 5.
#[test]
fn programs_by_hand() {
    let mut met = Counted::default();
    for program in sweep_programs::by_hand().into_iter().chain(overflow_programs::finishing()) {
        with_every_budget(&mut met, &program, 400, 400);
    }
    let overflowing = overflow_programs::overflowing();
    for program in sweep_programs::never_finished().into_iter().chain(overflowing) {
        with_every_budget(&mut met, &program, 100, 120);
    }
    met.least(&[("equal", 1500), ("left out", 350), ("done twice", 330)]);
    met.least(&[("left out, finished with another trace", 100)]);
    met.least(&[("left out, finished with the same trace", 30)]);
    met.least(&[("left out, too many open functions", 60), ("left out, overflow", 40)]);
    met.least(&[("left out, where the unstruck run overflows", 12)]);
    met.least(&[("done twice, finished with another trace", 100)]);
    met.least(&[("done twice, finished with the same trace", 30)]);
    met.least(&[("done twice, too many open functions", 15), ("done twice, overflow", 80)]);
    met.least(&[("done twice, overflow in the step struck", 30)]);
}

/// The budgets around the step struck, one somewhere behind it, and the largest.
fn some_budgets(rng: &mut Random, k: u16, most: u16) -> [u16; 7] {
    let somewhere = k + 4 + rng.word() % (most - k - 4);
    [k.saturating_sub(1), k, k + 1, k + 2, k + 3, somewhere, most]
}

/// 9,000 with some budgets, and 1,000 shorter ones with every budget.
#[test]
fn random_programs() {
    let mut met = Counted::default();
    for seed in 0..9000 {
        let program = program::by_seed(seed, 60);
        let pair = Pair::new(&program.rows, program.variables);
        let unstruck = pair.struck(200, None);
        let mut rng = Random::new(seed);
        for small in small_jumps(&pair, 100) {
            let budgets = some_budgets(&mut rng, small.jump.k, 200);
            count(&mut met, &small, &unstruck, &agrees(&pair, &small, budgets));
        }
    }
    for seed in 9000..10_000 {
        with_every_budget(&mut met, &program::by_seed(seed, 24), 60, 80);
    }
    met.least(&[("equal", 250_000), ("left out", 75_000), ("done twice", 75_000)]);
    met.least(&[("left out, finished with another trace", 30_000)]);
    met.least(&[("left out, finished with the same trace", 1500)]);
    met.least(&[("left out, budget spent with more than one open", 9000)]);
    met.least(&[("left out, too many open functions", 9000), ("left out, overflow", 12_000)]);
    met.least(&[("left out, where the unstruck run overflows", 1900)]);
    met.least(&[("done twice, finished with another trace", 30_000)]);
    met.least(&[("done twice, finished with the same trace", 900)]);
    met.least(&[("done twice, budget spent with more than one open", 9000)]);
    met.least(&[("done twice, too many open functions", 8000), ("done twice, overflow", 16_000)]);
    met.least(&[("done twice, overflow in the step struck", 7000)]);
}

#[test]
fn every_short_table() {
    let mut met = Counted::default();
    for program in short::programs() {
        met.add("programs");
        with_every_budget(&mut met, &program, 14, 24);
    }
    met.least(&[("programs", 4000), ("equal", 35_000), ("left out", 3000), ("done twice", 2900)]);
    met.least(&[("left out, finished with another trace", 800)]);
    met.least(&[("left out, where the unstruck run overflows", 200)]);
    met.least(&[("done twice, finished with another trace", 700)]);
    met.least(&[("done twice, overflow in the step struck", 300)]);
}

/// The last steps that a budget holds, of a loop that never ends and of a run that overflows
/// in the very last: each round is test do tick leave, and there are five of them.
#[test]
fn the_last_steps_of_all() {
    let mut met = Counted::default();
    let endless = by_name::of(limits::endless(1), &[]);
    for program in [endless, overflow_programs::in_the_last_step_of_all()] {
        let pair = Pair::new(&program.rows, program.variables);
        let unstruck = pair.struck(65_535, None);
        for small in small_jumps(&pair, 65_535).iter().filter(|small| small.jump.k >= 65_515) {
            let struck = agrees(&pair, small, small.jump.k..=65_535);
            count(&mut met, small, &unstruck, &struck);
        }
    }
    met.least(&[("equal", 40), ("left out", 10), ("done twice", 10)]);
    met.least(&[("left out, where the unstruck run overflows", 1), ("left out, budget spent", 10)]);
    met.least(&[("done twice, overflow in the step struck", 1), ("done twice, budget spent", 5)]);
}

/// A slip changes the one do that is reached at its step; where the run reaches another row
/// then, or has ended before, it changes nothing.
#[test]
fn slips_that_change_nothing() {
    for seed in 0..500 {
        let program = program::by_seed(seed, 40);
        let Pair { table, variables, .. } = Pair::new(&program.rows, program.variables);
        let (outcome, plain) = slip::run(&table, variables, 100, None);
        for step in 0..plain.steps + 3 {
            let is_do = plain.reached.get(usize::from(step)).is_some_and(|row| row.word == "do");
            let same = |how| {
                let (ended, run) = slip::run(&table, variables, 100, Some(Slip { step, how }));
                (ended, &run.reached) == (outcome, &plain.reached)
            };
            assert_eq!(same(How::LeftOut), !is_do, "step {step} of the program {seed}");
            // one that overflows, or is the last step, is not done a second time
            assert!(same(How::Twice) || is_do, "step {step} of the program {seed}");
        }
    }
}

/// Three dos after each other: one is left out, not the one behind it too, though that is
/// reached at the same step; one is done twice, not three times.
#[test]
fn one_do_slips() {
    let rows = letters::rows("fddd.");
    let Pair { table, variables, .. } = Pair::new(&rows, values(&[(15, 1)]));
    let expected = [
        (How::LeftOut, 0, vec![2, 3]),
        (How::LeftOut, 1, vec![1, 3]),
        (How::LeftOut, 2, vec![1, 2]),
        (How::Twice, 0, vec![1, 1, 2, 3]),
        (How::Twice, 1, vec![1, 2, 2, 3]),
        (How::Twice, 2, vec![1, 2, 3, 3]),
        // step 3 is the end's, step 4 is none
        (How::Twice, 3, vec![1, 2, 3]),
        (How::LeftOut, 4, vec![1, 2, 3]),
    ];
    for (how, step, trace) in expected {
        let (outcome, run) = slip::run(&table, variables, 20, Some(Slip { step, how }));
        let steps = u16::try_from(trace.len()).unwrap() + 1;
        assert_eq!((outcome, run.steps, run.variables[0]), (Outcome::Finished, steps, steps - 1));
        assert_eq!(run.trace, trace);
    }
}
