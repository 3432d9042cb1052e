//! The steps of a hardened run, from those of its source's finished run (02, No. 2): sums
//! by hand, random programs, and sums on either side of 65,535.

mod letters;

use independent::hardened_run::HardenedRun;
use independent::machine::{Outcome, Variables};
use independent::program;
use independent::random::Random;
use independent::source_run::SourceRun;
use independent::table;
use independent::{harden, hardened_steps, limits, switch_limits};

const MOST: u16 = 65_535;

#[test]
fn by_hand() {
    assert_eq!(hardened_steps(0, 0, 0), 0);
    // (A) and (B) of 01
    assert_eq!(hardened_steps(9, 3, 0), 12);
    assert_eq!(hardened_steps(MOST, 0, 0), 65_535);
    assert_eq!(hardened_steps(MOST, 0, 1), 65_536);
    assert_eq!(hardened_steps(MOST, 1, 0), 65_536);
    assert_eq!(hardened_steps(1, MOST, 0), 65_536);
    assert_eq!(hardened_steps(0, 1, MOST), 65_536);
    assert_eq!(hardened_steps(30_000, 30_000, 30_000), 90_000);
    assert_eq!(hardened_steps(MOST, MOST, 0), 131_070);
    assert_eq!(hardened_steps(MOST, MOST, MOST), 196_605);
}

/// Steps, dos and calls of a source run, if it finishes within a budget.
fn finished(rows: &[u8], variables: &Variables, budget: u16) -> Option<(u16, u16, u16)> {
    let table = table::parse(rows).unwrap();
    let mut run = SourceRun::new(&table, *variables, budget);
    let outcome = run.run();
    let dos = u16::try_from(run.trace.len()).unwrap();
    (outcome == Outcome::Finished).then_some((run.steps, dos, run.calls))
}

/// Outcome and steps of the hardened run with this budget.
fn hardened(rows: &[u8], variables: &Variables, budget: u16) -> (Outcome, u16) {
    let lines = harden::lines(&table::parse(rows).unwrap());
    let mut run = HardenedRun::new(&lines, *variables);
    (run.run(budget, None), run.steps)
}

/// The hardened run finishes with a budget of just the sum, and of more, in as many
/// steps; with one step less it does not.
fn finishes_in(rows: &[u8], variables: &Variables, sum: u32) {
    let steps = u16::try_from(sum).unwrap();
    assert_eq!(hardened(rows, variables, steps), (Outcome::Finished, steps));
    assert_eq!(hardened(rows, variables, MOST), (Outcome::Finished, steps));
    assert_eq!(hardened(rows, variables, steps - 1), (Outcome::BudgetSpent, steps - 1));
}

/// With every budget the hardened run takes just as many steps and is not finished: one
/// run, stopped at each budget in turn.
fn never_finishes(rows: &[u8], variables: &Variables) {
    let lines = harden::lines(&table::parse(rows).unwrap());
    let mut run = HardenedRun::new(&lines, *variables);
    for budget in 0..=MOST {
        assert_eq!((run.run(budget, None), run.steps), (Outcome::BudgetSpent, budget));
    }
    assert_eq!(hardened(rows, variables, MOST), (Outcome::BudgetSpent, MOST));
}

/// What a run of the source gives must be what the hardened run shows. Answers whether
/// the sum was at most 65,535.
fn as_the_sum_says(rows: &[u8], variables: &Variables, ran: (u16, u16, u16)) -> bool {
    let sum = hardened_steps(ran.0, ran.1, ran.2);
    if sum <= u32::from(MOST) {
        finishes_in(rows, variables, sum);
        true
    } else {
        never_finishes(rows, variables);
        false
    }
}

#[test]
fn random_programs() {
    let (mut count, mut with_calls, mut with_switches) = (0, 0, 0);
    for seed in 0..6000 {
        let mut rng = Random::new(seed);
        let size = rng.between(4, 60);
        let program = program::program(&mut rng, size);
        let Some(ran) = finished(&program.rows, &program.variables, MOST) else {
            continue;
        };
        as_the_sum_says(&program.rows, &program.variables, ran);
        count += 1;
        with_calls += usize::from(ran.2 > 0);
        with_switches += usize::from(program.rows.chunks(6).any(|row| row[0] == 10));
    }
    assert!(count > 2000, "{count}");
    assert!(with_calls > 500, "{with_calls}");
    assert!(with_switches > 500, "{with_switches}");
}

/// The calls made are the call rows reached, but for the one that meets outcome 3, whatever
/// the budget.
#[test]
fn calls_of_random_programs() {
    let mut met = 0;
    for seed in 0..3000 {
        let mut rng = Random::new(seed);
        let size = rng.between(4, 60);
        let program = program::program(&mut rng, size);
        let table = table::parse(&program.rows).unwrap();
        let budget = rng.pick(&[0, 7, 20, 99, 3000]);
        let mut run = SourceRun::new(&table, program.variables, budget);
        let not_made = usize::from(run.run() == Outcome::TooManyOpen);
        let reached = run.reached.iter().filter(|step| step.word == "call").count();
        assert_eq!(usize::from(run.calls) + not_made, reached);
        met += not_made;
    }
    assert!(met > 50, "{met}");
}

/// `bands` with v15 = 1: 47 steps, 12 dos, a call (tests/switch.rs). The deepest
/// recursion: 15 times if, do, call and, behind it, two ends; then an if and an end.
#[test]
fn programs_by_hand() {
    let mut variables = [0; 16];
    variables[15] = 1;
    let bands = switch_limits::bands();
    assert_eq!(finished(&bands, &variables, MOST), Some((47, 12, 1)));
    finishes_in(&bands, &variables, 60);
    (variables[0], variables[1]) = (15, 1);
    let recursion = limits::recursion();
    assert_eq!(finished(&recursion, &variables, MOST), Some((77, 15, 15)));
    finishes_in(&recursion, &variables, 107);
}

/// A loop of so many rounds, over v0 from 0, with a do in it; then so many ifs that are
/// not taken. Steps: three a round, the last test, the ifs, the end. Dos: one a round.
fn rounds(count: u16, ifs: usize) -> Vec<u8> {
    let [low, high] = count.to_le_bytes();
    let mut rows = vec![1, 0, 0, 0, 0, 0];
    rows.extend([[5, 1, 0, 0, low, high], [2, 2, 0, 1, 0, 0], [6, 0, 0, 0, 0, 0]].concat());
    rows.extend([[3, 0, 0, 0, 0, 0], [6, 0, 0, 0, 0, 0]].concat().repeat(ifs));
    rows.extend([6, 0, 0, 0, 0, 0]);
    rows
}

/// Sums just below 65,535, at it, just past it, and as far past it as this loop goes. In
/// all of these the source run finishes.
#[test]
fn either_side_of_65535() {
    let mut variables = [0; 16];
    variables[1] = 1;
    for (count, ifs, sum) in [
        (16_383, 0, 65_534),
        (16_383, 1, 65_535),
        (16_383, 2, 65_536),
        (16_384, 0, 65_538),
        (21_844, 0, 87_378),
        (21_844, 1, 87_379),
    ] {
        let rows = rounds(count, ifs);
        let ran = finished(&rows, &variables, MOST).unwrap();
        assert_eq!(ran, (3 * count + 2 + ifs as u16, count, 0));
        assert_eq!(hardened_steps(ran.0, ran.1, ran.2), sum);
        assert_eq!(as_the_sum_says(&rows, &variables, ran), sum <= 65_535);
    }
}

/// The same by calls. A round of 900 is a test, a do, 900 times a call and an end, and
/// the loop's end; behind the rounds the test and the function's end.
#[test]
fn either_side_of_65535_by_calls() {
    let called = [9, 0, 0, 0, 1, 0].repeat(900);
    let head = [[1, 0, 0, 0, 0, 0], [5, 1, 0, 0, 0, 0], [2, 3, 0, 1, 0, 0]].concat();
    let rows = [head, called, letters::rows("..f.")].concat();
    let mut variables = [0; 16];
    variables[1] = 1;
    for (count, fits) in [(1, true), (24, true), (25, false), (36, false)] {
        variables[0] = count;
        let ran = finished(&rows, &variables, MOST).unwrap();
        assert_eq!(ran, (1803 * count + 2, count, 900 * count));
        assert_eq!(as_the_sum_says(&rows, &variables, ran), fits);
    }
}
