//! What 01 claims of runs, on random programs and on every short table: the
//! unstruck hardened run is the source's run at the matching step and raises no
//! alarm; a wide jump raises it when 01 says, or overflows when 02, No. 5, says.

mod between;
mod edge;
mod pair;
mod struck;

use between::wide;
use edge::overflows;
use independent::hardened_run::{HardenedRun, Jump};
use independent::line::Line;
use independent::machine::Outcome;
use independent::program;
use independent::random::Random;
use independent::source_run::SourceRun;
use independent::{check, goes_on, limits};
use pair::Pair;
use struck::{beyond, wide_end};

fn source_run(pair: &Pair, budget: u16) -> (Outcome, SourceRun<'_>) {
    let mut run = SourceRun::new(&pair.table, pair.variables, budget);
    (run.run(), run)
}

/// "Matching step: hardened steps less the ticks and backs done."
fn unstruck_is_the_sources(pair: &Pair, budget: u16) -> Outcome {
    let (outcome, hardened) = pair.struck(budget, None);
    assert_ne!(outcome, Outcome::Alarm);
    assert_ne!(outcome, Outcome::PlaceBeyond);
    let (matching, source) = source_run(pair, hardened.matching());
    assert_eq!(matching, outcome);
    assert_eq!(source.steps, hardened.matching());
    assert_eq!(source.trace, hardened.trace);
    assert_eq!(source.variables, hardened.variables);
    let open: Vec<usize> = hardened.frames.iter().map(|frame| frame.function).collect();
    assert_eq!(source.open, open);
    assert_eq!(source.at, goes_on::rows(&pair.rows_of_lines, &hardened));
    match outcome {
        Outcome::BudgetSpent => assert_eq!(hardened.steps, budget),
        Outcome::Overflow => stops_before_it(pair, &hardened),
        _ => {}
    }
    outcome
}

/// "stops either run with outcome 5, before it changes a variable or the trace; the step
/// is counted": with one step less the run is the same, and its budget spent; with just
/// its steps it ends so in the last budgeted one.
fn stops_before_it(pair: &Pair, run: &HardenedRun) {
    assert!(overflows(&run.line().unwrap(), &run.variables));
    let (outcome, less) = pair.struck(run.steps - 1, None);
    assert_eq!((outcome, less.steps), (Outcome::BudgetSpent, run.steps - 1));
    assert_eq!((&less.trace, less.variables), (&run.trace, run.variables));
    assert_eq!(less.frames, run.frames);
    let (outcome, last) = pair.struck(run.steps, None);
    assert_eq!((outcome, last.steps), (Outcome::Overflow, run.steps));
}

/// "A source run that finishes in n steps with t dos and c calls finishes
/// hardened in n + t + c steps, if that is at most 65,535."
fn finishing(pair: &Pair, budget: u16) -> bool {
    let (outcome, source) = source_run(pair, budget);
    if outcome != Outcome::Finished {
        return false;
    }
    let steps = usize::from(source.steps) + source.trace.len() + usize::from(source.calls);
    let Ok(steps) = u16::try_from(steps) else {
        return false;
    };
    let (outcome, hardened) = pair.struck(steps, None);
    assert_eq!((outcome, hardened.steps), (Outcome::Finished, steps));
    assert_eq!(pair.struck(steps - 1, None).0, Outcome::BudgetSpent);
    true
}

/// How many jumps were wide, and how many of those landed before a do that overflows:
/// by its sum, by its difference, and with more functions open than one.
#[derive(Default)]
struct Met {
    wide: usize,
    sums: usize,
    differences: usize,
    deep: usize,
}

impl Met {
    fn add(&mut self, more: Met) {
        self.wide += more.wide;
        self.sums += more.sums;
        self.differences += more.differences;
        self.deep += more.deep;
    }

    fn overflow(&mut self, line: Line, open: usize) {
        match line.op {
            2 => self.sums += 1,
            _ => self.differences += 1,
        }
        self.deep += usize::from(open > 1);
    }
}

/// All jumps before step k, which must be below the unstruck run's length.
fn jumps_at(pair: &Pair, k: u16, budget: u16) -> Met {
    let (_, before) = pair.struck(k, None);
    let span = before.span();
    let from = before.frames.last().unwrap().place;
    let function = &pair.lines[span.first..span.first + span.m];
    let mut met = Met::default();
    for place in 0..=span.m + 1 {
        let jump = Some(Jump { k, place: place as u16 });
        if place > span.m {
            beyond(pair, &before, budget, jump);
        } else if wide(function, from, place) {
            met.wide += 1;
            for budget in [budget, k + 1, k + 2] {
                wide_end(pair, &before, budget, k, place);
            }
            let line = function.get(place).filter(|line| overflows(line, &before.variables));
            line.into_iter().for_each(|line| met.overflow(*line, before.frames.len()));
        } else if place == from {
            same(&pair.struck(budget, jump), &pair.struck(budget, None));
        }
        same(&pair.struck(k, jump), &pair.struck(k, None));
    }
    met
}

fn same(one: &(Outcome, HardenedRun), other: &(Outcome, HardenedRun)) {
    assert_eq!(one.0, other.0);
    assert_eq!(one.1.steps, other.1.steps);
    assert_eq!(one.1.trace, other.1.trace);
    assert_eq!(one.1.variables, other.1.variables);
}

#[test]
fn unstruck_runs_of_random_programs() {
    let mut outcomes = [0; 6];
    let mut finished = 0;
    for seed in 0..6000 {
        let program = program::by_seed(seed, 60);
        let pair = Pair::new(&program.rows, program.variables);
        let mut rng = Random::new(seed);
        for budget in [0, 1, rng.between(2, 40), rng.between(40, 400), 3000] {
            let outcome = unstruck_is_the_sources(&pair, budget as u16);
            outcomes[usize::from(outcome.number())] += 1;
        }
        finished += usize::from(finishing(&pair, 3000));
    }
    assert!(finished > 2000, "{finished}");
    assert!(outcomes[3] > 200 && outcomes[5] > 2000, "{outcomes:?}");
}

#[test]
fn unstruck_runs_at_every_budget() {
    for seed in 0..400 {
        let program = program::by_seed(seed, 30);
        let pair = Pair::new(&program.rows, program.variables);
        for budget in 0..200 {
            if unstruck_is_the_sources(&pair, budget) != Outcome::BudgetSpent {
                break;
            }
        }
    }
}

#[test]
fn unstruck_runs_with_the_largest_budget() {
    for seed in 0..300 {
        let program = program::by_seed(seed, 60);
        let pair = Pair::new(&program.rows, program.variables);
        unstruck_is_the_sources(&pair, 65_535);
        finishing(&pair, 65_535);
    }
}

#[test]
fn every_jump_of_random_programs() {
    let mut met = Met::default();
    let mut deep = 0;
    for seed in 0..1500 {
        let program = program::by_seed(seed, 24);
        let pair = Pair::new(&program.rows, program.variables);
        let (_, whole) = pair.struck(80, None);
        for k in 0..whole.steps {
            met.add(jumps_at(&pair, k, 120));
            deep = deep.max(pair.struck(k, None).1.frames.len());
        }
    }
    assert!(met.wide > 100_000, "{}", met.wide);
    assert!(met.sums > 1000 && met.differences > 1000, "{} {}", met.sums, met.differences);
    assert!(met.deep > 1000, "{}", met.deep);
    assert_eq!(deep, 16);
}

#[test]
fn every_jump_in_the_deepest_recursion() {
    for calls in [15, 16] {
        let mut variables = [0; 16];
        (variables[0], variables[1]) = (calls, 1);
        let pair = Pair::new(&limits::recursion(), variables);
        let (_, whole) = pair.struck(500, None);
        for k in 0..whole.steps {
            assert!(jumps_at(&pair, k, 500).wide > 0);
        }
    }
}

/// Every table of up to eight rows over nine plain rows and a second do, with
/// every budget and every jump of its first steps.
#[test]
fn every_short_table() {
    let alphabet: [[u8; 6]; 10] = [
        [1, 0, 0, 0, 0, 0],
        [2, 0, 0, 0, 1, 0],
        [2, 3, 0, 1, 0, 0],
        [3, 0, 0, 0, 0, 0],
        [4, 0, 0, 0, 0, 0],
        [5, 1, 0, 0, 1, 0],
        [6, 0, 0, 0, 0, 0],
        [7, 0, 0, 0, 0, 0],
        [8, 0, 0, 0, 0, 0],
        [9, 0, 0, 0, 0, 0],
    ];
    let mut accepted = 0;
    for length in 2..=8 {
        for code in 0..10_usize.pow(length - 2) {
            let digits = (0..length - 2).map(|i| code / 10_usize.pow(i) % 10);
            let inner: Vec<u8> = digits.flat_map(|digit| alphabet[digit]).collect();
            let rows = [&alphabet[0][..], &inner, &alphabet[6]].concat();
            if check(&rows) == 0 {
                accepted += 1;
                short_table(&rows);
            }
        }
    }
    assert!(accepted > 5000, "{accepted}");
}

fn short_table(rows: &[u8]) {
    let mut variables = [0; 16];
    variables[1] = 1;
    let pair = Pair::new(rows, variables);
    let (_, whole) = pair.struck(9, None);
    for k in 0..whole.steps {
        unstruck_is_the_sources(&pair, k);
        jumps_at(&pair, k, 12);
    }
}
