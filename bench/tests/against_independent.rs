//! The implementation that is written for speed answers as tests/independent does.

use finuraho_bench::calls::{
    AnyOther, Baseline, Calls, Measured, Ran, Start, Swept, Wrote, NO_JUMP,
};
use finuraho_bench::compare::Pair;
use finuraho_bench::{programs, sweep_programs};
use independent::random::Random;
use independent::sweep::Counts;

struct Independent;

fn wrote(answer: independent::Written) -> Wrote {
    Wrote { number: answer.number, length: answer.length }
}

fn measured(answer: independent::Measured) -> Measured {
    let independent::Measured { number, lines, regions, value } = answer;
    let lines = lines.try_into().expect("a hardened table has at most 2,048 lines");
    let regions = regions.try_into().expect("a function has at most 64 regions");
    Measured { number, regions, lines, value }
}

fn ran(answer: independent::Ran) -> Ran {
    let independent::Ran { number, outcome, steps, traced, variables } = answer;
    Ran { number, outcome, steps, traced, variables }
}

impl Calls for Independent {
    fn name(&self) -> &'static str {
        "independent"
    }

    fn check(&self, rows: &[u8]) -> u8 {
        independent::check(rows)
    }

    fn measure(&self, rows: &[u8]) -> Measured {
        measured(independent::measure(rows))
    }

    fn harden(&self, rows: &[u8], out: &mut [u8]) -> Wrote {
        wrote(independent::harden(rows, out))
    }

    fn check_hardened(&self, lines: &[u8]) -> u8 {
        // 10 or 0: it comes before 8, so an output that is long enough for any table tells
        independent::read_back(lines, &mut vec![0; programs::MOST_IN]).number
    }

    fn read_back(&self, lines: &[u8], out: &mut [u8]) -> Wrote {
        wrote(independent::read_back(lines, out))
    }

    fn run_source(&self, rows: &[u8], start: &Start, trace: &mut [u16]) -> Ran {
        ran(independent::run_source(rows, &start.variables, start.budget, trace))
    }

    fn run_hardened(
        &self,
        lines: &[u8],
        start: &Start,
        trace: &mut [u16],
        counters: &mut [u16],
    ) -> Ran {
        let Start { variables, budget, step, place } = start;
        ran(independent::run_hardened(lines, variables, *budget, *step, *place, trace, counters))
    }

    fn sweep(&self, lines: &[u8], start: &Start, trace: &mut [u16], counters: &mut [u16]) -> Swept {
        let Start { variables, budget, .. } = start;
        let independent::Swept { number, counts } =
            independent::sweep(lines, variables, *budget, trace, counters);
        let Counts { alarms, same, other, unfinished } = counts;
        Swept { number, alarms, same, other, unfinished }
    }

    fn sweep_other(
        &self,
        lines: &[u8],
        start: &Start,
        trace: &mut [u16],
        counters: &mut [u16],
    ) -> AnyOther {
        let Start { variables, budget, .. } = start;
        let independent::SweptOther { number, found } =
            independent::sweep_other(lines, variables, *budget, trace, counters);
        AnyOther { number, other: found.into() }
    }
}

#[test]
fn random_tables() {
    let mut pair = Pair::new(&Baseline, &Independent);
    pair.random_tables(&mut Random::new(1), 1500).unwrap();
    assert!(pair.tables > 7500);
    println!("{} tables, {} calls", pair.tables, pair.calls);
}

#[test]
fn random_runs() {
    let mut pair = Pair::new(&Baseline, &Independent);
    pair.random_runs(&mut Random::new(2), 3000).unwrap();
    println!("{} programs, {} calls", pair.tables, pair.calls);
}

/// Runs that overflow, and that go up to the edge.
#[test]
fn overflows() {
    let mut pair = Pair::new(&Baseline, &Independent);
    pair.overflows().unwrap();
    println!("{} programs, {} calls", pair.tables, pair.calls);
}

/// Every step and every place of small programs.
#[test]
fn every_jump() {
    let mut rng = Random::new(3);
    let mut pair = Pair::new(&Baseline, &Independent);
    for _ in 0..60 {
        let program = independent::program::program(&mut rng, 12);
        let lines = independent::damage::hardened(&program.rows);
        for step in 0..30 {
            for place in 0..=(lines.len() / 20 + 1) as u16 {
                let start = Start { variables: program.variables, budget: 40, step, place };
                pair.hardened_run(&lines, &start, 40, 1024).unwrap();
            }
        }
    }
    println!("{} runs", pair.calls);
}

/// The inputs that are timed, with the budgets that are timed.
#[test]
fn timed_inputs() {
    let mut pair = Pair::new(&Baseline, &Independent);
    for rows in [programs::mostly_dos(), programs::nested()] {
        assert_eq!((rows.len(), Baseline.check(&rows)), (6144, 0));
        pair.rows(&rows).unwrap();
        pair.lines(&independent::damage::hardened(&rows)).unwrap();
    }
    pair.rows(&programs::switches()).unwrap();
    for program in programs::all() {
        let lines = independent::damage::hardened(&program.rows);
        for budget in [0, 65_534, 65_535] {
            let start = Start::unstruck(program.variables, budget);
            assert_eq!(start.step, NO_JUMP);
            let slots = usize::from(budget);
            pair.source_run(&program.rows, &start, slots).unwrap();
            pair.hardened_run(&lines, &start, slots, 1024).unwrap();
            let (mut trace, mut words) = (vec![0; slots], vec![0; 1024]);
            let source = Baseline.run_source(&program.rows, &start, &mut trace);
            let hardened = Baseline.run_hardened(&lines, &start, &mut trace, &mut words);
            for ran in [source, hardened] {
                assert_eq!((ran.number, ran.outcome, ran.steps), (0, 0, budget));
            }
        }
    }
}

#[test]
fn random_sweeps() {
    let mut pair = Pair::new(&Baseline, &Independent);
    pair.random_sweeps(&mut Random::new(4), 400).unwrap();
    println!("{} programs, {} calls", pair.tables, pair.calls);
}

/// The programs whose sweeps are timed, with fewer rounds where they have many; and which of them
/// have a do that gives another trace.
#[test]
fn timed_sweeps() {
    let mut pair = Pair::new(&Baseline, &Independent);
    for (program, other) in [
        (sweep_programs::tariff(), 1),
        (sweep_programs::rounds(1), 1),
        (sweep_programs::counting(30, 0), 0),
        (sweep_programs::counting(10, 24), 0),
        (sweep_programs::weak_first(20), 1),
    ] {
        let lines = independent::damage::hardened(&program.rows);
        for budget in [600, 1300] {
            let start = Start::unstruck(program.variables, budget);
            pair.sweep(&lines, &start, budget.into(), 1024).unwrap();
        }
        let start = Start::unstruck(program.variables, 1300);
        let found = Baseline.sweep_other(&lines, &start, &mut [0; 1300], &mut [0; 1024]);
        assert_eq!(found, AnyOther { number: 0, other }, "{}", program.name);
    }
}
