//! Sums that overflow (02, No. 5): the worked cases, the edges of the two ops, and runs by
//! hand, in both forms and struck.

use independent::by_name::{functions, of, set, values};
use independent::hardened_run::HardenedRun;
use independent::machine::{do_it, Outcome, Variables};
use independent::program::Program;
use independent::row::Row;
use independent::source_run::SourceRun;
use independent::{
    damage, limits, line, overflow_programs, run_hardened, run_source, sweep, table,
};
use independent::{Ran, Swept};

const NO_JUMP: u16 = 65_535;

/// What a run answers, and its trace; the slots behind it are as they were.
type Told = (u8, u16, Vec<u16>, Variables);

fn told(ran: Ran, mut slots: Vec<u16>) -> Told {
    assert_eq!(ran.number, 0);
    assert!(slots[usize::from(ran.traced)..].iter().all(|slot| *slot == 9999));
    slots.truncate(usize::from(ran.traced));
    (ran.outcome, ran.steps, slots, ran.variables)
}

fn source(program: &Program, budget: u16) -> Told {
    let mut slots = vec![9999; usize::from(budget)];
    told(run_source(&program.rows, &program.variables, budget, &mut slots), slots)
}

fn struck(program: &Program, budget: u16, k: u16, place: u16) -> Told {
    let lines = damage::hardened(&program.rows);
    let (mut slots, mut words) = (vec![9999; usize::from(budget)], vec![7; 1030]);
    let Program { variables, .. } = program;
    let ran = run_hardened(&lines, variables, budget, k, place, &mut slots, &mut words);
    assert_eq!((&words[..1024], &words[1024..]), (&[0; 1024][..], &[7; 6][..]));
    told(ran, slots)
}

fn hardened(program: &Program, budget: u16) -> Told {
    struck(program, budget, NO_JUMP, 0)
}

fn listing(v1: u16) -> Program {
    of(limits::worked_listing(), &[(1, v1)])
}

/// 2 - 3 in the source's step 3: do, test, do; hardened do, tick, test, do.
#[test]
fn the_worked_runs() {
    let after = values(&[(0, 2), (1, 3)]);
    for budget in [3, 4, 20, 500] {
        assert_eq!(source(&listing(3), budget), (5, 3, vec![1], after));
    }
    for budget in [4, 5, 20, 500] {
        assert_eq!(hardened(&listing(3), budget), (5, 4, vec![1], after));
    }
    assert_eq!(source(&listing(3), 2), (0, 2, vec![1], after));
    assert_eq!(hardened(&listing(3), 3), (0, 3, vec![1], after));
}

/// v0 is still 0 where the do comes first.
#[test]
fn the_worked_jump() {
    let after = values(&[(1, 1)]);
    for budget in [1, 2, 20] {
        assert_eq!(struck(&listing(1), budget, 0, 3), (5, 1, vec![], after));
    }
    assert_eq!(struck(&listing(1), 0, 0, 3), (0, 0, vec![], after));
    // v0 is 2 at step 1, and 2 - 1 is done; then the tick raises the alarm
    let done = values(&[(0, 1), (1, 1)]);
    assert_eq!(struck(&listing(1), 20, 1, 3), (2, 3, vec![1, 3], done));
    assert_eq!(struck(&listing(1), 2, 1, 3), (0, 2, vec![1, 3], done));
}

#[test]
fn the_worked_sweep() {
    let lines = damage::hardened(&limits::worked_listing());
    let (mut slots, mut words) = ([0; 20], [0; 1024]);
    let Swept { number, counts } = sweep(&lines, &listing(1).variables, 20, &mut slots, &mut words);
    let counted = [counts.alarms, counts.same, counts.other, counts.unfinished];
    assert_eq!((number, counted), (0, [74, 15, 2, 5]));
    // the unstruck run ends with 5
    let swept = sweep(&lines, &listing(3).variables, 20, &mut slots, &mut words);
    assert_eq!(swept.number, 13);
}

/// Each op on numbers around the edges, with q another variable and the same one.
#[test]
fn the_edges_of_a_do() {
    let numbers = [0, 1, 2, 32_767, 32_768, 32_769, 65_534, 65_535];
    for vp in numbers {
        for vq in numbers {
            let v = values(&[(3, vp), (9, vq)]);
            let after = |result: Option<u16>| {
                result.map(|vp| values(&[(3, vp), (9, vq)])).ok_or(Outcome::Overflow)
            };
            assert_eq!(do_it(0, 3, 0, vq, &v), after(Some(vq)));
            assert_eq!(do_it(1, 3, 9, 0, &v), after(Some(vq)));
            assert_eq!(do_it(2, 3, 9, 0, &v), after(vp.checked_add(vq)));
            assert_eq!(do_it(3, 3, 9, 0, &v), after(vp.checked_sub(vq)));
            assert_eq!(do_it(2, 3, 3, 0, &v), after(vp.checked_mul(2)));
            assert_eq!(do_it(3, 3, 3, 0, &v), after(Some(0)));
        }
    }
}

/// A do, v0 and v1, and what v0 gets; none where it overflows.
const ALONE: [(Row, u16, u16, Option<u16>); 14] = [
    (ADD, 65_534, 1, Some(65_535)),
    (ADD, 65_535, 0, Some(65_535)),
    (ADD, 65_535, 1, None),
    (ADD, 32_768, 32_767, Some(65_535)),
    (ADD, 32_768, 32_768, None),
    (DOUBLE, 32_767, 9, Some(65_534)),
    (DOUBLE, 32_768, 9, None),
    (TAKE, 1, 1, Some(0)),
    (TAKE, 0, 0, Some(0)),
    (TAKE, 0, 1, None),
    (TAKE, 65_534, 65_535, None),
    (TAKE, 65_535, 65_535, Some(0)),
    (TAKE_ALL, 0, 9, Some(0)),
    (TAKE_ALL, 65_535, 9, Some(0)),
];

const ADD: Row = Row { kind: 2, op: 2, p: 0, q: 1, n: 0 };
const DOUBLE: Row = Row { kind: 2, op: 2, p: 0, q: 0, n: 0 };
const TAKE: Row = Row { kind: 2, op: 3, p: 0, q: 1, n: 0 };
const TAKE_ALL: Row = Row { kind: 2, op: 3, p: 0, q: 0, n: 0 };

/// A do alone: 2 steps, 3 hardened, or it overflows in the first.
#[test]
fn one_do() {
    for (what, v0, v1, result) in ALONE {
        let program = of(functions(&[&[what]]), &[(0, v0), (1, v1)]);
        let before = program.variables;
        if let Some(v0) = result {
            let after = values(&[(0, v0), (1, v1)]);
            assert_eq!(source(&program, 9), (1, 2, vec![1], after));
            assert_eq!(hardened(&program, 9), (1, 3, vec![1], after));
        } else {
            for budget in [1, 9] {
                assert_eq!(source(&program, budget), (5, 1, vec![], before));
                assert_eq!(hardened(&program, budget), (5, 1, vec![], before));
            }
        }
        assert_eq!(source(&program, 0), (0, 0, vec![], before));
        assert_eq!(hardened(&program, 0), (0, 0, vec![], before));
    }
}

/// do, tick, ret. Landing before the do once it is done, 65,535 + 1 overflows and 65,534 + 1
/// does not: then the alarm comes one step later, unless the budget ends there.
#[test]
fn one_do_struck() {
    let of = |v0| of(functions(&[&[ADD]]), &[(0, v0), (1, 1)]);
    let v = |v0| values(&[(0, v0), (1, 1)]);
    for budget in [3, 4, 9] {
        assert_eq!(struck(&of(65_534), budget, 2, 0), (5, 3, vec![1], v(65_535)));
    }
    assert_eq!(struck(&of(65_533), 9, 2, 0), (2, 4, vec![1, 1], v(65_535)));
    assert_eq!(struck(&of(65_533), 4, 2, 0), (2, 4, vec![1, 1], v(65_535)));
    assert_eq!(struck(&of(65_533), 3, 2, 0), (0, 3, vec![1, 1], v(65_535)));
    // not struck: the budget ends before the step
    assert_eq!(struck(&of(65_534), 2, 2, 0), (0, 2, vec![1], v(65_535)));
    // no guard between: the do done twice
    assert_eq!(struck(&of(65_534), 9, 1, 0), (5, 2, vec![1], v(65_535)));
    assert_eq!(struck(&of(65_533), 9, 1, 0), (1, 4, vec![1, 1], v(65_535)));
    // no guard between: the do left out, which would overflow
    assert_eq!(struck(&of(65_535), 9, 0, 1), (1, 2, vec![], v(65_535)));
}

/// The run ends there: neither its tick nor the row behind it is reached.
#[test]
fn nothing_behind_it_is_done() {
    let program = of(functions(&[&[set(2, 7), TAKE, set(3, 8)]]), &[(1, 1)]);
    let after = values(&[(1, 1), (2, 7)]);
    assert_eq!(source(&program, 9), (5, 2, vec![1], after));
    assert_eq!(hardened(&program, 9), (5, 3, vec![1], after));
}

/// The steps of a source run that ends with 5, those of the hardened one, the trace and the
/// variables of both.
type Expected = (u16, u16, Vec<u16>, &'static [(usize, u16)]);

/// Of each program by hand that overflows.
fn expected() -> [Expected; 12] {
    let twos = |count: usize| vec![2; count];
    // rows 2 and 3 fifteen times
    let thirty = [2, 3].repeat(15);
    [
        (3, 4, vec![1], &[(0, 2), (1, 3)]),
        (1, 1, vec![], &[(0, 65_535), (1, 1)]),
        (1, 1, vec![], &[(0, 65_535), (1, 65_535)]),
        (1, 1, vec![], &[(1, 1)]),
        (1, 1, vec![], &[(1, 65_535)]),
        (1, 1, vec![], &[(0, 32_768)]),
        // a test, the do
        (2, 2, vec![], &[(0, 65_534), (1, 65_535), (15, 2)]),
        // do, call, do, call, do, do: three ticks, and no back yet
        (6, 9, vec![1, 6, 10], &[(0, 1), (1, 2), (5, 5), (7, 7), (8, 5)]),
        // do, three ifs, do, do: two ticks
        (6, 8, vec![1, 9], &[(0, 50), (1, 49)]),
        // 15 rounds of 4 steps, or 6; a test, the do
        (62, 92, thirty, &[(1, 61_440), (2, 4096), (3, 15), (15, 1)]),
        // 2 times if, do, call, of which the do has a tick; then an if, the do
        (2 * 3 + 2, 2 * 4 + 2, twos(2), &[(0, 1), (1, 2)]),
        (15 * 3 + 2, 15 * 4 + 2, twos(15), &[(0, 1), (1, 2)]),
    ]
}

#[test]
fn programs_by_hand() {
    let programs = overflow_programs::overflowing();
    assert_eq!(programs.len(), expected().len());
    for (program, (steps, longer, trace, given)) in programs.iter().zip(expected()) {
        let after = values(given);
        for budget in [steps, 300] {
            assert_eq!(source(program, budget), (5, steps, trace.clone(), after));
        }
        for budget in [longer, 300] {
            assert_eq!(hardened(program, budget), (5, longer, trace.clone(), after));
        }
        assert_eq!(source(program, steps - 1), (0, steps - 1, trace.clone(), after));
        assert_eq!(hardened(program, longer - 1), (0, longer - 1, trace, after));
    }
}

/// Open functions stay as they are, in both runs: the one that overflows has not returned.
#[test]
fn open_functions() {
    let open = |program: &Program| {
        let table = table::parse(&program.rows).unwrap();
        let mut source = SourceRun::new(&table, program.variables, 300);
        assert_eq!(source.run(), Outcome::Overflow);
        let lines = line::from_bytes(&damage::hardened(&program.rows));
        let mut run = HardenedRun::new(&lines, program.variables);
        assert_eq!(run.run(300, None), Outcome::Overflow);
        let frames: Vec<usize> = run.frames.iter().map(|frame| frame.function).collect();
        assert_eq!(source.open, frames);
        frames
    };
    let programs = overflow_programs::overflowing();
    assert_eq!(open(&programs[0]), [0]);
    assert_eq!(open(&programs[7]), [0, 1, 2]);
    assert_eq!(open(&programs[10]), [0; 3]);
    assert_eq!(open(&programs[11]), [0; 16]);
}

/// The hardened run overflows in step 65,535, the last that a budget holds; the source's
/// before, after an if, 16,383 rounds of three steps, a test and the do.
#[test]
fn the_last_step_of_all() {
    let program = overflow_programs::in_the_last_step_of_all();
    let after = values(&[(1, 65_532), (2, 4)]);
    let trace = vec![4; 16_383];
    assert_eq!(hardened(&program, 65_535), (5, 65_535, trace.clone(), after));
    assert_eq!(hardened(&program, 65_534), (0, 65_534, trace.clone(), after));
    assert_eq!(source(&program, 65_535), (5, 1 + 3 * 16_383 + 2, trace, after));
}

/// A run of 65,535 steps whose sum is 65,535 then: 21,845 rounds of three steps.
#[test]
fn up_to_the_edge_in_the_last_step() {
    let program = of(limits::endless(1), &[(2, 3)]);
    let after = values(&[(1, 65_535), (2, 3)]);
    assert_eq!(source(&program, 65_535), (0, 65_535, vec![2; 21_845], after));
    let program = of(limits::endless(1), &[(1, 1), (2, 3)]);
    let after = values(&[(1, 65_533), (2, 3)]);
    assert_eq!(source(&program, 65_535), (5, 65_534, vec![2; 21_844], after));
}
