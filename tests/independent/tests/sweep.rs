//! The whole sweep: counts worked out by hand; on random programs and every short table
//! the sum of the four, the second call, and another sweep, which strikes only where no
//! guard is between; the buffers.

mod between;
mod edge;
mod letters;

use between::wide;
use edge::overflows;
use independent::by_name::{add, equal, functions, set, take, values, ELSE, END};
use independent::hardened_run::{spans_of, HardenedRun};
use independent::line::{self, Line};
use independent::machine::{Outcome, Variables};
use independent::program::Program;
use independent::random::Random;
use independent::replay_sweep::some_budget;
use independent::row;
use independent::sweep::Counts;
use independent::{check, damage, limits, overflow_programs, run_hardened, sweep_programs};
use independent::{sweep, sweep_other, Swept, SweptOther};

/// v1 = 1, all else 0
const VALUES: Variables = [0, 1, 0, 0, 0, 0, 0, 0, 0, 0, 0, 0, 0, 0, 0, 0];

/// The counts with enough slots and words, and that the second call says the same.
fn counts(lines: &[u8], variables: &Variables, budget: u16) -> [u32; 4] {
    let mut slots = vec![9999; usize::from(budget)];
    let mut words = vec![7; 1024];
    let swept = sweep(lines, variables, budget, &mut slots, &mut words);
    let found = sweep_other(lines, variables, budget, &mut slots, &mut words);
    assert_eq!((swept.number, found.number), (0, 0));
    let Counts { alarms, same, other, unfinished } = swept.counts;
    assert_eq!(found.found, other > 0);
    [alarms, same, other, unfinished]
}

/// The number of both calls, which must be a refusal with zeros.
fn refused(lines: &[u8], budget: u16, slots: &mut [u16], words: &mut [u16]) -> u8 {
    let Swept { number, counts } = sweep(lines, &VALUES, budget, slots, words);
    assert_eq!(counts, Counts::default());
    let other = sweep_other(lines, &VALUES, budget, slots, words);
    assert_eq!(other, SweptOther { number, found: false });
    number
}

/// 12 steps of 8 places. A run with row 1 left out takes 3 steps, with row 1 done twice 13;
/// with row 3 left out of either round 15 and the same trace, with row 3 done twice in the
/// first round 9 and the same trace, in the second it overflows. Place 3 is before row 3,
/// which overflows while v0 is 0: at step 0 and from step 8 on, of which step 8 is the do
/// done twice. With the budget 12 one late alarm is not met, that of step 11 to place 0.
#[test]
fn the_listing() {
    let lines = damage::hardened(&limits::worked_listing());
    for (budget, expected) in [
        (12, [73, 13, 1, 9]),
        (13, [74, 13, 2, 7]),
        (14, [74, 13, 2, 7]),
        (15, [74, 15, 2, 5]),
        (20, [74, 15, 2, 5]),
        (65_535, [74, 15, 2, 5]),
    ] {
        assert_eq!(counts(&lines, &VALUES, budget), expected);
    }
    for budget in 0..=11 {
        let (mut slots, mut words) = (vec![5; 11], vec![5; 1024]);
        assert_eq!(refused(&lines, budget, &mut slots, &mut words), 13);
    }
}

/// f d . : do, tick, ret. Step 0: same, do left out, alarm, alarm. Step 1: do done twice,
/// same, alarm, alarm. Step 2: late alarm, alarm, same, alarm.
#[test]
fn one_do() {
    let lines = damage::hardened(&letters::rows("fd."));
    for budget in [4, 5, 9, 65_535] {
        assert_eq!(counts(&lines, &VALUES, budget), [7, 3, 2, 0]);
    }
    // not met: the late alarm, in step 3, and the end of the run of 4 steps
    assert_eq!(counts(&lines, &VALUES, 3), [6, 3, 1, 2]);
}

/// Nothing but a ret: place 1 is the host's.
#[test]
fn nothing() {
    let lines = damage::hardened(&letters::rows("f."));
    assert_eq!(counts(&lines, &VALUES, 1), [1, 1, 0, 0]);
    assert_eq!(counts(&lines, &VALUES, 2), [1, 1, 0, 0]);
}

/// Function 0 has 3 lines and so 4 places, function 1 has 2 places, the second of which is
/// m with two open: the alarm comes at the back. With a do in function 1 there are 4, and
/// of the 3 steps there the first two cross it.
#[test]
fn a_call() {
    let call = [9, 0, 0, 0, 1, 0];
    let of = |callee: &str| {
        let rows = [&letters::rows("f")[..], &call, &letters::rows(&format!(".{callee}"))].concat();
        damage::hardened(&rows)
    };
    for budget in [4, 5, 30] {
        assert_eq!(counts(&of("f."), &VALUES, budget), [3 + 1 + 3 + 3, 4, 0, 0]);
    }
    // steps 1 to 3 are do, tick and ret of function 1: 12 strikes, 7 of which alarm; step
    // 3 to its do in step 4, which is a step of the run
    for budget in [7, 8, 30] {
        assert_eq!(counts(&of("fd."), &VALUES, budget), [3 + 7 + 3 + 3, 6, 2, 0]);
    }
    // the do done twice takes 7 steps
    assert_eq!(counts(&of("fd."), &VALUES, 6), [3 + 7 + 3 + 3, 6, 1, 1]);
}

/// The listing without its row 1: a do left out is made up for by another round, one done
/// twice by a round less, or it overflows. No other trace.
#[test]
fn made_up_for() {
    let rows = [[1, 0, 0, 0, 0, 0], [5, 1, 0, 0, 0, 0], [2, 3, 0, 1, 0, 0], [6, 0, 0, 0, 0, 0]];
    let lines = damage::hardened(&[rows.concat(), vec![6, 0, 0, 0, 0, 0]].concat());
    let mut values = VALUES;
    values[0] = 2;
    // 2 rounds of test, do, tick, leave, then test and ret: 10 steps of 6 places. 4 narrow
    // jumps, the last of which overflows; so do the three steps behind it, to place 1
    assert_eq!(counts(&lines, &values, 20), [60 - 14 - 3, 13, 0, 1 + 3]);
}

/// A do left out of the recursion that takes 16 functions opens a 17th: outcome 3. Once v0
/// is 0 the do overflows, in whichever function it is landed before.
#[test]
fn too_many_open() {
    let lines = damage::hardened(&limits::recursion());
    let mut values = VALUES;
    values[0] = 15;
    let budget = 400;
    let [_, _, other, unfinished] = counts(&lines, &values, budget);
    let ends = |jumps: &[(u16, u16)], expected: u8| {
        for (k, place) in jumps {
            let (mut slots, mut words) = (vec![0; 400], vec![0; 1024]);
            let ran = run_hardened(&lines, &values, budget, *k, *place, &mut slots, &mut words);
            assert_eq!(ran.outcome, expected);
        }
    };
    // test, do, tick, call: each of the 15 dos left out
    let left_out: Vec<(u16, u16)> = (0..15).map(|round| (4 * round + 1, 2)).collect();
    ends(&left_out, 3);
    // the last one done twice, in step 58, and the 48 steps behind it to its place
    let at_zero: Vec<(u16, u16)> = (58..107).map(|step| (step, 1)).collect();
    ends(&at_zero, 5);
    // done twice otherwise: a call less makes up for it
    let twice: Vec<(u16, u16)> = (0..14).map(|round| (4 * round + 2, 1)).collect();
    ends(&twice, 1);
    assert_eq!((other, unfinished), (0, 15 + 49));
}

/// A do alone, as in `one_do`. With the second number it overflows where it is done again:
/// by the narrow jump of step 1 and the wide one of step 2, which with the budget 3 comes
/// in the last budgeted step. With the first it does not.
#[test]
fn at_the_edge() {
    for (what, fits, overflows, v1) in [
        (add(0, 1), 65_533, 65_534, 1),
        (add(0, 1), 1, 2, 32_767),
        (add(0, 0), 16_383, 32_767, 0),
        (take(0, 1), 2, 1, 1),
        (take(0, 1), 65_534, 65_533, 32_767),
    ] {
        let lines = damage::hardened(&functions(&[&[what]]));
        for budget in [4, 9, 65_535] {
            assert_eq!(counts(&lines, &values(&[(0, fits), (1, v1)]), budget), [7, 3, 2, 0]);
            assert_eq!(counts(&lines, &values(&[(0, overflows), (1, v1)]), budget), [6, 3, 1, 2]);
        }
        assert_eq!(counts(&lines, &values(&[(0, fits), (1, v1)]), 3), [6, 3, 1, 2]);
        assert_eq!(counts(&lines, &values(&[(0, overflows), (1, v1)]), 3), [6, 3, 1, 2]);
    }
    let lines = damage::hardened(&functions(&[&[take(0, 0)]]));
    assert_eq!(counts(&lines, &values(&[(0, 65_535)]), 4), [7, 3, 2, 0]);
}

/// test, do, tick, leave, of the else part do, tick, leave, then do, tick, ret: 7 steps of
/// 11 places. The do of the else part, place 4, overflows at every step; that of the then
/// part, place 1, from step 2 on. Of the three other narrow jumps the last one takes 8
/// steps, and a late alarm comes in step 7: with the budget 7 neither is met.
#[test]
fn a_part_that_is_not_taken() {
    let rows = [equal(row::IF, 0, 1), take(1, 2), ELSE, add(3, 4), END, set(5, 9)];
    let lines = damage::hardened(&functions(&[&rows]));
    let variables = values(&[(0, 1), (1, 7), (2, 7), (3, 65_535), (4, 1)]);
    for budget in [8, 30] {
        assert_eq!(counts(&lines, &variables, budget), [77 - 22, 7, 3, 7 + 5]);
    }
    assert_eq!(counts(&lines, &variables, 7), [77 - 23, 7, 2, 7 + 5 + 2]);
}

/// Before a step of the unstruck run: function and place, how many are open, and the
/// variables.
struct Step {
    function: usize,
    place: usize,
    open: usize,
    variables: Variables,
}

/// The steps of the unstruck run, if it finishes.
fn steps(lines: &[Line], variables: &Variables, budget: u16) -> Option<Vec<Step>> {
    let mut run = HardenedRun::new(lines, *variables);
    let mut steps = Vec::new();
    for step in 1..=budget {
        let frame = run.frames.last().unwrap();
        let (function, place, open) = (frame.function, frame.place, run.frames.len());
        steps.push(Step { function, place, open, variables: run.variables });
        match run.run(step, None) {
            Outcome::BudgetSpent => {}
            outcome => return (outcome == Outcome::Finished).then_some(steps),
        }
    }
    None
}

/// Which count a wide jump before step k to this place goes to, by 01's rule for the step
/// of the alarm and 02's for a do that overflows.
fn wide_jump(function: &[Line], k: usize, step: &Step, place: usize, budget: u16) -> usize {
    let late = match function.get(place) {
        Some(line) if overflows(line, &step.variables) => return 3,
        Some(line) => !line.is_guard(),
        None => step.open > 1,
    };
    let alarm_step = k + usize::from(late);
    if alarm_step < usize::from(budget) {
        0
    } else {
        3
    }
}

/// Which of the four counts a narrow jump goes to, by a run; never the alarms.
fn narrow(lines: &[u8], variables: &Variables, budget: u16, k: usize, place: usize) -> usize {
    let mut words = vec![0; 1024];
    let mut run = |k: u16, place: u16| {
        let mut slots = vec![0; usize::from(budget)];
        let ran = run_hardened(lines, variables, budget, k, place, &mut slots, &mut words);
        slots.truncate(usize::from(ran.traced));
        (ran.outcome, slots)
    };
    let unstruck = run(65_535, 0);
    let struck = run(k as u16, place as u16);
    assert_ne!(struck.0, 2);
    match struck {
        (1, trace) if trace == unstruck.1 => 1,
        (1, _) => 2,
        _ => 3,
    }
}

/// The counts by the rules for wide jumps, and by runs for the others.
fn by_the_rule(bytes: &[u8], variables: &Variables, budget: u16) -> Option<[u32; 4]> {
    let lines = line::from_bytes(bytes);
    let spans = spans_of(&lines);
    let mut counts = [0; 4];
    for (k, step) in steps(&lines, variables, budget)?.iter().enumerate() {
        let span = spans[step.function];
        let function = &lines[span.first..span.first + span.m];
        for place in 0..=span.m {
            let which = if place == step.place {
                1
            } else if wide(function, step.place, place) {
                wide_jump(function, k, step, place, budget)
            } else {
                narrow(bytes, variables, budget, k, place)
            };
            counts[which] += 1;
        }
    }
    Some(counts)
}

/// "The four add up to the sum, over the steps, of the places then open to a jump."
fn places(bytes: &[u8], variables: &Variables, budget: u16) -> u32 {
    let lines = line::from_bytes(bytes);
    let spans = spans_of(&lines);
    let steps = steps(&lines, variables, budget).unwrap();
    steps.iter().map(|step| spans[step.function].m as u32 + 1).sum()
}

/// Both sweeps, and the sum; the counts if the run finishes.
fn agree(bytes: &[u8], variables: &Variables, budget: u16) -> Option<[u32; 4]> {
    let Some(expected) = by_the_rule(bytes, variables, budget) else {
        let (mut slots, mut words) = (vec![3; usize::from(budget)], vec![3; 1024]);
        let swept = sweep(bytes, variables, budget, &mut slots, &mut words);
        assert_eq!(swept, Swept { number: 13, counts: Counts::default() });
        return None;
    };
    let counts = counts(bytes, variables, budget);
    assert_eq!(counts, expected);
    assert_eq!(counts.iter().sum::<u32>(), places(bytes, variables, budget));
    Some(counts)
}

#[test]
fn programs_by_hand() {
    let finishing = overflow_programs::finishing();
    for Program { rows, variables } in sweep_programs::by_hand().into_iter().chain(finishing) {
        let lines = damage::hardened(&rows);
        for budget in 0..130 {
            agree(&lines, &variables, budget);
        }
    }
    let overflowing = overflow_programs::overflowing();
    for Program { rows, variables } in
        sweep_programs::never_finished().into_iter().chain(overflowing)
    {
        assert_eq!(agree(&damage::hardened(&rows), &variables, 1000), None);
    }
}

#[test]
fn random_programs() {
    let mut rng = Random::new(4);
    let mut met = [0; 5];
    for _ in 0..4000 {
        let (program, steps) = sweep_programs::random(&mut rng);
        let budget = some_budget(&mut rng, steps);
        match agree(&damage::hardened(&program.rows), &program.variables, budget) {
            Some(counts) => (0..4).for_each(|at| met[at] += usize::from(counts[at] > 0)),
            None => met[4] += 1,
        }
    }
    assert!(met.iter().all(|count| *count > 200), "{met:?}");
}

/// Every table of up to seven rows over nine sorts of them.
#[test]
fn every_short_table() {
    let alphabet: Vec<char> = "fdielbca.".chars().collect();
    let mut accepted = 0;
    for length in 0..=5_u32 {
        for code in 0..9_usize.pow(length) {
            let letter = |at| alphabet[code / 9_usize.pow(at) % 9];
            let inner: String = (0..length).map(letter).collect();
            let rows = letters::rows(&format!("f{inner}."));
            if check(&rows) == 0 {
                accepted += 1;
                short_table(&damage::hardened(&rows));
            }
        }
    }
    assert!(accepted > 700, "{accepted}");
}

/// With v15 = 1 a do counts v0 up: an if is taken at 1, a loop ends at 3.
fn short_table(lines: &[u8]) {
    for v0 in 0..3 {
        let mut values = [0; 16];
        (values[0], values[15]) = (v0, 1);
        for budget in 0..20 {
            agree(lines, &values, budget);
        }
    }
}
