//! The files of `independent replay-run`: tests of source runs and hardened
//! runs.

use crate::calls::COUNTER_WORDS;
use crate::damage;
use crate::faults;
use crate::limits;
use crate::machine::{Outcome, Variables, NO_JUMP};
use crate::program::{self, Program};
use crate::protocol::{self, Struck, Test};
use crate::random::Random;
use crate::replay::LINE_LIMIT;
use crate::replay_overflow;
use crate::strikes::{some_slots, some_strike, source_budget, unstruck, word, Standing, Unstruck};
use crate::switch_limits;

/// The fixed tests, then `count` random ones.
pub fn tests(seed: u64, count: usize) -> Vec<Test> {
    let mut rng = Random::new(seed);
    let mut tests = fixed();
    let stop = tests.len() + count;
    let small_programs = tests.len() + count / 2;
    while tests.len() < small_programs {
        tests.extend(every_step_and_place(&small_program(&mut rng)));
    }
    while tests.len() < stop {
        tests.push(random_test(&mut rng));
    }
    tests.truncate(stop);
    assert!(tests.iter().all(|t| t.ask.len() < LINE_LIMIT && t.answer.len() < LINE_LIMIT));
    tests
}

/// Hardened runs with the budget 65,535 and as many slots, and one fewer: their
/// answers spell all slots and are longer than the other lines may be.
pub fn long_tests() -> Vec<Test> {
    let rows = limits::endless(8);
    let lines = damage::hardened(&rows);
    let how = |k, place| Struck { budget: 65_535, k, place, slots: 65_535, words: 1024 };
    let mut tests = [how(NO_JUMP, 3), how(65_534, 1), how(65_534, 19), how(65_533, 0)]
        .map(|how| protocol::hardened(how, &[0; 16], &lines))
        .to_vec();
    let short = Struck { slots: 65_534, ..how(NO_JUMP, 0) };
    tests.push(protocol::hardened(short, &[0; 16], &lines));
    tests.push(protocol::source(65_535, 65_534, &[0; 16], &rows));
    tests
}

/// v1 = 1, all else 0, as in 01's cases.
fn case_values() -> Variables {
    let mut variables = [0; 16];
    variables[1] = 1;
    variables
}

/// An accepted run: as many slots as the budget, 1,024 words.
pub fn simple(budget: u16, k: u16, place: u16) -> Struck {
    Struck { budget, k, place, slots: usize::from(budget), words: COUNTER_WORDS }
}

/// 01's cases, every step and place of the listing, the limits of runs; runs of
/// switches; runs that overflow.
pub fn fixed() -> Vec<Test> {
    let mut tests = cases();
    let listing = Program { rows: limits::worked_listing(), variables: case_values() };
    tests.extend(every_step_and_place(&listing));
    tests.extend(switches());
    tests.extend(recursion());
    tests.extend(buffers());
    tests.extend(budgets());
    tests.extend(numbers_at_the_edge());
    tests.extend(replay_overflow::all());
    tests
}

/// (A) to (J), as far as they are runs.
fn cases() -> Vec<Test> {
    let rows = limits::worked_listing();
    let lines = damage::hardened(&rows);
    let values = case_values();
    let mut tests = vec![protocol::source(20, 20, &values, &rows)];
    for how in [
        simple(20, NO_JUMP, 0),
        simple(20, 4, 6),
        simple(20, 0, 1),
        simple(20, 0, 7),
        simple(20, 0, 8),
        simple(11, NO_JUMP, 0),
    ] {
        tests.push(protocol::hardened(how, &values, &lines));
    }
    let lone = &rows[..6];
    let pair = [&rows[..6], &rows[30..]].concat();
    for table in [&[][..], lone, &pair] {
        tests.push(protocol::source(20, 20, &values, table));
    }
    tests.push(protocol::hardened(simple(20, NO_JUMP, 0), &values, &[]));
    tests.push(protocol::hardened(simple(20, NO_JUMP, 0), &values, &damage::hardened(&pair)));
    tests
}

/// The worked switch each way, with every step and place; a loop over a switch with
/// every budget; a switch of 16 cases at each of them; the deepest of defaults.
fn switches() -> Vec<Test> {
    let with = |v0: u16| {
        let mut variables = [0; 16];
        (variables[0], variables[15]) = (v0, 1);
        variables
    };
    let rows = switch_limits::worked_switch();
    let programs = [10, 50, 200].map(|v0| Program { rows: rows.clone(), variables: with(v0) });
    let mut tests: Vec<Test> = programs.iter().flat_map(every_step_and_place).collect();
    let bands = switch_limits::bands();
    for budget in 0..70 {
        tests.extend(both(budget, &with(0), &bands));
    }
    for v0 in 0..17 {
        tests.extend(both(99, &with(v0), &switch_limits::one_switch(16)));
    }
    tests.extend(both(99, &with(0), &switch_limits::nested_defaults(340)));
    for (rows, _) in switch_limits::all().iter().filter(|(_, number)| *number != 0) {
        tests.push(protocol::source(9, 9, &with(3), rows));
    }
    tests
}

/// A table's run in both forms.
pub fn both(budget: u16, variables: &Variables, rows: &[u8]) -> [Test; 2] {
    [
        protocol::source(budget, usize::from(budget), variables, rows),
        protocol::hardened(simple(budget, NO_JUMP, 0), variables, &damage::hardened(rows)),
    ]
}

/// 16 functions open, and a 17th.
fn recursion() -> Vec<Test> {
    let rows = limits::recursion();
    let lines = damage::hardened(&rows);
    let mut tests = Vec::new();
    for calls in [0, 1, 14, 15, 16, 17, 65_535] {
        let mut values = case_values();
        values[0] = calls;
        for budget in [60, 61, 62, 63, 64, 75, 76, 77, 78, 79, 80, 81, 107, 108, 109, 200] {
            tests.push(protocol::source(budget, usize::from(budget), &values, &rows));
            tests.push(protocol::hardened(simple(budget, NO_JUMP, 0), &values, &lines));
        }
    }
    tests
}

/// Slots equal to the budget, one fewer, one more; 1,023, 1,024 and 1,100 words.
fn buffers() -> Vec<Test> {
    let rows = limits::worked_listing();
    let lines = damage::hardened(&rows);
    let values = case_values();
    let mut tests = Vec::new();
    for (budget, slots) in
        [(20, 20), (20, 19), (20, 21), (0, 0), (0, 3), (1, 1), (1, 0), (9, 9), (9, 8), (9, 3)]
    {
        tests.push(protocol::source(budget, slots, &values, &rows));
        for words in [1024, 1023, 1100, 0] {
            let how = Struck { budget, k: NO_JUMP, place: 0, slots, words };
            tests.push(protocol::hardened(how, &values, &lines));
        }
    }
    // 10 before 9, and 1 to 7 before 9
    let how = Struck { budget: 9, k: 0, place: 0, slots: 3, words: 5 };
    tests.push(protocol::hardened(how, &values, &lines[20..]));
    tests.push(protocol::source(9, 3, &values, &rows[6..]));
    tests
}

/// Budgets from 0 to past the end, and 65,535.
fn budgets() -> Vec<Test> {
    let rows = limits::worked_listing();
    let lines = damage::hardened(&rows);
    let values = case_values();
    let mut tests = Vec::new();
    for budget in 0..=14 {
        tests.push(protocol::source(budget, usize::from(budget), &values, &rows));
        for k in [NO_JUMP, budget, budget + 1] {
            tests.push(protocol::hardened(simple(budget, k, 8), &values, &lines));
        }
    }
    // 65,535 slots fit into a line where most hold row numbers of one digit
    tests.push(protocol::source(65_535, 65_535, &[0; 16], &limits::endless(8)));
    tests.extend(short_of_65535(&values, &rows, &lines));
    tests
}

/// The budget 65,535 with fewer slots: 9, whatever the run would need.
fn short_of_65535(values: &Variables, rows: &[u8], lines: &[u8]) -> Vec<Test> {
    let mut tests = Vec::new();
    for slots in [0, 12, 300] {
        tests.push(protocol::source(65_535, slots, values, rows));
        for k in [NO_JUMP, 65_534, 3] {
            let how = Struck { slots, ..simple(65_535, k, 3) };
            tests.push(protocol::hardened(how, values, lines));
        }
    }
    tests
}

/// Steps and places at the edge of 16 bits.
fn numbers_at_the_edge() -> Vec<Test> {
    let lines = damage::hardened(&limits::worked_listing());
    let values = case_values();
    let mut tests = Vec::new();
    for k in [0, 5, 11, 12, 13, 19, 20, 21, 65_534, 65_535] {
        for place in [0, 7, 8, 9, 255, 256, 65_534, 65_535] {
            tests.push(protocol::hardened(simple(20, k, place), &values, &lines));
        }
    }
    tests
}

/// A program whose hardened run is short. In about a third of them it overflows, in
/// another third it does not and a jump can make it.
fn small_program(rng: &mut Random) -> Program {
    let sort = rng.below(10);
    loop {
        let size = rng.between(4, 9);
        let program = program::program(rng, size);
        let lines = damage::hardened(&program.rows);
        let Unstruck { outcome, steps, standing } = unstruck(&lines, &program.variables, 40);
        let overflows = outcome == Outcome::Overflow;
        let may_overflow = standing.iter().any(|standing| !standing.overflowing.is_empty());
        let wanted = match sort {
            0..=2 => overflows && steps > 1,
            3..=6 => !overflows && may_overflow && steps > 3,
            _ => steps > 3,
        };
        if wanted && steps <= 14 && lines.len() <= 13 * 20 {
            return program;
        }
    }
}

/// Before every step a jump to every place, m + 1 among them, wide and not; then
/// steps that do not come.
fn every_step_and_place(program: &Program) -> Vec<Test> {
    let lines = damage::hardened(&program.rows);
    let variables = &program.variables;
    let Unstruck { steps, standing, .. } = unstruck(&lines, variables, 40);
    let budget = steps + 4;
    let mut tests = vec![
        protocol::source(budget, usize::from(budget), variables, &program.rows),
        protocol::hardened(simple(budget, NO_JUMP, 0), variables, &lines),
        protocol::hardened(simple(budget, steps, 0), variables, &lines),
        protocol::hardened(simple(budget, budget, 0), variables, &lines),
    ];
    for (k, Standing { m, .. }) in standing.iter().enumerate() {
        for place in 0..=m + 1 {
            let how = simple(budget, word(k), word(place));
            tests.push(protocol::hardened(how, variables, &lines));
        }
    }
    tests
}

/// A random program with random values, budget, jump and buffers.
fn random_test(rng: &mut Random) -> Test {
    let size = rng.between(4, 28);
    let program = program::program(rng, size);
    if rng.percent(25) {
        let budget = source_budget(rng, &program.rows, &program.variables);
        let slots = some_slots(rng, budget);
        let rows = if rng.percent(25) { small_fault(rng) } else { program.rows };
        return protocol::source(budget, slots, &program.variables, &rows);
    }
    let lines = damage::hardened(&program.rows);
    let how = some_strike(rng, &lines, &program.variables);
    let bytes = if rng.percent(8) { damage::any(rng, &lines) } else { lines };
    protocol::hardened(how, &program.variables, &bytes)
}

/// A table that is likely to be turned away, and not a large one.
fn small_fault(rng: &mut Random) -> Vec<u8> {
    loop {
        let rows = if rng.percent(30) { faults::mutated(rng) } else { faults::any(rng).0 };
        if rows.len() < 6 * 1024 {
            return rows;
        }
    }
}
