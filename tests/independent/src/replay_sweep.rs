//! The files of `independent replay-sweep`: tests of `sweep` and of `sweep_other`.

use crate::calls::COUNTER_WORDS;
use crate::damage;
use crate::limits;
use crate::machine::Variables;
use crate::overflow_programs;
use crate::program::Program;
use crate::protocol::{self, Asked, Test};
use crate::random::Random;
use crate::replay::LINE_LIMIT;
use crate::strikes::unstruck;
use crate::sweep_programs;

/// The fixed tests, then `count` random ones.
pub fn tests(seed: u64, count: usize) -> Vec<Test> {
    let mut rng = Random::new(seed);
    let mut tests = fixed();
    tests.extend((0..count).map(|_| random_test(&mut rng)));
    assert!(tests.iter().all(|t| t.ask.len() < LINE_LIMIT && t.answer.len() < LINE_LIMIT));
    tests
}

/// The budget 65,535 and as many slots, or one fewer: answers that spell all slots
/// are longer than the other lines may be.
pub fn long_tests() -> Vec<Test> {
    let how = |slots| Asked { slots, ..exact(65_535) };
    let mut tests = both(how(65_535), &sweep_programs::listing()).to_vec();
    tests.extend(both(how(65_534), &sweep_programs::listing()));
    tests.extend(both(how(65_535), &by_recursion()));
    tests.extend(both(how(65_535), &never_finished()));
    tests
}

fn by_recursion() -> Program {
    let mut variables = [0; 16];
    (variables[0], variables[1]) = (15, 1);
    Program { rows: limits::recursion(), variables }
}

fn never_finished() -> Program {
    Program { rows: limits::endless(8), variables: [0; 16] }
}

/// As many slots as the budget, 1,024 words.
fn exact(budget: u16) -> Asked {
    Asked { budget, slots: usize::from(budget), words: COUNTER_WORDS }
}

/// The two calls.
fn both(how: Asked, program: &Program) -> [Test; 2] {
    of_bytes(how, &program.variables, &damage::hardened(&program.rows))
}

fn of_bytes(how: Asked, variables: &Variables, lines: &[u8]) -> [Test; 2] {
    [protocol::whole(how, variables, lines), protocol::other(how, variables, lines)]
}

/// The worked budgets, the buffers, damaged bytes, programs by hand, those that never
/// finish, those that overflow or nearly do, large budgets and a large table.
pub fn fixed() -> Vec<Test> {
    let listing = sweep_programs::listing();
    let mut tests = Vec::new();
    for budget in [20, 12, 11].into_iter().chain(0..=20) {
        tests.extend(both(exact(budget), &listing));
    }
    tests.extend(lent(&listing));
    tests.extend(order_of_refusals());
    tests.extend(damaged(&listing));
    sweep_programs::by_hand().iter().for_each(|program| tests.extend(budgets(program)));
    for program in sweep_programs::never_finished() {
        tests.extend([0, 1, 63, 64, 200].into_iter().flat_map(|b| both(exact(b), &program)));
    }
    tests.extend(overflows());
    tests.extend(large(&listing));
    tests
}

/// Programs that finish at an edge, with the budget that they need, one more, and many
/// more; programs that overflow, in and just before that step.
fn overflows() -> Vec<Test> {
    let mut tests = Vec::new();
    for program in overflow_programs::finishing() {
        let steps = sweep_programs::finishes_in(&program, 600).expect("it finishes");
        tests.extend([steps, steps + 1].into_iter().flat_map(|b| both(exact(b), &program)));
        let lines = damage::hardened(&program.rows);
        tests.push(protocol::whole(exact(2 * steps), &program.variables, &lines));
    }
    for program in overflow_programs::overflowing() {
        let steps = unstruck(&damage::hardened(&program.rows), &program.variables, 300).steps;
        tests.extend([steps - 1, 300].into_iter().flat_map(|b| both(exact(b), &program)));
    }
    tests
}

/// Slots equal to the budget, one fewer and more; 1,024 words, fewer and more.
fn lent(program: &Program) -> Vec<Test> {
    let mut tests = Vec::new();
    for (budget, slots) in
        [(20, 20), (20, 19), (20, 21), (20, 40), (20, 0), (12, 12), (12, 11), (12, 3), (12, 13)]
    {
        for words in [1024, 1023, 1025, 1100, 0] {
            tests.extend(both(Asked { budget, slots, words }, program));
        }
    }
    tests
}

/// 10, then 9, then 13: each alone, with one of the others, with both.
fn order_of_refusals() -> Vec<Test> {
    let right = damage::hardened(&limits::worked_listing());
    let variables = sweep_programs::listing().variables;
    let mut tests = Vec::new();
    for lines in [&right[..], &right[20..], &right[..139], &[]] {
        for budget in [20, 11, 1, 0] {
            let slots = usize::from(budget);
            for (slots, words) in [(slots, 1024), (slots / 2, 1024), (slots, 1023), (slots + 3, 7)]
            {
                tests.extend(of_bytes(Asked { budget, slots, words }, &variables, lines));
            }
        }
    }
    tests
}

/// The first byte of each line changed, and its last field; bytes that are another
/// table's, which is swept.
fn damaged(program: &Program) -> Vec<Test> {
    let right = damage::hardened(&program.rows);
    let mut tests = Vec::new();
    for line in 0..7 {
        for at in [0, 4, 9, 10, 18] {
            let mut lines = right.clone();
            lines[20 * line + at] ^= 1;
            tests.push(protocol::whole(exact(20), &program.variables, &lines));
        }
    }
    tests
}

/// Budgets around the steps of the run, at which late alarms are not met, and others.
fn budgets(program: &Program) -> Vec<Test> {
    let steps = sweep_programs::finishes_in(program, 600).expect("it finishes");
    let lines = damage::hardened(&program.rows);
    let mut tests = Vec::new();
    for budget in [steps - 1, steps, steps + 1, steps + 2, 2 * steps] {
        tests.push(protocol::whole(exact(budget), &program.variables, &lines));
    }
    for budget in [steps - 1, steps, 2 * steps] {
        tests.push(protocol::other(exact(budget), &program.variables, &lines));
    }
    let more = Asked { slots: usize::from(3 * steps) + 5, ..exact(3 * steps) };
    tests.push(protocol::whole(more, &program.variables, &lines));
    tests
}

/// The budget 65,535 with fewer slots; 5,000 steps for a run of 12; a table of 1,024 rows
/// of which few run.
fn large(program: &Program) -> Vec<Test> {
    let mut tests = Vec::new();
    for slots in [0, 12, 300] {
        tests.extend(both(Asked { slots, ..exact(65_535) }, program));
        let how = Asked { slots, ..exact(65_535) };
        tests.extend(of_bytes(how, &program.variables, &[0x28; 20]));
    }
    tests.extend(both(exact(5000), program));
    let table = Program { rows: limits::rows_of_all_sorts(1024), variables: [0; 16] };
    tests.push(protocol::whole(exact(9), &table.variables, &damage::hardened(&table.rows)));
    tests
}

/// A random program, mostly with a budget in which it finishes and buffers that do.
fn random_test(rng: &mut Random) -> Test {
    let (program, steps) = sweep_programs::random(rng);
    let budget = some_budget(rng, steps);
    let how = some_buffers(rng, budget);
    let lines = damage::hardened(&program.rows);
    let lines = if rng.percent(4) { damage::any(rng, &lines) } else { lines };
    match rng.percent(50) {
        true => protocol::whole(how, &program.variables, &lines),
        false => protocol::other(how, &program.variables, &lines),
    }
}

/// The steps of the run, one less, a few more, up to three times as many; small ones
/// where it never finishes.
pub fn some_budget(rng: &mut Random, steps: Option<u16>) -> u16 {
    let Some(steps) = steps else {
        return rng.word() % 150;
    };
    match rng.below(20) {
        0..=5 => steps,
        6 => steps - 1,
        7..=12 => steps + 1 + rng.word() % 4,
        _ => steps + rng.word() % (2 * steps + 1),
    }
}

/// Mostly as many slots as the budget and 1,024 words, sometimes more, now and then too
/// few.
fn some_buffers(rng: &mut Random, budget: u16) -> Asked {
    let exact = usize::from(budget);
    let slots = match rng.below(100) {
        0..=1 => exact.saturating_sub(1),
        2 => exact / 2,
        3..=24 => exact + rng.between(1, 20),
        _ => exact,
    };
    let words = match rng.below(100) {
        0..=1 => 1023,
        2 => rng.below(1023),
        3..=14 => rng.between(1025, 1100),
        _ => COUNTER_WORDS,
    };
    Asked { budget, slots, words }
}
