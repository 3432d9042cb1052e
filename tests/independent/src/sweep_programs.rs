//! Programs to sweep: by hand, each for a way that a struck run can end, and random ones
//! whose runs are short enough to be struck everywhere.

use crate::by_name::{add, call, copy, differs, equal, functions, less, of, set, take, ELSE, END};
use crate::damage;
use crate::limits;
use crate::line::{self, LINE_BYTES};
use crate::program::{self, Program};
use crate::random::Random;
use crate::row::{self, Row};
use crate::sweep::Sweep;
use crate::switch_limits;

/// A random program has at most so many lines, and its run so many steps.
const MOST_LINES: usize = 120;
const MOST_STEPS: u16 = 300;

/// 01's listing with its first values.
pub fn listing() -> Program {
    of(limits::worked_listing(), &[(1, 1)])
}

/// Programs by hand, all of which finish in a few hundred steps.
pub fn by_hand() -> Vec<Program> {
    let mut programs = vec![listing()];
    programs.extend(straight());
    programs.extend(loops());
    programs.extend(calls());
    programs.extend(recursions());
    programs.extend(wide_tables());
    programs
}

/// No loop: a do left out or done twice always shows in the trace, whatever it does.
fn straight() -> Vec<Program> {
    let one = set(0, 5);
    let either = [set(0, 1), equal(row::IF, 0, 1), set(1, 2), ELSE, set(1, 3), set(2, 4), END];
    let alike = [add(0, 15), equal(row::IF, 0, 1), add(1, 0), ELSE, add(1, 0), END, copy(3, 1)];
    vec![
        of(functions(&[&[]]), &[]),
        of(functions(&[&[one]]), &[]),
        of(functions(&[&[one, one, copy(1, 0), copy(1, 0)]]), &[]),
        of(functions(&[&either]), &[]),
        of(functions(&[&alike]), &[(15, 1)]),
        of(limits::rows(24), &[(3, 9), (7, 65_535)]),
        of(switch_limits::worked_switch(), &[(0, 10)]),
        of(switch_limits::worked_switch(), &[(0, 50)]),
        of(switch_limits::worked_switch(), &[(0, 200)]),
    ]
}

/// Loops whose rounds make up for a do that is left out, so that the trace is the same;
/// that take a round more; that never end.
fn loops() -> Vec<Program> {
    let down = [differs(row::LOOP, 0, 0), take(0, 1), END];
    let up = [less(row::LOOP, 0, 1), add(0, 15), END];
    let once = [differs(row::LOOP, 0, 0), set(0, 0), END];
    let set_first = [set(1, 1), differs(row::LOOP, 0, 0), take(0, 1), add(2, 0), END];
    let both = [down, [less(row::LOOP, 2, 3), add(2, 15), END]].concat();
    let exits = [
        equal(row::LOOP, 9, 0),
        add(0, 15),
        equal(row::IF, 0, 4),
        Row::plain(row::BREAK),
        set(5, 5),
        END,
        equal(row::IF, 0, 2),
        Row::plain(row::CONTINUE),
        END,
        add(1, 0),
        END,
    ];
    let nested = [
        less(row::LOOP, 0, 1),
        set(2, 2),
        differs(row::LOOP, 2, 0),
        take(2, 15),
        END,
        add(0, 15),
        END,
    ];
    vec![
        of(functions(&[&down]), &[(0, 3), (1, 1)]),
        of(functions(&[&down]), &[(0, 4), (1, 2)]),
        of(functions(&[&up]), &[(1, 4), (15, 1)]),
        of(functions(&[&up]), &[(1, 5), (15, 2)]),
        of(functions(&[&once]), &[(0, 9)]),
        of(functions(&[&set_first]), &[(0, 2)]),
        of(functions(&[&both]), &[(0, 2), (1, 1), (3, 2), (15, 1)]),
        of(functions(&[&exits]), &[(15, 1)]),
        of(functions(&[&nested]), &[(1, 3), (15, 1)]),
        of(switch_limits::bands(), &[(15, 1)]),
    ]
}

/// Place m with more functions open: in a function that is called once, twice, from
/// another, in a loop; functions that nothing calls; a callee that decides its caller's
/// way.
fn calls() -> Vec<Program> {
    let one = set(4, 44);
    let asks = [call(1), equal(row::IF, 0, 1), call(1), ELSE, one, END];
    let in_loop = [differs(row::LOOP, 0, 0), call(1), END, add(3, 15)];
    vec![
        of(functions(&[&[call(1)], &[]]), &[]),
        of(functions(&[&[call(1)], &[one]]), &[]),
        of(functions(&[&[call(1), call(1)], &[one]]), &[]),
        of(functions(&[&[call(2), one], &[one], &[call(1), one]]), &[]),
        of(functions(&[&asks, &[add(0, 15)]]), &[(15, 1)]),
        of(functions(&[&in_loop, &[take(0, 15)]]), &[(0, 3), (15, 1)]),
        of(functions(&[&[one], &[call(1)], &[one, one, one]]), &[]),
        of(limits::functions(16), &[]),
    ]
}

/// Function 0 is open more than once. With 15 calls a do left out opens a 17th function
/// and the run ends with outcome 3.
fn recursions() -> Vec<Program> {
    let even = [differs(row::IF, 0, 0), take(0, 1), call(1), END];
    let odd = [add(2, 1), call(0), add(2, 1)];
    let twice = [differs(row::IF, 0, 0), take(0, 1), call(0), call(0), END];
    let recursion = |calls| of(limits::recursion(), &[(0, calls), (1, 1)]);
    vec![
        recursion(0),
        recursion(1),
        recursion(3),
        recursion(15),
        of(functions(&[&even, &odd]), &[(0, 3), (1, 1)]),
        of(functions(&[&even, &odd]), &[(0, 7), (1, 1)]),
        of(functions(&[&twice]), &[(0, 3), (1, 1)]),
    ]
}

/// Many places for few steps, many regions, much open.
fn wide_tables() -> Vec<Program> {
    vec![
        of(limits::open(16, &[row::IF]), &[]),
        of(limits::open_in_else(16), &[]),
        of(limits::regions(30, row::LOOP), &[]),
        of(limits::regions_with_else(31), &[(0, 7)]),
    ]
}

/// Programs whose runs never finish: by the budget, and by outcome 3. (By outcome 5 they
/// are in `overflow_programs`.)
pub fn never_finished() -> Vec<Program> {
    vec![
        of(limits::endless(1), &[]),
        of(limits::endless(8), &[(1, 3)]),
        of(limits::recursion(), &[(0, 16), (1, 1)]),
        of(limits::recursion(), &[(0, 65_535)]),
        of(limits::functions(17), &[]),
    ]
}

/// A loop of 120 rounds over five dos, of which nearly every narrow jump gives another
/// trace: more than 65,536 characters where they are listed.
pub fn long_list() -> Program {
    let body = [add(0, 15), add(2, 0), copy(3, 2), add(4, 0), take(5, 15)];
    let rows = [&[less(row::LOOP, 0, 1)], &body[..], &[END]].concat();
    of(functions(&[&rows]), &[(1, 120), (5, 1000), (15, 1)])
}

/// The steps of an unstruck run that finishes in so many.
pub fn finishes_in(program: &Program, most: u16) -> Option<u16> {
    let lines = line::from_bytes(&damage::hardened(&program.rows));
    Sweep::new(&lines, program.variables, most).map(|sweep| sweep.steps())
}

/// A random program, and the steps that its run takes if it finishes, as most do.
pub fn random(rng: &mut Random) -> (Program, Option<u16>) {
    loop {
        let program = candidate(rng);
        if damage::hardened(&program.rows).len() > MOST_LINES * LINE_BYTES {
            continue;
        }
        match finishes_in(&program, MOST_STEPS) {
            // a few steps say little
            Some(1..=6) if rng.percent(70) => {}
            None if rng.percent(95) => {}
            steps => return (program, steps),
        }
    }
}

fn candidate(rng: &mut Random) -> Program {
    match rng.below(10) {
        0..=2 => counting(rng),
        3..=7 => {
            let size = rng.between(4, 20);
            program::program(rng, size)
        }
        _ => {
            let size = rng.between(20, 60);
            program::program(rng, size)
        }
    }
}

/// Loops and calls of loops with nothing in them but the count: the traces of struck runs
/// are often the same. Some count just below 65,535, and only up.
fn counting(rng: &mut Random) -> Program {
    let high = rng.percent(30);
    let mut bodies = vec![Vec::new(); rng.between(1, 3)];
    let last = bodies.len() - 1;
    for (number, body) in bodies.iter_mut().enumerate() {
        for _ in 0..rng.between(1, 2) {
            body.extend(count(rng, high));
        }
        if number < last {
            body.insert(rng.pick(&[0, body.len()]), call(number as u16 + 1));
        }
    }
    let rows = functions(&bodies.iter().map(|body| &body[..]).collect::<Vec<_>>());
    let mut variables = [0; 16];
    let lowest = if high { 65_532 } else { 0 };
    variables.iter_mut().take(8).for_each(|value| *value = lowest + rng.word() % 4);
    variables[15] = rng.pick(&[1, 1, 1, 1, 2]);
    Program { rows, variables }
}

/// Up to a variable, or if it is not too far down to 0.
fn count(rng: &mut Random, high: bool) -> [Row; 3] {
    let p = rng.byte() % 4;
    match high || rng.percent(50) {
        true => [less(row::LOOP, p, p + 4), add(p, 15), END],
        false => [differs(row::LOOP, p, 0), take(p, 15), END],
    }
}
