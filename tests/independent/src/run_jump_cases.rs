//! Command lines for small jumps, which `run` tells in a line of their own, and for jumps that
//! strike nothing though they would be small: of 01's listing, in called functions, across dos
//! that overflow, in long tables and in long runs.

use crate::by_name::{add, call, equal, functions, of, set, ELSE, END};
use crate::damage;
use crate::hardened_run::{HardenedRun, Jump};
use crate::limits;
use crate::line;
use crate::machine::Outcome;
use crate::overflow_programs;
use crate::program::Program;
use crate::row;
use crate::run_cases::{given, hardened, Case};
use crate::small_jump::befores;
use crate::small_strikes::{across_dos, Across};
use crate::switch_limits;

/// All of them.
pub fn all() -> Vec<Case> {
    let mut cases = listing();
    cases.extend(around_the_step());
    cases.extend(dos());
    cases.extend(overflowing_again());
    cases.extend(overflowing_anyway());
    cases.extend(long_table());
    cases.extend(the_last_steps_of_all());
    cases.extend(turned_away());
    cases
}

/// With and without the words that list more.
const WORDS: [&str; 4] = ["", "show", "trace", "show trace"];

/// 01's listing: both of its dos left out and done twice, and equal places; then across a
/// guard, beyond m, a step that is none, and behind the last of its 12 steps.
fn listing() -> Vec<Case> {
    let lines = damage::hardened(&limits::worked_listing());
    let mut cases = Vec::new();
    for jump in ["0:1", "1:0", "3:4", "4:3", "3:3", "4:6", "0:8", "65535:1"] {
        for words in WORDS {
            cases.push(hardened(&format!("{words} budget=20 v1=1 jump={jump}"), &lines));
        }
    }
    for jump in ["11:6", "12:6", "12:7", "13:6"] {
        cases.push(hardened(&format!("v1=1 jump={jump}"), &lines));
    }
    cases
}

/// The budget ends before the step struck, with it or with the next: of small jumps, and of
/// four across a guard to a do, after which the alarm may come too late for the budget.
fn around_the_step() -> Vec<Case> {
    let lines = damage::hardened(&limits::worked_listing());
    let small = [(0, 1), (1, 0), (3, 4), (4, 3), (3, 3), (6, 2), (7, 4), (8, 3)];
    let wide = [(2, 3), (2, 0), (5, 3), (4, 0)];
    let mut cases = Vec::new();
    for (k, place) in small.into_iter().chain(wide) {
        for budget in k..k + 3 {
            let words = WORDS[cases.len() % WORDS.len()];
            let words = format!("budget={budget} v1=1 jump={k}:{place} {words}");
            cases.push(hardened(&words, &lines));
        }
    }
    cases
}

/// Function 0 calls function 1, which adds 1 to v0, and calls it again if v0 is 1 then.
fn asks() -> Program {
    let caller = [call(1), equal(row::IF, 0, 1), call(1), ELSE, set(4, 44), END];
    of(functions(&[&caller, &[add(0, 15), set(5, 5)]]), &[(15, 1)])
}

/// The dos of functions that are called, of recursions, one of which comes to too many open
/// functions if a do is left out and one in any case, and of a switch in a loop; at every
/// second time also an equal place.
fn dos() -> Vec<Case> {
    let programs = [
        asks(),
        of(limits::recursion(), &[(0, 3), (1, 1)]),
        of(limits::recursion(), &[(0, 15), (1, 1)]),
        of(limits::recursion(), &[(0, 40), (1, 1)]),
        of(switch_limits::bands(), &[(15, 1)]),
    ];
    let mut cases = Vec::new();
    for program in &programs {
        for (number, Across { k, from, to }) in jumps(program).into_iter().take(12).enumerate() {
            cases.push(struck(program, number, k, to));
            if number % 2 == 0 {
                cases.push(struck(program, number / 2, k, from));
            }
        }
    }
    cases
}

/// Every jump across a do, out of the unstruck run's first steps.
fn jumps(program: &Program) -> Vec<Across> {
    let lines = line::from_bytes(&damage::hardened(&program.rows));
    across_dos(&lines, &befores(&lines, program.variables, 120))
}

/// A jump with words and a budget that go by a number: it ends with the step struck, with the
/// next, or later than a short run does.
fn struck(program: &Program, number: usize, k: u16, place: u16) -> Case {
    let words = WORDS[number / 2 % WORDS.len()];
    let budget = [400, k + 1, k + 2][number % 3];
    let values = given(&program.variables);
    let words = format!("{values} jump={k}:{place} {words} budget={budget}");
    hardened(&words, &damage::hardened(&program.rows))
}

/// Dos that overflow when they are done a second time.
fn overflowing_again() -> Vec<Case> {
    let mut cases = Vec::new();
    for program in overflow_programs::finishing() {
        let lines = line::from_bytes(&damage::hardened(&program.rows));
        let overflows = |jump: &Across| {
            let &Across { k, to: place, .. } = jump;
            let mut run = HardenedRun::new(&lines, program.variables);
            run.run(k + 1, Some(Jump { k, place })) == Outcome::Overflow
        };
        for Across { k, to, .. } in jumps(&program).into_iter().filter(overflows) {
            cases.push(struck(&program, cases.len(), k, to));
        }
    }
    cases
}

/// A do that overflows, left out; and with one step more, where the run has ended before it
/// can be struck, the place where it stands then.
fn overflowing_anyway() -> Vec<Case> {
    let mut cases = Vec::new();
    for program in overflow_programs::overflowing() {
        let last = jumps(&program).pop().expect("the run ends with a do");
        cases.push(struck(&program, cases.len(), last.k, last.to));
        cases.push(struck(&program, cases.len(), last.k + 1, last.from));
    }
    cases
}

/// Rows of one to four digits: row R is at step and place 2R - 2.
fn long_table() -> Vec<Case> {
    let lines = damage::hardened(&limits::rows(1024));
    let mut cases = Vec::new();
    for row in [9, 10, 99, 100, 255, 256, 999, 1000, 1022] {
        let (at, behind) = (2 * row - 2, 2 * row - 1);
        cases.push(hardened(&format!("jump={at}:{behind}"), &lines));
        cases.push(hardened(&format!("jump={behind}:{at}"), &lines));
    }
    cases
}

/// Of a loop that never ends, test do tick leave: the last step that a budget holds is a tick.
fn the_last_steps_of_all() -> Vec<Case> {
    let lines = damage::hardened(&limits::endless(1));
    let jumps = ["65534:1", "65534:2", "65533:2", "65533:1", "65534:1 budget=65534"];
    jumps.iter().map(|jump| hardened(&format!("jump={jump}"), &lines)).collect()
}

fn turned_away() -> Vec<Case> {
    let lines = damage::hardened(&limits::worked_listing());
    let behind = &lines[line::LINE_BYTES..];
    ["jump=0:1", "jump=0:0 show"].iter().map(|words| hardened(words, behind)).collect()
}
