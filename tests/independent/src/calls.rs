//! The public calls with the buffers lent to them (01, "What turns a call
//! away"). A refused call changes no buffer; an accepted one leaves what is
//! beyond its answer unchanged.

use crate::harden as hardening;
use crate::hardened_run::{HardenedRun, Jump};
use crate::line::{self, Line};
use crate::machine::{Outcome, Variables, NO_JUMP};
use crate::readback;
use crate::refusal::Refusal;
use crate::source_run::SourceRun;
use crate::sweep::{Counts, Sweep};
use crate::table;

/// "fewer than 1,024 counter words"
pub const COUNTER_WORDS: usize = 1024;

/// What `harden` and `read_back` answer: 0 or the number of the refusal, and the
/// length of the answer in bytes, 0 if refused.
#[derive(Clone, Copy, Debug, PartialEq, Eq)]
pub struct Written {
    pub number: u8,
    pub length: usize,
}

/// "A run answers outcome, steps, trace length and the variables", after its
/// number.
#[derive(Clone, Copy, Debug, PartialEq, Eq)]
pub struct Ran {
    pub number: u8,
    pub outcome: u8,
    pub steps: u16,
    pub traced: u16,
    pub variables: Variables,
}

/// What `sweep` answers: 0 or the number of the refusal, and the four counts, all 0 if
/// refused.
#[derive(Clone, Copy, Debug, PartialEq, Eq)]
pub struct Swept {
    pub number: u8,
    pub counts: Counts,
}

/// What `sweep_other` answers: 0 or the number of the refusal, and "whether the third
/// count is above zero", false if refused.
#[derive(Clone, Copy, Debug, PartialEq, Eq)]
pub struct SweptOther {
    pub number: u8,
    pub found: bool,
}

/// 0, or the number 1 to 7 or 11 that turns the table away.
pub fn check(rows: &[u8]) -> u8 {
    match table::parse(rows) {
        Ok(_) => 0,
        Err(refusal) => refusal.number(),
    }
}

/// Writes the hardened lines of a table: 1 to 7 or 11, then 8.
pub fn harden(rows: &[u8], out: &mut [u8]) -> Written {
    let lines = table::parse(rows).map(|table| line::to_bytes(&hardening::lines(&table)));
    write(lines, out)
}

/// Writes the source table of hardened lines: 10, then 8.
pub fn read_back(lines: &[u8], out: &mut [u8]) -> Written {
    write(readback::source_of(lines), out)
}

/// "output shorter than the answer" gives 8; "bytes and slots beyond the answer
/// unchanged".
fn write(answer: Result<Vec<u8>, Refusal>, out: &mut [u8]) -> Written {
    let fits = answer.and_then(|bytes| match bytes.len() <= out.len() {
        true => Ok(bytes),
        false => Err(Refusal::OutputShort),
    });
    match fits {
        Ok(bytes) => {
            out[..bytes.len()].copy_from_slice(&bytes);
            Written { number: 0, length: bytes.len() }
        }
        Err(refusal) => Written { number: refusal.number(), length: 0 },
    }
}

/// "number, zeros, variables as given"
fn turned_away(refusal: Refusal, variables: &Variables) -> Ran {
    let variables = *variables;
    Ran { number: refusal.number(), outcome: 0, steps: 0, traced: 0, variables }
}

/// Runs a source table: 1 to 7 or 11, then 9.
pub fn run_source(rows: &[u8], variables: &Variables, budget: u16, slots: &mut [u16]) -> Ran {
    let table = match table::parse(rows) {
        Ok(table) => table,
        Err(refusal) => return turned_away(refusal, variables),
    };
    if slots.len() < usize::from(budget) {
        return turned_away(Refusal::BuffersShort, variables);
    }
    let mut run = SourceRun::new(&table, *variables, budget);
    let outcome = run.run();
    answer(outcome, run.steps, &run.trace, run.variables, slots)
}

/// Runs hardened lines, with a jump before step k to a place unless k is 65,535:
/// 10, then 9. "a hardened run's first 1,024 counter words are all 0 afterwards"
pub fn run_hardened(
    lines: &[u8],
    variables: &Variables,
    budget: u16,
    k: u16,
    place: u16,
    slots: &mut [u16],
    words: &mut [u16],
) -> Ran {
    let lines = match accepted(lines, budget, slots, words) {
        Ok(lines) => lines,
        Err(refusal) => return turned_away(refusal, variables),
    };
    let jump = (k != NO_JUMP).then_some(Jump { k, place });
    let mut run = HardenedRun::new(&lines, *variables);
    let outcome = run.run(budget, jump);
    words[..COUNTER_WORDS].fill(0);
    answer(outcome, run.steps, &run.trace, run.variables, slots)
}

/// The lines of a hardened table with buffers that are long enough: 10, then 9.
fn accepted(lines: &[u8], budget: u16, slots: &[u16], words: &[u16]) -> Result<Vec<Line>, Refusal> {
    readback::source_of(lines)?;
    if slots.len() < usize::from(budget) || words.len() < COUNTER_WORDS {
        return Err(Refusal::BuffersShort);
    }
    Ok(line::from_bytes(lines))
}

/// Strikes every step with every place and counts the ways to end: 10, then 9, then 13.
pub fn sweep(
    lines: &[u8],
    variables: &Variables,
    budget: u16,
    slots: &mut [u16],
    words: &mut [u16],
) -> Swept {
    match swept(lines, variables, budget, slots, words, |sweep| sweep.counts()) {
        Ok(counts) => Swept { number: 0, counts },
        Err(refusal) => Swept { number: refusal.number(), counts: Counts::default() },
    }
}

/// The same, and only whether a struck run finished with another trace.
pub fn sweep_other(
    lines: &[u8],
    variables: &Variables,
    budget: u16,
    slots: &mut [u16],
    words: &mut [u16],
) -> SweptOther {
    match swept(lines, variables, budget, slots, words, |sweep| sweep.finds_other()) {
        Ok(found) => SweptOther { number: 0, found },
        Err(refusal) => SweptOther { number: refusal.number(), found: false },
    }
}

/// "Both leave the slots as the unstruck run does", and the counter words too.
fn swept<T>(
    lines: &[u8],
    variables: &Variables,
    budget: u16,
    slots: &mut [u16],
    words: &mut [u16],
    ask: fn(&Sweep) -> T,
) -> Result<T, Refusal> {
    let lines = accepted(lines, budget, slots, words)?;
    let sweep = Sweep::new(&lines, *variables, budget).ok_or(Refusal::Unfinished)?;
    words[..COUNTER_WORDS].fill(0);
    slots[..sweep.trace.len()].copy_from_slice(&sweep.trace);
    Ok(ask(&sweep))
}

/// The answer of an accepted run, its trace in the first slots.
fn answer(
    outcome: Outcome,
    steps: u16,
    trace: &[u16],
    variables: Variables,
    slots: &mut [u16],
) -> Ran {
    slots[..trace.len()].copy_from_slice(trace);
    let traced = u16::try_from(trace.len()).expect("a trace is no longer than the budget");
    Ran { number: 0, outcome: outcome.number(), steps, traced, variables }
}
