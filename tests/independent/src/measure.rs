//! How much a table will take (02, No. 2): the figures of its hardened table, and the
//! steps of its hardened run.
//!
//! The figures are counted in the hardened lines, never summed over the rows: so they
//! are "those that hardening and running then show", whatever a sum would say.

use std::collections::BTreeSet;

use crate::harden;
use crate::line::{self, Line};
use crate::table;

/// What `measure` answers: 0 or the number of the refusal, and the figures, "then 0".
#[derive(Clone, Copy, Debug, Default, PartialEq, Eq)]
pub struct Measured {
    pub number: u8,
    /// "the line count"
    pub lines: usize,
    /// "the most regions that a function has"
    pub regions: usize,
    /// "the highest counter value that a line names"
    pub value: u16,
}

/// The figures of a table's hardened table, or 1 to 7 or 11.
pub fn measure(rows: &[u8]) -> Measured {
    match table::parse(rows) {
        Ok(table) => of_lines(&harden::lines(&table)),
        Err(refusal) => Measured { number: refusal.number(), ..Measured::default() },
    }
}

/// The figures of hardened lines. Each function ends with its ret and has no other.
fn of_lines(lines: &[Line]) -> Measured {
    let functions = lines.split_inclusive(|line| line.kind == line::RET);
    Measured {
        number: 0,
        lines: lines.len(),
        regions: functions.map(regions_named).max().unwrap_or(0),
        value: guards(lines).flat_map(|line| [line.e, line.a, line.b, line.c]).max().unwrap_or(0),
    }
}

/// "All lines but 21 are guards." A do names no region, and its e is a row number.
fn guards(lines: &[Line]) -> impl Iterator<Item = &Line> {
    lines.iter().filter(|line| line.is_guard())
}

/// How many regions the lines of a function name. An unused s or t is 0, which is the
/// body's number, and every ret names that.
fn regions_named(function: &[Line]) -> usize {
    let named: BTreeSet<u8> = guards(function).flat_map(|line| [line.r, line.s, line.t]).collect();
    named.len()
}

/// "With the steps, dos and calls of a finished source run, each at most 65,535, give
/// the hardened steps": 01's n + t + c. "a sum past 65,535 is given whole and is no
/// run's"
pub fn hardened_steps(steps: u16, dos: u16, calls: u16) -> u32 {
    u32::from(steps) + u32::from(dos) + u32::from(calls)
}
