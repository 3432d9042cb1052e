//! The calls that are timed as a trait, so that every implementation gets the same inputs, and the answers
//! with the layout that they have at the C boundary.

use crate::figures::Figures;
use crate::sweep::{self, Counts};
use crate::table::{self, Refusal};
use crate::{figures, harden, hardened_run, read_back, source_run};

pub type Variables = [u16; 16];

/// A hardened run is lent this many counter words at least: 64 for each of 16 open functions.
pub const COUNTER_WORDS: usize = 1024;

/// The step number that stands for no jump.
pub const NO_JUMP: u16 = 65_535;

/// A number and the length of what was written.
#[repr(C)]
#[derive(Clone, Copy, Debug, PartialEq, Eq)]
pub struct Wrote {
    pub number: u8,
    pub length: usize,
}

/// How much the hardened table of a source table takes; where it is turned away, zeros.
#[repr(C)]
#[derive(Clone, Copy, Debug, PartialEq, Eq)]
pub struct Measured {
    pub number: u8,
    pub regions: u8,
    pub lines: u16,
    pub value: u16,
}

/// How a run ended.
#[repr(C)]
#[derive(Clone, Copy, Debug, PartialEq, Eq)]
pub struct Ran {
    pub number: u8,
    pub outcome: u8,
    pub steps: u16,
    pub traced: u16,
    pub variables: Variables,
}

/// How many struck runs of a sweep ended so; where it is turned away, zeros.
#[repr(C)]
#[derive(Clone, Copy, Debug, PartialEq, Eq)]
pub struct Swept {
    pub number: u8,
    pub alarms: u32,
    pub same: u32,
    pub other: u32,
    pub unfinished: u32,
}

/// 1 if a struck run finished with another trace, else 0.
#[repr(C)]
#[derive(Clone, Copy, Debug, PartialEq, Eq)]
pub struct AnyOther {
    pub number: u8,
    pub other: u8,
}

/// What a run or a sweep is given besides its table and buffers. A source run and a sweep have no
/// use for the jump.
#[derive(Clone, Copy, Debug)]
pub struct Start {
    pub variables: Variables,
    pub budget: u16,
    pub step: u16,
    pub place: u16,
}

impl Start {
    pub fn unstruck(variables: Variables, budget: u16) -> Start {
        Start { variables, budget, step: NO_JUMP, place: 0 }
    }
}

pub trait Calls {
    fn name(&self) -> &'static str;
    fn check(&self, rows: &[u8]) -> u8;
    fn measure(&self, rows: &[u8]) -> Measured;
    fn harden(&self, rows: &[u8], out: &mut [u8]) -> Wrote;
    fn check_hardened(&self, lines: &[u8]) -> u8;
    fn read_back(&self, lines: &[u8], out: &mut [u8]) -> Wrote;
    fn run_source(&self, rows: &[u8], start: &Start, trace: &mut [u16]) -> Ran;
    fn run_hardened(
        &self,
        lines: &[u8],
        start: &Start,
        trace: &mut [u16],
        counters: &mut [u16],
    ) -> Ran;
    fn sweep(&self, lines: &[u8], start: &Start, trace: &mut [u16], counters: &mut [u16]) -> Swept;
    fn sweep_other(
        &self,
        lines: &[u8],
        start: &Start,
        trace: &mut [u16],
        counters: &mut [u16],
    ) -> AnyOther;
}

/// The implementation that is written for speed.
pub struct Baseline;

impl Calls for Baseline {
    fn name(&self) -> &'static str {
        "baseline"
    }

    fn check(&self, rows: &[u8]) -> u8 {
        number(table::read(rows).map(|_| ()))
    }

    fn measure(&self, rows: &[u8]) -> Measured {
        measured(figures::measure(rows))
    }

    fn harden(&self, rows: &[u8], out: &mut [u8]) -> Wrote {
        wrote(harden::harden(rows, out))
    }

    fn check_hardened(&self, lines: &[u8]) -> u8 {
        number(read_back::source_of(lines).map(|_| ()))
    }

    fn read_back(&self, lines: &[u8], out: &mut [u8]) -> Wrote {
        wrote(read_back::read_back(lines, out))
    }

    fn run_source(&self, rows: &[u8], start: &Start, trace: &mut [u16]) -> Ran {
        source_run::run(rows, start, trace).unwrap_or_else(|refusal| turned_away(refusal, start))
    }

    fn run_hardened(
        &self,
        lines: &[u8],
        start: &Start,
        trace: &mut [u16],
        counters: &mut [u16],
    ) -> Ran {
        hardened_run::run(lines, start, trace, counters)
            .unwrap_or_else(|refusal| turned_away(refusal, start))
    }

    fn sweep(&self, lines: &[u8], start: &Start, trace: &mut [u16], counters: &mut [u16]) -> Swept {
        swept(sweep::sweep(lines, start, trace, counters))
    }

    fn sweep_other(
        &self,
        lines: &[u8],
        start: &Start,
        trace: &mut [u16],
        counters: &mut [u16],
    ) -> AnyOther {
        match sweep::any_other(lines, start, trace, counters) {
            Ok(other) => AnyOther { number: 0, other: other.into() },
            Err(refusal) => AnyOther { number: refusal as u8, other: 0 },
        }
    }
}

fn number(answer: Result<(), Refusal>) -> u8 {
    answer.map_or_else(|refusal| refusal as u8, |()| 0)
}

fn measured(answer: Result<Figures, Refusal>) -> Measured {
    match answer {
        Ok(Figures { lines, regions, value }) => Measured { number: 0, regions, lines, value },
        Err(refusal) => Measured { number: refusal as u8, regions: 0, lines: 0, value: 0 },
    }
}

fn wrote(answer: Result<usize, Refusal>) -> Wrote {
    match answer {
        Ok(length) => Wrote { number: 0, length },
        Err(refusal) => Wrote { number: refusal as u8, length: 0 },
    }
}

/// A refused run answers its number, zeros, and the variables as given.
fn turned_away(refusal: Refusal, start: &Start) -> Ran {
    let variables = start.variables;
    Ran { number: refusal as u8, outcome: 0, steps: 0, traced: 0, variables }
}

fn swept(answer: Result<Counts, Refusal>) -> Swept {
    let (number, counts) = match answer {
        Ok(counts) => (0, counts),
        Err(refusal) => (refusal as u8, Counts::default()),
    };
    let Counts { alarms, same, other, unfinished } = counts;
    Swept { number, alarms, same, other, unfinished }
}
