//! Runs hardened lines, straight from their bytes. The counters are the lent words: 64 for each
//! open function.

use crate::calls::{Ran, Start, Variables, COUNTER_WORDS, NO_JUMP};
use crate::harden::{self, LineBytes, LINE_BYTES};
use crate::read_back;
use crate::source_run::{FINISHED, MOST_FUNCTIONS_OPEN, OVERFLOW, SPENT, TOO_MANY_OPEN};
use crate::table::Refusal;

pub const ALARM: u8 = 2;
const PLACE_BEYOND: u8 = 4;
pub const COUNTERS: usize = 64;

/// Decides whether the bytes are a hardened table and runs it.
pub fn run(
    bytes: &[u8],
    start: &Start,
    trace: &mut [u16],
    counters: &mut [u16],
) -> Result<Ran, Refusal> {
    read_back::source_of(bytes)?;
    let trace = trace.get_mut(..usize::from(start.budget)).ok_or(Refusal::BuffersShort)?;
    let words = counters.get_mut(..COUNTER_WORDS).ok_or(Refusal::BuffersShort)?;
    let (lines, _) = bytes.as_chunks::<LINE_BYTES>();
    let (counters, _) = words.as_chunks_mut::<COUNTERS>();
    let (mut memory, mut now) = Memory::begin(lines, start.variables, trace, counters);
    let outcome = memory.whole(&mut now, start);
    let variables = memory.v;
    words.fill(0);
    Ok(Ran { number: 0, outcome, steps: now.steps, traced: now.traced as u16, variables })
}

/// What a run does with the row of a do, which is its trace's row `at`.
pub trait Trace {
    fn put(&mut self, at: usize, row: u16);
}

/// Records it.
impl Trace for &mut [u16] {
    #[inline(always)]
    fn put(&mut self, at: usize, row: u16) {
        self[at] = row;
    }
}

/// What a run looks up by a number that it reads.
pub struct Memory<'a, T> {
    pub lines: &'a [LineBytes],
    pub trace: T,
    pub counters: &'a mut [[u16; COUNTERS]],
    pub v: Variables,
    /// Where each function that waits goes on.
    pub back: [usize; MOST_FUNCTIONS_OPEN],
}

/// The rest, apart from it so that it can stay in registers.
#[derive(Clone, Copy)]
pub struct Registers {
    /// The line that comes next. Place m is never kept here: a return from there is done at once.
    pub at: usize,
    /// Open functions besides the first.
    pub open: usize,
    /// The body's counter of the function that returned last.
    returned: u16,
    pub steps: u16,
    pub traced: usize,
}

fn word(line: &LineBytes, at: usize) -> u16 {
    u16::from_le_bytes([line[at], line[at + 1]])
}

fn e(line: &LineBytes) -> u16 {
    word(line, 10)
}

fn a(line: &LineBytes) -> u16 {
    word(line, 12)
}

fn b(line: &LineBytes) -> u16 {
    word(line, 14)
}

fn c(line: &LineBytes) -> u16 {
    word(line, 16)
}

fn go(line: &LineBytes) -> usize {
    usize::from(word(line, 18))
}

/// A step's end: where it goes on, or the outcome.
pub type Next = Result<usize, u8>;

impl<'a, T: Trace> Memory<'a, T> {
    /// Function 0 is open at line 0, its counters 0 but the body's, which has the first base.
    pub fn begin(
        lines: &'a [LineBytes],
        v: Variables,
        trace: T,
        counters: &'a mut [[u16; COUNTERS]],
    ) -> (Memory<'a, T>, Registers) {
        counters[0] = [0; COUNTERS];
        counters[0][0] = 1;
        let memory = Memory { lines, trace, counters, v, back: [0; MOST_FUNCTIONS_OPEN] };
        (memory, Registers { at: 0, open: 0, returned: 0, steps: 0, traced: 0 })
    }

    /// The steps before the jump, the jump, and the steps after it.
    fn whole(&mut self, now: &mut Registers, start: &Start) -> u8 {
        if start.step < start.budget && start.step != NO_JUMP {
            let ended = self.until(now, start.step).and_then(|()| self.strike(now, start.place));
            if let Err(outcome) = ended {
                return outcome;
            }
        }
        self.until(now, start.budget).map_or_else(|outcome| outcome, |()| SPENT)
    }

    /// The jump. A return from place m is that step.
    fn strike(&mut self, now: &mut Registers, place: u16) -> Result<(), u8> {
        let place = usize::from(place);
        let is_ret = |line: &LineBytes| line[0] == harden::RET;
        let first = self.lines[..now.at].iter().rposition(is_ret).map_or(0, |ret| ret + 1);
        let rest = self.lines[now.at..].iter().position(is_ret);
        let ret = now.at + rest.expect("a function has a ret");
        let m = ret + 1 - first;
        if place > m {
            return Err(PLACE_BEYOND);
        }
        if place < m {
            now.at = first + place;
            return Ok(());
        }
        now.steps += 1;
        if now.open == 0 {
            // the host's comparison
            return Err(if self.counters[0][0] == a(&self.lines[ret]) { FINISHED } else { ALARM });
        }
        now.at = self.give_back(now)?;
        Ok(())
    }

    pub fn until(&mut self, registers: &mut Registers, budget: u16) -> Result<(), u8> {
        let mut now = *registers;
        let mut ended = Ok(());
        while now.steps < budget {
            now.steps += 1;
            let line = &self.lines[now.at];
            match self.step(&mut now, line) {
                Ok(next) => now.at = next,
                Err(outcome) => {
                    ended = Err(outcome);
                    break;
                }
            }
        }
        *registers = now;
        ended
    }

    #[inline(always)]
    pub fn step(&mut self, now: &mut Registers, line: &LineBytes) -> Next {
        if line[0] == harden::DO {
            return self.do_line(now, line);
        }
        let next = now.at + 1;
        let counters = &mut self.counters[now.open];
        let r = region(line[6]);
        if counters[r] != e(line) {
            return Err(ALARM);
        }
        counters[r] = a(line);
        match line[0] {
            harden::TICK => Ok(next),
            harden::TEST if holds(line, &self.v) => {
                counters[region(line[7])] = b(line);
                Ok(next)
            }
            harden::TEST => {
                counters[region(line[8])] = c(line);
                Ok(go(line))
            }
            harden::LEAVE => leave(counters, line),
            harden::OUT => {
                counters[region(line[8])..=r].fill(0);
                counters[region(line[7])] = a(line);
                Ok(go(line))
            }
            harden::CALL => self.call(now, line),
            harden::BACK if now.returned != b(line) => Err(ALARM),
            harden::BACK => Ok(next),
            _ if now.open == 0 => Err(FINISHED),
            _ => self.give_back(now),
        }
    }

    #[inline(always)]
    fn do_line(&mut self, now: &mut Registers, line: &LineBytes) -> Next {
        self.v[variable(line[2])] = done(line, &self.v).ok_or(OVERFLOW)?;
        self.trace.put(now.traced, e(line));
        now.traced += 1;
        Ok(now.at + 1)
    }

    #[inline(always)]
    fn call(&mut self, now: &mut Registers, line: &LineBytes) -> Next {
        // a call that is not made has moved its counter, but that run is over
        let counters = self.counters.get_mut(now.open + 1).ok_or(TOO_MANY_OPEN)?;
        *counters = [0; COUNTERS];
        counters[0] = b(line);
        self.back[now.open] = now.at + 1;
        now.open += 1;
        Ok(go(line))
    }

    #[inline(always)]
    fn give_back(&self, now: &mut Registers) -> Next {
        now.returned = self.counters[now.open][0];
        now.open -= 1;
        Ok(self.back[now.open])
    }
}

#[inline(always)]
fn leave(counters: &mut [u16; COUNTERS], line: &LineBytes) -> Next {
    let (r, s) = (region(line[6]), region(line[7]));
    counters[r] = 0;
    if counters[s] != b(line) {
        return Err(ALARM);
    }
    counters[s] = a(line);
    Ok(go(line))
}

/// A region number is below 64 and a variable's below 16: saying so spares the bounds checks.
fn region(byte: u8) -> usize {
    usize::from(byte) % COUNTERS
}

fn variable(byte: u8) -> usize {
    usize::from(byte) % 16
}

/// What the variable of a do gets; nothing where the sum or the difference overflows.
#[inline(always)]
pub fn done(line: &LineBytes, v: &Variables) -> Option<u16> {
    let (p, q) = (v[variable(line[2])], v[variable(line[3])]);
    match line[1] {
        0 => Some(word(line, 4)),
        1 => Some(q),
        2 => p.checked_add(q),
        _ => p.checked_sub(q),
    }
}

#[inline]
fn holds(line: &LineBytes, v: &Variables) -> bool {
    let (p, n) = (v[variable(line[2])], word(line, 4));
    match line[1] {
        0 => p == n,
        1 => p != n,
        _ => p < v[variable(line[3])],
    }
}
