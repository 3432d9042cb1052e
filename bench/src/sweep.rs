//! The whole sweep (02, No. 4): every step of the unstruck run struck with every place of the
//! function running then. One test settles a place; a run is made only for the one place that a do
//! and no guard parts from where the unstruck run stands.

use crate::calls::{Start, COUNTER_WORDS};
use crate::harden::{self, LineBytes, LINE_BYTES};
use crate::hardened_run::{done, Memory, Registers, Trace, ALARM, COUNTERS};
use crate::read_back;
use crate::source_run::{FINISHED, MOST_FUNCTIONS_OPEN};
use crate::table::Refusal;

/// How many struck runs ended so.
#[derive(Clone, Copy, Default)]
pub struct Counts {
    pub alarms: u32,
    pub same: u32,
    pub other: u32,
    pub unfinished: u32,
}

#[derive(Clone, Copy, PartialEq, Eq)]
enum End {
    Alarm,
    Same,
    Other,
    Unfinished,
}

impl Counts {
    #[inline(always)]
    fn add(&mut self, end: End) {
        match end {
            End::Alarm => self.alarms += 1,
            End::Same => self.same += 1,
            End::Other => self.other += 1,
            End::Unfinished => self.unfinished += 1,
        }
    }
}

/// Strikes everywhere and counts the ways to end.
pub fn sweep(
    bytes: &[u8],
    start: &Start,
    trace: &mut [u16],
    counters: &mut [u16],
) -> Result<Counts, Refusal> {
    let (lines, known) = recorded(bytes, start, trace, counters)?;
    let mut words = NO_WORDS;
    let mut sweep = Sweep::begin(lines, start, known, &mut words);
    let mut counts = Counts::default();
    loop {
        counts = sweep.places(counts);
        if !sweep.step() {
            return Ok(counts);
        }
    }
}

/// Whether a struck run finishes with another trace. Its jump must be narrow, so that no other
/// place needs a test.
pub fn any_other(
    bytes: &[u8],
    start: &Start,
    trace: &mut [u16],
    counters: &mut [u16],
) -> Result<bool, Refusal> {
    let (lines, known) = recorded(bytes, start, trace, counters)?;
    let mut words = NO_WORDS;
    let mut sweep = Sweep::begin(lines, start, known, &mut words);
    loop {
        if sweep.narrow().is_some_and(|(_, end)| end == End::Other) {
            return Ok(true);
        }
        if !sweep.step() {
            return Ok(false);
        }
    }
}

/// The counters of all functions that may be open.
type Words = [[u16; COUNTERS]; MOST_FUNCTIONS_OPEN];

const NO_WORDS: Words = [[0; COUNTERS]; MOST_FUNCTIONS_OPEN];

/// 10, then 9, then 13 by a run that writes no slot; then the unstruck run into the slots. Answers
/// the lines and the trace. The lent words are only cleared: runs have their counters here.
fn recorded<'a>(
    bytes: &'a [u8],
    start: &Start,
    trace: &'a mut [u16],
    counters: &mut [u16],
) -> Result<(&'a [LineBytes], &'a [u16]), Refusal> {
    read_back::source_of(bytes)?;
    let slots = trace.get_mut(..usize::from(start.budget)).ok_or(Refusal::BuffersShort)?;
    let lent = counters.get_mut(..COUNTER_WORDS).ok_or(Refusal::BuffersShort)?;
    let (lines, _) = bytes.as_chunks::<LINE_BYTES>();
    let mut words = NO_WORDS;
    let (mut trial, mut now) = Memory::begin(lines, start.variables, Unkept, &mut words);
    if trial.until(&mut now, start.budget) != Err(FINISHED) {
        return Err(Refusal::Unfinished);
    }
    let (mut run, mut now) = Memory::begin(lines, start.variables, &mut *slots, &mut words);
    let ended = run.until(&mut now, start.budget);
    debug_assert_eq!(ended, Err(FINISHED));
    lent.fill(0);
    Ok((lines, &slots[..now.traced]))
}

/// Keeps no trace.
struct Unkept;

impl Trace for Unkept {
    #[inline(always)]
    fn put(&mut self, _: usize, _: u16) {}
}

/// Keeps only whether some row differs from the known trace's.
struct Beside<'a> {
    known: &'a [u16],
    differs: bool,
}

impl Trace for Beside<'_> {
    #[inline(always)]
    fn put(&mut self, at: usize, row: u16) {
        self.differs |= self.known.get(at) != Some(&row);
    }
}

/// A function's first line, and the line behind its last one: its place m.
#[derive(Clone, Copy)]
struct Span {
    first: usize,
    last: usize,
}

/// Of each line, its function's.
fn spans(lines: &[LineBytes]) -> Vec<Span> {
    let mut spans = Vec::with_capacity(lines.len());
    let rets = lines.iter().enumerate().filter(|(_, line)| line[0] == harden::RET);
    for (ret, _) in rets {
        let span = Span { first: spans.len(), last: ret + 1 };
        spans.resize(span.last, span);
    }
    spans
}

/// The unstruck run once more, and what the struck runs need.
struct Sweep<'a> {
    run: Memory<'a, Unkept>,
    now: Registers,
    spans: Vec<Span>,
    known: &'a [u16],
    budget: u16,
    /// The counters of a struck run.
    struck: Words,
}

impl<'a> Sweep<'a> {
    fn begin(
        lines: &'a [LineBytes],
        start: &Start,
        known: &'a [u16],
        words: &'a mut Words,
    ) -> Sweep<'a> {
        let (run, now) = Memory::begin(lines, start.variables, Unkept, words);
        let budget = start.budget;
        Sweep { run, now, spans: spans(lines), known, budget, struck: NO_WORDS }
    }

    /// Takes the next step, unless the run finishes in it.
    fn step(&mut self) -> bool {
        let steps = self.now.steps + 1;
        self.run.until(&mut self.now, steps).is_ok()
    }

    /// The counts with those of each place at this step. Place m is always wide: the ret is between.
    fn places(&mut self, mut counts: Counts) -> Counts {
        let at = self.now.at;
        let narrow = self.narrow();
        let across = narrow.map_or(at, |(across, _)| across);
        let Span { first, last } = self.spans[at];
        let (lines, left) = (self.run.lines, self.budget - self.now.steps);
        let (before, behind) = (&lines[first..at.min(across)], &lines[at.max(across) + 1..last]);
        let missed_at_m = left == 1 && self.now.open != 0;
        let missed =
            self.missed(before, left) + self.missed(behind, left) + usize::from(missed_at_m);
        counts.same += 1;
        counts.alarms += (before.len() + behind.len() + 1 - missed) as u32;
        counts.unfinished += missed as u32;
        if let Some((_, end)) = narrow {
            counts.add(end);
        }
        counts
    }

    /// How many wide jumps to these lines end without an alarm: those to a do that overflows, and
    /// those to any do if this step is the budget's last, as the alarm comes in the next one then.
    #[inline(always)]
    fn missed(&self, lines: &[LineBytes], left: u16) -> usize {
        let missed = |line: &&LineBytes| {
            line[0] == harden::DO && (left == 1 || done(line, &self.run.v).is_none())
        };
        lines.iter().filter(missed).count()
    }

    /// The line of the place that a do and no guard parts from where the run stands, and how the
    /// run struck there ends.
    fn narrow(&mut self) -> Option<(usize, End)> {
        let at = self.now.at;
        let across = match self.run.lines[at][0] {
            harden::DO => at + 1,
            harden::TICK => at - 1,
            _ => return None,
        };
        Some((across, self.end_from(across)))
    }

    /// How a copy of the run ends that goes on from this line.
    fn end_from(&mut self, at: usize) -> End {
        let Sweep { run, known, struck, .. } = self;
        let mut now = self.now;
        now.at = at;
        struck[..=now.open].copy_from_slice(&run.counters[..=now.open]);
        let trace = Beside { known, differs: false };
        let mut copy =
            Memory { lines: run.lines, trace, counters: struck, v: run.v, back: run.back };
        match copy.until(&mut now, self.budget) {
            Err(FINISHED) if copy.trace.differs || now.traced != known.len() => End::Other,
            Err(FINISHED) => End::Same,
            Err(ALARM) => End::Alarm,
            _ => End::Unfinished,
        }
    }
}
