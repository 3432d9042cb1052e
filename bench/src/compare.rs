//! Holds two implementations to each other on the same inputs: numbers, lengths, and each lent
//! buffer as a whole.

use crate::calls::{Calls, Start, COUNTER_WORDS, NO_JUMP};
use crate::harden::{LINE_BYTES, RET};
use crate::programs::{MOST_IN, MOST_OUT};
use independent::program::Program;
use independent::random::Random;
use independent::switch_places;
use independent::{damage, faults, limits, make, overflow_programs, program, sweep_programs};

/// Two implementations and how many answers of theirs were compared.
pub struct Pair<'a> {
    one: &'a dyn Calls,
    other: &'a dyn Calls,
    pub tables: usize,
    pub calls: usize,
}

/// What the two disagree on.
pub type Agreed = Result<(), String>;

/// What buffers hold before a call, so that a stray write shows.
const FILL_BYTE: u8 = 0xa5;
const FILL_WORD: u16 = 0xaaaa;

fn hex(bytes: &[u8]) -> String {
    bytes.iter().map(|byte| format!("{byte:02x}")).collect()
}

impl<'a> Pair<'a> {
    pub fn new(one: &'a dyn Calls, other: &'a dyn Calls) -> Pair<'a> {
        Pair { one, other, tables: 0, calls: 0 }
    }

    fn same<T: PartialEq>(
        &mut self,
        what: &str,
        input: &[u8],
        ask: impl Fn(&dyn Calls) -> T,
    ) -> Agreed {
        self.calls += 1;
        if ask(self.one) == ask(self.other) {
            return Ok(());
        }
        let (one, other) = (self.one.name(), self.other.name());
        Err(format!("{one} and {other} disagree: {what} of {}", hex(input)))
    }

    /// The figures of a source table.
    pub fn measured(&mut self, rows: &[u8]) -> Agreed {
        self.same("measure", rows, |calls| calls.measure(rows))
    }

    /// Both as a source table, with outputs too short, exact and too long.
    pub fn rows(&mut self, rows: &[u8]) -> Agreed {
        self.tables += 1;
        self.same("check", rows, |calls| calls.check(rows))?;
        self.measured(rows)?;
        let mut room = vec![FILL_BYTE; MOST_OUT];
        let exact = self.one.harden(rows, &mut room).length;
        for length in [exact, exact.saturating_sub(1), 0, exact + 7] {
            self.same(&format!("harden to {length} bytes"), rows, |calls| {
                let mut out = vec![FILL_BYTE; length];
                (calls.harden(rows, &mut out), out)
            })?;
        }
        Ok(())
    }

    /// The same for a hardened table.
    pub fn lines(&mut self, lines: &[u8]) -> Agreed {
        self.tables += 1;
        self.same("check hardened", lines, |calls| calls.check_hardened(lines))?;
        let mut room = vec![FILL_BYTE; MOST_IN];
        let exact = self.one.read_back(lines, &mut room).length;
        for length in [exact, exact.saturating_sub(1), 0, exact + 7] {
            self.same(&format!("read back to {length} bytes"), lines, |calls| {
                let mut out = vec![FILL_BYTE; length];
                (calls.read_back(lines, &mut out), out)
            })?;
        }
        Ok(())
    }

    pub fn source_run(&mut self, rows: &[u8], start: &Start, slots: usize) -> Agreed {
        self.same(&format!("source run, {start:?}, {slots} slots"), rows, |calls| {
            let mut trace = vec![FILL_WORD; slots];
            (calls.run_source(rows, start, &mut trace), trace)
        })
    }

    pub fn hardened_run(
        &mut self,
        lines: &[u8],
        start: &Start,
        slots: usize,
        words: usize,
    ) -> Agreed {
        let what = format!("hardened run, {start:?}, {slots} slots, {words} words");
        self.same(&what, lines, |calls| {
            let (mut trace, mut counters) = (vec![FILL_WORD; slots], vec![FILL_WORD; words]);
            (calls.run_hardened(lines, start, &mut trace, &mut counters), trace, counters)
        })
    }

    /// Both calls of a sweep.
    pub fn sweep(&mut self, lines: &[u8], start: &Start, slots: usize, words: usize) -> Agreed {
        let what = format!("sweep, {start:?}, {slots} slots, {words} words");
        let buffers = || (vec![FILL_WORD; slots], vec![FILL_WORD; words]);
        self.same(&what, lines, |calls| {
            let (mut trace, mut counters) = buffers();
            (calls.sweep(lines, start, &mut trace, &mut counters), trace, counters)
        })?;
        self.same(&format!("any other by {what}"), lines, |calls| {
            let (mut trace, mut counters) = buffers();
            (calls.sweep_other(lines, start, &mut trace, &mut counters), trace, counters)
        })
    }

    /// The limit tables, then so many random ones of each sort: accepted, faulty, hardened,
    /// damaged.
    pub fn random_tables(&mut self, rng: &mut Random, count: usize) -> Agreed {
        for (rows, number) in limits::all() {
            self.rows(&rows)?;
            if number == 0 {
                self.lines(&damage::hardened(&rows))?;
            }
        }
        for (_, rows) in switch_places::all() {
            self.rows(&make::bytes_of(&rows))?;
        }
        for lines in damage::beyond_limits() {
            self.lines(&lines)?;
        }
        for _ in 0..count {
            let rows = make::any_table(rng);
            self.rows(&rows)?;
            self.rows(&faults::any(rng).0)?;
            self.rows(&faults::mutated(rng))?;
            let lines = damage::hardened(&rows);
            self.lines(&lines)?;
            self.lines(&damage::any(rng, &lines))?;
        }
        Ok(())
    }

    /// So many random programs, each in both forms with several budgets, jumps and buffers.
    pub fn random_runs(&mut self, rng: &mut Random, count: usize) -> Agreed {
        for _ in 0..count {
            let size = rng.between(4, 60);
            let program = program::program(rng, size);
            let lines = damage::hardened(&program.rows);
            self.tables += 1;
            self.measured(&program.rows)?;
            for _ in 0..4 {
                let start = some_start(rng, &program, &lines);
                let slots = some_length(rng, usize::from(start.budget));
                self.source_run(&program.rows, &start, slots)?;
                let words = some_length(rng, COUNTER_WORDS);
                self.hardened_run(&lines, &start, slots, words)?;
            }
            let start = some_start(rng, &program, &lines);
            let slots = usize::from(start.budget);
            self.source_run(&faults::mutated(rng), &start, slots)?;
            self.hardened_run(&damage::any(rng, &lines), &start, slots, COUNTER_WORDS)?;
        }
        Ok(())
    }

    /// The programs by hand that overflow or go up to the edge: every jump of the first steps, with
    /// budgets that just hold it, one step more and many.
    pub fn overflows(&mut self) -> Agreed {
        let programs = [overflow_programs::overflowing(), overflow_programs::finishing()];
        for Program { rows, variables } in programs.concat() {
            let lines = damage::hardened(&rows);
            self.tables += 1;
            for budget in 0..70 {
                let start = Start::unstruck(variables, budget);
                self.source_run(&rows, &start, budget.into())?;
                self.hardened_run(&lines, &start, budget.into(), COUNTER_WORDS)?;
            }
            for step in 0..24 {
                for place in 0..=(lines.len() / LINE_BYTES) as u16 {
                    for budget in [step + 1, step + 2, 70] {
                        let start = Start { variables, budget, step, place };
                        self.hardened_run(&lines, &start, budget.into(), COUNTER_WORDS)?;
                    }
                }
            }
        }
        Ok(())
    }

    /// Programs by hand and so many random ones, each swept with several budgets and buffers.
    pub fn random_sweeps(&mut self, rng: &mut Random, count: usize) -> Agreed {
        for program in [sweep_programs::by_hand(), overflow_programs::finishing()].concat() {
            let steps = sweep_programs::finishes_in(&program, 1000);
            self.sweeps_of(rng, &program, steps)?;
        }
        for program in [sweep_programs::never_finished(), overflow_programs::overflowing()].concat()
        {
            self.sweeps_of(rng, &program, None)?;
        }
        for _ in 0..count {
            let (program, steps) = sweep_programs::random(rng);
            self.sweeps_of(rng, &program, steps)?;
        }
        Ok(())
    }

    fn sweeps_of(&mut self, rng: &mut Random, program: &Program, steps: Option<u16>) -> Agreed {
        let lines = damage::hardened(&program.rows);
        self.tables += 1;
        for budget in budgets(rng, steps) {
            let start = Start::unstruck(program.variables, budget);
            let slots = some_length(rng, usize::from(budget));
            let words = some_length(rng, COUNTER_WORDS);
            self.sweep(&lines, &start, slots, words)?;
            if rng.percent(20) {
                self.sweep(&damage::any(rng, &lines), &start, slots, words)?;
            }
        }
        Ok(())
    }
}

/// The steps of a run, one fewer, one more, and many more; without any, where it never finishes.
fn budgets(rng: &mut Random, steps: Option<u16>) -> Vec<u16> {
    match steps {
        Some(n) => vec![n, n - 1, n + 1, n + rng.word() % (n + 1), 2 * n + rng.word() % 40],
        None => vec![0, 1, rng.word() % 150],
    }
}

/// Mostly just enough, now and then one fewer or some more.
fn some_length(rng: &mut Random, enough: usize) -> usize {
    match rng.below(12) {
        0 => enough.saturating_sub(1),
        1 => enough + rng.between(1, 9),
        _ => enough,
    }
}

/// A budget, and most often a jump that strikes, sometimes in the last budgeted step: to a place of
/// the first function, its m or one beyond. Other functions have other m, so places beyond theirs
/// come as well.
fn some_start(rng: &mut Random, program: &Program, lines: &[u8]) -> Start {
    let budget = match rng.below(10) {
        0 => rng.below(2),
        1 => rng.between(1000, 5000),
        2..=4 => rng.between(40, 300),
        _ => rng.between(2, 40),
    };
    let ret = lines.chunks(LINE_BYTES).position(|line| line[0] == RET);
    let m = ret.expect("a function has a ret") + 1;
    let step = if rng.percent(25) { NO_JUMP } else { rng.between(0, budget.min(60)) as u16 };
    let place = if rng.percent(20) { rng.between(m, m + 1) } else { rng.between(0, m) } as u16;
    let just_held = rng.percent(20) && step != NO_JUMP;
    let budget = if just_held { step + 1 } else { budget as u16 };
    Start { variables: program.variables, budget, step, place }
}
