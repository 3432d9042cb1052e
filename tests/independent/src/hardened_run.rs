//! A run of hardened lines, with at most one jump (01, the table of "The
//! hardened lines" and "Running"; 02, No. 5).

use crate::line::{self, Line};
use crate::machine::{do_it, holds, Outcome, Variables, MOST_OPEN_FUNCTIONS};

/// "64 regions in a function": a frame has that many counters.
pub const COUNTERS: usize = 64;

/// "a jump ... is a step number k and a place"
#[derive(Clone, Copy, Debug, PartialEq, Eq)]
pub struct Jump {
    pub k: u16,
    pub place: u16,
}

/// The lines of one function.
#[derive(Clone, Copy, Debug, PartialEq, Eq)]
pub struct Span {
    /// its first line in the whole table
    pub first: usize,
    /// "A function of m lines has places 0 to m"
    pub m: usize,
}

/// An open function.
#[derive(Clone, Debug, PartialEq, Eq)]
pub struct Frame {
    pub function: usize,
    /// counted from the function's first line; "place i is before line i"
    pub place: usize,
    /// "Each has a 16-bit counter, one for each open call of the function."
    pub counters: [u16; COUNTERS],
}

/// What can be seen of a run from outside: a jump, and each step before it is
/// done.
#[derive(Clone, Debug, PartialEq, Eq)]
pub enum Sight {
    Jump { place: u16 },
    Step { function: usize, place: usize, what: What },
}

/// A step: 01's word for its kind, the counters that it looks at, each with what
/// it holds, and for a back line where the function that returned last ended.
#[derive(Clone, Debug, PartialEq, Eq)]
pub struct What {
    pub word: &'static str,
    pub counters: Vec<(u8, u16)>,
    pub ended: Option<u16>,
}

/// A hardened run and what it has done so far.
#[derive(Clone)]
pub struct HardenedRun<'a> {
    lines: &'a [Line],
    pub spans: Vec<Span>,
    /// oldest first, never empty
    pub frames: Vec<Frame>,
    /// "the region 0 counter of the function that returned last in the run (0 if
    /// none has)"
    returned: u16,
    pub variables: Variables,
    pub trace: Vec<u16>,
    pub steps: u16,
    /// ticks and backs done, for the matching step
    pub ticks_and_backs: u16,
}

/// A function ends with its ret and has no other.
pub fn spans_of(lines: &[Line]) -> Vec<Span> {
    let mut spans = Vec::new();
    let mut first = 0;
    for (at, line) in lines.iter().enumerate() {
        if line.kind == line::RET {
            spans.push(Span { first, m: at + 1 - first });
            first = at + 1;
        }
    }
    spans
}

impl<'a> HardenedRun<'a> {
    /// "A hardened run opens function 0 at line 0, counters 0 but region 0's at
    /// its base." The lines must be those of an accepted table.
    pub fn new(lines: &'a [Line], variables: Variables) -> HardenedRun<'a> {
        let mut run = HardenedRun {
            lines,
            spans: spans_of(lines),
            frames: Vec::new(),
            returned: 0,
            variables,
            trace: Vec::new(),
            steps: 0,
            ticks_and_backs: 0,
        };
        // "Its base is 1 plus the sizes of all regions opened before it": none.
        run.open(0, 1);
        run
    }

    fn open(&mut self, function: usize, base: u16) {
        let mut counters = [0; COUNTERS];
        counters[0] = base;
        self.frames.push(Frame { function, place: 0, counters });
    }

    /// Runs until something ends it.
    pub fn run(&mut self, budget: u16, jump: Option<Jump>) -> Outcome {
        loop {
            if self.steps == budget {
                return Outcome::BudgetSpent;
            }
            if let Err(outcome) = self.strike(jump).and_then(|()| self.step()) {
                return outcome;
            }
        }
    }

    /// The same, with each sight shown, and the number of the step.
    pub fn run_seen(
        &mut self,
        budget: u16,
        jump: Option<Jump>,
        show: &mut dyn FnMut(u16, Sight),
    ) -> Outcome {
        loop {
            if self.steps == budget {
                return Outcome::BudgetSpent;
            }
            if let Some(jump) = jump.filter(|jump| jump.k == self.steps) {
                show(self.steps, Sight::Jump { place: jump.place });
            }
            if let Err(outcome) = self.strike(jump) {
                return outcome;
            }
            show(self.steps, self.sight());
            if let Err(outcome) = self.step() {
                return outcome;
            }
        }
    }

    /// The step that comes next.
    fn sight(&self) -> Sight {
        let frame = self.frames.last().expect("one function is open");
        let (function, place) = (frame.function, frame.place);
        let what = match self.line() {
            None => self.end_seen(),
            Some(line) => self.line_seen(line),
        };
        Sight::Step { function, place, what }
    }

    /// What the regions' counters hold.
    fn held(&self, regions: &[u8]) -> Vec<(u8, u16)> {
        let frame = self.frames.last().expect("one function is open");
        regions.iter().map(|region| (*region, frame.counters[usize::from(*region)])).collect()
    }

    /// "place m returns without a check"; with one function open "the host
    /// compares its region 0 counter".
    fn end_seen(&self) -> What {
        let regions: &[u8] = if self.frames.len() == 1 { &[0] } else { &[] };
        What { word: "end", counters: self.held(regions), ended: None }
    }

    /// The checks of a line, by the table of 01.
    fn line_seen(&self, line: Line) -> What {
        let regions = match line.kind {
            line::DO => vec![],
            line::LEAVE => vec![line.r, line.s],
            _ => vec![line.r],
        };
        let ended = (line.kind == line::BACK).then_some(self.returned);
        What { word: line.word(), counters: self.held(&regions), ended }
    }

    /// "before step k (from 0) the running function goes to that place";
    /// "with 4 the step struck is not taken".
    fn strike(&mut self, jump: Option<Jump>) -> Result<(), Outcome> {
        let Some(jump) = jump.filter(|jump| jump.k == self.steps) else {
            return Ok(());
        };
        let place = usize::from(jump.place);
        if place > self.span().m {
            return Err(Outcome::PlaceBeyond);
        }
        self.frame().place = place;
        Ok(())
    }

    /// "A hardened run does one line, or one return from place m, per step."
    fn step(&mut self) -> Result<(), Outcome> {
        self.steps += 1;
        let Some(line) = self.line() else {
            return self.return_();
        };
        match line.kind {
            line::DO => self.do_line(line),
            line::TICK => self.tick(line),
            line::TEST => self.test(line),
            line::LEAVE => self.leave(line),
            line::OUT => self.out(line),
            line::CALL => self.call(line),
            line::BACK => self.back(line),
            line::RET => self.ret(line),
            kind => unreachable!("an accepted table has no line kind {kind}"),
        }
    }

    /// "Matching step: hardened steps less the ticks and backs done."
    pub fn matching(&self) -> u16 {
        self.steps - self.ticks_and_backs
    }

    fn frame(&mut self) -> &mut Frame {
        self.frames.last_mut().expect("one function is open")
    }

    /// The lines of the running function.
    pub fn span(&self) -> Span {
        self.spans[self.frames.last().expect("one function is open").function]
    }

    /// The line that the running function stands before; none at place m.
    pub fn line(&self) -> Option<Line> {
        let place = self.frames.last().expect("one function is open").place;
        let span = self.span();
        (place < span.m).then(|| self.lines[span.first + place])
    }

    fn counter(&mut self, region: u8) -> &mut u16 {
        &mut self.frame().counters[usize::from(region)]
    }

    /// "counter r holds e, else alarm"
    fn must_hold(&mut self, region: u8, value: u16) -> Result<(), Outcome> {
        if *self.counter(region) == value {
            Ok(())
        } else {
            Err(Outcome::Alarm)
        }
    }

    fn next(&mut self) {
        self.frame().place += 1;
    }

    /// "go is a line number in the whole table"; within one function here.
    fn go(&mut self, line: u16) {
        let first = self.span().first;
        self.frame().place = usize::from(line) - first;
    }

    /// 21: "does it, next line". One that overflows changes nothing and goes nowhere.
    fn do_line(&mut self, line: Line) -> Result<(), Outcome> {
        self.variables = do_it(line.op, line.p, line.q, line.n, &self.variables)?;
        self.trace.push(line.e);
        self.next();
        Ok(())
    }

    /// 22: "check; r gets a = e+1"
    fn tick(&mut self, line: Line) -> Result<(), Outcome> {
        self.must_hold(line.r, line.e)?;
        *self.counter(line.r) = line.a;
        self.ticks_and_backs += 1;
        self.next();
        Ok(())
    }

    /// 23: "check, then the test. True: r gets a = e+1, s (region opened) gets
    /// its base b, next line. False: r gets a, then t gets c, go"
    fn test(&mut self, line: Line) -> Result<(), Outcome> {
        self.must_hold(line.r, line.e)?;
        *self.counter(line.r) = line.a;
        if holds(line.op, line.p, line.q, line.n, &self.variables) {
            *self.counter(line.s) = line.b;
            self.next();
        } else {
            *self.counter(line.t) = line.c;
            self.go(line.go);
        }
        Ok(())
    }

    /// 24: "check; r gets 0; s (region around) must hold b, else alarm; s gets
    /// a; go"
    fn leave(&mut self, line: Line) -> Result<(), Outcome> {
        self.must_hold(line.r, line.e)?;
        *self.counter(line.r) = 0;
        self.must_hold(line.s, line.b)?;
        *self.counter(line.s) = line.a;
        self.go(line.go);
        Ok(())
    }

    /// 25: "check; counters t (loop body) to r get 0; s (around the loop) gets
    /// a; go"
    fn out(&mut self, line: Line) -> Result<(), Outcome> {
        self.must_hold(line.r, line.e)?;
        for region in line.t..=line.r {
            *self.counter(region) = 0;
        }
        *self.counter(line.s) = line.a;
        self.go(line.go);
        Ok(())
    }

    /// 26: "check; then outcome 3 if 16 functions are open; r gets a = e+1;
    /// callee opens, counters 0, its region 0 gets its base b; go to its first
    /// line"
    fn call(&mut self, line: Line) -> Result<(), Outcome> {
        self.must_hold(line.r, line.e)?;
        if self.frames.len() == MOST_OPEN_FUNCTIONS {
            return Err(Outcome::TooManyOpen);
        }
        *self.counter(line.r) = line.a;
        self.next(); // where it goes on after the return
        let first = usize::from(line.go);
        let callee = self.spans.iter().position(|span| span.first == first);
        self.open(callee.expect("a call goes to a function's first line"), line.b);
        Ok(())
    }

    /// 27: "check; the region 0 counter of the function that returned last in
    /// the run (0 if none has) must have ended at b, else alarm; r gets a = e+1"
    fn back(&mut self, line: Line) -> Result<(), Outcome> {
        self.must_hold(line.r, line.e)?;
        if self.returned != line.b {
            return Err(Outcome::Alarm);
        }
        *self.counter(line.r) = line.a;
        self.ticks_and_backs += 1;
        self.next();
        Ok(())
    }

    /// 28: "check; r gets a = e+1; return"
    fn ret(&mut self, line: Line) -> Result<(), Outcome> {
        self.must_hold(line.r, line.e)?;
        *self.counter(line.r) = line.a;
        self.return_()
    }

    /// A return, by ret or from place m. "When function 0 returns as the only
    /// open one, the host compares its region 0 counter with the a of its ret:
    /// equal is finished, else alarm."
    fn return_(&mut self) -> Result<(), Outcome> {
        self.returned = *self.counter(0);
        if self.frames.len() > 1 {
            self.frames.pop();
            return Ok(());
        }
        let span = self.span();
        let ret = self.lines[span.first + span.m - 1];
        if self.returned == ret.a {
            Err(Outcome::Finished)
        } else {
            Err(Outcome::Alarm)
        }
    }
}
