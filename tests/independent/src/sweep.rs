//! The whole sweep (02, No. 4): "strike each step of the unstruck run with each place
//! of the function running then, place m included". Each strike is a run of its own,
//! from line 0 of function 0 to its end.

use crate::hardened_run::{HardenedRun, Jump, Span};
use crate::line::Line;
use crate::machine::{Outcome, Variables};

/// "Count four ways to end"
#[derive(Clone, Copy, Debug, PartialEq, Eq)]
pub enum End {
    /// "alarm"
    Alarm,
    /// "finished with the unstruck trace"
    Same,
    /// "finished with another trace"
    Other,
    /// "not finished"
    Unfinished,
}

/// How many strikes ended so.
#[derive(Clone, Copy, Debug, Default, PartialEq, Eq)]
pub struct Counts {
    pub alarms: u32,
    pub same: u32,
    pub other: u32,
    pub unfinished: u32,
}

impl Counts {
    pub fn add(&mut self, end: End) {
        match end {
            End::Alarm => self.alarms += 1,
            End::Same => self.same += 1,
            End::Other => self.other += 1,
            End::Unfinished => self.unfinished += 1,
        }
    }
}

/// Where the unstruck run stands before a step.
#[derive(Clone, Copy, Debug, PartialEq, Eq)]
struct Standing {
    function: usize,
    place: usize,
    span: Span,
}

/// A jump before step k, from one place of a function to another or the same, and what
/// became of the run.
#[derive(Clone, Copy, Debug, PartialEq, Eq)]
pub struct Strike {
    pub k: u16,
    pub function: usize,
    pub from: usize,
    pub to: usize,
    pub end: End,
}

/// A table whose unstruck run finishes in the budget, and that run.
pub struct Sweep<'a> {
    lines: &'a [Line],
    variables: Variables,
    budget: u16,
    /// the unstruck run's
    pub trace: Vec<u16>,
    /// before each of its steps
    standing: Vec<Standing>,
}

impl<'a> Sweep<'a> {
    /// None "when the unstruck run doesn't finish in the budget". The lines must be
    /// those of an accepted table.
    pub fn new(lines: &'a [Line], variables: Variables, budget: u16) -> Option<Sweep<'a>> {
        let mut run = HardenedRun::new(lines, variables);
        let mut standing = Vec::new();
        for steps in 1..=budget {
            standing.push(stands(&run));
            match run.run(steps, None) {
                Outcome::BudgetSpent => {}
                Outcome::Finished => {
                    return Some(Sweep { lines, variables, budget, trace: run.trace, standing })
                }
                _ => return None,
            }
        }
        None
    }

    /// The steps of the unstruck run.
    pub fn steps(&self) -> u16 {
        u16::try_from(self.standing.len()).expect("at most the budget")
    }

    /// Every strike, in the order of the steps, and of the places at each.
    pub fn strikes(&self) -> impl Iterator<Item = Strike> + '_ {
        let steps = self.standing.iter().enumerate();
        steps.flat_map(move |(step, at)| (0..=at.span.m).map(move |to| self.strike(step, at, to)))
    }

    fn strike(&self, step: usize, at: &Standing, to: usize) -> Strike {
        let k = u16::try_from(step).expect("below the budget");
        let place = u16::try_from(to).expect("a table has at most 2,048 lines");
        let end = self.end(Jump { k, place });
        Strike { k, function: at.function, from: at.place, to, end }
    }

    /// Each struck run has the same budget and the same first values.
    fn end(&self, jump: Jump) -> End {
        let mut run = HardenedRun::new(self.lines, self.variables);
        match run.run(self.budget, Some(jump)) {
            Outcome::Alarm => End::Alarm,
            Outcome::Finished if run.trace == self.trace => End::Same,
            Outcome::Finished => End::Other,
            _ => End::Unfinished,
        }
    }

    pub fn counts(&self) -> Counts {
        let mut counts = Counts::default();
        self.strikes().for_each(|strike| counts.add(strike.end));
        counts
    }

    /// "A second call says only whether the third count is above zero."
    pub fn finds_other(&self) -> bool {
        self.strikes().any(|strike| strike.end == End::Other)
    }

    /// The row of the do that a narrow jump crosses. A jump to the same place crosses
    /// nothing, and a wide one a guard. No two dos stand behind each other, as each has
    /// its tick.
    pub fn crossed(&self, strike: &Strike) -> Option<u16> {
        let first = self.standing[usize::from(strike.k)].span.first;
        let (low, high) = (strike.from.min(strike.to), strike.from.max(strike.to));
        match &self.lines[first + low..first + high] {
            [line] if !line.is_guard() => Some(line.e),
            _ => None,
        }
    }
}

fn stands(run: &HardenedRun) -> Standing {
    let frame = run.frames.last().expect("one function is open");
    Standing { function: frame.function, place: frame.place, span: run.span() }
}
