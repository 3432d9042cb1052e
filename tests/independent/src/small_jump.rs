//! Which slip a small jump is (02, No. 6), told from where the unstruck hardened run stands
//! before the step that is struck.

use crate::hardened_run::{HardenedRun, Span};
use crate::line::{self, Line};
use crate::machine::{Outcome, Variables};
use crate::slip::{How, Slip};

/// The unstruck run before a step.
#[derive(Clone, Copy, Debug, PartialEq, Eq)]
pub struct Before {
    /// the running function's lines
    pub span: Span,
    /// where in them it stands
    pub place: usize,
    /// the source's steps until then: "hardened steps less the ticks and backs done"
    pub matching: u16,
}

/// What a jump is.
#[derive(Clone, Copy, Debug, PartialEq, Eq)]
pub enum Sort {
    /// "the place is beyond m"
    Beyond,
    /// a guard is between the two places
    Wide,
    /// "nothing is changed where the places are equal"
    Equal,
    /// no guard is between them, but a do
    Slip(Slip),
}

impl Before {
    pub fn of(run: &HardenedRun) -> Before {
        let place = run.frames.last().expect("one function is open").place;
        Before { span: run.span(), place, matching: run.matching() }
    }

    /// The sort of a jump to this place. Each do has its tick behind it: so no guard is
    /// between two places only if they are the do's and the tick's, which come after each
    /// other. Before the tick the do has just been done, as the source's last step.
    pub fn sort(&self, lines: &[Line], to: usize) -> Sort {
        if to > self.span.m {
            return Sort::Beyond;
        }
        if to == self.place {
            return Sort::Equal;
        }
        match lines[self.span.first + self.place].kind {
            line::DO if to == self.place + 1 => {
                Sort::Slip(Slip { step: self.matching, how: How::LeftOut })
            }
            line::TICK if to + 1 == self.place => {
                Sort::Slip(Slip { step: self.matching - 1, how: How::Twice })
            }
            _ => Sort::Wide,
        }
    }

    /// The row of the do that a slip is of: its line is at the lower of the two places.
    pub fn row(&self, lines: &[Line], to: usize) -> u16 {
        lines[self.span.first + self.place.min(to)].e
    }
}

impl Sort {
    /// None where nothing is changed, and of jumps that are not small.
    pub fn slip(self) -> Option<Slip> {
        match self {
            Sort::Slip(slip) => Some(slip),
            Sort::Beyond | Sort::Wide | Sort::Equal => None,
        }
    }
}

/// The unstruck run before each of its steps, of which it takes at most so many.
pub fn befores(lines: &[Line], variables: Variables, most: u16) -> Vec<Before> {
    let mut run = HardenedRun::new(lines, variables);
    let mut befores = Vec::new();
    for steps in 1..=most {
        befores.push(Before::of(&run));
        if run.run(steps, None) != Outcome::BudgetSpent {
            break;
        }
    }
    befores
}

/// The unstruck run before the step that a jump strikes; none where it strikes nothing: "a
/// run that ends before k, or whose budget is k, is not struck".
pub fn struck(lines: &[Line], variables: Variables, budget: u16, k: u16) -> Option<Before> {
    let mut run = HardenedRun::new(lines, variables);
    (k < budget && run.run(k, None) == Outcome::BudgetSpent).then(|| Before::of(&run))
}
