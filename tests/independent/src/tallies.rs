//! How the strikes of one table end, wide and narrow apart, and how many of them quote too
//! little (docs/EVALUATION.md).

use crate::machine::{Outcome, Variables};
use crate::sweep::{Counts, End};

/// A run that has ended, struck or not.
pub struct Ended {
    pub outcome: Outcome,
    pub steps: u16,
    pub trace: Vec<u16>,
    pub variables: Variables,
}

impl Ended {
    /// A card quotes what v0 holds at the end.
    pub fn fee(&self) -> u16 {
        self.variables[0]
    }
}

/// The strikes of one sort.
#[derive(Clone, Copy, Debug, Default, PartialEq, Eq)]
pub struct Tally {
    pub counts: Counts,
    /// finished with a lower fee than the unstruck run's; a card that alarms or does not
    /// finish quotes nothing
    pub lower: u32,
}

impl Tally {
    pub fn strikes(&self) -> u32 {
        let Counts { alarms, same, other, unfinished } = self.counts;
        alarms + same + other + unfinished
    }
}

/// All strikes of the run of one table.
pub struct Tallies {
    pub unstruck: Ended,
    pub wide: Tally,
    pub narrow: Tally,
}

impl Tallies {
    /// None where the unstruck run does not finish.
    pub fn of(unstruck: Ended) -> Option<Tallies> {
        (unstruck.outcome == Outcome::Finished).then(|| Tallies {
            unstruck,
            wide: Tally::default(),
            narrow: Tally::default(),
        })
    }

    /// Counts a strike, and what became of its run.
    pub fn add(&mut self, narrow: bool, struck: &Ended) {
        let end = match struck.outcome {
            Outcome::Alarm => End::Alarm,
            Outcome::Finished if struck.trace == self.unstruck.trace => End::Same,
            Outcome::Finished => End::Other,
            _ => End::Unfinished,
        };
        let lower = struck.outcome == Outcome::Finished && struck.fee() < self.unstruck.fee();
        let tally = if narrow { &mut self.narrow } else { &mut self.wide };
        tally.counts.add(end);
        tally.lower += u32::from(lower);
    }
}
