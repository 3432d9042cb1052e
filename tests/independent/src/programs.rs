//! The six programs by name: what each prints for its words and its input.

use std::io::{self, Read};

use crate::explain;
use crate::measure_text;
use crate::printed::Printed;
use crate::run_text;
use crate::sweep_text;
use crate::text;
use crate::usage;

#[derive(Clone, Copy, Debug, PartialEq, Eq)]
pub enum Program {
    Harden,
    Measure,
    Readback,
    Explain,
    Run,
    Sweep,
}

impl Program {
    const ALL: [Program; 6] = [
        Program::Harden,
        Program::Measure,
        Program::Readback,
        Program::Explain,
        Program::Run,
        Program::Sweep,
    ];

    pub fn name(self) -> &'static str {
        match self {
            Program::Harden => "harden",
            Program::Measure => "measure",
            Program::Readback => "readback",
            Program::Explain => "explain",
            Program::Run => "run",
            Program::Sweep => "sweep",
        }
    }

    pub fn named(name: &str) -> Option<Program> {
        Program::ALL.into_iter().find(|program| program.name() == name)
    }

    /// What the program prints; an error is one of reading.
    pub fn printed(self, words: &[Vec<u8>], input: impl Read) -> io::Result<Printed> {
        match self {
            Program::Harden => of_words_or(words, usage::HARDEN, || text::harden(input)),
            Program::Measure => of_words_or(words, usage::MEASURE, || measure_text::measure(input)),
            Program::Readback => of_words_or(words, usage::READBACK, || text::read_back(input)),
            Program::Explain => of_words_or(words, usage::EXPLAIN, || explain::explain(input)),
            Program::Run => run_text::run(words, input),
            Program::Sweep => sweep_text::sweep(words, input),
        }
    }
}

/// The usage where a word is given, else the answer.
fn of_words_or(
    words: &[Vec<u8>],
    usage: &str,
    answer: impl FnOnce() -> io::Result<Printed>,
) -> io::Result<Printed> {
    usage::of_words(words, usage).map_or_else(answer, Ok)
}
