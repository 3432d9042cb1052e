//! What the program that runs a table at the bench prints: `run source` and `run
//! hardened` (docs/PROGRAMS.md, "run").

use std::fmt::Write;
use std::io::{self, Read};

use crate::hardened_run::{HardenedRun, Jump, Sight, What};
use crate::line::{self, LINE_BYTES};
use crate::machine::{Outcome, MOST_OPEN_FUNCTIONS, NO_JUMP};
use crate::printed::Printed;
use crate::readback;
use crate::records;
use crate::refusal::Refusal;
use crate::row::ROW_BYTES;
use crate::run_jump_text;
use crate::run_words::{self, Asked};
use crate::source_run::SourceRun;
use crate::table;

/// "A trace of at most 20 rows stands on its line"; of a longer one so many stand
/// on each.
const TRACE_LINE: usize = 20;

/// What the program writes for these words (its own name not among them) and
/// this input.
pub fn run(words: &[Vec<u8>], input: impl Read) -> io::Result<Printed> {
    match run_words::read(words) {
        Ok(asked) => of_input(&asked, input),
        Err(instead) => Ok(instead),
    }
}

fn of_input(asked: &Asked, input: impl Read) -> io::Result<Printed> {
    let width = if asked.hardened { LINE_BYTES } else { ROW_BYTES };
    let told = match records::read(input, width)? {
        Err(malformed) => Printed::unreadable(&malformed),
        Ok(bytes) => of_table(asked, &bytes),
    };
    Ok(Printed { err: [told_before(asked).as_bytes(), &told.err].concat(), ..told })
}

fn of_table(asked: &Asked, bytes: &[u8]) -> Printed {
    let ran = if asked.hardened { hardened(asked, bytes) } else { source(asked, bytes) };
    match ran {
        Ok(out) => Printed::out(out),
        Err(refusal) => Printed::refused(refusal.number()),
    }
}

/// "`jump=65535:P` is accepted and told on standard error once all words are
/// taken, before the input is read"
fn told_before(asked: &Asked) -> &'static str {
    match asked.jump {
        Some((NO_JUMP, _)) => "step 65535 is no jump: no budget holds it\n",
        _ => "",
    }
}

fn source(asked: &Asked, rows: &[u8]) -> Result<String, Refusal> {
    let table = table::parse(rows)?;
    let mut run = SourceRun::new(&table, asked.variables, asked.budget);
    let outcome = run.run();
    let mut text = String::new();
    if asked.show {
        for (step, at) in run.reached.iter().enumerate() {
            line(
                &mut text,
                format!("step {step} function {} row {} {}", at.function, at.row, at.word),
            );
        }
        let row = run.reached.last().map(|at| at.row);
        text.push_str(&limit_met(outcome, row, None));
    }
    text.push_str(&ended(asked, outcome, run.steps, &run.trace));
    line(&mut text, format!("calls {}", run.calls));
    line(&mut text, listed("variables", &run.variables));
    Ok(text)
}

fn hardened(asked: &Asked, bytes: &[u8]) -> Result<String, Refusal> {
    readback::source_of(bytes)?;
    let lines = line::from_bytes(bytes);
    let jump = asked.jump.filter(|(k, _)| *k != NO_JUMP).map(|(k, place)| Jump { k, place });
    let mut run = HardenedRun::new(&lines, asked.variables);
    let mut text = String::new();
    let outcome = run.run_seen(asked.budget, jump, &mut |step, sight| {
        if asked.show {
            line(&mut text, seen(step, &sight));
        }
    });
    if asked.show {
        let row = run.line().map(|line| usize::from(line.e));
        text.push_str(&limit_met(outcome, row, Some(run.span().m)));
    }
    if let Some(jump) = jump {
        text.push_str(&run_jump_text::told(&lines, asked.variables, asked.budget, jump));
    }
    text.push_str(&ended(asked, outcome, run.steps, &run.trace));
    line(&mut text, listed("variables", &run.variables));
    Ok(text)
}

fn line(text: &mut String, line: String) {
    writeln!(text, "{line}").expect("a string takes all");
}

/// A jump or a step, as `show` lists it.
fn seen(step: u16, sight: &Sight) -> String {
    match sight {
        Sight::Jump { place } => format!("jump to place {place}"),
        Sight::Step { function, place, what } => {
            format!("step {step} function {function} place {place} {}", looked_at(what))
        }
    }
}

fn looked_at(what: &What) -> String {
    let mut text = what.word.to_string();
    for (region, value) in &what.counters {
        text.push_str(&format!(" counter {region} holds {value}"));
    }
    if let Some(value) = what.ended {
        text.push_str(&format!(" ended {value}"));
    }
    text
}

/// "Where the run ends because a limit was met, a line behind the steps says
/// which". The row is that of the do which the run stopped at. The last place is m of
/// the running function; a source run has none.
fn limit_met(outcome: Outcome, row: Option<usize>, last_place: Option<usize>) -> String {
    match (outcome, row, last_place) {
        (Outcome::TooManyOpen, ..) => format!("{MOST_OPEN_FUNCTIONS} functions are open\n"),
        (Outcome::PlaceBeyond, _, Some(m)) => format!("the last place is {m}\n"),
        (Outcome::Overflow, Some(row), _) => format!("row {row} overflows\n"),
        _ => String::new(),
    }
}

/// "An accepted run prints four lines, a source run one more": these are outcome, steps
/// and trace, behind which a source run's calls stand, then the variables.
fn ended(asked: &Asked, outcome: Outcome, steps: u16, trace: &[u16]) -> String {
    let mut text = String::new();
    line(&mut text, format!("outcome {} {}", outcome.number(), outcome.words()));
    line(&mut text, format!("steps {steps}"));
    text.push_str(&traced(trace, asked.trace));
    text
}

/// The trace on its line, or its length, and with the word `trace` the rows too.
fn traced(trace: &[u16], all: bool) -> String {
    let mut text = String::new();
    let rows = trace.len();
    if rows <= TRACE_LINE {
        line(&mut text, listed("trace", trace));
    } else if all {
        line(&mut text, format!("trace of {rows} rows"));
        trace.chunks(TRACE_LINE).for_each(|some| line(&mut text, listed("", some)));
    } else {
        line(&mut text, format!("trace of {rows} rows, listed with the word trace"));
    }
    text
}

/// A name and the numbers, a space before each.
fn listed(name: &str, numbers: &[u16]) -> String {
    numbers.iter().fold(name.to_string(), |text, number| text + &format!(" {number}"))
}
