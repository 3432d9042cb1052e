//! What the program that sweeps a table prints (docs/PROGRAMS.md, "sweep").

use std::io::{self, Read};

use crate::hardened_run::{spans_of, Span};
use crate::line::{self, Line, LINE_BYTES};
use crate::map_picture::Map;
use crate::printed::Printed;
use crate::readback;
use crate::records;
use crate::refusal::Refusal;
use crate::sweep::{Counts, End, Strike, Sweep};
use crate::sweep_words::{self, Asked};

/// What `sweep` prints for these words (its own name not among them) and this input.
pub fn sweep(words: &[Vec<u8>], input: impl Read) -> io::Result<Printed> {
    match sweep_words::read(words) {
        Ok(asked) => of_input(&asked, input),
        Err(instead) => Ok(instead),
    }
}

fn of_input(asked: &Asked, input: impl Read) -> io::Result<Printed> {
    Ok(match records::read(input, LINE_BYTES)? {
        Err(malformed) => Printed::unreadable(&malformed),
        Ok(bytes) => {
            answer(asked, &bytes).unwrap_or_else(|refusal| Printed::refused(refusal.number()))
        }
    })
}

/// The program lends enough: of the refusals 10 and 13 are left.
fn answer(asked: &Asked, bytes: &[u8]) -> Result<Printed, Refusal> {
    readback::source_of(bytes)?;
    let lines = line::from_bytes(bytes);
    let sweep = Sweep::new(&lines, asked.variables, asked.budget).ok_or(Refusal::Unfinished)?;
    Ok(match asked.map {
        Some(function) => mapped(function, &lines, &sweep),
        None => Printed::out(four_lines(asked.list, &sweep)),
    })
}

/// The picture of a function, if it is there.
fn mapped(function: usize, lines: &[Line], sweep: &Sweep) -> Printed {
    let spans = spans_of(lines);
    let last = spans.len() - 1;
    match spans.get(function) {
        Some(Span { first, m }) => {
            Printed::out(Map::new(function, &lines[*first..first + m], sweep).picture())
        }
        None => Printed::err(format!("function {function} is not there: the last one is {last}\n")),
    }
}

/// The counts, with the jumps before them that are to be listed.
fn four_lines(list: bool, sweep: &Sweep) -> String {
    let mut counts = Counts::default();
    let mut text = String::new();
    for strike in sweep.strikes() {
        counts.add(strike.end);
        if list {
            text.push_str(&listed(sweep, &strike));
        }
    }
    text + &counted(counts)
}

/// The line of a narrow jump that finished with another trace; nothing for any other.
fn listed(sweep: &Sweep, strike: &Strike) -> String {
    let Strike { k, function, from, to, end } = *strike;
    match sweep.crossed(strike) {
        Some(row) if end == End::Other => {
            let what = if from < to { "left out" } else { "done twice" };
            format!(
                "step {k} function {function} from place {from} to place {to} row {row} {what}\n"
            )
        }
        _ => String::new(),
    }
}

/// "An answer is four lines"
fn counted(counts: Counts) -> String {
    let Counts { alarms, same, other, unfinished } = counts;
    format!("alarm {alarms}\nsame {same}\nother {other}\nunfinished {unfinished}\n")
}
