//! What `independent evaluate` prints: how the strikes of a card end, before hardening and
//! after it (docs/EVALUATION.md).

use std::io::{self, Read};

use crate::copied_sweep;
use crate::harden;
use crate::machine::Variables;
use crate::printed::Printed;
use crate::records;
use crate::refusal::Refusal;
use crate::row::ROW_BYTES;
use crate::run_words::{number, once};
use crate::source_sweep;
use crate::sweep::Counts;
use crate::table;
use crate::tallies::{Tallies, Tally};

/// The first values and the budget of all runs.
#[derive(Clone, Copy, Debug, PartialEq, Eq)]
pub struct Asked {
    pub variables: Variables,
    pub budget: u16,
}

impl Asked {
    /// `budget=N` and `v0=N` to `v15=N`, each once at most, as `sweep` takes them; none where
    /// a word is wrong.
    pub fn read(words: &[&str]) -> Option<Asked> {
        let mut values = [None; 16];
        let mut budget = None;
        for word in words {
            let (key, value) = word.split_once('=')?;
            let slot = match (0..16).find(|at| key == format!("v{at}")) {
                Some(at) => &mut values[at],
                None if key == "budget" => &mut budget,
                None => return None,
            };
            once(slot, number(value)?, key).ok()?;
        }
        let variables = values.map(|value| value.unwrap_or(0));
        Some(Asked { variables, budget: budget.unwrap_or(65_535) })
    }
}

/// What is printed for the card whose rows are the input.
pub fn evaluate(asked: Asked, input: impl Read) -> io::Result<Printed> {
    Ok(match records::read(input, ROW_BYTES)? {
        Err(malformed) => Printed::unreadable(&malformed),
        Ok(rows) => match answer(asked, &rows) {
            Ok(text) => Printed::out(text),
            Err(refusal) => Printed::refused(refusal.number()),
        },
    })
}

/// 13 where one of the two unstruck runs does not finish in the budget.
fn answer(asked: Asked, rows: &[u8]) -> Result<String, Refusal> {
    let Asked { variables, budget } = asked;
    let table = table::parse(rows)?;
    let lines = harden::lines(&table);
    let before = source_sweep::sweep(&table, variables, budget).ok_or(Refusal::Unfinished)?;
    let after = copied_sweep::sweep(&lines, variables, budget).ok_or(Refusal::Unfinished)?;
    let size =
        format!("rows {}\nchain {}\nlines {}\n", rows.len() / ROW_BYTES, table.rows, lines.len());
    Ok(size + &told("unhardened", &before) + &told("hardened", &after))
}

fn told(name: &str, tallies: &Tallies) -> String {
    let Tallies { unstruck, wide, narrow } = tallies;
    format!(
        "{name} steps {}\n{name} fee {}\n{name} wide {}\n{name} narrow {}\n",
        unstruck.steps,
        unstruck.fee(),
        counted(wide),
        counted(narrow)
    )
}

fn counted(tally: &Tally) -> String {
    let Counts { alarms, same, other, unfinished } = tally.counts;
    format!(
        "strikes {} alarm {alarms} same {same} other {other} unfinished {unfinished} lower {}",
        tally.strikes(),
        tally.lower
    )
}
