//! The command line of the program that sweeps a table (docs/PROGRAMS.md, "sweep").

use crate::machine::Variables;
use crate::printed::Printed;
use crate::run_words::{number, once, wrong, LONGEST_WORD, TOO_LONG};
use crate::usage;

/// All that a word may be.
const ANY: &str = "budget=0..65535, v0..v15=0..65535, list, map or function=0..31";

/// "the second of `list` and `map`"
const NOT_BOTH: &str = "list or map, not both";

/// A table has at most 32 functions.
const LAST_FUNCTION: u16 = 31;

/// What is asked of a sweep.
#[derive(Clone, Debug, PartialEq, Eq)]
pub struct Asked {
    pub list: bool,
    /// the function to draw, where a map is asked for
    pub map: Option<usize>,
    pub budget: u16,
    pub variables: Variables,
}

/// What is asked, or what is printed instead: the usage, the line for the first wrong
/// word, or the one for a function without a map.
pub fn read(words: &[Vec<u8>]) -> Result<Asked, Printed> {
    if words.first().is_some_and(|first| usage::is_help(first)) {
        return Err(Printed::out(usage::SWEEP));
    }
    let mut line = Line::default();
    for word in words {
        line.take(word).map_err(|expected| wrong(word, &expected))?;
    }
    if line.function.is_some() && line.map.is_none() {
        return Err(Printed::err("function= needs the word map\n"));
    }
    Ok(line.asked())
}

/// The words so far; nothing is given twice.
#[derive(Default)]
struct Line {
    list: Option<()>,
    map: Option<()>,
    function: Option<u16>,
    budget: Option<u16>,
    variables: [Option<u16>; 16],
}

impl Line {
    /// "Without budget= it is 65535, without v0= to v15= and function= they are 0."
    fn asked(&self) -> Asked {
        Asked {
            list: self.list.is_some(),
            map: self.map.map(|()| usize::from(self.function.unwrap_or(0))),
            budget: self.budget.unwrap_or(65_535),
            variables: self.variables.map(|value| value.unwrap_or(0)),
        }
    }

    /// Takes a word, or says what was expected.
    fn take(&mut self, word: &[u8]) -> Result<(), String> {
        if word.len() > LONGEST_WORD {
            return Err(TOO_LONG.to_string());
        }
        // bytes that are no text make no right word either way
        let text = &*String::from_utf8_lossy(word);
        match text {
            "list" if self.map.is_some() => return Err(NOT_BOTH.to_string()),
            "map" if self.list.is_some() => return Err(NOT_BOTH.to_string()),
            "list" => return once(&mut self.list, (), text),
            "map" => return once(&mut self.map, (), text),
            _ => {}
        }
        let (key, value) = text.split_once('=').ok_or(ANY)?;
        let (slot, last) = self.slot(key).ok_or(ANY)?;
        let value = number(value).filter(|value| *value <= last);
        once(slot, value.ok_or(format!("{key}=0..{last}"))?, key)
    }

    /// Where the number behind `budget=`, `v3=` or `function=` goes, and the highest that
    /// it may be.
    fn slot(&mut self, key: &str) -> Option<(&mut Option<u16>, u16)> {
        match key {
            "budget" => return Some((&mut self.budget, 65_535)),
            "function" => return Some((&mut self.function, LAST_FUNCTION)),
            _ => {}
        }
        let at = (0..16).find(|k| key == format!("v{k}"))?;
        Some((&mut self.variables[at], 65_535))
    }
}
