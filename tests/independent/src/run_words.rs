//! The command line of the program that runs a table at the bench
//! (docs/PROGRAMS.md, "run").

use crate::machine::Variables;
use crate::printed::Printed;
use crate::usage;

/// The longest word that the program takes.
pub const LONGEST_WORD: usize = 4096;

/// What is asked of a run.
#[derive(Clone, Debug, PartialEq, Eq)]
pub struct Asked {
    pub hardened: bool,
    pub trace: bool,
    pub show: bool,
    pub budget: u16,
    /// the step and the place of a jump
    pub jump: Option<(u16, u16)>,
    pub variables: Variables,
}

/// What is asked, or what is printed instead: the usage, or the line for the
/// first wrong word.
pub fn read(words: &[Vec<u8>]) -> Result<Asked, Printed> {
    let Some((first, rest)) = words.split_first() else {
        return Err(Printed::err(usage::RUN));
    };
    let hardened = match &first[..] {
        help if usage::is_help(help) => return Err(Printed::out(usage::RUN)),
        _ if first.len() > LONGEST_WORD => return Err(wrong(first, TOO_LONG)),
        b"source" => false,
        b"hardened" => true,
        _ => return Err(wrong(first, "source or hardened")),
    };
    let mut line = Line::new(hardened);
    for word in rest {
        line.take(word).map_err(|expected| wrong(word, &expected))?;
    }
    Ok(line.asked())
}

/// What is expected in place of a longer one.
pub const TOO_LONG: &str = "at most 4096 bytes";

/// One line: control characters are shown as question marks, and no more of the
/// word than its first 4,096 bytes.
pub fn wrong(word: &[u8], expected: &str) -> Printed {
    let shown = word.iter().take(LONGEST_WORD);
    let mut text = b"wrong word \"".to_vec();
    text.extend(shown.map(|byte| if byte.is_ascii_control() { b'?' } else { *byte }));
    text.extend(format!("\": expected {expected}\n").bytes());
    Printed::err(text)
}

/// The words so far; nothing is given twice.
struct Line {
    hardened: bool,
    trace: Option<()>,
    show: Option<()>,
    budget: Option<u16>,
    jump: Option<(u16, u16)>,
    variables: [Option<u16>; 16],
}

impl Line {
    fn new(hardened: bool) -> Line {
        let variables = [None; 16];
        Line { hardened, trace: None, show: None, budget: None, jump: None, variables }
    }

    /// "Without budget= it is 65535, without v0= to v15= they are 0, without jump=
    /// there is no jump."
    fn asked(&self) -> Asked {
        Asked {
            hardened: self.hardened,
            trace: self.trace.is_some(),
            show: self.show.is_some(),
            budget: self.budget.unwrap_or(65_535),
            jump: self.jump,
            variables: self.variables.map(|value| value.unwrap_or(0)),
        }
    }

    /// Takes a word, or says what was expected.
    fn take(&mut self, word: &[u8]) -> Result<(), String> {
        if word.len() > LONGEST_WORD {
            return Err(TOO_LONG.to_string());
        }
        // bytes that are no text make no right word either way
        let text = &*String::from_utf8_lossy(word);
        match text {
            "trace" => return once(&mut self.trace, (), text),
            "show" => return once(&mut self.show, (), text),
            _ => {}
        }
        let (key, value) = text.split_once('=').ok_or_else(|| self.any())?;
        match key {
            "budget" => {
                let steps = number(value).ok_or("budget=0..65535")?;
                once(&mut self.budget, steps, key)
            }
            "jump" => self.take_jump(value),
            _ => self.take_variable(key, value),
        }
    }

    fn take_jump(&mut self, value: &str) -> Result<(), String> {
        if !self.hardened {
            return Err("jump in a hardened run only".to_string());
        }
        let both = value.split_once(':').and_then(|(k, place)| Some((number(k)?, number(place)?)));
        once(&mut self.jump, both.ok_or("jump=STEP:PLACE, each 0..65535")?, "jump")
    }

    fn take_variable(&mut self, key: &str, value: &str) -> Result<(), String> {
        let at = (0..16).find(|k| key == format!("v{k}")).ok_or_else(|| self.any())?;
        let value = number(value).ok_or(format!("{key}=0..65535"))?;
        once(&mut self.variables[at], value, key)
    }

    /// All that may stand behind the first word.
    fn any(&self) -> String {
        let jump = if self.hardened { ", jump=STEP:PLACE" } else { "" };
        format!("budget=0..65535, v0..v15=0..65535{jump}, trace or show")
    }
}

/// Takes a value that none was given for yet.
pub fn once<T>(slot: &mut Option<T>, value: T, name: &str) -> Result<(), String> {
    match slot.replace(value) {
        None => Ok(()),
        Some(_) => Err(format!("{name} only once")),
    }
}

/// Decimal digits and nothing else, 0 to 65,535. (`parse` alone would take a
/// plus sign.)
pub fn number(digits: &str) -> Option<u16> {
    if !digits.bytes().all(|byte| byte.is_ascii_digit()) {
        return None;
    }
    digits.parse().ok()
}
