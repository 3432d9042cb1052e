//! What a program writes to standard output and to standard error
//! (docs/PROGRAMS.md, what all programs share).

use std::io;

use crate::records::Malformed;

/// All that a program writes. A wrong word stands in `err` as it was given, and
/// need not be text.
#[derive(Clone, Debug, Default, PartialEq, Eq)]
pub struct Printed {
    pub out: String,
    pub err: Vec<u8>,
}

impl Printed {
    pub fn out(text: impl Into<String>) -> Printed {
        Printed { out: text.into(), err: Vec::new() }
    }

    pub fn err(text: impl Into<Vec<u8>>) -> Printed {
        Printed { out: String::new(), err: text.into() }
    }

    /// "the table is turned away"
    pub fn refused(number: u8) -> Printed {
        Printed::out(format!("refused {number}\n"))
    }

    /// "a line is malformed"
    pub fn unreadable(malformed: &Malformed) -> Printed {
        let Malformed { line, words } = malformed;
        let err = format!("line {line}: {words}\n").into_bytes();
        Printed { out: "unreadable\n".to_string(), err }
    }
}

/// "reading fails"
pub fn cannot_read(error: &io::Error) -> String {
    format!("cannot read standard input: {}", system_words(error))
}

/// "writing fails"
pub fn cannot_write(error: &io::Error) -> String {
    format!("cannot write standard output: {}", system_words(error))
}

/// "the system's words", without the number that Rust puts behind them.
fn system_words(error: &io::Error) -> String {
    let text = error.to_string();
    text.split(" (os error").next().expect("a part before it").to_string()
}
