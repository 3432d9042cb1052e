//! The usage of the six programs (docs/PROGRAMS.md, "Usage"), and when it is
//! printed.

use crate::printed::Printed;

pub const HARDEN: &str = "\
usage: harden < rows
Reads a source table, 12 hexadecimal digits to a line, and prints its hardened lines, or refused N, or unreadable.
";

pub const MEASURE: &str = "\
usage: measure < rows
Reads a source table, 12 hexadecimal digits to a line, and prints the figures of its hardened table, or refused N, or unreadable.
";

pub const READBACK: &str = "\
usage: readback < lines
Reads a hardened table, 40 hexadecimal digits to a line, and prints the rows of its source table, or refused 10, or unreadable.
";

pub const EXPLAIN: &str = "\
usage: explain < rows
Reads a source table, 12 hexadecimal digits to a line, and prints accepted, or which row is refused and why, or unreadable.
";

pub const RUN: &str = "\
usage: run source [budget=N] [v0=N .. v15=N] [trace] [show] < rows
       run hardened [budget=N] [v0=N .. v15=N] [jump=STEP:PLACE] [trace] [show] < lines
N, STEP and PLACE are 0 to 65535. Without budget= it is 65535, without v0= to v15= they are 0, without jump= there is no jump.
trace lists a trace of more than 20 rows, show lists each step.
";

pub const SWEEP: &str = "\
usage: sweep [budget=N] [v0=N .. v15=N] [list] < lines
       sweep [budget=N] [v0=N .. v15=N] map [function=F] < lines
N is 0 to 65535, F 0 to 31. Without budget= it is 65535, without v0= to v15= and function= they are 0.
list lists each jump across one do that finished with another trace.
map draws how every jump inside function F ends, as an SVG picture.
";

/// "the first word is `--help`"
pub fn is_help(word: &[u8]) -> bool {
    word == b"--help"
}

/// What `harden`, `measure`, `readback` or `explain` prints where a word is given: its
/// usage, to standard output if it was asked for. No input is read then.
pub fn of_words(words: &[Vec<u8>], usage: &str) -> Option<Printed> {
    let first = words.first()?;
    Some(if is_help(first) { Printed::out(usage) } else { Printed::err(usage) })
}
