//! The usage of the six programs, copied by hand from docs/PROGRAMS.md, and the
//! words for failures.

use std::io::{self, Read};

use independent::printed::{self, Printed};
use independent::programs::Program;

const USAGES: [(Program, &str); 6] = [
    (
        Program::Harden,
        "usage: harden < rows\n\
         Reads a source table, 12 hexadecimal digits to a line, and prints its hardened lines, or \
         refused N, or unreadable.\n",
    ),
    (
        Program::Measure,
        "usage: measure < rows\n\
         Reads a source table, 12 hexadecimal digits to a line, and prints the figures of its \
         hardened table, or refused N, or unreadable.\n",
    ),
    (
        Program::Readback,
        "usage: readback < lines\n\
         Reads a hardened table, 40 hexadecimal digits to a line, and prints the rows of its \
         source table, or refused 10, or unreadable.\n",
    ),
    (
        Program::Explain,
        "usage: explain < rows\n\
         Reads a source table, 12 hexadecimal digits to a line, and prints accepted, or which row \
         is refused and why, or unreadable.\n",
    ),
    (
        Program::Run,
        "usage: run source [budget=N] [v0=N .. v15=N] [trace] [show] < rows\n       \
         run hardened [budget=N] [v0=N .. v15=N] [jump=STEP:PLACE] [trace] [show] < lines\n\
         N, STEP and PLACE are 0 to 65535. Without budget= it is 65535, without v0= to v15= they \
         are 0, without jump= there is no jump.\n\
         trace lists a trace of more than 20 rows, show lists each step.\n",
    ),
    (
        Program::Sweep,
        "usage: sweep [budget=N] [v0=N .. v15=N] [list] < lines\n       \
         sweep [budget=N] [v0=N .. v15=N] map [function=F] < lines\n\
         N is 0 to 65535, F 0 to 31. Without budget= it is 65535, without v0= to v15= and \
         function= they are 0.\n\
         list lists each jump across one do that finished with another trace.\n\
         map draws how every jump inside function F ends, as an SVG picture.\n",
    ),
];

/// Reading it is an error.
struct Unread;

impl Read for Unread {
    fn read(&mut self, _: &mut [u8]) -> io::Result<usize> {
        Err(io::Error::from_raw_os_error(21))
    }
}

/// What is printed where no input is read.
fn unread(program: Program, words: &[&str]) -> Printed {
    let words: Vec<Vec<u8>> = words.iter().map(|word| word.as_bytes().to_vec()).collect();
    program.printed(&words, Unread).unwrap()
}

#[test]
fn asked_for() {
    for (program, usage) in USAGES {
        assert_eq!(unread(program, &["--help"]), Printed::out(usage));
        assert_eq!(unread(program, &["--help", "x", "--help"]), Printed::out(usage));
    }
}

#[test]
fn met() {
    for (program, usage) in &USAGES[..4] {
        for word in ["x", "", "source", "-h", "--Help", "--help=1", "-"] {
            assert_eq!(unread(*program, &[word]), Printed::err(*usage));
            assert_eq!(unread(*program, &[word, "--help"]), Printed::err(*usage));
        }
    }
    let (program, usage) = USAGES[4];
    assert_eq!(unread(program, &[]), Printed::err(usage));
}

/// Behind another word of `run` or `sweep` it is a word that is none.
#[test]
fn wrong_word() {
    let line = "wrong word \"--help\": expected budget=0..65535, v0..v15=0..65535, trace or show\n";
    assert_eq!(unread(Program::Run, &["source", "--help"]), Printed::err(line));
    let line = "wrong word \"--help\": expected budget=0..65535, v0..v15=0..65535, list, map or \
        function=0..31\n";
    assert_eq!(unread(Program::Sweep, &["list", "--help"]), Printed::err(line));
    assert_eq!(unread(Program::Sweep, &["map", "--help"]), Printed::err(line));
}

/// `function=` without `map` is told with no input read.
#[test]
fn a_word_missing() {
    let line = "function= needs the word map\n";
    assert_eq!(unread(Program::Sweep, &["v1=1", "function=0"]), Printed::err(line));
}

#[test]
fn failures() {
    for (program, words) in [
        (Program::Harden, vec![]),
        (Program::Measure, vec![]),
        (Program::Readback, vec![]),
        (Program::Explain, vec![]),
        (Program::Run, vec![b"source".to_vec()]),
        (Program::Run, vec![b"hardened".to_vec()]),
        (Program::Sweep, vec![]),
        (Program::Sweep, vec![b"list".to_vec()]),
        (Program::Sweep, vec![b"map".to_vec(), b"function=31".to_vec()]),
    ] {
        let error = program.printed(&words, Unread).unwrap_err();
        let line = "cannot read standard input: Is a directory";
        assert_eq!(printed::cannot_read(&error), line);
    }
    let full = io::Error::from_raw_os_error(28);
    let line = "cannot write standard output: No space left on device";
    assert_eq!(printed::cannot_write(&full), line);
}

#[test]
fn names() {
    for (program, usage) in USAGES {
        assert_eq!(Program::named(program.name()), Some(program));
        assert!(usage.starts_with(&format!("usage: {} ", program.name())));
    }
    assert_eq!(Program::named("replay"), None);
}
