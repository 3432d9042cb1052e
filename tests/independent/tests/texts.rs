//! The text of the hardening program and of its inverse.

mod listing;

use std::io::Read;

use independent::printed::Printed;
use independent::{limits, text};
use listing::{LINES, ROWS};

fn hardened(input: &str) -> String {
    text::harden(input.as_bytes()).unwrap().out
}

fn read_back(input: &str) -> String {
    text::read_back(input.as_bytes()).unwrap().out
}

#[test]
fn there_and_back() {
    let lines = hardened(ROWS);
    assert_eq!(lines, LINES);
    assert_eq!(read_back(&lines), ROWS);
}

#[test]
fn a_missing_last_newline_is_accepted() {
    assert_eq!(hardened(ROWS.trim_end()), hardened(ROWS));
    let lines = hardened(ROWS);
    assert_eq!(read_back(lines.trim_end()), ROWS);
}

#[test]
fn refusals() {
    assert_eq!(hardened(""), "refused 1\n");
    assert_eq!(hardened("010000000000\n"), "refused 4\n");
    assert_eq!(hardened("000000000000"), "refused 3\n");
    assert_eq!(hardened(&"ffffffffffff\n".repeat(1024)), "refused 3\n");
    assert_eq!(hardened(&"ffffffffffff\n".repeat(1025)), "refused 2\n");
    assert_eq!(hardened(&"ffffffffffff\n".repeat(9000)), "refused 2\n");
    assert_eq!(read_back(""), "refused 10\n");
    assert_eq!(read_back(&"28".repeat(20)), "refused 10\n");
    assert_eq!(read_back(&format!("{}\n", "28".repeat(20)).repeat(9000)), "refused 10\n");
}

/// Nothing is said beside an answer.
#[test]
fn standard_error_is_empty() {
    assert_eq!(text::harden(ROWS.as_bytes()).unwrap(), Printed::out(LINES));
    assert_eq!(text::harden(&b""[..]).unwrap(), Printed::out("refused 1\n"));
    assert_eq!(text::read_back(LINES.as_bytes()).unwrap(), Printed::out(ROWS));
    assert_eq!(text::read_back(&b""[..]).unwrap(), Printed::out("refused 10\n"));
}

#[test]
fn unreadable() {
    let bad = [
        "\n",
        "\n010000000000\n",
        "010000000000\n\n",
        "010000000000\r\n",
        "010000000000 \n",
        " 010000000000\n",
        "01000000000\n",
        "0100000000000\n",
        "010000000000060000000000\n",
        "01000000000A\n",
        "01000000000g\n",
        "01000000000\u{e9}\n",
        "0",
        "010000000000\n0",
        "010000000000\n0600",
        "010000000000\n06000000000\n",
        "refused 1\n",
        "010000000000\0\n",
    ];
    for input in bad {
        assert_eq!(hardened(input), "unreadable\n", "{input:?}");
    }
    let line = "2800000000000000000001000200000000000000";
    assert_eq!(read_back(line), "010000000000\n060000000000\n");
    for input in [
        &line[..39],
        &line[..38],
        &format!("{line}0"),
        &format!("{line}00\n"),
        "\n",
        "010000000000\n",
    ] {
        assert_eq!(read_back(input), "unreadable\n", "{input:?}");
    }
}

#[test]
fn unreadable_goes_before_every_refusal() {
    let long = "ffffffffffff\n".repeat(5000);
    assert_eq!(hardened(&format!("{long}x")), "unreadable\n");
    assert_eq!(hardened(&format!("{long}\n")), "unreadable\n");
    assert_eq!(hardened(&format!("0\n{long}")), "unreadable\n");
}

/// Gives one byte at a time.
struct Slow<'a>(&'a [u8]);

impl Read for Slow<'_> {
    fn read(&mut self, buffer: &mut [u8]) -> std::io::Result<usize> {
        let Some((first, rest)) = self.0.split_first() else {
            return Ok(0);
        };
        buffer[0] = *first;
        self.0 = rest;
        Ok(1)
    }
}

#[test]
fn however_the_input_comes() {
    assert_eq!(text::harden(Slow(ROWS.as_bytes())).unwrap(), Printed::out(LINES));
}

#[test]
fn the_largest_table() {
    let rows = text::lines(&limits::rows(1024), 6);
    let lines = hardened(&rows);
    assert_eq!(lines.lines().count(), 2045);
    assert_eq!(read_back(&lines), rows);
}
