//! Lines of digits, and what is wrong with the first malformed one
//! (docs/PROGRAMS.md, what all programs share and "A malformed line").

use std::io::{self, Read};

/// The first malformed line, counted from 1, and the words for it.
#[derive(Clone, Debug, PartialEq, Eq)]
pub struct Malformed {
    pub line: usize,
    pub words: String,
}

/// The bytes that the lines of the whole input spell, each line `width` of them.
pub fn read(mut input: impl Read, width: usize) -> io::Result<Result<Vec<u8>, Malformed>> {
    let mut text = Vec::new();
    input.read_to_end(&mut text)?;
    Ok(of_text(&text, width))
}

/// The same of a text.
pub fn of_text(text: &[u8], width: usize) -> Result<Vec<u8>, Malformed> {
    let lines = lines_of(text);
    for (before, line) in lines.iter().enumerate() {
        if let Some(words) = wrong(line, 2 * width) {
            return Err(Malformed { line: before + 1, words });
        }
    }
    Ok(lines.concat().chunks(2).map(|pair| nibble(pair[0]) << 4 | nibble(pair[1])).collect())
}

/// "each line ended by a newline; behind the last one it may be missing": what
/// stands behind the last newline is a line only if it is something.
fn lines_of(text: &[u8]) -> Vec<&[u8]> {
    let mut lines: Vec<&[u8]> = text.split(|byte| *byte == b'\n').collect();
    if lines.last().is_some_and(|rest| rest.is_empty()) {
        lines.pop();
    }
    lines
}

/// "The bytes of a line are looked at in order, and the first that is wrong
/// decides"; its newline, or the end of the input, comes last.
fn wrong(line: &[u8], digits: usize) -> Option<String> {
    let of_byte = |(before, byte): (usize, &u8)| wrong_byte(*byte, before, digits);
    line.iter().enumerate().find_map(of_byte).or_else(|| wrong_end(line.len(), digits))
}

/// A byte of a line with so many right digits before it.
fn wrong_byte(byte: u8, before: usize, digits: usize) -> Option<String> {
    match byte {
        b'\r' => Some("a carriage return".to_string()),
        _ if before == digits => Some(format!("more than {digits} digits")),
        b'0'..=b'9' | b'a'..=b'f' => None,
        b'A'..=b'F' => Some("an uppercase digit".to_string()),
        b' ' | b'\t' => Some("a space".to_string()),
        _ => Some("a byte that is no digit".to_string()),
    }
}

/// The end of a line that has so many digits.
fn wrong_end(there: usize, digits: usize) -> Option<String> {
    match there {
        0 => Some("an empty line".to_string()),
        _ if there < digits => Some(format!("{there} digits, not {digits}")),
        _ => None,
    }
}

/// The value of a lowercase hexadecimal digit.
fn nibble(digit: u8) -> u8 {
    match digit {
        b'0'..=b'9' => digit - b'0',
        b'a'..=b'f' => digit - b'a' + 10,
        _ => unreachable!("no other byte stands in a line that is right"),
    }
}
