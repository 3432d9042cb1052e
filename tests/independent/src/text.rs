//! What the hardening program and its inverse print (01, "A table and its
//! listing"; docs/PROGRAMS.md).

use std::io::{self, Read};

use crate::calls;
use crate::line::LINE_BYTES;
use crate::printed::Printed;
use crate::readback::MOST_LINES;
use crate::records;
use crate::row::ROW_BYTES;
use crate::table::LIMITS;

/// What `harden` prints for this input.
pub fn harden(input: impl Read) -> io::Result<Printed> {
    Ok(match records::read(input, ROW_BYTES)? {
        Err(malformed) => Printed::unreadable(&malformed),
        Ok(rows) => {
            let mut out = vec![0; MOST_LINES * LINE_BYTES];
            let written = calls::harden(&rows, &mut out);
            answer(written, &out, LINE_BYTES)
        }
    })
}

/// What `readback` prints: lines of 40 digits in, rows of 12 out.
pub fn read_back(input: impl Read) -> io::Result<Printed> {
    Ok(match records::read(input, LINE_BYTES)? {
        Err(malformed) => Printed::unreadable(&malformed),
        Ok(lines) => {
            let mut out = vec![0; LIMITS.rows * ROW_BYTES];
            let written = calls::read_back(&lines, &mut out);
            answer(written, &out, ROW_BYTES)
        }
    })
}

/// The records of the answer, "or only a line such as `refused 4`".
fn answer(written: calls::Written, out: &[u8], width: usize) -> Printed {
    match written.number {
        0 => Printed::out(lines(&out[..written.length], width)),
        number => Printed::refused(number),
    }
}

/// A record on a line; bytes that are no whole record make a short last line.
pub fn lines(bytes: &[u8], width: usize) -> String {
    bytes.chunks(width).flat_map(|record| [hex(record), "\n".to_string()]).collect()
}

/// Lowercase hexadecimal digits, two a byte.
pub fn hex(bytes: &[u8]) -> String {
    let digit = |nibble: u8| char::from_digit(u32::from(nibble), 16).expect("below 16");
    bytes.iter().flat_map(|byte| [digit(byte >> 4), digit(byte & 15)]).collect()
}
