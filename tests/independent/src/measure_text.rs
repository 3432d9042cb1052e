//! What the measuring program prints: the figures of the hardened table
//! (docs/PROGRAMS.md, "measure").

use std::io::{self, Read};

use crate::line::LINE_BYTES;
use crate::measure::{self, Measured};
use crate::printed::Printed;
use crate::records;
use crate::row::ROW_BYTES;

/// What `measure` prints for this input.
pub fn measure(input: impl Read) -> io::Result<Printed> {
    Ok(match records::read(input, ROW_BYTES)? {
        Err(malformed) => Printed::unreadable(&malformed),
        Ok(rows) => answer(measure::measure(&rows)),
    })
}

/// "Four lines": the three figures, "and its bytes, 20 for each line".
fn answer(measured: Measured) -> Printed {
    let Measured { number, lines, regions, value } = measured;
    if number != 0 {
        return Printed::refused(number);
    }
    let bytes = LINE_BYTES * lines;
    Printed::out(format!("lines {lines}\nregions {regions}\nvalue {value}\nbytes {bytes}\n"))
}
