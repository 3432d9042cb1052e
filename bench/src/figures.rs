//! How much the hardened table of a source table takes (02, No. 2). No line is written: what the
//! check notes has it all.

use crate::table::{self, Refusal, Shape};

/// The lines of a hardened table, the most regions of a function, and the highest counter value.
pub struct Figures {
    pub lines: u16,
    pub regions: u8,
    pub value: u16,
}

/// Checks the table and takes its figures from its shape. Regions have their values one after the
/// other, from 1, so the highest value is the sum of their sizes.
pub fn measure(rows: &[u8]) -> Result<Figures, Refusal> {
    let (_, shape) = table::read(rows)?;
    let value = shape.sizes.iter().sum();
    Ok(Figures { lines: shape.lines, regions: most_regions(&shape), value })
}

/// The regions of a function are those from its body up to the next function's. The heads behind
/// the last function's are 0, and so is the first function's.
fn most_regions(shape: &Shape) -> u8 {
    let heads = shape.heads.iter().rev().skip_while(|head| **head == 0);
    let (mut most, mut end) = (0, shape.sizes.len() as u16);
    for head in heads.chain([&0]) {
        let body = shape.places[usize::from(*head) + 1].region;
        most = most.max(end - body);
        end = body;
    }
    most as u8
}
