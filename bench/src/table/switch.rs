//! Tables with switches (02, No. 1). The rows that each row stands for go through the same walk;
//! together they are the chain, which is hardened and run.

use super::{
    n_of, no_fields, operands, unless, Place, Refusal, Row, Shape, Walk, BREAK, CALL, CONTINUE, DO,
    ELSE, END, FUNCTION, IF, LOOP, MOST_FUNCTIONS, MOST_ROWS, ROW_BYTES,
};
use std::borrow::Cow;

pub const SWITCH: u8 = 0x0a;
pub const CASE: u8 = 0x0b;
pub const DEFAULT: u8 = 0x0c;

/// Reads a table: its rows, or those of its chain where it has switches, and their shape. A table
/// without a switch is read once and not copied.
pub fn read(bytes: &[u8]) -> Result<(Cow<'_, [u8]>, Shape), Refusal> {
    match Shape::read(bytes) {
        Ok(shape) => Ok((Cow::Borrowed(bytes), shape)),
        Err(refusal @ (Refusal::NoWholeRows | Refusal::TooManyRows)) => Err(refusal),
        Err(refusal) => {
            let (rows, _) = bytes.as_chunks::<ROW_BYTES>();
            let has_switch = rows.iter().any(|row| (SWITCH..=DEFAULT).contains(&row[0]));
            unless(!has_switch, refusal)?;
            read_chain(rows)
        }
    }
}

/// A switch that is open.
struct Open {
    p: u8,
    /// What is open around it.
    depth: usize,
    cases: Vec<u16>,
    has_default: bool,
}

#[cold]
fn read_chain(rows: &[Row]) -> Result<(Cow<'_, [u8]>, Shape), Refusal> {
    // a case stands for an else, an if and an end
    let mut places = vec![Place::default(); 3 * rows.len()];
    let mut sizes = vec![0; 3 * rows.len()];
    let mut heads = [0; MOST_FUNCTIONS];
    let walk = Walk::new(&mut places, &mut sizes, &mut heads);
    let mut chain = Chain { rows: Vec::new(), walk, switches: Vec::new() };
    for row in rows {
        chain.row(row)?;
    }
    let Chain { rows, walk, .. } = chain;
    unless(walk.depth != 0, Refusal::Misplaced)?;
    unless(rows.len() > MOST_ROWS, Refusal::TooManyRows)?;
    unless(walk.called > walk.functions as u32, Refusal::NoSuchFunction)?;
    let (lines, regions) = (walk.lines, walk.regions);
    places.truncate(rows.len());
    sizes.truncate(regions);
    Ok((Cow::Owned(rows.concat()), Shape { places, sizes, heads, lines }))
}

struct Chain<'a> {
    rows: Vec<Row>,
    walk: Walk<'a>,
    switches: Vec<Open>,
}

impl Chain<'_> {
    /// One row as given: 3, then 4, then 11, then 5, then 6.
    fn row(&mut self, row: &Row) -> Result<(), Refusal> {
        fields(row)?;
        match row[0] {
            SWITCH => self.switch(row[2]),
            CASE => self.case(n_of(row)),
            DEFAULT => self.default(),
            kind => match self.straight() {
                Some(switch) if kind == END => {
                    let cases = switch.cases.len();
                    self.switches.pop();
                    (0..cases).try_for_each(|_| self.put(&[END, 0, 0, 0, 0, 0]))
                }
                Some(switch) => {
                    unless(switch.is_empty() || kind == ELSE, Refusal::Misplaced)?;
                    self.put(row)
                }
                None => self.put(row),
            },
        }
    }

    /// The switch in whose parts, or before them, the next row stands straight.
    fn straight(&mut self) -> Option<&mut Open> {
        let depth = self.walk.depth;
        self.switches.last_mut().filter(|switch| depth == switch.depth + switch.cases.len())
    }

    /// The same where another part may begin.
    fn next_part(&mut self) -> Result<&mut Open, Refusal> {
        self.straight().filter(|switch| !switch.has_default).ok_or(Refusal::Misplaced)
    }

    fn switch(&mut self, p: u8) -> Result<(), Refusal> {
        self.walk.inside()?;
        unless(self.straight().is_some_and(|switch| switch.is_empty()), Refusal::Misplaced)?;
        let depth = self.walk.depth;
        self.switches.push(Open { p, depth, cases: Vec::new(), has_default: false });
        Ok(())
    }

    fn case(&mut self, n: u16) -> Result<(), Refusal> {
        let switch = self.next_part()?;
        unless(switch.cases.contains(&n), Refusal::RepeatedCase)?;
        let (p, is_first) = (switch.p, switch.cases.is_empty());
        switch.cases.push(n);
        if !is_first {
            self.put(&[ELSE, 0, 0, 0, 0, 0])?;
        }
        let [low, high] = n.to_le_bytes();
        self.put(&[IF, 0, p, 0, low, high])
    }

    fn default(&mut self) -> Result<(), Refusal> {
        let switch = self.next_part()?;
        switch.has_default = true;
        if switch.cases.is_empty() {
            return Ok(());
        }
        self.put(&[ELSE, 0, 0, 0, 0, 0])
    }

    fn put(&mut self, row: &Row) -> Result<(), Refusal> {
        self.walk.row(self.rows.len(), row)?;
        self.rows.push(*row);
        Ok(())
    }
}

impl Open {
    /// No part has begun.
    fn is_empty(&self) -> bool {
        self.cases.is_empty() && !self.has_default
    }
}

/// The walk tests the fields of 01's rows once more; here they come before the places.
fn fields(row: &Row) -> Result<(), Refusal> {
    let [kind, op, p, q, low, high] = *row;
    match kind {
        DO => operands(row, 1, 3),
        IF | LOOP => operands(row, 2, 2),
        CALL | CASE => unless(op | p | q != 0, Refusal::WrongField),
        SWITCH => unless(p > 15 || op | q | low | high != 0, Refusal::WrongField),
        FUNCTION | ELSE | END | BREAK | CONTINUE | DEFAULT => no_fields(row),
        _ => Err(Refusal::WrongField),
    }
}
