//! Reads a hardened table back: guesses the only table that can have lines of these kinds in this
//! order, hardens the guess, and compares each line as it comes.

use crate::harden::{self, LineBytes, Packed, Sink, LINE_BYTES, MOST_LINES};
use crate::table::{self, Refusal, Row, Shape, MOST_ROWS};

/// An else part's, a then part's or a loop body's test; 16 may be open.
const MOST_OPEN: usize = 16;

const NO_FUNCTION: u8 = 255;

/// A table.
pub struct Source {
    rows: Vec<Row>,
}

impl Source {
    pub fn bytes(&self) -> &[u8] {
        self.rows.as_flattened()
    }
}

/// Reads `lines` back into `out` and answers how many bytes it wrote.
pub fn read_back(lines: &[u8], out: &mut [u8]) -> Result<usize, Refusal> {
    let source = source_of(lines)?;
    let bytes = source.bytes();
    out.get_mut(..bytes.len()).ok_or(Refusal::OutputShort)?.copy_from_slice(bytes);
    Ok(bytes.len())
}

/// The table whose hardened lines these are.
pub fn source_of(bytes: &[u8]) -> Result<Source, Refusal> {
    let (lines, rest) = bytes.as_chunks::<LINE_BYTES>();
    if !rest.is_empty() || lines.len() > MOST_LINES {
        return Err(Refusal::NotHardened);
    }
    let source = guess(lines).ok_or(Refusal::NotHardened)?;
    let shape = Shape::read(source.bytes()).map_err(|_| Refusal::NotHardened)?;
    if usize::from(shape.lines) != lines.len() {
        return Err(Refusal::NotHardened);
    }
    let mut comparer = Comparer { lines: lines.iter(), same: true };
    harden::lines(source.bytes(), &shape, &mut comparer);
    if comparer.same {
        Ok(source)
    } else {
        Err(Refusal::NotHardened)
    }
}

struct Comparer<'a> {
    lines: std::slice::Iter<'a, LineBytes>,
    same: bool,
}

impl Sink for Comparer<'_> {
    #[inline]
    fn put(&mut self, line: Packed) {
        self.same &= self.lines.next().is_some_and(|other| line.is(other));
    }
}

/// An if or loop whose closing leave has not come.
#[derive(Clone, Copy, Default)]
struct Open {
    row: u16,
    line: u16,
    in_else: bool,
}

struct Guess {
    source: Source,
    stack: [Open; MOST_OPEN],
    depth: usize,
    /// The number of the function that begins at a line.
    starts: Vec<u8>,
    functions: u8,
    /// The rows of the calls, which name lines until all functions are known.
    calls: Vec<u16>,
}

/// What the kinds and targets of the lines say. Where no table fits them the answer is none, or
/// some table that the comparison will tell apart.
fn guess(lines: &[LineBytes]) -> Option<Source> {
    let mut guess = Guess {
        source: Source { rows: Vec::with_capacity(MOST_ROWS) },
        stack: [Open::default(); MOST_OPEN],
        depth: 0,
        starts: vec![NO_FUNCTION; lines.len()],
        functions: 0,
        calls: Vec::new(),
    };
    let mut at = 0;
    let mut inside = false;
    while let Some(line) = lines.get(at) {
        if !inside {
            guess.function(at)?;
        }
        inside = line[0] != harden::RET;
        at += guess.line(at, line)?;
    }
    guess.name_calls()?;
    Some(guess.source)
}

fn go_of(line: &LineBytes) -> u16 {
    u16::from_le_bytes([line[18], line[19]])
}

impl Guess {
    #[inline]
    fn put(&mut self, row: Row) -> Option<()> {
        if self.source.rows.len() == MOST_ROWS {
            return None;
        }
        self.source.rows.push(row);
        Some(())
    }

    fn plain(&mut self, kind: u8) -> Option<()> {
        self.put([kind, 0, 0, 0, 0, 0])
    }

    fn function(&mut self, at: usize) -> Option<()> {
        self.starts[at] = self.functions;
        self.functions = self.functions.checked_add(1).filter(|count| *count < NO_FUNCTION)?;
        self.plain(table::FUNCTION)
    }

    /// Takes a line and answers how many lines its row has.
    #[inline]
    fn line(&mut self, at: usize, line: &LineBytes) -> Option<usize> {
        let [kind, op, p, q, low, high, ..] = *line;
        match kind {
            harden::DO => {
                self.put([table::DO, op, p, q, low, high])?;
                return Some(2);
            }
            harden::CALL => {
                self.call(line)?;
                return Some(2);
            }
            harden::TEST => self.test(at, [table::IF, op, p, q, low, high])?,
            harden::LEAVE => self.leave(at, go_of(line))?,
            harden::OUT if usize::from(go_of(line)) < at => self.plain(table::CONTINUE)?,
            harden::OUT => self.plain(table::BREAK)?,
            harden::RET => self.plain(table::END)?,
            _ => return None,
        }
        Some(1)
    }

    #[inline]
    fn call(&mut self, line: &LineBytes) -> Option<()> {
        self.calls.push(self.source.rows.len() as u16);
        self.put([table::CALL, 0, 0, 0, line[18], line[19]])
    }

    #[inline]
    fn test(&mut self, at: usize, row: Row) -> Option<()> {
        let open = Open { row: self.source.rows.len() as u16, line: at as u16, in_else: false };
        *self.stack.get_mut(self.depth)? = open;
        self.depth += 1;
        self.put(row)
    }

    /// The leave of a loop goes back to its test, that of an if without an else to the next
    /// line, that of a then part past the else part.
    #[inline]
    fn leave(&mut self, at: usize, go: u16) -> Option<()> {
        let top = self.depth.checked_sub(1)?;
        let open = &mut self.stack[top];
        if !open.in_else {
            if go == open.line {
                self.source.rows[usize::from(open.row)][0] = table::LOOP;
            } else if usize::from(go) != at + 1 {
                open.in_else = true;
                return self.plain(table::ELSE);
            }
        }
        self.depth = top;
        self.plain(table::END)
    }

    fn name_calls(&mut self) -> Option<()> {
        for row in &self.calls {
            let row = &mut self.source.rows[usize::from(*row)];
            let function = *self.starts.get(usize::from(table::n_of(row)))?;
            // the number that stands for no function is past the last one, and gets refused
            (row[4], row[5]) = (function, 0);
        }
        Some(())
    }
}
