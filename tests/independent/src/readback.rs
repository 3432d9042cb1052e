//! From hardened bytes back to the source table (01, refusal 10: "hardened
//! bytes that no source table gives").
//!
//! A candidate is read from the order of the line kinds and from where the
//! leaves, outs and calls go; nothing else of a line is trusted. The candidate
//! is then checked as any table is, hardened, and compared in all its bytes. If
//! some table of 01's rows gives the bytes, the candidate is that table. "Reading
//! back gives the ifs": a chained if is an if, and no row of a switch is guessed.

use crate::harden;
use crate::line::{self, Line, LINE_BYTES};
use crate::refusal::Refusal;
use crate::row::{self, Row};
use crate::table::{self, LIMITS};

/// No row of 01 stands for more than two lines, and a table has no more of them
/// than so many, its switches written as ifs.
pub const MOST_LINES: usize = 2 * LIMITS.rows;

/// The source table whose hardened table these bytes are.
pub fn source_of(bytes: &[u8]) -> Result<Vec<u8>, Refusal> {
    let candidate = candidate(bytes).ok_or(Refusal::NotHardened)?;
    let table = table::parse(&candidate).map_err(|_| Refusal::NotHardened)?;
    if line::to_bytes(&harden::lines(&table)) == bytes {
        Ok(candidate)
    } else {
        Err(Refusal::NotHardened)
    }
}

/// The only table that can give these bytes, if one does.
fn candidate(bytes: &[u8]) -> Option<Vec<u8>> {
    if !bytes.len().is_multiple_of(LINE_BYTES) || bytes.len() / LINE_BYTES > MOST_LINES {
        return None;
    }
    let lines = line::from_bytes(bytes);
    let mut reader = Reader { lines: &lines, next: 0, rows: Vec::new() };
    reader.functions()?;
    Some(reader.rows.iter().flat_map(|row| row.bytes()).collect())
}

/// Takes the lines one after the other and writes rows. An answer of None means
/// that no table has lines in this order.
struct Reader<'a> {
    lines: &'a [Line],
    next: usize,
    rows: Vec<Row>,
}

impl Reader<'_> {
    fn take(&mut self) -> Option<(usize, Line)> {
        let at = self.next;
        let line = *self.lines.get(at)?;
        self.next += 1;
        Some((at, line))
    }

    fn functions(&mut self) -> Option<()> {
        while self.next < self.lines.len() {
            self.rows.push(Row::plain(row::FUNCTION));
            let (_, closer) = self.part(0)?;
            if closer.kind != line::RET {
                return None;
            }
            self.rows.push(Row::plain(row::END));
        }
        Some(())
    }

    /// The rows of a part, up to the leave or ret that closes it; that line and
    /// its number are the answer.
    fn part(&mut self, open: usize) -> Option<(usize, Line)> {
        loop {
            let (at, line) = self.take()?;
            match line.kind {
                line::RET | line::LEAVE => return Some((at, line)),
                line::TEST => self.construct(at, line, open)?,
                line::DO => self.with_follower(copied(row::DO, line), line::TICK)?,
                line::CALL => self.with_follower(self.call_row(line), line::BACK)?,
                line::OUT => self.rows.push(Row::plain(out_kind(at, line))),
                _ => return None,
            }
        }
    }

    /// A row of two lines: the second must be the one that follows the first.
    fn with_follower(&mut self, row: Row, follower: u8) -> Option<()> {
        self.rows.push(row);
        let (_, line) = self.take()?;
        (line.kind == follower).then_some(())
    }

    /// The call row. Its function begins at line go, after as many rets as there
    /// are functions before it.
    fn call_row(&self, line: Line) -> Row {
        let before = self.lines.iter().take(usize::from(line.go));
        let rets = before.filter(|l| l.kind == line::RET).count();
        let n = u16::try_from(rets).expect("there are at most 2,048 lines");
        Row { n, ..Row::plain(row::CALL) }
    }

    /// An if or a loop, whose test has been taken. Which one it is shows in the
    /// leave of its first part: a loop's goes to the test, that of an if
    /// without an else to the next line, that of a then part past the else part.
    fn construct(&mut self, at: usize, test: Line, open: usize) -> Option<()> {
        if open == LIMITS.open {
            return None;
        }
        let head = self.rows.len();
        self.rows.push(copied(row::IF, test));
        let (leave_at, leave) = self.closed_part(open + 1)?;
        let go = usize::from(leave.go);
        if go == at {
            self.rows[head].kind = row::LOOP;
        } else if go != leave_at + 1 {
            self.rows.push(Row::plain(row::ELSE));
            self.closed_part(open + 1)?;
        }
        self.rows.push(Row::plain(row::END));
        Some(())
    }

    /// A part that a leave closes.
    fn closed_part(&mut self, open: usize) -> Option<(usize, Line)> {
        self.part(open).filter(|(_, closer)| closer.kind == line::LEAVE)
    }
}

/// A row that copies op, p, q and n of a line.
fn copied(kind: u8, line: Line) -> Row {
    Row { kind, op: line.op, p: line.p, q: line.q, n: line.n }
}

/// A continue goes back to the test, a break goes forward.
fn out_kind(at: usize, line: Line) -> u8 {
    if usize::from(line.go) < at {
        row::CONTINUE
    } else {
        row::BREAK
    }
}
