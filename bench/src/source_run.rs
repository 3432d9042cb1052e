//! Runs a source table. Each row is first turned into an instruction that knows where it goes, so
//! that a step is one load and one branch over ten cases.

use crate::calls::{Ran, Start, Variables};
use crate::table::{self, n_of, Refusal, Row, Shape, ROW_BYTES};

pub const SPENT: u8 = 0;
pub const FINISHED: u8 = 1;
pub const TOO_MANY_OPEN: u8 = 3;
pub const OVERFLOW: u8 = 5;

pub const MOST_FUNCTIONS_OPEN: usize = 16;

#[derive(Clone, Copy)]
enum Code {
    Set,
    Copy,
    Add,
    Subtract,
    Equal,
    Differs,
    Less,
    Go,
    Call,
    Return,
}

#[derive(Clone, Copy)]
struct Instruction {
    code: Code,
    p: u8,
    q: u8,
    n: u16,
    /// Where a false test, a call, or whatever only goes somewhere goes.
    go: u16,
}

/// Checks the table and runs it.
pub fn run(rows: &[u8], start: &Start, trace: &mut [u16]) -> Result<Ran, Refusal> {
    let (rows, shape) = table::read(rows)?;
    let trace = trace.get_mut(..usize::from(start.budget)).ok_or(Refusal::BuffersShort)?;
    let (rows, _) = rows.as_chunks::<ROW_BYTES>();
    let program: Vec<Instruction> =
        rows.iter().enumerate().map(|(at, row)| decode(rows, &shape, at, row)).collect();
    Ok(steps(&program, start, trace))
}

#[inline]
fn decode(rows: &[Row], shape: &Shape, at: usize, row: &Row) -> Instruction {
    let link = shape.places[at].link;
    let (code, go) = match (row[0], row[1]) {
        (table::DO, 0) => (Code::Set, 0),
        (table::DO, 1) => (Code::Copy, 0),
        (table::DO, 2) => (Code::Add, 0),
        (table::DO, _) => (Code::Subtract, 0),
        (table::IF | table::LOOP, 0) => (Code::Equal, link + 1),
        (table::IF | table::LOOP, 1) => (Code::Differs, link + 1),
        (table::IF | table::LOOP, _) => (Code::Less, link + 1),
        (table::ELSE, _) => (Code::Go, link + 1),
        (table::BREAK, _) => (Code::Go, shape.places[usize::from(link)].link + 1),
        (table::CONTINUE, _) => (Code::Go, link),
        (table::CALL, _) => (Code::Call, shape.heads[usize::from(n_of(row))] + 1),
        _ => match rows[usize::from(link)][0] {
            table::LOOP => (Code::Go, link),
            table::IF => (Code::Go, at as u16 + 1),
            _ => (Code::Return, 0),
        },
    };
    Instruction { code, p: row[2], q: row[3], n: n_of(row), go }
}

/// Where the functions that wait go on.
struct Waiting {
    back: [usize; MOST_FUNCTIONS_OPEN],
    open: usize,
}

impl Waiting {
    #[inline(always)]
    fn call(&mut self, back: usize, go: usize) -> Result<usize, u8> {
        if self.open + 1 == MOST_FUNCTIONS_OPEN {
            return Err(TOO_MANY_OPEN);
        }
        self.back[self.open] = back;
        self.open += 1;
        Ok(go)
    }

    #[inline(always)]
    fn give_back(&mut self) -> Result<usize, u8> {
        self.open = self.open.checked_sub(1).ok_or(FINISHED)?;
        Ok(self.back[self.open])
    }
}

/// The variables and the trace.
struct State<'a> {
    v: Variables,
    trace: &'a mut [u16],
    traced: usize,
}

impl State<'_> {
    #[inline(always)]
    fn put(&mut self, at: usize, p: usize, value: u16) -> usize {
        self.v[p] = value;
        self.trace[self.traced] = at as u16;
        self.traced += 1;
        at + 1
    }

    /// Nothing is put where the sum or the difference overflows.
    #[inline(always)]
    fn put_checked(&mut self, at: usize, p: usize, value: Option<u16>) -> Result<usize, u8> {
        value.map(|value| self.put(at, p, value)).ok_or(OVERFLOW)
    }
}

fn steps(program: &[Instruction], start: &Start, trace: &mut [u16]) -> Ran {
    let mut now = State { v: start.variables, trace, traced: 0 };
    let mut waiting = Waiting { back: [0; MOST_FUNCTIONS_OPEN], open: 0 };
    let (mut at, mut steps) = (1, 0);
    let mut outcome = SPENT;
    while steps < start.budget {
        steps += 1;
        let i = &program[at];
        // a variable's number is below 16: saying so spares the bounds check
        let (p, q, go) = (usize::from(i.p) % 16, usize::from(i.q) % 16, usize::from(i.go));
        let next = match i.code {
            Code::Set => Ok(now.put(at, p, i.n)),
            Code::Copy => Ok(now.put(at, p, now.v[q])),
            Code::Add => now.put_checked(at, p, now.v[p].checked_add(now.v[q])),
            Code::Subtract => now.put_checked(at, p, now.v[p].checked_sub(now.v[q])),
            Code::Equal => Ok(if now.v[p] == i.n { at + 1 } else { go }),
            Code::Differs => Ok(if now.v[p] != i.n { at + 1 } else { go }),
            Code::Less => Ok(if now.v[p] < now.v[q] { at + 1 } else { go }),
            Code::Go => Ok(go),
            Code::Call => waiting.call(at + 1, go),
            Code::Return => waiting.give_back(),
        };
        match next {
            Ok(next) => at = next,
            Err(ended) => {
                outcome = ended;
                break;
            }
        }
    }
    let State { v, traced, .. } = now;
    Ran { number: 0, outcome, steps, traced: traced as u16, variables: v }
}
