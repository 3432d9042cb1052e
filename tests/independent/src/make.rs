//! Random accepted tables of every shape.

use crate::random::Random;
use crate::row::{self, Row};
use crate::shape::{Shape, BANDS, BRANCHY, CALLING, HOLLOW, HOLLOW_BANDS, LOOPY, MIXED, SWITCHY};
use crate::table::LIMITS;

/// The bytes of rows.
pub fn bytes_of(rows: &[Row]) -> Vec<u8> {
    rows.iter().flat_map(|row| row.bytes()).collect()
}

/// A random accepted table, mostly small; some deep, some with many regions, some
/// of 100 to 300 rows.
pub fn any_table(rng: &mut Random) -> Vec<u8> {
    let rows = match rng.below(100) {
        0..=64 => rng.between(3, 30),
        65..=87 => rng.between(10, 60),
        88..=93 => return deep(rng),
        94..=96 => return many_regions(rng),
        _ => rng.between(100, 300),
    };
    table_of(rng, rows)
}

/// Ifs and loops in each other, most often up to the limit of 16.
fn deep(rng: &mut Random) -> Vec<u8> {
    let shape = Shape {
        rows: rng.between(36, 64),
        functions: rng.between(1, 2),
        depth: rng.pick(&[9, 15, 16, 16, 16]),
        eager: 97,
        weights: rng.pick(&[BRANCHY, HOLLOW, HOLLOW_BANDS]),
    };
    table(rng, shape)
}

/// One function with up to 64 regions.
fn many_regions(rng: &mut Random) -> Vec<u8> {
    let shape = Shape {
        rows: rng.between(100, 180),
        functions: 1,
        depth: rng.pick(&[2, 5, 16]),
        eager: 20,
        weights: rng.pick(&[BRANCHY, HOLLOW, BANDS]),
    };
    table(rng, shape)
}

/// A random accepted table of so many rows (at least 2); about a third of them
/// have a switch.
pub fn table_of(rng: &mut Random, rows: usize) -> Vec<u8> {
    let most = (rows / 2).min(LIMITS.functions);
    let functions = match rng.below(20) {
        0..=7 => 1,
        8..=16 => rng.between(1, most.min(4)),
        _ => rng.between(1, most),
    };
    let shape = Shape {
        rows,
        functions,
        depth: rng.pick(&[1, 2, 4, 16, 16, 16]),
        eager: rng.pick(&[0, 0, 30, 90]),
        weights: rng.pick(&[
            MIXED,
            MIXED,
            BRANCHY,
            LOOPY,
            CALLING,
            HOLLOW,
            SWITCHY,
            SWITCHY,
            BANDS,
            HOLLOW_BANDS,
        ]),
    };
    table(rng, shape)
}

/// A random accepted table of this shape.
pub fn table(rng: &mut Random, shape: Shape) -> Vec<u8> {
    let mut left = shape.rows - 2 * shape.functions;
    let mut maker = Maker::new(rng, shape);
    for number in 0..shape.functions {
        let others = shape.functions - number - 1;
        let room = if others == 0 { left } else { maker.share(left, others) };
        maker.function(room);
        left -= room;
    }
    bytes_of(&maker.rows)
}

/// Writes random rows that are right where they stand.
pub struct Maker<'a> {
    pub rng: &'a mut Random,
    pub rows: Vec<Row>,
    shape: Shape,
    /// opened so far in this function
    regions: usize,
    /// rows that the chain of ifs may have beyond those as given
    spare: usize,
}

/// Where a block stands.
#[derive(Clone, Copy, Debug)]
pub struct Spot {
    /// ifs and loops open, cases among them
    pub open: usize,
    pub in_loop: bool,
}

/// Directly in a function's body.
pub const BODY: Spot = Spot { open: 0, in_loop: false };

/// A statement to be made.
#[derive(Clone, Copy, PartialEq, Eq)]
enum Choice {
    Do,
    If,
    IfElse,
    Loop,
    Break,
    Continue,
    Call,
    Switch,
}

impl<'a> Maker<'a> {
    pub fn new(rng: &'a mut Random, shape: Shape) -> Maker<'a> {
        let spare = LIMITS.rows.saturating_sub(shape.rows);
        Maker { rng, rows: Vec::new(), shape, regions: 0, spare }
    }

    /// Some of the rows left, for one of several functions.
    fn share(&mut self, left: usize, others: usize) -> usize {
        let most = (2 * left / (others + 1)).min(left);
        self.rng.between(0, most)
    }

    pub fn plain(&mut self, kind: u8) {
        self.rows.push(Row::plain(kind));
    }

    /// A function with a body of so many rows.
    pub fn function(&mut self, room: usize) {
        self.open_function();
        self.block(room, BODY);
        self.plain(row::END);
    }

    pub fn open_function(&mut self) {
        self.plain(row::FUNCTION);
        self.regions = 1;
    }

    /// A block of exactly so many rows.
    pub fn block(&mut self, room: usize, spot: Spot) {
        let mut left = room;
        while left > 0 {
            let before = self.rows.len();
            self.statement(left, spot);
            left -= self.rows.len() - before;
        }
    }

    /// A statement of at most `room` rows, which is not 0.
    fn statement(&mut self, room: usize, spot: Spot) {
        let may_open = spot.open < self.shape.depth && self.regions < LIMITS.regions;
        match self.choose() {
            Choice::If if may_open && room >= 2 => self.conditional(room - 2, spot),
            Choice::IfElse if may_open && room >= 3 => self.with_else(room - 3, spot),
            Choice::Loop if may_open && room >= 2 => self.repeated(room - 2, spot),
            Choice::Break if spot.in_loop => self.plain(row::BREAK),
            Choice::Continue if spot.in_loop => self.plain(row::CONTINUE),
            Choice::Call => self.call_row(),
            Choice::Switch if room >= 2 => self.switch(room - 2, spot),
            _ => self.do_row(),
        }
    }

    fn choose(&mut self) -> Choice {
        let w = self.shape.weights;
        let table = [
            (Choice::Do, w.dos),
            (Choice::If, w.ifs),
            (Choice::IfElse, w.elses),
            (Choice::Loop, w.loops),
            (Choice::Break, w.breaks),
            (Choice::Continue, w.continues),
            (Choice::Call, w.calls),
            (Choice::Switch, w.switches),
        ];
        let mut at = self.rng.below(table.iter().map(|(_, weight)| weight).sum());
        for (choice, weight) in table {
            if at < weight {
                return choice;
            }
            at -= weight;
        }
        unreachable!("the number drawn is below the sum")
    }

    /// How many of the rows left go into a part.
    fn inner(&mut self, room: usize) -> usize {
        if self.rng.percent(self.shape.eager) {
            room - self.rng.below(room.min(2) + 1)
        } else {
            self.rng.between(0, room)
        }
    }

    /// A test row of this kind, which opens a region.
    pub fn open_test(&mut self, kind: u8) {
        let test = test_row(self.rng, kind);
        self.rows.push(test);
        self.regions += 1;
    }

    /// An else row, which opens a region.
    pub fn open_else(&mut self) {
        self.plain(row::ELSE);
        self.regions += 1;
    }

    fn conditional(&mut self, room: usize, spot: Spot) {
        self.open_test(row::IF);
        let inner = self.inner(room);
        self.block(inner, Spot { open: spot.open + 1, ..spot });
        self.plain(row::END);
    }

    fn with_else(&mut self, room: usize, spot: Spot) {
        let inside = Spot { open: spot.open + 1, ..spot };
        self.open_test(row::IF);
        let then = self.inner(room);
        self.block(then, inside);
        if self.regions < LIMITS.regions {
            self.open_else();
            let other = self.inner(room - then);
            self.block(other, inside);
        }
        self.plain(row::END);
    }

    fn repeated(&mut self, room: usize, spot: Spot) {
        self.open_test(row::LOOP);
        let inner = self.inner(room);
        self.block(inner, Spot { open: spot.open + 1, in_loop: true });
        self.plain(row::END);
    }

    /// A switch with as many of some cases as there is room for; often a default,
    /// also alone; now and then nothing in it.
    fn switch(&mut self, room: usize, spot: Spot) {
        let wanted = self.rng.pick(&[0, 1, 1, 2, 2, 3, 4, 6, 16]);
        let mut left = room;
        let mut inside = spot;
        let mut used = Vec::new();
        self.open_switch();
        while used.len() < wanted && left > 0 && self.may_open_case(inside) {
            self.open_case(&mut used);
            inside.open += 1;
            let fair = (left - 1) / (wanted - used.len() + 1);
            left -= 1 + self.part(fair, inside);
        }
        let may_open = used.is_empty() || self.regions < LIMITS.regions;
        if left > 0 && may_open && self.rng.percent(60) {
            self.open_default(&used);
            self.part(left - 1, inside);
        }
        self.plain(row::END);
    }

    /// A part of at most so many rows; answers how many.
    fn part(&mut self, room: usize, spot: Spot) -> usize {
        let inner = self.inner(room);
        self.block(inner, spot);
        inner
    }

    /// Two more regions, and two rows that are not given, are enough for any case.
    fn may_open_case(&self, spot: Spot) -> bool {
        spot.open < self.shape.depth && self.regions + 2 <= LIMITS.regions && self.spare >= 2
    }

    pub fn open_switch(&mut self) {
        let row = switch_row(self.rng);
        self.rows.push(row);
    }

    /// A case with a number that the switch has not used.
    pub fn open_case(&mut self, used: &mut Vec<u16>) {
        self.regions += if used.is_empty() { 1 } else { 2 };
        self.spare = self.spare.saturating_sub(2);
        let n = unused(self.rng, used);
        used.push(n);
        self.rows.push(case_row(n));
    }

    /// A default behind these cases.
    pub fn open_default(&mut self, used: &[u16]) {
        self.regions += usize::from(!used.is_empty());
        self.plain(row::DEFAULT);
    }

    fn do_row(&mut self) {
        let row = do_row(self.rng);
        self.rows.push(row);
    }

    /// A call of any function of the table, forward, back or of itself.
    fn call_row(&mut self) {
        let n = self.rng.below(self.shape.functions);
        let n = u16::try_from(n).expect("there are few functions");
        self.rows.push(Row { n, ..Row::plain(row::CALL) });
    }
}

/// The number of a variable.
fn variable(rng: &mut Random) -> u8 {
    rng.byte() % 16
}

/// A do row with random fields, all right.
pub fn do_row(rng: &mut Random) -> Row {
    let op = rng.byte() % 4;
    operands(rng, row::DO, op, op == 0)
}

/// A test row of this kind with random fields, all right.
pub fn test_row(rng: &mut Random, kind: u8) -> Row {
    let op = rng.byte() % 3;
    operands(rng, kind, op, op < 2)
}

/// A switch on some variable.
pub fn switch_row(rng: &mut Random) -> Row {
    Row { p: variable(rng), ..Row::plain(row::SWITCH) }
}

pub fn case_row(n: u16) -> Row {
    Row { n, ..Row::plain(row::CASE) }
}

/// A number that is none of these.
pub fn unused(rng: &mut Random, used: &[u16]) -> u16 {
    loop {
        let n = rng.value();
        if !used.contains(&n) {
            return n;
        }
    }
}

/// p and n, or p and q.
fn operands(rng: &mut Random, kind: u8, op: u8, with_n: bool) -> Row {
    let p = variable(rng);
    if with_n {
        Row { kind, op, p, q: 0, n: rng.value() }
    } else {
        Row { kind, op, p, q: variable(rng), n: 0 }
    }
}
