//! Random programs that are worth running: most of their loops end, most of
//! their calls return, some recurse up to the limit or past it, and their switches
//! are taken one way or another. Their dos are those of `program_dos`.

use crate::machine::Variables;
use crate::make::{self, bytes_of};
use crate::program_dos::{usual, BOLDNESS, SMALL};
use crate::random::Random;
use crate::row::{self, Row, ROW_BYTES};
use crate::table::LIMITS;

/// A table and the first values of a run.
#[derive(Clone, Debug)]
pub struct Program {
    pub rows: Vec<u8>,
    pub variables: Variables,
}

/// Holds 1 in most programs.
pub(crate) const ONE: u8 = 15;
/// Counts the guarded recursions that are left.
const FUEL: u8 = 14;
/// v8 to v13 count the rounds of loops, by depth.
const FIRST_COUNTER: u8 = 8;
const COUNTER_VARIABLES: u8 = 6;
/// Ifs and loops open in a program; the tables of `make` go to the limit.
const DEEPEST: u8 = 6;

/// One of 4 to about so many rows, by its seed alone.
pub fn by_seed(seed: u64, largest: usize) -> Program {
    let mut rng = Random::new(seed);
    let size = rng.between(4, largest);
    program(&mut rng, size)
}

/// A random program with about so many rows (at least 4).
pub fn program(rng: &mut Random, size: usize) -> Program {
    if rng.percent(15) {
        return any_program(rng, size);
    }
    let functions = rng.pick(&[1, 1, 2, 2, 3, 4]).min(size / 3).max(1);
    let boldness = rng.pick(&BOLDNESS);
    let mut writer = Writer { rng, rows: Vec::new(), functions, number: 0, regions: 0, boldness };
    for number in 0..functions {
        writer.number = number;
        writer.boldness = if number == 0 { boldness } else { (2 * boldness).min(100) };
        writer.function(size / functions);
    }
    let rows = bytes_of(&writer.rows);
    Program { rows, variables: tame(rng) }
}

/// Any table and any first values. As nearly every other sum or difference would then
/// overflow, most tables have a copy in place of some.
fn any_program(rng: &mut Random, size: usize) -> Program {
    let mut rows = make::table_of(rng, size);
    let kept = rng.pick(&[0, 30, 100]);
    for row in rows.chunks_mut(ROW_BYTES).filter(|row| row[0] == row::DO && row[1] > 1) {
        row[1] = if rng.percent(kept) { row[1] } else { 1 };
    }
    Program { rows, variables: wild(rng) }
}

/// First values that let loops and recursions end.
fn tame(rng: &mut Random) -> Variables {
    let mut variables = [0; 16];
    for (number, v) in (0..).zip(variables.iter_mut()) {
        *v = if rng.percent(85) { usual(rng, number) } else { rng.value() };
    }
    variables[usize::from(FUEL)] = rng.pick(&[0, 1, 2, 3, 5, 14, 15, 16, 17, 40]);
    variables[usize::from(ONE)] = if rng.percent(95) { 1 } else { rng.value() };
    variables
}

/// Any first values.
fn wild(rng: &mut Random) -> Variables {
    let mut variables = [0; 16];
    for v in variables.iter_mut() {
        *v = rng.value();
    }
    variables
}

/// Writes the rows of a program.
pub(crate) struct Writer<'a> {
    pub(crate) rng: &'a mut Random,
    pub(crate) rows: Vec<Row>,
    functions: usize,
    /// the function being written
    number: usize,
    /// the regions that it has, and those that its open ifs and switches will have
    pub(crate) regions: usize,
    /// in so many of a hundred cases a do does as it pleases
    pub(crate) boldness: usize,
}

/// Where a block stands.
#[derive(Clone, Copy)]
struct Spot {
    open: u8,
    in_loop: bool,
    /// counts the rounds of a loop around
    counter: Option<u8>,
}

/// Directly in a function's body.
const BODY: Spot = Spot { open: 0, in_loop: false, counter: None };

impl Writer<'_> {
    pub(crate) fn put(&mut self, kind: u8, op: u8, p: u8, q: u8, n: u16) {
        self.rows.push(Row { kind, op, p, q, n });
    }

    pub(crate) fn plain(&mut self, kind: u8) {
        self.rows.push(Row::plain(kind));
    }

    fn function(&mut self, size: usize) {
        self.plain(row::FUNCTION);
        self.regions = 1;
        self.block(size.saturating_sub(2), BODY);
        self.plain(row::END);
    }

    /// A block of about so many rows.
    fn block(&mut self, room: usize, spot: Spot) {
        let stop = self.rows.len() + room;
        while self.rows.len() < stop {
            let left = stop - self.rows.len();
            self.statement(left, spot);
        }
    }

    fn statement(&mut self, room: usize, spot: Spot) {
        let has_regions = self.regions + 2 <= LIMITS.regions;
        let may_open = room >= 3 && spot.open < DEEPEST && has_regions;
        match self.rng.below(24) {
            0..=2 if may_open => self.conditional(room, spot),
            3..=4 if may_open => self.with_else(room, spot),
            5..=7 if may_open && spot.open < COUNTER_VARIABLES => self.counted(room, spot),
            8 if may_open => self.free_loop(room, spot),
            9..=10 if may_open && spot.in_loop => self.guarded_exit(),
            11 if spot.in_loop && self.rng.percent(25) => self.exit(),
            12..=13 if self.number + 1 < self.functions => self.forward_call(),
            14 if may_open => self.recursion(),
            15 if self.rng.percent(15) => self.any_call(),
            16..=17 if may_open => self.switch(room, spot),
            _ => self.arithmetic(may_open),
        }
    }

    /// A test over v0 to v5 that is true about every other time.
    fn test(&mut self, kind: u8) {
        let p = self.rng.byte() % SMALL;
        match self.rng.below(3) {
            0 => {
                let n = self.rng.word() % 3;
                self.put(kind, 0, p, 0, n);
            }
            1 => {
                let n = self.rng.word() % 3;
                self.put(kind, 1, p, 0, n);
            }
            _ => {
                let q = self.rng.byte() % SMALL;
                self.put(kind, 2, p, q, 0);
            }
        }
    }

    /// Some rows in a part of an if or loop, one deeper than the spot.
    fn inside(&mut self, room: usize, spot: Spot) {
        let room = self.rng.between(0, room);
        self.block(room, Spot { open: spot.open + 1, ..spot });
    }

    fn conditional(&mut self, room: usize, spot: Spot) {
        self.regions += 1;
        self.test(row::IF);
        self.inside(room - 2, spot);
        self.plain(row::END);
    }

    fn with_else(&mut self, room: usize, spot: Spot) {
        self.regions += 2;
        self.test(row::IF);
        self.inside(room - 3, spot);
        self.plain(row::ELSE);
        self.inside(room - 3, spot);
        self.plain(row::END);
    }

    /// A switch on a variable that holds a small number, or on the counter of the
    /// loop around, so that its rounds take different ways.
    fn switch(&mut self, room: usize, spot: Spot) {
        let most = (room - 2).min((LIMITS.regions - self.regions) / 2).min(6);
        let cases = self.rng.pick(&[0, 1, 2, 3, 3, 4, 4, 6]).min(most);
        self.regions += 2 * cases;
        let numbers = self.case_numbers(cases);
        let p = match spot.counter {
            Some(counter) if self.rng.percent(75) => counter,
            _ => self.small_variable(&numbers),
        };
        self.put(row::SWITCH, 0, p, 0, 0);
        let mut spot = spot;
        for n in numbers {
            self.put(row::CASE, 0, 0, 0, n);
            spot.open += 1;
            self.arm(room / (cases + 1), spot);
        }
        if self.rng.percent(60) {
            self.plain(row::DEFAULT);
            self.arm(room / (cases + 1), spot);
        }
        self.plain(row::END);
    }

    /// One of v0 to v5, as it is, or set just before, often to one of these numbers.
    fn small_variable(&mut self, numbers: &[u16]) -> u8 {
        let p = self.rng.byte() % SMALL;
        match self.rng.below(10) {
            0..=2 => {}
            3..=4 => {
                let n = self.rng.word() % 5;
                self.put(row::DO, 0, p, 0, n);
            }
            _ => {
                let n = if numbers.is_empty() { 0 } else { self.rng.pick(numbers) };
                self.put(row::DO, 0, p, 0, n);
            }
        }
        p
    }

    /// So many small numbers, all different, in some order.
    fn case_numbers(&mut self, count: usize) -> Vec<u16> {
        let mut left: Vec<u16> = (0..5).chain([255, 65_535]).collect();
        (0..count).map(|_| left.remove(self.rng.below(left.len().min(4)))).collect()
    }

    /// The rows of a case or a default, whose own if is open already. In a loop it
    /// may break or continue.
    fn arm(&mut self, room: usize, spot: Spot) {
        let room = self.rng.between(0, room);
        self.block(room, spot);
        if spot.in_loop && self.rng.percent(60) {
            self.exit();
        }
    }

    /// A loop of one to four rounds. It counts down at once, so that a continue
    /// does not make it endless.
    fn counted(&mut self, room: usize, spot: Spot) {
        let counter = FIRST_COUNTER + spot.open;
        let rounds = 1 + self.rng.word() % 4;
        self.regions += 1;
        self.put(row::DO, 0, counter, 0, rounds);
        self.put(row::LOOP, 1, counter, 0, 0);
        self.put(row::DO, 3, counter, ONE, 0);
        self.inside(room, Spot { in_loop: true, counter: Some(counter), ..spot });
        self.plain(row::END);
    }

    /// A loop that may never end, or never begin.
    fn free_loop(&mut self, room: usize, spot: Spot) {
        self.regions += 1;
        self.test(row::LOOP);
        self.inside(room - 2, Spot { in_loop: true, ..spot });
        if self.rng.percent(60) {
            self.exit();
        }
        self.plain(row::END);
    }

    /// A break or continue under a test.
    fn guarded_exit(&mut self) {
        self.regions += 1;
        self.test(row::IF);
        self.exit();
        self.plain(row::END);
    }

    fn exit(&mut self) {
        let kind = self.rng.pick(&[row::BREAK, row::BREAK, row::CONTINUE]);
        self.plain(kind);
    }

    fn call(&mut self, function: usize) {
        let n = u16::try_from(function).expect("there are few functions");
        self.put(row::CALL, 0, 0, 0, n);
    }

    fn forward_call(&mut self) {
        let callee = self.rng.between(self.number + 1, self.functions - 1);
        self.call(callee);
    }

    fn any_call(&mut self) {
        let callee = self.rng.below(self.functions);
        self.call(callee);
    }

    /// A call of any function while there is fuel.
    fn recursion(&mut self) {
        self.regions += 1;
        self.put(row::IF, 1, FUEL, 0, 0);
        self.put(row::DO, 3, FUEL, ONE, 0);
        self.any_call();
        self.plain(row::END);
    }
}
