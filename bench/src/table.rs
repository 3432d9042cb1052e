//! Checks a source table in one pass with an explicit stack, and notes of each row what hardening
//! and running need: where it stands, its first line, and the row that it belongs to.

pub mod switch;

pub use switch::read;

pub const MOST_ROWS: usize = 1024;
pub const ROW_BYTES: usize = 6;
const MOST_FUNCTIONS: usize = 32;
const MOST_REGIONS: u16 = 64;
/// A function's body and 16 ifs and loops in it.
const MOST_OPEN: usize = 17;

pub const FUNCTION: u8 = 0x01;
pub const DO: u8 = 0x02;
pub const IF: u8 = 0x03;
pub const ELSE: u8 = 0x04;
pub const LOOP: u8 = 0x05;
pub const END: u8 = 0x06;
pub const BREAK: u8 = 0x07;
pub const CONTINUE: u8 = 0x08;
pub const CALL: u8 = 0x09;

pub type Row = [u8; ROW_BYTES];

pub fn n_of(row: &Row) -> u16 {
    u16::from_le_bytes([row[4], row[5]])
}

/// Why a call is turned away; the discriminant is its number.
#[derive(Clone, Copy, Debug, PartialEq, Eq)]
pub enum Refusal {
    NoWholeRows = 1,
    TooManyRows = 2,
    WrongField = 3,
    Misplaced = 4,
    TooManyFunctions = 5,
    TooMuchOpen = 6,
    NoSuchFunction = 7,
    OutputShort = 8,
    BuffersShort = 9,
    NotHardened = 10,
    RepeatedCase = 11,
    Unfinished = 13,
}

/// What is noted of a row.
#[derive(Clone, Copy, Default)]
pub struct Place {
    /// The region in which the row stands, counted over the whole table; of an else or end the
    /// region that it closes. So the region that a row opens is that of the next row, always.
    pub region: u16,
    /// What the earlier rows of that region take; of an else, the row of its if.
    pub taken: u16,
    /// Its first line in the hardened table.
    pub line: u16,
    /// if: its else, or its end where it has none; function, loop, else: the end; end: the row
    /// that it ends; break, continue: the loop.
    pub link: u16,
}

/// An accepted table's shape.
pub struct Shape {
    pub places: Vec<Place>,
    /// The size of each region in the order they open.
    pub sizes: Vec<u16>,
    /// The row of each function.
    pub heads: [u16; MOST_FUNCTIONS],
    pub lines: u16,
}

/// A function's body, an if or a loop that is open.
#[derive(Clone, Copy, Default)]
struct Open {
    kind: u8,
    /// Whether a loop is open, and the row of the innermost one.
    in_loop: bool,
    innermost: u16,
    head: u16,
    /// The row whose link will be the end: the head, or its else.
    last: u16,
    region: u16,
    /// Wider than it need be: two halves of one word, written apart and read as one, stall.
    taken: u32,
}

/// The pass over the rows. It owns nothing, so that what it counts can stay in registers.
struct Walk<'a> {
    places: &'a mut [Place],
    sizes: &'a mut [u16],
    heads: &'a mut [u16; MOST_FUNCTIONS],
    functions: usize,
    /// The innermost open thing; those around it are on the stack.
    top: Open,
    around: [Open; MOST_OPEN],
    /// How much is open; 0 outside of functions.
    depth: usize,
    /// Regions of the table and of the function so far.
    regions: usize,
    local: u16,
    lines: u16,
    /// One more than the highest number that is called.
    called: u32,
}

fn unless(fault: bool, refusal: Refusal) -> Result<(), Refusal> {
    if fault {
        Err(refusal)
    } else {
        Ok(())
    }
}

fn no_fields(row: &Row) -> Result<(), Refusal> {
    unless(row[1] | row[2] | row[3] | row[4] | row[5] != 0, Refusal::WrongField)
}

/// Ops below `with_n` use p and n, the others up to `last` p and q.
fn operands(row: &Row, with_n: u8, last: u8) -> Result<(), Refusal> {
    let [_, op, p, q, low, high] = *row;
    let wrong = if op < with_n { q != 0 } else { op > last || q > 15 || low | high != 0 };
    unless(wrong || p > 15, Refusal::WrongField)
}

impl Shape {
    /// Reads a table without switches, or answers the first cause that turns it away.
    pub fn read(bytes: &[u8]) -> Result<Shape, Refusal> {
        let (rows, rest) = bytes.as_chunks::<ROW_BYTES>();
        unless(rows.is_empty() || !rest.is_empty(), Refusal::NoWholeRows)?;
        unless(rows.len() > MOST_ROWS, Refusal::TooManyRows)?;
        let mut places = vec![Place::default(); rows.len()];
        let mut sizes = vec![0; rows.len()];
        let mut heads = [0; MOST_FUNCTIONS];
        let mut walk = Walk::new(&mut places, &mut sizes, &mut heads);
        for (at, row) in rows.iter().enumerate() {
            walk.row(at, row)?;
        }
        unless(walk.depth != 0, Refusal::Misplaced)?;
        unless(walk.called > walk.functions as u32, Refusal::NoSuchFunction)?;
        let (lines, regions) = (walk.lines, walk.regions);
        sizes.truncate(regions);
        Ok(Shape { places, sizes, heads, lines })
    }
}

impl<'a> Walk<'a> {
    fn new(
        places: &'a mut [Place],
        sizes: &'a mut [u16],
        heads: &'a mut [u16; MOST_FUNCTIONS],
    ) -> Walk<'a> {
        let nothing = Open::default();
        Walk {
            places,
            sizes,
            heads,
            functions: 0,
            top: nothing,
            around: [nothing; MOST_OPEN],
            depth: 0,
            regions: 0,
            local: 0,
            lines: 0,
            called: 0,
        }
    }

    /// One row: 3, then 4, then 5, then 6.
    #[inline(always)]
    fn row(&mut self, at: usize, row: &Row) -> Result<(), Refusal> {
        match row[0] {
            DO => {
                operands(row, 1, 3)?;
                self.inside()?;
                self.put(at, 0, 1, 2);
            }
            IF | LOOP => {
                operands(row, 2, 2)?;
                self.inside()?;
                self.construct(at, row[0])?;
            }
            CALL => {
                unless(row[1] | row[2] | row[3] != 0, Refusal::WrongField)?;
                self.inside()?;
                self.called = self.called.max(u32::from(n_of(row)) + 1);
                self.put(at, 0, 2, 2);
            }
            FUNCTION => {
                no_fields(row)?;
                self.function(at)?;
            }
            ELSE | END | BREAK | CONTINUE => {
                no_fields(row)?;
                self.inside()?;
                self.closing(at, row[0])?;
            }
            _ => return Err(Refusal::WrongField),
        }
        Ok(())
    }

    fn inside(&self) -> Result<(), Refusal> {
        unless(self.depth == 0, Refusal::Misplaced)
    }

    #[inline(always)]
    fn closing(&mut self, at: usize, kind: u8) -> Result<(), Refusal> {
        match kind {
            ELSE => self.other(at)?,
            END => self.end(at),
            _ => {
                unless(!self.top.in_loop, Refusal::Misplaced)?;
                self.put(at, self.top.innermost, 1, 1);
            }
        }
        Ok(())
    }

    /// A row that takes so many values of the region around and has so many lines.
    #[inline(always)]
    fn put(&mut self, at: usize, link: u16, takes: u32, lines: u16) {
        let Open { region, taken, .. } = self.top;
        self.places[at] = Place { region, taken: taken as u16, line: self.lines, link };
        self.top.taken += takes;
        self.lines += lines;
    }

    #[inline(always)]
    fn open(&mut self, at: usize, kind: u8) {
        self.around[self.depth] = self.top;
        self.depth += 1;
        let (head, region) = (at as u16, self.regions as u16);
        self.regions += 1;
        self.top = Open { kind, head, last: head, region, taken: 0, ..self.top };
    }

    #[inline(always)]
    fn function(&mut self, at: usize) -> Result<(), Refusal> {
        unless(self.depth != 0, Refusal::Misplaced)?;
        unless(self.functions == MOST_FUNCTIONS, Refusal::TooManyFunctions)?;
        self.heads[self.functions] = at as u16;
        self.functions += 1;
        self.places[at].line = self.lines;
        self.local = 1;
        self.open(at, FUNCTION);
        Ok(())
    }

    #[inline(always)]
    fn construct(&mut self, at: usize, kind: u8) -> Result<(), Refusal> {
        let full = self.depth == MOST_OPEN || self.local == MOST_REGIONS;
        unless(full, Refusal::TooMuchOpen)?;
        self.put(at, 0, 2, 1);
        self.local += 1;
        self.open(at, kind);
        if kind == LOOP {
            self.top.in_loop = true;
            self.top.innermost = at as u16;
        }
        Ok(())
    }

    #[inline(always)]
    fn other(&mut self, at: usize) -> Result<(), Refusal> {
        unless(self.top.kind != IF, Refusal::Misplaced)?;
        unless(self.local == MOST_REGIONS, Refusal::TooMuchOpen)?;
        let Open { region, head, .. } = self.top;
        self.sizes[usize::from(region)] = 1 + self.top.taken as u16;
        self.places[usize::from(head)].link = at as u16;
        self.places[at] = Place { region, taken: head, line: self.lines, link: 0 };
        let region = self.regions as u16;
        self.top = Open { kind: ELSE, last: at as u16, region, taken: 0, ..self.top };
        self.regions += 1;
        self.local += 1;
        self.lines += 1;
        Ok(())
    }

    #[inline(always)]
    fn end(&mut self, at: usize) {
        // a function's end takes a value itself
        let takes = u32::from(self.top.kind == FUNCTION);
        self.put(at, self.top.head, takes, 1);
        self.sizes[usize::from(self.top.region)] = 1 + self.top.taken as u16;
        self.places[usize::from(self.top.last)].link = at as u16;
        self.depth -= 1;
        self.top = self.around[self.depth];
    }
}
