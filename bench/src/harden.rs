//! Writes the hardened lines of an accepted table. Every number that a line needs is at hand in
//! the table's shape, so each row costs the same.

use crate::table::{self, n_of, Refusal, Row, Shape, MOST_ROWS, ROW_BYTES};

pub const LINE_BYTES: usize = 20;
pub const MOST_LINES: usize = 2 * MOST_ROWS;

pub const DO: u8 = 0x21;
pub const TICK: u8 = 0x22;
pub const TEST: u8 = 0x23;
pub const LEAVE: u8 = 0x24;
pub const OUT: u8 = 0x25;
pub const CALL: u8 = 0x26;
pub const BACK: u8 = 0x27;
pub const RET: u8 = 0x28;

pub type LineBytes = [u8; LINE_BYTES];

/// A line's fields, without the zero byte.
#[derive(Clone, Copy, Default)]
struct Line {
    kind: u8,
    /// op, p, q and n where they stand in a line
    copied: u64,
    r: u8,
    s: u8,
    t: u8,
    e: u16,
    a: u16,
    b: u16,
    c: u16,
    go: u16,
}

/// A line's twenty bytes, first bytes lowest. Three numbers are written and compared at once,
/// where an array would go through memory in small pieces.
#[derive(Clone, Copy, PartialEq, Eq)]
pub struct Packed(u64, u64, u32);

impl Packed {
    #[inline]
    fn of_bytes(line: &LineBytes) -> Packed {
        let [b0, b1, b2, b3, b4, b5, b6, b7, c0, c1, c2, c3, c4, c5, c6, c7, d0, d1, d2, d3] =
            *line;
        Packed(
            u64::from_le_bytes([b0, b1, b2, b3, b4, b5, b6, b7]),
            u64::from_le_bytes([c0, c1, c2, c3, c4, c5, c6, c7]),
            u32::from_le_bytes([d0, d1, d2, d3]),
        )
    }

    #[inline]
    fn write(self, out: &mut LineBytes) {
        out[..8].copy_from_slice(&self.0.to_le_bytes());
        out[8..16].copy_from_slice(&self.1.to_le_bytes());
        out[16..].copy_from_slice(&self.2.to_le_bytes());
    }

    /// Whether these are the bytes of a line; no branch, so that a whole table takes one.
    #[inline]
    pub fn is(self, line: &LineBytes) -> bool {
        let other = Packed::of_bytes(line);
        (self.0 ^ other.0) | (self.1 ^ other.1) | u64::from(self.2 ^ other.2) == 0
    }
}

impl Line {
    #[inline]
    fn packed(&self) -> Packed {
        let byte = |byte: u8, at: u32| u64::from(byte) << (8 * at);
        let word = |word: u16, at: u32| u64::from(word) << (8 * at);
        Packed(
            byte(self.kind, 0) | self.copied | byte(self.r, 6) | byte(self.s, 7),
            byte(self.t, 0) | word(self.e, 2) | word(self.a, 4) | word(self.b, 6),
            u32::from(self.c) | u32::from(self.go) << 16,
        )
    }
}

/// Takes the lines in order: hardening writes them, reading back compares them.
pub trait Sink {
    fn put(&mut self, line: Packed);
}

struct Writer<'a> {
    out: std::slice::IterMut<'a, LineBytes>,
}

impl Sink for Writer<'_> {
    #[inline]
    fn put(&mut self, line: Packed) {
        line.write(self.out.next().expect("the output was found long enough"));
    }
}

/// Hardens a table into `out` and answers how many bytes it wrote.
pub fn harden(rows: &[u8], out: &mut [u8]) -> Result<usize, Refusal> {
    let (rows, shape) = table::read(rows)?;
    let length = usize::from(shape.lines) * LINE_BYTES;
    let out = out.get_mut(..length).ok_or(Refusal::OutputShort)?;
    let (out, _) = out.as_chunks_mut::<LINE_BYTES>();
    lines(&rows, &shape, &mut Writer { out: out.iter_mut() });
    Ok(length)
}

/// Gives the lines of a table that was read into this shape.
pub fn lines(rows: &[u8], shape: &Shape, sink: &mut impl Sink) {
    let (rows, _) = rows.as_chunks::<ROW_BYTES>();
    let bases = bases(shape);
    let mut hardening = Hardening { rows, shape, bases: &bases, first: 0, sink };
    for (at, row) in rows.iter().enumerate() {
        hardening.row(at, row);
    }
}

/// The first value of each region.
fn bases(shape: &Shape) -> Vec<u16> {
    let mut next = 1;
    let base = |size: &u16| {
        next += size;
        next - size
    };
    shape.sizes.iter().map(base).collect()
}

struct Hardening<'a, S> {
    rows: &'a [Row],
    shape: &'a Shape,
    bases: &'a [u16],
    /// The body's region of the function being written: lines number regions from it.
    first: u16,
    sink: &'a mut S,
}

impl<S: Sink> Hardening<'_, S> {
    #[inline]
    fn row(&mut self, at: usize, row: &Row) {
        match row[0] {
            table::FUNCTION => self.first = self.opened(at),
            table::DO => self.do_lines(at, row),
            table::IF | table::LOOP => self.test(at, row),
            table::ELSE => self.leave_then(at),
            table::END => self.end(at),
            table::CALL => self.call_lines(at, row),
            kind => self.out(at, kind == table::BREAK),
        }
    }

    fn region(&self, at: usize) -> u16 {
        self.shape.places[at].region
    }

    /// The region that a row opens: see `Place`.
    fn opened(&self, at: usize) -> u16 {
        self.region(at + 1)
    }

    fn local(&self, region: u16) -> u8 {
        (region - self.first) as u8
    }

    fn base(&self, region: u16) -> u16 {
        self.bases[usize::from(region)]
    }

    /// A region's last value: its base and what all its rows take.
    fn last(&self, region: u16) -> u16 {
        self.base(region) + self.shape.sizes[usize::from(region)] - 1
    }

    fn value(&self, at: usize) -> u16 {
        let place = &self.shape.places[at];
        self.base(place.region) + place.taken
    }

    fn line(&self, at: usize) -> u16 {
        self.shape.places[at].line
    }

    fn link(&self, at: usize) -> usize {
        usize::from(self.shape.places[at].link)
    }

    #[inline]
    fn put(&mut self, line: Line) {
        self.sink.put(line.packed());
    }

    #[inline]
    fn do_lines(&mut self, at: usize, row: &Row) {
        let (r, e) = (self.local(self.region(at)), self.value(at));
        self.put(Line { kind: DO, copied: copied(row), e: at as u16, ..Line::default() });
        self.put(Line { kind: TICK, r, e, a: e + 1, ..Line::default() });
    }

    #[inline]
    fn test(&mut self, at: usize, row: &Row) {
        let (region, e, link) = (self.region(at), self.value(at), self.link(at));
        let opened = self.opened(at);
        let (t, c) = if self.rows[link][0] == table::ELSE {
            (self.opened(link), self.base(self.opened(link)))
        } else {
            (region, e + 2)
        };
        self.put(Line {
            kind: TEST,
            copied: copied(row),
            r: self.local(region),
            s: self.local(opened),
            t: self.local(t),
            e,
            a: e + 1,
            b: self.base(opened),
            c,
            // an else and an end have one line each, and both are left behind
            go: self.line(link) + 1,
        });
    }

    /// The leave that closes a part of the if or loop at row `head`.
    #[inline]
    fn leave(&mut self, at: usize, head: usize, a: u16, go: u16) {
        let region = self.region(at);
        self.put(Line {
            kind: LEAVE,
            r: self.local(region),
            s: self.local(self.region(head)),
            e: self.last(region),
            a,
            b: self.value(head) + 1,
            go,
            ..Line::default()
        });
    }

    #[inline]
    fn leave_then(&mut self, at: usize) {
        let head = usize::from(self.shape.places[at].taken);
        self.leave(at, head, self.value(head) + 2, self.line(self.link(at)) + 1);
    }

    #[inline]
    fn end(&mut self, at: usize) {
        let head = self.link(at);
        match self.rows[head][0] {
            table::IF => self.leave(at, head, self.value(head) + 2, self.line(at) + 1),
            table::LOOP => self.leave(at, head, self.value(head), self.line(head)),
            _ => {
                let e = self.value(at);
                self.put(Line { kind: RET, e, a: e + 1, ..Line::default() });
            }
        }
    }

    #[inline]
    fn out(&mut self, at: usize, is_break: bool) {
        let head = self.link(at);
        let around = self.value(head);
        let (a, go) = if is_break {
            (around + 2, self.line(self.link(head)) + 1)
        } else {
            (around, self.line(head))
        };
        self.put(Line {
            kind: OUT,
            r: self.local(self.region(at)),
            s: self.local(self.region(head)),
            t: self.local(self.opened(head)),
            e: self.value(at),
            a,
            go,
            ..Line::default()
        });
    }

    #[inline]
    fn call_lines(&mut self, at: usize, row: &Row) {
        let (r, e) = (self.local(self.region(at)), self.value(at));
        let head = usize::from(self.shape.heads[usize::from(n_of(row))]);
        let (body, go) = (self.opened(head), self.line(head));
        let b = self.base(body);
        self.put(Line { kind: CALL, r, e, a: e + 1, b, go, ..Line::default() });
        let b = self.last(body);
        self.put(Line { kind: BACK, r, e: e + 1, a: e + 2, b, ..Line::default() });
    }
}

/// op, p, q and n stand where they stand in a row.
#[inline]
fn copied(row: &Row) -> u64 {
    u64::from_le_bytes([0, row[1], row[2], row[3], row[4], row[5], 0, 0])
}
