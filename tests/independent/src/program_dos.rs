//! The dos of random programs. Most of them cannot overflow where they are reached, so that
//! long runs finish, but many could where a jump lands before them; some stand at the very
//! edge, on either side of it; some do as they please.

use crate::make;
use crate::program::{Writer, ONE};
use crate::random::Random;
use crate::row::{self, Row};

/// The dos of function 0 do as they please in so many of a hundred cases, those of the
/// other functions twice as often.
pub const BOLDNESS: [usize; 6] = [0, 0, 20, 50, 100, 100];

/// v0 to v5 hold small numbers, v6 and v7 such as are nearly 65,536.
pub const SMALL: u8 = 6;

/// A number that the variable may hold.
pub fn usual(rng: &mut Random, p: u8) -> u16 {
    let n = rng.word() % 5;
    if p < SMALL {
        n
    } else {
        65_535 - n
    }
}

/// The vp with which vp + vq is 65,535, or one more; vp - vq is 0, or one less. vq is not
/// 0.
fn at_the_edge(op: u8, vq: u16, past: bool) -> u16 {
    match (op, past) {
        (2, false) => 65_535 - vq,
        (2, true) => 65_535 - (vq - 1),
        (_, false) => vq,
        (_, true) => vq - 1,
    }
}

impl Writer<'_> {
    /// A do or a few of them over v0 to v7, now and then one over any variable.
    pub(crate) fn arithmetic(&mut self, may_open: bool) {
        let bold = self.rng.percent(self.boldness);
        if self.rng.percent(4) {
            let any = make::do_row(self.rng);
            let op = if bold { any.op } else { any.op.min(1) };
            return self.rows.push(Row { op, ..any });
        }
        let p = self.rng.byte() % 8;
        match self.rng.below(16) {
            0..=3 => self.set(p),
            4..=6 => self.copy(p),
            7..=8 if bold => self.edge(true),
            _ if bold => self.sum_or_difference(p),
            7..=11 => self.inwards(p),
            12..=13 => self.there_and_back(p),
            14 if may_open => self.smaller_taken(),
            14 => self.put(row::DO, 3, p, p, 0),
            _ => self.edge(false),
        }
    }

    fn set(&mut self, p: u8) {
        let n = usual(self.rng, p);
        self.put(row::DO, 0, p, 0, n);
    }

    /// From a variable that holds a number of the same sort.
    fn copy(&mut self, p: u8) {
        let q = if p < SMALL { self.small() } else { SMALL + self.rng.byte() % 2 };
        self.put(row::DO, 1, p, q, 0);
    }

    /// A variable that holds a small number.
    fn small(&mut self) -> u8 {
        if self.rng.percent(40) {
            ONE
        } else {
            self.rng.byte() % SMALL
        }
    }

    /// Away from the edge that vp is near.
    fn inwards(&mut self, p: u8) {
        let (op, q) = (if p < SMALL { 2 } else { 3 }, self.small());
        self.put(row::DO, op, p, q, 0);
    }

    /// The same, and back again: on its own the second may overflow.
    fn there_and_back(&mut self, p: u8) {
        let q = self.small();
        let [there, back] = if p < SMALL { [2, 3] } else { [3, 2] };
        self.put(row::DO, there, p, q, 0);
        self.put(row::DO, back, p, q, 0);
    }

    /// vq is taken from vp if it is less.
    fn smaller_taken(&mut self) {
        let (p, q) = (self.rng.byte() % SMALL, self.small());
        self.regions += 1;
        self.put(row::IF, 2, q, p, 0);
        self.put(row::DO, 3, p, q, 0);
        self.plain(row::END);
    }

    fn sum_or_difference(&mut self, p: u8) {
        let op = self.rng.pick(&[2, 3]);
        let q = if self.rng.percent(20) { self.rng.byte() % 8 } else { self.small() };
        self.put(row::DO, op, p, q, 0);
    }

    /// A sum or difference just at the edge, or if it may past it as often; behind it the
    /// variables hold small numbers again. One in four is of a variable and itself.
    fn edge(&mut self, may_pass: bool) {
        let past = may_pass && self.rng.percent(50);
        let op = self.rng.pick(&[2, 3]);
        let p = self.rng.byte() % SMALL;
        let q = if self.rng.percent(25) { p } else { (p + 1) % SMALL };
        if p == q {
            let n = if past { 32_768 } else { 32_767 };
            self.put(row::DO, 0, p, 0, n);
        } else {
            let vq = self.rng.pick(&[1, 2, 255, 32_768, 65_535]);
            self.put(row::DO, 0, q, 0, vq);
            self.put(row::DO, 0, p, 0, at_the_edge(op, vq, past));
        }
        self.put(row::DO, op, p, q, 0);
        self.set(p);
        if p != q {
            self.set(q);
        }
    }
}
