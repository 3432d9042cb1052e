//! One row of a source table (01, "The source table"; the rows of a switch are
//! those of 02, No. 1).

/// "A row has 6 bytes".
pub const ROW_BYTES: usize = 6;

/// "function opens"
pub const FUNCTION: u8 = 0x01;
/// "do"
pub const DO: u8 = 0x02;
/// "if"
pub const IF: u8 = 0x03;
/// "else"
pub const ELSE: u8 = 0x04;
/// "loop (while)"
pub const LOOP: u8 = 0x05;
/// "end of function, if or loop"; it closes a switch too
pub const END: u8 = 0x06;
/// "break ... of the innermost loop"
pub const BREAK: u8 = 0x07;
/// "continue of the innermost loop"
pub const CONTINUE: u8 = 0x08;
/// "call"
pub const CALL: u8 = 0x09;
/// "switch on vp"
pub const SWITCH: u8 = 0x0a;
/// "case n"
pub const CASE: u8 = 0x0b;
/// "default, last"
pub const DEFAULT: u8 = 0x0c;

/// "There are sixteen 16-bit variables": p and q "are at most 15".
const LAST_VARIABLE: u8 = 15;

/// "kind, op, p, q, then n in two bytes, low byte first".
#[derive(Clone, Copy, Debug, PartialEq, Eq)]
pub struct Row {
    pub kind: u8,
    pub op: u8,
    pub p: u8,
    pub q: u8,
    pub n: u16,
}

impl Row {
    /// The row that six bytes spell.
    pub fn read(bytes: &[u8]) -> Row {
        assert_eq!(bytes.len(), ROW_BYTES);
        Row {
            kind: bytes[0],
            op: bytes[1],
            p: bytes[2],
            q: bytes[3],
            n: u16::from_le_bytes([bytes[4], bytes[5]]),
        }
    }

    /// The six bytes of the row.
    pub fn bytes(self) -> [u8; ROW_BYTES] {
        let [low, high] = self.n.to_le_bytes();
        [self.kind, self.op, self.p, self.q, low, high]
    }

    /// A row that uses no field.
    pub fn plain(kind: u8) -> Row {
        Row { kind, op: 0, p: 0, q: 0, n: 0 }
    }

    /// False where 01 says "kind, op, p, q or an unused field wrong".
    pub fn fields_right(self) -> bool {
        match self.kind {
            DO => self.do_fields(),
            IF | LOOP => self.test_fields(),
            CALL | CASE => self.op == 0 && self.p == 0 && self.q == 0,
            SWITCH => self.op == 0 && self.uses_p_and_n() && self.n == 0,
            FUNCTION | ELSE | END | BREAK | CONTINUE | DEFAULT => self == Row::plain(self.kind),
            _ => false,
        }
    }

    /// "op 0: vp = n; 1: vp = vq; 2: vp = vp + vq; 3: vp = vp - vq".
    fn do_fields(self) -> bool {
        match self.op {
            0 => self.uses_p_and_n(),
            1..=3 => self.uses_p_and_q(),
            _ => false,
        }
    }

    /// "test op 0: vp = n; 1: vp differs from n; 2: vp less than vq".
    fn test_fields(self) -> bool {
        match self.op {
            0 | 1 => self.uses_p_and_n(),
            2 => self.uses_p_and_q(),
            _ => false,
        }
    }

    /// "An unused field is 0": here q.
    fn uses_p_and_n(self) -> bool {
        self.p <= LAST_VARIABLE && self.q == 0
    }

    /// "An unused field is 0": here n.
    fn uses_p_and_q(self) -> bool {
        self.p <= LAST_VARIABLE && self.q <= LAST_VARIABLE && self.n == 0
    }
}
