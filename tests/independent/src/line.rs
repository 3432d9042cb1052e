//! One hardened line of 20 bytes (01, "The hardened lines").

/// "A line has 20 bytes".
pub const LINE_BYTES: usize = 20;

pub const DO: u8 = 0x21;
pub const TICK: u8 = 0x22;
pub const TEST: u8 = 0x23;
pub const LEAVE: u8 = 0x24;
pub const OUT: u8 = 0x25;
pub const CALL: u8 = 0x26;
pub const BACK: u8 = 0x27;
pub const RET: u8 = 0x28;

/// "kind, op, p, q, n (2), r, s, t, a zero byte, then e, a, b, c, go (2 each,
/// low byte first). Unused fields are 0."
#[derive(Clone, Copy, Debug, Default, PartialEq, Eq)]
pub struct Line {
    pub kind: u8,
    pub op: u8,
    pub p: u8,
    pub q: u8,
    pub n: u16,
    pub r: u8,
    pub s: u8,
    pub t: u8,
    pub e: u16,
    pub a: u16,
    pub b: u16,
    pub c: u16,
    pub go: u16,
}

impl Line {
    /// The twenty bytes of the line.
    pub fn bytes(&self) -> [u8; LINE_BYTES] {
        let mut out = [0; LINE_BYTES];
        out[..4].copy_from_slice(&[self.kind, self.op, self.p, self.q]);
        out[4..6].copy_from_slice(&self.n.to_le_bytes());
        out[6..9].copy_from_slice(&[self.r, self.s, self.t]);
        for (i, word) in [self.e, self.a, self.b, self.c, self.go].iter().enumerate() {
            out[10 + 2 * i..12 + 2 * i].copy_from_slice(&word.to_le_bytes());
        }
        out
    }

    /// The fields that twenty bytes spell. The zero byte is not looked at.
    pub fn read(bytes: &[u8]) -> Line {
        assert_eq!(bytes.len(), LINE_BYTES);
        let word = |at: usize| u16::from_le_bytes([bytes[at], bytes[at + 1]]);
        Line {
            kind: bytes[0],
            op: bytes[1],
            p: bytes[2],
            q: bytes[3],
            n: word(4),
            r: bytes[6],
            s: bytes[7],
            t: bytes[8],
            e: word(10),
            a: word(12),
            b: word(14),
            c: word(16),
            go: word(18),
        }
    }

    /// "All lines but 21 are guards."
    pub fn is_guard(&self) -> bool {
        self.kind != DO
    }

    /// 01's word for the kind of an accepted table's line.
    pub fn word(&self) -> &'static str {
        match self.kind {
            DO => "do",
            TICK => "tick",
            TEST => "test",
            LEAVE => "leave",
            OUT => "out",
            CALL => "call",
            BACK => "back",
            RET => "ret",
            kind => unreachable!("an accepted table has no line kind {kind}"),
        }
    }
}

/// The bytes of several lines.
pub fn to_bytes(lines: &[Line]) -> Vec<u8> {
    lines.iter().flat_map(|line| line.bytes()).collect()
}

/// The lines that bytes spell; a ragged rest is left out.
pub fn from_bytes(bytes: &[u8]) -> Vec<Line> {
    bytes.chunks_exact(LINE_BYTES).map(Line::read).collect()
}
