//! A larger table whose lines were worked out by hand from 01: an else, a loop
//! in it, a break two regions deep, a continue with a row after it, a call
//! forward.

use independent::line::Line;
use independent::{damage, line};

const ROWS: [[u8; 6]; 16] = [
    [0x01, 0, 0, 0, 0, 0], //  0 function 0
    [0x03, 2, 0, 1, 0, 0], //  1   if v0 < v1
    [0x09, 0, 0, 0, 1, 0], //  2     call 1
    [0x04, 0, 0, 0, 0, 0], //  3   else
    [0x05, 1, 2, 0, 5, 0], //  4     loop v2 differs from 5
    [0x03, 0, 3, 0, 0, 0], //  5       if v3 = 0
    [0x07, 0, 0, 0, 0, 0], //  6         break
    [0x06, 0, 0, 0, 0, 0], //  7       end
    [0x08, 0, 0, 0, 0, 0], //  8       continue
    [0x02, 0, 4, 0, 9, 0], //  9       v4 = 9
    [0x06, 0, 0, 0, 0, 0], // 10     end
    [0x06, 0, 0, 0, 0, 0], // 11   end
    [0x06, 0, 0, 0, 0, 0], // 12 end
    [0x01, 0, 0, 0, 0, 0], // 13 function 1
    [0x02, 1, 0, 1, 0, 0], // 14   v0 = v1
    [0x06, 0, 0, 0, 0, 0], // 15 end
];

/// r, s, t and e, a, b, c, go of a guard.
fn guard(kind: u8, [r, s, t]: [u8; 3], [e, a, b, c, go]: [u16; 5]) -> Line {
    Line { kind, r, s, t, e, a, b, c, go, ..Line::default() }
}

/// op, p, q, n of a do or test.
fn with(line: Line, [op, p, q]: [u8; 3], n: u16) -> Line {
    Line { op, p, q, n, ..line }
}

/// Regions of function 0, with direct rows, sizes and bases:
/// 0 body: if 2, end 1: size 4, base 1. 1 then: call 2: size 3, base 5.
/// 2 else: loop 2: size 3, base 8. 3 loop body: if 2, continue 1, do 1: size 5,
/// base 11. 4 then: break 1: size 2, base 16.
/// Function 1: 0 body: do 1, end 1: size 3, base 18.
fn lines() -> Vec<Line> {
    vec![
        with(guard(0x23, [0, 1, 2], [1, 2, 5, 8, 4]), [2, 0, 1], 0), //  0 row 1
        guard(0x26, [1, 0, 0], [5, 6, 18, 0, 14]),                   //  1 row 2
        guard(0x27, [1, 0, 0], [6, 7, 20, 0, 0]),                    //  2
        guard(0x24, [1, 0, 0], [7, 3, 2, 0, 13]),                    //  3 row 3
        with(guard(0x23, [2, 3, 2], [8, 9, 11, 10, 12]), [1, 2, 0], 5), // 4 row 4
        with(guard(0x23, [3, 4, 3], [11, 12, 16, 13, 8]), [0, 3, 0], 0), // 5 row 5
        guard(0x25, [4, 2, 3], [16, 10, 0, 0, 12]),                  //  6 row 6
        guard(0x24, [4, 3, 0], [17, 13, 12, 0, 8]),                  //  7 row 7
        guard(0x25, [3, 2, 3], [13, 8, 0, 0, 4]),                    //  8 row 8
        with(guard(0x21, [0, 0, 0], [9, 0, 0, 0, 0]), [0, 4, 0], 9), // 9 row 9
        guard(0x22, [3, 0, 0], [14, 15, 0, 0, 0]),                   // 10
        guard(0x24, [3, 2, 0], [15, 8, 9, 0, 4]),                    // 11 row 10
        guard(0x24, [2, 0, 0], [10, 3, 2, 0, 13]),                   // 12 row 11
        guard(0x28, [0, 0, 0], [3, 4, 0, 0, 0]),                     // 13 row 12
        with(guard(0x21, [0, 0, 0], [14, 0, 0, 0, 0]), [1, 0, 1], 0), // 14 row 14
        guard(0x22, [0, 0, 0], [18, 19, 0, 0, 0]),                   // 15
        guard(0x28, [0, 0, 0], [19, 20, 0, 0, 0]),                   // 16 row 15
    ]
}

#[test]
fn the_lines_are_those_worked_out_by_hand() {
    let got = line::from_bytes(&damage::hardened(&ROWS.concat()));
    let want = lines();
    for (number, (got, want)) in got.iter().zip(&want).enumerate() {
        assert_eq!(got, want, "line {number}");
    }
    assert_eq!(got.len(), want.len());
}

/// Empty parts: 01, 03, 04, 06, 06. Body: if 2, end 1: size 4, base 1. Then part
/// and else part: size 1 each, bases 5 and 6, which are their last values.
#[test]
fn empty_parts() {
    let rows: [[u8; 6]; 5] = [
        [1, 0, 0, 0, 0, 0],
        [3, 0, 0, 0, 0, 0],
        [4, 0, 0, 0, 0, 0],
        [6, 0, 0, 0, 0, 0],
        [6, 0, 0, 0, 0, 0],
    ];
    let want = [
        guard(0x23, [0, 1, 2], [1, 2, 5, 6, 2]),
        guard(0x24, [1, 0, 0], [5, 3, 2, 0, 3]),
        guard(0x24, [2, 0, 0], [6, 3, 2, 0, 3]),
        guard(0x28, [0, 0, 0], [3, 4, 0, 0, 0]),
    ];
    assert_eq!(line::from_bytes(&damage::hardened(&rows.concat())), want);
}
