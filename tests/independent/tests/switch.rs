//! Switches (02, No. 1) by hand: the worked table, a loop over a switch, the row of
//! each refusal.

mod letters;

use independent::fault::{self, Fault};
use independent::line::Line;
use independent::{check, harden, read_back, run_hardened, run_source, switch_limits, Ran};
use letters::rows;

const NO_JUMP: u16 = 65_535;

/// A switch on v0: case 10, case 50, default; a do in each.
const WORKED: [&str; 10] = [
    "010000000000",
    "0a0000000000",
    "0b0000000a00",
    "020001000100",
    "0b0000003200",
    "020001000200",
    "0c0000000000",
    "020001000300",
    "060000000000",
    "060000000000",
];

/// Its chain: an if, in its else part another one with an else part.
const CHAIN: [&str; 11] = [
    "010000000000",
    "030000000a00",
    "020001000100",
    "040000000000",
    "030000003200",
    "020001000200",
    "040000000000",
    "020001000300",
    "060000000000",
    "060000000000",
    "060000000000",
];

fn bytes(lines: &[&str]) -> Vec<u8> {
    let text = lines.concat();
    let pair = |at: usize| u8::from_str_radix(&text[at..at + 2], 16).unwrap();
    (0..text.len()).step_by(2).map(pair).collect()
}

/// r, s, t and e, a, b, c, go of a guard.
fn guard(kind: u8, [r, s, t]: [u8; 3], [e, a, b, c, go]: [u16; 5]) -> Line {
    Line { kind, r, s, t, e, a, b, c, go, ..Line::default() }
}

/// v1 = n, in this row.
fn set(n: u16, row: u16) -> Line {
    Line { kind: 0x21, p: 1, n, e: row, ..Line::default() }
}

/// Regions with direct rows, sizes and bases: 0 body: if 2, end 1: size 4, base 1.
/// 1 first case: do 1: size 2, base 5. 2 all behind it: if 2: size 3, base 7. 3
/// second case: do 1: size 2, base 10. 4 default: do 1: size 2, base 12.
fn worked_lines() -> Vec<Line> {
    vec![
        Line { n: 10, ..guard(0x23, [0, 1, 2], [1, 2, 5, 7, 4]) },
        set(1, 2),
        guard(0x22, [1, 0, 0], [5, 6, 0, 0, 0]),
        guard(0x24, [1, 0, 0], [6, 3, 2, 0, 12]),
        Line { n: 50, ..guard(0x23, [2, 3, 4], [7, 8, 10, 12, 8]) },
        set(2, 5),
        guard(0x22, [3, 0, 0], [10, 11, 0, 0, 0]),
        guard(0x24, [3, 2, 0], [11, 9, 8, 0, 11]),
        set(3, 7),
        guard(0x22, [4, 0, 0], [12, 13, 0, 0, 0]),
        guard(0x24, [4, 2, 0], [13, 9, 8, 0, 11]),
        guard(0x24, [2, 0, 0], [9, 3, 2, 0, 12]),
        guard(0x28, [0, 0, 0], [3, 4, 0, 0, 0]),
    ]
}

/// The hardened bytes, from an output that they fill.
fn hardened(rows: &[u8], length: usize) -> Vec<u8> {
    let mut out = vec![0; length];
    let written = harden(rows, &mut out);
    assert_eq!((written.number, written.length), (0, length));
    out
}

#[test]
fn the_worked_table() {
    let rows = bytes(&WORKED);
    assert_eq!(rows, switch_limits::worked_switch());
    let lines = hardened(&rows, 13 * 20);
    let expected: Vec<u8> = worked_lines().iter().flat_map(Line::bytes).collect();
    assert_eq!(lines, expected);
    assert_eq!(lines[..20], bytes(&["230000000a000001020001000200050007000400"]));
    assert_eq!(lines[80..100], bytes(&["23000000320002030400070008000a000c000800"]));
    assert_eq!(lines[240..], bytes(&["2800000000000000000003000400000000000000"]));
    assert_eq!(hardened(&bytes(&CHAIN), 13 * 20), lines);
}

#[test]
fn the_worked_table_read_back() {
    let mut out = vec![0; 66];
    let written = read_back(&hardened(&bytes(&WORKED), 260), &mut out);
    assert_eq!((written.number, written.length), (0, 66));
    assert_eq!(out, bytes(&CHAIN));
}

/// A run in either form, and its trace.
fn runs(rows: &[u8], lines: &[u8], variables: [u16; 16], budget: u16) -> [(Ran, Vec<u16>); 2] {
    let mut slots = vec![9999; usize::from(budget)];
    let source = run_source(rows, &variables, budget, &mut slots);
    let trace = slots[..usize::from(source.traced)].to_vec();
    let mut words = vec![7; 1024];
    let struck = run_hardened(lines, &variables, budget, NO_JUMP, 0, &mut slots, &mut words);
    let other = slots[..usize::from(struck.traced)].to_vec();
    [(source, trace), (struck, other)]
}

#[test]
fn the_worked_table_run() {
    let rows = bytes(&WORKED);
    let lines = hardened(&rows, 260);
    for (v0, steps, row, v1) in [(10, 4, 2, 1), (50, 6, 5, 2), (200, 6, 7, 3)] {
        let mut variables = [0; 16];
        variables[0] = v0;
        let [(source, trace), (struck, other)] = runs(&rows, &lines, variables, 20);
        variables[1] = v1;
        assert_eq!((source.number, source.outcome, source.steps), (0, 1, steps));
        assert_eq!((struck.number, struck.outcome, struck.steps), (0, 1, steps + 1));
        assert_eq!((source.variables, struck.variables), (variables, variables));
        assert_eq!((trace, other), (vec![row], vec![row]));
    }
}

/// `bands`: rows of the chain, with v15 = 1. Round 1: 1 2 3 4 (continue). Round 2: 1
/// 2 3 6 7 8, in function 1 21 22 23 24, then 9 (past its end), 16 17 18. Rounds 3
/// and 4: 1 2 3 6 10 13 14 15 16 17 18. Round 5: 1 2 3 6 10 11 (break), 19.
#[test]
fn a_loop_over_a_switch() {
    let rows = switch_limits::bands();
    let mut out = vec![0; 2000];
    let length = harden(&rows, &mut out).length;
    let mut variables = [0; 16];
    variables[15] = 1;
    let [(source, trace), (struck, other)] = runs(&rows, &out[..length], variables, 99);
    assert_eq!(trace, [2, 2, 7, 22, 17, 2, 13, 17, 2, 13, 17, 2]);
    assert_eq!(other, trace);
    assert_eq!((source.outcome, source.steps), (1, 4 + 14 + 11 + 11 + 7));
    // twelve dos and a call
    assert_eq!((struck.outcome, struck.steps), (1, 47 + 12 + 1));
    (variables[0], variables[1]) = (5, 7);
    assert_eq!((source.variables, struck.variables), (variables, variables));
}

/// "an empty switch stands for no rows, one with only a default for that part's
/// rows"
#[test]
fn no_rows_and_a_parts_rows() {
    for (given, same) in [
        ("fs..", "f."),
        ("fs*..", "f."),
        ("fs*d..", "fd."),
        ("fs*s*s*dd....", "fdd."),
        ("fdis.es*d..d.", "fdied.d."),
        ("fls*b...", "flb.."),
        ("fs*s.s*.ls*c..d..", "flc.d."),
        ("fs1*..", "fie.."),
        ("fs1..", "fi.."),
        ("fs1ds*i..*lb...", "fidi.elb..."),
    ] {
        let length = harden(&rows(same), &mut [0; 400]).length;
        assert_eq!(hardened(&rows(given), length), hardened(&rows(same), length), "{given}");
    }
}

/// A table in letters, its number and the row that it is about.
const FAULTS: &[(&str, u8, usize)] = &[
    // 0
    ("fs..", 0, 4),
    ("fs1d2d*d..", 0, 10),
    ("fs*s1.s1..s1..", 0, 14),
    ("fs1s1.2s1.*s1...", 0, 16),
    ("fls1b2c*b.d..", 0, 13),
    // 3
    ("fS", 3, 1),
    ("fs1X", 3, 3),
    ("fsC", 3, 2),
    ("S", 3, 0),
    ("C", 3, 0),
    ("X", 3, 0),
    // 3 before 4 in a row: before the first, behind a default, elsewhere
    ("fsD", 3, 2),
    ("fs*C", 3, 3),
    ("fs*X", 3, 3),
    ("fC", 3, 1),
    // 3 before 11
    ("fs1C", 3, 3),
    // 4: elsewhere
    ("s", 4, 0),
    ("1", 4, 0),
    ("*", 4, 0),
    ("f1..", 4, 1),
    ("f*..", 4, 1),
    ("fs1i2", 4, 4),
    ("fs1ie*", 4, 5),
    ("fs1l1", 4, 4),
    ("fs..1", 4, 4),
    ("fs.1", 4, 3),
    // 4: a row before the first
    ("fsd", 4, 2),
    ("fss", 4, 2),
    ("fsf", 4, 2),
    ("fse", 4, 2),
    ("fsi", 4, 2),
    ("fsa", 4, 2),
    ("flsb", 4, 3),
    ("flsc", 4, 3),
    // 4: an else straight in a case or a default
    ("fis1e", 4, 4),
    ("fs1de", 4, 4),
    ("fs*e", 4, 3),
    ("fs1*e", 4, 4),
    // 4: behind a default, also with a number that was there
    ("fs**", 4, 3),
    ("fs*1", 4, 3),
    ("fs1*1", 4, 4),
    ("fs1*d2", 4, 5),
    // 4: break and continue mean a loop; a function in a function
    ("fs1b", 4, 3),
    ("fs*c", 4, 3),
    ("fs1f", 4, 3),
    // 4: left open, also what stands for no rows
    ("fs", 4, 2),
    ("fs1", 4, 3),
    ("fs*", 4, 3),
    ("fs.", 4, 3),
    ("fs1.", 4, 4),
    ("fs*sA", 4, 4),
    ("fAs1", 4, 4),
    // 7
    ("fs1A*A..", 7, 3),
    ("fAs1..", 7, 1),
    // 11
    ("fs11", 11, 3),
    ("fs1d21", 11, 5),
    ("fs1s2.21d", 11, 7),
    ("fs1s1.1", 11, 6),
    ("fAs11D", 11, 4),
    ("fs1*..s2s11", 4, 6),
    ("fs1*.s2s11", 11, 9),
];

#[test]
fn the_row_of_each_refusal() {
    for (letters, number, row) in FAULTS {
        let rows = rows(letters);
        assert_eq!(check(&rows), *number, "{letters}");
        assert_eq!(fault::find(&rows), Fault { number: *number, row: *row }, "{letters}");
    }
}

/// Some 500 open at one row; a stack half as large as a test's is enough.
#[test]
fn defaults_as_deep_as_rows_allow() {
    let deep = || {
        let open = switch_limits::open_defaults(511);
        assert_eq!(fault::find(&open), Fault { number: 4, row: 1023 });
        assert_eq!(check(&open), 4);
        let closed = switch_limits::nested_defaults(340);
        assert_eq!(fault::find(&closed), Fault { number: 0, row: 1023 });
        // a do, a tick, a ret; a do and the end
        let lines = hardened(&closed, 60);
        let [(source, trace), (struck, _)] = runs(&closed, &lines, [0; 16], 9);
        assert_eq!((source.outcome, source.steps, struck.steps), (1, 2, 3));
        assert_eq!(trace, [1]);
    };
    let thread = std::thread::Builder::new().stack_size(1024 * 1024).spawn(deep);
    thread.unwrap().join().unwrap();
}
