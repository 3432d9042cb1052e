//! What is told of a malformed line: the words of docs/PROGRAMS.md, "A malformed
//! line", copied by hand.

use independent::printed::Printed;
use independent::programs::Program;
use independent::texts;

const ROW: &str = "010000000000";
const LINE: &str = "2800000000000000000001000200000000000000";

fn printed(program: Program, input: &[u8]) -> Printed {
    program.printed(&[], input).unwrap()
}

/// `unreadable` alone on standard output, and this line on standard error.
fn told(program: Program, input: impl AsRef<[u8]>, line: &str) {
    let input = input.as_ref();
    let expected =
        Printed { out: "unreadable\n".to_string(), err: format!("{line}\n").into_bytes() };
    assert_eq!(printed(program, input), expected, "{:?}", String::from_utf8_lossy(input));
}

fn told_of_rows(input: impl AsRef<[u8]>, line: &str) {
    told(Program::Harden, &input, line);
    told(Program::Measure, &input, line);
    told(Program::Explain, &input, line);
}

#[test]
fn of_12_digits() {
    told_of_rows("\r\n", "line 1: a carriage return");
    told_of_rows("\r", "line 1: a carriage return");
    told_of_rows("0100\r0000000\n", "line 1: a carriage return");
    told_of_rows("010000000000\r\n", "line 1: a carriage return");
    told_of_rows("010000000000\r", "line 1: a carriage return");
    told_of_rows("0100000000000\r\n", "line 1: more than 12 digits");
    told_of_rows("0100000000000\n", "line 1: more than 12 digits");
    told_of_rows("010000000000A\n", "line 1: more than 12 digits");
    told_of_rows("010000000000 \n", "line 1: more than 12 digits");
    told_of_rows("010000000000\t", "line 1: more than 12 digits");
    told_of_rows("010000000000x", "line 1: more than 12 digits");
    told_of_rows("010000000000\0", "line 1: more than 12 digits");
    told_of_rows(LINE, "line 1: more than 12 digits");
    for digit in ["A", "B", "C", "D", "E", "F"] {
        told_of_rows(digit, "line 1: an uppercase digit");
        told_of_rows(format!("01000000000{digit}\n"), "line 1: an uppercase digit");
    }
    told_of_rows(" 010000000000\n", "line 1: a space");
    told_of_rows("01 0000000000\n", "line 1: a space");
    told_of_rows("01000000000\t\n", "line 1: a space");
    told_of_rows(" ", "line 1: a space");
    for byte in b"gG@`/:-xz\0\x01\x0b\x0c\x1f\x7f\x80\xff" {
        told_of_rows([*byte], "line 1: a byte that is no digit");
        told_of_rows([b"01000", &[*byte][..], b"\n"].concat(), "line 1: a byte that is no digit");
    }
    told_of_rows("\n", "line 1: an empty line");
    told_of_rows("1\n", "line 1: 1 digits, not 12");
    told_of_rows("1", "line 1: 1 digits, not 12");
    told_of_rows("01000000000\n", "line 1: 11 digits, not 12");
    told_of_rows("01000000000", "line 1: 11 digits, not 12");
}

#[test]
fn of_40_digits() {
    let readback = Program::Readback;
    told(readback, format!("{LINE}\r\n"), "line 1: a carriage return");
    told(readback, format!("{LINE}0\n"), "line 1: more than 40 digits");
    told(readback, format!("{LINE}A"), "line 1: more than 40 digits");
    told(readback, format!("{LINE}{LINE}\n"), "line 1: more than 40 digits");
    told(readback, LINE.replace("28", "2F"), "line 1: an uppercase digit");
    told(readback, format!("\t{LINE}\n"), "line 1: a space");
    told(readback, LINE.replace("28", "2g"), "line 1: a byte that is no digit");
    told(readback, format!("{LINE}\n\n"), "line 2: an empty line");
    told(readback, ROW, "line 1: 12 digits, not 40");
    told(readback, &LINE[..39], "line 1: 39 digits, not 40");
    told(readback, &LINE[..1], "line 1: 1 digits, not 40");
}

/// Lines are counted from 1, and the first malformed one is told.
#[test]
fn which_line() {
    told_of_rows(format!("{ROW}\n{ROW}\n0\n{ROW}\n"), "line 3: 1 digits, not 12");
    told_of_rows(format!("{ROW}\n\n"), "line 2: an empty line");
    told_of_rows(format!("\n{ROW}\n"), "line 1: an empty line");
    told_of_rows(format!("{ROW}\n{ROW}\r\nA\n"), "line 2: a carriage return");
    told_of_rows(format!("{ROW}\n0A \r\n"), "line 2: an uppercase digit");
    told_of_rows(format!("{ROW}\n0 A\r\n"), "line 2: a space");
    told_of_rows(format!("{ROW}\n\n \nA\n"), "line 2: an empty line");
    let many = |count| format!("{ROW}\n").repeat(count);
    told_of_rows(many(1024) + "x", "line 1025: a byte that is no digit");
    told_of_rows(many(1025) + "x", "line 1026: a byte that is no digit");
    told_of_rows(many(65_535) + "0100", "line 65536: 4 digits, not 12");
    told_of_rows(many(70_000) + "\r\n", "line 70001: a carriage return");
    let lines = format!("{LINE}\n").repeat(3000);
    told(Program::Readback, lines + "28 0", "line 3001: a space");
}

/// "behind the last one it may be missing. Empty input is a table of no rows."
#[test]
fn not_malformed() {
    let lone = "refused 4\n";
    assert_eq!(printed(Program::Harden, ROW.as_bytes()), Printed::out(lone));
    assert_eq!(printed(Program::Harden, format!("{ROW}\n").as_bytes()), Printed::out(lone));
    assert_eq!(printed(Program::Harden, b""), Printed::out("refused 1\n"));
    assert_eq!(printed(Program::Measure, ROW.as_bytes()), Printed::out(lone));
    assert_eq!(printed(Program::Measure, b""), Printed::out("refused 1\n"));
    assert_eq!(printed(Program::Explain, b""), Printed::out("refused 1 at row 0: no rows\n"));
    assert_eq!(printed(Program::Readback, b""), Printed::out("refused 10\n"));
}

/// The texts that the script puts to the programs meet each row of the table, for
/// each program.
#[test]
fn the_texts_meet_every_row() {
    let texts = texts::all(1, 0);
    for program in [Program::Harden, Program::Measure, Program::Explain, Program::Readback] {
        let of_program = texts.iter().filter(|text| text.programs.contains(&program));
        let told: Vec<String> = of_program
            .map(|text| String::from_utf8(printed(program, &text.bytes).err).unwrap())
            .collect();
        for words in [
            ": a carriage return\n",
            " digits\n",
            ": an uppercase digit\n",
            ": a space\n",
            ": a byte that is no digit\n",
            ": an empty line\n",
            " digits, not ",
        ] {
            let met: Vec<&String> = told.iter().filter(|line| line.contains(words)).collect();
            assert!(met.len() >= 10, "{program:?} {words} {}", met.len());
            for line in ["line 1:", "line 2:", "line 3:", "line 1026:"] {
                assert!(
                    met.iter().any(|told| told.starts_with(line)),
                    "{program:?} {words} {line}"
                );
            }
        }
    }
}
