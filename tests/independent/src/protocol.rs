//! One test on one line, and its answer on one line: the text between this
//! program and the one that is tested. Hexadecimal is lowercase, an empty byte
//! string is `-`.

use crate::calls::{self, Ran, Swept, SweptOther, Written, COUNTER_WORDS};
use crate::fault::{self, Fault};
use crate::machine::Variables;
use crate::measure::{self, Measured};
use crate::sweep::Counts;
use crate::text::hex;

/// A lent output is filled with this byte before the call.
pub const OUT_FILL: u8 = 0xa5;
/// Trace slots are filled with this number before the call.
pub const SLOT_FILL: u16 = 43_690;
/// Counter words are filled with this number before the call.
pub const WORD_FILL: u16 = 21_845;

/// A test: the line that asks and the line that answers, without newlines.
#[derive(Clone, Debug, PartialEq, Eq)]
pub struct Test {
    pub ask: String,
    pub answer: String,
}

/// `check HEXROWS`, answer `NUMBER`.
pub fn check(rows: &[u8]) -> Test {
    let ask = format!("check {}", hex_or_dash(rows));
    Test { ask, answer: calls::check(rows).to_string() }
}

/// `fault HEXROWS`, answer `NUMBER ROW`.
pub fn fault(rows: &[u8]) -> Test {
    let Fault { number, row } = fault::find(rows);
    let ask = format!("fault {}", hex_or_dash(rows));
    Test { ask, answer: format!("{number} {row}") }
}

/// `harden OUTLEN HEXROWS`, answer `NUMBER LENGTH HEXOUT`.
pub fn harden(out_length: usize, rows: &[u8]) -> Test {
    let mut out = vec![OUT_FILL; out_length];
    let written = calls::harden(rows, &mut out);
    let ask = format!("harden {out_length} {}", hex_or_dash(rows));
    Test { ask, answer: written_answer(written, &out) }
}

/// `measure HEXROWS`, answer `NUMBER LINES REGIONS VALUE`.
pub fn measure(rows: &[u8]) -> Test {
    let Measured { number, lines, regions, value } = measure::measure(rows);
    let ask = format!("measure {}", hex_or_dash(rows));
    Test { ask, answer: format!("{number} {lines} {regions} {value}") }
}

/// `total STEPS DOS CALLS`, answer `SUM`.
pub fn total(steps: u16, dos: u16, calls: u16) -> Test {
    let ask = format!("total {steps} {dos} {calls}");
    Test { ask, answer: measure::hardened_steps(steps, dos, calls).to_string() }
}

/// `read OUTLEN HEXLINES`, answer `NUMBER LENGTH HEXOUT`.
pub fn read(out_length: usize, lines: &[u8]) -> Test {
    let mut out = vec![OUT_FILL; out_length];
    let written = calls::read_back(lines, &mut out);
    let ask = format!("read {out_length} {}", hex_or_dash(lines));
    Test { ask, answer: written_answer(written, &out) }
}

fn written_answer(written: Written, out: &[u8]) -> String {
    format!("{} {} {}", written.number, written.length, hex_or_dash(out))
}

/// `source BUDGET SLOTS V0,..,V15 HEXROWS`, answer `NUMBER OUTCOME STEPS TRACED
/// V0,..,V15 S0,S1,...`.
pub fn source(budget: u16, slots: usize, variables: &Variables, rows: &[u8]) -> Test {
    let mut trace = vec![SLOT_FILL; slots];
    let ran = calls::run_source(rows, variables, budget, &mut trace);
    let ask = format!("source {budget} {slots} {} {}", numbers(variables), hex_or_dash(rows));
    Test { ask, answer: ran_answer(&ran, &trace) }
}

/// A hardened run to be asked for.
#[derive(Clone, Copy, Debug)]
pub struct Struck {
    pub budget: u16,
    pub k: u16,
    pub place: u16,
    pub slots: usize,
    pub words: usize,
}

/// `hardened BUDGET K PLACE SLOTS WORDS V0,..,V15 HEXLINES`, answer as for
/// source, then `zero`, `kept` or `other`.
pub fn hardened(how: Struck, variables: &Variables, lines: &[u8]) -> Test {
    let Struck { budget, k, place, slots, words } = how;
    let mut trace = vec![SLOT_FILL; slots];
    let mut counters = vec![WORD_FILL; words];
    let ran = calls::run_hardened(lines, variables, budget, k, place, &mut trace, &mut counters);
    let values = numbers(variables);
    let bytes = hex_or_dash(lines);
    let ask = format!("hardened {budget} {k} {place} {slots} {words} {values} {bytes}");
    let answer = format!("{} {}", ran_answer(&ran, &trace), counter_word(&counters));
    Test { ask, answer }
}

/// A sweep to be asked for.
#[derive(Clone, Copy, Debug)]
pub struct Asked {
    pub budget: u16,
    pub slots: usize,
    pub words: usize,
}

/// `whole BUDGET SLOTS WORDS V0,..,V15 HEXLINES`, answer `NUMBER ALARMS SAME OTHER
/// UNFINISHED S0,S1,...`, then `zero`, `kept` or `other`.
pub fn whole(how: Asked, variables: &Variables, lines: &[u8]) -> Test {
    let mut trace = vec![SLOT_FILL; how.slots];
    let mut counters = vec![WORD_FILL; how.words];
    let swept = calls::sweep(lines, variables, how.budget, &mut trace, &mut counters);
    let Swept { number, counts: Counts { alarms, same, other, unfinished } } = swept;
    let answer = format!("{number} {alarms} {same} {other} {unfinished}");
    sweep_test("whole", how, variables, lines, [answer, buffers(&trace, &counters)])
}

/// `other BUDGET SLOTS WORDS V0,..,V15 HEXLINES`, answer `NUMBER FOUND S0,S1,...`, then
/// the same; FOUND is 0 or 1.
pub fn other(how: Asked, variables: &Variables, lines: &[u8]) -> Test {
    let mut trace = vec![SLOT_FILL; how.slots];
    let mut counters = vec![WORD_FILL; how.words];
    let swept = calls::sweep_other(lines, variables, how.budget, &mut trace, &mut counters);
    let SweptOther { number, found } = swept;
    let answer = format!("{number} {}", u8::from(found));
    sweep_test("other", how, variables, lines, [answer, buffers(&trace, &counters)])
}

fn sweep_test(
    word: &str,
    how: Asked,
    variables: &Variables,
    lines: &[u8],
    answer: [String; 2],
) -> Test {
    let Asked { budget, slots, words } = how;
    let bytes = hex_or_dash(lines);
    let ask = format!("{word} {budget} {slots} {words} {} {bytes}", numbers(variables));
    Test { ask, answer: answer.join(" ") }
}

/// The slots, and what became of the counter words.
fn buffers(trace: &[u16], counters: &[u16]) -> String {
    format!("{} {}", numbers(trace), counter_word(counters))
}

/// What became of the counter words.
fn counter_word(words: &[u16]) -> &'static str {
    let all = |words: &[u16], value: u16| words.iter().all(|word| *word == value);
    let is_zero = words.len() >= COUNTER_WORDS
        && all(&words[..COUNTER_WORDS], 0)
        && all(&words[COUNTER_WORDS..], WORD_FILL);
    if is_zero {
        "zero"
    } else if all(words, WORD_FILL) {
        "kept"
    } else {
        "other"
    }
}

fn ran_answer(ran: &Ran, trace: &[u16]) -> String {
    let Ran { number, outcome, steps, traced, variables } = ran;
    format!("{number} {outcome} {steps} {traced} {} {}", numbers(variables), numbers(trace))
}

/// Decimal numbers with commas between them, `-` if there are none.
fn numbers(values: &[u16]) -> String {
    if values.is_empty() {
        return "-".to_string();
    }
    values.iter().map(u16::to_string).collect::<Vec<_>>().join(",")
}

fn hex_or_dash(bytes: &[u8]) -> String {
    if bytes.is_empty() {
        "-".to_string()
    } else {
        hex(bytes)
    }
}
