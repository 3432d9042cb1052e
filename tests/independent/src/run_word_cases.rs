//! Command lines with wrong words, with odd words that are right, and with words
//! that ask for the usage.

use crate::damage;
use crate::limits;
use crate::run_cases::{self, Case};

/// All of them.
pub fn all() -> Vec<Case> {
    let mut cases = wrong_words();
    cases.extend(right_words());
    cases.extend(help());
    cases
}

/// `--help` as the first word, which asks for the usage, and later, where it is
/// wrong; and words that are not quite it.
fn help() -> Vec<Case> {
    let mut cases = Vec::new();
    for words in [
        "--help",
        "--help --help",
        "--help source",
        "--help hardened jump=4:6 show",
        "--help nonsense v16=1",
        "source --help",
        "source show --help",
        "hardened --help",
        "hardened jump=65535:1 --help trace",
        "source --help --help",
        "-h",
        "-help",
        "help",
        "--Help",
        "--help=1",
        "--helpp",
        "--hel",
    ] {
        for input in [&b""[..], b"not read", b"010000000000\n060000000000\n"] {
            cases.push(run_cases::case(words, input));
        }
    }
    cases
}

/// Every way in which a word can be wrong, in both runs. The input must not
/// matter.
fn wrong_words() -> Vec<Case> {
    let long = |length: usize| "7".repeat(length);
    let mut cases = vec![Case { words: vec![], input: vec![] }];
    let mut add = |words: &[&[u8]]| {
        let words = words.iter().map(|word| word.to_vec()).collect();
        cases.push(Case { words, input: b"010000000000\n060000000000\n".to_vec() });
    };
    for first in
        ["", "Source", "sources", "sourc", "harden", "hardened ", "show", "trace", "budget=20"]
    {
        add(&[first.as_bytes()]);
        add(&[first.as_bytes(), b"v16=1"]);
    }
    add(&[long(4096).as_bytes()]);
    add(&[long(4097).as_bytes(), b"x"]);
    add(&[b"a\nb\tc\x7f\x01\xff\xc3\xa9\"'"]);
    for run in [&b"source"[..], b"hardened"] {
        for word in WRONG {
            add(&[run, word]);
            add(&[run, b"show", b"v0=1", word, b"x=1"]);
        }
        for (one, other) in TWICE {
            add(&[run, one, other]);
            add(&[run, one, b"v9=3", other, b"v99=9"]);
        }
        for length in [4089, 4090, 5000] {
            add(&[run, format!("budget={}", long(length)).as_bytes()]);
        }
    }
    add(&[b"hardened", b"jump=4:6", b"jump=4:6"]);
    add(&[b"hardened", b"jump=4:6", b"v1=1", b"jump=65535:0"]);
    add(&[b"source", b"jump=4:6"]);
    add(&[b"source", b"budget=1", b"jump="]);
    cases
}

const WRONG: &[&[u8]] = &[
    b"",
    b" ",
    b"shows",
    b"Show",
    b"show=1",
    b"trace=1",
    b"traces",
    b"Trace",
    b"trac",
    b"trace ",
    b"budget",
    b"budget=",
    b"budget=65536",
    b"budget=70000",
    b"budget=99999999999999999999999999",
    b"budget=-1",
    b"budget=+1",
    b"budget=1 ",
    b"budget= 1",
    b"budget=0x10",
    b"budget=1_000",
    b"budget=1:2",
    b"budget==1",
    b"budget=1\n",
    b"Budget=1",
    b"=1",
    b"v",
    b"v=",
    b"v=1",
    b"v1",
    b"v1=",
    b"v1=65536",
    b"v15=100000",
    b"v0=x",
    b"v3==3",
    b"v16=1",
    b"v16=x",
    b"v01=1",
    b"v00=1",
    b"v010=1",
    b"v100=1",
    b"v99999=1",
    b"v-1=1",
    b"v1x=1",
    b"V1=1",
    b"vv=1",
    b"v 1=1",
    b"jump",
    b"jump=",
    b"jump=:",
    b"jump=4",
    b"jump=4:",
    b"jump=:6",
    b"jump=4:6:7",
    b"jump=4,6",
    b"jump=65536:0",
    b"jump=0:65536",
    b"jump=x:1",
    b"jump=1:x",
    b"jumps=1:1",
    b"place=1",
    b"v1=1\xff",
    b"\xff\xfe",
    b"a\nb",
];

const TWICE: &[(&[u8], &[u8])] = &[
    (b"budget=20", b"budget=20"),
    (b"budget=20", b"budget=21"),
    (b"v1=1", b"v1=1"),
    (b"v15=1", b"v15=0"),
    (b"v0=0", b"v0=7"),
    (b"show", b"show"),
    (b"trace", b"trace"),
];

/// Words that look odd and are right.
fn right_words() -> Vec<Case> {
    let rows = limits::worked_listing();
    let lines = damage::hardened(&rows);
    let all: String = (0..16).map(|k| format!("v{k}={} ", 4096 * k + 4095)).collect();
    let zeros = format!("budget={}", "0".repeat(4089));
    let mut cases = Vec::new();
    for words in ["v1=00000001 budget=0000000000000000020", "v15=65535 v10=1 show", &all, &zeros] {
        cases.push(run_cases::source(words, &rows));
        cases.push(run_cases::hardened(words, &lines));
    }
    cases.push(run_cases::hardened("jump=00004:006 v1=01 show", &lines));
    cases
}
