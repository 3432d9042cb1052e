//! Command lines for the program that sweeps a table: wrong words, odd words that are
//! right, and words that ask for the usage.

use crate::damage;
use crate::limits;
use crate::run_cases::{self, Case};
use crate::sweep_cases;

/// All of them.
pub fn all() -> Vec<Case> {
    let mut cases = wrong_words();
    cases.extend(right_words());
    cases.extend(without_a_map());
    cases.extend(help());
    cases
}

/// `--help` as the first word, and later, where it is wrong; and words that are not quite
/// it.
fn help() -> Vec<Case> {
    let mut cases = Vec::new();
    for words in [
        "--help",
        "--help --help",
        "--help list",
        "--help nonsense v16=1",
        "list --help",
        "v1=1 --help list",
        "--help map function=32",
        "map --help",
        "function=1 --help",
        "-h",
        "-help",
        "help",
        "--Help",
        "--help=1",
        "--helpp",
    ] {
        for input in [&b""[..], b"not read"] {
            cases.push(run_cases::case(words, input));
        }
    }
    cases
}

/// Every way in which a word can be wrong: first, and behind right ones. The input must
/// not matter.
fn wrong_words() -> Vec<Case> {
    let long = |length: usize| "7".repeat(length);
    let mut cases = Vec::new();
    let mut add = |words: &[&[u8]]| {
        let words = words.iter().map(|word| word.to_vec()).collect();
        cases.push(Case { words, input: b"not read".to_vec() });
    };
    for word in WRONG {
        add(&[word]);
        add(&[b"list", b"v0=1", word, b"x=1"]);
    }
    for (one, other) in TWICE {
        add(&[one, other]);
        add(&[one, b"v9=3", other, b"v99=9"]);
    }
    for length in [4096, 4097, 9000] {
        add(&[long(length).as_bytes()]);
        add(&[b"v3=4", long(length).as_bytes(), b"x"]);
    }
    for length in [4089, 4090, 5000] {
        add(&[format!("budget={}", long(length)).as_bytes()]);
    }
    add(&[b"a\nb\tc\x7f\x01\xff\xc3\xa9\"'"]);
    cases
}

const WRONG: &[&[u8]] = &[
    b"",
    b" ",
    b"lists",
    b"List",
    b"lis",
    b"list ",
    b"list=1",
    b"list=",
    b"-list",
    b"maps",
    b"Map",
    b"ma",
    b"map ",
    b"map=1",
    b"map=",
    b"-map",
    b"function",
    b"function=",
    b"function=32",
    b"function=65535",
    b"function=65536",
    b"function=99999999999999999999999999",
    b"function=-1",
    b"function=+1",
    b"function=x",
    b"function=1 ",
    b"function= 1",
    b"function=0x1",
    b"function==1",
    b"function=1\n",
    b"Function=1",
    b"functions=1",
    b"function 1",
    b"f=1",
    b"trace",
    b"show",
    b"source",
    b"hardened",
    b"jump",
    b"jump=",
    b"jump=4:6",
    b"jump=65535:0",
    b"budget",
    b"budget=",
    b"budget=65536",
    b"budget=99999999999999999999999999",
    b"budget=-1",
    b"budget=+1",
    b"budget=1 ",
    b"budget= 1",
    b"budget=0x10",
    b"budget=1_000",
    b"budget==1",
    b"budget=1\n",
    b"Budget=1",
    b"=1",
    b"=",
    b"v",
    b"v=",
    b"v=1",
    b"v1",
    b"v1=",
    b"v1=65536",
    b"v15=100000",
    b"v0=x",
    b"v3==3",
    b"v3=+3",
    b"v16=1",
    b"v16=x",
    b"v01=1",
    b"v00=1",
    b"v100=1",
    b"v-1=1",
    b"v1x=1",
    b"V1=1",
    b"v 1=1",
    b"v1=1\xff",
    b"\xff\xfe",
    b"\xc3\xa9=1",
    b"a\nb",
];

const TWICE: &[(&[u8], &[u8])] = &[
    (b"budget=20", b"budget=20"),
    (b"budget=20", b"budget=21"),
    (b"budget=20", b"budget=x"),
    (b"v1=1", b"v1=1"),
    (b"v15=1", b"v15=0"),
    (b"v0=0", b"v0=7"),
    (b"v3=1", b"v3=65536"),
    (b"list", b"list"),
    (b"map", b"map"),
    (b"list", b"map"),
    (b"map", b"list"),
    (b"function=1", b"function=1"),
    (b"function=0", b"function=31"),
    (b"function=1", b"function=x"),
    (b"function=1", b"function=32"),
];

/// `function=` with no map: no input is read for it. A wrong word is told before it.
fn without_a_map() -> Vec<Case> {
    let lines = damage::hardened(&limits::worked_listing());
    let mut cases = Vec::new();
    for words in [
        "function=0",
        "function=31",
        "v1=1 budget=20 function=00",
        "list function=1 v1=1",
        "function=1 list",
        "function=1 v16=1",
        "function=1 list map",
        "function=1 list list",
        "function=1 maps",
    ] {
        cases.push(sweep_cases::sweep(words, &lines));
        cases.push(run_cases::case(words, b"not read"));
    }
    cases
}

/// Words that look odd and are right, and the others in any order.
fn right_words() -> Vec<Case> {
    let lines = damage::hardened(&limits::worked_listing());
    let all: String = (0..16).map(|k| format!("v{k}={} ", 4096 * k + 4095)).collect();
    let zeros = format!("budget={}", "0".repeat(4089));
    let mut cases = Vec::new();
    for words in [
        "v1=00000001 budget=0000000000000000020",
        "v15=65535 v1=1 v10=1 list",
        "list v1=1 budget=20 v2=2",
        "budget=20 v2=2 list v1=1",
        "v2=2 v1=01 budget=00020 list",
        "v1=1 budget=65535",
        &all,
        &zeros,
    ] {
        cases.push(sweep_cases::sweep(words, &lines));
    }
    cases
}
