//! The words of the program that runs a table, right and wrong: docs/PROGRAMS.md,
//! "run", copied by hand.

mod listing;

use independent::printed::Printed;
use independent::run_cases;
use independent::run_text;
use listing::{LINES, ROWS};

fn printed(words: &str, input: &str) -> Printed {
    let words: Vec<Vec<u8>> = words.split(' ').map(|word| word.as_bytes().to_vec()).collect();
    run_text::run(&words, input.as_bytes()).unwrap()
}

/// Nothing but a line on standard error.
fn wrong(words: &str) -> String {
    let Printed { out, err } = printed(words, "not read");
    assert_eq!(out, "", "{words}");
    String::from_utf8(err).unwrap()
}

#[test]
fn a_word_that_is_none() {
    let list = "budget=0..65535, v0..v15=0..65535, jump=STEP:PLACE, trace or show";
    for word in ["v16=1", "x", "v01=1", "shows", "traces", "trace=1", "", "V1=1", "--help"] {
        let expected = format!("wrong word \"{word}\": expected {list}\n");
        assert_eq!(wrong(&format!("hardened {word}")), expected);
    }
    let list = "budget=0..65535, v0..v15=0..65535, trace or show";
    for word in ["v16=1", "x", "v01=1", "shows", "traces", "trace=1", "", "V1=1", "--help"] {
        let expected = format!("wrong word \"{word}\": expected {list}\n");
        assert_eq!(wrong(&format!("source {word}")), expected);
    }
}

#[test]
fn wrong_words() {
    let cases = [
        ("start", "start", "source or hardened"),
        ("trace", "trace", "source or hardened"),
        ("source budget=65536", "budget=65536", "budget=0..65535"),
        ("source budget=", "budget=", "budget=0..65535"),
        ("source v3=+1", "v3=+1", "v3=0..65535"),
        ("hardened v15=65536", "v15=65536", "v15=0..65535"),
        ("hardened jump=4", "jump=4", "jump=STEP:PLACE, each 0..65535"),
        ("hardened jump=65536:1", "jump=65536:1", "jump=STEP:PLACE, each 0..65535"),
        ("source jump=4:6", "jump=4:6", "jump in a hardened run only"),
        ("source jump=65535:6", "jump=65535:6", "jump in a hardened run only"),
        ("source jump=", "jump=", "jump in a hardened run only"),
        ("source budget=1 budget=2", "budget=2", "budget only once"),
        ("hardened jump=1:1 jump=1:1", "jump=1:1", "jump only once"),
        ("source v3=1 v3=1", "v3=1", "v3 only once"),
        ("source trace trace", "trace", "trace only once"),
        ("hardened trace v1=1 trace", "trace", "trace only once"),
        ("source show show", "show", "show only once"),
        ("source a\nb\x7f\tc", "a?b??c", "budget=0..65535, v0..v15=0..65535, trace or show"),
    ];
    for (words, word, expected) in cases {
        assert_eq!(wrong(words), format!("wrong word \"{word}\": expected {expected}\n"));
    }
}

#[test]
fn a_long_word() {
    let long = "7".repeat(4096);
    let expected = format!("wrong word \"{long}\": expected source or hardened\n");
    assert_eq!(wrong(&long), expected);
    let line = wrong(&format!("{long}7"));
    assert!(line.starts_with("wrong word \"777"));
    assert!(line.ends_with("777\": expected at most 4096 bytes\n"));
    let line = wrong(&format!("source budget={long}"));
    assert!(line.ends_with("777\": expected at most 4096 bytes\n"));
}

#[test]
fn in_any_order() {
    let one = printed("hardened budget=20 v1=1 jump=4:6 trace show", LINES);
    for words in [
        "hardened show trace jump=4:6 v1=1 budget=20",
        "hardened trace jump=4:6 budget=20 show v1=1",
        "hardened v1=01 jump=0004:06 trace budget=00020 show",
    ] {
        assert_eq!(printed(words, LINES), one);
    }
    assert!(one.err.is_empty());
    assert_eq!(printed("source v1=1 budget=65535", ROWS), printed("source v1=1", ROWS));
}

/// "`jump=65535:P` is accepted and told on standard error once all words are
/// taken, before the input is read"
#[test]
fn no_jump() {
    let told = "step 65535 is no jump: no budget holds it\n";
    for (words, without) in [
        ("hardened v1=1 jump=65535:3", "hardened v1=1"),
        ("hardened jump=65535:65535 show v1=1", "hardened show v1=1"),
        ("hardened v1=1 jump=065535:0 budget=0", "hardened v1=1 budget=0"),
    ] {
        let Printed { out, err } = printed(words, LINES);
        assert_eq!(err, told.as_bytes());
        assert_eq!(Printed::out(out), printed(without, LINES));
    }
    assert_eq!(printed("hardened v1=1 jump=65534:3", LINES).err, b"");
    let refused = printed("hardened jump=65535:3", "");
    assert_eq!(refused, Printed { out: "refused 10\n".into(), err: told.into() });
    let unreadable = printed("hardened jump=65535:3", "\n");
    assert_eq!(unreadable.err, [told.as_bytes(), b"line 1: an empty line\n"].concat());
}

/// What the cases meet, on standard output or standard error.
const MET: &[&str] = &[
    "usage: run source",
    "expected source or hardened\n",
    "expected budget=0..65535, v0..v15=0..65535, trace or show\n",
    "expected budget=0..65535, v0..v15=0..65535, jump=STEP:PLACE, trace or show\n",
    "expected budget=0..65535\n",
    "expected v15=0..65535\n",
    "expected jump=STEP:PLACE, each 0..65535\n",
    "expected jump in a hardened run only\n",
    "expected budget only once\n",
    "expected v15 only once\n",
    "expected jump only once\n",
    "expected trace only once\n",
    "expected show only once\n",
    "expected at most 4096 bytes\n",
    "step 65535 is no jump: no budget holds it\n",
    "16 functions are open\noutcome 3 too many open functions\n",
    "the last place is 3\noutcome 4 the place is beyond m\n",
    "the last place is 7\noutcome 4 the place is beyond m\n",
    "trace of 21 rows\n ",
    "trace of 21 rows, listed with the word trace\nvariables",
    "trace of 21 rows, listed with the word trace\ncalls 0\nvariables",
    "\ntrace\ncalls 1\nvariables",
    "\ntrace 2 2 2 2 2 2 2\ncalls 7\nvariables",
    "finished\nsteps 77\ntrace 2 2 2 2 2 2 2 2 2 2 2 2 2 2 2\ncalls 15\nvariables",
    "too many open functions\nsteps 48\ntrace 2 2 2 2 2 2 2 2 2 2 2 2 2 2 2 2\ncalls 15\n",
    "\ncalls 32400\nvariables",
    "trace of 40 rows\n ",
    "trace of 52428 rows\n ",
    "outcome 0 budget spent\n",
    "outcome 1 finished\n",
    "outcome 2 alarm\n",
    "row 3 overflows\noutcome 5 overflow\nsteps 3\ntrace 1\ncalls 0\nvariables 2 3 0 ",
    "row 3 overflows\noutcome 5 overflow\nsteps 4\ntrace 1\nvariables 2 3 0 ",
    "jump to place 3\nstep 0 function 0 place 3 do\nrow 3 overflows\noutcome 5 overflow\n",
    " row 11 do\nrow 11 overflows\noutcome 5 overflow\nsteps 6\ntrace 1 6 10\ncalls 2\n",
    "row 10 overflows\noutcome 5 overflow\nsteps 6\ntrace 1 9\ncalls 0\n",
    "outcome 5 overflow\nsteps 62\ntrace of 30 rows, listed with the word trace\n",
    "outcome 5 overflow\nsteps 65535\n",
    "jump leaves out row 1\noutcome 1 finished\nsteps 3\ntrace\nvariables 0 1 0 ",
    "jump does row 1 twice\noutcome 1 finished\nsteps 13\ntrace 1 1 3 3\nvariables 0 1 0 ",
    "jump changes nothing\noutcome 1 finished\nsteps 12\ntrace 1 3 3\nvariables 0 1 0 ",
    "row 3 overflows\njump does row 3 twice\noutcome 5 overflow\nsteps 9\n",
    "16 functions are open\njump leaves out row 2\noutcome 3 too many open functions\nsteps 63\n",
    "jump does row 1000 twice\n",
    "jump leaves out row 1022\n",
    "jump does row 2 twice\noutcome 0 budget spent\nsteps 65535\n",
    "refused 1\n",
    "refused 7\n",
    "refused 10\n",
    "unreadable\n",
    "line 1: ",
];

/// The command lines that the script puts to the program have a right and a wrong
/// one for each thing that a word can be.
#[test]
fn the_cases_meet_everything() {
    let cases = run_cases::cases(1, 0);
    let all: Vec<Printed> =
        cases.iter().map(|case| run_text::run(&case.words, &case.input[..]).unwrap()).collect();
    let met = |what: &str| {
        let with = |printed: &&Printed| {
            printed.out.contains(what) || String::from_utf8_lossy(&printed.err).contains(what)
        };
        all.iter().filter(with).count()
    };
    for what in MET {
        assert!(met(what) > 0, "{what}");
    }
}
