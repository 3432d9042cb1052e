//! The text and the words of the program that sweeps a table, copied by hand from what
//! docs/PROGRAMS.md says of it.

mod listing;

use independent::printed::Printed;
use independent::random::Random;
use independent::{damage, sweep_cases, sweep_programs, sweep_text, text};
use listing::{LINES, ROWS};

fn printed(words: &str, input: &str) -> Printed {
    let words: Vec<Vec<u8>> = words.split(' ').map(|word| word.as_bytes().to_vec()).collect();
    sweep_text::sweep(&words, input.as_bytes()).unwrap()
}

/// What is printed for these words, with nothing on standard error.
fn out(words: &str, input: &str) -> String {
    let Printed { out, err } = printed(words, input);
    assert_eq!(String::from_utf8(err).unwrap(), "");
    out
}

/// Nothing but a line on standard error.
fn wrong(words: &str) -> String {
    let Printed { out, err } = printed(words, "not read");
    assert_eq!(out, "", "{words}");
    String::from_utf8(err).unwrap()
}

fn hardened(rows: &str) -> String {
    text::harden(rows.as_bytes()).unwrap().out
}

#[test]
fn the_worked_budgets() {
    let counts = "alarm 74\nsame 15\nother 2\nunfinished 5\n";
    assert_eq!(out("budget=20 v1=1", LINES), counts);
    assert_eq!(out("v1=1", LINES), counts);
    assert_eq!(out("v1=1", &hardened(ROWS)), counts);
    assert_eq!(out("v1=1 budget=12", LINES), "alarm 73\nsame 13\nother 1\nunfinished 9\n");
    assert_eq!(out("budget=11 v1=1", LINES), "refused 13\n");
    let listed = "\
step 0 function 0 from place 0 to place 1 row 1 left out
step 1 function 0 from place 1 to place 0 row 1 done twice
alarm 74
same 15
other 2
unfinished 5
";
    assert_eq!(out("budget=20 v1=1 list", LINES), listed);
    let listed = "\
step 0 function 0 from place 0 to place 1 row 1 left out
alarm 73
same 13
other 1
unfinished 9
";
    assert_eq!(out("list budget=12 v1=1", LINES), listed);
}

/// No word is needed: with all variables 0 the listing's loop never ends, and a do behind
/// a call does.
#[test]
fn no_words() {
    let none = |input: &str| sweep_text::sweep(&[], input.as_bytes()).unwrap();
    assert_eq!(none(LINES), Printed::out("refused 13\n"));
    let rows = "010000000000\n090000000100\n020000000500\n060000000000\n\
        010000000000\n020001000000\n060000000000\n";
    // function 0: call, back, do, tick, ret; function 1: do, tick, ret. 5 steps of 6
    // places, 3 of 4, of which 8 stay where they are and 4 cross a do
    let counts = "alarm 30\nsame 8\nother 4\nunfinished 0\n";
    assert_eq!(none(&hardened(rows)), Printed::out(counts));
    let listed = format!(
        "\
step 1 function 1 from place 0 to place 1 row 5 left out
step 2 function 1 from place 1 to place 0 row 5 done twice
step 5 function 0 from place 2 to place 3 row 2 left out
step 6 function 0 from place 3 to place 2 row 2 done twice
{counts}"
    );
    assert_eq!(out("list", &hardened(rows)), listed);
}

#[test]
fn turned_away_and_unreadable() {
    for words in ["list", "v1=1", "list budget=0"] {
        assert_eq!(out(words, ""), "refused 10\n");
        assert_eq!(out(words, &LINES[41..]), "refused 10\n");
    }
    assert_eq!(out("list budget=0", LINES), "refused 13\n");
    assert_eq!(out("v1=1 list", LINES.trim_end()), out("v1=1 list", LINES));
    for (input, line) in [
        (ROWS, "line 1: 12 digits, not 40\n"),
        ("\n", "line 1: an empty line\n"),
        (&LINES[..100], "line 3: 18 digits, not 40\n"),
        (&(LINES.to_string() + "\n"), "line 8: an empty line\n"),
    ] {
        let unreadable = Printed { out: "unreadable\n".into(), err: line.into() };
        assert_eq!(printed("v1=1 list", input), unreadable);
    }
}

/// What is expected in place of a word that is none.
const ANY: &str = "budget=0..65535, v0..v15=0..65535, list, map or function=0..31";

#[test]
fn wrong_words() {
    for word in [
        "trace", "show", "jump=4:6", "jump=", "source", "hardened", "x", "", "lists", "list=1",
        "v16=1", "v01=1", "V1=1", "budget", "v1", "=1", "-h", "help", "--Help", "--help=1", "maps",
        "Map", "map=1", "map=", "function",
    ] {
        let line = format!("wrong word \"{word}\": expected {ANY}\n");
        assert_eq!(wrong(word), line);
        assert_eq!(wrong(&format!("v1=1 list {word} v99=1")), line);
    }
    for (words, word, expected) in [
        ("budget=65536", "budget=65536", "budget=0..65535"),
        ("list budget=", "budget=", "budget=0..65535"),
        ("v3=+1", "v3=+1", "v3=0..65535"),
        ("v3=1 v15=65536", "v15=65536", "v15=0..65535"),
        ("budget=1 budget=2", "budget=2", "budget only once"),
        ("budget=1 budget=x", "budget=x", "budget=0..65535"),
        ("v3=1 list v3=1", "v3=1", "v3 only once"),
        ("list list", "list", "list only once"),
        ("list --help", "--help", ANY),
        ("a\nb\x7f\tc", "a?b??c", ANY),
    ] {
        assert_eq!(wrong(words), format!("wrong word \"{word}\": expected {expected}\n"));
    }
}

#[test]
fn wrong_words_for_a_map() {
    for (words, word, expected) in [
        ("map map", "map", "map only once"),
        ("map v1=1 map", "map", "map only once"),
        ("list map", "map", "list or map, not both"),
        ("map list", "list", "list or map, not both"),
        ("list v1=1 map list", "map", "list or map, not both"),
        ("list list map", "list", "list only once"),
        ("map map list", "map", "map only once"),
        ("map Function=1", "Function=1", ANY),
        ("map functions=1", "functions=1", ANY),
        ("map function:1", "function:1", ANY),
        ("function=32", "function=32", "function=0..31"),
        ("map function=", "function=", "function=0..31"),
        ("list function=65536", "function=65536", "function=0..31"),
        ("function=-1 map", "function=-1", "function=0..31"),
        ("function=1 function=1", "function=1", "function only once"),
        ("map function=1 function=2", "function=2", "function only once"),
        ("function=1 function=32", "function=32", "function=0..31"),
        // a wrong word is told before a map that is missing
        ("function=1 list map", "map", "list or map, not both"),
        ("function=1 v16=1", "v16=1", ANY),
    ] {
        assert_eq!(wrong(words), format!("wrong word \"{word}\": expected {expected}\n"));
    }
}

/// "told on standard error once all words are taken, before the input is read"
#[test]
fn a_function_without_a_map() {
    for words in ["function=0", "function=31", "list function=1", "function=003 v1=1 budget=20"] {
        assert_eq!(wrong(words), "function= needs the word map\n");
    }
}

#[test]
fn a_long_word() {
    let long = "7".repeat(4096);
    let line = wrong(&long);
    assert!(line.ends_with(
        "777\": expected budget=0..65535, v0..v15=0..65535, list, map or function=0..31\n"
    ));
    for words in [format!("{long}7"), format!("list v1={long}"), format!("{long}7 --help")] {
        let line = wrong(&words);
        assert!(line.starts_with("wrong word \""), "{line}");
        assert!(line.ends_with("777\": expected at most 4096 bytes\n"), "{line}");
        assert_eq!(line.len(), "wrong word \"\": expected at most 4096 bytes\n".len() + 4096);
    }
}

#[test]
fn in_any_order() {
    let one = out("budget=20 v1=1 v2=7 list", LINES);
    for words in ["list v2=7 v1=1 budget=20", "v1=01 list budget=00020 v2=0007"] {
        assert_eq!(out(words, LINES), one);
    }
    assert_eq!(out("list v1=1 budget=65535", LINES), out("v1=1 list", LINES));
}

/// Of random programs as many lines are listed as runs finished with another trace, in the
/// order of the steps; the places are next to each other.
#[test]
fn as_many_listed() {
    let mut rng = Random::new(8);
    let mut lines = 0;
    for _ in 0..600 {
        let (program, _) = sweep_programs::random(&mut rng);
        let values: String = (0..16).map(|k| format!("v{k}={} ", program.variables[k])).collect();
        let input = text::lines(&damage::hardened(&program.rows), 20);
        let text = out(&format!("{values}list budget=700"), &input);
        if text == "refused 13\n" {
            continue;
        }
        let all: Vec<&str> = text.lines().collect();
        let (listed, counts) = all.split_at(all.len() - 4);
        assert_eq!(counts[2], format!("other {}", listed.len()));
        let numbers: Vec<[usize; 5]> = listed.iter().map(|line| one_do(line)).collect();
        assert!(numbers.windows(2).all(|pair| pair[0][0] < pair[1][0]));
        lines += listed.len();
    }
    assert!(lines > 2000, "{lines}");
}

/// The numbers of a listed line: step, function, from, to, row.
fn one_do(line: &str) -> [usize; 5] {
    let numbers: Vec<usize> = line.split(' ').filter_map(|word| word.parse().ok()).collect();
    let numbers: [usize; 5] = numbers.try_into().unwrap();
    let [_, _, from, to, _] = numbers;
    let what = if to == from + 1 { "left out" } else { "done twice" };
    assert!(from.abs_diff(to) == 1 && line.ends_with(what), "{line}");
    numbers
}

/// What is printed for the fixed cases.
fn answers() -> Vec<Printed> {
    let cases = sweep_cases::cases(1, 0);
    cases.iter().map(|case| sweep_text::sweep(&case.words, &case.input[..]).unwrap()).collect()
}

/// Some answer has these words, on standard output or on standard error.
fn meets(answers: &[Printed], what: &str) {
    let with = |printed: &Printed| {
        printed.out.contains(what) || String::from_utf8_lossy(&printed.err).contains(what)
    };
    assert!(answers.iter().any(with), "{what}");
}

/// The command lines that the script puts to the program have a right and a wrong one for
/// each thing that a word can be, and every kind of answer.
#[test]
fn the_cases_meet_everything() {
    let all = answers();
    assert!(all.iter().any(|printed| printed.out.len() > 65_536));
    for what in [
        "usage: sweep [budget=N]",
        "expected budget=0..65535, v0..v15=0..65535, list, map or function=0..31\n",
        "expected budget=0..65535\n",
        "expected v15=0..65535\n",
        "expected budget only once\n",
        "expected v15 only once\n",
        "expected list only once\n",
        "expected at most 4096 bytes\n",
        "step 0 function 0 from place 0 to place 1 row 1 left out\nstep 1 ",
        " row 1 done twice\nalarm 74\nsame 15\nother 2\nunfinished 5\n",
        " row 1 left out\nalarm 73\nsame 13\nother 1\nunfinished 9\n",
        " function 1 from place 0 to place 1 row ",
        " function 2 from place ",
        "other 0\nunfinished 0\n",
        "other 0\nunfinished 64\n",
        "refused 10\n",
        "refused 13\n",
        "unreadable\n",
        "line 8: ",
    ] {
        meets(&all, what);
    }
}

#[test]
fn the_cases_meet_every_map() {
    let all = answers();
    for what in [
        "expected map only once\n",
        "expected function only once\n",
        "expected function=0..31\n",
        "wrong word \"list\": expected list or map, not both\n",
        "wrong word \"map\": expected list or map, not both\n",
        "function= needs the word map\n",
        "function 1 is not there: the last one is 0\n",
        "function 31 is not there: the last one is 0\n",
        "function 16 is not there: the last one is 15\n",
        ">function 31: struck at the place on the left, to the place above<",
        "<path class=\"u\"",
        "<path class=\"x\"",
        "<text class=\"mo\"",
        "<text class=\"ms\"",
        "<text class=\"mu\"",
        "<path class=\"a\" d=\"\"/>",
        ">whole sweep: alarm 74, same 15, other 2, unfinished 5<",
        ">whole sweep: alarm 73, same 13, other 1, unfinished 9<",
    ] {
        meets(&all, what);
    }
}
