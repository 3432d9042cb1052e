//! The words of `explain` for switches, copied by hand from docs/PROGRAMS.md.

mod letters;

use independent::{explain, switch_limits, text, texts};

fn explained(rows: &[u8]) -> String {
    let input = text::lines(rows, 6);
    explain::explain(input.as_bytes()).unwrap().out
}

fn of_letters(letters: &str) -> String {
    explained(&letters::rows(letters))
}

#[test]
fn words_of_4() {
    for (letters, words) in [
        ("fs1", "at row 3: something is left open at the end"),
        ("fs", "at row 2: something is left open at the end"),
        ("fs*1", "at row 3: case after the default"),
        ("fs1*d1", "at row 5: case after the default"),
        ("fs1**", "at row 4: a second default"),
        ("f1", "at row 1: case not straight in a switch"),
        ("1", "at row 0: case not straight in a switch"),
        ("fs.1", "at row 3: case not straight in a switch"),
        ("fs*i1", "at row 4: case not straight in a switch"),
        ("f*", "at row 1: default not straight in a switch"),
        ("fs1l*", "at row 4: default not straight in a switch"),
        ("fsd", "at row 2: a row before the first case or default"),
        ("fss", "at row 2: a row before the first case or default"),
        ("fsf", "at row 2: a row before the first case or default"),
        ("fise", "at row 3: a row before the first case or default"),
        ("fsb", "at row 2: a row before the first case or default"),
        ("flsc", "at row 3: a row before the first case or default"),
        ("fs1e", "at row 3: else straight in a case or a default"),
        ("fis*e", "at row 4: else straight in a case or a default"),
        ("fs1iee", "at row 5: else without an open then part"),
        ("fs1f", "at row 3: a function in a function"),
        ("fs1b", "at row 3: break outside a loop"),
        ("fs*c", "at row 3: continue outside a loop"),
        ("s", "at row 0: outside a function"),
    ] {
        assert_eq!(of_letters(letters), format!("refused 4 {words}\n"), "{letters}");
    }
}

#[test]
fn words_of_11() {
    assert_eq!(of_letters("fs121"), "refused 11 at row 4: case 1 is in this switch already\n");
    let rows = |n: u16| {
        let [low, high] = n.to_le_bytes();
        [&letters::rows("fs")[..], &[11, 0, 0, 0, low, high].repeat(2)].concat()
    };
    for n in [0, 50, 256, 65_535] {
        let words = format!("refused 11 at row 3: case {n} is in this switch already\n");
        assert_eq!(explained(&rows(n)), words);
    }
}

#[test]
fn words_of_2() {
    let chain = independent::make::bytes_of(&switch_limits::chain(1025));
    let last = chain.len() / 6 - 1;
    let words = "over 1,024 rows, with its switches written as ifs";
    assert_eq!(explained(&chain), format!("refused 2 at row {last}: {words}\n"));
    let more = [&chain[..], &letters::rows(&"fs1..".repeat(200))].concat();
    assert!(more.len() / 6 > 1024);
    assert_eq!(explained(&more), "refused 2 at row 1024: over 1,024 rows\n");
}

/// So many loops around a switch, with so many ifs beside them, and these letters.
fn near(beside: usize, loops: usize, letters: &str) -> String {
    of_letters(&format!("f{}{}s{letters}", "i.".repeat(beside), "l".repeat(loops)))
}

#[test]
fn words_of_6() {
    let [open, case, region] =
        ["a 17th open if or loop", "a 17th open if or loop, each case being one", "a 65th region"];
    for (beside, loops, letters, row, words) in [
        // 15 loops and a case are 16
        (0, 15, "1i", 18, open),
        (0, 15, "1l", 18, open),
        (0, 15, "12", 18, case),
        (0, 15, "1s2", 19, case),
        (0, 15, "1*i", 19, open),
        (0, 16, "1", 18, case),
        (0, 14, "12i", 18, open),
        // the body and 63 ifs are 64 regions
        (63, 0, "1", 128, region),
        (62, 0, "12", 127, region),
        (61, 0, "12", 125, region),
        (62, 0, "1*", 127, region),
        (62, 0, "1i", 127, region),
        (63, 0, "*i", 129, region),
        // both at once: the body, 47 ifs, 15 loops and a case
        (47, 15, "12", 112, case),
        (47, 15, "1i", 112, open),
        (47, 15, "1*", 112, region),
        (46, 15, "12", 110, case),
    ] {
        let expected = format!("refused 6 at row {row}: {words}\n");
        assert_eq!(near(beside, loops, letters), expected, "{beside} {loops} {letters}");
    }
}

/// The texts for the programs meet each of the words that switches bring.
#[test]
fn the_texts_meet_each() {
    let mut answers = String::new();
    for text in texts::all(3, 100).iter().filter(|text| text.bytes.len() < 20_000) {
        answers.push_str(&explain::explain(&text.bytes[..]).unwrap().out);
    }
    for words in [
        ": over 1,024 rows, with its switches written as ifs\n",
        ": case after the default\n",
        ": a second default\n",
        ": case not straight in a switch\n",
        ": default not straight in a switch\n",
        ": a row before the first case or default\n",
        ": else straight in a case or a default\n",
        ": a 17th open if or loop, each case being one\n",
        " is in this switch already\n",
    ] {
        let count = answers.matches(words).count();
        assert!(count >= 4, "{count} {words}");
    }
}
