//! The replay files: the same for the same seed, of moderate size, with every
//! number and outcome in them.

use std::collections::BTreeMap;

use independent::protocol::{self, Test};
use independent::{replay, replay_fault, replay_measure, replay_read, replay_run, replay_sweep};

type Maker = fn(u64, usize) -> Vec<Test>;

const MAKERS: [Maker; 5] = [
    replay::tests,
    replay_read::tests,
    replay_run::tests,
    replay_measure::tests,
    replay_sweep::tests,
];

fn size(tests: &[Test]) -> (usize, usize) {
    let sum = |pick: fn(&Test) -> usize| tests.iter().map(|test| pick(test) + 1).sum();
    (sum(|test| test.ask.len()), sum(|test| test.answer.len()))
}

/// How often each first word, or each first two words, of an answer comes.
fn first_words(tests: &[Test], words: usize) -> BTreeMap<String, usize> {
    let mut found = BTreeMap::new();
    for test in tests {
        let key: Vec<&str> = test.answer.split(' ').take(words).collect();
        *found.entry(key.join(" ")).or_insert(0) += 1;
    }
    found
}

#[test]
fn same_seed_same_files() {
    for make in MAKERS {
        assert_eq!(make(5, 60), make(5, 60));
        assert_ne!(make(5, 60), make(6, 60));
        let (few, many) = (make(5, 0), make(5, 60));
        assert_eq!(many.len(), few.len() + 60);
    }
}

#[test]
fn fixed_tests_come_first() {
    for (make, fixed) in [
        (replay::tests as Maker, replay::fixed()),
        (replay_read::tests, replay_read::fixed()),
        (replay_run::tests, replay_run::fixed()),
        (replay_measure::tests, replay_measure::fixed()),
        (replay_sweep::tests, replay_sweep::fixed()),
    ] {
        assert_eq!(make(77, 10)[..fixed.len()], fixed);
    }
}

#[test]
fn moderate_sizes() {
    for make in MAKERS {
        for seed in 0..12 {
            let tests = make(seed, 600);
            let (asks, answers) = size(&tests);
            assert!(asks < 1_500_000 && answers < 1_500_000, "{asks} {answers}");
            assert!(tests.iter().all(|t| t.ask.is_ascii() && t.answer.is_ascii()));
        }
    }
}

#[test]
fn every_number_comes() {
    let found = first_words(&replay::tests(1, 600), 1);
    for number in (0..=8).chain([11]) {
        assert!(found[&number.to_string()] >= 4, "{found:?}");
    }
    let found = first_words(&replay_fault::tests(1, 600), 1);
    for number in [0, 1, 2, 3, 4, 5, 6, 7, 11] {
        assert!(found[&number.to_string()] >= 10, "{found:?}");
    }
    let measures = asked(replay_measure::tests(1, 600), "measure");
    let found = first_words(&measures, 1);
    for number in [0, 1, 2, 3, 4, 5, 6, 7, 11] {
        assert!(found[&number.to_string()] >= 8, "{found:?}");
    }
    let found = first_words(&replay_read::tests(1, 600), 1);
    for number in ["0", "8", "10"] {
        assert!(found[number] >= 20, "{found:?}");
    }
    let found = first_words(&replay_run::tests(1, 600), 2);
    for outcome in ["0 0", "0 1", "0 2", "0 3", "0 4", "0 5", "9 0", "10 0"] {
        assert!(found[outcome] >= 10, "{found:?}");
    }
    let found = first_words(&replay_run::tests(1, 12_000), 1);
    for number in ["0", "1", "2", "3", "4", "5", "6", "7", "9", "10", "11"] {
        assert!(found[number] >= 3, "{found:?}");
    }
}

/// Both calls about equally, each number, each count above 0 and not.
#[test]
fn every_sweep_comes() {
    let tests = replay_sweep::tests(1, 600);
    for (what, least) in [("whole", 250), ("other", 250)] {
        let random = asked(tests[tests.len() - 600..].to_vec(), what);
        assert!(random.len() > least, "{what} {}", random.len());
        let found = first_words(&asked(tests.clone(), what), 1);
        for number in ["0", "9", "10", "13"] {
            assert!(found[number] >= 20, "{what} {found:?}");
        }
    }
    let found = first_words(&asked(tests.clone(), "other"), 2);
    assert!(found["0 0"] > 80 && found["0 1"] > 100, "{found:?}");
    let whole = asked(tests, "whole").into_iter().filter(|test| test.answer.starts_with("0 "));
    let mut above = [0; 5];
    let mut accepted = 0;
    for test in whole {
        let numbers: Vec<&str> = test.answer.split(' ').collect();
        (1..5).for_each(|at| above[at] += usize::from(numbers[at] != "0"));
        accepted += 1;
    }
    // the place where a run stands is always the same, and place m nearly always an alarm
    assert_eq!((above[1], above[2]), (accepted, accepted));
    assert!(above[3..].iter().all(|count| *count > 100 && *count < accepted - 100), "{above:?}");
}

/// Answers with a budget of 65,535 are in the long tests only.
#[test]
fn long_sweeps() {
    let tests = replay_sweep::long_tests();
    let answers: Vec<&str> = tests.iter().map(|test| &test.answer[..10]).collect();
    assert_eq!(answers[..3], ["0 74 15 2 ", "0 1 1,3,3,", "9 0 0 0 0 "]);
    assert!(tests.iter().all(|test| test.answer.len() > 300_000));
}

/// The tests that ask for this.
fn asked(tests: Vec<Test>, what: &str) -> Vec<Test> {
    tests.into_iter().filter(|test| test.ask.split(' ').next() == Some(what)).collect()
}

/// Figures and sums, among them those of each size.
#[test]
fn every_figure_comes() {
    let tests = replay_measure::tests(1, 600);
    assert!(tests.len() < 1500 + 600);
    let figures = |at: usize| -> Vec<u32> {
        let measures = asked(tests.clone(), "measure").into_iter();
        measures.map(|test| test.answer.split(' ').nth(at).unwrap().parse().unwrap()).collect()
    };
    let [lines, regions, values] = [1, 2, 3].map(figures);
    assert_eq!((lines.iter().max(), values.iter().max()), (Some(&2045), Some(&2046)));
    assert!((0..=64).all(|count| regions.contains(&count)));
    let totals = asked(tests.clone(), "total");
    assert!(totals.len() > 200);
    let is_past = |test: &&Test| test.answer.parse::<u32>().unwrap() > 65_535;
    assert!((80..totals.len() - 80).contains(&totals.iter().filter(is_past).count()));
}

/// The rows in a test that asks for rows begin behind the last space.
fn asks_with_a_switch(tests: &[Test]) -> usize {
    let has_switch = |rows: &str| (0..rows.len() / 12).any(|at| rows[12 * at..].starts_with("0a"));
    tests.iter().filter(|test| has_switch(test.ask.rsplit(' ').next().unwrap())).count()
}

#[test]
fn a_third_of_the_tables_has_a_switch() {
    for make in [replay::tests, replay_fault::tests, replay_measure::tests] {
        let tests = make(9, 3000);
        let random = &tests[tests.len() - 3000..];
        let count = asks_with_a_switch(random);
        assert!((750..2000).contains(&count), "{count}");
    }
    let sources: Vec<Test> = replay_run::tests(9, 6000)
        .into_iter()
        .filter(|test| test.ask.starts_with("source"))
        .collect();
    let count = asks_with_a_switch(&sources);
    assert!(4 * count > sources.len() && 4 * count < 3 * sources.len(), "{count}");
}

#[test]
fn the_lines_spell_what_the_readme_says() {
    let empty = protocol::check(&[]);
    assert_eq!((empty.ask.as_str(), empty.answer.as_str()), ("check -", "1"));
    let pair = [1, 0, 0, 0, 0, 0, 6, 0, 0, 0, 0, 0];
    let exact = protocol::harden(21, &pair);
    assert_eq!(exact.ask, "harden 21 010000000000060000000000");
    assert_eq!(exact.answer, "0 20 2800000000000000000001000200000000000000a5");
    let short = protocol::harden(2, &pair);
    assert_eq!(short.answer, "8 0 a5a5");
    let none = protocol::harden(0, &pair);
    assert_eq!(none.answer, "8 0 -");
    let figures = protocol::measure(&pair);
    assert_eq!(figures.ask, "measure 010000000000060000000000");
    assert_eq!(figures.answer, "0 1 1 2");
    let refused = protocol::measure(&[]);
    assert_eq!((refused.ask.as_str(), refused.answer.as_str()), ("measure -", "1 0 0 0"));
    let sum = protocol::total(65_535, 65_535, 65_535);
    assert_eq!((sum.ask.as_str(), sum.answer.as_str()), ("total 65535 65535 65535", "196605"));
    let run = protocol::source(2, 3, &[0; 16], &pair);
    assert_eq!(run.ask, "source 2 3 0,0,0,0,0,0,0,0,0,0,0,0,0,0,0,0 010000000000060000000000");
    assert_eq!(run.answer, "0 1 1 0 0,0,0,0,0,0,0,0,0,0,0,0,0,0,0,0 43690,43690,43690");
}

#[test]
fn the_lines_of_a_sweep() {
    let line = independent::damage::hardened(&[1, 0, 0, 0, 0, 0, 6, 0, 0, 0, 0, 0]);
    let how = protocol::Asked { budget: 1, slots: 2, words: 1024 };
    let whole = protocol::whole(how, &[0; 16], &line);
    let ask = "1 2 1024 0,0,0,0,0,0,0,0,0,0,0,0,0,0,0,0 2800000000000000000001000200000000000000";
    assert_eq!(whole.ask, format!("whole {ask}"));
    assert_eq!(whole.answer, "0 1 1 0 0 43690,43690 zero");
    let other = protocol::other(how, &[0; 16], &line);
    assert_eq!(other.ask, format!("other {ask}"));
    assert_eq!(other.answer, "0 0 43690,43690 zero");
    let none = protocol::Asked { budget: 0, slots: 0, words: 1030 };
    assert_eq!(protocol::whole(none, &[0; 16], &line).answer, "13 0 0 0 0 - kept");
    assert_eq!(protocol::other(none, &[0; 16], &line).answer, "13 0 - kept");
    let few = protocol::Asked { budget: 3, slots: 1, words: 0 };
    assert_eq!(protocol::whole(few, &[0; 16], &line).answer, "9 0 0 0 0 43690 kept");
    let empty = protocol::other(few, &[0; 16], &[]);
    assert!(empty.ask.ends_with(",0 -"), "{}", empty.ask);
    assert_eq!(empty.answer, "10 0 43690 kept");
}

#[test]
fn the_counter_words_of_a_run() {
    let line = independent::damage::hardened(&[1, 0, 0, 0, 0, 0, 6, 0, 0, 0, 0, 0]);
    let how = protocol::Struck { budget: 0, k: 65_535, place: 0, slots: 0, words: 1100 };
    let zero = protocol::hardened(how, &[7; 16], &line);
    assert!(zero.answer.ends_with(" - zero"), "{}", zero.answer);
    let kept = protocol::hardened(protocol::Struck { words: 1023, ..how }, &[7; 16], &line);
    assert!(kept.answer.ends_with(" - kept"), "{}", kept.answer);
    assert!(kept.answer.starts_with("9 0 0 0 7,7,"));
    assert!(kept.ask.starts_with("hardened 0 65535 0 0 1023 7,7,"));
}
