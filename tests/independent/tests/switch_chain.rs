//! Switches against their chain, which the tests write row by row: every short
//! table of some sorts of rows, random tables, random programs.

mod flat;
mod flat_chain;
mod letters;

use flat_chain::chain;
use independent::fault::{self, Fault};
use independent::machine::Variables;
use independent::random::Random;
use independent::source_run::SourceRun;
use independent::{
    check, damage, faults, harden, limits, make, program, read_back, run_hardened, run_source,
    table, Ran,
};

const NO_JUMP: u16 = 65_535;

fn has_switch(rows: &[u8]) -> bool {
    rows.chunks(6).any(|row| row[0] == 10)
}

/// The number and the row as the flat reading finds them.
fn like_the_flat_reading(rows: &[u8]) -> u8 {
    let (number, row) = flat::fault(rows);
    assert_eq!(check(rows), number, "{rows:?}");
    assert_eq!(fault::find(rows), Fault { number, row }, "{rows:?}");
    number
}

/// "A switch is hardened as the chain of ifs in elses that it stands for", "Reading
/// back gives the ifs".
fn hardened_as_its_chain(rows: &[u8]) -> Vec<u8> {
    let ifs = chain(rows);
    assert!(ifs.chunks(6).all(|row| row[0] <= 9));
    assert_eq!(check(&ifs), 0, "{rows:?}");
    let lines = damage::hardened(rows);
    assert_eq!(lines, damage::hardened(&ifs), "{rows:?}");
    let mut out = vec![1; ifs.len()];
    assert_eq!(read_back(&lines, &mut out).length, ifs.len());
    assert_eq!(out, ifs);
    lines
}

/// A source run and its slots.
fn ran(rows: &[u8], variables: &Variables, budget: u16) -> (Ran, Vec<u16>) {
    let mut slots = vec![9999; usize::from(budget)];
    (run_source(rows, variables, budget, &mut slots), slots)
}

/// "Row numbers, steps, trace and limits are those of the chain", in a source run as
/// in a hardened one.
fn runs_as_its_chain(rows: &[u8], lines: &[u8], variables: &Variables, budget: u16) -> Ran {
    let (source, slots) = ran(rows, variables, budget);
    assert_eq!((source, slots.clone()), ran(&chain(rows), variables, budget), "{rows:?}");
    if source.outcome == 1 && budget < 5000 {
        let mut others = vec![9999; 3 * usize::from(budget)];
        let most = 3 * budget;
        let mut words = [0; 1024];
        let struck = run_hardened(lines, variables, most, NO_JUMP, 0, &mut others, &mut words);
        assert_eq!((struck.outcome, struck.traced), (1, source.traced));
        assert_eq!(struck.variables, source.variables);
        assert_eq!(others[..usize::from(struck.traced)], slots[..usize::from(source.traced)]);
    }
    source
}

/// Every sequence of up to five of these rows in a function, as it is and with an
/// end for each row that opens something.
#[test]
fn every_short_table() {
    let sorts = ["d", "i", "e", "l", ".", "b", "c", "s", "1", "2", "*", "C"];
    let mut met = [0; 12];
    for length in 0..=5 {
        for code in 0..sorts.len().pow(length) {
            let pick = |at: u32| sorts[code / sorts.len().pow(at) % sorts.len()];
            let inner: String = (0..length).map(pick).collect();
            let opened = inner.chars().filter(|c| "ils".contains(*c)).count();
            let closed = inner.chars().filter(|c| *c == '.').count();
            let ends = ".".repeat(opened.saturating_sub(closed));
            met[usize::from(short_table(&format!("f{inner}.")))] += 1;
            if !ends.is_empty() {
                met[usize::from(short_table(&format!("f{inner}.{ends}")))] += 1;
            }
        }
    }
    assert!(met[0] > 5000 && met[3] > 1000 && met[4] > 1000 && met[11] > 300, "{met:?}");
}

/// The number of a short table; if it is accepted, all that it does for some v0.
fn short_table(letters: &str) -> u8 {
    let rows = letters::rows(letters);
    let number = like_the_flat_reading(&rows);
    if number == 0 {
        let lines = hardened_as_its_chain(&rows);
        for v0 in 0..4 {
            let mut variables = [0; 16];
            (variables[0], variables[15]) = (v0, 1);
            for budget in [3, 40] {
                runs_as_its_chain(&rows, &lines, &variables, budget);
            }
        }
    }
    number
}

#[test]
fn random_tables() {
    let mut with_switch = 0;
    for seed in 0..20_000 {
        let rows = make::any_table(&mut Random::new(seed));
        hardened_as_its_chain(&rows);
        with_switch += usize::from(has_switch(&rows));
    }
    // about a third
    assert!((5000..9000).contains(&with_switch), "{with_switch}");
    for (rows, number) in limits::all() {
        assert_eq!(like_the_flat_reading(&rows), number);
        if number == 0 {
            hardened_as_its_chain(&rows);
        }
    }
}

#[test]
fn faulty_tables() {
    let mut met = [0; 12];
    for seed in 0..20_000 {
        let rows = faults::any(&mut Random::new(seed)).0;
        let number = like_the_flat_reading(&rows);
        met[usize::from(number)] += usize::from(number == 2 || has_switch(&rows));
    }
    assert!([0, 2, 3, 4, 5, 6, 7, 11].iter().all(|n| met[*n] > 100), "{met:?}");
}

#[test]
fn random_programs() {
    let mut outcomes = [0; 6];
    let mut with_switch = 0;
    for seed in 0..6000 {
        let mut rng = Random::new(seed);
        let size = rng.between(4, 60);
        let program = program::program(&mut rng, size);
        if !has_switch(&program.rows) {
            continue;
        }
        with_switch += 1;
        let lines = hardened_as_its_chain(&program.rows);
        for budget in [rng.between(1, 40), rng.between(40, 400), 3000] {
            let ran = runs_as_its_chain(&program.rows, &lines, &program.variables, budget as u16);
            outcomes[usize::from(ran.outcome)] += 1;
        }
    }
    assert!((1500..4500).contains(&with_switch), "{with_switch}");
    assert!(outcomes[0] > 500 && outcomes[1] > 500 && outcomes[3] > 50, "{outcomes:?}");
}

/// The rows of the chain that a row of some sort stands for: the sort is told by its
/// kind and the kind of the row that opens what it stands in.
fn rows_where(rows: &[u8], is: fn(u8, u8) -> bool) -> Vec<usize> {
    let mut open = Vec::new();
    let mut found = Vec::new();
    for (at, row) in rows.chunks(6).enumerate() {
        if is(row[0], open.last().copied().unwrap_or(0)) {
            found.push(chain(&rows[..6 * (at + 1)]).len() / 6 - 1);
        }
        match row[0] {
            1 | 3 | 5 | 10 => open.push(row[0]),
            6 => drop(open.pop()),
            _ => {}
        }
    }
    found
}

/// The cases of random programs are taken and are passed, and breaks and continues
/// straight in a switch are reached. Each row is counted once for each program.
#[test]
fn runs_take_the_different_ways() {
    let (mut taken, mut passed, mut exits) = (0, 0, 0);
    for seed in 0..4000 {
        let program = program::program(&mut Random::new(seed), 30);
        let cases = rows_where(&program.rows, |kind, _| kind == 11);
        let leaving =
            rows_where(&program.rows, |kind, around| [7, 8].contains(&kind) && around == 10);
        let table = table::parse(&program.rows).unwrap();
        let mut run = SourceRun::new(&table, program.variables, 300);
        run.run();
        let steps: Vec<[usize; 2]> =
            run.reached.windows(2).map(|pair| [pair[0].row, pair[1].row]).collect();
        taken += cases.iter().filter(|row| steps.contains(&[**row, **row + 1])).count();
        let goes_on = |row: &usize| steps.iter().any(|step| step[0] == *row && step[1] != row + 1);
        passed += cases.iter().filter(|row| goes_on(row)).count();
        exits += leaving.iter().filter(|row| steps.iter().any(|step| step[0] == **row)).count();
    }
    assert!(taken > 700 && passed > 1500 && exits > 100, "{taken} {passed} {exits}");
}

/// A row as given costs at most three lines, and a table at most 2,048.
#[test]
fn sixty_bytes_for_each_row() {
    let mut over_forty = 0;
    let accepted = limits::all().into_iter().filter(|(_, number)| *number == 0);
    let random = (0..5000).map(|seed| (make::any_table(&mut Random::new(seed)), 0));
    for (rows, _) in accepted.chain(random) {
        let mut out = vec![0; (10 * rows.len()).min(40_960)];
        let written = harden(&rows, &mut out);
        assert_eq!(written.number, 0);
        over_forty += usize::from(written.length > 40 * (rows.len() / 6));
    }
    assert!(over_forty > 10, "{over_forty}");
}
