//! Every map of random programs and of those by hand, as it is painted, against every strike:
//! what each cell is drawn as, which dos are named and how, and the four counts.

mod counted;
mod painted;

use std::collections::HashMap;

use counted::Counted;
use independent::by_name::{self, functions};
use independent::hardened_run::spans_of;
use independent::line::{self, Line, LINE_BYTES};
use independent::overflow_programs::{self, by_turns};
use independent::program::Program;
use independent::random::Random;
use independent::replay_sweep::some_budget;
use independent::sweep::{End, Sweep};
use independent::{damage, run_cases, sweep_programs, sweep_text, text};
use painted::painted;

/// All that the strikes inside a function ended with, by the places struck at and struck to.
type Ends = HashMap<(usize, usize), Vec<End>>;

/// A program with a budget in which it finishes.
struct Swept {
    program: Program,
    budget: u16,
    lines: Vec<Line>,
    /// by function
    ends: Vec<Ends>,
}

impl Swept {
    fn new(program: Program, budget: u16) -> Option<Swept> {
        let lines = line::from_bytes(&damage::hardened(&program.rows));
        let mut ends = vec![Ends::new(); spans_of(&lines).len()];
        for strike in Sweep::new(&lines, program.variables, budget)?.strikes() {
            let pair = ends[strike.function].entry((strike.from, strike.to)).or_default();
            pair.push(strike.end);
        }
        Some(Swept { program, budget, lines, ends })
    }

    fn printed(&self, what: &str) -> String {
        let values = run_cases::given(&self.program.variables);
        let words = format!("{values} budget={} {what}", self.budget);
        let words: Vec<Vec<u8>> =
            words.split_whitespace().map(|word| word.as_bytes().to_vec()).collect();
        let input = text::lines(&line::to_bytes(&self.lines), LINE_BYTES);
        sweep_text::sweep(&words, input.as_bytes()).unwrap().out
    }

    /// The lines of a function.
    fn function(&self, number: usize) -> &[Line] {
        let span = spans_of(&self.lines)[number];
        &self.lines[span.first..span.first + span.m]
    }
}

/// What a cell is drawn as where its column has few pieces that are not finished.
fn drawn(ends: &Ends, from: usize, to: usize) -> char {
    let Some(ends) = ends.get(&(from, to)) else {
        return 'n';
    };
    let met = |end| ends.contains(&end);
    assert!(!(met(End::Same) && met(End::Alarm)), "\"which do not meet in one pair\"");
    match () {
        () if met(End::Other) => 'o',
        () if met(End::Unfinished) => 'u',
        () if met(End::Same) => 's',
        () => 'a',
    }
}

/// A column of m cells. From the ninth piece of u to the last, all that is not s or o is x.
fn column(ends: &Ends, m: usize, to: usize) -> Vec<char> {
    let mut cells: Vec<char> = (0..m).map(|from| drawn(ends, from, to)).collect();
    let first_of_piece = |y: &usize| cells[*y] == 'u' && (*y == 0 || cells[y - 1] != 'u');
    if let Some(ninth) = (0..m).filter(first_of_piece).nth(8) {
        let last = cells.iter().rposition(|cell| *cell == 'u').unwrap();
        let rest = cells[ninth..=last].iter_mut();
        rest.filter(|cell| !['s', 'o'].contains(cell)).for_each(|cell| *cell = 'x');
    }
    cells
}

/// The dos that are named, with the letter of the cell: that of the place before a do to the
/// one behind it, and back. In the order of the places struck to.
fn named(lines: &[Line], ends: &Ends) -> Vec<String> {
    let x = lines.len() + 1;
    let mut labels = Vec::new();
    for (place, line) in lines.iter().enumerate().filter(|(_, line)| !line.is_guard()) {
        for (from, to, what) in [(place + 1, place, "done twice"), (place, place + 1, "left out")] {
            let (cell, row) = (drawn(ends, from, to), line.e);
            if cell != 'n' {
                labels.push(format!(
                    "<text class=\"m{cell}\" x=\"{x}.4\" y=\"{from}.8\">row {row} {what}</text>"
                ));
            }
        }
    }
    labels
}

/// The picture of one function; counts what is painted in it.
fn one_picture(swept: &Swept, number: usize, met: &mut Counted) -> String {
    let picture = swept.printed(&format!("map function={number}"));
    let (lines, ends) = (swept.function(number), &swept.ends[number]);
    let m = lines.len();
    let columns: Vec<Vec<char>> = (0..=m).map(|to| column(ends, m, to)).collect();
    let expected: Vec<String> =
        (0..m).map(|from| columns.iter().map(|column| column[from]).collect()).collect();
    let cells = painted(&picture);
    assert_eq!(cells, expected);
    let labels: Vec<&str> =
        picture.lines().filter(|line| line.starts_with("<text class=\"m")).collect();
    assert_eq!(labels, named(lines, ends));
    assert!(picture.len() <= 2500 + 400 * m);
    cells.concat().chars().for_each(|cell| met.add(cell));
    labels.iter().for_each(|label| met.add(&label[13..15]));
    picture
}

/// The pictures of all functions: each tells the counts that are printed without it, and one
/// of them draws another trace exactly if some strike gave it. (One that is not finished may
/// be drawn as another trace.)
fn all_pictures(swept: &Swept, met: &mut Counted) {
    let counts: Vec<String> = swept.printed("").lines().map(str::to_string).collect();
    let told = format!(">whole sweep: {}</text>\n</svg>\n", counts.join(", "));
    let mut cells = String::new();
    for number in 0..swept.ends.len() {
        let picture = one_picture(swept, number, met);
        assert!(picture.ends_with(&told), "{told}");
        cells += &painted(&picture).concat();
    }
    assert_eq!(cells.contains('o'), counts[2] != "other 0");
    assert!(counts[3] != "unfinished 0" || !cells.contains(['u', 'x']));
}

#[test]
fn programs_by_hand() {
    let mut met = Counted::default();
    let turns = [(8, 0), (9, 0), (12, 0), (0, 9), (5, 6)].map(|(before, behind)| {
        by_name::of(functions(&[&by_turns(before, behind)]), &[(1, 65_535)])
    });
    let finishing = overflow_programs::finishing().into_iter().chain(turns);
    for program in sweep_programs::by_hand().into_iter().chain(finishing) {
        let steps = sweep_programs::finishes_in(&program, 600).unwrap();
        for budget in [steps, steps + 1, 2 * steps] {
            let program = Program { rows: program.rows.clone(), ..program };
            all_pictures(&Swept::new(program, budget).unwrap(), &mut met);
        }
    }
    met.least(&[("a", 10_000), ("n", 1000), ("s", 500), ("o", 100), ("u", 500), ("x", 20)]);
    met.least(&[("mo", 100), ("ms", 10), ("mu", 100)]);
}

#[test]
fn random_programs() {
    let mut rng = Random::new(11);
    let mut met = Counted::default();
    for _ in 0..1000 {
        let (program, steps) = sweep_programs::random(&mut rng);
        let budget = some_budget(&mut rng, steps);
        if let Some(swept) = Swept::new(program, budget) {
            all_pictures(&swept, &mut met);
        }
    }
    met.least(&[("a", 100_000), ("n", 10_000), ("s", 5000), ("o", 1000), ("u", 1000)]);
    met.least(&[("mo", 1000), ("ms", 100), ("mu", 500)]);
}
