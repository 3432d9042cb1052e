//! The files of `independent texts`: texts for `harden`, `measure`, `readback` and
//! `explain`, and what each of them prints.

use std::collections::BTreeSet;
use std::fs;
use std::io;
use std::path::Path;

use crate::calls;
use crate::damage;
use crate::limits;
use crate::line::LINE_BYTES;
use crate::make;
use crate::malformed_texts;
use crate::programs::Program;
use crate::random::Random;
use crate::refused_texts;
use crate::replay_fault;
use crate::row::ROW_BYTES;
use crate::text;

/// An input, by name, and the programs that it is for.
pub struct Text {
    pub name: String,
    pub bytes: Vec<u8>,
    pub programs: &'static [Program],
}

/// The programs that read rows.
pub const OF_ROWS: &[Program] = &[Program::Harden, Program::Measure, Program::Explain];
/// The programs that read hardened lines.
pub const OF_LINES: &[Program] = &[Program::Readback];
/// All four.
pub const OF_BOTH: &[Program] =
    &[Program::Harden, Program::Measure, Program::Explain, Program::Readback];

/// The rows of a table as a text.
pub fn of_rows(name: String, rows: &[u8]) -> Text {
    Text { name, bytes: text::lines(rows, ROW_BYTES).into(), programs: OF_ROWS }
}

/// The lines of a hardened table as a text.
pub fn of_lines(name: String, lines: &[u8]) -> Text {
    Text { name, bytes: text::lines(lines, LINE_BYTES).into(), programs: OF_LINES }
}

/// The fixed texts, then `count` random ones of rows and as many of lines; a third
/// of them is there a second time, spoilt.
pub fn all(seed: u64, count: usize) -> Vec<Text> {
    let mut texts = limit_texts();
    texts.extend(malformed_texts::all());
    texts.extend(refused_texts::all());
    texts.extend(random(seed, count));
    texts
}

/// Writes DIR/texts/NAME, and for each of its programs DIR/expected/PROGRAM/NAME.out
/// and NAME.err.
pub fn write(texts: &[Text], directory: &Path) -> io::Result<()> {
    let names: BTreeSet<&str> = texts.iter().map(|text| &*text.name).collect();
    assert_eq!(names.len(), texts.len(), "every text has a name of its own");
    let inputs = directory.join("texts");
    fs::create_dir_all(&inputs)?;
    for text in texts {
        fs::write(inputs.join(&text.name), &text.bytes)?;
        for program in text.programs {
            let printed = program.printed(&[], &text.bytes[..])?;
            let expected = directory.join("expected").join(program.name());
            fs::create_dir_all(&expected)?;
            fs::write(expected.join(format!("{}.out", text.name)), printed.out)?;
            fs::write(expected.join(format!("{}.err", text.name)), printed.err)?;
        }
    }
    Ok(())
}

/// No bytes, and the limit tables with their hardened lines.
fn limit_texts() -> Vec<Text> {
    let mut texts = vec![Text { name: "empty".to_string(), bytes: Vec::new(), programs: OF_BOTH }];
    for (at, (rows, number)) in limits::all().into_iter().enumerate() {
        texts.push(of_rows(format!("limit-{at}-rows"), &rows));
        if number == 0 {
            texts.push(of_lines(format!("limit-{at}-lines"), &damage::hardened(&rows)));
        }
    }
    for (at, lines) in damage::beyond_limits().into_iter().enumerate() {
        texts.push(of_lines(format!("beyond-{at}-lines"), &lines));
    }
    texts
}

fn random(seed: u64, count: usize) -> Vec<Text> {
    let mut rng = Random::new(seed);
    let mut texts = Vec::new();
    for number in 0..count {
        let rows = rows(&mut rng);
        let lines = lines(&mut rng, &rows);
        let both = [
            of_rows(format!("random-{number}-rows"), &rows),
            of_lines(format!("random-{number}-lines"), &lines),
        ];
        if number % 3 == 0 {
            texts.extend(both.iter().map(|text| spoilt(&mut rng, text)));
        }
        texts.extend(both);
    }
    texts
}

fn spoilt(rng: &mut Random, text: &Text) -> Text {
    let bytes = malformed_texts::spoilt(rng, text.bytes.clone());
    Text { name: format!("{}-spoilt", text.name), bytes, programs: text.programs }
}

/// Half of the tables are accepted.
fn rows(rng: &mut Random) -> Vec<u8> {
    if rng.percent(45) {
        make::any_table(rng)
    } else {
        replay_fault::table(rng)
    }
}

/// The hardened table, in half of the cases damaged; of a refused table, those of
/// the worked listing.
fn lines(rng: &mut Random, rows: &[u8]) -> Vec<u8> {
    let lines = match calls::check(rows) {
        0 => damage::hardened(rows),
        _ => damage::hardened(&limits::worked_listing()),
    };
    if rng.percent(50) {
        damage::any(rng, &lines)
    } else {
        lines
    }
}
