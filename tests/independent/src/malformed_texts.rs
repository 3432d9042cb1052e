//! Texts with a malformed line: every row of the table of docs/PROGRAMS.md, "A
//! malformed line", on every kind of line, and at the borders of the chunks that
//! a program may read in.

use crate::programs::Program;
use crate::random::Random;
use crate::texts::{Text, OF_BOTH, OF_LINES, OF_ROWS};

/// A line that is right, and who reads such lines.
#[derive(Clone, Copy)]
struct Width {
    good: &'static str,
    programs: &'static [Program],
    /// behind so many bytes a chunk may end
    borders: &'static [usize],
}

/// The last borders are far, so that a line's newline is the first byte of a
/// chunk, or its first digit is.
const WIDTHS: [Width; 2] = [
    Width {
        good: "02030f0a0000",
        programs: OF_ROWS,
        borders: &[4096, 8192, 65_536, 12 * 4096, 13 * 4096, 4 * 65_536],
    },
    Width {
        good: "21030f0a00000000000019000000000000000000",
        programs: OF_LINES,
        borders: &[4096, 8192, 65_536, 31 * 4096, 41 * 4096],
    },
];

/// All of them, for both widths.
pub fn all() -> Vec<Text> {
    let mut texts = Vec::new();
    for width in WIDTHS {
        let mut add = |name: String, bytes: Vec<u8>| {
            let name = format!("{}-digits-{name}", width.good.len());
            texts.push(Text { name, bytes, programs: width.programs });
        };
        bad_lines_everywhere(width.good, &mut add);
        every_byte(width.good, &mut add);
        every_length(width.good, &mut add);
        at_borders(width, &mut add);
        far_down(width.good, &mut add);
    }
    for width in WIDTHS {
        texts.extend(many_lines(width.good));
    }
    texts
}

/// Takes a name and the bytes of a text.
type Add<'a> = dyn FnMut(String, Vec<u8>) + 'a;

/// Lines that are malformed, by name, without their newlines. Some have more than
/// one fault: the first decides.
pub fn bad_lines(good: &str) -> Vec<(&'static str, Vec<u8>)> {
    let last = good.len() - 1;
    let (head, tail) = good.split_at(5);
    let text = |text: String| text.into_bytes();
    vec![
        ("return-alone", text("\r".to_string())),
        ("return-first", text(format!("\r{good}"))),
        ("return-middle", text(format!("{head}\r{tail}"))),
        ("return-last", text(format!("{}\r", &good[..last]))),
        ("return-behind", text(format!("{good}\r"))),
        ("return-too-late", text(format!("{good}0\r"))),
        ("more-by-a-digit", text(format!("{good}0"))),
        ("more-by-an-uppercase", text(format!("{good}A"))),
        ("more-by-a-space", text(format!("{good} "))),
        ("more-by-a-letter", text(format!("{good}x"))),
        ("more-by-a-zero-byte", text(format!("{good}\0"))),
        ("more-by-a-line", text(format!("{good}{good}"))),
        ("uppercase-first", text(format!("A{}", &good[1..]))),
        ("uppercase-middle", text(format!("{head}F{}", &tail[1..]))),
        ("uppercase-last", text(format!("{}C", &good[..last]))),
        ("uppercase-behind-few", text("01B".to_string())),
        ("space-first", text(format!(" {good}"))),
        ("space-middle", text(format!("{head} {tail}"))),
        ("space-last", text(format!("{} ", &good[..last]))),
        ("space-alone", text(" ".to_string())),
        ("tab-first", text(format!("\t{good}"))),
        ("tab-last", text(format!("{}\t", &good[..last]))),
        ("letter-first", text(format!("x{}", &good[1..]))),
        ("letter-middle", text(format!("{head}g{}", &tail[1..]))),
        ("letter-last", text(format!("{}G", &good[..last]))),
        ("prefix", text(format!("0x{good}"))),
        ("sign", text(format!("-{}", &good[1..]))),
        ("zero-byte", text(format!("{head}\0{}", &tail[1..]))),
        ("no-text", [head.as_bytes(), b"\xff\xc3\xa9", tail.as_bytes()].concat()),
        ("empty", text(String::new())),
        ("one", text(good[..1].to_string())),
        ("half", text(good[..good.len() / 2].to_string())),
        ("one-less", text(good[..last].to_string())),
        ("uppercase-then-others", text("0A \r".to_string())),
        ("space-then-others", text("0 Ax\r".to_string())),
        ("letter-then-others", text("0xA \r".to_string())),
        ("return-then-others", text("0\rxA ".to_string())),
    ]
}

/// Each bad line as the first, a middle and the last line, with a newline and
/// without, before another malformed one, and behind more rows than a table has.
fn bad_lines_everywhere(good: &str, add: &mut Add) {
    let one = format!("{good}\n").into_bytes();
    let two = one.repeat(2);
    let many = one.repeat(1025);
    for (name, bad) in bad_lines(good) {
        let mut put = |place: &str, parts: &[&[u8]]| add(format!("{name}-{place}"), parts.concat());
        put("only", &[&bad, b"\n"]);
        put("only-unended", &[&bad]);
        put("first", &[&bad, b"\n", &two]);
        put("middle", &[&one, &bad, b"\n", &one]);
        put("last", &[&two, &bad, b"\n"]);
        put("last-unended", &[&two, &bad]);
        put("before-another", &[&one, &bad, b"\n", &one, b"\n \nA\n"]);
        put("behind-1025", &[&many, &bad, b"\n"]);
        put("behind-1025-unended", &[&many, &bad]);
    }
}

/// Bytes at the borders of what is told apart.
const EDGES: &[u8] =
    b"\x00\x08\x09\x0a\x0b\x0c\x0d\x0e\x1f !/09:@AFGZ`afgz\x7f\x80\x8a\x8d\xa0\xff";

/// Every byte behind five digits, and some as the first byte and behind all
/// digits.
fn every_byte(good: &str, add: &mut Add) {
    let mut put = |behind: usize, byte: u8| {
        let (before, after) = good.split_at(behind);
        let after = after.as_bytes().get(1..).unwrap_or(&[]);
        let line = [before.as_bytes(), &[byte], after, b"\n"].concat();
        let text = [good.as_bytes(), b"\n", &line, good.as_bytes()].concat();
        add(format!("byte-{byte}-behind-{behind}"), text);
    };
    for byte in 0..=255 {
        put(5, byte);
    }
    for byte in EDGES {
        put(0, *byte);
        put(good.len() - 1, *byte);
        put(good.len(), *byte);
    }
}

/// Too few digits, every number of them, before a newline and at the end.
fn every_length(good: &str, add: &mut Add) {
    for length in 1..good.len() {
        let short = &good[..length];
        add(format!("length-{length}"), format!("{good}\n{short}\n{good}\n").into());
        add(format!("length-{length}-at-the-end"), format!("{good}\n{short}").into());
    }
}

/// Changes a text at some place.
type Change = fn(&mut Vec<u8>, usize);

/// What happens to the byte at some place of a text of right lines.
const CHANGES: &[(&str, Change)] = &[
    ("return", |text, at| text[at] = b'\r'),
    ("uppercase", |text, at| text[at] = b'D'),
    ("space", |text, at| text[at] = b' '),
    ("letter", |text, at| text[at] = b'x'),
    ("one-more", |text, at| text.insert(at, b'0')),
    ("one-less", |text, at| _ = text.remove(at)),
    ("newline", |text, at| text.insert(at, b'\n')),
    ("end", |text, at| text.truncate(at)),
];

/// Each change at the last byte of a chunk, at the first of the next, and behind
/// it.
fn at_borders(width: Width, add: &mut Add) {
    let line = format!("{}\n", width.good).into_bytes();
    for border in width.borders {
        let text = line.repeat(border / line.len() + 4);
        for (name, change) in CHANGES {
            for at in [border - 1, *border, border + 1] {
                let mut changed = text.clone();
                change(&mut changed, at);
                add(format!("border-{border}-{name}-at-{at}"), changed);
            }
        }
    }
}

/// A text with one of these changes or two, or with such a byte, somewhere.
pub fn spoilt(rng: &mut Random, mut text: Vec<u8>) -> Vec<u8> {
    for _ in 0..rng.between(1, 2) {
        if text.is_empty() {
            break;
        }
        let at = rng.below(text.len());
        match rng.percent(50) {
            true => rng.pick(CHANGES).1(&mut text, at),
            false => text[at] = rng.pick(EDGES),
        }
    }
    text
}

/// A malformed line whose number has more than 16 bits.
fn far_down(good: &str, add: &mut Add) {
    for lines in [65_534, 65_535, 65_536, 70_000] {
        add(format!("behind-{lines}"), (format!("{good}\n").repeat(lines) + "0\n").into());
    }
}

/// So many lines that are right, with an end and without, and a letter behind
/// them. The programs for the other width meet line 1.
fn many_lines(good: &str) -> Vec<Text> {
    let digits = good.len();
    let mut texts = Vec::new();
    for lines in [1, 1024, 1025, 2000, 2048, 2049, 4096, 5000] {
        let whole = format!("{good}\n").repeat(lines);
        let unended = whole.trim_end().to_string();
        let spoilt = format!("{whole}x\n");
        for (name, text) in [("whole", whole), ("unended", unended), ("spoilt", spoilt)] {
            let name = format!("{lines}-lines-of-{digits}-{name}");
            texts.push(Text { name, bytes: text.into(), programs: OF_BOTH });
        }
    }
    texts
}
