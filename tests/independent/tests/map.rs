//! The map of the program that sweeps a table, worked out by hand from 01, 02 and what
//! docs/PROGRAMS.md says of the picture.

mod listing;
mod painted;

use independent::by_name::{add, call, functions, set};
use independent::overflow_programs::by_turns;
use independent::printed::Printed;
use independent::{sweep_text, text};
use listing::{LINES, ROWS};
use painted::painted;

fn printed(words: &str, input: &str) -> Printed {
    let words: Vec<Vec<u8>> = words.split(' ').map(|word| word.as_bytes().to_vec()).collect();
    sweep_text::sweep(&words, input.as_bytes()).unwrap()
}

/// The picture for these words, with nothing on standard error.
fn picture(words: &str, input: &str) -> String {
    let Printed { out, err } = printed(words, input);
    assert_eq!(String::from_utf8(err).unwrap(), "");
    assert!(out.starts_with("<svg ") && out.ends_with("\n</svg>\n"), "{out}");
    out
}

fn hardened(rows: &[u8]) -> String {
    text::harden(text::lines(rows, 6).as_bytes()).unwrap().out
}

/// The lines of a picture that begin so.
fn lines_of<'a>(picture: &'a str, begin: &str) -> Vec<&'a str> {
    picture.lines().filter(|line| line.starts_with(begin)).collect()
}

/// The worked table with v1 = 1: places 0 do, 1 tick, 2 test, 3 do, 4 tick, 5 leave, 6 ret.
/// The run stands at 0 1 2, then 3 4 5 2 twice, then 6: 12 steps of 8 places each. Before
/// step 0 v0 is 0, before 1 to 3 it is 2, before 4 to 7 it is 1, from 8 on it is 0.
///
/// - Where it stands it may stay, 12 times: the diagonal is s.
/// - Row 1 left out (0 to 1, step 0): v0 is 0 and the trace empty. Done twice (1 to 0, step
///   1): the trace is 1 1 3 3. Both are o.
/// - Row 3 left out (3 to 4, steps 3 and 7): the loop makes up for it, the trace is 1 3 3
///   after 15 steps: s, twice. Done twice (4 to 3): in step 4 v0 becomes 0 a round early, 1 3 3
///   again; in step 8 it is 0 and overflows. The worse of them is u.
/// - Wide jumps to place 3 overflow while v0 is 0: from 0 (step 0), 5 (step 9), 2 (step 10),
///   6 (step 11). From 2 and 5 there were alarms too, in steps 2 and 6 and in step 5: u is
///   worse. From 1 the only strike is in step 1, where v0 is 2.
/// - All other wide jumps alarm, at the latest in step 12, which the budget holds.
///
/// So same 12 + 3, other 2, unfinished 1 + 4, and alarm 96 - 22: 02's counts.
const LISTING: &str = r##"<svg xmlns="http://www.w3.org/2000/svg" width="540" height="300" viewBox="-7 -4 45 25">
<style>svg{background:#fff}text{font:.9px sans-serif;fill:#222}.l{text-anchor:end}.t{text-anchor:middle}.h{font-size:1.1px}.n{fill:url(#n)}.a{fill:#bfe3c6}.g{fill:url(#g)}.s{fill:url(#s)}.o{fill:url(#o)}.u{fill:url(#u)}.x{fill:url(#x)}.mo{font-weight:bold;fill:#a00}.ms{fill:#777}.mu{fill:#853}</style>
<defs>
<pattern id="n" width="1" height="1" patternUnits="userSpaceOnUse"><path d="M0 0h1v1H0z" fill="#fff"/><path d="M0 1L1 0" stroke="#aaa" stroke-width=".08"/></pattern>
<pattern id="g" width="5" height="5" patternUnits="userSpaceOnUse"><path d="M0 0H5M0 0V5" stroke="#fff" stroke-width=".12"/></pattern>
<pattern id="s" width="1" height="1" patternUnits="userSpaceOnUse"><path d="M0 0h1v1H0z" fill="#fff"/><circle cx=".5" cy=".5" r=".2" fill="#246"/></pattern>
<pattern id="o" width="1" height="1" patternUnits="userSpaceOnUse"><path d="M0 0h1v1H0z" fill="#a00"/><path d="M.2 .2L.8 .8M.8 .2L.2 .8" stroke="#fff" stroke-width=".16"/></pattern>
<pattern id="u" width="1" height="1" patternUnits="userSpaceOnUse"><path d="M0 0h1v1H0z" fill="#f5b83d"/><path d="M0 .25H1M0 .75H1" stroke="#743" stroke-width=".16"/></pattern>
<pattern id="x" width="1" height="1" patternUnits="userSpaceOnUse"><path d="M0 0h1v1H0z" fill="#bfe3c6"/><path d="M0 .5H1" stroke="#c80" stroke-width=".3"/></pattern>
</defs>
<text class="h" y="-2.6">function 0: struck at the place on the left, to the place above</text>
<rect class="n" width="8" height="7"/>
<path class="a" d="M0 0h8v7H0z"/>
<rect class="g" width="8" height="7"/>
<path class="s" d="M0 0h1v1H0z"/>
<path class="o" d="M0 1h1v1H0z"/>
<text class="l" x="-.4" y="0.8">0 do</text>
<text class="mo" x="8.4" y="1.8">row 1 done twice</text>
<text class="t" x="0.5" y="-.4">0</text>
<path class="s" d="M1 1h1v1H1z"/>
<path class="o" d="M1 0h1v1H1z"/>
<text class="l" x="-.4" y="1.8">1 tick</text>
<text class="mo" x="8.4" y="0.8">row 1 left out</text>
<path class="s" d="M2 2h1v1H2z"/>
<text class="l" x="-.4" y="2.8">2 test</text>
<path class="u" d="M3 0h1v1H3zM3 2h1v1H3zM3 4h1v3H3z"/>
<path class="s" d="M3 3h1v1H3z"/>
<text class="l" x="-.4" y="3.8">3 do</text>
<text class="mu" x="8.4" y="4.8">row 3 done twice</text>
<path class="s" d="M4 3h1v2H4z"/>
<text class="l" x="-.4" y="4.8">4 tick</text>
<text class="ms" x="8.4" y="3.8">row 3 left out</text>
<path class="s" d="M5 5h1v1H5z"/>
<text class="l" x="-.4" y="5.8">5 leave</text>
<text class="t" x="5.5" y="-.4">5</text>
<path class="s" d="M6 6h1v1H6z"/>
<text class="l" x="-.4" y="6.8">6 ret</text>
<text class="t" x="7.5" y="-1.4">m</text>
<rect class="a" y="8" width="1" height="1"/><text x="1.6" y="8.8">alarm</text>
<rect class="s" y="10" width="1" height="1"/><text x="1.6" y="10.8">finished with the same trace</text>
<rect class="o" y="12" width="1" height="1"/><text x="1.6" y="12.8">finished with another trace</text>
<rect class="u" y="14" width="1" height="1"/><text x="1.6" y="14.8">not finished</text>
<rect class="n" y="16" width="1" height="1"/><text x="1.6" y="16.8">the run never stood there</text>
<text y="18.8">whole sweep: alarm 74, same 15, other 2, unfinished 5</text>
</svg>
"##;

#[test]
fn the_listing() {
    for words in ["map v1=1 budget=20", "function=0 budget=20 v1=1 map", "v1=1 map function=000"] {
        assert_eq!(picture(words, LINES), LISTING);
        assert_eq!(picture(words, &text::harden(ROWS.as_bytes()).unwrap().out), LISTING);
    }
    let cells =
        ["soauaaaa", "osaaaaaa", "aasuaaaa", "aaassaaa", "aaausaaa", "aaauasaa", "aaauaasa"];
    assert_eq!(painted(LISTING), cells);
}

/// With just 12 steps a do that is done twice in step 1 takes one too many, and row 3 left out
/// three; the alarm of the jump from 6 to 0 would come in step 12. The other strikes end
/// as they did: row 3 done twice in step 4 ends sooner.
#[test]
fn just_the_budget() {
    let map = picture("map v1=1 budget=12", LINES);
    let cells =
        ["soauaaaa", "usaaaaaa", "aasuaaaa", "aaasuaaa", "aaausaaa", "aaauasaa", "uaauaasa"];
    assert_eq!(painted(&map), cells);
    let labels = lines_of(&map, "<text class=\"m");
    assert_eq!(
        labels,
        [
            "<text class=\"mu\" x=\"8.4\" y=\"1.8\">row 1 done twice</text>",
            "<text class=\"mo\" x=\"8.4\" y=\"0.8\">row 1 left out</text>",
            "<text class=\"mu\" x=\"8.4\" y=\"4.8\">row 3 done twice</text>",
            "<text class=\"mu\" x=\"8.4\" y=\"3.8\">row 3 left out</text>",
        ]
    );
    let counts = "<text y=\"18.8\">whole sweep: alarm 73, same 13, other 1, unfinished 9</text>";
    assert!(map.contains(counts), "{map}");
}

/// Function 0: call, back, do, tick, ret; function 1, which is called once, and function 2,
/// which never is: do, tick, ret. The run takes 8 steps.
#[test]
fn a_call() {
    let rows = functions(&[&[call(1), set(0, 5)], &[set(1, 7)], &[set(2, 9)]]);
    let input = hardened(&rows);
    let own = ["saaaaa", "asaaaa", "aasoaa", "aaosaa", "aaaasa"];
    assert_eq!(painted(&picture("map", &input)), own);
    let one = picture("map function=1", &input);
    assert_eq!(painted(&one), ["soaa", "osaa", "aasa"]);
    assert!(one.contains(">function 1: struck at the place on the left, to the place above<"));
    // a do done twice takes a ninth step, and so does the alarm behind the jump from ret to do
    let own = ["saaaaa", "asaaaa", "aasoaa", "aausaa", "aauasa"];
    assert_eq!(painted(&picture("map budget=8", &input)), own);
    let one = picture("map budget=8 function=1", &input);
    assert_eq!(painted(&one), ["soaa", "usaa", "aasa"]);
    // the counts are those of all functions: 5 steps of 6 places, 3 of 4
    let counts = ">whole sweep: alarm 29, same 8, other 2, unfinished 3</text>\n</svg>\n";
    assert!(one.ends_with(counts), "{one}");
}

/// "The path is empty where the run never stood in the function", and no do is named.
#[test]
fn a_function_that_is_never_called() {
    let rows = functions(&[&[call(1), set(0, 5)], &[set(1, 7)], &[set(2, 9)]]);
    let map = picture("map function=2", &hardened(&rows));
    assert_eq!(painted(&map), ["nnnn"; 3]);
    assert_eq!(lines_of(&map, "<path "), ["<path class=\"a\" d=\"\"/>"]);
    assert_eq!(
        lines_of(&map, "<text class"),
        [
            "<text class=\"h\" y=\"-2.6\">function 2: struck at the place on the left, to the place \
             above</text>",
            "<text class=\"l\" x=\"-.4\" y=\"0.8\">0 do</text>",
            "<text class=\"t\" x=\"0.5\" y=\"-.4\">0</text>",
            "<text class=\"l\" x=\"-.4\" y=\"1.8\">1 tick</text>",
            "<text class=\"l\" x=\"-.4\" y=\"2.8\">2 ret</text>",
            "<text class=\"t\" x=\"3.5\" y=\"-1.4\">m</text>",
        ]
    );
}

/// Function 1 adds 1 to v1, which is 65,534 in the first call and 0 in the second. Done twice
/// it overflows in the first and not in the second, where the trace is another: o. From the ret
/// the do overflows in the first call, and alarms in the second: u. In function 0 the do that
/// sets v1 to 0 is left out: the second call overflows.
#[test]
fn the_worst_of_a_pair() {
    let rows = functions(&[&[call(1), set(1, 0), call(1)], &[add(1, 2)]]);
    let input = hardened(&rows);
    let one = picture("map function=1 v1=65534 v2=1", &input);
    assert_eq!(painted(&one), ["soaa", "osaa", "uasa"]);
    assert_eq!(
        lines_of(&one, "<text class=\"m"),
        [
            "<text class=\"mo\" x=\"4.4\" y=\"1.8\">row 6 done twice</text>",
            "<text class=\"mo\" x=\"4.4\" y=\"0.8\">row 6 left out</text>",
        ]
    );
    let own = picture("map v1=65534 v2=1", &input);
    let cells =
        ["saaaaaaa", "asaaaaaa", "aasuaaaa", "aaosaaaa", "aaaasaaa", "aaaaasaa", "aaaaaasa"];
    assert_eq!(painted(&own), cells);
    // 7 steps of 8 places and 6 of 4; other: row 2 done twice, row 6 left out twice and done
    // twice once; unfinished: row 2 left out, row 6 done twice, from the ret
    for map in [one, own] {
        assert!(map.contains(">whole sweep: alarm 60, same 13, other 4, unfinished 3</text>"));
    }
}

/// v0 is 0 and 1 by turns, each set by a do, ten times 1; then it is set to 0 by row 21 and
/// added to v1, which is 65,535, by row 22 at place 42. v0 is 1 at places 3 and 4, 7 and 8
/// and so on up to 39 and 40: ten pieces that overflow.
#[test]
fn more_than_eight_pieces() {
    let input = hardened(&functions(&[&by_turns(10, 0)]));
    let map = picture("map v1=65535", &input);
    let pieces: String = (0..8).map(|i| format!("M42 {}h1v2H42z", 4 * i + 3)).collect();
    let text = format!(
        "\
<text class=\"mu\" x=\"46.4\" y=\"40.8\">row 21 left out</text>
<path class=\"u\" d=\"{pieces}\"/>
<path class=\"x\" d=\"M42 35h1v6H42z\"/>
<path class=\"s\" d=\"M42 42h1v1H42z\"/>
<path class=\"o\" d=\"M42 43h1v1H42z\"/>
<text class=\"l\" x=\"-.4\" y=\"42.8\">42 do</text>
<text class=\"mo\" x=\"46.4\" y=\"43.8\">row 22 done twice</text>
<path class=\"s\" d=\"M43 43h1v1H43z\"/>
"
    );
    assert!(map.contains(&text), "{map}");
    // 45 steps of 46 places; 22 dos left out and done twice, of which row 21 left out overflows
    let foot = "\
<rect class=\"n\" y=\"54\" width=\"1\" height=\"1\"/><text x=\"1.6\" y=\"54.8\">the run never stood there</text>
<rect class=\"x\" y=\"56\" width=\"1\" height=\"1\"/><text x=\"1.6\" y=\"56.8\">not finished from some of these places</text>
<text y=\"58.8\">whole sweep: alarm 1961, same 45, other 43, unfinished 21</text>
</svg>
";
    assert!(map.ends_with(foot), "{map}");
}

/// "in place of the ninth and all further runs": with eight there is none.
#[test]
fn eight_and_nine_pieces() {
    let eight = picture("map v1=65535", &hardened(&functions(&[&by_turns(8, 0)])));
    assert!(!eight.contains("class=\"x\""), "{eight}");
    assert!(eight.contains("M34 31h1v2H34z\"/>\n<path class=\"s\""), "{eight}");
    let nine = picture("map v1=65535", &hardened(&functions(&[&by_turns(9, 0)])));
    let drawn = "M38 31h1v2H38z\"/>\n<path class=\"x\" d=\"M38 35h1v2H38z\"/>\n<path class=\"s\"";
    assert!(nine.contains(drawn), "{nine}");
    // the do stands at place 2, above all of them, and the last one reaches the ret
    let below = picture("map v1=65535", &hardened(&functions(&[&by_turns(0, 9)])));
    let drawn = "M2 35h1v2H2z\"/>\n<path class=\"x\" d=\"M2 39h1v2H2z\"/>\n<path class=\"s\"";
    assert!(below.contains(drawn), "{below}");
}

/// "Where the table is accepted, its run finishes and it has no such function"
#[test]
fn a_function_that_is_not_there() {
    let line = |text: &str| Printed::err(format!("{text}\n"));
    let not_there = line("function 1 is not there: the last one is 0");
    assert_eq!(printed("map function=1 v1=1", LINES), not_there);
    let two = hardened(&functions(&[&[call(1)], &[set(1, 7)]]));
    let not_there = line("function 31 is not there: the last one is 1");
    assert_eq!(printed("function=31 map", &two), not_there);
    // it does not finish; it is no table; it is no text
    assert_eq!(printed("map function=1", LINES), Printed::out("refused 13\n"));
    assert_eq!(printed("map function=1 v1=1", &LINES[41..]), Printed::out("refused 10\n"));
    assert_eq!(printed("map function=1 v1=1", "x").out, "unreadable\n");
}

#[test]
fn turned_away() {
    assert_eq!(printed("map v1=1 budget=11", LINES), Printed::out("refused 13\n"));
    assert_eq!(printed("map v1=3", LINES), Printed::out("refused 13\n"));
    assert_eq!(printed("map", ""), Printed::out("refused 10\n"));
    let unreadable = Printed { out: "unreadable\n".into(), err: "line 1: an empty line\n".into() };
    assert_eq!(printed("map", "\n"), unreadable);
}
