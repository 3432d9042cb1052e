//! The map as a picture (docs/PROGRAMS.md, "The map"), element by element in its order.

use crate::line::Line;
use crate::map_cells::{pieces, Cells, Crossed, Piece};
use crate::map_looks::LOOKS;
use crate::sweep::{Counts, End, Sweep};

/// "Of more than eight such runs only the first eight are drawn so"
const MOST_PIECES: usize = 8;

/// What is drawn of one function.
pub struct Map<'a> {
    function: usize,
    /// the function's own
    lines: &'a [Line],
    cells: Cells,
    /// of the whole sweep
    counts: Counts,
}

impl<'a> Map<'a> {
    /// Of the function with that number and these lines.
    pub fn new(function: usize, lines: &'a [Line], sweep: &Sweep) -> Map<'a> {
        let mut cells = Cells::new(lines.len());
        let mut counts = Counts::default();
        for strike in sweep.strikes() {
            counts.add(strike.end);
            if strike.function == function {
                cells.add(&strike, sweep.crossed(&strike));
            }
        }
        Map { function, lines, cells, counts }
    }

    pub fn picture(&self) -> String {
        let columns: String = (0..=self.m()).map(|c| self.column(c)).collect();
        self.head() + &self.grid() + &columns + &self.foot()
    }

    fn m(&self) -> usize {
        self.lines.len()
    }

    /// 1 to 3: the size, what the classes look like, the title
    fn head(&self) -> String {
        let (a, b) = (self.m() + 38, self.m() + 18);
        let (w, h) = (12 * a, 12 * b);
        let function = self.function;
        let svg = format!(
            "<svg xmlns=\"http://www.w3.org/2000/svg\" width=\"{w}\" height=\"{h}\" \
             viewBox=\"-7 -4 {a} {b}\">\n"
        );
        let title = format!(
            "<text class=\"h\" y=\"-2.6\">function {function}: struck at the place on the left, \
             to the place above</text>\n"
        );
        svg + LOOKS + &title
    }

    /// 4 to 6: the grid, the alarms, the lines over them
    fn grid(&self) -> String {
        let (m, x) = (self.m(), self.m() + 1);
        let stood = pieces(m, |place| self.cells.stood(place));
        let alarms: String =
            stood.iter().map(|Piece { y, n }| format!("M0 {y}h{x}v{n}H0z")).collect();
        let rect = |class| format!("<rect class=\"{class}\" width=\"{x}\" height=\"{m}\"/>\n");
        rect("n") + &format!("<path class=\"a\" d=\"{alarms}\"/>\n") + &rect("g")
    }

    /// 7, for one place that is struck to
    fn column(&self, c: usize) -> String {
        let (first, rest) = self.unfinished(c);
        let mut text = cells("u", c, &first);
        text += &cells("x", c, rest.as_slice());
        text += &cells("s", c, &self.ended(c, End::Same));
        text += &cells("o", c, &self.ended(c, End::Other));
        text += &self.kind(c);
        text += &self.crossed(c);
        if c % 5 == 0 {
            text += &format!("<text class=\"t\" x=\"{c}.5\" y=\"-.4\">{c}</text>\n");
        }
        text
    }

    /// Where the strikes to a place ended so.
    fn ended(&self, c: usize, end: End) -> Vec<Piece> {
        pieces(self.m(), |y| self.cells.at(y, c) == Some(end))
    }

    /// The pieces that are not finished; of more than eight the first eight, and one from
    /// the ninth to the last.
    fn unfinished(&self, c: usize) -> (Vec<Piece>, Option<Piece>) {
        let mut first = self.ended(c, End::Unfinished);
        let rest = first.split_off(first.len().min(MOST_PIECES));
        let whole =
            |(ninth, last): (&Piece, &Piece)| Piece { y: ninth.y, n: last.y + last.n - ninth.y };
        let rest = rest.first().zip(rest.last()).map(whole);
        (first, rest)
    }

    /// "for C below m, with the kind of line C of the function"
    fn kind(&self, c: usize) -> String {
        let Some(line) = self.lines.get(c) else {
            return String::new();
        };
        let word = line.word();
        format!("<text class=\"l\" x=\"-.4\" y=\"{c}.8\">{c} {word}</text>\n")
    }

    /// "the do that the narrow jump to C crosses"
    fn crossed(&self, c: usize) -> String {
        let Some(Crossed { from: y, row }) = self.cells.crossed(c) else {
            return String::new();
        };
        let class = match self.cells.at(y, c).expect("the run stood there") {
            End::Other => "mo",
            End::Unfinished => "mu",
            End::Same => "ms",
            End::Alarm => unreachable!("no guard is crossed"),
        };
        let what = if y < c { "left out" } else { "done twice" };
        let x = self.m() + 1;
        format!("<text class=\"{class}\" x=\"{x}.4\" y=\"{y}.8\">row {row} {what}</text>\n")
    }

    /// 8 to 10: the letter over the last column, the legend, the counts
    fn foot(&self) -> String {
        let m = self.m();
        let mut text = format!("<text class=\"t\" x=\"{m}.5\" y=\"-1.4\">m</text>\n");
        let mut l = m + 1;
        for (class, words) in self.legend() {
            text += &format!(
                "<rect class=\"{class}\" y=\"{l}\" width=\"1\" height=\"1\"/>\
                 <text x=\"1.6\" y=\"{l}.8\">{words}</text>\n"
            );
            l += 2;
        }
        let Counts { alarms, same, other, unfinished } = self.counts;
        text += &format!(
            "<text y=\"{l}.8\">whole sweep: alarm {alarms}, same {same}, other {other}, \
             unfinished {unfinished}</text>\n"
        );
        text + "</svg>\n"
    }

    fn legend(&self) -> Vec<(&'static str, &'static str)> {
        let mut legend = vec![
            ("a", "alarm"),
            ("s", "finished with the same trace"),
            ("o", "finished with another trace"),
            ("u", "not finished"),
            ("n", "the run never stood there"),
        ];
        if (0..=self.m()).any(|c| self.unfinished(c).1.is_some()) {
            legend.push(("x", "not finished from some of these places"));
        }
        legend
    }
}

/// The cells of a class in one column; nothing where there are none.
fn cells(class: &str, c: usize, pieces: &[Piece]) -> String {
    if pieces.is_empty() {
        return String::new();
    }
    let d: String = pieces.iter().map(|Piece { y, n }| format!("M{c} {y}h1v{n}H{c}z")).collect();
    format!("<path class=\"{class}\" d=\"{d}\"/>\n")
}
