//! The line in which the program that runs a table says what a small jump amounts to
//! (docs/PROGRAMS.md, "run").

use crate::hardened_run::Jump;
use crate::line::Line;
use crate::machine::Variables;
use crate::slip::How;
use crate::small_jump::{self, Sort};

/// The line of a jump that strikes with no guard between its two places; of any other none.
pub fn told(lines: &[Line], variables: Variables, budget: u16, jump: Jump) -> String {
    let Some(before) = small_jump::struck(lines, variables, budget, jump.k) else {
        return String::new();
    };
    let to = usize::from(jump.place);
    match before.sort(lines, to) {
        Sort::Beyond | Sort::Wide => String::new(),
        Sort::Equal => "jump changes nothing\n".to_string(),
        Sort::Slip(slip) => slipped(slip.how, before.row(lines, to)),
    }
}

fn slipped(how: How, row: u16) -> String {
    match how {
        How::LeftOut => format!("jump leaves out row {row}\n"),
        How::Twice => format!("jump does row {row} twice\n"),
    }
}
