//! Whether a do overflows, by comparing the two variables alone (02, No. 5).

use independent::line::Line;
use independent::machine::Variables;

/// "A do whose sum passes 65,535 or whose difference falls below 0"
pub fn overflows(line: &Line, v: &Variables) -> bool {
    let [vp, vq] = [line.p, line.q].map(|at| v[usize::from(at)]);
    match (line.kind, line.op) {
        (0x21, 2) => vq > 65_535 - vp,
        (0x21, 3) => vq > vp,
        _ => false,
    }
}
