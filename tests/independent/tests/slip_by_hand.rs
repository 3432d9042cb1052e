//! Small jumps worked out by hand from the documents (02, No. 6): 01's listing, with its case
//! (D); a loop with a break and a continue, calls, a recursion, a switch, a do that overflows.

mod pair;

use independent::by_name::{add, call, equal, functions, of, set, values, ELSE, END};
use independent::hardened_run::Jump;
use independent::make::case_row;
use independent::program::Program;
use independent::row::{self, Row};
use independent::slip::How::{self, LeftOut, Twice};
use independent::slip::{self, Slip};
use independent::small_jump::{befores, Sort};
use independent::{damage, goes_on, limits, run_hardened};
use pair::Pair;

/// A jump before step k to a place, with a budget; what it is: the source's steps before the
/// one that slips, and how it does; none where the places are equal.
type Struck = (u16, u16, u16, Option<(u16, How)>);

/// Outcome, steps of the struck run, steps of the source's; the trace; the variables that
/// are not 0; each open function and the row that it goes on at.
type Worked<'a> = ([u16; 3], &'a [u16], &'a [(usize, u16)], &'a [(usize, usize)]);

/// The struck run by the public call, and the source's run with the slip, are as worked out;
/// and the jump is told to be that slip.
fn works(program: &Program, struck: Struck, worked: Worked) {
    let (k, place, budget, slip) = struck;
    let ([outcome, steps, matching], trace, after, _) = worked;
    let (mut slots, mut words) = (vec![9999; usize::from(budget)], vec![7; 1024]);
    let lines = damage::hardened(&program.rows);
    let Program { variables, .. } = program;
    let ran = run_hardened(&lines, variables, budget, k, place, &mut slots, &mut words);
    assert_eq!((ran.number, u16::from(ran.outcome), ran.steps), (0, outcome, steps), "{struck:?}");
    assert_eq!((&slots[..usize::from(ran.traced)], ran.variables), (trace, values(after)));
    let pair = Pair::new(&program.rows, program.variables);
    stands(&pair, Jump { k, place }, budget, worked);
    let slip = slip.map(|(step, how)| Slip { step, how });
    let before = befores(&pair.lines, pair.variables, k + 1)[usize::from(k)];
    let sort = before.sort(&pair.lines, usize::from(place));
    assert_eq!(sort, slip.map_or(Sort::Equal, Sort::Slip), "{struck:?}");
    let (ended, run) = slip::run(&pair.table, pair.variables, matching, slip);
    assert_eq!((u16::from(ended.number()), run.steps), (outcome, matching), "{struck:?}");
    assert_eq!((&run.trace[..], run.variables), (trace, values(after)), "{struck:?}");
    assert_eq!(run.open.len(), run.at.len());
    // not struck with a budget of k: where it goes on is told of the run without the slip
    let slip = slip.filter(|_| budget > k);
    let (_, run) = slip::run(&pair.table, pair.variables, matching, slip);
    let open: Vec<(usize, usize)> = run.open.into_iter().zip(run.at).collect();
    assert_eq!(open, worked.3, "{struck:?}");
}

/// The matching step of the struck run, and its open functions.
fn stands(pair: &Pair, jump: Jump, budget: u16, (numbers, _, _, open): Worked) {
    let (_, run) = pair.struck(budget, Some(jump));
    assert_eq!(run.matching(), numbers[2], "{jump:?}");
    let functions = run.frames.iter().map(|frame| frame.function);
    let rows = goes_on::rows(&pair.rows_of_lines, &run);
    assert_eq!(functions.zip(rows).collect::<Vec<_>>(), open, "{jump:?}");
}

/// Rows: 1 do v0 = 2, 2 loop while v0 is not 0, 3 do v0 = v0 - v1, 4 end, 5 end. Places: 0 do
/// and 1 tick of row 1, 2 test, 3 do and 4 tick of row 3, 5 leave, 6 ret. Unstruck: do tick,
/// test do tick leave, test do tick leave, test, ret; the source's steps do, test do end,
/// test do end, test, end.
fn listing() -> Program {
    of(limits::worked_listing(), &[(1, 1)])
}

/// (D), tick, test, ret: the source's test and end. Row 1 done twice gives v0 = 2 twice, and
/// both runs take one step more than their 12 and 9.
#[test]
fn the_first_do_of_the_listing() {
    let end: Worked = ([1, 3, 2], &[], &[(1, 1)], &[(0, 5)]);
    works(&listing(), (0, 1, 20, Some((0, LeftOut))), end);
    let end: Worked = ([1, 13, 10], &[1, 1, 3, 3], &[(1, 1)], &[(0, 5)]);
    works(&listing(), (1, 0, 20, Some((0, Twice))), end);
}

/// Row 3 left out of either round: a third round makes up for it. That is do tick, test tick
/// leave, two rounds of four steps, test, ret, 15 with 4 ticks; or the short round is the
/// second. Row 3 done twice in the first round: do tick, test do do tick leave, test, ret, 9
/// with 2 ticks. In the second v0 is 0 already, and the step struck, the ninth, overflows:
/// of the source's do, test do end, test do do the seventh.
#[test]
fn the_loops_do_of_the_listing() {
    let longer: Worked = ([1, 15, 11], &[1, 3, 3], &[(1, 1)], &[(0, 5)]);
    works(&listing(), (3, 4, 20, Some((2, LeftOut))), longer);
    works(&listing(), (7, 4, 20, Some((5, LeftOut))), longer);
    let shorter: Worked = ([1, 9, 7], &[1, 3, 3], &[(1, 1)], &[(0, 5)]);
    works(&listing(), (4, 3, 20, Some((2, Twice))), shorter);
    let overflow: Worked = ([5, 9, 7], &[1, 3, 3], &[(1, 1)], &[(0, 3)]);
    works(&listing(), (8, 3, 20, Some((5, Twice))), overflow);
}

/// (A) and (B), struck at places where the run stands anyway.
#[test]
fn the_listing_at_equal_places() {
    let same: Worked = ([1, 12, 9], &[1, 3, 3], &[(1, 1)], &[(0, 5)]);
    for (k, place) in [(0, 0), (1, 1), (3, 3), (4, 4), (6, 2), (11, 6)] {
        works(&listing(), (k, place, 20, None), same);
    }
}

/// With a budget of k nothing is struck; with one more the do is left out, or done twice, and
/// the tick is still to come of the second.
#[test]
fn the_listing_cut_off() {
    // nothing; the tick; and the test, which is false
    let (first, v1) = (Some((0, LeftOut)), &[(1, 1)][..]);
    works(&listing(), (0, 1, 0, first), ([0, 0, 0], &[], v1, &[(0, 1)]));
    works(&listing(), (0, 1, 1, first), ([0, 1, 0], &[], v1, &[(0, 2)]));
    works(&listing(), (0, 1, 2, first), ([0, 2, 1], &[], v1, &[(0, 5)]));
    // the do; the do again; the tick; and all but the ret
    let (first, after) = (Some((0, Twice)), &[(0, 2), (1, 1)][..]);
    works(&listing(), (1, 0, 1, first), ([0, 1, 1], &[1], after, &[(0, 2)]));
    works(&listing(), (1, 0, 2, first), ([0, 2, 2], &[1, 1], after, &[(0, 2)]));
    works(&listing(), (1, 0, 3, first), ([0, 3, 2], &[1, 1], after, &[(0, 2)]));
    works(&listing(), (1, 0, 12, first), ([0, 12, 9], &[1, 1, 3, 3], v1, &[(0, 5)]));
    // do tick test, tick; do tick test do, do
    works(&listing(), (3, 4, 4, Some((2, LeftOut))), ([0, 4, 2], &[1], after, &[(0, 4)]));
    works(&listing(), (4, 3, 5, Some((2, Twice))), ([0, 5, 4], &[1, 3, 3], v1, &[(0, 4)]));
    // v0 is 0, and the do that overflows is not done yet; then it is the last budgeted step
    let second = Some((5, Twice));
    works(&listing(), (8, 3, 8, second), ([0, 8, 6], &[1, 3, 3], v1, &[(0, 4)]));
    works(&listing(), (8, 3, 9, second), ([5, 9, 7], &[1, 3, 3], v1, &[(0, 3)]));
}

/// Rows: 1 loop, 2 do v0 + 1, 3 if v0 = 4, 4 break, 5 do, 6 end, 7 if v0 = 2, 8 continue, 9
/// end, 10 do v1 + v0, 11 end, 12 end. Places: 0 test, 1 do and 2 tick of row 2, 3 test, 4
/// out, 5 do, 6 tick, 7 leave, 8 test, 9 out, 10 leave, 11 do, 12 tick, 13 leave, 14 ret.
///
/// A round with v0 = 1 or 3 is loop do if if do end, 6 steps and 8 hardened; with 2 it is
/// loop do if if continue, 5 and 6; with 4 it is loop do if break, 4 and 5; then the end.
fn exits() -> Program {
    let [exit, again] = [row::BREAK, row::CONTINUE].map(Row::plain);
    let mut rows = vec![equal(row::LOOP, 9, 0), add(0, 15), equal(row::IF, 0, 4), exit, set(5, 5)];
    rows.extend([END, equal(row::IF, 0, 2), again, END, add(1, 0), END]);
    of(functions(&[&rows]), &[(15, 1)])
}

/// Row 2 left out, v0 is what it was: the round of 1 or 3 once more, without its row 2, 5
/// steps and 7 hardened. Done twice, v0 passes over 1, and the round is that of 2 with a step
/// more; or over 3, and it is that of 4.
#[test]
fn a_break_and_a_continue() {
    let end = [(0, 12)];
    // rounds of 1, 1 again, 2, 3, 4: 6 + 5 + 5 + 6 + 4 + 1, and 8 + 7 + 6 + 8 + 5 + 1
    let (trace, after) = ([2, 10, 10, 2, 2, 10, 2], [(0, 4), (1, 1 + 1 + 3), (15, 1)]);
    works(&exits(), (9, 2, 99, Some((7, LeftOut))), ([1, 35, 27], &trace, &after, &end));
    // rounds of 1, 2, 3, 3 again, 4
    let (trace, after) = ([2, 10, 2, 2, 10, 10, 2], [(0, 4), (1, 1 + 3 + 3), (15, 1)]);
    works(&exits(), (23, 2, 99, Some((18, LeftOut))), ([1, 35, 27], &trace, &after, &end));
    // loop do do if if continue, then rounds of 3 and 4: 6 + 6 + 4 + 1, and 7 + 8 + 5 + 1
    let (trace, after) = ([2, 2, 2, 10, 2], [(0, 4), (1, 3), (15, 1)]);
    works(&exits(), (2, 1, 99, Some((1, Twice))), ([1, 21, 17], &trace, &after, &end));
    // rounds of 1 and 2, then loop do do if break: 6 + 5 + 5 + 1, and 8 + 6 + 6 + 1
    let (trace, after) = ([2, 10, 2, 2, 2], [(0, 4), (1, 1), (15, 1)]);
    works(&exits(), (16, 1, 99, Some((12, Twice))), ([1, 21, 17], &trace, &after, &end));
}

/// Rows: 1 call, 2 if v0 = 1, 3 call, 4 else, 5 do v4 = 44, 6 end, 7 end; of function 1: 9 do
/// v0 + 1, 10 end. Its places: 0 do, 1 tick, 2 ret. Unstruck: call, do tick ret, back, test,
/// call, do tick ret, back, leave, ret: 13; the source's call do end if call do end else end.
fn asks() -> Program {
    let caller = [call(1), equal(row::IF, 0, 1), call(1), ELSE, set(4, 44), END];
    of(functions(&[&caller, &[add(0, 15)]]), &[(15, 1)])
}

#[test]
fn a_called_function() {
    let end = [(0, 7)];
    // v0 is 0: call, tick ret, back, test, do tick leave, ret
    let worked: Worked = ([1, 9, 6], &[5], &[(4, 44), (15, 1)], &end);
    works(&asks(), (1, 1, 99, Some((1, LeftOut))), worked);
    // v0 is 2: call, do do tick ret, back, test, do tick leave, ret
    let worked: Worked = ([1, 11, 8], &[9, 9, 5], &[(0, 2), (4, 44), (15, 1)], &end);
    works(&asks(), (2, 0, 99, Some((1, Twice))), worked);
    // in the second call: one step less, of which both runs lack the do; and one more
    let worked: Worked = ([1, 12, 8], &[9], &[(0, 1), (15, 1)], &end);
    works(&asks(), (7, 1, 99, Some((5, LeftOut))), worked);
    let worked: Worked = ([1, 14, 10], &[9, 9, 9], &[(0, 3), (15, 1)], &end);
    works(&asks(), (8, 0, 99, Some((5, Twice))), worked);
}

/// The caller goes on at the row after its call, 2 or 4.
#[test]
fn a_called_function_cut_off() {
    let one = &[(15, 1)][..];
    // call, tick; then ret
    let first = Some((1, LeftOut));
    works(&asks(), (1, 1, 2, first), ([0, 2, 1], &[], one, &[(0, 2), (1, 10)]));
    works(&asks(), (1, 1, 3, first), ([0, 3, 2], &[], one, &[(0, 2)]));
    // call, do, do
    let worked: Worked = ([0, 3, 3], &[9, 9], &[(0, 2), (15, 1)], &[(0, 2), (1, 10)]);
    works(&asks(), (2, 0, 3, Some((1, Twice))), worked);
    // call, do tick ret, back, test, call, tick
    let worked: Worked = ([0, 8, 5], &[9], &[(0, 1), (15, 1)], &[(0, 4), (1, 10)]);
    works(&asks(), (7, 1, 8, Some((5, LeftOut))), worked);
}

/// Rows: 1 if v0 is not 0, 2 do v0 = v0 - v1, 3 call of itself, 4 end, 5 end. Places: 0 test,
/// 1 do, 2 tick, 3 call, 4 back, 5 leave, 6 ret.
#[test]
fn a_recursion() {
    // 15 calls are as many as there may be. Left out in the first: if call, then 15 times if
    // do call, the last of which is one too many; test tick call, 15 times test do tick call
    let program = of(limits::recursion(), &[(0, 15), (1, 1)]);
    let open = [&[(0, 4); 15][..], &[(0, 3)]].concat();
    let worked: Worked = ([3, 3 + 15 * 4, 2 + 15 * 3], &[2; 15], &[(1, 1)], &open);
    works(&program, (1, 2, 500, Some((1, LeftOut))), worked);
    // 2 calls, of which one is made: if do do call, if end, end end; test do do tick call,
    // test ret, back leave ret
    let program = of(limits::recursion(), &[(0, 2), (1, 1)]);
    let worked: Worked = ([1, 10, 8], &[2, 2], &[(1, 1)], &[(0, 5)]);
    works(&program, (2, 1, 99, Some((1, Twice))), worked);
}

/// Rows of the chain: 1 do v0 + v2, 2 if v0 = 10, 3 do, 4 else, 5 if v0 = 20, 6 do, 7 else, 8
/// do, 9 end, 10 end, 11 end. Places: 0 do, 1 tick, 2 test, 3 do, 4 tick, 5 leave, 6 test, 7
/// do, 8 tick, 9 leave, 10 do, 11 tick, 12 leave, 13 leave, 14 ret.
#[test]
fn a_switch() {
    let [switch, default] = [row::SWITCH, row::DEFAULT].map(Row::plain);
    let mut rows = vec![add(0, 2), switch, case_row(10), set(1, 1), case_row(20), set(1, 2)];
    rows.extend([default, set(1, 3), END]);
    let (program, end) = (of(functions(&[&rows]), &[(2, 10)]), [(0, 11)]);
    // v0 is 0, the default: if if do end end end; tick test test do tick leave leave ret
    let worked: Worked = ([1, 8, 6], &[8], &[(1, 3), (2, 10)], &end);
    works(&program, (0, 1, 99, Some((0, LeftOut))), worked);
    // v0 is 20, the second case: do do if if do else end end, where that else goes past row
    // 9; do do tick test test do tick leave leave ret
    let worked: Worked = ([1, 10, 8], &[1, 1, 6], &[(0, 20), (1, 2), (2, 10)], &end);
    works(&program, (1, 0, 99, Some((0, Twice))), worked);
    // in the first case: do if else end; do if do do else end; two ticks each
    let worked: Worked = ([1, 6, 4], &[1], &[(0, 10), (2, 10)], &end);
    works(&program, (3, 4, 99, Some((2, LeftOut))), worked);
    let worked: Worked = ([1, 8, 6], &[1, 3, 3], &[(0, 10), (1, 1), (2, 10)], &end);
    works(&program, (4, 3, 99, Some((2, Twice))), worked);
}

/// One do, v0 + v1: do tick ret. Left out where it would overflow, the run finishes; done
/// twice it overflows the second time, or is just at the edge.
#[test]
fn a_do_at_the_edge() {
    let one = |v0| of(functions(&[&[add(0, 1)]]), &[(0, v0), (1, 1)]);
    let after = &[(0, 65_535), (1, 1)][..];
    let left_out = Some((0, LeftOut));
    works(&one(65_535), (0, 1, 9, left_out), ([1, 2, 1], &[], after, &[(0, 2)]));
    works(&one(65_535), (0, 0, 9, None), ([5, 1, 1], &[], after, &[(0, 1)]));
    let twice = Some((0, Twice));
    works(&one(65_534), (1, 0, 9, twice), ([5, 2, 2], &[1], after, &[(0, 1)]));
    works(&one(65_534), (1, 0, 2, twice), ([5, 2, 2], &[1], after, &[(0, 1)]));
    works(&one(65_534), (1, 0, 1, twice), ([0, 1, 1], &[1], after, &[(0, 2)]));
    works(&one(65_533), (1, 0, 9, twice), ([1, 4, 3], &[1, 1], after, &[(0, 2)]));
}
