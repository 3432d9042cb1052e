//! The buffers lent to a sweep, after each refusal and after none; the order of the
//! refusals.

use independent::sweep::Counts;
use independent::{damage, limits, sweep, sweep_other, Swept, SweptOther};

/// 01's listing.
fn lines() -> Vec<u8> {
    damage::hardened(&limits::worked_listing())
}

/// Both calls with 1,000, 1,001, .. in the slots and 2,000, 2,001, .. in the words.
fn both(lines: &[u8], budget: u16, slots: u16, words: u16) -> [(u8, Vec<u16>, Vec<u16>); 2] {
    let mut values = [0; 16];
    values[1] = 1;
    let fill = |from: u16, count: u16| (from..from + count).collect::<Vec<u16>>();
    let (mut trace, mut counters) = (fill(1000, slots), fill(2000, words));
    let Swept { number, counts } = sweep(lines, &values, budget, &mut trace, &mut counters);
    assert_eq!(counts == Counts::default(), number != 0);
    let whole = (number, trace, counters);
    let (mut trace, mut counters) = (fill(1000, slots), fill(2000, words));
    let SweptOther { number, found } =
        sweep_other(lines, &values, budget, &mut trace, &mut counters);
    // of the listing it is always so
    assert_eq!(found, number == 0);
    [whole, (number, trace, counters)]
}

/// The number of both calls, which change nothing.
fn refused(lines: &[u8], budget: u16, slots: u16, words: u16) -> u8 {
    let [whole, other] = both(lines, budget, slots, words);
    assert_eq!(whole, other);
    let (number, trace, counters) = whole;
    assert_ne!(number, 0);
    assert!(trace.into_iter().eq(1000..1000 + slots));
    assert!(counters.into_iter().eq(2000..2000 + words));
    number
}

#[test]
fn refusals_in_their_order() {
    let right = lines();
    for damaged in [&right[20..], &right[..139], &[]] {
        for (budget, slots, words) in [(20, 20, 1024), (20, 19, 1024), (20, 20, 1023), (11, 0, 0)] {
            assert_eq!(refused(damaged, budget, slots, words), 10);
        }
    }
    for (budget, slots, words) in
        [(20, 19, 1024), (20, 20, 1023), (12, 3, 1024), (11, 10, 1024), (0, 0, 1023), (0, 9, 0)]
    {
        assert_eq!(refused(&right, budget, slots, words), 9);
    }
    for (budget, slots, words) in [(11, 11, 1024), (11, 30, 1100), (1, 1, 1025), (0, 0, 1024)] {
        assert_eq!(refused(&right, budget, slots, words), 13);
    }
}

/// The unstruck run's trace at the front, though the last run struck was another.
#[test]
fn accepted() {
    for (budget, slots, words) in
        [(20, 20, 1024), (20, 25, 1025), (12, 12, 1100), (12, 90, 1024), (900, 900, 1030)]
    {
        for (number, trace, counters) in both(&lines(), budget, slots, words) {
            assert_eq!(number, 0);
            assert_eq!(trace[..3], [1, 3, 3]);
            assert!(trace[3..].iter().copied().eq(1003..1000 + slots));
            assert_eq!(counters[..1024], [0; 1024]);
            assert!(counters[1024..].iter().copied().eq(3024..2000 + words));
        }
    }
}

/// What the buffers hold before does not matter.
#[test]
fn any_contents() {
    let values = [0, 1, 0, 0, 0, 0, 0, 0, 0, 0, 0, 0, 0, 0, 0, 0];
    for fill in [0, 1, 3, 65_535] {
        let (mut slots, mut words) = (vec![fill; 20], vec![fill; 1024]);
        let swept = sweep(&lines(), &values, 20, &mut slots, &mut words);
        assert_eq!(swept.counts, Counts { alarms: 74, same: 15, other: 2, unfinished: 5 });
    }
}
