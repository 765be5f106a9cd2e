//! Inertial assignments.

use super::*;
use Act::{Inertial, Null, Transport, Wait};

const ONE: Carried = Some(3);
const OTHER: Carried = Some(2);

/// A settle of enough picks.
const ALL: Order = (SETTLE, 0, 40);

/// What is pending on a bus once all this is given.
fn pending(list: &[Act]) -> Vec<Pending> {
    let mut c = play(&acts(LOGIC, BUS, list), &[ALL]).1;
    c.drivers.remove(0).wave
}

/// What is pending once an inertial one follows transactions after 1, 2 and so on.
fn behind(values: &[Carried], value: i32, delay: i32) -> Vec<Pending> {
    pending(&[row(values), vec![Inertial(value, delay)]].concat())
}

/// So many transactions with a value, up to a time.
fn equal(many: u64, last: u64) -> Vec<Pending> {
    (last + 1 - many..=last).map(|time| (time, ONE)).collect()
}

/// The times at which signal 0 changes, and its values then.
fn changes(b: &Builder, steps: usize) -> Vec<(u64, i32)> {
    let rounds = [STEP, (READ, 0, 0), SET].repeat(steps);
    let (a, _) = play(b, &stepped(b, &[&[SET][..], &rounds].concat()));
    let mut seen = vec![(0, 2)];
    for answer in a[1..].chunks(3) {
        if seen.last().is_some_and(|last| last.1 != answer[1].3) {
            seen.push((answer[1].5, answer[1].3));
        }
    }
    seen
}

#[test]
fn short_pulses_vanish() {
    let all = [
        (INTEGER, PLAIN),
        (LOGIC, PLAIN),
        (LOGIC, BUS),
        (LOGIC, REGISTER),
    ];
    for (ty, kind) in all {
        for (width, delay) in [(1, 2), (1, 3), (2, 3), (1, 40), (39, 40), (0, 1)] {
            let b = pulse(ty, kind, width, delay);
            assert_eq!(changes(&b, 8), [(0, 2)], "{width} of {delay}");
            // The end of the pulse alone is left.
            let (_, c) = play(&b, &stepped(&b, &[SET, STEP, STEP, SET]));
            let end = (c.time + delay as u64, OTHER);
            assert_eq!(c.drivers[0].wave, [end], "{width} of {delay}");
        }
        // As long as the delay, and longer.
        for (width, delay) in [(1, 1), (3, 3), (40, 40), (2, 1), (4, 3), (90, 40)] {
            let b = pulse(ty, kind, width, delay);
            let (rise, fall) = (delay as u64, (width + delay) as u64);
            assert_eq!(changes(&b, 8), [(0, 2), (rise, 3), (fall, 2)]);
        }
    }
    // By transport none does.
    let list = [Transport(3, 3), Wait(1), Transport(2, 3)];
    let b = acts(LOGIC, PLAIN, &list);
    assert_eq!(changes(&b, 8), [(0, 2), (3, 3), (4, 2)]);
    // Nor where the pulse is given by transport after less.
    let list = [Transport(3, 1), Wait(1), Inertial(2, 3)];
    let b = acts(LOGIC, PLAIN, &list);
    assert_eq!(changes(&b, 8), [(0, 2), (1, 3), (4, 2)]);
}

#[test]
fn equal_values_stay() {
    for many in 1..=8 {
        let values = vec![ONE; many as usize - 1];
        assert_eq!(behind(&values, 3, many), equal(many as u64, many as u64));
        assert_eq!(behind(&values, 2, many), [(many as u64, OTHER)]);
    }
    // Far apart or next to one another.
    let list = [Transport(3, 1), Transport(3, 50), Inertial(3, 900)];
    assert_eq!(pending(&list), [(1, ONE), (50, ONE), (900, ONE)]);
}

#[test]
fn a_run_is_cut_at_another_value() {
    for at in 0..6 {
        let mut values = vec![ONE; 6];
        values[at] = OTHER;
        // What is equal before it goes too.
        assert_eq!(behind(&values, 3, 7), equal(6 - at as u64, 7));
        values[at] = None;
        assert_eq!(behind(&values, 3, 7), equal(6 - at as u64, 7));
    }
    let values = [ONE, OTHER, OTHER];
    assert_eq!(behind(&values, 2, 4), [(2, OTHER), (3, OTHER), (4, OTHER)]);
    assert_eq!(behind(&[OTHER, ONE, OTHER, ONE], 3, 5), equal(2, 5));
}

#[test]
fn null_equals_no_value() {
    assert_eq!(behind(&[None], 3, 2), equal(1, 2));
    assert_eq!(behind(&[None, None], 3, 3), equal(1, 3));
    assert_eq!(behind(&[ONE, None], 3, 3), equal(1, 3));
    assert_eq!(behind(&[ONE, None, ONE], 3, 4), equal(2, 4));
    assert_eq!(behind(&[None, ONE, None, ONE, ONE], 3, 6), equal(3, 6));
    // Not the code 0 either.
    assert_eq!(behind(&[None], 0, 2), [(2, Some(0))]);
}

#[test]
fn values_are_compared_by_code() {
    // 0 and L, 1 and H, X and -, U and 0.
    for (old, new) in [(2, 6), (6, 2), (3, 7), (7, 3), (1, 8), (0, 2), (4, 5)] {
        let last = (2, Some(new));
        assert_eq!(behind(&[Some(old)], new, 2), [last]);
        assert_eq!(behind(&[Some(new)], new, 2), [(1, last.1), last]);
    }
    for (old, new) in [(-7, 7), (0, 65_536), (1, 257), (-1, 2_147_483_647)] {
        let list = [Transport(new, 1), Transport(old, 2), Inertial(new, 3)];
        let (_, c) = play(&acts(INTEGER, PLAIN, &list), &[ALL]);
        assert_eq!(c.drivers[0].wave, [(3, Some(new))], "{old} and {new}");
    }
}

#[test]
fn later_ones_go_first() {
    // Those at its time or later, whatever they carry.
    assert_eq!(behind(&[ONE, ONE, ONE], 3, 2), equal(2, 2));
    assert_eq!(behind(&[ONE, OTHER, OTHER], 3, 2), equal(2, 2));
    assert_eq!(behind(&[ONE, OTHER, None], 3, 2), equal(2, 2));
    assert_eq!(behind(&[OTHER, ONE, OTHER], 3, 3), equal(2, 3));
    // Some by their time and some as unmarked.
    assert_eq!(behind(&[ONE, OTHER, ONE, OTHER], 3, 4), equal(2, 4));
    assert_eq!(behind(&[OTHER, ONE, OTHER], 3, 2), equal(1, 2));
    // After 0 nothing is before it.
    for values in [&[][..], &[ONE], &[OTHER, ONE], &[None, OTHER]] {
        assert_eq!(behind(values, 3, 0), [(0, ONE)]);
    }
    let list = [Transport(2, 0), Inertial(3, 0)];
    assert_eq!(pending(&list), [(0, ONE)]);
    // What is due now is pending as well.
    let list = [Transport(2, 0), Inertial(3, 1)];
    assert_eq!(pending(&list), equal(1, 1));
    let list = [Transport(3, 0), Inertial(3, 1)];
    assert_eq!(pending(&list), equal(2, 1));
}

#[test]
fn the_limit_is_tested_last() {
    let full = |values: &[Carried], value: i32, delay: i32| {
        let list = [row(values), vec![Inertial(value, delay)]].concat();
        let orders = [(SETTLE, 0, values.len() as u16), (PICK, 0, 0)];
        let (a, c) = play(&acts(LOGIC, BUS, &list), &orders);
        (a[1], c)
    };
    let done = (0, READY, 1, 0, 0, 0);
    // Eight others and a ninth: one is left. Some equal: they stay.
    for values in [[OTHER; 8], [None; 8]] {
        let (answer, c) = full(&values, 3, 9);
        assert_eq!((answer, &c.drivers[0].wave[..]), (done, &equal(1, 9)[..]));
    }
    for many in 1..8 {
        let values = [vec![OTHER; 8 - many], vec![ONE; many]].concat();
        let (answer, c) = full(&values, 3, 9);
        let left = equal(many as u64 + 1, 9);
        assert_eq!((answer, c.drivers[0].wave.clone()), (done, left));
    }
    // Eight equal ones and a ninth: the driver stays.
    let (answer, c) = full(&[ONE; 8], 3, 9);
    assert_eq!(answer, (0, STOPPED, 1, 3, 65_535, 0));
    assert_eq!(c.drivers[0].wave, equal(8, 8));
    assert_eq!(c.processes[0], process(8, STOPPED, (3, 65_535), None));
    // In the last one's place, before it, and an eighth.
    for (many, delay, left) in [(8, 8, 8), (8, 3, 3), (7, 8, 8), (8, 0, 1)] {
        let (answer, c) = full(&vec![ONE; many], 3, delay);
        let left = equal(left, delay as u64);
        assert_eq!((answer, c.drivers[0].wave.clone()), (done, left));
    }
}

#[test]
fn runs_of_inertial_ones() {
    let nine: Vec<Act> = (1..=9).map(|n| Inertial(3, n)).collect();
    assert_eq!(pending(&nine[..8]), equal(8, 8));
    let (_, c) = play(&acts(LOGIC, PLAIN, &nine), &[ALL]);
    assert_eq!(failed_at(&c, 0), (3, 65_535));
    assert_eq!(c.drivers[0].wave, equal(8, 8));
    // Each with another value leaves itself alone.
    let turns: Vec<Act> = (1..=9).map(|n| Inertial(2 + n % 2, n)).collect();
    assert_eq!(pending(&turns), equal(1, 9));
}

#[test]
fn transport_and_null_keep_what_is_before() {
    let list = [Inertial(3, 1), Transport(2, 2), Null(3), Transport(3, 4)];
    let wave = [(1, ONE), (2, OTHER), (3, None), (4, ONE)];
    assert_eq!(pending(&list), wave);
    let list = [&list[..], &[Inertial(3, 5)]].concat();
    assert_eq!(pending(&list), equal(2, 5));
    let list = [&list[..], &[Null(6), Transport(3, 7)]].concat();
    assert_eq!(pending(&list)[2..], [(6, None), (7, ONE)]);
}

#[test]
fn other_drivers_stay() {
    // Both processes drive the signal; the second one's are others.
    let mut b = Builder::new();
    let s = b.signal(LOGIC, 4);
    let (low, high) = (b.logic(2), b.logic(3));
    let (one, two) = (b.integer(1), b.integer(2));
    for p in 0..2 {
        b.process();
        b.driver(p, s);
        b.schedule(s, low, one);
    }
    b.inertial(s, high, two);
    b.wait(0, ABSENT, ABSENT);
    let (_, c) = play(&b, &[(PICK, 0, 0), (PICK, 1, 0), (PICK, 1, 0)]);
    assert_eq!(c.drivers[0].wave, [(1, OTHER)]);
    assert_eq!(c.drivers[1].wave, [(2, ONE)]);
    assert!(c.drivers.iter().all(|d| d.current == Some(4)));
}

#[test]
fn the_current_transaction_is_none_of_them() {
    // Its value neither marks nor is marked.
    assert_eq!(behind(&[], 2, 3), [(3, OTHER)]);
    assert_eq!(behind(&[ONE], 2, 3), [(3, OTHER)]);
    let list = [Null(0), Wait(0), Transport(2, 1), Inertial(3, 2)];
    let (_, c) = play(&acts(LOGIC, BUS, &list), &[ALL, DEL, ALL]);
    assert_eq!(c.drivers[0].current, None);
    assert_eq!(c.drivers[0].wave, equal(1, 2));
}

#[test]
fn fault_order_of_an_inertial_one() {
    // b out of range before c negative; c before a ninth.
    for (bad_value, bad_delay, failed) in [
        (true, true, (1, 18)),
        (true, false, (1, 18)),
        (false, true, (2, 65_535)),
        (false, false, (3, 65_535)),
    ] {
        let mut b = acts(INTEGER, PLAIN, &row(&[ONE; 8]));
        let (one, top) = (b.integer(1), b.integer(2_147_483_647));
        let sum = b.binary(11, top, one);
        let (three, minus) = (b.integer(3), b.integer(-1));
        b.m.statements[8] = StatementRecord {
            kind: 7,
            b: if bad_value { sum } else { three },
            c: if bad_delay { minus } else { top },
            ..Default::default()
        };
        let (_, c) = play(&b, &[(SETTLE, 0, 9)]);
        assert_eq!(failed_at(&c, 0), failed);
        assert_eq!(c.drivers[0].wave, equal(8, 8));
    }
}

// Refusals of the model.

/// The rich model with inertial assignments in both processes: statement 2 to the
/// integer signal, 8 to the logic one.
fn rich_inertial() -> Builder {
    let mut b = rich();
    b.m.statements[2].kind = 7;
    b.m.statements[8].kind = 7;
    b
}

fn all_judged(changes: &[fn(&mut Builder)], number: u32) {
    for (n, change) in changes.iter().enumerate() {
        let mut b = rich_inertial();
        change(&mut b);
        assert_eq!(judge(&b.encode()), number, "change {n} for {number}");
    }
}

#[test]
fn inertial_ones_are_accepted() {
    let b = rich_inertial();
    assert_eq!(load(&b.encode()), Ok(b.m.clone()));
    all_judged(
        &[
            |_| (),
            |b| b.m.signals[1].kind = BUS,
            |b| b.m.signals[1].kind = REGISTER,
            |b| b.m.statements[8].kind = 2,
        ],
        0,
    );
}

#[test]
fn fields_of_an_inertial_one() {
    all_judged(
        &[
            |b| b.m.statements[2].kind = 8,
            |b| b.m.statements[8].kind = 9,
            |b| b.m.statements[8].kind = 255,
            |b| b.m.statements[2].a = 2,
            |b| b.m.statements[2].b = 13,
            |b| b.m.statements[2].b = ABSENT,
            |b| b.m.statements[2].c = 13,
            |b| b.m.statements[2].c = ABSENT,
            |b| b.m.statements[2].set = 1,
            |b| b.m.statements[8].set = 1 << 31,
        ],
        5,
    );
    let mut bytes = rich_inertial().encode();
    bytes[512 * 5 + 4 + 12 * 2 + 1] = 1;
    repair_sum(&mut bytes[512 * 5..512 * 6]);
    assert_eq!(judge(&bytes), 5);
}

#[test]
fn types_and_owners_of_an_inertial_one() {
    all_judged(
        &[
            |b| b.m.statements[2].b = 1,
            |b| b.m.statements[2].b = 12,
            |b| b.m.statements[2].c = 1,
            |b| b.m.statements[2].c = 12,
            |b| b.m.statements[8].b = 0,
            |b| b.m.statements[8].a = 0,
        ],
        7,
    );
    all_judged(
        &[
            |b| {
                b.m.drivers.remove(0);
            },
            |b| b.m.drivers[1].process = 0,
            // Variables of the other process.
            |b| b.m.statements[8].c = 2,
            |b| b.m.statements[8].c = 10,
            |b| b.m.variables[0].process = 1,
        ],
        8,
    );
    // On a plain signal a null alone is 20.
    all_judged(
        &[|b| {
            b.m.statements[8].kind = 6;
            b.m.statements[8].b = 0;
        }],
        20,
    );
}
