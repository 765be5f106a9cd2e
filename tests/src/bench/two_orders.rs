//! Delta steps and time steps as two orders.

use super::*;
use crate::moves::ADVANCE;
use Turn::{Drive, Fail, Null, Wait};

/// The refusals of a list; those of them that are refused change nothing.
fn refusals(b: &Builder, list: &[Order]) -> Vec<u8> {
    let (a, _) = play(b, list);
    for (n, answer) in a.iter().enumerate().filter(|(_, a)| a.0 != 0) {
        let (before, after) = (play(b, &list[..n]).1, play(b, &list[..n + 1]).1);
        assert_eq!(before, after, "order {n}");
        let rest = (answer.1, answer.2, answer.3, answer.4, answer.5);
        assert_eq!(rest, (0, 0, 0, 0, before.time), "order {n}");
    }
    a.iter().map(|answer| answer.0).collect()
}

#[test]
fn the_inverter_stopped_between() {
    let list = [SET, DEL, TIM, DEL, SET, DEL, TIM];
    let (a, _) = play(&inverter(), &list);
    let bytes: Vec<(u8, u8, u64)> = a.iter().map(|a| (a.0, a.1, a.5)).collect();
    assert_eq!(
        bytes,
        [
            (0, 0, 0),
            (0, 1, 0),
            (0, 2, 1),
            (0, 1, 1),
            (0, 0, 1),
            (0, 1, 1),
            (17, 0, 1)
        ]
    );
    // A delta step has the new values at once, a time step changes none.
    let values = |n: usize| play(&inverter(), &list[..n]).1.current();
    assert_eq!([1, 2, 3, 4].map(values), [[2, 2], [2, 3], [2, 3], [3, 3]]);
}

#[test]
fn the_wrong_way() {
    let list = [
        TIM, DEL, SET, TIM, DEL, DEL, TIM, TIM, DEL, DEL, TIM, SET, TIM, DEL, DEL, TIM,
    ];
    assert_eq!(
        refusals(&inverter(), &list),
        [14, 14, 0, 23, 0, 22, 0, 23, 0, 14, 14, 0, 23, 0, 22, 17]
    );
}

#[test]
fn ready_and_stopped_before_what_is_due() {
    // Something is due now, later, never.
    for turn in [Drive(3), Fail(3), Wait] {
        let b = team(&[turn, Null, Fail(1)]);
        let front = [(PICK, 0, 0), (PICK, 2, 0)];
        let list = [&front[..], &[DEL, TIM]].concat();
        assert_eq!(refusals(&b, &list), [0, 0, 14, 14]);
        assert_eq!(refusals(&b, &[(SETTLE, 0, 99), DEL, TIM]), [0, 15, 15]);
    }
    let later = team(&[Drive(3), Wait]);
    assert_eq!(refusals(&later, &[(PICK, 1, 0), DEL, TIM]), [0, 14, 14]);
}

#[test]
fn unused_bytes_first_of_all() {
    // At first, where each step fits, and at rest.
    let list = [SET, DEL, TIM, DEL, SET, DEL];
    for n in 0..=list.len() {
        for kind in [DELTA, TIME] {
            let bytes = unused_bytes(kind);
            let refused = refusals(&inverter(), &[&list[..n], &bytes].concat());
            assert_eq!(refused[n..], [11; 9], "order {kind} behind {n}");
        }
        let old = [&[(ADVANCE, 0, 0)][..], &unused_bytes(ADVANCE)].concat();
        let refused = refusals(&inverter(), &[&list[..n], &old].concat());
        assert_eq!(refused[n..], [11; 10], "order 2 behind {n}");
    }
}

#[test]
fn nothing_due_before_the_delta_limit() {
    let front = [SET, DEL].repeat(1_000);
    let last = |turns: i32, list: &[Order]| {
        let (a, c) = play(&delta_turns(turns), &[&front[..], &[SET], list].concat());
        let refusals: Vec<u8> = a[2_001..].iter().map(|a| a.0).collect();
        (refusals, c.time, c.delta)
    };
    assert_eq!(last(1_000, &[DEL, TIM]), (vec![22, 0], 1, 0));
    assert_eq!(last(1_001, &[DEL, TIM]), (vec![16, 23], 0, 1_000));
    assert_eq!(last(1_001, &[TIM, DEL]), (vec![23, 16], 0, 1_000));
}

#[test]
fn processes_before_both_limits() {
    // At 1,000 delta steps something is due: a process is ready, then one has stopped.
    let front = [SET, DEL].repeat(1_000);
    let list = [(PICK, 0, 0), DEL, TIM, SET, DEL, TIM];
    let all = [&front[..], &list].concat();
    let (a, c) = play(&counted_deltas(1_000), &all);
    assert_eq!((c.delta, c.fitting()), (1_000, Step::Delta));
    let refusals: Vec<u8> = a[2_000..].iter().map(|a| a.0).collect();
    assert_eq!(refusals, [0, 14, 14, 0, 15, 15]);
    // At the last time the next thing is due beyond it.
    let b = stopped_at_last();
    let front = stepped(&b, &[SET, STEP, STEP].repeat(500));
    let (a, c) = play(&b, &[&front[..], &list].concat());
    assert_eq!(c.time, 1_000_000_000_000);
    assert_eq!(c.processes[0].deadline, Some(1_000_000_000_001));
    let refusals: Vec<u8> = a[1_500..].iter().map(|a| a.0).collect();
    assert_eq!(refusals, [0, 14, 14, 0, 15, 15]);
}

#[test]
fn something_due_before_the_time_limit() {
    let b = time_turns(2_000_000_000);
    let front = stepped(&b, &[SET, STEP, STEP].repeat(501));
    let number = |list: &[Order]| {
        let (a, c) = play(&b, &[&front[..1_499], list].concat());
        let refusals: Vec<u8> = a[1_499..].iter().map(|a| a.0).collect();
        (refusals, c.time)
    };
    let limit = 1_000_000_000_000;
    // The last time is reached; its deadline is due, and the next one will be beyond.
    assert_eq!(number(&[TIM, DEL]), (vec![23, 0], limit));
    assert_eq!(number(&[DEL, SET, DEL, TIM]), (vec![0, 0, 22, 18], limit));
    // Another one is due beyond it already.
    let b = due_beyond_last();
    let front = stepped(&b, &[SET, STEP, STEP].repeat(500));
    let (a, c) = play(&b, &[&front[..1_499], &[TIM, DEL, SET, TIM]].concat());
    assert_eq!(c.processes[1].deadline, Some(limit + 1));
    let refusals: Vec<u8> = a[1_499..].iter().map(|a| a.0).collect();
    assert_eq!(refusals, [23, 0, 0, 18]);
}
