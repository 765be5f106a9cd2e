//! A delay of 0: the earlier value, and what statements and conditions read.

use super::*;

/// The end configurations of the first so many orders, for each number.
fn followed(b: &Builder, list: &[Order]) -> Vec<Config> {
    let ends = (0..=list.len()).map(|n| play(b, &list[..n]).1);
    ends.collect()
}

/// Rounds of a step and a settle, after a settle.
fn turns(b: &Builder, n: usize) -> Vec<Order> {
    stepped(b, &[&[SET][..], &[STEP, SET].repeat(n)].concat())
}

#[test]
fn the_first_value() {
    // The resolution of the drivers, not the start: two - are X.
    for (drivers, first) in [(0, 8), (1, 8), (2, 1), (3, 1)] {
        let b = first_reads(drivers);
        for list in [&[][..], &[(PICK, 1, 0)], &[SET], &[SET, STEP]] {
            let (_, c) = play(&b, &stepped(&b, list));
            assert_eq!(c.earlier, [first], "{drivers} drivers");
        }
        let (_, c) = play(&b, &[SET]);
        assert_eq!(c.variables, [first; 3], "{drivers} drivers");
    }
}

#[test]
fn a_statement_reads_it() {
    let b = sampled(&[(6, 0), (7, 0), (7, 2), (8, 0)], 0);
    // After each step and settle: time and delta steps, the earlier value and the
    // current one, and both as the process last read them.
    let seen: Vec<(u64, u32, [i32; 2], [i32; 2])> = followed(&b, &turns(&b, 9))
        .iter()
        .skip(1)
        .step_by(2)
        .map(|c| {
            let read = [c.variables[0], c.variables[1]];
            (c.time, c.delta, [c.earlier[0], c.signals[0][0]], read)
        })
        .collect();
    assert_eq!(
        seen,
        [
            (0, 0, [5, 5], [5, 5]),
            (0, 1, [5, 6], [5, 6]),
            (0, 2, [6, 7], [6, 7]),
            // No change: nobody is woken, and the earlier value is the current one.
            (0, 3, [7, 7], [6, 7]),
            (1, 0, [7, 7], [6, 7]),
            (1, 1, [7, 7], [7, 7]),
            (2, 0, [7, 7], [7, 7]),
            (2, 1, [7, 7], [7, 7]),
            (2, 2, [7, 8], [7, 8]),
            // The time step leaves it.
            (3, 0, [7, 8], [7, 8]),
        ]
    );
    // The next delta step has only a deadline.
    let (_, c) = play(&b, &turns(&b, 10));
    assert_eq!((c.time, c.delta), (3, 1));
    assert_eq!((c.earlier[0], &c.variables[..]), (8, &[8, 8][..]));
}

#[test]
fn a_delta_step_sets_it_for_every_signal() {
    // Signal 0 changes at 1, is given its own value at 2 and is quiet at 3; 1 changes at
    // 3; 2 has no driver.
    let mut b = Builder::new();
    let [s, t, _] = [4, 5, 6].map(|start| b.signal(INTEGER, start));
    let [one, two, three] = [1, 2, 3].map(|k| b.integer(k));
    b.process();
    b.schedule(s, one, one);
    b.schedule(s, one, two);
    b.schedule(t, three, three);
    b.wait(0, ABSENT, ABSENT);
    b.driver(0, s);
    b.driver(0, t);
    let (first, changed) = ([4, 5, 6], [1, 5, 6]);
    let list = [SET, TIM, DEL, TIM, DEL, TIM, DEL, TIM];
    let earlier = |n: usize| play(&b, &list[..n + 1]).1.earlier;
    let steps: Vec<Vec<i32>> = (0..7).map(earlier).collect();
    assert_eq!(
        steps,
        [first, first, first, first, changed, changed, changed]
    );
    // Refused: nothing is ever due.
    assert_eq!(earlier(7), changed);
}

#[test]
fn other_orders_leave_it() {
    let b = sampled(&[(6, 3)], 0);
    let others = [
        (PICK, 1, 0),
        (PICK, 1, 0),
        DEL,
        (PICK, 0, 0),
        (READ, 0, 0),
        (PICK, 9, 0),
        (READ, 9, 0),
        (9, 0, 0),
        (SETTLE, 0, 1),
        SET,
        TIM,
        (READ, 0, 0),
    ];
    let list = [&[SET, DEL][..], &others].concat();
    let (a, _) = play(&b, &list);
    assert_eq!(a.last(), Some(&(0, 0, 0, 6, 0, 1)));
    for c in &followed(&b, &list)[2..] {
        assert_eq!((c.earlier[0], c.signals[0][0]), (5, 6));
    }
}

#[test]
fn a_condition_reads_the_value_before_the_step_under_way() {
    // 0, then 1, and 2 when it is asked: in the next delta step, or after a time step.
    for time in [0, 3] {
        for k in 0..3 {
            let b = asked_equal(time, k);
            let list = turns(&b, if time == 0 { 2 } else { 3 });
            let asked = &list[..list.len() - 1];
            let (a, c) = play(&b, asked);
            assert_eq!(a.last(), Some(&(0, 1, 0, 0, 0, time as u64)));
            assert_eq!((c.earlier[0], c.signals[0][0]), (1, 2));
            let standing = if k == 1 { READY } else { WAITING };
            assert_eq!(c.processes[1].standing, standing, "{k} after {time}");
            let (_, c) = play(&asked_quotient(time, k), asked);
            let failed = if k == 1 { (4, 7) } else { NONE };
            assert_eq!(failed_at(&c, 1), failed, "{k} after {time}");
        }
    }
}

#[test]
fn rising_edges_are_counted() {
    // '1' from '0' counts, in delta steps and at later times; '1' from X or H does not,
    // nor does a '1' that is none anew.
    for (list, edges) in PULSES.iter().zip([0, 2, 2, 3, 0]) {
        let b = rising_edges(list);
        let (_, c) = play(&b, &turns(&b, 20));
        assert_eq!(c.variables, [edges], "{list:?}");
    }
    let (_, c) = play(&rising_edges(&[(3, 0), (2, 0)]), &[SET, DEL, SET]);
    assert_eq!((c.signals[0][0], c.earlier[0], c.variables[0]), (3, 2, 1));
}

#[test]
fn only_a_delay_of_0_reads_it() {
    for (k, value) in [(0, 5), (1, 7), (2, 7), (31, 7)] {
        let b = sampled(&[(6, 1)], k);
        let mut c = play(&b, &[SET, DEL]).1;
        assert_eq!((c.earlier[0], c.signals[0][0]), (5, 6));
        // The past apart from both.
        c.signals[0][1..].fill(7);
        let read = c.evaluate(&b.m, b.m.statements[3].b);
        assert_eq!(read, Ok(Value::Integer(value)), "delayed by {k}");
    }
}
