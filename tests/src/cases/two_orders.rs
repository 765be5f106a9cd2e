//! Runs with delta steps and time steps, also where they do not fit.

use super::{
    counted_deltas, delta_turns, due_beyond_last, inverter, line, orders, stepped, stopped_at_last,
    team, time_turns, Order, Turn, DEL, DELTA, PICK, READ, SETTLE, STEP, TIM, TIME,
};
use crate::builder::Builder;
use crate::moves::ADVANCE;

const SET: Order = (SETTLE, 0, 9);

/// A list with order 2 before each order, and before each step the other one.
fn everywhere(list: &[Order]) -> Vec<Order> {
    let tried = |&order: &Order| {
        let other = match order.0 {
            DELTA => vec![TIM],
            TIME => vec![DEL],
            _ => vec![],
        };
        [other, vec![(ADVANCE, 0, 0), order]].concat()
    };
    list.iter().flat_map(tried).collect()
}

/// Each unused byte of these orders set, alone and with others.
pub fn unused_bytes(kind: u8) -> Vec<Order> {
    let bytes = [(1, 0), (255, 0), (0, 1), (0, 128), (0, 256), (0, 65_280)];
    let more = [(0, 257), (1, 1), (255, 65_535)];
    let all = bytes.into_iter().chain(more);
    all.map(|(argument, count)| (kind, argument, count))
        .collect()
}

/// All of them as sessions.
pub fn sessions(add: &mut impl FnMut(String, &Builder, Vec<u8>)) {
    let list = [SET, DEL, TIM, DEL, SET, DEL, TIM, (READ, 1, 0)];
    let steps = orders(&everywhere(&list));
    add("the wrong steps of the inverter".into(), &inverter(), steps);
    for kind in [ADVANCE, DELTA, TIME] {
        // Before any pick, where a delta step fits, where a time step does and at rest.
        let bytes = unused_bytes(kind);
        let tried = |order: &Order| [&bytes[..], &[*order]].concat();
        let orders = orders(&list.iter().flat_map(tried).collect::<Vec<_>>());
        let name = format!("unused bytes of order {kind}");
        add(name, &inverter(), orders);
    }
    // A process ready, one stopped and one that waits, with something due now, later or
    // never.
    for (name, turn) in [
        ("now", Turn::Drive(3)),
        ("later", Turn::Fail(3)),
        ("never", Turn::Wait),
    ] {
        let b = team(&[turn, Turn::Null, Turn::Fail(4)]);
        for front in [
            &[(PICK, 0, 0)][..],
            &[(PICK, 0, 0), (PICK, 2, 0)],
            &[(PICK, 0, 0), (PICK, 1, 0), (PICK, 1, 0), (PICK, 2, 0)],
            &[(SETTLE, 0, 99)],
        ] {
            let list = [front, &[DEL, TIM, TIM, DEL]].concat();
            let name = format!("steps behind {} picks, due {name}", front.len());
            add(name, &b, orders(&list));
        }
    }
    // 22 and 23 beside 16: the limit of delta steps is reached.
    for turns in [999, 1_000, 1_001] {
        for last in [[DEL, TIM, DEL, TIM], [TIM, DEL, TIM, DEL]] {
            let list = [&[SET, DEL].repeat(1_000)[..], &[SET], &last].concat();
            let name = format!("both steps, {turns} delta steps, {} first", last[0].0);
            add(name, &delta_turns(turns), orders(&list));
        }
    }
    // 14 and 15 beside 16: at the limit a process is ready, then one has stopped, and
    // something is due.
    let both = [
        (PICK, 0, 0),
        DEL,
        TIM,
        (PICK, 1, 0),
        TIM,
        DEL,
        SET,
        DEL,
        TIM,
    ];
    let list = [&[SET, DEL].repeat(1_000)[..], &both].concat();
    let name = "a process ready, and one stopped, at 1,000 delta steps";
    add(name.into(), &counted_deltas(1_000), orders(&list));
    // The same beside 18.
    let b = stopped_at_last();
    let front = stepped(&b, &[SET, STEP, STEP].repeat(500));
    let picks = [0, 1, 1, 1].map(|p| [(PICK, p, 0), DEL, TIM]).concat();
    let list = [&front[..], &picks, &[SET, DEL, TIM]].concat();
    let name = "a process ready, and one stopped, at the last time";
    add(name.into(), &b, orders(&list));
    // 23 beside 18: something is due at the last time, and something beyond.
    let b = due_beyond_last();
    let front = stepped(&b, &[SET, STEP, STEP].repeat(500));
    let list = [&front[..1_499], &[TIM, DEL, SET, DEL, TIM]].concat();
    let name = "something due at the last time and beyond";
    add(name.into(), &b, orders(&list));
    // 22 and 23 beside 18.
    for more in [-1, 0, 1] {
        let b = time_turns(2_000_000_000 + more);
        let front = stepped(&b, &[SET, STEP, STEP].repeat(502));
        for last in [[DEL, TIM, DEL, TIM], [TIM, DEL, TIM, DEL]] {
            let list = [&front[..1_490], &everywhere(&front[1_490..]), &last].concat();
            let name = format!("both steps, time limit and {more}, {} first", last[0].0);
            add(name, &b, orders(&list));
        }
    }
    // Past values by one unit, by 31 and by 32.
    for units in [1, 31, 32] {
        let list = [SET, TIM, DEL, TIM, DEL];
        let name = format!("time steps by {units}");
        add(name, &line(&[units, 2 * units]), orders(&list));
    }
}
