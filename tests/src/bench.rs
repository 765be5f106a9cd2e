//! The paper's bench cases, and cases for its single sentences.

mod arithmetic;
mod delay_zero;
mod dumps;
mod failing_node;
mod inertial;
mod moves;
mod nulls;
mod own_table;
mod pick_set;
mod two_orders;

use crate::builder::Builder;
use crate::cases::*;
use crate::cycle::*;
use crate::model::*;
use crate::session::{print, session};

/// An answer as (refusal, byte 1, picks, value, node, time).
type Answer = (u8, u8, u16, i32, u16, u64);

/// A settle of a few picks.
const SET: Order = (SETTLE, 0, 9);

/// The fault and the node of a process that has not stopped.
const NONE: Failed = (0, 0);

fn process(place: u16, standing: u8, (fault, node): Failed, deadline: Option<u64>) -> Process {
    Process {
        place,
        standing,
        fault,
        node,
        deadline,
    }
}

/// The fault and the node of a process.
fn failed_at(c: &Config, process: usize) -> Failed {
    let p = &c.processes[process];
    (p.fault, p.node)
}

/// The columns of an order's answer.
fn columns(order: Order, a: &[u8]) -> Answer {
    let word = |at: usize| u16::from_le_bytes([a[at], a[at + 1]]);
    let (value, node) = if order.0 == PICK {
        assert_eq!(a[5], 0, "byte 5 of a pick's answer");
        (a[4] as i32, word(6))
    } else {
        (i32::from_le_bytes(a[4..8].try_into().unwrap()), 0)
    };
    let time = u64::from_le_bytes(a[8..16].try_into().unwrap());
    (a[0], a[1], word(2), value, node, time)
}

fn play(b: &Builder, list: &[Order]) -> (Vec<Answer>, Config) {
    let bytes = orders(list);
    let mut answers = vec![0xAA; 4 * bytes.len()];
    let (number, config) = session(&b.encode(), &bytes, &mut answers);
    assert_eq!(number, 0);
    let pairs = list.iter().zip(answers.chunks(16));
    let answers = pairs.map(|(&order, a)| columns(order, a)).collect();
    (answers, config)
}

#[test]
fn inverter_as_printed() {
    let list = inverter_orders();
    let kinds: Vec<u8> = list.chunks(4).map(|order| order[0]).collect();
    assert_eq!(kinds, [3, 6, 7, 6, 3, 6, 7, 4]);
    let text = "0 0 4 0 0 0\n0 1 0 0 0 0\n0 2 0 0 0 1\n0 1 0 0 0 1\n\
                0 0 2 0 0 1\n0 1 0 0 0 1\n17 0 0 0 0 1\n0 0 0 2 0 1\n";
    assert_eq!(print(&inverter().encode(), &list), text);
    // A refused session prints its number alone.
    assert_eq!(print(&inverter().encode()[1..], &list), "1\n");
    assert_eq!(print(&inverter().encode(), &list[1..]), "9\n");
}

#[test]
fn resolution_through_drivers() {
    for (values, result) in [
        ("01", 'X'),
        ("LH", 'W'),
        ("ZL", 'L'),
        ("W0", '0'),
        ("U1", 'U'),
        ("-", '-'),
        ("--", 'X'),
    ] {
        let b = drivers(values);
        let (a, _) = play(&b, &[SET, DEL, (READ, 0, 0)]);
        assert_eq!(a[2].3, crate::values::code(result as u8) as i32, "{values}");
    }
}

#[test]
fn settle_of_no_picks() {
    let mut b = Builder::new();
    b.process();
    b.wait(0, ABSENT, ABSENT);
    let (a, _) = play(
        &b,
        &[
            (SETTLE, 0, 0),
            (SETTLE, 0, 1),
            (SETTLE, 0, 0),
            (SETTLE, 0, 65_535),
        ],
    );
    assert_eq!(
        a,
        [
            (0, 1, 0, 0, 0, 0),
            (0, 0, 1, 0, 0, 0),
            (0, 0, 0, 0, 0, 0),
            (0, 0, 0, 0, 0, 0)
        ]
    );
}

#[test]
fn waveform_of_eight() {
    let eight: Vec<(u64, Carried)> = (1..=8).map(|n| (n, Some(n as i32))).collect();
    let (a, c) = play(&line(&[1, 2, 3, 4, 5, 6, 7, 8]), &[(SETTLE, 0, 8)]);
    assert_eq!(a, [(0, 1, 8, 0, 0, 0)]);
    assert_eq!(c.drivers[0].wave, eight);
    // A ninth later one.
    let (a, c) = play(
        &line(&[1, 2, 3, 4, 5, 6, 7, 8, 9]),
        &[(SETTLE, 0, 8), (PICK, 0, 0)],
    );
    assert_eq!(a[1], (0, 2, 1, 3, 65_535, 0));
    assert_eq!(c.drivers[0].wave, eight);
    assert_eq!(c.processes[0], process(8, 2, (3, 65_535), None));
    // A ninth at the last one's time takes its place.
    let (a, c) = play(
        &line(&[1, 2, 3, 4, 5, 6, 7, 8, 8]),
        &[(SETTLE, 0, 8), (PICK, 0, 0)],
    );
    assert_eq!(a[1], (0, 0, 1, 0, 0, 0));
    assert_eq!(c.drivers[0].wave, eight);
    // An earlier one removes all later ones.
    let (_, c) = play(&line(&[1, 2, 3, 4, 5, 6, 7, 8, 3]), &[SET]);
    assert_eq!(
        c.drivers[0].wave,
        [(1, Some(1)), (2, Some(2)), (3, Some(3))]
    );
    let (_, c) = play(&line(&[1, 2, 0]), &[SET]);
    assert_eq!(c.drivers[0].wave, [(0, Some(0))]);
}

#[test]
fn delta_limit() {
    let mut b = Builder::new();
    let zero = b.integer(0);
    b.process();
    let loop_start = b.wait(0, ABSENT, zero);
    b.go(loop_start);
    let deltas = [SET, DEL].repeat(1_000);
    let (a, c) = play(&b, &[&deltas[..], &[SET, DEL, TIM]].concat());
    assert_eq!(a[1_999], (0, 1, 0, 0, 0, 0));
    assert_eq!(a[2_001..], [(16, 0, 0, 0, 0, 0), (23, 0, 0, 0, 0, 0)]);
    assert_eq!(c.delta, 1_000);
    // With nothing due now after 1,000 delta steps there is no further one, and the time
    // step is done.
    let (a, c) = play(
        &delta_turns(1_000),
        &[&deltas[..], &[SET, DEL, TIM]].concat(),
    );
    assert_eq!(a[1_999], (0, 1, 0, 0, 0, 0));
    assert_eq!(a[2_001..], [(22, 0, 0, 0, 0, 0), (0, 2, 0, 0, 0, 1)]);
    assert_eq!((c.time, c.delta), (1, 0));
}

#[test]
fn time_limit() {
    for (extra, refused) in [(0, false), (1, true)] {
        let b = time_turns(2_000_000_000 + extra);
        let (a, c) = play(&b, &stepped(&b, &[SET, STEP, STEP].repeat(501)));
        let before = 499 * 2_000_000_000;
        let limit = 1_000_000_000_000;
        assert_eq!(a[1_496], (0, 1, 0, 0, 0, before));
        if refused {
            assert_eq!(a[1_498], (18, 0, 0, 0, 0, before));
            assert_eq!(c.time, before);
        } else {
            assert_eq!(a[1_498], (0, 2, 0, 0, 0, limit));
            assert_eq!(a[1_499], (0, 1, 0, 0, 0, limit));
            assert_eq!(a[1_501], (18, 0, 0, 0, 0, limit));
            assert_eq!(c.processes[0].deadline, Some(limit + 1));
        }
    }
}

#[test]
fn no_orders() {
    let mut b = inverter();
    b.m.signals[0].start = 8;
    b.driver(1, 1);
    b.m.signals[1].start = 8;
    b.signal(INTEGER, -7);
    let (a, c) = play(&b, &[]);
    assert!(a.is_empty());
    assert_eq!(c.time, 0);
    assert_eq!(c.delta, 0);
    // One driver of -, two drivers of -, no driver.
    assert_eq!(c.signals, [[8; 32], [1; 32], [-7; 32]]);
    assert_eq!(c.earlier, [8, 1, -7]);
    assert_eq!(
        c.drivers,
        vec![
            Driver {
                current: Some(8),
                wave: vec![]
            };
            3
        ]
    );
    let ready = |place| process(place, READY, NONE, None);
    assert_eq!(c.processes, [ready(0), ready(2)]);
}

#[test]
fn refused_sessions_write_nothing() {
    let model = inverter().encode();
    let list = orders(&[(SETTLE, 0, 10)]);
    for (model, list, room, number) in [
        (&model[..511], &list[..], 16, 1),
        (&model[..], &list[..3], 12, 9),
        (&model[..], &[DELTA, 0, 0, 0].repeat(4_097)[..], 65_552, 9),
        (&model[..], &list[..], 15, 10),
        (&model[..], &list[..], 17, 10),
        (&model[..], &list[..], 0, 10),
        (&model[..], &list[..0], 16, 10),
    ] {
        let mut answers = vec![0x5A; room];
        assert_eq!(
            session(model, list, &mut answers),
            (number, Config::default())
        );
        assert!(answers.iter().all(|&b| b == 0x5A));
    }
    let mut answers = vec![0; 65_536];
    assert_eq!(
        session(&model, &[DELTA, 0, 0, 0].repeat(4_096), &mut answers).0,
        0
    );
}

#[test]
fn order_refusals() {
    let (a, c) = play(
        &inverter(),
        &[
            (0, 0, 0),
            (8, 0, 0),
            (PICK, 0, 1),
            (PICK, 200, 256),
            (DELTA, 1, 0),
            (TIME, 0, 1),
            (SETTLE, 1, 1),
            (READ, 0, 1),
            (PICK, 2, 0),
            DEL,
            TIM,
            (READ, 2, 0),
            (READ, 255, 0),
        ],
    );
    let numbers: Vec<u8> = a.iter().map(|x| x.0).collect();
    assert_eq!(
        numbers,
        [11, 11, 11, 11, 11, 11, 11, 11, 12, 14, 14, 19, 19]
    );
    assert!(a
        .iter()
        .all(|x| (x.1, x.2, x.3, x.4, x.5) == (0, 0, 0, 0, 0)));
    assert_eq!(c, play(&inverter(), &[]).1);
    let (a, _) = play(
        &inverter(),
        &[(PICK, 0, 0), (PICK, 0, 0), (PICK, 0, 0), (PICK, 1, 0)],
    );
    assert_eq!(
        a,
        [
            (0, 0, 1, 0, 0, 0),
            (0, 1, 1, 0, 0, 0),
            (13, 0, 0, 0, 0, 0),
            (0, 0, 1, 0, 0, 0)
        ]
    );
}

#[test]
fn ready_before_stopped() {
    let mut b = Builder::new();
    let minus = b.integer(-1);
    b.process();
    b.wait(0, ABSENT, minus);
    b.process();
    b.wait(0, ABSENT, ABSENT);
    for step in [DEL, TIM] {
        let list = [(PICK, 0, 0), step, (PICK, 1, 0), step, (SETTLE, 0, 5)];
        let (a, c) = play(&b, &list);
        assert_eq!(
            a,
            [
                (0, 2, 1, 2, 65_535, 0),
                (14, 0, 0, 0, 0, 0),
                (0, 1, 1, 0, 0, 0),
                (15, 0, 0, 0, 0, 0),
                (0, 0, 0, 0, 0, 0)
            ]
        );
        assert_eq!(c.processes[0], process(0, 2, (2, 65_535), None));
    }
}

#[test]
fn fault_order_of_schedule() {
    // b out of range before c negative; c negative before a ninth.
    for (bad_value, bad_delay, full, failed) in [
        (true, true, true, (1, 10)),
        (false, true, true, (2, 65_535)),
        (false, false, true, (3, 65_535)),
        (false, false, false, NONE),
    ] {
        let mut b = line(if full {
            &[1, 2, 3, 4, 5, 6, 7, 8]
        } else {
            &[1]
        });
        b.m.statements.pop();
        b.m.processes[0].count -= 1;
        let one = b.integer(1);
        let top = b.integer(2_147_483_647);
        let over = b.binary(11, top, one);
        let minus = b.integer(-1);
        let value = if bad_value { over } else { one };
        b.schedule(0, value, if bad_delay { minus } else { top });
        let (_, c) = play(&b, &[(SETTLE, 0, if full { 9 } else { 2 })]);
        assert_eq!(failed_at(&c, 0), failed);
        let pending = if full { 8 } else { 2 };
        assert_eq!(c.drivers[0].wave.len(), pending);
    }
}

#[test]
fn settle_goes_past_a_fault() {
    let mut b = Builder::new();
    let minus = b.integer(-1);
    b.process();
    b.wait(0, ABSENT, minus);
    b.process();
    b.null();
    b.wait(0, ABSENT, ABSENT);
    let (a, c) = play(&b, &[(SETTLE, 0, 10)]);
    assert_eq!(a, [(0, 0, 3, 0, 0, 0)]);
    assert_eq!(c.processes[0].standing, STOPPED);
    assert_eq!(c.processes[1].standing, WAITING);
}

#[test]
fn boolean_skips() {
    // `and` skips b on false, `or` on true; otherwise b's fault shows, at node 2. A
    // fault in a always shows.
    for (x, operator, y, fault) in [(2_147_483_647, 11, 1, 1), (1, 17, 0, 4)] {
        for (kind, left, skips) in [
            (7, 0, true),
            (7, 1, false),
            (8, 1, true),
            (8, 0, false),
            (9, 0, false),
            (9, 1, false),
        ] {
            let mut b = Builder::new();
            let v = b.variable(BOOLEAN, 0, left);
            let (x, y) = (b.integer(x), b.integer(y));
            let over = b.binary(operator, x, y);
            let bad = b.binary(13, over, y);
            let read = b.read_variable(v);
            let forth = b.binary(kind, read, bad);
            let back = b.binary(kind, bad, read);
            b.process();
            b.assign(v, forth);
            b.assign(v, back);
            let (a, _) = play(&b, &[(PICK, 0, 0)]);
            let stops = (0, STOPPED, 1, fault, 2, 0);
            let first = if skips { (0, READY, 1, 0, 0, 0) } else { stops };
            assert_eq!(a, [first], "kind {kind} left {left}");
            b.m.statements[0].b = back;
            assert_eq!(play(&b, &[(PICK, 0, 0)]).0, [stops]);
        }
    }
}

#[test]
fn quiet_driver_still_drives() {
    let mut b = Builder::new();
    let s = b.signal(LOGIC, 2);
    let zero = b.integer(0);
    let high = b.logic(3);
    b.process();
    b.schedule(s, high, zero);
    b.wait(0, ABSENT, ABSENT);
    b.process();
    b.wait(0, ABSENT, ABSENT);
    b.driver(0, s);
    b.driver(1, s);
    let (a, c) = play(&b, &[SET, DEL, (READ, 0, 0)]);
    assert_eq!(a[2].3, 1);
    assert_eq!(c.drivers[0].current, Some(3));
    assert_eq!(c.drivers[1].current, Some(2));
}

#[test]
fn activity_without_change_wakes_nobody() {
    let mut b = Builder::new();
    let s = b.signal(LOGIC, 3);
    let zero = b.integer(0);
    let high = b.logic(3);
    b.process();
    b.schedule(s, high, zero);
    b.wait(1, ABSENT, ABSENT);
    b.driver(0, s);
    let (a, _) = play(&b, &[SET, DEL, SET, TIM]);
    assert_eq!(
        a[1..],
        [(0, 1, 0, 0, 0, 0), (0, 0, 0, 0, 0, 0), (17, 0, 0, 0, 0, 0)]
    );
}

/// Process 0 drives signal 0 to 1 after 1 and waits; process 1 waits on it
/// with a condition that faults, for `limit`.
fn faulting_condition(limit: i32) -> Builder {
    let mut b = Builder::new();
    let s = b.signal(INTEGER, 0);
    let one = b.integer(1);
    let top = b.integer(2_147_483_647);
    let over = b.binary(11, top, one);
    let bad = b.binary(13, over, one);
    let limit = b.integer(limit);
    b.process();
    b.schedule(s, one, one);
    b.wait(0, ABSENT, ABSENT);
    b.process();
    b.wait(1, bad, limit);
    b.process();
    b.wait(1, ABSENT, ABSENT);
    b.driver(0, s);
    b
}

#[test]
fn fault_in_a_waits_condition() {
    let list = [SET, TIM, DEL, DEL, SET, DEL];
    let (a, c) = play(&faulting_condition(5), &list);
    assert_eq!(
        a[1..],
        [
            (0, 2, 0, 0, 0, 1),
            (0, 1, 0, 0, 0, 1),
            (14, 0, 0, 0, 0, 1),
            (0, 0, 1, 0, 0, 1),
            (15, 0, 0, 0, 0, 1)
        ]
    );
    // Place and deadline are kept; the process after it was woken.
    assert_eq!(c.processes[1], process(2, 2, (1, 2), Some(5)));
    assert_eq!(c.processes[2].standing, WAITING);
    // At a due deadline b is not asked for.
    let (_, c) = play(&faulting_condition(1), &list[..3]);
    assert_eq!(c.processes[1], process(2, 0, NONE, None));
}

#[test]
fn wait_forms() {
    // Empty set with b and c: b is never asked, the deadline wakes.
    let mut b = faulting_condition(4);
    b.m.statements[2].set = 0;
    b.null();
    let (a, c) = play(&b, &[SET, TIM, DEL, SET, TIM, DEL]);
    assert_eq!(a[4], (0, 2, 0, 0, 0, 4));
    assert_eq!(a[5], (0, 1, 0, 0, 0, 4));
    assert_eq!(c.processes[1].standing, READY);
    // Until b, read on the new values: wakes at 2, not at 1.
    let mut b = Builder::new();
    let s = b.signal(INTEGER, 0);
    let one = b.integer(1);
    let two = b.integer(2);
    let read = b.read_signal(s);
    let is_two = b.binary(13, read, two);
    b.process();
    b.schedule(s, one, one);
    b.schedule(s, two, two);
    b.wait(0, ABSENT, ABSENT);
    b.process();
    b.wait(1, is_two, ABSENT);
    b.null();
    b.driver(0, s);
    let (_, c) = play(&b, &[SET, TIM, DEL]);
    assert_eq!(
        (c.time, c.processes[1].standing, c.processes[1].place),
        (1, WAITING, 3)
    );
    let (_, c) = play(&b, &[SET, TIM, DEL, TIM, DEL]);
    assert_eq!(
        (c.time, c.processes[1].standing, c.processes[1].place),
        (2, READY, 4)
    );
}

#[test]
fn time_step_changes_no_current_value() {
    let (_, c) = play(&line(&[3]), &[SET, TIM]);
    assert_eq!((c.time, c.signals[0][0]), (3, 0));
    assert_eq!(c.drivers[0].wave, [(3, Some(3))]);
}

#[test]
fn past_values() {
    // 0 until 2, 2 from 2, 5 from 5, 40 from 40.
    let list = [SET, TIM, DEL, TIM, DEL, TIM];
    let b = line(&[2, 5, 40]);
    let (_, c) = play(&b, &list[..5]);
    assert_eq!(c.time, 5);
    let s = &c.signals[0];
    assert_eq!(s[..7], [5, 2, 2, 2, 0, 0, 0]);
    assert_eq!(s[31], 0);
    let (_, c) = play(&b, &list);
    assert_eq!((c.time, c.signals[0]), (40, [5; 32]));
    // A value lives on for 31 units and not for 32.
    let list = [SET, DEL, TIM, DEL, TIM, DEL];
    let (_, c) = play(&line(&[0, 1, 31]), &list);
    assert_eq!((c.time, c.signals[0][0]), (31, 31));
    assert_eq!((c.signals[0][31], c.signals[0][30]), (0, 1));
    // Delta steps leave the past alone.
    let (_, c) = play(&line(&[1]), &[SET, TIM, DEL]);
    assert_eq!(c.signals[0][..3], [1, 0, 0]);
}

#[test]
fn jumps() {
    let mut b = Builder::new();
    let v = b.variable(BOOLEAN, 1, 0);
    let read = b.read_variable(v);
    let not = b.unary(6, read);
    b.process();
    b.null();
    b.process();
    b.unless(read, 3); // jumps: v is false
    b.null();
    b.assign(v, not);
    b.go(1);
    let places: Vec<u16> = (0..6)
        .map(|n| play(&b, &vec![(PICK, 1, 0); n]).1.processes[1].place)
        .collect();
    assert_eq!(places, [1, 3, 4, 1, 2, 3]);
}

// Refusals of the model.

fn judged(change: impl Fn(&mut Builder)) -> u32 {
    let mut b = rich();
    change(&mut b);
    judge(&b.encode())
}

fn all_judged(changes: &[fn(&mut Builder)], number: u32) {
    for (n, change) in changes.iter().enumerate() {
        assert_eq!(judged(change), number, "change {n} for {number}");
    }
}

/// All kinds of records; process 0 has statements 0 to 5, process 1 the rest.
fn rich() -> Builder {
    let mut b = Builder::new();
    b.signal(INTEGER, 0);
    b.signal(LOGIC, 0);
    b.variable(INTEGER, 0, 0);
    b.variable(LOGIC, 1, 8);
    b.variable(BOOLEAN, 1, 1);
    b.integer(1); // 0
    b.logic(8); // 1
    b.read_variable(0); // 2
    b.read_variable(1); // 3
    b.read_variable(2); // 4
    b.read_signal(0); // 5
    b.delayed(1, 31); // 6
    b.unary(6, 4); // 7
    b.binary(7, 1, 6); // 8
    b.unary(10, 0); // 9
    b.binary(11, 2, 5); // 10
    b.binary(13, 1, 6); // 11
    b.binary(14, 0, 5); // 12
    b.process();
    b.null();
    b.assign(0, 10);
    b.schedule(0, 2, 0);
    b.unless(12, 5);
    b.go(0);
    b.wait(3, 11, 9);
    b.process();
    b.assign(1, 3);
    b.assign(2, 7);
    b.schedule(1, 8, 0);
    b.wait(0, ABSENT, ABSENT);
    b.driver(0, 0);
    b.driver(1, 1);
    b
}

#[test]
fn rich_model_is_accepted() {
    assert_eq!(judged(|_| ()), 0);
    let b = rich();
    assert_eq!(load(&b.encode()).unwrap(), b.m);
    let plan: Plan = [
        vec![0, 1, 1],
        vec![3, 0],
        vec![2],
        vec![1, 0, 1],
        vec![5, 8],
        vec![0, 10],
        vec![0, 0],
    ];
    assert_eq!(load(&encode_with(&b.m, &plan)).unwrap(), b.m);
}

#[test]
fn lengths() {
    assert_eq!(judge(&[]), 1);
    assert_eq!(judge(&[0; 511]), 1);
    assert_eq!(judge(&[0; 513]), 1);
    assert_eq!(judge(&[0; 33_280]), 1);
    assert_eq!(judge(&[0; 32_768]), 2);
    assert_eq!(judge(&[0; 512]), 2);
    // 64 blocks, the first ones empty.
    let b = rich();
    let mut plan = full_plan(&b.m);
    let full: usize = plan.iter().map(Vec::len).sum();
    plan[0].splice(0..0, vec![0; 64 - full]);
    assert_eq!(encode_with(&b.m, &plan).len(), 32_768);
    assert_eq!(judge(&encode_with(&b.m, &plan)), 0);
    plan[0].insert(0, 0);
    assert_eq!(judge(&encode_with(&b.m, &plan)), 1);
}

#[test]
fn block_headers() {
    let bytes = rich().encode();
    let blocks = bytes.len() / 512;
    for n in 0..blocks {
        for (at, value) in [
            (0, 63),
            (1, 1),
            (2, 0),
            (2, 8),
            (3, 43),
            (3, 255),
            (4 + 12 * bytes[512 * n + 3] as usize, 1),
            (507, 1),
            (508, 1),
            (509, 128),
        ] {
            let mut changed = bytes.clone();
            changed[512 * n + at] = value;
            assert_eq!(judge(&changed), 2);
            repair_sum(&mut changed[512 * n..512 * n + 512]);
            assert_eq!(judge(&changed), 3, "block {n} byte {at}");
        }
    }
    // Falling kinds.
    let mut changed = bytes.clone();
    changed[512 + 2] = 4;
    repair_sum(&mut changed[512..1024]);
    assert_eq!(judge(&changed), 3);
}

#[test]
fn totals() {
    let count = |b: &mut Builder, kind: usize, n: usize| match kind {
        1 => b.m.signals.resize(n, b.m.signals[0]),
        2 => b.m.variables.resize(n, b.m.variables[0]),
        3 => {
            while b.m.processes.len() < n {
                b.process();
                b.null();
            }
        }
        4 => {
            b.m.signals.resize(
                32,
                SignalRecord {
                    ty: LOGIC,
                    kind: PLAIN,
                    start: 0,
                },
            );
            let more: Vec<DriverRecord> = (0..2u8)
                .flat_map(|process| (1..32).map(move |signal| DriverRecord { process, signal }))
                .collect();
            b.m.drivers = vec![DriverRecord {
                process: 0,
                signal: 0,
            }];
            b.m.drivers.extend(more);
            b.process();
            b.null();
            b.driver(2, 1);
            b.driver(2, 2);
            b.m.drivers.truncate(n);
        }
        5 => b.m.nodes.resize(n, b.m.nodes[0]),
        _ => {
            while b.m.statements.len() < n {
                b.null();
            }
        }
    };
    for (kind, most) in [(1, 32), (2, 64), (3, 16), (4, 64), (5, 400), (6, 200)] {
        assert_eq!(judged(|b| count(b, kind, most)), 0, "kind {kind}");
        assert_eq!(judged(|b| count(b, kind, most + 1)), 4, "kind {kind}");
    }
    assert_eq!(judged(|b| b.m.processes.clear()), 4);
    assert_eq!(judged(|b| b.m.statements.clear()), 4);
    // No signals, variables, drivers or nodes is accepted.
    let mut b = Builder::new();
    b.process();
    b.null();
    assert_eq!(judge(&b.encode()), 0);
}

#[test]
fn fields() {
    let five: &[fn(&mut Builder)] = &[
        |b| b.m.signals[0].ty = 2,
        |b| b.m.signals[0].start = i32::MIN,
        |b| b.m.signals[1].start = 9,
        |b| b.m.signals[1].start = -1,
        |b| b.m.variables[0].ty = 3,
        |b| b.m.variables[0].process = 2,
        |b| b.m.variables[0].start = i32::MIN,
        |b| b.m.variables[1].start = 9,
        |b| b.m.variables[2].start = 2,
        |b| b.m.processes[0].first = 1,
        |b| b.m.processes[0].count = 5,
        |b| b.m.processes[1].count = 5,
        |b| {
            b.m.processes[0].count = 0;
            b.m.processes[1].first = 0;
            b.m.processes[1].count = 10
        },
        |b| b.m.drivers[0].process = 2,
        |b| b.m.drivers[0].signal = 2,
        |b| b.m.nodes[0].kind = 0,
        |b| b.m.nodes[0].kind = 19,
        |b| b.m.nodes[0].k = i32::MIN,
        |b| b.m.nodes[0].a = 1,
        |b| b.m.nodes[0].b = 1,
        |b| b.m.nodes[1].k = 9,
        |b| b.m.nodes[2].a = 3,
        |b| b.m.nodes[2].k = 1,
        |b| b.m.nodes[5].a = 2,
        |b| b.m.nodes[5].k = 1,
        |b| b.m.nodes[6].k = 32,
        |b| b.m.nodes[6].k = -1,
        |b| b.m.nodes[6].b = 1,
        |b| b.m.nodes[7].b = 1,
        |b| b.m.nodes[8].k = 1,
        |b| b.m.nodes[9].b = 1,
        |b| b.m.statements[0].a = 1,
        |b| b.m.statements[0].kind = 8,
        |b| b.m.statements[1].a = 3,
        |b| b.m.statements[1].b = 13,
        |b| b.m.statements[1].b = ABSENT,
        |b| b.m.statements[1].c = 1,
        |b| b.m.statements[1].set = 1,
        |b| b.m.statements[2].a = 2,
        |b| b.m.statements[2].b = 13,
        |b| b.m.statements[2].c = 13,
        |b| b.m.statements[2].c = ABSENT,
        |b| b.m.statements[2].set = 1,
        |b| b.m.statements[3].a = 6,
        |b| b.m.statements[3].a = 10,
        |b| b.m.statements[3].b = 13,
        |b| b.m.statements[3].c = 1,
        |b| b.m.statements[4].a = 9,
        |b| b.m.statements[4].b = 1,
        |b| b.m.statements[5].a = 1,
        |b| b.m.statements[5].b = 13,
        |b| b.m.statements[5].c = 13,
        |b| b.m.statements[5].set = 4,
        |b| b.m.statements[5].set = 1 << 31,
    ];
    all_judged(five, 5);
}

#[test]
fn every_unnamed_byte() {
    let bytes = rich().encode();
    let named: [&[usize]; 6] = [
        &[0, 1, 4, 5, 6, 7],
        &[0, 1, 4, 5, 6, 7],
        &[0, 1, 2, 3],
        &[0, 1],
        &[0, 2, 3, 4, 5, 8, 9, 10, 11],
        &[0, 2, 3, 4, 5, 6, 7, 8, 9, 10, 11],
    ];
    for kind in 0..6 {
        for byte in (0..12).filter(|b| !named[kind].contains(b)) {
            let mut changed = bytes.clone();
            changed[512 * kind + 4 + byte] = 1;
            repair_sum(&mut changed[512 * kind..512 * kind + 512]);
            assert_eq!(judge(&changed), 5, "kind {} byte {byte}", kind + 1);
        }
    }
}

#[test]
fn operand_numbers_and_trees() {
    assert_eq!(judged(|b| b.m.nodes[7].a = 7), 6);
    assert_eq!(judged(|b| b.m.nodes[7].a = 8), 6);
    assert_eq!(judged(|b| b.m.nodes[8].b = 8), 6);
    assert_eq!(judged(|b| b.m.nodes[8].a = ABSENT), 6);
    // A tree of 2^n - 1 repeats, then up to 64 and 65, unused.
    let grow = |b: &mut Builder, over: usize| {
        let mut n = b.integer(1);
        for _ in 0..5 {
            n = b.binary(11, n, n);
        }
        for _ in 0..1 + over {
            n = b.unary(10, n);
        }
    };
    assert_eq!(judged(|b| grow(b, 0)), 0);
    assert_eq!(judged(|b| grow(b, 1)), 6);
    // No exponential time.
    assert_eq!(
        judged(|b| {
            let mut n = b.integer(1);
            for _ in 0..380 {
                n = b.binary(11, n, n);
            }
        }),
        6
    );
}

#[test]
fn types() {
    let seven: &[fn(&mut Builder)] = &[
        |b| b.m.nodes[7].a = 0,
        |b| b.m.nodes[8].a = 4,
        |b| b.m.nodes[8].b = 0,
        |b| b.m.nodes[9].a = 1,
        |b| b.m.nodes[10].b = 4,
        |b| b.m.nodes[11].a = 4,
        |b| {
            b.m.nodes[11].a = 4;
            b.m.nodes[11].b = 4
        },
        |b| b.m.nodes[11].a = 0,
        |b| b.m.nodes[12].a = 1,
        |b| {
            b.m.nodes[12].a = 1;
            b.m.nodes[12].b = 1
        },
        |b| b.m.statements[1].b = 1,
        |b| b.m.statements[2].b = 1,
        |b| b.m.statements[2].c = 1,
        |b| b.m.statements[2].c = 12,
        |b| b.m.statements[3].b = 0,
        |b| b.m.statements[3].b = 1,
        |b| b.m.statements[5].b = 1,
        |b| b.m.statements[5].c = 1,
        // An unused node.
        |b| {
            b.binary(9, 0, 0);
        },
    ];
    all_judged(seven, 7);
}

#[test]
fn ownership() {
    let eight: &[fn(&mut Builder)] = &[
        |b| b.m.drivers.reverse(),
        |b| b.driver(1, 1),
        |b| b.driver(1, 0),
        |b| {
            b.m.drivers.remove(0);
        },
        |b| b.m.drivers[1].process = 0,
        |b| b.m.variables[0].process = 1,
        |b| b.m.variables[1].process = 0,
        |b| b.m.variables[2].process = 0,
        // Read in a part that is always skipped.
        |b| {
            let truth = b.binary(13, 0, 0);
            let skip = b.binary(8, truth, 4);
            b.m.statements[3].b = skip;
        },
    ];
    all_judged(eight, 8);
    // A foreign variable in no statement's tree is no harm.
    assert_eq!(
        judged(|b| {
            b.variable(INTEGER, 0, 0);
            b.read_variable(3);
        }),
        0
    );
    // Two logic drivers of one signal are no harm.
    assert_eq!(
        judged(|b| b.m.drivers.insert(
            1,
            DriverRecord {
                process: 0,
                signal: 1
            }
        )),
        0
    );
}

#[test]
fn first_refusal_over_the_whole_input() {
    // The later rule is broken earlier in the input.
    let changes: [fn(&mut Builder); 4] = [
        |b| {
            b.m.signals[0].ty = 7;
            b.m.statements.clear();
        },
        |b| {
            b.m.nodes[7].a = 8;
            b.m.statements[9].a = 1;
        },
        |b| {
            b.m.nodes[7].a = 0;
            b.m.nodes[12].a = 12;
        },
        |b| {
            b.m.drivers.reverse();
            b.m.statements[8].c = 1;
        },
    ];
    assert_eq!(changes.map(judged), [4, 5, 6, 7]);
    let mut bytes = rich().encode();
    bytes[0] = 9;
    assert_eq!(judge(&bytes), 2);
    bytes.pop();
    assert_eq!(judge(&bytes), 1);
}
