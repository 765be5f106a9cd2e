//! Bus and register signals and null transactions.

use super::*;
use crate::integers::TOP;
use crate::values::LETTERS;

const LINES: [u8; 2] = [BUS, REGISTER];

/// The value of signal 0 at first and after each of so many steps, as
/// letters, and how often another process woke.
fn followed(b: &Builder, steps: usize) -> (String, u16) {
    let letter = |value: i32| LETTERS[value as usize] as char;
    let first = Config::first(&b.m).signals[0][0];
    let mut text = String::from(letter(first));
    let mut picks = 0;
    let bytes = watched(b, steps);
    let mut answers = vec![0; 4 * bytes.len()];
    assert_eq!(session(&b.encode(), &bytes, &mut answers).0, 0);
    for (order, answer) in bytes.chunks(4).zip(answers.chunks(16)).skip(1) {
        match order[0] {
            READ => text.push(letter(answer[4] as i32)),
            SETTLE => picks += answer[2] as u16,
            _ => {}
        }
    }
    (text, picks)
}

#[test]
fn drivers_turn_off_in_turn() {
    // Values at first, at 0, then twice for each time: before its delta step and
    // after it. A process waits on the line, and each change wakes it.
    for (letters, bus, register) in [
        ("1", "Z11Z", "Z111"),
        ("-", "Z--Z", "Z---"),
        ("01", "ZXX11Z", "ZXX111"),
        // Of two - the one that is left stays -, as if alone.
        ("--", "ZXX--Z", "ZXX---"),
        ("-0", "ZXX00Z", "ZXX000"),
        ("LH", "ZWWHHZ", "ZWWHHH"),
        ("H0L", "Z0000LLZ", "Z0000LLL"),
        ("U1", "ZUU11Z", "ZUU111"),
        ("ZZ", "ZZZZZZ", "ZZZZZZ"),
    ] {
        let changes = |values: &str| {
            let values = values.as_bytes();
            values.windows(2).filter(|w| w[0] != w[1]).count() as u16
        };
        let steps = 2 * letters.len() + 1;
        for (kind, values) in LINES.into_iter().zip([bus, register]) {
            let (text, picks) = followed(&turned_off(kind, letters), steps);
            assert_eq!(text, values, "kind {kind}, {letters}");
            assert_eq!(picks, changes(values), "kind {kind}, {letters}");
        }
    }
}

#[test]
fn without_drivers_a_bus_keeps_its_start() {
    for kind in LINES {
        let mut b = turned_off(kind, "");
        b.m.signals[0].start = 6;
        let (a, c) = play(&b, &[SET, (READ, 0, 0), TIM]);
        assert_eq!((a[1].3, a[2].0), (6, 17));
        assert_eq!(c.signals, [[6; 32]]);
    }
}

#[test]
fn drivers_start_on() {
    for kind in LINES {
        let mut b = turned_off(kind, "00");
        b.m.signals[0].start = 8;
        let c = Config::first(&b.m);
        assert_eq!(c.signals, [[1; 32]]);
        assert!(c.drivers.iter().all(|d| d.current == Some(8)));
    }
}

#[test]
fn a_null_makes_its_signal_active() {
    // Each null is a delta step, also where the value stays.
    let list = [(0, None), (1, None)];
    for kind in LINES {
        let (a, c) = play(&releases(kind, &list), &[SET, DEL, TIM, DEL, TIM]);
        let numbers: Vec<(u8, u8)> = a.iter().map(|x| (x.0, x.1)).collect();
        assert_eq!(numbers, [(0, 0), (0, 1), (0, 2), (0, 1), (17, 0)]);
        assert_eq!((c.time, c.delta), (1, 1));
        let value = if kind == BUS { 4 } else { 2 };
        assert_eq!(c.signals[0][..3], [value, value, 2]);
        let off = Driver::default();
        assert_eq!(c.drivers, [off]);
        assert_eq!(c.drivers[0].current, None);
    }
}

#[test]
fn a_driver_comes_back() {
    let list = [(1, None), (2, Some(8)), (3, None), (4, Some(3))];
    for (kind, values) in LINES.into_iter().zip(["00ZZ--ZZ1", "0000----1"]) {
        let (text, _) = followed(&releases(kind, &list), 8);
        assert_eq!(text, values);
    }
}

#[test]
fn null_and_value_at_once() {
    // The driver of process 0 turns off when that of process 1 turns on.
    for kind in LINES {
        let mut b = Builder::new();
        let s = b.signal_of(LOGIC, kind, 4);
        let (low, high) = (b.logic(2), b.logic(3));
        let (zero, one) = (b.integer(0), b.integer(1));
        b.process();
        b.schedule(s, low, zero);
        b.release(s, one);
        b.wait(0, ABSENT, ABSENT);
        b.process();
        b.schedule(s, high, one);
        b.wait(0, ABSENT, ABSENT);
        b.driver(0, s);
        b.driver(1, s);
        assert_eq!(followed(&b, 3).0, "Z001");
        let (_, c) = play(&b, &[SET, DEL, TIM, DEL]);
        let current: Vec<Carried> = c.drivers.iter().map(|d| d.current).collect();
        assert_eq!(current, [None, Some(3)]);
    }
}

/// What is pending after a line's transactions are given.
fn pending(list: &[(i32, Carried)]) -> Vec<(u64, Carried)> {
    let mut c = play(&releases(BUS, list), &[(SETTLE, 0, 20)]).1;
    c.drivers.remove(0).wave
}

#[test]
fn null_in_a_waveform() {
    let on = Some(3);
    assert_eq!(pending(&[(1, None), (2, on)]), [(1, None), (2, on)]);
    // Values and nulls remove one another alike.
    assert_eq!(pending(&[(1, None), (1, on)]), [(1, on)]);
    assert_eq!(pending(&[(1, on), (1, None)]), [(1, None)]);
    assert_eq!(pending(&[(1, None), (1, None)]), [(1, None)]);
    assert_eq!(pending(&[(2, None), (1, on)]), [(1, on)]);
    assert_eq!(pending(&[(2, on), (1, None)]), [(1, None)]);
    assert_eq!(pending(&[(2, on), (3, None), (0, None)]), [(0, None)]);
    let list = [(1, on), (2, None), (3, on), (2, None)];
    assert_eq!(pending(&list), [(1, on), (2, None)]);
}

#[test]
fn null_among_eight() {
    let eight: Vec<(i32, Carried)> = (1..=8).map(|n| (n, (n != 8).then_some(3))).collect();
    let wave: Vec<(u64, Carried)> = eight.iter().map(|&(n, c)| (n as u64, c)).collect();
    assert_eq!(pending(&eight), wave);
    for (last, carried, fault) in [
        (9, None, 3),
        (9, Some(2), 3),
        (8, None, 0),
        (8, Some(2), 0),
        (1, None, 0),
    ] {
        let list = [&eight[..], &[(last, carried)]].concat();
        let (a, c) = play(&releases(BUS, &list), &[(SETTLE, 0, 8), (PICK, 0, 0)]);
        let (standing, node) = if fault == 3 {
            (STOPPED, 65_535)
        } else {
            (READY, 0)
        };
        assert_eq!(a[1], (0, standing, 1, fault, node, 0));
        let mut kept = wave.clone();
        if fault == 0 {
            kept.retain(|t| t.0 < last as u64);
            kept.push((last as u64, carried));
        }
        assert_eq!(c.drivers[0].wave, kept);
    }
}

#[test]
fn fault_order_of_a_null() {
    // c out of range before a ninth, c negative before a ninth.
    for (x, y, failed) in [
        (TOP, 1, (1, 14)),
        (-1, 0, (2, 65_535)),
        (9, 0, (3, 65_535)),
        (8, 0, NONE),
    ] {
        let (_, c) = play(&null_after(x, y), &[(SETTLE, 0, 9)]);
        assert_eq!(failed_at(&c, 0), failed, "{x} + {y}");
        assert_eq!(c.drivers[0].wave.len(), 8);
    }
}

#[test]
fn the_past_of_a_line() {
    let list = [(1, Some(3)), (3, None)];
    for (kind, past) in LINES.into_iter().zip([[4, 3, 3, 2], [3, 3, 3, 2]]) {
        let (_, c) = play(&releases(kind, &list), &[SET, TIM, DEL, TIM, DEL]);
        assert_eq!((c.time, &c.signals[0][..4]), (3, &past[..]));
    }
}

// Refusals of the model.

/// The rich model with a bus to which process 1 assigns null in statement 10, and a
/// register that nobody drives.
fn rich_line() -> Builder {
    let mut b = rich();
    b.bus(4);
    b.register(2);
    b.release(2, 0);
    b.driver(1, 2);
    b
}

fn all_judged(changes: &[fn(&mut Builder)], number: u32) {
    for (n, change) in changes.iter().enumerate() {
        let mut b = rich_line();
        change(&mut b);
        assert_eq!(judge(&b.encode()), number, "change {n} for {number}");
    }
}

#[test]
fn lines_are_read_back() {
    let b = rich_line();
    assert_eq!(load(&b.encode()), Ok(b.m.clone()));
    let kinds: Vec<u8> = b.m.signals.iter().map(|s| s.kind).collect();
    assert_eq!(kinds, [PLAIN, PLAIN, BUS, REGISTER]);
    // Byte 1 of a record of 12.
    let bytes = b.encode();
    assert_eq!((bytes[4 + 24 + 1], bytes[4 + 36 + 1]), (1, 2));
    all_judged(
        &[
            |_| (),
            |b| b.m.signals[2].kind = REGISTER,
            |b| b.m.signals[1].kind = BUS,
            |b| b.m.signals[3].kind = PLAIN,
        ],
        0,
    );
}

#[test]
fn fields_of_lines() {
    all_judged(
        &[
            |b| b.m.signals[0].kind = BUS,
            |b| b.m.signals[0].kind = REGISTER,
            |b| b.m.signals[1].kind = 3,
            |b| b.m.signals[2].kind = 255,
            |b| b.m.signals[2].start = 9,
            |b| b.m.statements[10].a = 4,
            |b| b.m.statements[10].b = 1,
            |b| b.m.statements[10].b = ABSENT,
            |b| b.m.statements[10].c = 13,
            |b| b.m.statements[10].c = ABSENT,
            |b| b.m.statements[10].set = 4,
            |b| b.m.statements[10].kind = 8,
        ],
        5,
    );
}

#[test]
fn types_and_owners_of_a_null() {
    all_judged(
        &[
            |b| b.m.statements[10].c = 1,
            |b| b.m.statements[10].c = 4,
            |b| b.m.statements[10].c = 12,
        ],
        7,
    );
    all_judged(
        &[
            // No driver here, on a bus and on plain signals.
            |b| b.m.drivers.truncate(2),
            |b| b.m.statements[10].a = 3,
            |b| b.m.statements[10].a = 0,
            // Process 0's variable.
            |b| b.m.statements[10].c = 2,
            |b| b.m.statements[10].c = 10,
        ],
        8,
    );
}

#[test]
fn nulls_on_plain_signals() {
    all_judged(
        &[
            |b| b.m.signals[2].kind = PLAIN,
            |b| b.m.statements[10].a = 1,
            |b| {
                // Statement 2 assigns the integer signal.
                b.m.statements[2].kind = 6;
                b.m.statements[2].b = 0;
            },
        ],
        20,
    );
}

#[test]
fn eight_and_lower_before_twenty() {
    // 20 by statement 2; the other number by what comes after it.
    let with = |change: fn(&mut Builder)| {
        let mut b = rich_line();
        b.m.statements[2].kind = 6;
        b.m.statements[2].b = 0;
        change(&mut b);
        judge(&b.encode())
    };
    let changes: [fn(&mut Builder); 7] = [
        |b| b.m.processes.clear(),
        |b| b.m.statements[10].b = 1,
        |b| b.m.nodes[8].b = 8,
        |b| b.m.statements[10].c = 1,
        |b| b.m.statements[10].c = 2,
        |b| b.m.drivers.truncate(2),
        |_| (),
    ];
    assert_eq!(changes.map(with), [4, 5, 6, 7, 8, 8, 20]);
    // 20 before the orders' length and the answer buffer.
    let mut b = rich_line();
    b.m.signals[2].kind = PLAIN;
    let model = b.encode();
    assert_eq!(session(&model, &[6, 0, 0], &mut [0; 5]).0, 20);
    assert_eq!(session(&model, &[6, 0, 0, 0], &mut [0; 5]).0, 20);
    assert_eq!(print(&model, &[6, 0, 0, 0]), "20\n");
}
