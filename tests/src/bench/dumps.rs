//! Dumps (document 02, item 7), written out by hand.

use super::{DEL, SET, TIM};
use crate::builder::Builder;
use crate::cases::*;
use crate::integers::{QUOTIENT, TOP};
use crate::model::*;
use crate::numbers::OUTPUT;
use crate::vcd::read::read;
use crate::vcd::write::{line, print, settled, write};
use crate::vcd::{read_back, MOST};

/// A header with these variables.
fn header(variables: &str) -> String {
    format!(
        "$timescale 1 ns $end\n$scope module model $end\n{variables}$upscope $end\n$enddefinitions $end\n"
    )
}

/// What comes after the header; the list may have steps.
fn changes(b: &Builder, list: &[Order]) -> String {
    let text = print(&b.encode(), &orders(&stepped(b, list)));
    let (_, changes) = text.split_once("$enddefinitions $end\n").unwrap();
    changes.to_string()
}

#[test]
fn a_dump_by_hand() {
    let mut b = Builder::new();
    let (n, s) = (b.signal(INTEGER, 9), b.signal(LOGIC, 0));
    b.process();
    b.driver(0, n);
    b.driver(0, s);
    // U to W after 2 and L to 0 after 4 are written alike.
    for (signal, value, delay) in [
        (n, 5, 0),
        (s, 5, 2),
        (n, -1, 3),
        (s, 6, 3),
        (s, 2, 4),
        (n, 0, 6),
        (s, 4, 6),
        (s, 7, 7),
    ] {
        let ty = b.m.signals[signal as usize].ty;
        let (value, delay) = (b.constant(ty, value), b.integer(delay));
        b.schedule(signal, value, delay);
    }
    b.wait(0, ABSENT, ABSENT);
    let ones = "1".repeat(32);
    let variables = "$var wire 32 ! s0 $end\n$var wire 1 \" s1 $end\n";
    let text = format!(
        "{}#0\nb101 !\nx\"\n#3\nb{ones} !\n0\"\n#6\nb0 !\nz\"\n#7\n1\"\n",
        header(variables)
    );
    let list = stepped(&b, &[vec![SET; 2], vec![STEP; 30]].concat());
    assert_eq!(print(&b.encode(), &orders(&list)), text);
    // The inverter of document 01.
    let variables = "$var wire 1 ! s0 $end\n$var wire 1 \" s1 $end\n";
    let text = header(variables) + "#0\n0!\n1\"\n#1\n1!\n0\"\n";
    assert_eq!(print(&inverter().encode(), &inverter_orders()), text);
}

#[test]
fn each_value() {
    let mut b = Builder::new();
    for code in 0..9 {
        b.signal(LOGIC, code);
    }
    for value in [0, -1, TOP, -TOP, 5, -2] {
        b.signal(INTEGER, value);
    }
    b.process();
    b.null();
    let (ones, zeros) = ("1".repeat(30), "0".repeat(30));
    let integers = format!("b0 *\nb11{ones} +\nb1{ones} ,\nb1{zeros}1 -\nb101 .\nb1{ones}0 /\n");
    let logic = "#0\nx!\nx\"\n0#\n1$\nz%\nx&\n0'\n1(\nx)\n";
    assert_eq!(changes(&b, &[]), format!("{logic}{integers}"));
    // No integer has this value, but 32 bits have it.
    assert_eq!(line(&b.m, 9, i32::MIN), format!("b1{zeros}0 *\n"));
}

#[test]
fn thirty_two_signals() {
    let mut b = Builder::new();
    for n in 0..32 {
        b.signal(if n % 2 == 0 { LOGIC } else { INTEGER }, 2);
    }
    b.process();
    b.null();
    let text = print(&b.encode(), &[]);
    for line in [
        "$var wire 1 ! s0 $end\n$var wire 32 \" s1 $end\n$var wire 1 # s2 $end\n$var wire 32 $ s3 $end\n",
        "$var wire 32 * s9 $end\n$var wire 1 + s10 $end\n",
        "$var wire 32 0 s15 $end\n$var wire 1 1 s16 $end\n",
        "$var wire 32 @ s31 $end\n$upscope $end\n",
        "0#\nb10 $\n",
        "b10 0\n01\nb10 2\n",
        "0?\nb10 @\n",
    ] {
        assert!(text.contains(line), "no {line:?} in\n{text}");
    }
}

#[test]
fn no_signals_at_all() {
    let text = header("") + "#0\n";
    for n in [0, 1, 30] {
        let list = rounds(&no_signals(), n, 1);
        assert_eq!(print(&no_signals().encode(), &list), text);
    }
}

#[test]
fn settled_is_just_before_a_time_step_or_at_the_end() {
    // One value at each time from 0 on. A round settles all and makes a step: to the
    // value, to the next time, to the deadline there.
    let b = in_turn(LOGIC, 2, &[3, 3, 2, 1, 5, 2]);
    let rounds = |n: usize| [SET, STEP].repeat(n);
    // No order, or no delta step yet: the first values.
    assert_eq!(changes(&b, &[]), "#0\n0!\n");
    assert_eq!(changes(&b, &[SET, (READ, 0, 0)]), "#0\n0!\n");
    assert_eq!(changes(&b, &rounds(1)), "#0\n1!\n");
    // Time 2 is reached in round 5, its value in round 7; it is left in round 8.
    for (n, text) in [(5, ""), (6, ""), (7, "#2\n0!\n"), (8, "#2\n0!\n")] {
        assert_eq!(changes(&b, &rounds(n)), format!("#0\n1!\n{text}"));
    }
    // X to W is no change; orders that are refused, and reads, do nothing.
    let text = "#0\n1!\n#2\n0!\n#3\nx!\n#5\n0!\n";
    assert_eq!(changes(&b, &rounds(60)), text);
    let others = [(9, 9, 9), SET, (READ, 0, 0), (PICK, 7, 0), (READ, 9, 0)];
    let busy = [&others[..], &[STEP]].concat();
    assert_eq!(changes(&b, &busy.repeat(60)), text);
}

#[test]
fn a_refused_step_ends_no_time() {
    let text = changes(&inverter(), &[SET, DEL, TIM, DEL, SET, DEL]);
    assert_eq!(text, "#0\n0!\n1\"\n#1\n1!\n0\"\n");
    // 14 and 23 before the values of a time are there, 22 and 17 behind them; order 2 at
    // each place.
    let old = (2, 0, 0);
    let refused = [
        TIM, old, SET, TIM, DEL, DEL, old, TIM, TIM, DEL, TIM, old, SET, TIM, DEL, DEL, TIM, old,
    ];
    assert_eq!(print(&inverter().encode(), &orders(&refused)), {
        print(&inverter().encode(), &inverter_orders())
    });
}

#[test]
fn a_pulse_within_a_time_is_not_seen() {
    let mut b = Builder::new();
    let (s, zero, one) = (b.signal(LOGIC, 2), b.integer(0), b.integer(1));
    let (low, high) = (b.logic(2), b.logic(3));
    b.process();
    b.driver(0, s);
    b.wait(0, ABSENT, one);
    b.schedule(s, high, zero);
    b.wait(1 << s, ABSENT, ABSENT);
    b.schedule(s, low, zero);
    // Rounds to the next time, to the deadline, to 1 and to 0 again.
    for (rounds, text) in [(2, ""), (3, "#1\n1!\n"), (4, ""), (40, "")] {
        let list = [SET, STEP].repeat(rounds);
        assert_eq!(changes(&b, &list), format!("#0\n0!\n{text}"));
    }
}

#[test]
fn a_stopped_process_ends_it() {
    let mut b = in_turn(INTEGER, 0, &[1, 2]);
    let v = b.variable(INTEGER, 0, 0);
    let zero = b.integer(0);
    let fails = b.binary(QUOTIENT, zero, zero);
    *b.m.statements.last_mut().unwrap() = StatementRecord {
        kind: 1,
        a: v,
        b: fails,
        c: 0,
        set: 0,
    };
    let text = "#0\nb1 !\n#1\nb10 !\n";
    assert_eq!(changes(&b, &[SET, STEP].repeat(40)), text);
}

#[test]
fn rooms_of_output() {
    let (model, orders) = (inverter().encode(), inverter_orders());
    let text = print(&model, &orders);
    let length = text.len();
    for (room, number, written) in [
        (length, 0, length),
        (length + 7, 0, length),
        (length - 1, OUTPUT, 0),
        (3, OUTPUT, 0),
        (0, OUTPUT, 0),
    ] {
        let mut out = vec![b'?'; room];
        assert_eq!(write(&model, &orders, &mut out), (number, written));
        assert_eq!(out[..written], text.as_bytes()[..written]);
        assert!(out[written..].iter().all(|&b| b == b'?'));
    }
    // All other numbers come before 21, 9 last of them.
    for room in [0, length] {
        let out = &mut vec![b'?'; room][..];
        assert_eq!(write(&model[1..], &orders, out), (1, 0));
        assert_eq!(write(&model[1..], &orders[1..], out), (1, 0));
        assert_eq!(write(&model, &orders[1..], out), (9, 0));
        assert_eq!(write(&model, &[DELTA; 16_388], out), (9, 0));
        assert!(out.iter().all(|&b| b == b'?'));
    }
    assert_eq!(print(&model[1..], &orders), "1\n");
    assert_eq!(print(&model, &orders[1..]), "9\n");
}

#[test]
fn the_longest_dump() {
    let (b, orders) = longest_dump();
    let (model, run) = (b.encode(), settled(&b.m, &orders));
    assert_eq!((orders.len(), run.len()), (16_384, 1_929));
    let text = print(&model, &orders);
    assert!(
        text.len() > 2_248_000 && text.len() <= MOST,
        "{} bytes",
        text.len()
    );
    let waves = read(&text).unwrap();
    // The last time is reached and never left.
    let times: Vec<u64> = run[..1_928].iter().map(|row| row.0).collect();
    assert_eq!(waves.times, times);
    assert_eq!(read_back(&waves, &b.m, &run), Ok(()));
}

#[test]
fn changes_between_values() {
    let b = nine_in_turn();
    let list = rounds(&b, 250, 1);
    let run = settled(&b.m, &list);
    let text = print(&b.encode(), &list);
    // A change is written where the two states differ.
    let states: Vec<u8> = run
        .iter()
        .map(|row| b"xx01zx01x"[row.1[0] as usize])
        .collect();
    let written = states.windows(2).filter(|pair| pair[0] != pair[1]).count();
    assert_eq!(text.matches('#').count(), 1 + written);
    assert_eq!(read_back(&read(&text).unwrap(), &b.m, &run), Ok(()));
    let pairs = run.windows(2).map(|pair| (pair[0].1[0], pair[1].1[0]));
    let pairs: std::collections::BTreeSet<_> = pairs.filter(|(a, b)| a != b).collect();
    assert_eq!(pairs.len(), 72);
}
