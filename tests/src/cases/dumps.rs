//! Runs for dumps.

use super::{orders, rounds, stepped, SETTLE, STEP};
use crate::builder::Builder;
use crate::integers::*;
use crate::model::*;

/// One process gives a signal these values, one unit of time apart from 0 on.
pub fn in_turn(ty: u8, start: i32, values: &[i32]) -> Builder {
    let mut b = Builder::new();
    let s = b.signal(ty, start);
    let (zero, one) = (b.integer(0), b.integer(1));
    b.process();
    b.driver(0, s);
    for &value in values {
        let value = b.constant(ty, value);
        b.schedule(s, value, zero);
        b.wait(0, ABSENT, one);
    }
    b.wait(0, ABSENT, ABSENT);
    b
}

/// Each of the nine after each other one; a dump writes some and not others.
pub fn nine_in_turn() -> Builder {
    let to_and_fro = |a| (a + 1..9).flat_map(move |b| [a, b]).chain([a]);
    let values: Vec<i32> = (0..9).flat_map(to_and_fro).collect();
    in_turn(LOGIC, 4, &values)
}

/// Integers that a dump writes with one digit, with some and with all.
pub fn integers_in_turn() -> Builder {
    let mut values = vec![0, 1, -1, 5, -5, TOP, -TOP, TOP - 1, 1 - TOP];
    for n in 1..31 {
        values.extend([1 << n, (1 << n) - 1, -(1 << n)]);
    }
    in_turn(INTEGER, 7, &values)
}

/// A model without signals whose process wakes at each time.
pub fn no_signals() -> Builder {
    let mut b = Builder::new();
    let one = b.integer(1);
    b.process();
    b.wait(0, ABSENT, one);
    b
}

/// A run whose dump is about as long as one can be: 32 integer signals of 32 digits, all
/// changed at every time. A driver holds eight transactions, so that eight times take a
/// settle and sixteen steps; times are as far apart as that allows.
pub fn longest_dump() -> (Builder, Vec<u8>) {
    const APART: i32 = TOP / 8;
    let mut b = Builder::new();
    b.process();
    let (delay, value) = (b.variable(INTEGER, 0, 0), b.variable(INTEGER, 0, -1));
    let (step, last, all) = (b.integer(APART), b.integer(7 * APART), b.integer(8 * APART));
    let (zero, minus) = (b.integer(0), b.integer(-3));
    let (read_delay, read_value) = (b.read_variable(delay), b.read_variable(value));
    let later = b.binary(SUM, read_delay, step);
    let other = b.binary(DIFFERENCE, minus, read_value);
    let done = b.binary(14, last, read_delay);
    b.assign(delay, later);
    for _ in 0..32 {
        let s = b.signal(INTEGER, -2);
        b.driver(0, s);
        b.schedule(s, read_value, read_delay);
    }
    b.assign(value, other);
    b.unless(done, 0);
    b.assign(delay, zero);
    b.wait(0, ABSENT, all);
    let round = [&[(SETTLE, 0, 65_535)], &[STEP; 16][..]].concat();
    let mut list = round.repeat(241);
    list.truncate(4_096);
    let list = orders(&stepped(&b, &list));
    (b, list)
}

/// All of them as sessions.
pub fn sessions(add: &mut impl FnMut(String, &Builder, Vec<u8>)) {
    for (name, b, n) in [
        ("nine values in turn", nine_in_turn(), 250),
        ("integers in turn", integers_in_turn(), 300),
        ("no signals", no_signals(), 20),
    ] {
        add(name.into(), &b, rounds(&b, n, 1));
    }
    let (longest, orders) = longest_dump();
    add("the longest dump".into(), &longest, orders);
}
