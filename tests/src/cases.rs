//! The paper's bench cases as sessions, and sessions on both sides of the
//! limits of orders and answers.

mod dumps;
mod loops;
mod own_table;
mod pick_set;
mod two_orders;

use crate::builder::Builder;
use crate::cycle::Carried;
use crate::gen::order;
use crate::integers::*;
use crate::model::*;
use crate::moves::{moved, ADVANCE};
use crate::session::ORDER;
pub use crate::session::{DELTA, PICK, PICK_SET, READ, SETTLE, TIME};
use crate::values::code;
pub use dumps::{in_turn, integers_in_turn, longest_dump, nine_in_turn, no_signals};
pub use loops::full_of_waits;
pub use own_table::{own_tables, refused_tables, sums, with_table};
pub use pick_set::{mixed_team, team, Turn};
pub use two_orders::unused_bytes;

/// A named session.
pub struct Case {
    pub name: String,
    pub model: Vec<u8>,
    pub orders: Vec<u8>,
    /// Length of the answer buffer.
    pub room: usize,
}

/// Orders of (kind, argument, count).
pub fn orders(list: &[Order]) -> Vec<u8> {
    list.iter()
        .flat_map(|&(kind, argument, count)| order(kind, argument, count))
        .collect()
}

/// An order: kind, argument, count.
pub type Order = (u8, u8, u16);

pub const DEL: Order = (DELTA, 0, 0);
pub const TIM: Order = (TIME, 0, 0);

/// A step in a list for `stepped`: an advance of before.
pub const STEP: Order = (ADVANCE, 0, 0);

/// The list with each `STEP` moved over to order 6 or 7, whichever gives its answer on
/// the model.
pub fn stepped(b: &Builder, list: &[Order]) -> Vec<Order> {
    let moved = moved(&b.m, &orders(list));
    let kinds = moved.chunks(ORDER).map(|order| order[0]);
    let pairs = list.iter().zip(kinds);
    pairs.map(|(old, kind)| (kind, old.1, old.2)).collect()
}

/// The inverter: process 0 o <= not i after 0, wait on i; process 1
/// i <= 1 after 1, wait.
pub fn inverter() -> Builder {
    let mut b = Builder::new();
    let i = b.signal(LOGIC, 2);
    let o = b.signal(LOGIC, 2);
    let zero = b.integer(0);
    let one = b.integer(1);
    let high = b.logic(3);
    let read = b.read_signal(i);
    let not = b.unary(6, read);
    b.process();
    b.schedule(o, not, zero);
    b.wait(1 << i, ABSENT, ABSENT);
    b.process();
    b.schedule(i, high, one);
    b.wait(0, ABSENT, ABSENT);
    b.driver(0, o);
    b.driver(1, i);
    b
}

/// The inverter's orders.
pub fn inverter_orders() -> Vec<u8> {
    orders(&[
        (SETTLE, 0, 10),
        (DELTA, 0, 0),
        (TIME, 0, 0),
        (DELTA, 0, 0),
        (SETTLE, 0, 10),
        (DELTA, 0, 0),
        (TIME, 0, 0),
        (READ, 1, 0),
    ])
}

/// One process gives a signal transactions with these values and delays,
/// then waits.
pub fn line(delays: &[i32]) -> Builder {
    let mut b = Builder::new();
    let s = b.signal(INTEGER, 0);
    let nodes: Vec<u16> = delays.iter().map(|&d| b.integer(d)).collect();
    b.process();
    for n in nodes {
        b.schedule(s, n, n);
    }
    b.wait(0, ABSENT, ABSENT);
    b.driver(0, s);
    b
}

/// One process per letter drives a common signal to it at once.
pub fn drivers(letters: &str) -> Builder {
    let mut b = Builder::new();
    let s = b.signal(LOGIC, 4);
    let zero = b.integer(0);
    for (p, letter) in letters.bytes().enumerate() {
        let v = b.logic(code(letter));
        b.process();
        b.schedule(s, v, zero);
        b.wait(0, ABSENT, ABSENT);
        b.driver(p as u8, s);
    }
    b
}

/// One process per letter drives a common signal of this kind to it at once and
/// turns its driver off after 1, 2, .. in turn; one more waits on the signal.
pub fn turned_off(kind: u8, letters: &str) -> Builder {
    let mut b = Builder::new();
    let s = b.signal_of(LOGIC, kind, 4);
    let zero = b.integer(0);
    for (p, letter) in letters.bytes().enumerate() {
        let v = b.logic(code(letter));
        let off = b.integer(p as i32 + 1);
        b.process();
        b.schedule(s, v, zero);
        b.release(s, off);
        b.wait(0, ABSENT, ABSENT);
        b.driver(p as u8, s);
    }
    b.process();
    b.wait(1 << s, ABSENT, ABSENT);
    b
}

/// One process gives a signal of this kind transactions (delay, code or null),
/// then waits.
pub fn releases(kind: u8, list: &[(i32, Carried)]) -> Builder {
    let mut b = Builder::new();
    let s = b.signal_of(LOGIC, kind, 2);
    b.process();
    for &(delay, carried) in list {
        let delay = b.integer(delay);
        match carried {
            Some(code) => {
                let value = b.logic(code as u8);
                b.schedule(s, value, delay)
            }
            None => b.release(s, delay),
        };
    }
    b.wait(0, ABSENT, ABSENT);
    b.driver(0, s);
    b
}

/// What a process does with its driver: assigns a value, by transport or inertial, or
/// null, each after a delay; or waits for a time.
#[derive(Clone, Copy, Debug)]
pub enum Act {
    Transport(i32, i32),
    Inertial(i32, i32),
    Null(i32),
    Wait(i32),
}

/// Process 0 does this with its driver of a signal of this type and kind, then waits;
/// process 1 waits on the signal.
pub fn acts(ty: u8, kind: u8, list: &[Act]) -> Builder {
    let mut b = Builder::new();
    let s = b.signal_of(ty, kind, 2);
    b.driver(0, s);
    b.process();
    for &act in list {
        match act {
            Act::Transport(value, delay) => {
                let (value, delay) = (b.constant(ty, value), b.integer(delay));
                b.schedule(s, value, delay)
            }
            Act::Inertial(value, delay) => {
                let (value, delay) = (b.constant(ty, value), b.integer(delay));
                b.inertial(s, value, delay)
            }
            Act::Null(delay) => {
                let delay = b.integer(delay);
                b.release(s, delay)
            }
            Act::Wait(time) => {
                let time = b.integer(time);
                b.wait(0, ABSENT, time)
            }
        };
    }
    b.wait(0, ABSENT, ABSENT);
    b.process();
    b.wait(1 << s, ABSENT, ABSENT);
    b
}

/// A pulse of value 3 and this width, both its edges inertial with this delay.
pub fn pulse(ty: u8, kind: u8, width: i32, delay: i32) -> Builder {
    let (rise, fall) = (Act::Inertial(3, delay), Act::Inertial(2, delay));
    acts(ty, kind, &[rise, Act::Wait(width), fall])
}

/// Transport transactions with these values after 1, 2 and so on; null where there is
/// none.
pub fn row(values: &[Carried]) -> Vec<Act> {
    let acts = values.iter().zip(1..);
    acts.map(|(&value, delay)| match value {
        Some(value) => Act::Transport(value, delay),
        None => Act::Null(delay),
    })
    .collect()
}

/// A null after x + y on a bus that has eight transactions pending.
pub fn null_after(x: i32, y: i32) -> Builder {
    let eight: Vec<(i32, Carried)> = (1..=8).map(|n| (n, (n % 2 == 0).then_some(3))).collect();
    let mut b = releases(BUS, &eight);
    let (x, y) = (b.integer(x), b.integer(y));
    let sum = b.binary(11, x, y);
    b.m.statements[8] = StatementRecord {
        kind: 6,
        c: sum,
        ..Default::default()
    };
    b
}

/// An operator on two integers, by its node kind.
pub type Operation = (i32, u8, i32);

/// A fault's number and its node.
pub type Failed = (u8, u16);

/// One process assigns x `kind` y to a variable that starts at 5.
pub fn sum(x: i32, kind: u8, y: i32) -> Builder {
    assigned(|b| operator(b, (x, kind, y)))
}

fn operator(b: &mut Builder, (x, kind, y): Operation) -> u16 {
    let (x, y) = (b.integer(x), b.integer(y));
    b.binary(kind, x, y)
}

/// The same with an operator on the results of two others.
pub fn nested(x: Operation, kind: u8, y: Operation) -> Builder {
    assigned(|b| {
        let (x, y) = (operator(b, x), operator(b, y));
        b.binary(kind, x, y)
    })
}

fn assigned(expression: impl Fn(&mut Builder) -> u16) -> Builder {
    let mut b = Builder::new();
    let v = b.variable(INTEGER, 0, 5);
    let node = expression(&mut b);
    b.process();
    b.assign(v, node);
    b.null();
    b
}

/// Sums and differences: the value or the fault.
const SUMS: &[(i32, u8, i32, Result<i32, u8>)] = &[
    (TOP - 1, SUM, 1, Ok(TOP)),
    (TOP, SUM, 1, Err(1)),
    (1 - TOP, DIFFERENCE, 1, Ok(-TOP)),
    (-TOP, DIFFERENCE, 1, Err(1)),
    (-TOP, SUM, -TOP, Err(1)),
    (TOP, DIFFERENCE, -TOP, Err(1)),
];

/// Products: two factors and the value or the fault, at both ends, inside and past
/// them.
const PRODUCTS: &[(i32, i32, Result<i32, u8>)] = &[
    (3, 4, Ok(12)),
    (3, -4, Ok(-12)),
    (-3, 4, Ok(-12)),
    (-3, -4, Ok(12)),
    (0, TOP, Ok(0)),
    (-TOP, 0, Ok(0)),
    (TOP, 1, Ok(TOP)),
    (TOP, -1, Ok(-TOP)),
    (-TOP, 1, Ok(-TOP)),
    (-1, -TOP, Ok(TOP)),
    (1_073_741_823, 2, Ok(TOP - 1)),
    (-2, 1_073_741_823, Ok(1 - TOP)),
    (46_340, 46_340, Ok(2_147_395_600)),
    (46_340, -46_340, Ok(-2_147_395_600)),
    // 2,147,483,648 and its negative: one past the ends.
    (1_073_741_824, 2, Err(1)),
    (-1_073_741_824, 2, Err(1)),
    (65_536, 32_768, Err(1)),
    (65_536, -32_768, Err(1)),
    (-65_536, -32_768, Err(1)),
    (46_341, 46_341, Err(1)),
    (46_341, -46_341, Err(1)),
    // 2 to the 32, whose low 32 bits are 0.
    (65_536, 65_536, Err(1)),
    (TOP, 2, Err(1)),
    (-TOP, 2, Err(1)),
    (TOP, TOP, Err(1)),
    (TOP, -TOP, Err(1)),
    (-TOP, -TOP, Err(1)),
];

/// Divisions: dividend, divisor, quotient, mod and rem.
const DIVISIONS: &[(i32, i32, i32, i32, i32)] = &[
    (7, 2, 3, 1, 1),
    (7, -2, -3, -1, 1),
    (-7, 2, -3, 1, -1),
    (-7, -2, 3, -1, -1),
    (6, 2, 3, 0, 0),
    (6, -2, -3, 0, 0),
    (-6, 2, -3, 0, 0),
    (-6, -2, 3, 0, 0),
    (1, 2, 0, 1, 1),
    (1, -2, 0, -1, 1),
    (-1, 2, 0, 1, -1),
    (-1, -2, 0, -1, -1),
    (0, 3, 0, 0, 0),
    (0, -3, 0, 0, 0),
    (0, TOP, 0, 0, 0),
    (0, -TOP, 0, 0, 0),
    (9, 1, 9, 0, 0),
    (9, -1, -9, 0, 0),
    (-9, 1, -9, 0, 0),
    (-9, -1, 9, 0, 0),
    // An end by 1, by 2 and by an end.
    (TOP, 1, TOP, 0, 0),
    (TOP, -1, -TOP, 0, 0),
    (-TOP, 1, -TOP, 0, 0),
    (-TOP, -1, TOP, 0, 0),
    (TOP, 2, 1_073_741_823, 1, 1),
    (TOP, -2, -1_073_741_823, -1, 1),
    (-TOP, 2, -1_073_741_823, 1, -1),
    (-TOP, -2, 1_073_741_823, -1, -1),
    (TOP, TOP, 1, 0, 0),
    (TOP, -TOP, -1, 0, 0),
    (-TOP, TOP, -1, 0, 0),
    (-TOP, -TOP, 1, 0, 0),
    // By an end.
    (1, TOP, 0, 1, 1),
    (1, -TOP, 0, 1 - TOP, 1),
    (-1, TOP, 0, TOP - 1, -1),
    (-1, -TOP, 0, -1, -1),
    (TOP - 1, TOP, 0, TOP - 1, TOP - 1),
    (TOP - 1, -TOP, 0, -1, TOP - 1),
    (1 - TOP, TOP, 0, 1, 1 - TOP),
    (1 - TOP, -TOP, 0, 1 - TOP, 1 - TOP),
];

/// Every operator above with its value or fault, and divisors of 0.
pub fn operations() -> Vec<(Operation, Result<i32, u8>)> {
    let mut list: Vec<(Operation, Result<i32, u8>)> = vec![];
    list.extend(
        SUMS.iter()
            .map(|&(x, kind, y, result)| ((x, kind, y), result)),
    );
    list.extend(
        PRODUCTS
            .iter()
            .map(|&(x, y, result)| ((x, PRODUCT, y), result)),
    );
    for &(x, y, quotient, modulus, rem) in DIVISIONS {
        let results = [(QUOTIENT, quotient), (MOD, modulus), (REM, rem)];
        list.extend(results.map(|(kind, value)| ((x, kind, y), Ok(value))));
    }
    for x in [0, 1, -1, TOP, -TOP] {
        list.extend([QUOTIENT, MOD, REM].map(|kind| ((x, kind, 0), Err(4))));
    }
    list
}

/// Process 0 gives its signal 1 after 1, then has 7 `kind` 0 in this role;
/// process 1 waits on the signal.
pub fn by_zero(kind: u8, role: Role) -> Builder {
    let mut b = Builder::new();
    let v = b.variable(INTEGER, 0, 5);
    let (s, bus) = (b.signal(INTEGER, 0), b.bus(2));
    let (one, five) = (b.integer(1), b.integer(5));
    let node = operator(&mut b, (7, kind, 0));
    let condition = b.binary(14, node, one);
    b.process();
    b.schedule(s, one, one);
    match role {
        Role::VariableValue => b.assign(v, node),
        Role::SignalValue => b.schedule(s, node, five),
        Role::Delay => b.schedule(s, five, node),
        Role::NullDelay => b.release(bus, node),
        Role::Unless => b.unless(condition, 0),
        Role::Until => b.wait(1 << s, condition, five),
        Role::For => b.wait(0, ABSENT, node),
    };
    b.process();
    b.wait(1 << s, ABSENT, ABSENT);
    b.driver(0, s);
    b.driver(0, bus);
    b
}

/// One process gives a signal this value after this delay.
pub fn scheduled(value: Operation, delay: Operation) -> Builder {
    let mut b = Builder::new();
    let s = b.signal(INTEGER, 0);
    let (value, delay) = (operator(&mut b, value), operator(&mut b, delay));
    b.process();
    b.schedule(s, value, delay);
    b.wait(0, ABSENT, ABSENT);
    b.driver(0, s);
    b
}

/// One process waits for this time.
pub fn wait_for(time: Operation) -> Builder {
    let mut b = Builder::new();
    let time = operator(&mut b, time);
    b.process();
    b.wait(0, ABSENT, time);
    b
}

/// Values and delays with faults: the value's comes first. The value is node 2, the
/// delay 5.
pub fn scheduled_faults() -> Vec<(Operation, Operation, Failed)> {
    let (over, by_zero) = ((TOP, PRODUCT, 2), (1, REM, 0));
    let (minus, two) = ((-5, QUOTIENT, 2), (5, QUOTIENT, 2));
    vec![
        (over, by_zero, (1, 2)),
        (by_zero, over, (4, 2)),
        (by_zero, minus, (4, 2)),
        (two, by_zero, (4, 5)),
        (two, over, (1, 5)),
        (two, minus, (2, 65_535)),
        (two, two, (0, 0)),
    ]
}

/// Operators on the results of two others: a's fault comes before b's, and b's
/// before a divisor of 0. a is node 2, b 5, the operator itself 6.
pub fn nested_faults() -> Vec<(Operation, u8, Operation, Result<i32, Failed>)> {
    let (over, by_zero) = ((TOP, SUM, 1), (1, QUOTIENT, 0));
    let (zero, two) = ((1, DIFFERENCE, 1), (1, SUM, 1));
    let mut list = vec![];
    for kind in ARITHMETIC {
        let last = if divides(kind) { Err((4, 6)) } else { Ok(0) };
        list.extend([
            (over, kind, zero, Err((1, 2))),
            (over, kind, by_zero, Err((1, 2))),
            (by_zero, kind, over, Err((4, 2))),
            (by_zero, kind, zero, Err((4, 2))),
            (two, kind, over, Err((1, 5))),
            (two, kind, by_zero, Err((4, 5))),
            (two, kind, zero, last),
        ]);
    }
    list
}

/// Expressions that a process assigns to a variable, and the fault and the node of
/// each, 0 and 0 for none.
pub fn failing_expressions() -> Vec<(String, Builder, Failed)> {
    let mut list: Vec<(String, Builder, Failed)> = vec![];
    let mut add = |name: &str, failed: Failed, expression: &dyn Fn(&mut Builder) -> u16| {
        list.push((name.into(), assigned(expression), failed));
    };
    let (over, by_zero, two) = ((TOP, SUM, 1), (7, QUOTIENT, 0), (1, SUM, 1));
    add("no node fails", (0, 0), &|b| operator(b, two));
    add("the inner of two sums fails", (1, 2), &|b| {
        let (inner, k) = (operator(b, over), b.integer(-5));
        b.binary(SUM, inner, k)
    });
    add("the outer of two sums fails", (1, 4), &|b| {
        let (inner, k) = (operator(b, two), b.integer(TOP));
        b.binary(SUM, inner, k)
    });
    add("the innermost of four fails", (4, 2), &|b| {
        let inner = operator(b, by_zero);
        let negated = b.unary(10, inner);
        let doubled = b.binary(SUM, negated, negated);
        b.binary(MOD, doubled, inner)
    });
    add("b of b fails behind values", (4, 5), &|b| {
        let (value, k) = (operator(b, two), b.integer(0));
        let zero = b.binary(DIFFERENCE, k, k);
        let inner = b.binary(REM, value, zero);
        let outer = b.binary(PRODUCT, value, inner);
        b.binary(SUM, value, outer)
    });
    add("a fails before b", (1, 2), &|b| {
        let (first, second) = (operator(b, over), operator(b, by_zero));
        b.binary(DIFFERENCE, first, second)
    });
    add("a of a higher number fails before b", (1, 5), &|b| {
        let (second, first) = (operator(b, by_zero), operator(b, over));
        b.binary(DIFFERENCE, first, second)
    });
    add("a node that is a and b fails", (1, 2), &|b| {
        let node = operator(b, over);
        b.binary(SUM, node, node)
    });
    for n in [255, 256, 257, 399] {
        add(&format!("node {n} fails"), (4, n), &|b| {
            b.m.nodes.resize(
                n as usize - 2,
                NodeRecord {
                    kind: 1,
                    ..Default::default()
                },
            );
            operator(b, (7, MOD, 0))
        });
    }
    list
}

/// A jump unless `left kind (7 / 0 = 0)`; the quotient is node 2.
pub fn decided(left: bool, kind: u8) -> Builder {
    let mut b = Builder::new();
    let (seven, zero) = (b.integer(7), b.integer(0));
    let quotient = b.binary(QUOTIENT, seven, zero);
    let asks = b.binary(13, quotient, zero);
    let decides = match left {
        true => b.binary(14, zero, seven),
        false => b.binary(14, seven, zero),
    };
    let both = b.binary(kind, decides, asks);
    b.process();
    b.unless(both, 0);
    b.wait(0, ABSENT, ABSENT);
    b
}

/// Three processes have 7 / 0, node 2, in trees of their own.
pub fn shared_node() -> Builder {
    let mut b = Builder::new();
    let v = b.variable(INTEGER, 0, 5);
    let shared = operator(&mut b, (7, QUOTIENT, 0));
    let (sum, less) = (b.binary(SUM, shared, 0), b.binary(14, shared, 0));
    b.process();
    b.assign(v, sum);
    b.process();
    b.unless(less, 1);
    b.process();
    b.wait(0, ABSENT, shared);
    b
}

/// Process 0 gives a signal -1 after 1. Processes 1 and 2 wait on it with
/// conditions that fail, at node 3 of two and at node 6 behind a value; process 3
/// waits on it alone.
pub fn failing_conditions() -> Builder {
    let mut b = Builder::new();
    let s = b.signal(INTEGER, 0);
    let (one, minus, zero) = (b.integer(1), b.integer(-1), b.integer(0));
    let quotient = b.binary(QUOTIENT, one, zero);
    let first = b.binary(14, quotient, one);
    let top = b.integer(TOP);
    let sum = b.binary(SUM, top, one);
    let second = b.binary(14, one, sum);
    b.process();
    b.schedule(s, minus, one);
    b.wait(0, ABSENT, ABSENT);
    b.process();
    b.wait(1 << s, first, top);
    b.process();
    b.wait(1 << s, second, ABSENT);
    b.process();
    b.wait(1 << s, ABSENT, ABSENT);
    b.driver(0, s);
    b
}

/// Three processes read a signal that starts at -, delayed by 0, to a variable each;
/// so many of them drive it.
pub fn first_reads(drivers: u8) -> Builder {
    let mut b = Builder::new();
    let s = b.signal(LOGIC, 8);
    let before = b.delayed(s, 0);
    for p in 0..3 {
        let v = b.variable(LOGIC, p, 0);
        b.process();
        b.assign(v, before);
        b.wait(0, ABSENT, ABSENT);
    }
    (0..drivers).for_each(|p| b.driver(p, s));
    b
}

/// Process 0 gives a signal of this type each value after 0 and waits for the time
/// beside it, in the end for good.
fn pulses(ty: u8, start: i32, list: &[(i32, i32)]) -> Builder {
    let mut b = Builder::new();
    let s = b.signal(ty, start);
    b.driver(0, s);
    let zero = b.integer(0);
    b.process();
    for &(value, time) in list {
        let (value, time) = (b.constant(ty, value), b.integer(time));
        b.schedule(s, value, zero);
        b.wait(0, ABSENT, time);
    }
    b.wait(0, ABSENT, ABSENT);
    b
}

/// Values with the times after them: in delta steps, at later times, in both, and
/// some that are no change. 2, 3, 1 and 7 are '0', '1', X and H.
pub const PULSES: &[&[(i32, i32)]] = &[
    &[],
    &[(3, 0), (2, 0), (3, 0), (2, 0)],
    &[(3, 2), (2, 1), (3, 40), (2, 1)],
    &[(3, 0), (3, 1), (2, 1), (2, 0), (3, 0), (2, 2), (3, 0)],
    &[
        (1, 0),
        (3, 1),
        (2, 0),
        (7, 0),
        (3, 0),
        (2, 0),
        (1, 1),
        (2, 0),
    ],
];

/// Process 1 has the signal, 5 at first, delayed by k and as it is in variables 0
/// and 1, at each change and one unit after it last did so.
pub fn sampled(list: &[(i32, i32)], k: i32) -> Builder {
    let mut b = pulses(INTEGER, 5, list);
    let (before, now, one) = (b.delayed(0, k), b.read_signal(0), b.integer(1));
    let (v, w) = (b.variable(INTEGER, 1, 0), b.variable(INTEGER, 1, 0));
    b.process();
    b.assign(v, before);
    b.assign(w, now);
    b.wait(1, ABSENT, one);
    b
}

/// An edge detector: process 1 counts how often the signal, '0' at first, is '1' and
/// was '0' a delta ago.
pub fn rising_edges(list: &[(i32, i32)]) -> Builder {
    let mut b = pulses(LOGIC, 2, list);
    let (before, now) = (b.delayed(0, 0), b.read_signal(0));
    let (low, high, one) = (b.logic(2), b.logic(3), b.integer(1));
    let (was_low, is_high) = (b.binary(13, before, low), b.binary(13, now, high));
    let rising = b.binary(7, is_high, was_low);
    let v = b.variable(INTEGER, 1, 0);
    let count = b.read_variable(v);
    let more = b.binary(SUM, count, one);
    b.process();
    b.wait(1, rising, ABSENT);
    b.assign(v, more);
    b
}

/// Process 0 gives a signal, 0 at first, 1 and in the next delta step, or after the
/// time, 2; with the 2 it changes another one. Process 1 waits on that one until a
/// condition on the first, delayed by 0.
fn asked(time: i32, condition: impl Fn(&mut Builder, u16) -> u16) -> Builder {
    let mut b = Builder::new();
    let (s, t) = (b.signal(INTEGER, 0), b.signal(INTEGER, 0));
    let [zero, one, two, time] = [0, 1, 2, time].map(|k| b.integer(k));
    let before = b.delayed(s, 0);
    let condition = condition(&mut b, before);
    b.process();
    b.schedule(s, one, zero);
    b.wait(0, ABSENT, zero);
    b.schedule(s, two, time);
    b.schedule(t, one, time);
    b.wait(0, ABSENT, ABSENT);
    b.process();
    b.wait(1 << t, condition, ABSENT);
    b.null();
    b.driver(0, s);
    b.driver(0, t);
    b
}

/// The condition is that it was k.
pub fn asked_equal(time: i32, k: i32) -> Builder {
    asked(time, |b, before| {
        let k = b.integer(k);
        b.binary(13, before, k)
    })
}

/// The condition fails, at node 7, if it was k.
pub fn asked_quotient(time: i32, k: i32) -> Builder {
    asked(time, |b, before| {
        let k = b.integer(k);
        let difference = b.binary(DIFFERENCE, before, k);
        let quotient = b.binary(QUOTIENT, k, difference);
        b.binary(14, quotient, difference)
    })
}

/// Adds a process that waits `turns` times for `step`, then for each of `rest`, again and
/// again.
fn add_turns(b: &mut Builder, turns: i32, step: i32, rest: &[i32]) {
    let p = b.process();
    let (first, v) = (b.m.statements.len() as u16, b.variable(INTEGER, p, 0));
    let (one, turns, step) = (b.integer(1), b.integer(turns), b.integer(step));
    let read = b.read_variable(v);
    let (more, less) = (b.binary(11, read, one), b.binary(14, read, turns));
    b.unless(less, first + 4);
    b.assign(v, more);
    b.wait(0, ABSENT, step);
    b.go(first);
    for &time in rest {
        let time = b.integer(time);
        b.wait(0, ABSENT, time);
    }
}

fn turns(turns: i32, step: i32, rest: &[i32]) -> Builder {
    let mut b = Builder::new();
    add_turns(&mut b, turns, step, rest);
    b
}

/// One process waits for 0, `count` times, then for 1 each time.
pub fn delta_turns(count: i32) -> Builder {
    turns(count, 0, &[1])
}

/// Process 0 counts delta steps in signal 0, and process 1 stops once they are `last`.
pub fn counted_deltas(last: i32) -> Builder {
    let mut b = Builder::new();
    let s = b.signal(INTEGER, 0);
    let [zero, one, last] = [0, 1, last].map(|k| b.integer(k));
    let minus = b.integer(-1);
    let count = b.read_signal(s);
    let (next, equal) = (b.binary(SUM, count, one), b.binary(13, count, last));
    b.process();
    b.schedule(s, next, zero);
    b.wait(1 << s, ABSENT, ABSENT);
    b.process();
    b.wait(1 << s, equal, ABSENT);
    b.wait(0, ABSENT, minus);
    b.driver(0, s);
    b
}

/// One process waits 499 times for 2,000,000,000, then for `last`, then
/// for 1.
pub fn time_turns(last: i32) -> Builder {
    turns(499, 2_000_000_000, &[last, 1])
}

/// The same up to the last time, at which another process gives a signal a transaction for
/// the next one and stops.
pub fn stopped_at_last() -> Builder {
    let mut b = time_turns(2_000_000_000);
    let s = b.signal(INTEGER, 0);
    let (one, minus) = (b.integer(1), b.integer(-1));
    add_turns(&mut b, 500, 2_000_000_000, &[]);
    b.schedule(s, one, one);
    b.wait(0, ABSENT, minus);
    b.driver(1, s);
    b
}

/// The same up to the last time, while another process waits for the next one.
pub fn due_beyond_last() -> Builder {
    let mut b = time_turns(2_000_000_000);
    add_turns(&mut b, 499, 2_000_000_000, &[2_000_000_001]);
    b
}

/// A model in 64 blocks, the last ones empty.
pub fn in_64_blocks(m: &Model) -> Vec<u8> {
    let mut plan = full_plan(m);
    let blocks: usize = plan.iter().map(Vec::len).sum();
    plan[5].extend(vec![0; 64 - blocks]);
    encode_with(m, &plan)
}

/// Every total at its limit, every tree as large as can be, 64 blocks.
pub fn largest() -> Vec<u8> {
    let mut b = Builder::new();
    for _ in 0..32 {
        b.signal(LOGIC, 2);
    }
    for v in 0..64u16 {
        b.variable(INTEGER, (v / 4) as u8, 0);
    }
    // six trees of 64 nodes: sums of 32 leaves; then waits' and assignments' leaves
    let mut roots = Vec::new();
    for _ in 0..6 {
        let mut sum = b.integer(1);
        for _ in 0..31 {
            let leaf = b.integer(1);
            sum = b.node(11, sum, leaf, 0);
        }
        roots.push(sum);
    }
    let mut last = b.logic(3);
    while b.m.nodes.len() < 400 {
        last = b.node(6, last, 0, 0);
    }
    for p in 0..16 {
        b.process();
        for n in 0..if p < 8 { 13 } else { 12 } {
            let root = roots[n % roots.len()];
            match n % 2 {
                0 => b.assign(4 * p, root),
                _ => b.wait(1, ABSENT, root),
            };
        }
    }
    for p in 0..16 {
        for s in 0..4 {
            b.driver(p, 4 * (p as u16 % 8) + s);
        }
    }
    in_64_blocks(&b.m)
}

/// A settle and steps, so often.
pub fn rounds(b: &Builder, n: usize, steps: usize) -> Vec<u8> {
    let round = [vec![(SETTLE, 0, 9)], vec![STEP; steps]].concat();
    orders(&stepped(b, &round.repeat(n)))
}

/// Variables for one row of an operator's table: `row` with each of the nine.
pub fn operator_row(kind: u8, row: u8) -> Builder {
    let mut b = Builder::new();
    let a = b.logic(row);
    let nodes: Vec<u16> = (0..9)
        .map(|column| {
            let c = b.logic(column);
            if kind == 6 {
                b.unary(6, c)
            } else {
                b.binary(kind, a, c)
            }
        })
        .collect();
    b.process();
    for n in nodes {
        let v = b.variable(LOGIC, 0, 0);
        b.assign(v, n);
    }
    b.wait(0, ABSENT, ABSENT);
    b
}

/// Nine signals, driven by `row` and each of the nine.
fn resolution_row(row: u8) -> Builder {
    let mut b = Builder::new();
    let zero = b.integer(0);
    for _ in 0..9 {
        b.signal(LOGIC, 4);
    }
    for p in 0..2 {
        b.process();
        for s in 0..9u16 {
            let v = b.logic(if p == 0 { row } else { s as u8 });
            b.schedule(s, v, zero);
            b.driver(p, s);
        }
        b.wait(0, ABSENT, ABSENT);
    }
    b
}

/// A settle, then steps with a read of signal 0 and a settle after each.
pub fn watched(b: &Builder, steps: usize) -> Vec<u8> {
    let round = [STEP, (READ, 0, 0), (SETTLE, 0, 20)].repeat(steps);
    orders(&stepped(b, &[&[(SETTLE, 0, 30)][..], &round].concat()))
}

/// Adds a session of so many steps that are watched.
fn watch(add: &mut impl FnMut(String, &Builder, Vec<u8>), name: String, b: &Builder, steps: usize) {
    add(name, b, watched(b, steps));
}

/// Bus and register signals whose drivers turn off.
fn null_sessions(add: &mut impl FnMut(String, &Builder, Vec<u8>)) {
    for (kind, name) in [(BUS, "bus"), (REGISTER, "register")] {
        for letters in [
            "", "1", "-", "01", "-0", "0-", "--", "LH", "H0L", "U1", "ZZ",
        ] {
            watch(
                add,
                format!("a {name} turned off after {letters}"),
                &turned_off(kind, letters),
                2 * letters.len() + 2,
            );
        }
        // Nulls and values that remove one another.
        let on = Some(3);
        let off = None;
        for (n, list) in [
            &[(0, off)][..],
            &[(1, off), (1, on)],
            &[(1, on), (1, off)],
            &[(1, off), (1, off)],
            &[(1, off), (0, on)],
            &[(1, on), (0, off)],
            &[(1, off), (2, on), (2, off), (3, off), (4, on)],
            &[(1, on), (3, off), (2, off)],
        ]
        .into_iter()
        .enumerate()
        {
            watch(
                add,
                format!("a {name} with releases {n}"),
                &releases(kind, list),
                8,
            );
        }
        for last in [7, 8, 9] {
            for carried in [on, off] {
                let mut list: Vec<(i32, Carried)> = (1..=8).map(|n| (n, off)).collect();
                list.push((last, carried));
                watch(
                    add,
                    format!("a {name} with eight nulls, then {carried:?} after {last}"),
                    &releases(kind, &list),
                    3,
                );
            }
        }
    }
    for (x, y) in [(TOP, 1), (-1, 0), (TOP, 0), (8, 0), (0, 0)] {
        watch(
            add,
            format!("a null after {x} + {y}, eight pending"),
            &null_after(x, y),
            3,
        );
    }
}

/// Inertial assignments behind all that may be pending.
fn inertial_sessions(add: &mut impl FnMut(String, &Builder, Vec<u8>)) {
    for (ty, kind) in [(INTEGER, PLAIN), (LOGIC, PLAIN), (LOGIC, REGISTER)] {
        for (width, delay) in [(0, 0), (0, 1), (1, 1), (2, 1), (2, 3), (3, 3), (4, 3)] {
            watch(
                add,
                format!("a pulse of {width}, delay {delay}, type {ty}, kind {kind}"),
                &pulse(ty, kind, width, delay),
                8,
            );
        }
    }
    let (one, other, null) = (Some(3), Some(2), None);
    for (n, values) in [
        &[][..],
        &[one],
        &[other],
        &[null],
        &[one, one, one],
        &[one, other, one],
        &[other, one, one],
        &[one, null, one],
        &[one, one, null],
        &[null, null],
        &[one; 7],
        &[one; 8],
        &[other; 8],
        &[null; 8],
        &[other, one, one, one, one, one, one, one],
        &[one, one, one, one, one, one, one, other],
        // H beside 1.
        &[one, Some(7)],
    ]
    .into_iter()
    .enumerate()
    {
        let many = values.len() as i32;
        for delay in [0, many - 1, many, many + 1, many + 2] {
            let last = Act::Inertial(3, delay.max(0));
            watch(
                add,
                format!("an inertial one after {delay} behind row {n}"),
                &acts(LOGIC, BUS, &[row(values), vec![last]].concat()),
                4,
            );
        }
    }
    for (old, new) in [(-7, 7), (0, 256), (1, 65_537), (-1, TOP)] {
        let list = [Act::Transport(old, 1), Act::Inertial(new, 2)];
        let name = format!("an inertial {new} behind {old}");
        watch(add, name, &acts(INTEGER, PLAIN, &list), 4);
    }
    for (value, delay, _) in scheduled_faults() {
        let mut model = scheduled(value, delay);
        model.m.statements[0].kind = 7;
        let name = format!("an inertial one of {value:?} after {delay:?}");
        watch(add, name, &model, 3);
    }
}

/// Nodes that fail, in picks and in a delta step.
fn failing_sessions(add: &mut impl FnMut(String, &Builder, Vec<u8>)) {
    let picks = |n: u8| orders(&[(PICK, 0, 0), (PICK, n, 0), (PICK, 0, 0), (SETTLE, 0, 9)]);
    for (name, model, _) in failing_expressions() {
        add(name, &model, picks(0));
    }
    for left in [false, true] {
        for kind in 7..=9 {
            let name = format!("{left} in node kind {kind} before a quotient that fails");
            add(name, &decided(left, kind), picks(0));
        }
    }
    add(
        "a node fails in three trees".into(),
        &shared_node(),
        picks(2),
    );
    let name = "conditions fail in a delta step".into();
    let b = failing_conditions();
    add(name, &b, [watched(&b, 3), picks(2)].concat());
}

/// Delays of 0 in statements and in conditions.
fn delay_zero_sessions(add: &mut impl FnMut(String, &Builder, Vec<u8>)) {
    for drivers in 0..4 {
        let name = format!("first values of - with {drivers} drivers");
        watch(add, name, &first_reads(drivers), 1);
    }
    for (n, list) in PULSES.iter().enumerate() {
        for k in 0..3 {
            let name = format!("pulses {n} sampled, delayed by {k}");
            watch(add, name, &sampled(list, k), 14);
        }
        let name = format!("rising edges of pulses {n}");
        watch(add, name, &rising_edges(list), 14);
    }
    for time in [0, 3] {
        for k in 0..3 {
            let name = format!("it was {k}, asked after {time}");
            watch(add, name, &asked_equal(time, k), 4);
            let name = format!("it fails if it was {k}, asked after {time}");
            watch(add, name, &asked_quotient(time, k), 4);
        }
    }
}

/// All named sessions.
pub fn sessions() -> Vec<Case> {
    let mut list = vec![];
    let mut add = |name: String, model: &Builder, orders: Vec<u8>| {
        let room = 4 * orders.len();
        list.push(Case {
            name,
            model: model.encode(),
            orders,
            room,
        });
    };
    add("inverter".into(), &inverter(), inverter_orders());
    add("no orders".into(), &inverter(), vec![]);
    let read = orders(&[(SETTLE, 0, 9), (DELTA, 0, 0), (READ, 0, 0)]);
    for letters in ["01", "LH", "ZL", "W0", "U1", "-", "--"] {
        add(
            format!("drivers {letters}"),
            &drivers(letters),
            read.clone(),
        );
    }
    let picks = orders(&[(PICK, 0, 0), (PICK, 0, 0)]);
    for ((x, kind, y), _) in operations() {
        add(
            format!("{x} and {y} in node kind {kind}"),
            &sum(x, kind, y),
            picks.clone(),
        );
    }
    for (x, kind, y, _) in nested_faults() {
        add(
            format!("{x:?} and {y:?} in node kind {kind}"),
            &nested(x, kind, y),
            picks.clone(),
        );
    }
    for kind in [QUOTIENT, MOD, REM] {
        for role in Role::ALL {
            let name = format!("{role:?} with node kind {kind} and a divisor of 0");
            watch(&mut add, name, &by_zero(kind, role), 3);
        }
    }
    for (value, delay, _) in scheduled_faults() {
        let name = format!("a transaction of {value:?} after {delay:?}");
        watch(&mut add, name, &scheduled(value, delay), 3);
    }
    add(
        "settle of no picks".into(),
        &inverter(),
        orders(&[(SETTLE, 0, 0), (SETTLE, 0, 9), (SETTLE, 0, 0)]),
    );
    for last in [7, 8, 9] {
        let delays: Vec<i32> = [&[1, 2, 3, 4, 5, 6, 7, 8][..], &[last]].concat();
        add(
            format!("eight transactions, then one after {last}"),
            &line(&delays),
            orders(&[(SETTLE, 0, 20)]),
        );
    }
    null_sessions(&mut add);
    inertial_sessions(&mut add);
    failing_sessions(&mut add);
    delay_zero_sessions(&mut add);
    dumps::sessions(&mut add);
    pick_set::sessions(&mut add);
    two_orders::sessions(&mut add);
    own_table::sessions(&mut add);
    for turns in [998, 999, 1_000, 1_001, 1_002] {
        let model = delta_turns(turns);
        let list = rounds(&model, 1_003, 1);
        add(format!("{turns} delta steps"), &model, list);
    }
    for last in [-1, 0, 1] {
        let model = time_turns(2_000_000_000 + last);
        let list = rounds(&model, 502, 2);
        add(format!("time limit and {last}"), &model, list);
    }
    for kind in 6..=9 {
        for row in 0..if kind == 6 { 1 } else { 9 } {
            let settle = orders(&[(SETTLE, 0, 20)]);
            add(
                format!("node kind {kind}, row {row}"),
                &operator_row(kind, row),
                settle,
            );
        }
    }
    for row in 0..9 {
        let step = orders(&[(SETTLE, 0, 30), (DELTA, 0, 0)]);
        add(format!("resolution, row {row}"), &resolution_row(row), step);
    }
    add(
        "4,096 orders".into(),
        &inverter(),
        order(DELTA, 0, 0).repeat(4_096),
    );
    add(
        "65,535 picks".into(),
        &sum(1, 11, 1),
        orders(&[(SETTLE, 0, 65_535), (SETTLE, 0, 1)]),
    );
    for length in [1, 2, 3, 5, 16_383, 16_385, 16_388, 20_000] {
        add(
            format!("{length} bytes of orders"),
            &inverter(),
            vec![DELTA; length],
        );
    }
    for length in [0usize, 4, 8, 16_384] {
        let right = 4 * length;
        for room in [
            0,
            1,
            15,
            16,
            17,
            right.saturating_sub(1),
            right + 1,
            right + 16,
        ] {
            let name = format!("{length} bytes of orders, {room} of answers");
            let orders = order(DELTA, 0, 0).repeat(length / 4);
            list.push(Case {
                name,
                model: inverter().encode(),
                orders,
                room,
            });
        }
    }
    for (number, table) in refused_tables() {
        for (length, room) in [(3, 0), (8, 31), (8, 33)] {
            list.push(Case {
                name: format!("a table refused with {number}, {length} bytes, {room} of answers"),
                model: with_table(inverter(), &table).encode(),
                orders: vec![DELTA; length],
                room,
            });
        }
    }
    list
}
