//! Runs with picks of sets.

use super::{orders, Order, DELTA, PICK, PICK_SET, READ, SETTLE, TIME};
use crate::builder::Builder;
use crate::integers::*;
use crate::model::*;

/// What a process does at first; behind that it waits for ever, but for a restless one.
#[derive(Clone, Copy)]
pub enum Turn {
    Null,
    Wait,
    /// A null over and over.
    Restless,
    /// Drives the common line to this code at once.
    Drive(u8),
    /// Stops with this fault in its first pick, with fault 3 in its ninth.
    Fail(u8),
}

/// One process per turn.
pub fn team(turns: &[Turn]) -> Builder {
    let mut b = Builder::new();
    let line = b.signal(LOGIC, 4);
    for &turn in turns {
        let p = b.process();
        match turn {
            Turn::Null => _ = b.null(),
            Turn::Wait => {}
            Turn::Restless => {
                b.null();
                continue;
            }
            Turn::Drive(code) => {
                let (value, zero) = (b.logic(code), b.integer(0));
                b.schedule(line, value, zero);
                b.driver(p, line);
            }
            Turn::Fail(2) => {
                let minus = b.integer(-1);
                b.wait(0, ABSENT, minus);
            }
            Turn::Fail(3) => {
                for n in 1..10 {
                    let (value, delay) = (b.logic(3), b.integer(n));
                    b.schedule(line, value, delay);
                }
                b.driver(p, line);
            }
            Turn::Fail(fault) => {
                let (x, kind, y) = if fault == 1 {
                    (TOP, SUM, 1)
                } else {
                    (1, QUOTIENT, 0)
                };
                let v = b.variable(INTEGER, p, 0);
                let (x, y) = (b.integer(x), b.integer(y));
                let value = b.binary(kind, x, y);
                b.assign(v, value);
            }
        }
        b.wait(0, ABSENT, ABSENT);
    }
    b
}

/// A team of one that has stopped, one that waits and two that are always ready, and the
/// orders that bring it there.
pub fn mixed_team() -> (Builder, Vec<Order>) {
    let turns = [Turn::Fail(4), Turn::Restless, Turn::Wait, Turn::Restless];
    let list = vec![(PICK, 0, 0), (PICK, 2, 0)];
    (team(&turns), list)
}

/// All of them as sessions.
pub fn sessions(add: &mut impl FnMut(String, &Builder, Vec<u8>)) {
    let by_sets = [
        (PICK_SET, 0, 3),
        (PICK_SET, 0, 3),
        (DELTA, 0, 0),
        (TIME, 0, 0),
        (DELTA, 0, 0),
        (PICK_SET, 0, 1),
        (PICK_SET, 0, 1),
        (DELTA, 0, 0),
        (PICK_SET, 0, 0),
        (READ, 1, 0),
    ];
    let inverter = super::inverter();
    add("the inverter by sets".into(), &inverter, orders(&by_sets));
    // Every set of the four processes and of one that is unknown.
    let (b, front) = mixed_team();
    for argument in [0, 1, 255] {
        let sets = (0..32).map(|set| (PICK_SET, argument, set));
        let list: Vec<_> = front.iter().copied().chain(sets).collect();
        let name = format!("every set, argument {argument}");
        add(name, &b, orders(&list));
    }
    // As many processes as there can be, and sets that name more, less and all of them.
    for many in 1..=16 {
        let turns = [Turn::Drive(3), Turn::Restless, Turn::Fail(1), Turn::Wait];
        let turns: Vec<Turn> = turns.into_iter().cycle().take(many).collect();
        let all = (1u32 << many) - 1;
        let sets = [all + 1, 2 * all + 1, 32_768, 65_535, 1, all >> 1, all, all];
        let sets = sets.into_iter().filter_map(|set| u16::try_from(set).ok());
        let mut list: Vec<_> = sets.map(|set| (PICK_SET, 0, set)).collect();
        list.extend([(PICK_SET, 0, 2), (SETTLE, 0, 99), (PICK_SET, 0, 65_535)]);
        let name = format!("sets of {many} processes");
        add(name, &team(&turns), orders(&list));
    }
    let sixteen = team(&[Turn::Null; 16]);
    let each: Vec<_> = (0..16).map(|p| (PICK_SET, 0, 1 << p)).collect();
    add("each process alone".into(), &sixteen, orders(&each));
    let all = [(PICK_SET, 0, 65_535); 3];
    add("all processes at once".into(), &sixteen, orders(&all));
    let failing = team(&[Turn::Fail(4); 16]);
    add("each process stops".into(), &failing, orders(&each));
    let unknown = [0, 2].into_iter().chain(8..=255);
    let unknown = unknown.flat_map(|kind| [(kind, 0, 0), (kind, 0, 3)]);
    let unknown: Vec<_> = unknown.collect();
    add("unknown kinds".into(), &sixteen, orders(&unknown));
    let ninth = team(&[Turn::Fail(3), Turn::Drive(2)]);
    let list = [(PICK_SET, 0, 1); 10];
    add("a ninth in a set".into(), &ninth, orders(&list));
}
