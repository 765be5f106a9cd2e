//! The orders of before item 9 of document 02, and stored lists of them moved over: order
//! 2 was an advance, and 6 and 7 were unknown.

use crate::cycle::{Config, Step, DELTA_LIMIT, TIME_LIMIT};
use crate::model::Model;
use crate::session::{self, accepted, Done, ANSWER, DELTA, ORDER, TIME};

/// The order that is withdrawn.
pub const ADVANCE: u8 = 2;

/// Advance: a delta step where something is due now, else a time step.
fn advance(m: &Model, c: &mut Config) -> Result<Step, u32> {
    c.rested()?;
    match c.earliest() {
        Some(due) if due == c.time => {
            if c.delta >= DELTA_LIMIT {
                return Err(16);
            }
            c.do_delta_step(m);
            Ok(Step::Delta)
        }
        None => Err(17),
        Some(due) if due > TIME_LIMIT => Err(18),
        Some(due) => {
            c.do_time_step(due);
            Ok(Step::Time)
        }
    }
}

fn carry_out(m: &Model, c: &mut Config, order: &[u8]) -> Result<Done, u32> {
    match *order {
        [ADVANCE, 0, 0, 0] => advance(m, c).map(Done::step),
        [ADVANCE | DELTA | TIME, ..] => Err(11),
        _ => session::carry_out(m, c, order),
    }
}

/// A session under the orders of before.
pub fn session_before(model: &[u8], orders: &[u8], answers: &mut [u8]) -> (u32, Config) {
    session::session_by(carry_out, model, orders, answers)
}

/// Plays one order as it was before.
pub fn play_before(m: &Model, c: &mut Config, order: &[u8], answer: &mut [u8]) {
    session::play_by(carry_out, m, c, order, answer);
}

/// An order 2 in this configuration becomes the one of 6 and 7 that gives its old answer,
/// 6 if both do.
fn successor(m: &Model, c: &Config, order: &[u8]) -> u8 {
    let answer = |play: fn(&Model, &mut Config, &[u8], &mut [u8]), kind: u8| {
        let mut answer = [0; ANSWER];
        let order = [kind, order[1], order[2], order[3]];
        play(m, &mut c.clone(), &order, &mut answer);
        answer
    };
    let old = answer(play_before, ADVANCE);
    let gives = |kind: &u8| answer(session::play, *kind) == old;
    let found = [DELTA, TIME].into_iter().find(gives);
    found.expect("one of the two gives the old answer")
}

/// The list moved over: each order 2, in the configuration of the run under the orders of
/// before; all else stays.
pub fn moved(m: &Model, orders: &[u8]) -> Vec<u8> {
    let mut c = Config::first(m);
    let mut list = orders.to_vec();
    for order in list.chunks_exact_mut(ORDER) {
        let old = order.to_vec();
        if old[0] == ADVANCE {
            order[0] = successor(m, &c, &old);
        }
        play_before(m, &mut c, &old, &mut [0; ANSWER]);
    }
    list
}

/// Moves stored orders over into a buffer as long as they are, else 10; a refused one has
/// the session's number and writes nothing.
pub fn move_over(model: &[u8], orders: &[u8], out: &mut [u8]) -> u32 {
    match accepted(model, orders) {
        Err(number) => number,
        Ok(_) if out.len() != orders.len() => 10,
        Ok(m) => {
            out.copy_from_slice(&moved(&m, orders));
            0
        }
    }
}
