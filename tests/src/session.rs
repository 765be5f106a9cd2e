//! Sessions: a model, a list of orders, and an answer for each.

use crate::cycle::{Config, Step};
use crate::model::{self, Model};

pub const ORDER: usize = 4;
pub const ANSWER: usize = 16;

/// Kinds of orders; 2 is withdrawn.
pub const PICK: u8 = 1;
pub const SETTLE: u8 = 3;
pub const READ: u8 = 4;
pub const PICK_SET: u8 = 5;
pub const DELTA: u8 = 6;
pub const TIME: u8 = 7;

impl Step {
    /// The order that does it.
    pub fn order(self) -> [u8; ORDER] {
        match self {
            Step::Delta => [DELTA, 0, 0, 0],
            Step::Time => [TIME, 0, 0, 0],
        }
    }
}

/// The model, where neither it nor the orders' length is refused; Err is the number.
pub fn accepted(model: &[u8], orders: &[u8]) -> Result<Model, u32> {
    let m = model::load(model)?;
    match orders.len() % ORDER != 0 || orders.len() > 16_384 {
        true => Err(9),
        false => Ok(m),
    }
}

/// Plays the orders over the model. A refused session writes no answer and
/// returns the empty configuration.
pub fn session(model: &[u8], orders: &[u8], answers: &mut [u8]) -> (u32, Config) {
    session_by(carry_out, model, orders, answers)
}

/// A session by what its orders do: the answer to one, or its refusal.
pub(crate) fn session_by(
    carry_out: impl Fn(&Model, &mut Config, &[u8]) -> Result<Done, u32>,
    model: &[u8],
    orders: &[u8],
    answers: &mut [u8],
) -> (u32, Config) {
    let m = match accepted(model, orders) {
        Ok(m) => m,
        Err(number) => return (number, Config::default()),
    };
    if answers.len() != 4 * orders.len() {
        return (10, Config::default());
    }
    let mut config = Config::first(&m);
    for (order, answer) in orders
        .chunks_exact(ORDER)
        .zip(answers.chunks_exact_mut(ANSWER))
    {
        play_by(&carry_out, &m, &mut config, order, answer);
    }
    (0, config)
}

/// What a done order answers.
#[derive(Default)]
pub(crate) struct Done {
    byte: u8,
    picks: u16,
    /// Bytes 4-7: the value read, or a pick's fault and its node.
    value: [u8; 4],
}

impl Done {
    /// A delta step has byte 1, a time step 2.
    pub(crate) fn step(step: Step) -> Done {
        let byte = match step {
            Step::Delta => 1,
            Step::Time => 2,
        };
        Done {
            byte,
            ..Done::default()
        }
    }
}

/// Plays one order of 4 bytes and writes its answer of 16 bytes.
pub fn play(m: &Model, config: &mut Config, order: &[u8], answer: &mut [u8]) {
    play_by(carry_out, m, config, order, answer);
}

/// The same by what the order does.
pub(crate) fn play_by(
    carry_out: impl Fn(&Model, &mut Config, &[u8]) -> Result<Done, u32>,
    m: &Model,
    config: &mut Config,
    order: &[u8],
    answer: &mut [u8],
) {
    let (refusal, done) = match carry_out(m, config, order) {
        Ok(done) => (0, done),
        Err(number) => (number as u8, Done::default()),
    };
    answer[0] = refusal;
    answer[1] = done.byte;
    answer[2..4].copy_from_slice(&done.picks.to_le_bytes());
    answer[4..8].copy_from_slice(&done.value);
    answer[8..16].copy_from_slice(&config.time.to_le_bytes());
}

pub(crate) fn carry_out(m: &Model, config: &mut Config, order: &[u8]) -> Result<Done, u32> {
    let argument = order[1];
    let count = u16::from_le_bytes([order[2], order[3]]);
    let unused_clear = match order[0] {
        PICK | READ => count == 0,
        DELTA | TIME => argument == 0 && count == 0,
        SETTLE | PICK_SET => argument == 0,
        _ => false,
    };
    if !unused_clear {
        return Err(11);
    }
    match order[0] {
        PICK => {
            let process = config.pick(m, argument as usize)?;
            let [low, high] = process.node.to_le_bytes();
            Ok(Done {
                byte: process.standing,
                picks: 1,
                value: [process.fault, 0, low, high],
            })
        }
        DELTA => config
            .step(m, Step::Delta)
            .map(|()| Done::step(Step::Delta)),
        TIME => config.step(m, Step::Time).map(|()| Done::step(Step::Time)),
        SETTLE => {
            let (picks, ready) = config.settle(m, count);
            Ok(Done {
                byte: ready as u8,
                picks,
                ..Done::default()
            })
        }
        PICK_SET => {
            let (picks, stopped) = config.pick_set(m, count)?;
            Ok(Done {
                byte: stopped as u8,
                picks,
                ..Done::default()
            })
        }
        _ => {
            let value = config.read(argument as usize)?;
            Ok(Done {
                value: value.to_le_bytes(),
                ..Done::default()
            })
        }
    }
}

/// What bytes 4-7 of an answer are, by the order's kind: a pick's fault and its
/// node, or a value and 0.
fn value_and_node(order: &[u8], answer: &[u8]) -> (i32, u16) {
    match order[0] {
        PICK => (answer[4] as i32, u16::from_le_bytes([answer[6], answer[7]])),
        _ => (
            i32::from_le_bytes([answer[4], answer[5], answer[6], answer[7]]),
            0,
        ),
    }
}

/// The line that `playbench` prints for an answer: refusal, byte 1, picks, value,
/// node and time.
fn line(order: &[u8], answer: &[u8]) -> String {
    let picks = u16::from_le_bytes([answer[2], answer[3]]);
    let (value, node) = value_and_node(order, answer);
    let mut time = [0; 8];
    time.copy_from_slice(&answer[8..16]);
    let time = u64::from_le_bytes(time);
    let (refusal, byte) = (answer[0], answer[1]);
    format!("{refusal} {byte} {picks} {value} {node} {time}\n")
}

/// What `playbench` prints: a line per answer, or the refused session's
/// number alone.
pub fn print(model: &[u8], orders: &[u8]) -> String {
    let mut answers = vec![0; 4 * orders.len()];
    let (number, _) = session(model, orders, &mut answers);
    if number != 0 {
        return format!("{number}\n");
    }
    let pairs = orders.chunks_exact(ORDER).zip(answers.chunks_exact(ANSWER));
    pairs.map(|(order, answer)| line(order, answer)).collect()
}
