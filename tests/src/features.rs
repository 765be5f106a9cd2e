//! What the requests of document 02 add, feature by feature: its damages and what
//! models and sessions show of it, by name. A large comparison must meet each: a
//! new feature is a row of `FEATURES`.

pub mod arithmetic;
pub mod delay_zero;
pub mod dumps;
pub mod failing_node;
pub mod inertial;
pub mod nulls;
pub mod own_table;
pub mod pick_set;
pub mod two_orders;

use crate::cycle::{Config, Process, Step, Value, READY, WAITING};
use crate::damage::{self, Ways};
use crate::model::{assigns_signal, expressions, operands};
use crate::model::{DriverRecord, Model, NodeRecord, Role, ABSENT};
use crate::rng::Rng;
use crate::session::{self, ANSWER, DELTA, ORDER, PICK, PICK_SET, SETTLE, TIME};
use std::collections::BTreeSet;

/// Names of what was seen.
pub type Seen = BTreeSet<&'static str>;

#[derive(Clone, Copy)]
pub struct Feature {
    pub name: &'static str,
    /// The ways to damage a model in it, if there are any.
    pub damages: Ways,
    /// What an accepted model can show.
    pub model: fn() -> Vec<&'static str>,
    /// What a played session can show: what is done, and the faults.
    pub session: fn() -> Vec<&'static str>,
    pub fault: fn() -> Vec<&'static str>,
    /// What an accepted model shows.
    pub of_model: fn(&Model) -> Seen,
    /// What a session's orders show on an accepted model.
    pub of_session: fn(&Model, &[u8]) -> Seen,
}

pub const FEATURES: &[Feature] = &[
    Feature {
        name: "bus, register and null",
        damages: damage::GUARDED,
        model: || nulls::MODEL.to_vec(),
        session: || nulls::SESSION.to_vec(),
        fault: || nulls::FAULT.to_vec(),
        of_model: nulls::of_model,
        of_session: nulls::of_session,
    },
    Feature {
        name: "product, quotient, mod and rem",
        damages: damage::ARITHMETIC,
        model: arithmetic::in_models,
        session: arithmetic::done,
        fault: arithmetic::faults,
        of_model: arithmetic::of_model,
        of_session: arithmetic::of_session,
    },
    Feature {
        name: "the node that failed",
        damages: Ways::NONE,
        model: Vec::new,
        session: Vec::new,
        fault: failing_node::faults,
        of_model: |_| Seen::new(),
        of_session: failing_node::of_session,
    },
    Feature {
        name: "a delay of 0",
        damages: Ways::NONE,
        model: delay_zero::in_models,
        session: delay_zero::in_sessions,
        fault: || delay_zero::FAULT.to_vec(),
        of_model: delay_zero::of_model,
        of_session: delay_zero::of_session,
    },
    Feature {
        name: "inertial assignments",
        damages: damage::INERTIAL,
        model: inertial::in_models,
        session: inertial::in_sessions,
        fault: || inertial::FAULT.to_vec(),
        of_model: inertial::of_model,
        of_session: inertial::of_session,
    },
    Feature {
        name: "picks of a set",
        damages: Ways::NONE,
        model: Vec::new,
        session: pick_set::in_sessions,
        fault: pick_set::faults,
        of_model: |_| Seen::new(),
        of_session: pick_set::of_session,
    },
    Feature {
        name: "delta and time as two orders",
        damages: Ways::NONE,
        model: Vec::new,
        session: two_orders::in_sessions,
        fault: two_orders::others,
        of_model: |_| Seen::new(),
        of_session: two_orders::of_session,
    },
    Feature {
        name: "the model's own resolution table",
        damages: damage::OWN_TABLE,
        model: own_table::in_models,
        session: own_table::in_sessions,
        fault: Vec::new,
        of_model: own_table::of_model,
        of_session: own_table::of_session,
    },
];

/// The damages of the features that have some.
pub fn damages() -> Vec<Ways> {
    let all = FEATURES.iter().map(|f| f.damages);
    all.filter(|d| !d.names().is_empty()).collect()
}

/// A model damaged in one of the features' ways, each as likely: the number, how, and
/// the bytes.
pub fn damaged(rng: &mut Rng) -> (u32, &'static str, Vec<u8>) {
    let all = damages();
    let many: Vec<usize> = all.iter().map(|d| d.names().len()).collect();
    all[rng.weighted(&many)].damaged(rng)
}

/// All that the features show of a model.
pub fn of_model(m: &Model) -> Seen {
    FEATURES.iter().flat_map(|f| (f.of_model)(m)).collect()
}

/// All that the features show of a session.
pub fn of_session(m: &Model, orders: &[u8]) -> Seen {
    let seen = FEATURES.iter().map(|f| (f.of_session)(m, orders));
    seen.flatten().collect()
}

/// For each node: does its tree have such a node?
fn trees(m: &Model, wanted: impl Fn(usize) -> bool) -> Vec<bool> {
    let mut list: Vec<bool> = vec![];
    for (n, record) in m.nodes.iter().enumerate() {
        let below = operands(record).iter().any(|&o| list[o as usize]);
        list.push(below || wanted(n));
    }
    list
}

/// The names of the roles in which the model's statements have these trees.
fn in_roles<'a>(
    m: &Model,
    trees: &[bool],
    names: &'a [(&'static str, Role)],
) -> impl Iterator<Item = &'static str> + 'a {
    let all = m.statements.iter().flat_map(expressions);
    let roles: Vec<Role> = all.filter(|e| trees[e.1 as usize]).map(|e| e.0).collect();
    let had = names.iter().filter(move |row| roles.contains(&row.1));
    had.map(|row| row.0)
}

/// The kinds of the assignments to a driver.
fn assignments(m: &Model, d: &DriverRecord) -> BTreeSet<u8> {
    let p = m.processes[d.process as usize];
    let own = &m.statements[p.first as usize..(p.first + p.count) as usize];
    let given = own
        .iter()
        .filter(|s| assigns_signal(s) && s.a == d.signal as u16);
    given.map(|s| s.kind).collect()
}

/// Is it a boolean `and` or `or` whose a decides?
fn decides(m: &Model, c: &Config, n: &NodeRecord) -> bool {
    match n.kind {
        7 => c.evaluate(m, n.a) == Ok(Value::Boolean(false)),
        8 => c.evaluate(m, n.a) == Ok(Value::Boolean(true)),
        _ => false,
    }
}

/// One that plays a session again, pick by pick, and looks at what is done.
pub trait Player {
    fn config(&self) -> &Config;
    fn pick(&mut self, process: usize);
    fn step(&mut self, step: Step);

    /// A pick that is an order of its own.
    fn pick_ordered(&mut self, process: usize) {
        self.pick(process);
    }

    /// A pick of a member of a set.
    fn pick_in_set(&mut self, process: usize) {
        self.pick(process);
    }
}

/// Gives a session's orders to a player.
pub fn replay(player: &mut impl Player, orders: &[u8]) {
    for order in orders.chunks_exact(4) {
        match *order {
            [PICK, p, 0, 0] => player.pick_ordered(p as usize),
            [DELTA, 0, 0, 0] => player.step(Step::Delta),
            [TIME, 0, 0, 0] => player.step(Step::Time),
            [SETTLE, 0, low, high] => {
                for _ in 0..u16::from_le_bytes([low, high]) {
                    let Some(p) = player.config().lowest_ready() else {
                        break;
                    };
                    player.pick(p);
                }
            }
            [PICK_SET, 0, low, high] => {
                let set = u16::from_le_bytes([low, high]);
                let members = player.config().members(set).unwrap_or_default();
                members.into_iter().for_each(|p| player.pick_in_set(p));
            }
            _ => {}
        }
    }
}

/// The place of a ready process; none where a pick of it is refused.
fn ready_place(c: &Config, process: usize) -> Option<usize> {
    let ready = |p: &&Process| p.standing == READY;
    let process = c.processes.get(process).filter(ready);
    process.map(|p| p.place as usize)
}

/// The answers to the orders and the end configuration.
fn play(m: &Model, orders: &[u8]) -> (Vec<u8>, Config) {
    let mut c = Config::first(m);
    let mut answers = vec![0; 4 * orders.len()];
    let pairs = orders.chunks_exact(ORDER);
    for (order, answer) in pairs.zip(answers.chunks_exact_mut(ANSWER)) {
        session::play(m, &mut c, order, answer);
    }
    (answers, c)
}

/// Makes a step; gives the conditions that a delta step asked for.
fn step_asking(m: &Model, c: &mut Config, step: Step) -> Vec<u16> {
    let (now, old) = (c.time, c.current());
    let asleep = |p: &&Process| p.standing == WAITING && p.deadline != Some(now);
    let asleep = c.processes.iter().filter(asleep);
    let waits: Vec<usize> = asleep.map(|p| p.place as usize).collect();
    if c.step(m, step).is_err() || step == Step::Time {
        return vec![];
    }
    let new = c.current();
    let changed = (0..old.len()).filter(|&s| old[s] != new[s]);
    let changed = changed.fold(0u32, |set, s| set | 1 << s);
    let waits = waits.into_iter().map(|place| m.statements[place]);
    let asked = waits.filter(|s| s.set & changed != 0 && s.b != ABSENT);
    asked.map(|s| s.b).collect()
}

#[cfg(test)]
mod tests {
    use super::*;

    #[test]
    fn names_differ() {
        let names: Vec<&str> = FEATURES
            .iter()
            .flat_map(|f| [(f.model)(), (f.session)(), (f.fault)()].concat())
            .collect();
        assert_eq!(names.iter().collect::<BTreeSet<_>>().len(), names.len());
    }
}
