//! What models and sessions show of a delay of 0, by name. A session is played again
//! pick by pick; the delays of 0 that a statement reads are looked at, and each wait's
//! condition that has some is asked again by other readings.

use super::{decides, in_roles, play, ready_place, replay, step_asking, Player, Seen};
use crate::cycle::*;
use crate::model::Role::*;
use crate::model::*;

const NONE: &str = "no delay of 0";

/// The signals that are read with it.
const SIGNALS: &[(&str, u8, u8)] = &[
    ("a delay of 0 of an integer signal", INTEGER, PLAIN),
    ("a delay of 0 of a plain logic signal", LOGIC, PLAIN),
    ("a delay of 0 of a bus", LOGIC, BUS),
    ("a delay of 0 of a register", LOGIC, REGISTER),
];

/// What expressions with it can be.
const ROLES: &[(&str, Role)] = &[
    ("a delay of 0 in a variable's value", VariableValue),
    ("a delay of 0 in a signal's value", SignalValue),
    ("a delay of 0 in a delay", Delay),
    ("a delay of 0 in a null's delay", NullDelay),
    ("a delay of 0 in `unless`", Unless),
    ("a delay of 0 in a wait's condition", Until),
    ("a delay of 0 in a wait's time", For),
];

/// What an accepted model can show.
pub fn in_models() -> Vec<&'static str> {
    let signals = SIGNALS.iter().map(|row| row.0);
    let roles = ROLES.iter().map(|row| row.0);
    [NONE].into_iter().chain(signals).chain(roles).collect()
}

/// What an accepted model shows.
pub fn of_model(m: &Model) -> Seen {
    let read = m.nodes.iter().filter(|n| is_delay_zero(n));
    let read: Vec<SignalRecord> = read.map(|n| m.signals[n.a as usize]).collect();
    let none = read.is_empty().then_some(NONE);
    let had = |&&(_, ty, kind): &&(&str, u8, u8)| {
        let mut read = read.iter();
        read.any(|s| (s.ty, s.kind) == (ty, kind))
    };
    let signals = SIGNALS.iter().filter(had).map(|row| row.0);
    let roles = in_roles(m, &trees(m), ROLES);
    none.into_iter().chain(signals).chain(roles).collect()
}

pub fn is_delay_zero(n: &NodeRecord) -> bool {
    n.kind == 5 && n.k == 0
}

/// For each node: does its tree have a delay of 0?
fn trees(m: &Model) -> Vec<bool> {
    super::trees(m, |n| is_delay_zero(&m.nodes[n]))
}

/// A delay of 0 that a statement reads.
struct Read {
    signal: SignalRecord,
    value: i32,
    /// The current value, that of one unit ago and the one before the latest change.
    current: i32,
    unit_ago: i32,
    before_change: i32,
    time: u64,
    /// Delta steps at this time. None: there was none before.
    delta: u32,
}

impl Read {
    /// Did the latest delta step change the signal?
    fn changed(&self) -> bool {
        self.value != self.current
    }
}

/// A wait's condition with a delay of 0, asked in a delta step.
struct Condition {
    value: Answer,
    /// By the current values in place of the earlier ones, and by the earlier values as
    /// they were before the step.
    by_current: Answer,
    by_former: Answer,
}

/// A condition's value, or its fault.
type Answer = Result<bool, u8>;

/// A delay of 0 that the current value would not tell, in a statement and in a
/// condition.
pub const TOLD: [&str; 3] = [
    "a delay of 0, other than the current value",
    "a condition true, false by the current value",
    "a condition false, true by the current value",
];

type Row<T> = (&'static str, fn(&T) -> bool);

/// What a delay of 0 in a statement can show.
const READS: &[Row<Read>] = &[
    (TOLD[0], |r| r.changed()),
    ("a delay of 0, equal to the current value", |r| {
        r.delta > 0 && !r.changed()
    }),
    ("a delay of 0 before any delta step", |r| r.delta == 0),
    ("a delay of 0 before any, not the start", |r| {
        r.delta == 0 && r.value != r.signal.start
    }),
    ("a delay of 0 in a later time's first step", |r| {
        r.time > 0 && r.delta == 1 && r.changed()
    }),
    ("a delay of 0 in a later time's further step", |r| {
        r.time > 0 && r.delta > 1 && r.changed()
    }),
    ("a delay of 0, not of a unit ago either", |r| {
        r.changed() && r.value != r.unit_ago
    }),
    ("a delay of 0, changed in a step before", |r| {
        !r.changed() && r.value != r.before_change
    }),
    ("a delay of 0, an integer signal changed", |r| {
        r.changed() && r.signal.ty == INTEGER
    }),
    ("a delay of 0, a bus or register changed", |r| {
        r.changed() && r.signal.kind != PLAIN
    }),
];

/// What a wait's condition with a delay of 0 can show.
const CONDITIONS: &[Row<Condition>] = &[
    ("a condition with a delay of 0, true", |c| {
        c.value == Ok(true)
    }),
    ("a condition with a delay of 0, false", |c| {
        c.value == Ok(false)
    }),
    (TOLD[1], |c| {
        (c.value, c.by_current) == (Ok(true), Ok(false))
    }),
    (TOLD[2], |c| {
        (c.value, c.by_current) == (Ok(false), Ok(true))
    }),
    ("a condition true, false by the step before", |c| {
        (c.value, c.by_former) == (Ok(true), Ok(false))
    }),
    ("a condition false, true by the step before", |c| {
        (c.value, c.by_former) == (Ok(false), Ok(true))
    }),
];

const ANSWERS: &str = "answers otherwise by the current value";
const END: &str = "an end otherwise by the current value";
const AFTER_DELTA: &str = "at the end not current, after a delta step";
const AFTER_TIME: &str = "at the end not current, after a time step";

/// What a played session can show, but for its faults.
pub fn in_sessions() -> Vec<&'static str> {
    let reads = READS.iter().map(|row| row.0);
    let conditions = CONDITIONS.iter().map(|row| row.0);
    let others = [ANSWERS, END, AFTER_DELTA, AFTER_TIME];
    reads.chain(conditions).chain(others).collect()
}

const FAILS: &str = "a condition with a delay of 0 fails";
const ONLY_BY_IT: &str = "a condition fails, not by the current value";
const NOT_BY_IT: &str = "a condition fails by the current value alone";

/// The faults among what a played session can show.
pub const FAULT: &[&str] = &[FAILS, ONLY_BY_IT, NOT_BY_IT];

/// What a session's orders show on an accepted model.
pub fn of_session(m: &Model, orders: &[u8]) -> Seen {
    let c = Config::first(m);
    let mut play = Play {
        m,
        before_change: c.current(),
        c,
        trees: trees(m),
        seen: Seen::new(),
    };
    replay(&mut play, orders);
    play.end();
    if m.nodes.iter().any(is_delay_zero) {
        play.otherwise(orders);
    }
    play.seen
}

/// A session as it goes on.
struct Play<'m> {
    m: &'m Model,
    c: Config,
    /// Each signal's value before its latest change.
    before_change: Vec<i32>,
    /// The nodes whose trees have a delay of 0.
    trees: Vec<bool>,
    seen: Seen,
}

impl Player for Play<'_> {
    fn config(&self) -> &Config {
        &self.c
    }

    fn pick(&mut self, p: usize) {
        if let Some(place) = ready_place(&self.c, p) {
            self.statement(&self.m.statements[place]);
        }
        // What is refused changes nothing.
        let _ = self.c.pick(self.m, p);
    }

    fn step(&mut self, step: Step) {
        let (former, old) = (self.c.earlier.clone(), self.c.current());
        let asked = step_asking(self.m, &mut self.c, step);
        for condition in asked {
            if self.trees[condition as usize] {
                self.condition(condition, &former);
            }
        }
        for (s, value) in old.into_iter().enumerate() {
            if value != self.c.signals[s][0] {
                self.before_change[s] = value;
            }
        }
    }
}

impl Play<'_> {
    fn see(&mut self, what: &'static str, when: bool) {
        if when {
            self.seen.insert(what);
        }
    }

    /// Looks at the expressions that a pick of the statement works out.
    fn statement(&mut self, s: &StatementRecord) {
        // A wait's condition is asked for in a delta step.
        for (_, node) in expressions(s).into_iter().filter(|e| e.0 != Until) {
            self.reads(node);
            if self.c.evaluate(self.m, node).is_err() {
                return;
            }
        }
    }

    /// Looks at the delays of 0 that a node's tree reads, a before b.
    fn reads(&mut self, node: u16) {
        if !self.trees[node as usize] {
            return;
        }
        let n = self.m.nodes[node as usize];
        if is_delay_zero(&n) {
            return self.read(n.a as usize);
        }
        for (at, operand) in operands(&n).into_iter().enumerate() {
            if at == 1 && decides(self.m, &self.c, &n) {
                return;
            }
            self.reads(operand);
            if self.c.evaluate(self.m, operand).is_err() {
                return;
            }
        }
    }

    fn read(&mut self, s: usize) {
        let read = Read {
            signal: self.m.signals[s],
            value: self.c.earlier[s],
            current: self.c.signals[s][0],
            unit_ago: self.c.signals[s][1],
            before_change: self.before_change[s],
            time: self.c.time,
            delta: self.c.delta,
        };
        for (name, shows) in READS {
            self.see(name, shows(&read));
        }
    }

    /// Looks at a condition that was asked; `former` are the earlier values as they were
    /// before the step.
    fn condition(&mut self, node: u16, former: &[i32]) {
        let (value, current) = (self.c.evaluate(self.m, node), self.c.current());
        let answer = |value: Result<Value, Fault>| match value {
            Ok(value) => Ok(value == Value::Boolean(true)),
            Err(fault) => Err(fault.number),
        };
        let condition = Condition {
            value: answer(value),
            by_current: answer(self.by(&current, node)),
            by_former: answer(self.by(former, node)),
        };
        for (name, shows) in CONDITIONS {
            self.see(name, shows(&condition));
        }
        let (fails, otherwise) = (value.is_err(), condition.by_current.is_err());
        self.see(FAILS, fails);
        self.see(ONLY_BY_IT, fails && !otherwise);
        self.see(NOT_BY_IT, !fails && otherwise);
    }

    /// What a node would be with other earlier values.
    fn by(&mut self, values: &[i32], node: u16) -> Result<Value, Fault> {
        let own = std::mem::replace(&mut self.c.earlier, values.to_vec());
        let value = self.c.evaluate(self.m, node);
        self.c.earlier = own;
        value
    }

    /// Looks at the end configuration.
    fn end(&mut self) {
        let differs = self.c.earlier != self.c.current();
        self.see(AFTER_DELTA, differs && self.c.delta > 0);
        self.see(AFTER_TIME, differs && self.c.delta == 0);
    }

    /// Plays the orders also on the model that reads the current value in place of each
    /// delay of 0.
    fn otherwise(&mut self, orders: &[u8]) {
        let mut other = self.m.clone();
        for n in other.nodes.iter_mut().filter(|n| is_delay_zero(n)) {
            n.kind = 4;
        }
        let played = [self.m, &other].map(|m| play(m, orders));
        self.see(ANSWERS, played[0].0 != played[1].0);
        self.see(END, played[0].1 != played[1].1);
    }
}

#[cfg(test)]
mod tests {
    use super::*;
    use crate::builder::Builder;
    use crate::cases::*;

    /// What the orders show on a model, in the order of the names.
    fn shown(b: &Builder, list: &[Order]) -> Vec<&'static str> {
        let seen = of_session(&b.m, &orders(&stepped(b, list)));
        let all = [in_sessions(), FAULT.to_vec()].concat();
        all.into_iter().filter(|what| seen.contains(what)).collect()
    }

    /// A settle, then so many steps with a settle after each, for `shown`.
    fn turns(n: usize) -> Vec<Order> {
        let round = [STEP, (SETTLE, 0, 9)];
        [&[(SETTLE, 0, 9)][..], &round.repeat(n)].concat()
    }

    #[test]
    fn reads_before_any_delta_step() {
        let first = "a delay of 0 before any delta step";
        let not_the_start = "a delay of 0 before any, not the start";
        assert!(shown(&first_reads(1), &[]).is_empty());
        assert_eq!(shown(&first_reads(1), &turns(0)), [first]);
        assert_eq!(shown(&first_reads(2), &turns(0)), [first, not_the_start]);
    }

    #[test]
    fn reads_after_delta_and_time_steps() {
        let of = |n: usize| shown(&sampled(&[(6, 0), (7, 0), (7, 2), (8, 0)], 0), &turns(n));
        let changed = [
            TOLD[0],
            "a delay of 0 before any delta step",
            "a delay of 0, an integer signal changed",
            END,
            "at the end not current, after a delta step",
        ];
        assert_eq!(of(1), changed);
        // A second change at time 0: neither the current value nor that of a unit ago.
        let unit_ago = "a delay of 0, not of a unit ago either";
        assert!(!of(1).contains(&unit_ago) && of(2).contains(&unit_ago));
        let equal = [
            "a delay of 0, equal to the current value",
            "a delay of 0, changed in a step before",
        ];
        assert!(equal.iter().all(|what| !of(4).contains(what)));
        assert!(equal.iter().all(|what| of(5).contains(what)));
        let further = "a delay of 0 in a later time's further step";
        assert!(!of(7).contains(&further) && of(8).contains(&further));
        assert!(of(8).contains(&AFTER_DELTA) && !of(8).contains(&AFTER_TIME));
        assert!(of(9).contains(&AFTER_TIME) && !of(9).contains(&AFTER_DELTA));
    }

    #[test]
    fn conditions_by_other_readings() {
        for (time, steps) in [(0, 2), (3, 3)] {
            let of = |b: &Builder| shown(b, &turns(steps));
            let asked = |names: &[&'static str]| [names, &[AFTER_DELTA]].concat();
            let (yes, no) = (CONDITIONS[0].0, CONDITIONS[1].0);
            let (not_former, former) = (CONDITIONS[4].0, CONDITIONS[5].0);
            assert_eq!(of(&asked_equal(time, 0)), asked(&[no, former]));
            let now = [yes, TOLD[1], not_former, ANSWERS];
            assert_eq!(of(&asked_equal(time, 1)), asked(&now));
            let current = [no, TOLD[2], ANSWERS];
            assert_eq!(of(&asked_equal(time, 2)), asked(&current));
            let fails = [END, AFTER_DELTA, FAILS, ONLY_BY_IT];
            assert_eq!(of(&asked_quotient(time, 1)), fails);
            assert!(of(&asked_quotient(time, 2)).contains(&NOT_BY_IT));
        }
    }

    #[test]
    fn skipped_reads_are_none() {
        // `or` has b where a is false, a's fault comes before b.
        for (a, kind, read) in [(13, 8, false), (14, 8, true), (13, 7, true), (14, 7, false)] {
            let mut b = first_reads(0);
            let (k, before) = (b.integer(0), 0);
            let decides = b.binary(a, k, k);
            let same = b.binary(13, before, before);
            b.m.statements[0] = StatementRecord {
                kind: 3,
                b: b.binary(kind, decides, same),
                ..Default::default()
            };
            assert_eq!(shown(&b, &[(PICK, 0, 0)]).len(), read as usize);
        }
    }

    #[test]
    fn models() {
        let of = |b: &Builder| {
            let seen = of_model(&b.m);
            let all = in_models().into_iter();
            all.filter(|what| seen.contains(what)).collect::<Vec<_>>()
        };
        assert_eq!(of(&inverter()), [NONE]);
        let mut b = first_reads(1);
        let logic = [SIGNALS[1].0, ROLES[0].0];
        assert_eq!(of(&b), logic);
        b.m.nodes[0].k = 1;
        assert_eq!(of(&b), [NONE]);
        assert_eq!(of(&asked_equal(0, 1)), [SIGNALS[0].0, ROLES[5].0]);
        b.m.nodes[0].k = 0;
        b.m.signals[0].kind = BUS;
        assert_eq!(of(&b), [SIGNALS[2].0, ROLES[0].0]);
    }
}
