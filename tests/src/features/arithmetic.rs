//! What models and sessions show of product, quotient, mod and rem, by name. A
//! session is played again pick by pick; before a statement runs, and when a
//! wait's condition is asked, the operators of its expressions are looked at.

use super::{decides, in_roles, ready_place, replay, step_asking, Player, Seen};
use crate::cycle::*;
use crate::integers::*;
use crate::model::Role::*;
use crate::model::*;

/// The kinds that an accepted model can have.
const KINDS: &[(&str, u8)] = &[
    ("a product's node", PRODUCT),
    ("a quotient's node", QUOTIENT),
    ("a mod's node", MOD),
    ("a rem's node", REM),
];

/// What their expressions can be in it.
const ROLES: &[(&str, Role)] = &[
    ("operators in a variable's value", VariableValue),
    ("operators in a signal's value", SignalValue),
    ("operators in a delay", Delay),
    ("operators in a null's delay", NullDelay),
    ("operators in `unless`", Unless),
    ("operators in a wait's condition", Until),
    ("operators in a wait's time", For),
];

/// What an accepted model can show.
pub fn in_models() -> Vec<&'static str> {
    let kinds = KINDS.iter().map(|row| row.0);
    kinds.chain(ROLES.iter().map(|row| row.0)).collect()
}

/// What an accepted model shows.
pub fn of_model(m: &Model) -> Seen {
    let has = |kind: u8| m.nodes.iter().any(|n| n.kind == kind);
    let kinds = KINDS.iter().filter(|row| has(row.1)).map(|row| row.0);
    kinds.chain(in_roles(m, &trees(m), ROLES)).collect()
}

/// For each node: does its tree have one of the kinds?
fn trees(m: &Model) -> Vec<bool> {
    super::trees(m, |n| ARITHMETIC.contains(&m.nodes[n].kind))
}

/// An operator that is worked out in an expression. b is told also where it is
/// not asked for, as a has a fault.
struct Operation {
    kind: u8,
    role: Role,
    a: Result<i32, u8>,
    b: Result<i32, u8>,
}

impl Operation {
    /// What a kind makes of the operands.
    fn with(&self, kind: u8) -> Result<i32, u8> {
        operate(kind, self.a?, self.b?)
    }

    fn done(&self, kind: u8) -> bool {
        self.kind == kind && self.with(kind).is_ok()
    }

    /// Is it done, on operands with these signs?
    fn signs(&self, kind: u8, a: i32, b: i32) -> bool {
        self.done(kind) && (self.a.map(i32::signum), self.b.map(i32::signum)) == (Ok(a), Ok(b))
    }

    /// Is it done where mod and rem differ, and so the quotients cut and rounded
    /// down?
    fn uneven(&self, kind: u8) -> bool {
        self.done(kind) && self.with(MOD) != self.with(REM)
    }

    fn of_zero(&self, kind: u8) -> bool {
        self.done(kind) && self.a == Ok(0)
    }

    /// Is it a division, done, with this divisor?
    fn by(&self, b: i32) -> bool {
        divides(self.kind) && self.done(self.kind) && self.b == Ok(b)
    }

    /// Is it a product, before it is ranged, from `low` to `high`?
    fn product(&self, low: i64, high: i64) -> bool {
        let product = self.a.and_then(|a| Ok(a as i64 * self.b? as i64));
        self.kind == PRODUCT && product.is_ok_and(|p| (low..=high).contains(&p))
    }
}

type Row = (&'static str, fn(&Operation) -> bool);

const END: i64 = TOP as i64;
const FAR: i64 = END * END;

/// Each operator, done.
pub const OPERATORS: [&str; 4] = ["product", "quotient", "mod", "rem"];

/// What operators that are done can show.
const DONE: &[Row] = &[
    (OPERATORS[0], |o| o.done(PRODUCT)),
    (OPERATORS[1], |o| o.done(QUOTIENT)),
    (OPERATORS[2], |o| o.done(MOD)),
    (OPERATORS[3], |o| o.done(REM)),
    ("product of + and +", |o| o.signs(PRODUCT, 1, 1)),
    ("product of + and -", |o| o.signs(PRODUCT, 1, -1)),
    ("product of - and +", |o| o.signs(PRODUCT, -1, 1)),
    ("product of - and -", |o| o.signs(PRODUCT, -1, -1)),
    ("quotient of + and +", |o| o.signs(QUOTIENT, 1, 1)),
    ("quotient of + and -", |o| o.signs(QUOTIENT, 1, -1)),
    ("quotient of - and +", |o| o.signs(QUOTIENT, -1, 1)),
    ("quotient of - and -", |o| o.signs(QUOTIENT, -1, -1)),
    ("mod of + and +", |o| o.signs(MOD, 1, 1)),
    ("mod of + and -", |o| o.signs(MOD, 1, -1)),
    ("mod of - and +", |o| o.signs(MOD, -1, 1)),
    ("mod of - and -", |o| o.signs(MOD, -1, -1)),
    ("rem of + and +", |o| o.signs(REM, 1, 1)),
    ("rem of + and -", |o| o.signs(REM, 1, -1)),
    ("rem of - and +", |o| o.signs(REM, -1, 1)),
    ("rem of - and -", |o| o.signs(REM, -1, -1)),
    ("quotient, other than rounded down", |o| o.uneven(QUOTIENT)),
    ("mod, other than rem", |o| o.uneven(MOD)),
    ("rem, other than mod", |o| o.uneven(REM)),
    ("quotient of 0", |o| o.of_zero(QUOTIENT)),
    ("mod of 0", |o| o.of_zero(MOD)),
    ("rem of 0", |o| o.of_zero(REM)),
    ("a divisor of 1", |o| o.by(1)),
    ("a divisor of -1", |o| o.by(-1)),
    ("an end divided by -1", |o| {
        o.by(-1) && (o.a == Ok(TOP) || o.a == Ok(-TOP))
    }),
    ("the upper end as a", |o| o.done(o.kind) && o.a == Ok(TOP)),
    ("the lower end as a", |o| o.done(o.kind) && o.a == Ok(-TOP)),
    ("the upper end as b", |o| o.done(o.kind) && o.b == Ok(TOP)),
    ("the lower end as b", |o| o.done(o.kind) && o.b == Ok(-TOP)),
    ("a product at the upper end", |o| o.product(END, END)),
    ("a product at the lower end", |o| o.product(-END, -END)),
    ("a product just inside the upper end", |o| {
        o.product(END - 100_000, END - 1)
    }),
    ("a product just inside the lower end", |o| {
        o.product(-END + 1, -END + 100_000)
    }),
];

/// What a played session can show, but for its faults.
pub fn done() -> Vec<&'static str> {
    DONE.iter().map(|row| row.0).collect()
}

/// The faults of single operators.
const FAULTS: &[Row] = &[
    ("a product above the range, fault 1", |o| {
        o.product(END + 1, FAR)
    }),
    ("a product below the range, fault 1", |o| {
        o.product(-FAR, -END - 1)
    }),
    ("a product one past the upper end", |o| {
        o.product(END + 1, END + 1)
    }),
    ("a product one past the lower end", |o| {
        o.product(-END - 1, -END - 1)
    }),
    ("0 divided by 0, fault 4", |o| {
        divides(o.kind) && (o.a, o.b) == (Ok(0), Ok(0))
    }),
    ("a's fault before a divisor of 0", |o| {
        divides(o.kind) && o.a.is_err() && o.b == Ok(0)
    }),
    ("b's fault in place of a divisor", |o| {
        divides(o.kind) && o.a.is_ok() && o.b.is_err()
    }),
    ("a's fault 1 before b's fault 4", |o| {
        (o.a, o.b) == (Err(OUT_OF_RANGE), Err(DIVISOR_ZERO))
    }),
    ("a's fault 4 before b's fault 1", |o| {
        (o.a, o.b) == (Err(DIVISOR_ZERO), Err(OUT_OF_RANGE))
    }),
];

/// Fault 4 of each kind in each role.
const BY_ZERO: &[(&str, u8, Role)] = &[
    (
        "quotient by 0 in a variable's value",
        QUOTIENT,
        VariableValue,
    ),
    ("quotient by 0 in a signal's value", QUOTIENT, SignalValue),
    ("quotient by 0 in a delay", QUOTIENT, Delay),
    ("quotient by 0 in a null's delay", QUOTIENT, NullDelay),
    ("quotient by 0 in `unless`", QUOTIENT, Unless),
    ("quotient by 0 in a wait's condition", QUOTIENT, Until),
    ("quotient by 0 in a wait's time", QUOTIENT, For),
    ("mod by 0 in a variable's value", MOD, VariableValue),
    ("mod by 0 in a signal's value", MOD, SignalValue),
    ("mod by 0 in a delay", MOD, Delay),
    ("mod by 0 in a null's delay", MOD, NullDelay),
    ("mod by 0 in `unless`", MOD, Unless),
    ("mod by 0 in a wait's condition", MOD, Until),
    ("mod by 0 in a wait's time", MOD, For),
    ("rem by 0 in a variable's value", REM, VariableValue),
    ("rem by 0 in a signal's value", REM, SignalValue),
    ("rem by 0 in a delay", REM, Delay),
    ("rem by 0 in a null's delay", REM, NullDelay),
    ("rem by 0 in `unless`", REM, Unless),
    ("rem by 0 in a wait's condition", REM, Until),
    ("rem by 0 in a wait's time", REM, For),
];

const SKIPPED: &str = "a divisor of 0 skipped by `and`, `or`";
const ONE_BEFORE_FOUR: &str = "a value's fault 1 before a delay's 4";
const FOUR_BEFORE_ONE: &str = "a value's fault 4 before a delay's 1";
const FOUR_BEFORE_TWO: &str = "a value's fault 4, the delay negative";

/// The faults among what a played session can show.
pub fn faults() -> Vec<&'static str> {
    let others = [SKIPPED, ONE_BEFORE_FOUR, FOUR_BEFORE_ONE, FOUR_BEFORE_TWO];
    let single = FAULTS.iter().map(|row| row.0);
    let by_zero = BY_ZERO.iter().map(|row| row.0);
    single.chain(by_zero).chain(others).collect()
}

/// What a session's orders show on an accepted model.
pub fn of_session(m: &Model, orders: &[u8]) -> Seen {
    let trees = trees(m);
    let has = |s: &StatementRecord| roots(s).iter().any(|&n| trees[n as usize]);
    let statements: Vec<bool> = m.statements.iter().map(has).collect();
    if !statements.contains(&true) {
        return Seen::new();
    }
    let mut play = Play {
        m,
        c: Config::first(m),
        trees,
        statements,
        seen: Seen::new(),
    };
    replay(&mut play, orders);
    play.seen
}

/// A session as it goes on.
struct Play<'m> {
    m: &'m Model,
    c: Config,
    /// The nodes and the statements whose trees have one of the kinds.
    trees: Vec<bool>,
    statements: Vec<bool>,
    seen: Seen,
}

impl Player for Play<'_> {
    fn config(&self) -> &Config {
        &self.c
    }

    fn pick(&mut self, p: usize) {
        let place = ready_place(&self.c, p);
        if let Some(place) = place.filter(|&n| self.statements[n]) {
            self.statement(self.m.statements[place]);
        }
        // What is refused changes nothing.
        let _ = self.c.pick(self.m, p);
    }

    fn step(&mut self, step: Step) {
        for condition in step_asking(self.m, &mut self.c, step) {
            self.expression(condition, Until);
        }
    }
}

impl Play<'_> {
    fn see(&mut self, what: &'static str, when: bool) {
        if when {
            self.seen.insert(what);
        }
    }

    fn value(&self, node: u16) -> Result<Value, u8> {
        let value = self.c.evaluate(self.m, node);
        value.map_err(|fault| fault.number)
    }

    fn number(&self, node: u16) -> Result<i32, u8> {
        self.value(node).map(Value::raw)
    }

    /// Looks at the expressions that a pick of the statement works out.
    fn statement(&mut self, s: StatementRecord) {
        for (role, node) in expressions(&s) {
            if role == Until {
                // It is asked for in a delta step.
                continue;
            }
            self.expression(node, role);
            if role == SignalValue && self.value(node).is_err() {
                return self.two_faults(node, s.c);
            }
        }
    }

    /// Looks at a delay behind a value that has a fault.
    fn two_faults(&mut self, value: u16, delay: u16) {
        let (value, delay) = (self.number(value), self.number(delay));
        let (one, four) = (Err(OUT_OF_RANGE), Err(DIVISOR_ZERO));
        self.see(ONE_BEFORE_FOUR, (value, delay) == (one, four));
        self.see(FOUR_BEFORE_ONE, (value, delay) == (four, one));
        self.see(FOUR_BEFORE_TWO, value == four && delay.is_ok_and(|d| d < 0));
    }

    /// Looks at the operators that a node's tree works out, a before b.
    fn expression(&mut self, node: u16, role: Role) {
        if !self.trees[node as usize] {
            return;
        }
        let n = self.m.nodes[node as usize];
        self.expression(n.a, role);
        let a = self.value(n.a);
        if decides(self.m, &self.c, &n) {
            let skipped = self.number(n.b) == Err(DIVISOR_ZERO);
            self.see(SKIPPED, skipped);
        } else if operands(&n).len() == 2 && a.is_ok() {
            self.expression(n.b, role);
        }
        if ARITHMETIC.contains(&n.kind) {
            self.operation(&Operation {
                kind: n.kind,
                role,
                a: a.map(Value::raw),
                b: self.number(n.b),
            });
        }
    }

    fn operation(&mut self, o: &Operation) {
        for (name, shows) in DONE.iter().chain(FAULTS) {
            self.see(name, shows(o));
        }
        let by_zero = o.a.is_ok() && o.b == Ok(0);
        for &(name, kind, role) in BY_ZERO {
            self.see(name, by_zero && (kind, role) == (o.kind, o.role));
        }
    }
}

#[cfg(test)]
mod tests {
    use super::*;
    use crate::builder::Builder;
    use crate::cases::*;

    fn shown(b: &Builder) -> Seen {
        of_session(&b.m, &watched(b, 3))
    }

    /// What one operator on constants shows.
    fn of(x: i32, kind: u8, y: i32) -> Vec<&'static str> {
        let seen = shown(&sum(x, kind, y));
        let all = [done(), faults()].concat();
        all.into_iter().filter(|what| seen.contains(what)).collect()
    }

    #[test]
    fn operators() {
        assert!(of(TOP, SUM, 1).is_empty());
        assert_eq!(of(0, PRODUCT, 3), ["product"]);
        assert_eq!(of(7, QUOTIENT, 3), ["quotient", "quotient of + and +"]);
        assert_eq!(
            of(-7, QUOTIENT, 3),
            [
                "quotient",
                "quotient of - and +",
                "quotient, other than rounded down"
            ]
        );
        assert_eq!(of(-6, QUOTIENT, 3), ["quotient", "quotient of - and +"]);
        assert_eq!(
            of(7, MOD, -3),
            ["mod", "mod of + and -", "mod, other than rem"]
        );
        assert_eq!(of(-7, REM, -3), ["rem", "rem of - and -"]);
        assert_eq!(of(0, REM, -1), ["rem", "rem of 0", "a divisor of -1"]);
        assert_eq!(
            of(-TOP, QUOTIENT, -1),
            [
                "quotient",
                "quotient of - and -",
                "a divisor of -1",
                "an end divided by -1",
                "the lower end as a"
            ]
        );
        assert_eq!(
            of(1, PRODUCT, TOP),
            [
                "product",
                "product of + and +",
                "the upper end as b",
                "a product at the upper end"
            ]
        );
        assert_eq!(
            of(-2, PRODUCT, TOP / 2),
            [
                "product",
                "product of - and +",
                "a product just inside the lower end"
            ]
        );
    }

    #[test]
    fn faults_of_operators() {
        assert_eq!(
            of(-2, PRODUCT, TOP / 2 + 1),
            [
                "a product below the range, fault 1",
                "a product one past the lower end"
            ]
        );
        assert_eq!(
            of(TOP, PRODUCT, TOP),
            ["a product above the range, fault 1"]
        );
        let by_zero = "rem by 0 in a variable's value";
        assert_eq!(of(7, REM, 0), [by_zero]);
        assert_eq!(of(0, REM, 0), ["0 divided by 0, fault 4", by_zero]);
    }

    #[test]
    fn a_divisor_of_zero_in_each_role() {
        for &(name, kind, role) in BY_ZERO {
            assert_eq!(shown(&by_zero(kind, role)), Seen::from([name]));
        }
    }

    #[test]
    fn two_faults() {
        let (over, by_zero) = ((TOP, SUM, 1), (1, REM, 0));
        let (zero, two) = ((1, DIFFERENCE, 1), (1, SUM, 1));
        let own = "rem by 0 in a variable's value";
        for (x, y, names) in [
            (over, zero, vec!["a's fault before a divisor of 0"]),
            (two, over, vec!["b's fault in place of a divisor"]),
            (over, by_zero, vec!["a's fault 1 before b's fault 4"]),
            (by_zero, over, vec!["a's fault 4 before b's fault 1", own]),
            (two, by_zero, vec!["b's fault in place of a divisor", own]),
        ] {
            let seen = shown(&nested(x, MOD, y));
            assert_eq!(seen, names.into_iter().collect(), "{x:?} mod {y:?}");
        }
        let minus = (-5, SUM, 0);
        let own = "rem by 0 in a signal's value";
        for (value, delay, names) in [
            (over, by_zero, vec![ONE_BEFORE_FOUR]),
            (by_zero, over, vec![FOUR_BEFORE_ONE, own]),
            (by_zero, minus, vec![FOUR_BEFORE_TWO, own]),
            (by_zero, two, vec![own]),
            (two, by_zero, vec!["rem by 0 in a delay"]),
        ] {
            let seen = shown(&scheduled(value, delay));
            assert_eq!(seen, names.into_iter().collect(), "{value:?}, {delay:?}");
        }
    }

    #[test]
    fn what_is_skipped() {
        for (kind, left, skips) in [(7, 0, true), (7, 1, false), (8, 1, true), (8, 0, false)] {
            let mut b = sum(1, MOD, 0);
            let v = b.variable(BOOLEAN, 0, left);
            let (read, asks) = (b.read_variable(v), b.binary(14, 2, 1));
            let both = b.binary(kind, read, asks);
            b.m.statements[0].a = v;
            b.m.statements[0].b = both;
            let by_zero = "mod by 0 in a variable's value";
            let name = if skips { SKIPPED } else { by_zero };
            assert_eq!(shown(&b), Seen::from([name]));
        }
    }

    #[test]
    fn models() {
        let names = |b: &Builder| of_model(&b.m).into_iter().collect::<Vec<_>>();
        assert!(names(&sum(1, SUM, 1)).is_empty());
        for &(name, role) in ROLES {
            assert_eq!(names(&by_zero(MOD, role)), ["a mod's node", name]);
        }
        let mut b = sum(1, PRODUCT, 1);
        b.m.statements[0].b = 0;
        assert_eq!(names(&b), ["a product's node"]);
    }
}
