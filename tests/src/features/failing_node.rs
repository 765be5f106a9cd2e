//! What sessions show of the node at fault, by name. A session is played again pick
//! by pick; where a process stops in an expression, the way from its top node down
//! to the one that failed is followed.

use super::{decides, ready_place, replay, step_asking, trees, Player, Seen};
use crate::cycle::*;
use crate::integers::*;
use crate::model::Role::*;
use crate::model::*;

/// Where a fault comes up.
#[derive(Clone, Copy, Debug, PartialEq, Eq)]
enum By {
    /// A pick's answer tells it.
    Pick,
    Settle,
    Set,
    /// A wait's condition in a delta step.
    Delta,
}

/// What is met on the way down an expression, in the order of evaluation.
#[derive(Clone, Copy, Debug, Default, PartialEq, Eq)]
struct Way {
    /// The node that fails is below one that could fail itself.
    below: bool,
    /// It is in an operand b; a has a value.
    after_a: bool,
    /// It is in an operand a, and b would fail too: the operator's kind, the lowest
    /// such one.
    before_b: Option<u8>,
    /// An operand that is skipped would fail.
    skipped: bool,
}

/// A node that failed.
struct Failure {
    by: By,
    number: u8,
    /// Its kind and number.
    kind: u8,
    node: u16,
    /// What the expression is in its statement, and its top node.
    role: Role,
    top: u16,
    way: Way,
    /// The delay behind it would fail too.
    late: bool,
    /// How many expressions of statements have it.
    trees: usize,
}

type Row = (&'static str, fn(&Failure) -> bool);

/// A node that fails in a wait's condition, kept in the configuration alone.
pub const CONDITION: &str = "a node fails in a wait's condition";

/// What a node that failed can show.
const FAILURES: &[Row] = &[
    ("fault 1 told by a pick, its top node", |f| f.told(1, true)),
    ("fault 1 told by a pick, an inner node", |f| {
        f.told(1, false)
    }),
    ("fault 4 told by a pick, its top node", |f| f.told(4, true)),
    ("fault 4 told by a pick, an inner node", |f| {
        f.told(4, false)
    }),
    ("a node above 255 told by a pick", |f| {
        f.by == By::Pick && f.node > 255
    }),
    ("a node fails in a settle", |f| f.by == By::Settle),
    ("a node fails in a set order", |f| f.by == By::Set),
    ("a sum fails", |f| f.kind == SUM),
    ("a difference fails", |f| f.kind == DIFFERENCE),
    ("a product fails", |f| f.kind == PRODUCT),
    ("a quotient fails", |f| f.kind == QUOTIENT),
    ("a mod fails", |f| f.kind == MOD),
    ("a rem fails", |f| f.kind == REM),
    ("a node fails in a variable's value", |f| {
        f.role == VariableValue
    }),
    ("a node fails in a signal's value", |f| {
        f.role == SignalValue
    }),
    ("a node fails in a delay, behind a value", |f| {
        f.role == Delay
    }),
    ("a node fails in a null's delay", |f| f.role == NullDelay),
    ("a node fails in `unless`", |f| f.role == Unless),
    ("a node fails in a wait's time", |f| f.role == For),
    (CONDITION, |f| f.by == By::Delta),
    ("a node above 255 fails in a condition", |f| {
        f.by == By::Delta && f.node > 255
    }),
    ("a node fails below another operator", |f| f.way.below),
    ("b fails behind a value of a", |f| f.way.after_a),
    ("a sum's a fails, b would fail too", |f| {
        f.way.before_b == Some(SUM)
    }),
    ("a difference's a fails, b would fail too", |f| {
        f.way.before_b == Some(DIFFERENCE)
    }),
    ("a product's a fails, b would fail too", |f| {
        f.way.before_b == Some(PRODUCT)
    }),
    ("a division's a fails, b would fail too", |f| {
        matches!(f.way.before_b, Some(QUOTIENT | MOD | REM))
    }),
    ("a relation's a fails, b would fail too", |f| {
        matches!(f.way.before_b, Some(13 | 14))
    }),
    ("a of `and`, `or`, `xor` fails, b would fail too", |f| {
        matches!(f.way.before_b, Some(7..=9))
    }),
    ("a value fails, its delay would fail too", |f| f.late),
    ("a node of several trees fails", |f| f.trees > 1),
];

/// The faults of statements themselves, by number and kind.
const OF_STATEMENTS: &[(&str, u8, u8)] = &[
    ("no node for fault 2 of a transaction", NEGATIVE_DELAY, 2),
    ("no node for fault 2 of a null", NEGATIVE_DELAY, 6),
    ("no node for fault 2 of a wait", NEGATIVE_DELAY, 5),
    ("no node for fault 3 of a transaction", NINTH, 2),
    ("no node for fault 3 of a null", NINTH, 6),
];

const TOLD_2: &str = "fault 2 told by a pick, no node";
const TOLD_3: &str = "fault 3 told by a pick, no node";
const SKIPPED: &str = "a skipped operand would fail, no fault";
const TWO_NODES: &str = "processes stopped at different nodes";
const AGAIN: &str = "a stopped process picked, refused";

/// What a played session can show.
pub fn faults() -> Vec<&'static str> {
    let failures = FAILURES.iter().map(|row| row.0);
    let of_statements = OF_STATEMENTS.iter().map(|row| row.0);
    failures
        .chain(of_statements)
        .chain([TOLD_2, TOLD_3, SKIPPED, TWO_NODES, AGAIN])
        .collect()
}

impl Failure {
    /// Does a pick's answer tell this fault, at the top node or at one below?
    fn told(&self, number: u8, top: bool) -> bool {
        self.by == By::Pick && self.number == number && (self.node == self.top) == top
    }
}

/// What a session's orders show on an accepted model.
pub fn of_session(m: &Model, orders: &[u8]) -> Seen {
    let mut play = Play {
        m,
        c: Config::first(m),
        skipping: skipping(m),
        seen: Seen::new(),
    };
    replay(&mut play, orders);
    play.end();
    play.seen
}

/// Can the node's own operation fail?
fn can_fail(n: &NodeRecord) -> bool {
    matches!(n.kind, SUM | DIFFERENCE) || ARITHMETIC.contains(&n.kind)
}

/// For each node: does its tree have an `and` or `or` whose b could fail?
fn skipping(m: &Model) -> Vec<bool> {
    let (mut failing, mut list): (Vec<bool>, Vec<bool>) = (vec![], vec![]);
    for n in &m.nodes {
        let any = |of: &[bool]| operands(n).iter().any(|&o| of[o as usize]);
        let skips = matches!(n.kind, 7 | 8) && failing[n.b as usize];
        let (below, fails) = (any(&list), any(&failing));
        list.push(below || skips);
        failing.push(fails || can_fail(n));
    }
    list
}

/// How many expressions of statements have the node.
fn trees_with(m: &Model, node: u16) -> usize {
    let has = trees(m, |n| n == node as usize);
    let tops = m.statements.iter().flat_map(roots);
    tops.filter(|&top| has[top as usize]).count()
}

/// A session as it goes on.
struct Play<'m> {
    m: &'m Model,
    c: Config,
    /// The nodes whose trees may skip an operand that fails.
    skipping: Vec<bool>,
    seen: Seen,
}

impl Player for Play<'_> {
    fn config(&self) -> &Config {
        &self.c
    }

    fn pick(&mut self, p: usize) {
        self.picked(p, By::Settle);
    }

    fn pick_ordered(&mut self, p: usize) {
        let process = self.c.processes.get(p);
        let stopped = process.is_some_and(|p| p.standing == STOPPED);
        self.see(AGAIN, stopped);
        self.picked(p, By::Pick);
    }

    fn pick_in_set(&mut self, p: usize) {
        self.picked(p, By::Set);
    }

    fn step(&mut self, step: Step) {
        for condition in step_asking(self.m, &mut self.c, step) {
            self.expression(By::Delta, Until, condition, false);
        }
    }
}

impl Play<'_> {
    fn see(&mut self, what: &'static str, when: bool) {
        if when {
            self.seen.insert(what);
        }
    }

    fn fails(&self, node: u16) -> bool {
        self.c.evaluate(self.m, node).is_err()
    }

    fn picked(&mut self, p: usize, by: By) {
        let Some(place) = ready_place(&self.c, p) else {
            return;
        };
        let s = self.m.statements[place];
        self.statement(by, &s);
        let done = self.c.pick(self.m, p);
        let fault = done.map_or(0, |p| p.fault);
        self.see(TOLD_2, by == By::Pick && fault == NEGATIVE_DELAY);
        self.see(TOLD_3, by == By::Pick && fault == NINTH);
        for &(name, number, kind) in OF_STATEMENTS {
            self.see(name, (number, kind) == (fault, s.kind));
        }
    }

    /// Looks at the expressions that a pick of the statement works out.
    fn statement(&mut self, by: By, s: &StatementRecord) {
        for (role, top) in expressions(s) {
            // A wait's condition is asked for in a delta step.
            if role == Until {
                continue;
            }
            let late = role == SignalValue && self.fails(s.c);
            self.expression(by, role, top, late);
            if self.fails(top) {
                return;
            }
        }
    }

    /// Looks at an expression that is worked out.
    fn expression(&mut self, by: By, role: Role, top: u16, late: bool) {
        let Err(fault) = self.c.evaluate(self.m, top) else {
            if self.skipping[top as usize] {
                let mut way = Way::default();
                self.walk(top, &mut way);
                self.see(SKIPPED, way.skipped);
            }
            return;
        };
        let mut way = Way::default();
        let node = self.walk(top, &mut way).expect("some node fails");
        let failure = Failure {
            by,
            number: fault.number,
            kind: self.m.nodes[node as usize].kind,
            node,
            role,
            top,
            way,
            late,
            trees: trees_with(self.m, node),
        };
        for (name, shows) in FAILURES {
            self.see(name, shows(&failure));
        }
    }

    /// Goes down an expression, a before b, to the first node whose operands have
    /// values and which fails itself.
    fn walk(&self, node: u16, way: &mut Way) -> Option<u16> {
        let n = &self.m.nodes[node as usize];
        let operands = operands(n);
        for (at, &operand) in operands.iter().enumerate() {
            if at == 1 && decides(self.m, &self.c, n) {
                way.skipped |= self.fails(operand);
                break;
            }
            if let Some(found) = self.walk(operand, way) {
                way.below |= can_fail(n);
                way.after_a |= at == 1;
                if at == 0 && operands.len() == 2 && self.fails(n.b) {
                    way.before_b.get_or_insert(n.kind);
                }
                return Some(found);
            }
        }
        self.fails(node).then_some(node)
    }

    /// Looks at the end configuration.
    fn end(&mut self) {
        let of_nodes = |p: &&Process| [OUT_OF_RANGE, DIVISOR_ZERO].contains(&p.fault);
        let stopped = self.c.processes.iter().filter(of_nodes);
        let nodes: Vec<u16> = stopped.map(|p| p.node).collect();
        self.see(TWO_NODES, nodes.iter().any(|&n| n != nodes[0]));
    }
}

#[cfg(test)]
mod tests {
    use super::*;
    use crate::builder::Builder;
    use crate::cases::*;
    use crate::gen;
    use crate::session::session;

    fn shown(b: &Builder, list: &[Order]) -> Vec<&'static str> {
        let seen = of_session(&b.m, &orders(list));
        faults()
            .into_iter()
            .filter(|what| seen.contains(what))
            .collect()
    }

    const FIRST: [Order; 1] = [(PICK, 0, 0)];
    const SETTLED: [Order; 1] = [(SETTLE, 0, 9)];
    const STEPPED: [Order; 3] = [(SETTLE, 0, 9), (TIME, 0, 0), (DELTA, 0, 0)];

    // The order of evaluation once more: what fails is the node that the walk comes
    // to, at each node of models as their sessions leave them.
    #[test]
    fn the_walk_ends_at_the_node_at_fault() {
        let mut failing = 0;
        for seed in 0..3_000 {
            let case = gen::session_case(seed);
            let mut answers = vec![0; case.room];
            let (number, c) = session(&case.model, &case.orders, &mut answers);
            if number != 0 {
                continue;
            }
            let m = load(&case.model).unwrap();
            let play = Play {
                m: &m,
                c,
                skipping: vec![],
                seen: Seen::new(),
            };
            for node in 0..m.nodes.len() as u16 {
                let told = play.c.evaluate(&m, node).err().map(|fault| fault.node);
                let found = play.walk(node, &mut Way::default());
                assert_eq!(found, told, "seed {seed}, node {node}");
                failing += (told.is_some_and(|n| n != node)) as usize;
            }
        }
        assert!(failing > 1_000, "{failing} nodes fail below");
    }

    #[test]
    fn picks_and_settles() {
        let quotient = ["a quotient fails", "a node fails in a variable's value"];
        let of_pick = [&["fault 4 told by a pick, its top node"][..], &quotient].concat();
        let of_settle = [&["a node fails in a settle"][..], &quotient].concat();
        let of_set = [&["a node fails in a set order"][..], &quotient].concat();
        let b = sum(7, QUOTIENT, 0);
        assert_eq!(shown(&b, &FIRST), of_pick);
        assert_eq!(shown(&b, &SETTLED), of_settle);
        assert_eq!(shown(&b, &[(PICK_SET, 0, 1)]), of_set);
        assert!(shown(&b, &[(PICK_SET, 0, 3), (PICK_SET, 1, 1)]).is_empty());
        let twice = [of_pick, vec![AGAIN]].concat();
        assert_eq!(shown(&b, &[(PICK, 0, 0), (PICK, 0, 0)]), twice);
        assert!(shown(&sum(7, QUOTIENT, 1), &[(PICK, 0, 0), (PICK, 9, 0)]).is_empty());
    }

    /// What the fault of an operator on two others shows.
    fn of_nested(x: Operation, y: Operation) -> Vec<&'static str> {
        let mut names = shown(&nested(x, SUM, y), &FIRST);
        names.retain(|what| *what != "a node fails in a variable's value");
        names
    }

    #[test]
    fn inner_nodes() {
        let (over, by_zero, two) = ((TOP, DIFFERENCE, -1), (1, MOD, 0), (1, SUM, 1));
        let below = "a node fails below another operator";
        let one = [
            "fault 1 told by a pick, an inner node",
            "a difference fails",
            below,
        ];
        let four = [
            "fault 4 told by a pick, an inner node",
            "a mod fails",
            below,
        ];
        let behind = "b fails behind a value of a";
        let before = "a sum's a fails, b would fail too";
        assert_eq!(of_nested(over, two), one);
        assert_eq!(of_nested(two, over), [&one[..], &[behind]].concat());
        assert_eq!(of_nested(over, by_zero), [&one[..], &[before]].concat());
        assert_eq!(of_nested(by_zero, two), four);
        assert_eq!(of_nested(by_zero, over), [&four[..], &[before]].concat());
        assert_eq!(
            of_nested((TOP, PRODUCT, 1), two),
            ["fault 1 told by a pick, its top node", "a sum fails"]
        );
    }

    #[test]
    fn values_and_delays() {
        let (over, by_zero, two) = ((TOP, PRODUCT, 2), (1, REM, 0), (1, SUM, 1));
        let late = "a value fails, its delay would fail too";
        for (value, delay, names) in [
            (
                by_zero,
                two,
                vec!["a rem fails", "a node fails in a signal's value"],
            ),
            (
                over,
                by_zero,
                vec!["a product fails", "a node fails in a signal's value", late],
            ),
            (
                two,
                by_zero,
                vec!["a rem fails", "a node fails in a delay, behind a value"],
            ),
        ] {
            let names = [&["a node fails in a settle"][..], &names].concat();
            assert_eq!(shown(&scheduled(value, delay), &SETTLED), names);
        }
    }

    #[test]
    fn every_role() {
        for (role, name) in [
            (VariableValue, "a node fails in a variable's value"),
            (SignalValue, "a node fails in a signal's value"),
            (Delay, "a node fails in a delay, behind a value"),
            (NullDelay, "a node fails in a null's delay"),
            (Unless, "a node fails in `unless`"),
            (For, "a node fails in a wait's time"),
        ] {
            let names = ["a node fails in a settle", "a mod fails", name];
            assert_eq!(shown(&by_zero(MOD, role), &SETTLED), names);
        }
        let names = ["a mod fails", CONDITION];
        assert_eq!(shown(&by_zero(MOD, Until), &STEPPED), names);
        assert!(shown(&by_zero(MOD, Until), &STEPPED[..2]).is_empty());
        let names = [
            "a sum fails",
            "a quotient fails",
            CONDITION,
            "b fails behind a value of a",
            TWO_NODES,
        ];
        assert_eq!(shown(&failing_conditions(), &STEPPED), names);
    }

    #[test]
    fn numbers_and_trees() {
        let several = "a node of several trees fails";
        let names = shown(&shared_node(), &SETTLED);
        assert!(names.contains(&several) && !names.contains(&TWO_NODES));
        for (name, b, (_, node)) in failing_expressions() {
            let names = shown(&b, &FIRST);
            let high = names.contains(&"a node above 255 told by a pick");
            assert_eq!(high, node > 255, "{name}");
            assert!(!names.contains(&several));
        }
        // Nodes from 260 on.
        let mut b = failing_conditions();
        gen::shift_nodes(
            &mut b.m,
            vec![
                NodeRecord {
                    kind: 1,
                    ..Default::default()
                };
                260
            ],
        );
        assert!(shown(&b, &STEPPED).contains(&"a node above 255 fails in a condition"));
    }

    #[test]
    fn what_is_skipped() {
        for kind in [7, 8, 9] {
            for left in [false, true] {
                let skips = (kind, left) == (7, false) || (kind, left) == (8, true);
                let names = shown(&decided(left, kind), &FIRST);
                assert_eq!(names == [SKIPPED], skips, "{left}, kind {kind}");
                assert_eq!(names.contains(&"a quotient fails"), !skips);
            }
        }
    }

    #[test]
    fn faults_without_a_node() {
        let minus = (-1, SUM, 0);
        let two = "no node for fault 2 of a transaction";
        assert_eq!(shown(&scheduled(minus, minus), &FIRST), [two, TOLD_2]);
        assert_eq!(shown(&scheduled(minus, minus), &SETTLED), [two]);
        let two = "no node for fault 2 of a wait";
        assert_eq!(shown(&wait_for(minus), &FIRST), [two, TOLD_2]);
        let two = "no node for fault 2 of a null";
        assert_eq!(shown(&null_after(-1, 0), &SETTLED), [two]);
        let three = "no node for fault 3 of a null";
        let eight = [(SETTLE, 0, 8), (PICK, 0, 0)];
        assert_eq!(shown(&null_after(9, 0), &eight), [three, TOLD_3]);
        let nine = line(&[1, 2, 3, 4, 5, 6, 7, 8, 9]);
        let three = "no node for fault 3 of a transaction";
        assert_eq!(shown(&nine, &eight), [three, TOLD_3]);
    }
}
