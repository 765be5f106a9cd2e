//! Models whose processes calculate: products, quotients, mods and rems of
//! operands at both ends of the range, around zero and between, wherever an
//! expression may stand. Many processes end in a fault.

use crate::builder::Builder;
use crate::integers::*;
use crate::model::Role::*;
use crate::model::*;
use crate::operands;
use crate::rng::Rng;

/// The signal that all processes drive; each has an integer signal of its own.
const LINE: u16 = 0;

/// The roles of expressions that a pick works out; a signal's value twice as often.
const PICKED: [Role; 7] = [
    VariableValue,
    SignalValue,
    SignalValue,
    Delay,
    NullDelay,
    Unless,
    For,
];

/// No process has more nodes.
const MOST_NODES: usize = 60;

struct Maker<'r> {
    rng: &'r mut Rng,
    b: Builder,
    /// The open process.
    process: u8,
    /// Its variable for results.
    result: u16,
    /// Expressions with a fault that any process may use.
    shared: Vec<u16>,
}

/// A random accepted model.
pub fn model(rng: &mut Rng) -> Model {
    let mut b = Builder::new();
    let processes = rng.range(2, 14) as u8;
    b.signal_of(LOGIC, rng.choose(&[BUS, REGISTER]), 2);
    for _ in 0..processes {
        b.signal(INTEGER, 0);
    }
    let mut maker = Maker {
        rng,
        b,
        process: 0,
        result: 0,
        shared: vec![],
    };
    // A process that stops keeps the others from a delta step, where conditions
    // are asked for: in a model the faults are all in conditions, or none is.
    let roles: &[Role] = match maker.rng.chance(3, 10) {
        true => &[Until],
        false => &PICKED,
    };
    let (pause, faults) = (maker.rng.chance(2, 3), maker.rng.chance(4, 5));
    for _ in 0..processes {
        if maker.b.m.nodes.len() + MOST_NODES <= 400 {
            maker.body(pause, faults, roles);
        }
    }
    maker.b.m
}

impl Maker<'_> {
    /// A process of a few calculations, a pause of one unit or none, and a fault or
    /// none.
    fn body(&mut self, pause: bool, faults: bool, roles: &[Role]) {
        self.process = self.b.process();
        self.result = self.b.variable(INTEGER, self.process, 0);
        self.b.driver(self.process, LINE);
        self.b.driver(self.process, self.signal());
        for _ in 0..self.rng.range(1, 3) {
            self.calculation();
        }
        if pause {
            let one = self.b.integer(1);
            self.b.wait(0, ABSENT, one);
        }
        if faults && self.rng.chance(5, 6) {
            let role = self.rng.choose(roles);
            let fault = self.fault();
            self.put(role, fault, true);
        }
        let turn = self.b.integer(7);
        let c = self.rng.choose(&[ABSENT, turn]);
        self.b.wait(0, ABSENT, c);
    }

    /// The integer signal of the open process.
    fn signal(&self) -> u16 {
        LINE + 1 + self.process as u16
    }

    /// A leaf with this value: a constant, or a variable or a signal that starts
    /// there.
    fn leaf(&mut self, value: i32) -> u16 {
        match self.rng.below(4) {
            0 if self.b.m.variables.len() < 50 => {
                let v = self.b.variable(INTEGER, self.process, value);
                self.b.read_variable(v)
            }
            1 if self.b.m.signals.len() < 32 => {
                let s = self.b.signal(INTEGER, value);
                if self.rng.chance(1, 2) {
                    self.b.read_signal(s)
                } else {
                    self.b.delayed(s, self.rng.below(32) as i32)
                }
            }
            _ => self.b.integer(value),
        }
    }

    fn operator(&mut self, kind: u8, (a, b): (i32, i32)) -> u16 {
        let (a, b) = (self.leaf(a), self.leaf(b));
        self.b.binary(kind, a, b)
    }

    /// A kind and operands that come to such a result.
    fn operation(&mut self, kinds: &[u8], fits: fn(Result<i32, u8>) -> bool) -> (u8, (i32, i32)) {
        loop {
            let (kind, (a, b)) = (self.rng.choose(kinds), operands::pair(self.rng));
            if fits(operate(kind, a, b)) {
                return (kind, (a, b));
            }
        }
    }

    /// A statement with an operator that is done.
    fn calculation(&mut self) {
        let (kind, (a, b)) = self.operation(&[PRODUCT, PRODUCT, QUOTIENT, MOD, REM], |r| r.is_ok());
        let mut node = self.operator(kind, (a, b));
        let mut value = operate(kind, a, b).expect("it is done");
        if self.rng.chance(1, 3) {
            // Another one on top.
            let (kind, b) = (self.rng.choose(&ARITHMETIC), operands::pair(self.rng).1);
            if let Ok(more) = operate(kind, value, b) {
                let b = self.leaf(b);
                (node, value) = (self.b.binary(kind, node, b), more);
            }
        }
        let role = self.rng.choose(&[&PICKED[..], &[Until]].concat());
        match role {
            Delay | NullDelay | For if value < 0 => self.put(SignalValue, node, false),
            _ => self.put(role, node, false),
        }
    }

    /// A division by 0.
    fn by_zero(&mut self) -> u16 {
        let kind = self.rng.choose(&[QUOTIENT, MOD, REM]);
        let a = operands::pair(self.rng).0;
        let a = self.rng.choose(&[a, a, 0]);
        self.operator(kind, (a, 0))
    }

    /// A product, or now and then a sum or a difference, out of range.
    fn too_large(&mut self) -> u16 {
        let kinds = [PRODUCT, PRODUCT, PRODUCT, SUM, DIFFERENCE];
        let (kind, pair) = self.operation(&kinds, |r| r.is_err());
        self.operator(kind, pair)
    }

    /// An expression with a fault, now and then one that another statement has.
    fn fault(&mut self) -> u16 {
        if !self.shared.is_empty() && self.rng.chance(1, 8) {
            return self.rng.choose(&self.shared);
        }
        let first = self.b.m.nodes.len();
        let node = self.new_fault();
        if self.b.m.nodes[first..].iter().all(|n| n.kind != 3) {
            self.shared.push(node);
        }
        node
    }

    /// An expression with a fault; some have another one behind the first.
    fn new_fault(&mut self) -> u16 {
        let kinds = [SUM, DIFFERENCE, PRODUCT, QUOTIENT, MOD, REM];
        let kind = self.rng.choose(&kinds);
        let (a, b) = match self.rng.weighted(&[18, 4, 2, 2, 3, 3]) {
            0 => return self.by_zero(),
            1 => return self.too_large(),
            2 => (self.too_large(), self.leaf(0)),
            3 => {
                let fault = self.rng.choose(&[Maker::too_large, Maker::by_zero]);
                (self.leaf(7), fault(self))
            }
            4 => (self.too_large(), self.by_zero()),
            _ => (self.by_zero(), self.too_large()),
        };
        self.b.binary(kind, a, b)
    }

    /// A condition that compares an integer. Now and then it is the second operand
    /// of `and` or `or`, which may skip it; and behind one with a fault there may be
    /// another.
    fn condition(&mut self, node: u16, fault: bool) -> u16 {
        let (relation, k) = (self.rng.choose(&[13, 14]), self.leaf(0));
        match self.rng.weighted(&[8, 5, 2, 2]) {
            2 if fault => {
                let other = self.by_zero();
                self.b.binary(relation, node, other)
            }
            3 if fault => {
                let (other, asks) = (self.by_zero(), self.b.binary(relation, node, k));
                let other = self.b.binary(14, other, k);
                let kind = self.rng.choose(&[7, 8, 9]);
                self.b.binary(kind, asks, other)
            }
            1 => {
                let asks = self.b.binary(14, node, k);
                let decides = self.b.binary(relation, k, k);
                let kind = self.rng.choose(&[7, 8]);
                self.b.binary(kind, decides, asks)
            }
            _ => self.b.binary(14, node, k),
        }
    }

    /// Puts an integer expression into a statement, in this role; behind a value
    /// with a fault the delay may have one too.
    fn put(&mut self, role: Role, node: u16, fault: bool) {
        let (s, next) = (self.signal(), self.b.m.statements.len() as u16 + 1);
        let soon = self.rng.below(3) as i32;
        let soon = self.b.integer(soon);
        let other = operands::pair(self.rng).0;
        // Transport or inertial.
        let kind = self.rng.choose(&[2, 2, 7]);
        match role {
            VariableValue => self.b.assign(self.result, node),
            SignalValue => {
                let delay = if fault { self.late(soon) } else { soon };
                self.b.statement(kind, s, node, delay, 0)
            }
            Delay => {
                let value = self.leaf(other);
                self.b.statement(kind, s, value, node, 0)
            }
            NullDelay => self.b.release(LINE, node),
            Unless => {
                let condition = self.condition(node, fault);
                self.b.unless(condition, next)
            }
            Until => {
                let value = self.leaf(other);
                let condition = self.condition(node, fault);
                let turn = self.b.integer(5);
                self.b.schedule(s, value, soon);
                self.b.wait(1 << s, condition, turn)
            }
            For => self.b.wait(0, ABSENT, node),
        };
    }

    /// The delay behind a value that has a fault: mostly one with a fault of its own.
    fn late(&mut self, soon: u16) -> u16 {
        match self.rng.weighted(&[1, 4, 4, 7]) {
            0 => soon,
            1 => self.leaf(-1),
            2 => self.too_large(),
            _ => self.by_zero(),
        }
    }
}
