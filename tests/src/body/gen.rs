//! Seeded random bodies and given records: mostly accepted models, of types that fit, now
//! and then of any types; and their texts.

use super::records::{given, model};
use super::spell::{pieces, set, Setting};
use super::tree::*;
use crate::integers::{DIFFERENCE, MOD, PRODUCT, QUOTIENT, REM, SUM, TOP};
use crate::model::*;
use crate::rng::Rng;

/// A body with the records that it is given: signals, variables and drivers of a model.
#[derive(Clone, Debug, Default)]
pub struct Draft {
    pub body: Body,
    pub m: Model,
}

impl Draft {
    /// The number of its model.
    pub fn number(&self, rng: &mut Rng) -> u32 {
        let text = set(rng, &pieces(&self.body), Setting::Even);
        model(&text, &given(&self.m)).err().unwrap_or(0)
    }
}

/// Random given records.
pub fn given_records(rng: &mut Rng) -> Model {
    let mut m = Model::default();
    let signals = match rng.weighted(&[1, 16, 6, 2]) {
        0 => 0,
        1 => 1 + rng.below(6),
        2 => 1 + rng.below(32),
        _ => 32,
    };
    for n in 0..signals {
        let ty = rng.choose(&[INTEGER, LOGIC]);
        let kind = match ty == LOGIC && rng.chance(1, 5) {
            true => rng.choose(&[BUS, REGISTER]),
            false => PLAIN,
        };
        let start = start(rng, ty);
        m.signals.push(SignalRecord { ty, kind, start });
        if rng.chance(4, 5) {
            let (process, signal) = (0, n as u8);
            m.drivers.push(DriverRecord { process, signal });
        }
    }
    let variables = match rng.weighted(&[1, 16, 6, 2]) {
        0 => 0,
        1 => 1 + rng.below(8),
        2 => 1 + rng.below(64),
        _ => 64,
    };
    for _ in 0..variables {
        let ty = rng.choose(&[INTEGER, INTEGER, LOGIC, BOOLEAN]);
        let (process, start) = (0, start(rng, ty));
        m.variables.push(VariableRecord { ty, process, start });
    }
    m
}

fn start(rng: &mut Rng, ty: u8) -> i32 {
    match ty {
        INTEGER if rng.chance(1, 12) => rng.choose(&[TOP, -TOP, TOP - 1]),
        INTEGER => rng.range(-3, 6) as i32,
        LOGIC => rng.below(9) as i32,
        _ => rng.below(2) as i32,
    }
}

/// What a body is made of.
#[derive(Clone, Copy)]
pub struct Style {
    /// Most nodes and statements.
    pub nodes: usize,
    pub statements: usize,
    /// Nesting is preferred.
    pub deep: bool,
    /// Ends of the range, divisors of 0 and negative delays occur.
    pub wild: bool,
    /// One expression in so many has any type.
    pub ill: Option<usize>,
}

impl Style {
    pub fn random(rng: &mut Rng) -> Style {
        Style {
            nodes: rng.choose(&[20, 60, 120, 400]),
            statements: rng.choose(&[4, 12, 40, 200]),
            deep: rng.chance(1, 5),
            wild: rng.chance(1, 2),
            ill: None,
        }
    }
}

struct Maker<'r> {
    rng: &'r mut Rng,
    style: Style,
    m: Model,
    body: Body,
    /// Nodes made.
    nodes: usize,
}

/// A body by the style, with its given records.
pub fn draft(rng: &mut Rng, style: Style) -> Draft {
    let m = given_records(rng);
    body_of(rng, style, m)
}

/// A body by the style, for given records.
pub fn body_of(rng: &mut Rng, style: Style, m: Model) -> Draft {
    let mut maker = Maker {
        rng,
        style,
        m,
        body: Body::default(),
        nodes: 0,
    };
    let mut list = maker.list(0, style.statements.saturating_sub(1).max(1));
    if makes(&list) < style.statements && maker.rng.chance(7, 8) {
        let wait = maker.wait();
        list.push(wait);
    }
    maker.body.list = list;
    Draft {
        body: maker.body,
        m: maker.m,
    }
}

impl Maker<'_> {
    fn left(&self) -> usize {
        self.style.nodes.saturating_sub(self.nodes)
    }

    fn put(&mut self, e: Expression) -> usize {
        self.nodes += 1;
        self.body.add(e)
    }

    fn integer(&mut self) -> usize {
        let k = if self.style.wild && self.rng.chance(1, 5) {
            self.rng.choose(&[TOP, TOP - 1, TOP / 2 + 1, 0, 65_536])
        } else if self.rng.chance(1, 6) {
            self.rng.below(300) as i32
        } else {
            self.rng.below(7) as i32
        };
        self.put(Expression::Integer(k))
    }

    fn named(&mut self, ty: u8) -> Option<Expression> {
        let list = self.m.variables.iter().enumerate();
        let own = list.filter(|(_, v)| v.ty == ty);
        let variables: Vec<u8> = own.map(|(n, _)| n as u8).collect();
        let list = self.m.signals.iter().enumerate();
        let own = list.filter(|(_, s)| s.ty == ty);
        let signals: Vec<u8> = own.map(|(n, _)| n as u8).collect();
        let (has_variables, has_signals) = (!variables.is_empty(), !signals.is_empty());
        if !has_variables && !has_signals {
            return None;
        }
        let weights = [
            4 * has_variables as usize,
            3 * has_signals as usize,
            2 * has_signals as usize,
        ];
        Some(match self.rng.weighted(&weights) {
            0 => Expression::Variable(self.rng.choose(&variables)),
            1 => Expression::Signal(self.rng.choose(&signals)),
            _ => {
                let k = match self.rng.below(4) {
                    0 => 0,
                    1 => 1 + self.rng.below(3),
                    _ => self.rng.below(32),
                };
                Expression::Delayed(self.rng.choose(&signals), k as u8)
            }
        })
    }

    /// A literal or a name, of integers or logic values.
    fn leaf(&mut self, ty: u8) -> usize {
        let name = self.named(ty).filter(|_| self.rng.chance(2, 3));
        match name {
            Some(e) => self.put(e),
            None if ty == LOGIC => {
                let code = match self.rng.chance(1, 2) {
                    true => self.rng.choose(&[2, 3]),
                    false => self.rng.below(9) as u8,
                };
                self.put(Expression::Logic(code))
            }
            None => self.integer(),
        }
    }

    /// An expression of at most `budget` nodes; a boolean one may have three all the same.
    fn expression(&mut self, ty: u8, budget: usize) -> usize {
        let ty = match self.style.ill {
            Some(many) if self.rng.chance(1, many) => self.rng.below(3) as u8,
            _ => ty,
        };
        if ty == BOOLEAN {
            return self.boolean(budget);
        }
        let weights = [4, 2 * (budget >= 2) as usize, 6 * (budget >= 3) as usize];
        match self.rng.weighted(&weights) {
            0 => self.leaf(ty),
            1 => {
                let kind = if ty == LOGIC { NOT } else { NEGATE };
                let a = self.expression(ty, budget - 1);
                self.put(Expression::One(kind, a))
            }
            _ => {
                let kind = match ty {
                    LOGIC => self.rng.choose(&[7, 8, 9]),
                    _ => self.rng.choose(&[
                        SUM, SUM, SUM, DIFFERENCE, DIFFERENCE, PRODUCT, QUOTIENT, MOD, REM,
                    ]),
                };
                let divides = matches!(kind, QUOTIENT | MOD | REM);
                let tame = divides && !self.rng.chance(1, if self.style.wild { 3 } else { 40 });
                if tame {
                    let a = self.expression(ty, budget - 2);
                    let k = 1 + self.rng.below(9) as i32;
                    let b = self.put(Expression::Integer(k));
                    return self.put(Expression::Two(kind, a, b));
                }
                self.two(kind, [ty; 2], budget, 1)
            }
        }
    }

    /// An operator on two operands; which of them is made first does not matter.
    fn two(&mut self, kind: u8, types: [u8; 2], budget: usize, least: usize) -> usize {
        let free = (budget - 1).saturating_sub(2 * least);
        let first = least + self.rng.below(free + 1);
        let budgets = [first, (budget - 1).saturating_sub(first).max(least)];
        let mut made = [0; 2];
        let order = self.rng.choose(&[[0, 1], [1, 0]]);
        for n in order {
            made[n] = self.expression(types[n], budgets[n]);
        }
        self.put(Expression::Two(kind, made[0], made[1]))
    }

    fn boolean(&mut self, budget: usize) -> usize {
        let name = match self.rng.chance(1, 4) || budget < 3 {
            true => self.named(BOOLEAN),
            false => None,
        };
        if let Some(e) = name {
            return self.put(e);
        }
        let budget = budget.max(3);
        if self.style.wild && budget >= 9 && self.rng.chance(1, 5) {
            // A second operand that fails, unless the first decides.
            let a = self.boolean(budget - 6);
            let [one, zero, k] = [1, 0, 0].map(|k| self.put(Expression::Integer(k)));
            let kind = self.rng.choose(&[QUOTIENT, MOD, REM]);
            let fails = self.put(Expression::Two(kind, one, zero));
            let b = self.put(Expression::Two(13, fails, k));
            let kind = self.rng.choose(&[7, 8]);
            return self.put(Expression::Two(kind, a, b));
        }
        let weights = [
            3,
            3,
            4,
            2 * (budget >= 4) as usize,
            5 * (budget >= 7) as usize,
        ];
        match self.rng.weighted(&weights) {
            0 => self.two(13, [LOGIC; 2], budget, 1),
            1 => self.two(13, [INTEGER; 2], budget, 1),
            2 => self.two(14, [INTEGER; 2], budget, 1),
            3 => {
                let a = self.boolean(budget - 1);
                self.put(Expression::One(NOT, a))
            }
            _ => {
                let kind = self.rng.choose(&[7, 7, 8, 8, 9]);
                self.two(kind, [BOOLEAN; 2], budget, 3)
            }
        }
    }

    /// A value of this type, mostly small.
    fn value(&mut self, ty: u8) -> usize {
        let budget = match self.rng.weighted(&[10, 10, 4, 1]) {
            0 => 1,
            1 => 1 + self.rng.below(6),
            2 => 4 + self.rng.below(20),
            _ => 64,
        };
        self.expression(ty, budget.min(self.left().max(3)).min(60))
    }

    fn delay(&mut self) -> usize {
        match self.rng.weighted(&[12, 3, self.style.wild as usize]) {
            0 => {
                let k = match self.rng.below(4) {
                    0 => 0,
                    3 => self.rng.below(40),
                    _ => 1 + self.rng.below(4),
                };
                self.put(Expression::Integer(k as i32))
            }
            1 => self.expression(INTEGER, 4),
            _ => {
                let one = self.put(Expression::Integer(1));
                self.put(Expression::One(NEGATE, one))
            }
        }
    }

    fn wait(&mut self) -> Statement {
        let mut wait = Wait::default();
        let signals = self.m.signals.len();
        if signals > 0 && self.rng.chance(2, 5) {
            let many = match self.rng.chance(1, 20) {
                true => 1 + self.rng.below(40),
                false => 1 + self.rng.below(4),
            };
            let names = (0..many).map(|_| self.rng.below(signals) as u8);
            wait.on = Some(names.collect());
        }
        if self.left() >= 8 && self.rng.chance(2, 5) {
            let budget = 3 + self.rng.below(8);
            wait.until = Some(self.expression(BOOLEAN, budget));
        }
        if self.left() >= 8 && self.rng.chance(3, 5) {
            wait.span = Some(self.delay());
        }
        Statement::Wait(wait)
    }

    /// Statements that make at most `room` records, at least one.
    fn list(&mut self, level: usize, room: usize) -> List {
        let mut list = vec![];
        let mut used = 0;
        let many = match self.rng.weighted(&[3, 4, 2, 1]) {
            0 => 1,
            1 => 1 + self.rng.below(4),
            2 => 1 + self.rng.below(12),
            _ => room,
        };
        let many = match level {
            0 if !self.style.deep => room.min(1 + self.rng.below(40)),
            _ if self.style.deep => many.min(2),
            _ => many,
        };
        while list.is_empty() || (used < room && list.len() < many) {
            let more = self.some(level, room - used);
            used += more.iter().map(Statement::makes).sum::<usize>();
            list.extend(more);
        }
        list
    }

    /// A statement, or a few that belong together.
    fn some(&mut self, level: usize, room: usize) -> List {
        let fits = level < LEVELS && self.left() >= 16;
        let nests = match self.style.deep {
            true => self.rng.chance(5, 6),
            false => self.rng.chance(1, 4),
        };
        if fits && nests && room >= 6 && self.rng.chance(1, 3) {
            if let Some(list) = self.counted(level, room) {
                return list;
            }
        }
        if fits && nests && room >= 5 && self.rng.chance(3, 5) {
            let condition = self.condition();
            let half = (room - 3) / 2;
            let (then, other) = match self.style.deep && self.rng.chance(1, 2) {
                // All the room to one of the branches.
                true => {
                    let then = self.list(level + 1, 1);
                    let left = room - 3 - makes(&then);
                    (then, self.list(level + 1, left))
                }
                false => {
                    let then = self.list(level + 1, half);
                    (then, self.list(level + 1, half))
                }
            };
            return vec![Statement::If(condition, then, other)];
        }
        if fits && nests && room >= 4 {
            let condition = self.condition();
            let list = self.list(level + 1, room - 3);
            return vec![Statement::While(condition, list)];
        }
        vec![self.simple()]
    }

    fn condition(&mut self) -> usize {
        if self.style.wild && self.rng.chance(1, 4) {
            // One that may fail.
            let a = self.leaf(INTEGER);
            let b = self.leaf(INTEGER);
            let kind = self.rng.choose(&[SUM, PRODUCT, QUOTIENT, MOD, REM]);
            let (a, b) = (self.put(Expression::Two(kind, a, b)), self.leaf(INTEGER));
            return self.put(Expression::Two(14, a, b));
        }
        let budget = 3 + self.rng.below(7);
        self.expression(BOOLEAN, budget)
    }

    /// A variable counts the turns of a loop.
    fn counted(&mut self, level: usize, room: usize) -> Option<List> {
        let list = self.m.variables.iter().enumerate();
        let own = list.filter(|(_, v)| v.ty == INTEGER);
        let integers: Vec<u8> = own.map(|(n, _)| n as u8).collect();
        if integers.is_empty() {
            return None;
        }
        let v = self.rng.choose(&integers);
        let zero = self.put(Expression::Integer(0));
        let read = self.put(Expression::Variable(v));
        let turns = self.rng.choose(&[1, 2, 3, 5, 12]);
        let top = self.put(Expression::Integer(turns));
        let less = self.put(Expression::Two(14, read, top));
        let mut inner = match self.driven().filter(|_| self.rng.chance(1, 2)) {
            // A transaction a turn, each later than the last: more than eight are one too many.
            Some(s) => {
                let value = self.value(self.m.signals[s as usize].ty);
                let after = self.put(Expression::Variable(v));
                vec![Statement::Schedule(s, value, after)]
            }
            None => self.list(level + 1, room - 5),
        };
        let (read, one) = (
            self.put(Expression::Variable(v)),
            self.put(Expression::Integer(1)),
        );
        let next = self.put(Expression::Two(SUM, read, one));
        inner.push(Statement::Assign(v, next));
        Some(vec![
            Statement::Assign(v, zero),
            Statement::While(less, inner),
        ])
    }

    /// A signal with a driver.
    fn driven(&mut self) -> Option<u8> {
        match self.m.drivers.is_empty() {
            true => None,
            false => Some(self.rng.choose(&self.m.drivers).signal),
        }
    }

    fn simple(&mut self) -> Statement {
        let full = self.left() < 8;
        let weights = [2, 5 * !full as usize, 5 * !full as usize, 4];
        match self.rng.weighted(&weights) {
            1 if !self.m.variables.is_empty() => {
                let v = self.rng.below(self.m.variables.len());
                let e = self.value(self.m.variables[v].ty);
                Statement::Assign(v as u8, e)
            }
            2 => match self.driven() {
                Some(s) => {
                    let value = self.value(self.m.signals[s as usize].ty);
                    Statement::Schedule(s, value, self.delay())
                }
                None => Statement::Null,
            },
            3 => self.wait(),
            _ => Statement::Null,
        }
    }
}

/// How a text is set, each in its turn.
pub fn setting(rng: &mut Rng) -> Setting {
    match rng.weighted(&[3, 1, 4]) {
        0 => Setting::Close,
        1 => Setting::Even,
        _ => Setting::Free,
    }
}

/// A draft whose model is accepted.
pub fn accepted(rng: &mut Rng) -> Draft {
    loop {
        let style = Style::random(rng);
        let draft = draft(rng, style);
        if draft.number(rng) == 0 {
            return draft;
        }
    }
}
