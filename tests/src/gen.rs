//! Seeded random models that are accepted, and order lists for them.

mod calculation;
mod crowds;
mod edges;
mod lines;
pub mod loops;
pub mod numbering;
mod pulses;
pub mod tables;
mod waves;

use crate::builder::Builder;
use crate::cycle::{Config, DELTA_LIMIT, READY, STOPPED, WAITING};
use crate::damage;
use crate::features;
use crate::integers::*;
use crate::model::*;
use crate::moves::ADVANCE;
use crate::numbers;
use crate::rng::Rng;
use crate::session::{self, DELTA, TIME};

/// Operators on constants that have a fault.
const FAULTS: [(u8, i32, i32); 5] = [
    (SUM, TOP, 1),
    (PRODUCT, -TOP, 2),
    (QUOTIENT, 1, 0),
    (MOD, -1, 0),
    (REM, 0, 0),
];

/// Builds a model and keeps for each node its type, the size of its tree and
/// the processes whose variables its tree reads (bit p for process p).
struct Maker<'r> {
    rng: &'r mut Rng,
    b: Builder,
    types: Vec<u8>,
    sizes: Vec<usize>,
    readers: Vec<u32>,
    /// Values at the ends of the range, negative delays and crowded
    /// waveforms occur.
    wild: bool,
    /// Delays of 0 occur.
    deltas: bool,
    /// So many assignments of four are inertial.
    inertial: usize,
}

impl Maker<'_> {
    fn node(&mut self, kind: u8, a: u16, b: u16, k: i32) -> u16 {
        let (x, y) = (a as usize, b as usize);
        let (ty, size, readers) = match kind {
            1 => (INTEGER, 1, 0),
            2 => (LOGIC, 1, 0),
            3 => (
                self.b.m.variables[x].ty,
                1,
                1 << self.b.m.variables[x].process,
            ),
            4 | 5 => (self.b.m.signals[x].ty, 1, 0),
            6 | 10 => (self.types[x], 1 + self.sizes[x], self.readers[x]),
            _ => (
                if kind == 13 || kind == 14 {
                    BOOLEAN
                } else {
                    self.types[x]
                },
                1 + self.sizes[x] + self.sizes[y],
                self.readers[x] | self.readers[y],
            ),
        };
        self.types.push(ty);
        self.sizes.push(size);
        self.readers.push(readers);
        self.b.node(kind, a, b, k)
    }

    fn count(&self) -> usize {
        self.types.len()
    }

    fn usable(&self, n: usize, ty: u8, process: u8, budget: usize) -> bool {
        self.types[n] == ty && self.sizes[n] <= budget && self.readers[n] & !(1 << process) == 0
    }

    /// An existing node of that type that this process may use.
    fn reuse(&mut self, ty: u8, process: u8, budget: usize) -> Option<u16> {
        for _ in 0..6 {
            let n = self.rng.below(self.count());
            if self.usable(n, ty, process, budget) {
                return Some(n as u16);
            }
        }
        (0..self.count())
            .find(|&n| self.usable(n, ty, process, budget))
            .map(|n| n as u16)
    }

    fn constant(&mut self) -> i32 {
        if self.wild && self.rng.chance(1, 4) {
            match self.rng.below(6) {
                0 => TOP,
                1 => -TOP,
                2 => TOP - self.rng.below(3) as i32,
                3 => -TOP + self.rng.below(3) as i32,
                4 => self.rng.choose(&[TOP / 2, TOP / 2 + 1, -TOP / 2 - 1]),
                _ => self.rng.range(-TOP as i64, TOP as i64) as i32,
            }
        } else if self.rng.chance(1, 8) {
            self.rng.range(-300, 300) as i32
        } else {
            self.rng.range(-2, 6) as i32
        }
    }

    fn logic_constant(&mut self) -> i32 {
        if self.rng.chance(1, 2) {
            self.rng.choose(&[2, 3])
        } else {
            self.rng.below(9) as i32
        }
    }

    fn variables_of(&self, ty: u8, process: u8) -> Vec<u16> {
        let list = self.b.m.variables.iter().enumerate();
        list.filter(|(_, v)| v.ty == ty && v.process == process)
            .map(|(n, _)| n as u16)
            .collect()
    }

    fn signals_of(&self, ty: u8) -> Vec<u16> {
        let list = self.b.m.signals.iter().enumerate();
        list.filter(|(_, s)| s.ty == ty)
            .map(|(n, _)| n as u16)
            .collect()
    }

    /// A constant, variable or signal; integer or logic.
    fn leaf(&mut self, ty: u8, process: u8) -> u16 {
        let variables = self.variables_of(ty, process);
        let signals = self.signals_of(ty);
        let weights = [
            3,
            if variables.is_empty() { 0 } else { 4 },
            if signals.is_empty() { 0 } else { 4 },
            if signals.is_empty() { 0 } else { 2 },
        ];
        match self.rng.weighted(&weights) {
            0 if ty == INTEGER => {
                let k = self.constant();
                self.node(1, 0, 0, k)
            }
            0 => {
                let k = self.logic_constant();
                self.node(2, 0, 0, k)
            }
            1 => {
                let v = self.rng.choose(&variables);
                self.node(3, v, 0, 0)
            }
            2 => {
                let s = self.rng.choose(&signals);
                self.node(4, s, 0, 0)
            }
            _ => {
                let s = self.rng.choose(&signals);
                let k = self.units();
                self.node(5, s, 0, k)
            }
        }
    }

    /// By how much a read of the past is delayed.
    fn units(&mut self) -> i32 {
        if self.deltas && self.rng.chance(1, 2) {
            return 0;
        }
        let most = self.rng.choose(&[5, 31]);
        self.rng.range(1, most) as i32
    }

    /// An expression of at most `budget` nodes (a boolean one at least 3).
    fn expression(&mut self, ty: u8, process: u8, budget: usize) -> u16 {
        if self.count() + budget > 400 || self.rng.chance(1, 5) {
            if let Some(n) = self.reuse(ty, process, budget) {
                return n;
            }
        }
        let half = |rng: &mut Rng, least: usize| {
            let free = budget - 1 - 2 * least;
            let left = least + rng.below(free + 1);
            (left, budget - 1 - left)
        };
        if ty == BOOLEAN {
            if self.wild && budget >= 9 && self.rng.chance(1, 5) {
                // `and` or `or` with a second operand that faults.
                let a = self.expression(BOOLEAN, process, budget - 6);
                let (kind, x, y) = self.rng.choose(&FAULTS);
                let (x, y) = (self.node(1, 0, 0, x), self.node(1, 0, 0, y));
                let fault = self.node(kind, x, y, 0);
                let bad = self.node(13, fault, y, 0);
                let kind = self.rng.choose(&[7, 8]);
                return self.node(kind, a, bad, 0);
            }
            let variables = self.variables_of(BOOLEAN, process);
            let weights = [
                if variables.is_empty() { 0 } else { 3 },
                3,
                3,
                4,
                if budget >= 4 { 2 } else { 0 },
                if budget >= 7 { 5 } else { 0 },
            ];
            return match self.rng.weighted(&weights) {
                0 => {
                    let v = self.rng.choose(&variables);
                    self.node(3, v, 0, 0)
                }
                form @ 1..=3 => {
                    let (left, right) = half(self.rng, 1);
                    let operand = if form == 1 { LOGIC } else { INTEGER };
                    let a = self.expression(operand, process, left);
                    let b = self.expression(operand, process, right);
                    self.node(if form == 3 { 14 } else { 13 }, a, b, 0)
                }
                4 => {
                    let a = self.expression(BOOLEAN, process, budget - 1);
                    self.node(6, a, 0, 0)
                }
                _ => {
                    let (left, right) = half(self.rng, 3);
                    let a = self.expression(BOOLEAN, process, left);
                    let b = self.expression(BOOLEAN, process, right);
                    let kind = self.rng.choose(&[7, 7, 8, 8, 9]);
                    self.node(kind, a, b, 0)
                }
            };
        }
        let form = self.rng.weighted(&[
            4,
            if budget >= 2 { 2 } else { 0 },
            if budget >= 3 { 6 } else { 0 },
        ]);
        match form {
            0 => self.leaf(ty, process),
            1 => {
                let a = self.expression(ty, process, budget - 1);
                self.node(if ty == LOGIC { 6 } else { 10 }, a, 0, 0)
            }
            _ => {
                let (left, right) = half(self.rng, 1);
                let a = self.expression(ty, process, left);
                let (kind, b) = if ty == LOGIC {
                    let b = self.expression(ty, process, right);
                    (self.rng.choose(&[7, 8, 9]), b)
                } else {
                    self.operator(process, right)
                };
                self.node(kind, a, b, 0)
            }
        }
    }

    /// An operator on integers and its second operand: mostly a small factor, and
    /// a divisor other than 0.
    fn operator(&mut self, process: u8, budget: usize) -> (u8, u16) {
        let sums = [SUM, SUM, SUM, DIFFERENCE, DIFFERENCE, DIFFERENCE];
        let kind = self.rng.choose(&[&sums[..], &ARITHMETIC].concat());
        let any = if self.wild { 4 } else { 20 };
        if sums.contains(&kind) || self.rng.chance(1, any) {
            return (kind, self.expression(INTEGER, process, budget));
        }
        let k = match kind {
            PRODUCT => self.rng.range(-3, 3) as i32,
            _ => match self.constant() {
                0 => 10,
                k => k,
            },
        };
        (kind, self.node(1, 0, 0, k))
    }

    /// Grows a node's tree to 64 nodes over repeats.
    fn stretch(&mut self, mut n: u16) -> u16 {
        while self.sizes[n as usize] < 64 && self.count() < 400 {
            let logic = self.types[n as usize] != INTEGER;
            n = if 2 * self.sizes[n as usize] < 64 {
                let kind = match logic {
                    true => 9,
                    false => self.rng.choose(&[DIFFERENCE, DIFFERENCE, PRODUCT, MOD]),
                };
                self.node(kind, n, n, 0)
            } else {
                self.node(if logic { 6 } else { 10 }, n, 0, 0)
            };
        }
        n
    }

    fn value(&mut self, ty: u8, process: u8) -> u16 {
        let budget = match self.rng.weighted(&[30, 50, 18, 2]) {
            0 => 3,
            1 => self.rng.range(3, 8) as usize,
            2 => self.rng.range(7, 24) as usize,
            _ => 64,
        };
        let n = self.expression(ty, process, budget);
        if self.rng.chance(1, 120) {
            self.stretch(n)
        } else {
            n
        }
    }

    fn delay(&mut self, process: u8) -> u16 {
        if self.count() + 8 > 400 {
            return self.reuse(INTEGER, process, 64).expect("a constant exists");
        }
        let wild = self.wild as usize;
        let k = match self.rng.weighted(&[9, 14, 5, 2, 4 * wild, 2 * wild, wild]) {
            0 => 0,
            1 => self.rng.range(1, 4) as i32,
            2 => self.rng.range(5, 40) as i32,
            3 => self.rng.choose(&[1_000, 65_535, 65_536, 1_000_000, TOP]),
            4 => return self.expression(INTEGER, process, 5),
            5 => -(self.rng.range(1, 3) as i32),
            _ => self.constant(),
        };
        self.node(1, 0, 0, k)
    }

    /// Is the signal a bus or a register?
    fn guarded(&self, signal: u16) -> bool {
        self.b.m.signals[signal as usize].kind != PLAIN
    }

    /// The delay of a null: now and then one that faults.
    fn null_delay(&mut self, process: u8) -> u16 {
        if !self.wild || self.count() + 3 > 400 {
            return self.delay(process);
        }
        match self.rng.weighted(&[22, 4, 3]) {
            0 => self.delay(process),
            1 => self.node(1, 0, 0, -1),
            _ => {
                let k = self.rng.range(1, 3) as i32;
                let (top, more) = (self.node(1, 0, 0, TOP), self.node(1, 0, 0, k));
                self.node(11, top, more, 0)
            }
        }
    }

    fn wait(&mut self, process: u8) {
        let signals = self.b.m.signals.len();
        let all = if signals == 0 {
            0
        } else {
            u32::MAX >> (32 - signals)
        };
        let set = match self.rng.weighted(&[18, 35, 32, 15]) {
            1 if signals > 0 => 1 << self.rng.below(signals),
            2 => self.rng.next() as u32 & self.rng.next() as u32 & all,
            3 => all,
            _ => 0,
        };
        let b = if self.rng.chance(3, 5) {
            ABSENT
        } else if self.wild && self.count() + 5 <= 400 && self.rng.chance(1, 3) {
            self.trap()
        } else {
            let budget = self.rng.range(3, 9) as usize;
            self.expression(BOOLEAN, process, budget)
        };
        let c = if self.rng.chance(2, 5) {
            ABSENT
        } else {
            self.delay(process)
        };
        self.b.wait(set, b, c);
    }

    /// A condition that faults once an integer signal leaves its side of 0, or
    /// comes to 0.
    fn trap(&mut self) -> u16 {
        let signals = self.signals_of(INTEGER);
        let side = self.rng.choose(&[TOP, -TOP]);
        let k = self.node(1, 0, 0, side);
        let a = if signals.is_empty() {
            self.node(1, 0, 0, side.signum())
        } else {
            let s = self.rng.choose(&signals);
            self.node(4, s, 0, 0)
        };
        let kind = self.rng.choose(&[SUM, SUM, SUM, QUOTIENT, MOD, REM]);
        let trap = match kind {
            SUM => self.node(kind, a, k, 0),
            _ => self.node(kind, k, a, 0),
        };
        self.node(14, trap, k, 0)
    }

    /// A transport or an inertial assignment.
    fn schedule(&mut self, signal: u16, value: u16, delay: u16) {
        match self.rng.chance(self.inertial, 4) {
            true => self.b.inertial(signal, value, delay),
            false => self.b.schedule(signal, value, delay),
        };
    }

    /// A process that changes one of its signals time and again.
    fn clock(&mut self, process: u8, driven: &[u16]) {
        let s = self.rng.choose(driven);
        let k = match self.rng.weighted(&[2, 12, 5, 1]) {
            0 => 0,
            1 => self.rng.range(1, 5) as i32,
            2 => self.rng.range(6, 35) as i32,
            _ => self.rng.range(1_000, 100_000) as i32,
        };
        let delay = self.node(1, 0, 0, k);
        let read = self.node(4, s, 0, 0);
        let value = if self.b.m.signals[s as usize].ty == LOGIC {
            self.node(6, read, 0, 0)
        } else {
            let k = self.rng.choose(&[1, -1, 2, 3]);
            let step = self.node(1, 0, 0, k);
            let next = self.node(11, read, step, 0);
            self.turned(next)
        };
        self.schedule(s, value, delay);
        let all = u32::MAX >> (32 - self.b.m.signals.len());
        match self.rng.below(4) {
            0 => self.b.wait(1 << s, ABSENT, ABSENT),
            1 => self.b.wait(0, ABSENT, delay),
            2 => self.b.wait(1 << s, ABSENT, delay),
            _ => {
                let c = self.delay(process);
                self.b.wait(self.rng.next() as u32 & all, ABSENT, c)
            }
        };
    }

    /// The value itself, or one that stays within a few units of 0.
    fn turned(&mut self, value: u16) -> u16 {
        if self.rng.chance(2, 3) {
            return value;
        }
        let k = self.rng.choose(&[2, 3, 7, -3, -5]);
        let k = self.node(1, 0, 0, k);
        let kind = self.rng.choose(&[MOD, REM]);
        self.node(kind, value, k, 0)
    }

    /// A process that drives a bus or a register, turns its driver off and waits.
    fn on_and_off(&mut self, process: u8, lines: &[u16]) {
        // Often the first, so that processes share it.
        let any = self.rng.choose(lines);
        let s = self.rng.choose(&[lines[0], lines[0], any]);
        let k = if self.rng.chance(1, 3) {
            8
        } else {
            self.logic_constant()
        };
        let value = self.node(2, 0, 0, k);
        let on = self.rng.below(5) as i32;
        let off = on + self.rng.range(-1, 5) as i32;
        let (on, off) = (self.node(1, 0, 0, on), self.node(1, 0, 0, off.max(0)));
        self.schedule(s, value, on);
        self.b.release(s, off);
        let turn = self.rng.range(1, 9) as i32;
        let turn = self.node(1, 0, 0, turn);
        let (set, c) = match self.rng.below(4) {
            0 => (1 << s, ABSENT),
            1 => (1 << s, turn),
            2 => (0, turn),
            _ => return self.wait(process),
        };
        self.b.wait(set, ABSENT, c);
    }

    /// Adds the process with `length` statements.
    fn body(&mut self, length: usize) {
        let process = self.b.process();
        let first = self.b.m.statements.len();
        let list = self.b.m.variables.iter().enumerate();
        let variables: Vec<u16> = list
            .filter(|(_, v)| v.process == process)
            .map(|(n, _)| n as u16)
            .collect();
        let list = self.b.m.drivers.iter();
        let driven: Vec<u16> = list
            .filter(|d| d.process == process)
            .map(|d| d.signal as u16)
            .collect();
        let list = driven.iter().copied();
        let lines: Vec<u16> = list.filter(|&s| self.guarded(s)).collect();
        let target = |rng: &mut Rng, at: usize| {
            let rest = first + length - at;
            if rng.chance(17, 20) {
                // On, past this one where it can.
                (at + rng.below(rest).max((rest > 1) as usize)) as u16
            } else {
                (first + rng.below(length)) as u16
            }
        };
        let sleeps = self.rng.chance(24, 25);
        let room = self.count() + 12 <= 400;
        if length >= 3 && !lines.is_empty() && room && self.rng.chance(2, 3) {
            self.on_and_off(process, &lines);
        } else if length >= 2 && !driven.is_empty() && room && self.rng.chance(1, 3) {
            self.clock(process, &driven);
        }
        while self.b.m.statements.len() < first + length {
            let at = self.b.m.statements.len();
            let left = first + length - at;
            if left == 1 && sleeps {
                self.wait(process);
                continue;
            }
            let crowd = if self.wild { 4 } else { 28 };
            if left >= 8 && !driven.is_empty() && self.rng.chance(1, crowd) {
                let some = self.rng.choose(&[&driven, &lines]);
                let some = if some.is_empty() { &driven } else { some };
                self.burst(process, some, left);
                continue;
            }
            let weights = [
                4,
                if variables.is_empty() { 0 } else { 22 },
                if driven.is_empty() { 0 } else { 34 },
                13,
                3,
                18,
            ];
            match self.rng.weighted(&weights) {
                0 => {
                    self.b.null();
                }
                1 => {
                    let v = self.rng.choose(&variables);
                    let ty = self.b.m.variables[v as usize].ty;
                    let value = self.value(ty, process);
                    self.b.assign(v, value);
                }
                2 => {
                    let s = self.rng.choose(&driven);
                    if self.guarded(s) && self.rng.chance(2, 5) {
                        let delay = self.null_delay(process);
                        self.b.release(s, delay);
                    } else {
                        let ty = self.b.m.signals[s as usize].ty;
                        let value = self.value(ty, process);
                        let delay = self.delay(process);
                        self.schedule(s, value, delay);
                    }
                }
                3 => {
                    let condition = self.value(BOOLEAN, process);
                    let target = target(self.rng, at);
                    self.b.unless(condition, target);
                }
                4 => {
                    let target = target(self.rng, at);
                    self.b.go(target);
                }
                _ => self.wait(process),
            }
        }
    }

    /// Transactions with rising delays on one driver, around eight of them. Where inertial
    /// ones occur, some bursts have one value for all of them.
    fn burst(&mut self, process: u8, driven: &[u16], left: usize) {
        let s = self.rng.choose(driven);
        let ty = self.b.m.signals[s as usize].ty;
        let many = (self.rng.range(7, 11) as usize).min(left);
        let same = self.inertial > 0 && self.rng.chance(1, 6);
        let same = same.then(|| self.expression(ty, process, 3));
        let mut k = 0;
        for _ in 0..many {
            k += self.rng.weighted(&[1, 12, 6, 2]) as i32;
            let delay = if self.count() < 400 {
                self.node(1, 0, 0, k)
            } else {
                self.reuse(INTEGER, process, 1).expect("a constant exists")
            };
            if let Some(value) = same {
                self.schedule(s, value, delay);
            } else if self.guarded(s) && self.rng.chance(1, 2) {
                self.b.release(s, delay);
            } else {
                let value = self.expression(ty, process, 3);
                self.b.schedule(s, value, delay);
            }
        }
    }

    /// A node that no statement needs, over variables of any process.
    fn stray(&mut self) {
        let a = self.rng.below(self.count());
        let b = self.rng.below(self.count());
        let alike = self.types[a] == self.types[b];
        let kind = match self.types[a] {
            INTEGER if alike => self.rng.choose(&[11, 12, 13, 14, 15, 16, 17, 18]),
            INTEGER => 10,
            LOGIC if alike => self.rng.choose(&[7, 8, 9, 13]),
            BOOLEAN if alike => self.rng.choose(&[7, 8, 9]),
            _ => 6,
        };
        let unary = kind == 6 || kind == 10;
        if 1 + self.sizes[a] + if unary { 0 } else { self.sizes[b] } <= 64 {
            self.node(kind, a as u16, if unary { 0 } else { b as u16 }, 0);
        } else {
            self.node(1, 0, 0, 7);
        }
    }
}

fn start(maker: &mut Maker, ty: u8) -> i32 {
    match ty {
        INTEGER => maker.constant(),
        LOGIC => maker.logic_constant(),
        _ => maker.rng.below(2) as i32,
    }
}

/// A random accepted model. A tame one seldom faults.
pub fn model_of(rng: &mut Rng, wild: bool) -> Model {
    let size = rng.weighted(&[45, 40, 13, 2]);
    let (signals, variables, processes, length, full) = match size {
        0 => (
            rng.below(5),
            rng.below(5),
            rng.range(1, 3) as usize,
            8,
            false,
        ),
        1 => (
            rng.range(1, 10) as usize,
            rng.below(12),
            rng.range(1, 6) as usize,
            14,
            false,
        ),
        2 => (
            rng.range(4, 32) as usize,
            rng.below(40),
            rng.range(2, 16) as usize,
            20,
            false,
        ),
        _ => (32, 64, 16, 12, true),
    };
    let mut maker = Maker {
        rng,
        b: Builder::new(),
        types: vec![],
        sizes: vec![],
        readers: vec![],
        wild,
        deltas: false,
        inertial: 0,
    };
    maker.deltas = maker.rng.chance(1, 3);
    maker.inertial = maker.rng.choose(&[0, 0, 1, 2, 4]);
    // Plain signals alone in two models of five.
    let shared = maker.rng.chance(3, 5);
    for _ in 0..signals {
        let ty = maker.rng.weighted(&[2, 3]) as u8;
        let kind = match ty {
            LOGIC if shared => maker.rng.choose(&[PLAIN, BUS, BUS, REGISTER, REGISTER]),
            _ => PLAIN,
        };
        let value = start(&mut maker, ty);
        maker.b.signal_of(ty, kind, value);
    }
    for _ in 0..variables {
        let ty = maker.rng.below(3) as u8;
        let process = maker.rng.below(processes) as u8;
        let value = start(&mut maker, ty);
        maker.b.variable(ty, process, value);
    }
    let mut pairs: Vec<(u8, u8)> = vec![];
    for s in 0..signals {
        if maker.b.m.signals[s].ty == INTEGER {
            if maker.rng.chance(9, 10) {
                pairs.push((maker.rng.below(processes) as u8, s as u8));
            }
        } else {
            let of = if full { 2 } else { processes.max(3) };
            for p in 0..processes {
                if maker.rng.chance(if full { 1 } else { 2 }, of) {
                    pairs.push((p as u8, s as u8));
                }
            }
        }
    }
    maker.rng.shuffle(&mut pairs);
    pairs.truncate(64);
    pairs.sort();
    for (p, s) in pairs {
        maker.b.driver(p, s as u16);
    }
    // Something of each type that any process may use.
    let k = maker.constant();
    let k = if wild { k } else { maker.rng.below(3) as i32 };
    let n = maker.node(1, 0, 0, k);
    maker.node(2, 0, 0, 3);
    let kind = maker.rng.choose(&[13, 14]);
    maker.node(kind, n, n, 0);
    let mut left = 200;
    for p in 0..processes {
        // Leaves at least one for each process to come.
        let most = (left - (processes - 1 - p)).min(length);
        let mut count = 1 + maker.rng.below(most);
        if full && p == processes - 1 {
            count = left;
        }
        maker.body(count);
        left -= count;
    }
    if full {
        while maker.count() < 400 {
            maker.stray();
        }
    } else if maker.rng.chance(1, 4) {
        for _ in 0..maker.rng.below(10) {
            if maker.count() < 400 {
                maker.stray();
            }
        }
    }
    maker.b.m
}

/// A random accepted model.
pub fn model(rng: &mut Rng) -> Model {
    weighted_model(rng, &[2, 1, 1, 2, 17])
}

/// A random accepted model for a long run.
pub fn run_model(seed: u64) -> Model {
    weighted_model(&mut Rng::new(seed), &[3, 3, 3, 4, 13])
}

/// One that calculates, one that looks a delta back, one of pulses, one of lines with its
/// own resolution table, a tame or a wild one, each as likely as its weight.
fn weighted_model(rng: &mut Rng, weights: &[usize; 5]) -> Model {
    let m = match rng.weighted(weights) {
        0 => calculation::model(rng),
        1 => edges::model(rng),
        2 => pulses::model(rng),
        3 => return lines::model(rng),
        _ => {
            let wild = rng.chance(2, 5);
            model_of(rng, wild)
        }
    };
    tables::carried(rng, m)
}

/// Puts these nodes in front of the model's own.
pub fn shift_nodes(m: &mut Model, front: Vec<NodeRecord>) {
    let by = front.len() as u16;
    for n in &mut m.nodes {
        match operands(n).len() {
            0 => {}
            1 => n.a += by,
            _ => (n.a, n.b) = (n.a + by, n.b + by),
        }
    }
    for s in &mut m.statements {
        for (role, node) in expressions(s) {
            set_expression(s, role, node + by);
        }
    }
    m.nodes.splice(0..0, front);
}

/// Nodes that no statement is to use, many of them with a fault: as many as there is
/// room for beside the model's own, or fewer.
fn unused_nodes(rng: &mut Rng, own: usize) -> Vec<NodeRecord> {
    let room = 400 - own;
    let some = rng.below(room + 1);
    let more = rng.choose(&[room, some]);
    let mut b = Builder::new();
    while b.m.nodes.len() < more {
        let (kind, x, y) = rng.choose(&FAULTS);
        let (x, y) = (b.integer(x), b.integer(y));
        b.binary(kind, x, y);
    }
    b.m.nodes.truncate(more);
    b.m.nodes
}

/// A random split over blocks: full, ragged or with empty blocks.
pub fn plan(rng: &mut Rng, m: &Model) -> Plan {
    let full = full_plan(m);
    let blocks = |p: &Plan| -> usize { p.iter().map(Vec::len).sum() };
    match rng.below(8) {
        0..=2 => full,
        3 => {
            // Empty blocks up to 64, or up to some lower total.
            let mut plan = full;
            let total = if rng.chance(1, 4) {
                64
            } else {
                rng.range(8, 40) as usize
            };
            while blocks(&plan) < total {
                let kind = rng.below(KINDS);
                let at = rng.below(plan[kind].len() + 1);
                plan[kind].insert(at, 0);
            }
            plan
        }
        _ => {
            let most = rng.choose(&[3, 10, 42, 42]);
            let mut plan = Plan::default();
            for (counts, old) in plan.iter_mut().zip(&full) {
                let mut left: usize = old.iter().sum();
                while left > 0 {
                    let count = rng.below(most + 1).min(left);
                    counts.push(count);
                    left -= count;
                }
                if rng.chance(1, 6) {
                    counts.push(0);
                }
            }
            if blocks(&plan) <= 64 {
                plan
            } else {
                full
            }
        }
    }
}

pub fn order(kind: u8, argument: u8, count: u16) -> [u8; 4] {
    let [low, high] = count.to_le_bytes();
    [kind, argument, low, high]
}

fn settle_count(rng: &mut Rng) -> u16 {
    match rng.weighted(&[60, 250, 400, 270, 19, 1]) {
        0 => 0,
        1 => rng.range(1, 3) as u16,
        2 => rng.range(4, 20) as u16,
        3 => rng.range(20, 200) as u16,
        4 => rng.range(200, 2_000) as u16,
        _ => 65_535,
    }
}

/// An order with an unknown kind or an unused byte set.
fn damaged_order(rng: &mut Rng) -> [u8; 4] {
    let byte = |rng: &mut Rng| 1 + rng.below(255) as u8;
    match rng.below(6) {
        0 => [rng.choose(&[0, 2, 2, 8, 128, 255]), 0, 0, 0],
        1 => [
            8 + rng.below(248) as u8,
            rng.below(4) as u8,
            rng.below(3) as u8,
            0,
        ],
        2 => {
            let mut o = [rng.choose(&[1, 4]), rng.below(3) as u8, 0, 0];
            o[2 + rng.below(2)] = byte(rng);
            o
        }
        3 => {
            let mut o = [rng.choose(&[2, 6, 7]), 0, 0, 0];
            o[1 + rng.below(3)] = byte(rng);
            o
        }
        4 => [rng.choose(&[3, 5]), byte(rng), rng.below(20) as u8, 0],
        _ => [0, byte(rng), byte(rng), byte(rng)],
    }
}

/// The set of these processes.
pub fn set_of(list: &[usize]) -> u16 {
    list.iter().fold(0, |set, &p| set | 1 << p)
}

/// A set of some of these processes: none, one or two, all or any.
fn some_of(rng: &mut Rng, list: &[usize]) -> u16 {
    if list.is_empty() {
        return 0;
    }
    match rng.weighted(&[1, 7, 6, 6]) {
        0 => 0,
        1 => set_of(&[rng.choose(list), rng.choose(list)]),
        2 => set_of(list),
        _ => set_of(list) & rng.next() as u16,
    }
}

/// A set of ready processes and, where there are such, unknown ones, waiting ones,
/// stopped ones or several of these; now and then an unused byte besides.
fn odd_set(rng: &mut Rng, c: &Config, ready: &[usize]) -> [u8; 4] {
    let unknown = (c.processes.len()..16).collect();
    let (waiting, stopped) = (c.standing(WAITING), c.standing(STOPPED));
    let mut set = some_of(rng, ready);
    let form = rng.below(8);
    for (list, forms) in [
        (unknown, [0, 1, 2]),
        (waiting, [1, 3, 4]),
        (stopped, [2, 4, 5]),
    ] {
        if forms.contains(&form) && !list.is_empty() {
            set |= 1 << rng.choose(&list);
            if rng.chance(1, 2) {
                set |= some_of(rng, &list);
            }
        }
    }
    if form == 6 {
        set = rng.next() as u16;
    }
    let argument = match rng.chance(1, 4) {
        true => 1 + rng.below(255) as u8,
        false => 0,
    };
    order(5, argument, set)
}

/// The step that fits, now and then the other one, the order that is withdrawn or an
/// unused byte; where both are refused each is as likely.
fn step_order(rng: &mut Rng, c: &Config) -> [u8; 4] {
    let fits = c.fitting();
    let refused = c.processes.iter().any(|p| p.standing != WAITING);
    match rng.weighted(&[86, if refused { 80 } else { 9 }, 2, 3]) {
        0 => fits.order(),
        1 => fits.other().order(),
        2 => order(ADVANCE, 0, 0),
        _ => {
            let mut order = fits.order();
            order[1 + rng.below(3)] = 1 + rng.below(255) as u8;
            order
        }
    }
}

/// A list that is made as it is played.
pub struct Played<'m> {
    pub m: &'m Model,
    pub c: Config,
    pub orders: Vec<u8>,
}

impl Played<'_> {
    pub fn new(m: &Model) -> Played<'_> {
        Played {
            m,
            c: Config::first(m),
            orders: vec![],
        }
    }

    /// Plays an order; gives its refusal.
    pub fn order(&mut self, order: [u8; 4]) -> u8 {
        let mut answer = [0; 16];
        session::play(self.m, &mut self.c, &order, &mut answer);
        self.orders.extend(order);
        answer[0]
    }

    /// The step that fits.
    pub fn step(&mut self) -> u8 {
        self.order(self.c.fitting().order())
    }

    /// The other one, which is refused.
    pub fn wrong_step(&mut self) -> u8 {
        self.order(self.c.fitting().other().order())
    }
}

/// Where a process is ready, the weights of settles and of sets beside 39 for the other
/// orders.
type Habit = (usize, usize);
const SETTLES: Habit = (61, 5);
const PICKS: Habit = (3, 5);
const SETS: Habit = (6, 90);

/// An order that suits the configuration, now and then one that does not.
fn next_order(rng: &mut Rng, c: &Config, (settle, sets): Habit) -> [u8; 4] {
    let ready = c.standing(READY);
    let some_process = rng.below(c.processes.len()) as u8;
    match rng.weighted(&[20, 45, 10, 20, 20, 885]) {
        0 => return damaged_order(rng),
        1 => {
            let signals = c.signals.len();
            let signal = if signals > 0 && rng.chance(4, 5) {
                rng.below(signals)
            } else {
                rng.choose(&[signals, signals + 1, 32, 255])
            };
            return order(4, signal as u8, 0);
        }
        2 => {
            let none = c.processes.len();
            return order(1, rng.choose(&[none, none + 1, 16, 255]) as u8, 0);
        }
        3 => return order(1, some_process, 0),
        4 => return odd_set(rng, c, &ready),
        _ => {}
    }
    if ready.is_empty() {
        match rng.weighted(&[90, 5, 5]) {
            0 => step_order(rng, c),
            1 => order(3, 0, settle_count(rng)),
            _ => order(1, some_process, 0),
        }
    } else {
        match rng.weighted(&[35, settle, sets, 4]) {
            0 => {
                let any = rng.choose(&ready);
                order(1, rng.choose(&[ready[0], any]) as u8, 0)
            }
            1 => order(3, 0, settle_count(rng)),
            2 => order(5, 0, some_of(rng, &ready)),
            _ => step_order(rng, c),
        }
    }
}

/// A list of at most `most` orders, chosen as the model plays; it ends soon
/// after the model has come to rest or a process has stopped.
pub fn orders(rng: &mut Rng, m: &Model, most: usize) -> Vec<u8> {
    let habits = [SETTLES, SETTLES, SETTLES, SETTLES, PICKS, PICKS, SETS];
    let habit = rng.choose(&habits);
    orders_by(rng, m, most, habit)
}

fn orders_by(rng: &mut Rng, m: &Model, most: usize, habit: Habit) -> Vec<u8> {
    let mut list = Played::new(m);
    for _ in 0..most {
        let refusal = list.order(next_order(rng, &list.c, habit));
        let stopped = || list.c.standing(STOPPED).len() == list.c.processes.len();
        let stuck = refusal == 17 || refusal == 15 || stopped();
        if stuck && rng.chance(1, 4) {
            break;
        }
    }
    list.orders
}

/// A list of about `most` orders that settles all before each step, now and then with
/// another order between.
fn straight(rng: &mut Rng, m: &Model, most: usize) -> Vec<u8> {
    let first = Config::first(m);
    let mut list = Played::new(m);
    for _ in 0..most.div_ceil(2) {
        list.order(order(3, 0, 65_535));
        list.step();
        if rng.chance(1, 20) {
            list.order(next_order(rng, &first, SETTLES));
        }
    }
    list.orders
}

fn list_length(rng: &mut Rng) -> usize {
    match rng.weighted(&[2, 14, 42, 36, 6]) {
        0 => 0,
        1 => rng.range(1, 8) as usize,
        2 => rng.range(8, 40) as usize,
        3 => rng.range(40, 150) as usize,
        _ => rng.range(150, 500) as usize,
    }
}

/// A model that goes on in delta steps, and orders for about 1,000 of them.
fn delta_marathon(rng: &mut Rng) -> (Model, Vec<u8>) {
    let mut b = Builder::new();
    let forms = rng.below(6);
    let line = if forms == 5 { BUS } else { PLAIN };
    let s = b.signal_of(LOGIC, line, rng.choose(&[2, 3]));
    let t = b.signal(INTEGER, 0);
    let v = b.variable(INTEGER, 0, 0);
    let last = rng.range(996, 1_003) as i32;
    let zero = b.integer(0);
    let one = b.integer(1);
    let last = b.integer(last);
    let soon = b.integer(rng.range(1, 5) as i32);
    // Transport or inertial, which is the same after 0.
    let kind = rng.choose(&[2, 2, 7]);
    let read_s = b.read_signal(s);
    let not_s = b.unary(6, read_s);
    let read_t = b.read_signal(t);
    let next_t = b.binary(11, read_t, one);
    let read_v = b.read_variable(v);
    let next_v = b.binary(11, read_v, one);
    let more = b.binary(14, read_v, last);
    b.process();
    if rng.chance(1, 3) {
        b.wait(0, ABSENT, soon);
    }
    let again = b.m.statements.len() as u16;
    match forms {
        0 => {
            b.wait(0, ABSENT, zero);
            b.go(again);
        }
        1 => {
            b.statement(kind, s, not_s, zero, 0);
            b.wait(1 << s, ABSENT, ABSENT);
            b.go(again);
        }
        2 => {
            b.statement(kind, t, next_t, zero, 0);
            b.wait(1 << t, ABSENT, soon);
            b.go(again);
        }
        5 => {
            // A signal whose driver turns off and on again.
            let high = b.logic(3);
            b.release(s, zero);
            b.wait(1 << s, ABSENT, ABSENT);
            b.schedule(s, high, zero);
            b.wait(1 << s, ABSENT, ABSENT);
            b.go(again);
        }
        _ => {
            // Counted, then a wait that ends later or never.
            let extra = (forms == 4) as u16;
            b.unless(more, again + 4 + extra);
            b.assign(v, next_v);
            if forms == 3 {
                b.wait(0, ABSENT, zero);
            } else {
                b.statement(kind, s, not_s, zero, 0);
                b.wait(1 << s, ABSENT, ABSENT);
            }
            b.go(again);
            let c = if rng.chance(3, 4) { soon } else { ABSENT };
            b.wait(1 << s, ABSENT, c);
        }
    }
    b.driver(0, s);
    b.driver(0, t);
    if rng.chance(1, 2) {
        // Another process that drives the line or sleeps on it.
        b.process();
        if rng.chance(1, 2) {
            let strength = b.logic(rng.choose(&[4, 5, 6, 7]));
            b.schedule(s, strength, zero);
            b.driver(1, s);
        }
        let condition = if rng.chance(1, 2) {
            ABSENT
        } else {
            b.binary(14, read_t, last)
        };
        b.wait(3, condition, if rng.chance(1, 3) { soon } else { ABSENT });
    }
    let rounds = rng.range(990, 1_020) as usize;
    let mut list = Played::new(&b.m);
    for _ in 0..rounds {
        let at_limit = list.c.delta == DELTA_LIMIT;
        if let (true, Some(p)) = (at_limit, list.c.lowest_ready()) {
            // Something may be due then, and a process ready all the same.
            list.order(order(1, p as u8, 0));
            list.step();
        }
        list.order(order(3, 0, rng.range(5, 12) as u16));
        if list.c.delta == DELTA_LIMIT || rng.chance(1, 100) {
            list.wrong_step();
        }
        list.step();
        if rng.chance(1, 100) {
            list.order(next_order(rng, &Config::first(&b.m), SETTLES));
        }
    }
    let orders = list.orders;
    (b.m, orders)
}

/// A model that comes to the last time in few steps, and orders for it.
fn time_marathon(rng: &mut Rng) -> (Model, Vec<u8>) {
    let limit = 1_000_000_000_000i64;
    let step = if rng.chance(1, 3) {
        2_000_000_000
    } else {
        rng.range(1_950_000_000, TOP as i64)
    };
    let steps = limit / step;
    // The steps end at the limit, or just off it.
    let rest = (limit - steps * step + rng.range(-1, 1)).clamp(0, TOP as i64);
    let mut b = Builder::new();
    let s = b.signal(LOGIC, 2);
    let v = b.variable(INTEGER, 0, 0);
    let first = b.integer(rest as i32);
    let step = b.integer(step as i32);
    let one = b.integer(1);
    let read = b.read_signal(s);
    let not = b.unary(6, read);
    let read_v = b.read_variable(v);
    let next_v = b.binary(11, read_v, one);
    let kind = rng.choose(&[2, 2, 7]);
    b.process();
    b.wait(0, ABSENT, first);
    match rng.below(3) {
        0 => {
            b.wait(0, ABSENT, step);
            b.go(1);
        }
        1 => {
            b.statement(kind, s, not, step, 0);
            b.wait(1 << s, ABSENT, ABSENT);
            b.go(1);
        }
        _ => {
            b.assign(v, next_v);
            b.statement(kind, s, not, step, 0);
            b.wait(1 << s, ABSENT, step);
            b.go(1);
        }
    }
    b.driver(0, s);
    if rng.chance(1, 2) {
        b.process();
        b.wait(1, ABSENT, if rng.chance(1, 2) { step } else { ABSENT });
    }
    let rounds = steps as usize + 2 + rng.below(3);
    let mut list = Played::new(&b.m);
    for _ in 0..rounds {
        list.order(order(3, 0, 12));
        list.step();
        if list.step() == 18 || rng.chance(1, 100) {
            list.wrong_step();
        }
        if rng.chance(1, 100) {
            list.order(next_order(rng, &Config::first(&b.m), SETTLES));
        }
    }
    let orders = list.orders;
    (b.m, orders)
}

/// The input of one session.
pub struct SessionCase {
    pub model: Vec<u8>,
    pub orders: Vec<u8>,
    /// Length of the answer buffer.
    pub room: usize,
    pub what: &'static str,
}

/// Weights of the forms of a session: tame or wild models, damaged ones, orders of a
/// wrong length, an answer buffer of a wrong length, marathons of delta and of time
/// steps, calculations, edges, pulses, waves, crowds, lines.
type Forms = [usize; 12];
const SESSIONS: Forms = [680, 90, 13, 13, 13, 9, 140, 88, 90, 0, 70, 110];
const MOVES: Forms = [620, 90, 25, 35, 45, 20, 110, 70, 70, 0, 60, 40];
const DUMPS: Forms = [260, 220, 30, 0, 10, 40, 50, 40, 80, 320, 20, 60];

/// The session of a seed.
pub fn session_case(seed: u64) -> SessionCase {
    session_of(&SESSIONS, &mut Rng::new(seed))
}

/// The run of a seed that is to be dumped.
pub fn dump_case(seed: u64) -> SessionCase {
    session_of(&DUMPS, &mut Rng::new(seed))
}

/// The stored list of a seed, of the orders of before item 9 of document 02; its room is
/// that for the moved list.
pub fn move_case(seed: u64) -> SessionCase {
    let rng = &mut Rng::new(seed);
    let mut case = session_of(&MOVES, rng);
    // Steps were advances; some lists keep orders 6 and 7, which were unknown, or only
    // those with an unused byte set, which give 11 still.
    let (kept, odd) = (rng.choose(&[0, 0, 0, 1]), rng.chance(1, 4));
    for order in case.orders.chunks_exact_mut(4) {
        let stays = rng.chance(kept, 6) || (odd && order[1..] != [0; 3]);
        if [DELTA, TIME].contains(&order[0]) && !stays {
            order[0] = ADVANCE;
        }
    }
    let length = case.orders.len();
    case.room = match rng.below(6) {
        _ if case.room == 4 * length => length,
        0 if length > 0 => 0,
        1 if length > 0 => length - 1,
        2 if length > 4 => length - 4,
        3 if length > 0 => 4 * length,
        4 => length + 1,
        _ => length + 4,
    };
    case
}

/// A model and a list of orders that is to be arranged otherwise; every other one settles
/// at its end.
pub fn schedule_case(rng: &mut Rng) -> (Model, Vec<u8>) {
    let m = match rng.weighted(&[4, 1, 5]) {
        0 => {
            let m = crowds::model(rng);
            tables::carried(rng, m)
        }
        1 => lines::model(rng),
        _ => model(rng),
    };
    let most = rng.range(4, 50) as usize;
    let mut orders = self::orders(rng, &m, most);
    if rng.chance(1, 2) {
        orders.extend(order(3, 0, 2_000));
    }
    (m, orders)
}

fn session_of(forms: &Forms, rng: &mut Rng) -> SessionCase {
    let form = rng.weighted(forms);
    if form == 1 {
        let (what, model) = if rng.chance(1, 4) {
            let (_, what, model) = features::damaged(rng);
            (what, model)
        } else {
            let rule = rng.choose(numbers::MODEL);
            damage::damaged(rng, rule)
        };
        let mut orders: Vec<u8> = (0..rng.below(20))
            .flat_map(|_| damaged_order(rng))
            .collect();
        let mut room = 4 * orders.len();
        if rng.chance(1, 10) {
            orders.push(0);
        }
        if rng.chance(1, 10) {
            room += 1;
        }
        return SessionCase {
            model,
            orders,
            room,
            what,
        };
    }
    let (what, m, mut orders) = match form {
        4 => {
            let (m, orders) = delta_marathon(rng);
            ("delta marathon", m, orders)
        }
        5 => {
            let (m, orders) = time_marathon(rng);
            ("time marathon", m, orders)
        }
        6 => {
            let m = calculation::model(rng);
            let mut m = tables::carried(rng, m);
            if rng.chance(1, 2) {
                let front = unused_nodes(rng, m.nodes.len());
                shift_nodes(&mut m, front);
            }
            let most = list_length(rng);
            let orders = self::orders(rng, &m, most);
            ("calculation", m, orders)
        }
        7 => {
            let m = edges::model(rng);
            let m = tables::carried(rng, m);
            let most = list_length(rng);
            let orders = self::orders(rng, &m, most);
            ("edges", m, orders)
        }
        8 => {
            let m = pulses::model(rng);
            let m = tables::carried(rng, m);
            let most = list_length(rng).max(20);
            let orders = self::orders(rng, &m, most);
            ("pulses", m, orders)
        }
        9 => {
            let m = waves::model(rng);
            let m = tables::carried(rng, m);
            let most = list_length(rng);
            let orders = match rng.chance(1, 2) {
                true => self::orders(rng, &m, most),
                false => straight(rng, &m, most),
            };
            ("waves", m, orders)
        }
        10 => {
            let m = crowds::model(rng);
            let m = tables::carried(rng, m);
            let habit = rng.choose(&[SETS, SETS, SETS, PICKS]);
            let most = list_length(rng).max(8);
            let orders = orders_by(rng, &m, most, habit);
            ("crowds", m, orders)
        }
        11 => {
            let m = lines::model(rng);
            let most = list_length(rng).max(8);
            let orders = self::orders(rng, &m, most);
            ("lines", m, orders)
        }
        _ => {
            let wild = rng.chance(2, 5);
            let m = model_of(rng, wild);
            let m = tables::carried(rng, m);
            let most = if form == 0 {
                list_length(rng)
            } else {
                rng.below(10)
            };
            let orders = self::orders(rng, &m, most);
            (if wild { "wild" } else { "tame" }, m, orders)
        }
    };
    let plan = plan(rng, &m);
    let model = encode_with(&m, &plan);
    let mut room = 4 * orders.len();
    if form == 2 {
        // Orders of a wrong length.
        match rng.below(4) {
            0 => orders.resize(16_388, DELTA),
            1 => orders.resize(16_384 + rng.below(40_000) + 1, DELTA),
            _ => {
                let off = 1 + rng.below(3);
                orders.resize(orders.len() + off, 0);
            }
        }
        if rng.chance(1, 2) {
            room = 4 * orders.len();
        }
        return SessionCase {
            model,
            orders,
            room,
            what: "orders' length",
        };
    }
    if form == 3 {
        // An answer buffer of a wrong length.
        room = match rng.below(5) {
            0 if room > 0 => 0,
            1 => room + 1,
            2 => room + 16,
            3 if room > 0 => room - 1,
            4 if room > 0 => room - 16,
            _ => room + 4,
        };
        return SessionCase {
            model,
            orders,
            room,
            what: "answer buffer's length",
        };
    }
    SessionCase {
        model,
        orders,
        room,
        what,
    }
}

/// The judged input of one seed.
pub struct ModelCase {
    pub bytes: Vec<u8>,
    /// The number it was made for, none where any may come out.
    pub expected: Option<u32>,
    pub what: &'static str,
    /// The record kind and the byte that was damaged.
    pub byte: Option<(u8, usize)>,
}

/// The judged input of a seed.
pub fn model_case(seed: u64) -> ModelCase {
    let mut rng = Rng::new(seed);
    let rng = &mut rng;
    match rng.weighted(&[20, 40, 8, 12, 26]) {
        0 => {
            let m = model(rng);
            let plan = plan(rng, &m);
            let bytes = encode_with(&m, &plan);
            ModelCase {
                bytes,
                expected: Some(0),
                what: "accepted",
                byte: None,
            }
        }
        1 => {
            let rule = rng.choose(numbers::MODEL);
            let (what, bytes) = damage::damaged(rng, rule);
            ModelCase {
                bytes,
                expected: Some(rule),
                what,
                byte: None,
            }
        }
        2 => {
            let (rule, what, bytes) = damage::twice(rng);
            ModelCase {
                bytes,
                expected: Some(rule),
                what,
                byte: None,
            }
        }
        3 => {
            let (byte, what, bytes) = damage::byte(rng);
            ModelCase {
                bytes,
                expected: None,
                what,
                byte,
            }
        }
        _ => {
            let (rule, what, bytes) = features::damaged(rng);
            ModelCase {
                bytes,
                expected: Some(rule),
                what,
                byte: None,
            }
        }
    }
}

#[cfg(test)]
mod tests {
    use super::*;

    // Shifted nodes are told with their new numbers, and nothing else changes.
    #[test]
    fn shifted_models_play_alike() {
        let mut failed = 0;
        for seed in 0..300 {
            let rng = &mut Rng::new(seed);
            let m = calculation::model(rng);
            let list = orders(rng, &m, 60);
            let mut shifted = m.clone();
            let front = unused_nodes(rng, m.nodes.len());
            let by = front.len() as u16;
            shift_nodes(&mut shifted, front);
            let play = |m: &Model| {
                let mut answers = vec![0; 4 * list.len()];
                let (number, config) = session::session(&encode(m), &list, &mut answers);
                assert_eq!(number, 0, "seed {seed}");
                config
            };
            let mut expected = play(&m);
            for p in expected.processes.iter_mut() {
                if numbers::EXPRESSION.contains(&(p.fault as u32)) {
                    p.node += by;
                    failed += 1;
                }
            }
            assert_eq!(play(&shifted), expected, "seed {seed}");
        }
        assert!(failed > 300, "{failed} processes failed");
    }
}
