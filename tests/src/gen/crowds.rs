//! Models of many processes with short turns, most often as many as a model can have,
//! for orders that pick sets of them. They share lines, wait for one another and, in
//! some models, stop with each fault.

use super::FAULTS;
use crate::builder::Builder;
use crate::integers::{DIFFERENCE, SUM};
use crate::model::*;
use crate::rng::Rng;
use std::collections::BTreeSet;

/// Most statements of a process without a ninth transaction.
const TURNS: usize = 9;

struct Maker<'r> {
    rng: &'r mut Rng,
    b: Builder,
    /// How many processes there are to be.
    processes: usize,
    /// Logic signals that any process may drive, the first the one shared most.
    lines: Vec<u16>,
    /// The open process, its variable and the signals that it drives.
    process: u8,
    variable: u16,
    driven: BTreeSet<u16>,
    /// One turn of so many stops its process, none where it is 0.
    fails: usize,
}

/// A random accepted model.
pub fn model(rng: &mut Rng) -> Model {
    let processes = match rng.weighted(&[14, 2, 3, 4]) {
        0 => 16,
        1 => 15,
        2 => rng.range(8, 14),
        _ => rng.range(1, 7),
    };
    let fails = rng.choose(&[0, 1, 2, 6]);
    let mut maker = Maker {
        rng,
        b: Builder::new(),
        processes: processes as usize,
        lines: vec![],
        process: 0,
        variable: 0,
        driven: BTreeSet::new(),
        fails,
    };
    for _ in 0..maker.rng.range(1, 3) {
        let kind = maker.rng.choose(&[PLAIN, BUS, REGISTER]);
        let start = maker.rng.choose(&[2, 3, 4, 6]);
        let line = maker.b.signal_of(LOGIC, kind, start);
        maker.lines.push(line);
    }
    for _ in 0..processes {
        maker.process();
    }
    maker.b.m
}

impl Maker<'_> {
    /// Adds a process of a few turns; mostly it rests behind them.
    fn process(&mut self) {
        self.process = self.b.process();
        self.variable = self.b.variable(INTEGER, self.process, 0);
        for _ in 0..self.rng.range(0, 4) {
            match self.fails > 0 && self.rng.chance(1, self.fails) {
                true => self.failing(),
                false => self.turn(),
            }
        }
        if self.rng.chance(1, 8) {
            self.b.null();
        } else {
            self.rest();
        }
        for s in std::mem::take(&mut self.driven) {
            self.b.driver(self.process, s);
        }
    }

    fn integer(&mut self, low: i64, high: i64) -> u16 {
        let k = self.rng.range(low, high) as i32;
        self.b.shared_constant(1, k)
    }

    fn line(&mut self) -> u16 {
        let any = self.rng.choose(&self.lines);
        self.rng.choose(&[self.lines[0], any])
    }

    /// A statement that is done, a jump with one behind it.
    fn turn(&mut self) {
        let next = self.b.m.statements.len() as u16;
        match self.rng.weighted(&[2, 3, 8, 2, 1, 3]) {
            0 => _ = self.b.null(),
            1 => {
                let read = self.b.read_variable(self.variable);
                let step = self.integer(-2, 3);
                let sum = self.b.binary(SUM, read, step);
                self.b.assign(self.variable, sum);
            }
            2 => self.assignment(),
            3 => {
                // Past a null, or through it.
                let (x, one) = (self.integer(0, 1), self.b.shared_constant(1, 1));
                let less = self.b.binary(14, x, one);
                self.b.unless(less, next + 2);
                self.b.null();
            }
            4 => {
                self.b.go(next + 2);
                self.b.null();
            }
            _ => self.rest(),
        }
    }

    /// A value or null for a line.
    fn assignment(&mut self) {
        let line = self.line();
        self.driven.insert(line);
        let delay = self.integer(0, 2);
        let guarded = self.b.m.signals[line as usize].kind != PLAIN;
        if guarded && self.rng.chance(1, 3) {
            self.b.release(line, delay);
            return;
        }
        let code = self.rng.choose(&[2, 3, 3, 4, 6, 7, 8]);
        let value = self.b.shared_constant(2, code);
        let kind = self.rng.choose(&[2, 2, 7]);
        self.b.statement(kind, line, value, delay, 0);
    }

    /// Waits a while, for a line, for both or for ever.
    fn rest(&mut self) {
        let line = 1 << self.line();
        let time = self.integer(0, 3);
        match self.rng.weighted(&[4, 3, 3, 1]) {
            0 => self.b.wait(0, ABSENT, time),
            1 => self.b.wait(line, ABSENT, ABSENT),
            2 => self.b.wait(line, ABSENT, time),
            _ => self.b.wait(0, ABSENT, ABSENT),
        };
    }

    /// Something that stops the process, by each fault.
    fn failing(&mut self) {
        match self.rng.weighted(&[3, 2, 2, 2]) {
            0 => {
                let (kind, x, y) = self.rng.choose(&FAULTS);
                let (x, y) = (self.b.shared_constant(1, x), self.b.shared_constant(1, y));
                let value = self.b.binary(kind, x, y);
                self.b.assign(self.variable, value);
            }
            1 => {
                let minus = self.integer(-2, -1);
                self.b.wait(0, ABSENT, minus);
            }
            2 => {
                let (zero, one) = (self.b.shared_constant(1, 0), self.b.shared_constant(1, 1));
                let minus = self.b.binary(DIFFERENCE, zero, one);
                let line = self.line();
                self.driven.insert(line);
                let value = self.b.shared_constant(2, 3);
                self.b.schedule(line, value, minus);
            }
            _ => self.ninth(),
        }
    }

    /// Nine transactions, the last one too many, where there is room for all turns to come.
    fn ninth(&mut self) {
        let others = self.processes - self.process as usize - 1;
        if self.b.m.statements.len() + 9 + TURNS + TURNS * others > 200 {
            return self.turn();
        }
        let line = self.line();
        self.driven.insert(line);
        let guarded = self.b.m.signals[line as usize].kind != PLAIN;
        for n in 0..9 {
            let code = self.rng.choose(&[2, 3]);
            let (value, delay) = (
                self.b.shared_constant(2, code),
                self.b.shared_constant(1, n + 1),
            );
            match guarded && self.rng.chance(1, 4) {
                true => self.b.release(line, delay),
                false => self.b.schedule(line, value, delay),
            };
        }
    }
}
