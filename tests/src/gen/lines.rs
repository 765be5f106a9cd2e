//! Models with their own resolution table, and lines that several processes drive by it: to
//! any of the nine values, to what another line is, off and on again.

use super::tables;
use crate::builder::Builder;
use crate::integers::SUM;
use crate::model::*;
use crate::rng::Rng;
use std::collections::BTreeSet;

struct Maker<'r> {
    rng: &'r mut Rng,
    b: Builder,
    /// Logic signals that any process may drive, the first the one shared most.
    lines: Vec<u16>,
    /// The open process and the signals that it drives.
    process: u8,
    driven: BTreeSet<u16>,
    /// Processes turn their drivers off before they rest.
    off: bool,
}

/// A random accepted model.
pub fn model(rng: &mut Rng) -> Model {
    let processes = match rng.weighted(&[1, 16, 4, 1]) {
        0 => 1,
        1 => rng.range(2, 4),
        2 => rng.range(5, 8),
        _ => 16,
    };
    let mut maker = Maker {
        rng,
        b: Builder::new(),
        lines: vec![],
        process: 0,
        driven: BTreeSet::new(),
        off: false,
    };
    maker.off = maker.rng.chance(1, 3);
    for _ in 0..maker.rng.range(1, 3) {
        let kind = maker.rng.choose(&[PLAIN, BUS, REGISTER]);
        let start = maker.rng.below(9) as i32;
        let line = maker.b.signal_of(LOGIC, kind, start);
        maker.lines.push(line);
    }
    for _ in 0..processes {
        maker.process();
    }
    if maker.rng.chance(1, 4) {
        maker.counter();
    }
    let table = tables::table(maker.rng);
    maker.b.table(&table);
    maker.b.m
}

impl Maker<'_> {
    /// A process of a few turns that rests behind them.
    fn process(&mut self) {
        self.process = self.b.process();
        for _ in 0..self.rng.range(1, 4) {
            self.turn();
        }
        for line in self.driven.clone() {
            if self.off && self.guarded(line) {
                let delay = self.time(0, 2);
                self.b.release(line, delay);
            }
        }
        match self.rng.chance(1, 6) {
            true => self.b.wait(0, ABSENT, ABSENT),
            false => self.rest(),
        };
        for s in std::mem::take(&mut self.driven) {
            self.b.driver(self.process, s);
        }
    }

    fn time(&mut self, low: i64, high: i64) -> u16 {
        let k = self.rng.range(low, high) as i32;
        self.b.shared_constant(1, k)
    }

    fn line(&mut self) -> u16 {
        let any = self.rng.choose(&self.lines);
        self.rng.choose(&[self.lines[0], self.lines[0], any])
    }

    fn guarded(&self, line: u16) -> bool {
        self.b.m.signals[line as usize].kind != PLAIN
    }

    fn turn(&mut self) {
        let line = self.line();
        let delay = self.time(0, 2);
        let release = if self.guarded(line) { 5 } else { 0 };
        match self.rng.weighted(&[8, release, 2, 3]) {
            0 => {
                let code = self.rng.below(9) as i32;
                let value = self.b.shared_constant(2, code);
                self.assign(line, value, delay);
            }
            1 => {
                self.driven.insert(line);
                self.b.release(line, delay);
            }
            2 => {
                let from = self.line();
                let value = match self.rng.below(3) {
                    0 => self.b.read_signal(from),
                    1 => {
                        let k = self.rng.range(0, 2) as i32;
                        self.b.delayed(from, k)
                    }
                    _ => {
                        let read = self.b.read_signal(from);
                        self.b.unary(6, read)
                    }
                };
                self.assign(line, value, delay);
            }
            _ => _ = self.rest(),
        }
    }

    fn assign(&mut self, line: u16, value: u16, delay: u16) {
        self.driven.insert(line);
        let kind = self.rng.choose(&[2, 2, 7]);
        self.b.statement(kind, line, value, delay, 0);
    }

    /// Waits a while, or for a line as long as that.
    fn rest(&mut self) -> u16 {
        let (line, time) = (1 << self.line(), self.time(1, 3));
        match self.rng.weighted(&[5, 2, 1]) {
            0 => self.b.wait(0, ABSENT, time),
            1 => self.b.wait(line, ABSENT, time),
            _ => self.b.wait(line, ABSENT, ABSENT),
        }
    }

    /// A process that counts in an integer signal how often a line changes.
    fn counter(&mut self) {
        if self.b.m.processes.len() == 16 {
            return;
        }
        let s = self.b.signal(INTEGER, 0);
        let (zero, one) = (self.b.shared_constant(1, 0), self.b.shared_constant(1, 1));
        let read = self.b.read_signal(s);
        let more = self.b.binary(SUM, read, one);
        let line = 1 << self.line();
        let p = self.b.process();
        self.b.wait(line, ABSENT, ABSENT);
        self.b.schedule(s, more, zero);
        self.b.driver(p, s);
    }
}
