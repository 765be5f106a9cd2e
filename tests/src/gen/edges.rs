//! Models whose processes look at what signals were a delta ago. Sources change
//! lines and integer signals in several delta steps of a time and at later times;
//! watchers read them, delayed by 0, in conditions and wherever else an expression
//! may stand.

use crate::builder::Builder;
use crate::integers::*;
use crate::model::Role::*;
use crate::model::*;
use crate::rng::Rng;
use std::collections::BTreeSet;

/// The roles of expressions that a pick works out.
const PICKED: [Role; 6] = [VariableValue, SignalValue, Delay, NullDelay, Unless, For];

struct Maker<'r> {
    rng: &'r mut Rng,
    b: Builder,
    /// Logic signals that any process may drive, the first the one shared most, and
    /// the integer signals of the sources.
    lines: Vec<u16>,
    numbers: Vec<u16>,
    /// The open process and the signals that it drives.
    process: u8,
    driven: BTreeSet<u16>,
    /// Conditions that fail and negative delays occur.
    fails: bool,
    /// Inertial assignments occur.
    inertial: bool,
}

/// A random accepted model.
pub fn model(rng: &mut Rng) -> Model {
    let (sources, watchers) = (rng.range(1, 3), rng.range(1, 4));
    let mut maker = Maker {
        rng,
        b: Builder::new(),
        lines: vec![],
        numbers: vec![],
        process: 0,
        driven: BTreeSet::new(),
        fails: false,
        inertial: false,
    };
    maker.signals(sources as usize);
    // A fault ends the run: few models have one.
    maker.fails = maker.rng.chance(1, 3);
    maker.inertial = maker.rng.chance(1, 3);
    for n in 0..sources {
        maker.open();
        maker.source(n as usize);
        maker.close();
    }
    for _ in 0..watchers {
        maker.open();
        maker.watcher();
        maker.close();
    }
    maker.b.m
}

impl Maker<'_> {
    /// A few lines, and an integer signal for each source.
    fn signals(&mut self, sources: usize) {
        for _ in 0..self.rng.range(1, 3) {
            let kind = self.rng.choose(&[PLAIN, PLAIN, BUS, REGISTER]);
            let start = self.rng.choose(&[2, 3, 4, 8, 8]);
            self.lines.push(self.b.signal_of(LOGIC, kind, start));
        }
        for _ in 0..sources {
            let start = self.rng.range(-1, 2) as i32;
            self.numbers.push(self.b.signal(INTEGER, start));
        }
    }

    fn open(&mut self) {
        self.process = self.b.process();
    }

    /// Gives the open process its drivers.
    fn close(&mut self) {
        for s in std::mem::take(&mut self.driven) {
            self.b.driver(self.process, s);
        }
    }

    fn line(&mut self) -> u16 {
        let any = self.rng.choose(&self.lines);
        self.rng.choose(&[self.lines[0], any])
    }

    /// The signal as it was a delta ago, now and then a unit ago.
    fn before(&mut self, s: u16) -> u16 {
        let k = self.rng.choose(&[0, 0, 0, 0, 0, 1]);
        self.b.delayed(s, k)
    }

    fn integer(&mut self, low: i64, high: i64) -> u16 {
        let k = self.rng.range(low, high) as i32;
        self.b.integer(k)
    }

    /// A transport or an inertial assignment.
    fn schedule(&mut self, signal: u16, value: u16, delay: u16) {
        self.driven.insert(signal);
        let kind = match self.inertial {
            true => self.rng.choose(&[2, 7]),
            false => 2,
        };
        self.b.statement(kind, signal, value, delay, 0);
    }

    /// A process that changes a line and its integer signal, a few times in delta
    /// steps of one time, then lets time pass.
    fn source(&mut self, n: usize) {
        let (line, number) = (self.line(), self.numbers[n]);
        let turns = self.rng.range(2, 5);
        for turn in 1..=turns {
            let soon = self.rng.choose(&[0, 0, 0, 1]);
            let soon = self.b.integer(soon);
            if self.rng.chance(4, 5) {
                let value = self.level(line);
                self.schedule(line, value, soon);
            }
            if self.rng.chance(4, 5) {
                let value = self.next(number);
                self.schedule(number, value, soon);
            }
            let least = (turn == turns) as i64;
            let c = self.integer(least, 2 * least);
            let set = self.rng.choose(&[0, 0, 1 << line, 1 << number]);
            self.b.wait(set, ABSENT, c);
        }
    }

    /// A line's next value.
    fn level(&mut self, line: u16) -> u16 {
        match self.rng.below(4) {
            0 => {
                let k = self.rng.choose(&[2, 3, 4, 8]);
                self.b.logic(k)
            }
            1 => {
                let other = self.line();
                self.before(other)
            }
            _ => {
                let read = self.b.read_signal(line);
                self.b.unary(6, read)
            }
        }
    }

    /// An integer signal's next value, from -2 to 2.
    fn next(&mut self, number: u16) -> u16 {
        match self.rng.below(4) {
            0 => self.integer(-1, 2),
            1 => {
                let other = self.rng.choose(&self.numbers);
                self.before(other)
            }
            _ => {
                let (read, step) = (self.b.read_signal(number), self.integer(1, 2));
                let sum = self.b.binary(SUM, read, step);
                let k = self.b.integer(3);
                let kind = self.rng.choose(&[MOD, REM]);
                self.b.binary(kind, sum, k)
            }
        }
    }

    /// A process that waits for an edge and then reads, or reads first.
    fn watcher(&mut self) {
        if self.rng.chance(1, 2) {
            self.reading();
        }
        let (signal, number) = (self.signal(), self.rng.choose(&self.numbers));
        let (watched, condition) = match self.fails && self.rng.chance(2, 3) {
            true => (number, self.trap(number)),
            false => (signal, self.edge(signal)),
        };
        let some = 1 << self.signal();
        let set = self.rng.choose(&[0, some]) | 1 << watched;
        let turn = self.integer(1, 6);
        let c = self.rng.choose(&[ABSENT, turn]);
        self.b.wait(set, condition, c);
        for _ in 0..self.rng.range(1, 3) {
            self.reading();
        }
    }

    /// A line or an integer signal.
    fn signal(&mut self) -> u16 {
        let (line, number) = (self.line(), self.rng.choose(&self.numbers));
        self.rng.choose(&[line, number])
    }

    /// A condition on what a signal is and was a delta ago.
    fn edge(&mut self, s: u16) -> u16 {
        let (now, before) = (self.b.read_signal(s), self.before(s));
        let logic = self.b.m.signals[s as usize].ty == LOGIC;
        match self.rng.weighted(&[1, 1, 3, 2, 3]) {
            0 => self.b.binary(13, now, before),
            1 => {
                let same = self.b.binary(13, now, before);
                self.b.unary(6, same)
            }
            2 => {
                let k = self.constant(s);
                self.b.binary(13, before, k)
            }
            3 if !logic => {
                let (a, b) = self.rng.choose(&[(now, before), (before, now)]);
                self.b.binary(14, a, b)
            }
            _ => {
                let (from, to) = (self.constant(s), self.constant(s));
                let (from, to) = (self.b.binary(13, before, from), self.b.binary(13, now, to));
                let kind = self.rng.choose(&[7, 7, 8]);
                self.b.binary(kind, from, to)
            }
        }
    }

    /// A value that the signal may have.
    fn constant(&mut self, s: u16) -> u16 {
        if self.b.m.signals[s as usize].ty == INTEGER {
            return self.integer(-1, 2);
        }
        let k = self.rng.choose(&[2, 3, 2, 3, 1, 4]);
        self.b.logic(k)
    }

    /// A condition that fails where an integer signal was 0 a delta ago.
    fn trap(&mut self, s: u16) -> u16 {
        let (two, before) = (self.b.integer(2), self.b.delayed(s, 0));
        let kind = self.rng.choose(&[QUOTIENT, MOD, REM]);
        let division = self.b.binary(kind, two, before);
        self.b.binary(14, division, two)
    }

    /// A statement that reads what a signal was.
    fn reading(&mut self) {
        let s = self.signal();
        let before = self.before(s);
        let (soon, line) = (self.integer(0, 2), self.line());
        let next = self.b.m.statements.len() as u16 + 1;
        let number = self.rng.choose(&self.numbers);
        match self.rng.choose(&PICKED) {
            VariableValue => {
                let ty = self.b.m.signals[s as usize].ty;
                let v = self.b.variable(ty, self.process, 0);
                self.b.assign(v, before);
            }
            Unless => {
                let edge = self.edge(s);
                self.b.unless(edge, next);
                self.b.null();
            }
            Delay => {
                let (value, delay) = (self.level(line), self.span(number));
                self.schedule(line, value, delay)
            }
            NullDelay if self.b.m.signals[line as usize].kind != PLAIN => {
                let delay = self.span(number);
                self.driven.insert(line);
                self.b.release(line, delay);
            }
            For => {
                let time = self.span(number);
                self.b.wait(0, ABSENT, time);
            }
            _ if self.b.m.signals[s as usize].ty == LOGIC => self.schedule(line, before, soon),
            _ => {
                let own = self.b.signal(INTEGER, 0);
                self.schedule(own, before, soon)
            }
        }
    }

    /// A time of 0 to 2 units by what an integer signal was a delta ago; where faults
    /// occur it may be negative.
    fn span(&mut self, number: u16) -> u16 {
        let (before, k) = (self.b.delayed(number, 0), self.b.integer(3));
        let kind = if self.fails { REM } else { MOD };
        self.b.binary(kind, before, k)
    }
}
