//! Models whose signals change at many times, also among values that a dump writes
//! alike: some or all at one time, and to and fro within one.

use crate::builder::Builder;
use crate::integers::{QUOTIENT, TOP};
use crate::model::*;
use crate::rng::Rng;

/// Codes that are written alike: x, 0, 1, z.
const ALIKE: [&[i32]; 4] = [&[0, 1, 5, 8], &[2, 6], &[3, 7], &[4]];

const INTEGERS: [i32; 10] = [0, 0, 1, -1, 5, 1_000, -300, TOP, -TOP, TOP - 1];

/// A random accepted model.
pub fn model(rng: &mut Rng) -> Model {
    let signals = match rng.weighted(&[5, 3, 4, 5]) {
        0 => rng.range(1, 3),
        1 => rng.range(4, 12),
        2 => rng.range(13, 31),
        _ => 32,
    };
    let processes = rng.range(1, 4) as usize;
    let mut maker = Maker {
        form: rng.choose(&[Form::Alike, Form::Even, Form::Any]),
        unit: rng.choose(&[1, 1, 1, 10, 1_000, 1_000_000, 150_000_000]),
        rng,
        b: Builder::new(),
    };
    for _ in 0..signals {
        let ty = maker.rng.choose(&[INTEGER, LOGIC, LOGIC]);
        let kind = match ty {
            LOGIC => maker.rng.choose(&[PLAIN, PLAIN, BUS, REGISTER]),
            _ => PLAIN,
        };
        let start = maker.value(ty, 0);
        maker.b.signal_of(ty, kind, start);
    }
    // Each signal has one driver, a logic signal now and then two.
    let mut pairs = vec![];
    for s in 0..signals as u16 {
        let p = maker.rng.below(processes);
        pairs.push((p, s));
        if maker.b.m.signals[s as usize].ty == LOGIC && maker.rng.chance(1, 6) {
            pairs.push(((p + 1) % processes, s));
        }
    }
    pairs.sort();
    pairs.dedup();
    // At most 200 statements.
    let most = (150 / pairs.len()).clamp(1, 5);
    for p in 0..processes {
        let own = pairs.iter().filter(|pair| pair.0 == p);
        let own: Vec<u16> = own.map(|pair| pair.1).collect();
        maker.process(&own, most);
    }
    if maker.rng.chance(1, 6) {
        maker.failing();
    }
    maker.b.m
}

#[derive(Clone, Copy, PartialEq, Eq)]
enum Form {
    /// Most changes of logic signals are to a value that is written alike.
    Alike,
    /// All signals change at the same times, most of them to one written otherwise.
    Even,
    Any,
}

struct Maker<'r> {
    rng: &'r mut Rng,
    b: Builder,
    form: Form,
    /// What the delays are multiples of.
    unit: i32,
}

impl Maker<'_> {
    /// A value to follow the last one.
    fn value(&mut self, ty: u8, last: i32) -> i32 {
        let group = ALIKE.iter().find(|g| g.contains(&last));
        let alike = group.filter(|_| ty == LOGIC).copied().unwrap_or(&[]);
        if self.form == Form::Alike && !alike.is_empty() && self.rng.chance(4, 5) {
            return self.rng.choose(alike);
        }
        loop {
            let value = match ty {
                INTEGER => self.rng.choose(&INTEGERS),
                _ => self.rng.below(9) as i32,
            };
            if self.form != Form::Even || value != last && !alike.contains(&value) {
                return value;
            }
        }
    }

    fn delay(&mut self, units: i64) -> u16 {
        self.b.shared_constant(1, units as i32 * self.unit)
    }

    /// One that gives its signals transactions at the same few times, again and again.
    fn process(&mut self, signals: &[u16], most: usize) {
        let p = self.b.process();
        for &s in signals {
            self.b.driver(p, s);
            self.transactions(s, most);
        }
        let pause = self.rng.range(1, 6);
        let pause = self.delay(pause);
        self.b.wait(0, ABSENT, pause);
        if self.rng.chance(1, 2) {
            self.flicker(signals);
        }
    }

    fn transactions(&mut self, s: u16, most: usize) {
        let SignalRecord { ty, kind, start } = self.b.m.signals[s as usize];
        let (mut last, mut at) = (start, 0);
        let even = self.form == Form::Even;
        let many = if even { most } else { 1 + self.rng.below(most) };
        for _ in 0..many {
            at += if even { 1 } else { self.rng.range(0, 2) };
            let delay = self.delay(at);
            if kind != PLAIN && self.rng.chance(1, 4) {
                self.b.release(s, delay);
                continue;
            }
            let value = if ty == INTEGER && self.rng.chance(1, 4) {
                // Another one in each round.
                let read = self.b.read_signal(s);
                self.b.unary(10, read)
            } else {
                last = self.value(ty, last);
                self.b.shared_constant(1 + ty, last)
            };
            self.b.schedule(s, value, delay);
        }
    }

    /// A signal that changes and comes back within a time.
    fn flicker(&mut self, signals: &[u16]) {
        if signals.is_empty() {
            return;
        }
        let s = self.rng.choose(signals);
        let ty = self.b.m.signals[s as usize].ty;
        let zero = self.delay(0);
        let (some, back) = (self.value(ty, 0), self.b.read_signal(s));
        let some = self.b.shared_constant(1 + ty, some);
        let v = self.b.variable(ty, self.b.m.processes.len() as u8 - 1, 0);
        self.b.assign(v, back);
        self.b.schedule(s, some, zero);
        self.b.wait(0, ABSENT, zero);
        let back = self.b.read_variable(v);
        self.b.schedule(s, back, zero);
        self.b.wait(0, ABSENT, zero);
    }

    /// One that stops after a while.
    fn failing(&mut self) {
        let p = self.b.process();
        let v = self.b.variable(INTEGER, p, 0);
        let pause = self.rng.range(0, 12);
        let pause = self.delay(pause);
        let zero = self.b.shared_constant(1, 0);
        let fails = self.b.binary(QUOTIENT, zero, zero);
        self.b.wait(0, ABSENT, pause);
        self.b.assign(v, fails);
    }
}
