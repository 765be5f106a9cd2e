//! Models whose processes give their drivers pulses and runs of equal values, by
//! transport, null and inertial assignments: pulses shorter than a delay, as long and
//! longer, nulls between values, waveforms of eight.

use crate::builder::Builder;
use crate::model::*;
use crate::rng::Rng;
use std::collections::BTreeSet;

/// Values of lines, each with one that an inertial assignment must tell from it.
const CODES: [(u8, u8); 8] = [
    (2, 3),
    (3, 2),
    (2, 6),
    (6, 2),
    (3, 7),
    (7, 3),
    (4, 1),
    (8, 0),
];

struct Maker<'r> {
    rng: &'r mut Rng,
    b: Builder,
    /// Logic signals that any process may drive, the first the one shared most.
    lines: Vec<u16>,
    /// The open process and the signals that it drives.
    process: u8,
    driven: BTreeSet<u16>,
    /// A ninth transaction and negative delays occur.
    fails: bool,
    /// Processes turn their driver off before they rest.
    off: bool,
}

/// The driver that a scene is about: its signal and two values for it.
#[derive(Clone, Copy)]
struct Scene {
    signal: u16,
    one: u16,
    other: u16,
}

/// A random accepted model.
pub fn model(rng: &mut Rng) -> Model {
    let (sources, filters) = (rng.range(1, 3), rng.range(0, 2));
    let mut maker = Maker {
        rng,
        b: Builder::new(),
        lines: vec![],
        process: 0,
        driven: BTreeSet::new(),
        fails: false,
        off: false,
    };
    for _ in 0..maker.rng.range(1, 3) {
        let kind = maker.rng.choose(&[PLAIN, BUS, BUS, REGISTER, REGISTER]);
        let start = maker.rng.choose(&[2, 3, 4]);
        let line = maker.b.signal_of(LOGIC, kind, start);
        maker.lines.push(line);
    }
    // A fault ends the run: few models have one.
    maker.fails = maker.rng.chance(1, 3);
    maker.off = maker.rng.chance(1, 2);
    for _ in 0..sources {
        maker.open();
        maker.source();
        maker.close();
    }
    for _ in 0..filters {
        maker.open();
        maker.filter();
        maker.close();
    }
    maker.b.m
}

impl Maker<'_> {
    fn open(&mut self) {
        self.process = self.b.process();
    }

    /// Gives the open process its drivers.
    fn close(&mut self) {
        for s in std::mem::take(&mut self.driven) {
            self.b.driver(self.process, s);
        }
    }

    fn guarded(&self, signal: u16) -> bool {
        self.b.m.signals[signal as usize].kind != PLAIN
    }

    fn integer(&mut self, k: i32) -> u16 {
        self.b.shared_constant(1, k)
    }

    /// An assignment after a delay of at least 0: null where the value is none.
    fn assign(&mut self, kind: u8, s: Scene, value: Option<u16>, delay: i32) {
        self.driven.insert(s.signal);
        let delay = self.integer(delay.max(0));
        match value {
            Some(value) => self.b.statement(kind, s.signal, value, delay, 0),
            None => self.b.release(s.signal, delay),
        };
    }

    fn pause(&mut self, time: i32) {
        let time = self.integer(time);
        self.b.wait(0, ABSENT, time);
    }

    /// A line or an integer signal of its own, and two values for it; mostly it starts
    /// at one of them.
    fn scene(&mut self) -> Scene {
        if self.rng.chance(1, 4) {
            let k = self.rng.range(-1, 1) as i32;
            let signal = self.b.signal(INTEGER, k);
            let step = self.rng.choose(&[1, 256, 65_536]);
            let (one, other) = (self.integer(k), self.integer(k + step));
            return Scene { signal, one, other };
        }
        let any = self.rng.choose(&self.lines);
        let signal = self.rng.choose(&[self.lines[0], any]);
        let start = self.b.m.signals[signal as usize].start;
        let at_start = CODES.into_iter().filter(|c| c.0 as i32 == start);
        let at_start: Vec<(u8, u8)> = at_start.collect();
        let codes = self.rng.choose(&[&CODES, &at_start[..], &at_start]);
        let (one, other) = self.rng.choose(codes);
        Scene {
            signal,
            one: self.b.shared_constant(2, one as i32),
            other: self.b.shared_constant(2, other as i32),
        }
    }

    /// A process of a few scenes on one driver.
    fn source(&mut self) {
        let s = self.scene();
        for _ in 0..self.rng.range(1, 3) {
            match self.rng.weighted(&[5, 4, 6, 2]) {
                0 => self.pulse(s),
                1 => self.run(s),
                2 => self.full(s),
                _ => self.mixed(s),
            }
            let time = self.rng.range(0, 4) as i32;
            self.pause(time);
        }
        let off = self.off && self.guarded(s.signal);
        if off {
            let delay = self.rng.range(0, 2) as i32;
            self.assign(6, s, None, delay);
        }
        let time = self.rng.range(if off { 9 } else { 1 }, 12) as i32;
        self.pause(time);
    }

    /// A pulse and its end, a delay or about as long apart.
    fn pulse(&mut self, s: Scene) {
        let delay = self.rng.range(1, 4) as i32;
        let first = self.rng.choose(&[7, 7, 2]);
        self.assign(first, s, Some(s.other), delay);
        let width = delay + self.rng.range(-2, 1) as i32;
        self.pause(width.max(0));
        self.assign(7, s, Some(s.one), delay);
        if self.rng.chance(1, 2) {
            self.pause(delay + 1);
        }
    }

    /// What one of a run carries: mostly the one value.
    fn carried(&mut self, s: Scene) -> Option<u16> {
        match self.rng.weighted(&[6, 2, 2]) {
            0 => Some(s.one),
            1 if self.guarded(s.signal) => None,
            _ => Some(s.other),
        }
    }

    /// Transactions with rising delays, and an inertial one near the last of them.
    fn run(&mut self, s: Scene) {
        let mut delay = self.rng.choose(&[0, 1, 1, 1, 2]);
        for _ in 0..self.rng.range(2, 6) {
            let kind = self.rng.choose(&[2, 2, 2, 7]);
            let value = self.carried(s);
            self.assign(kind, s, value, delay);
            delay += self.rng.choose(&[1, 1, 2]);
        }
        let value = self.rng.choose(&[s.one, s.one, s.other]);
        let delay = delay + self.rng.range(-3, 1) as i32;
        self.assign(7, s, Some(value), delay);
    }

    /// Eight pending transactions, or one less, and one more, mostly inertial.
    fn full(&mut self, s: Scene) {
        let many = self.rng.choose(&[7, 8, 8, 8]);
        // So many of the last are equal.
        let equal = self.rng.choose(&[0, 0, 1, 3, many, many, many]);
        for n in 0..many {
            let value = match n + equal >= many {
                true => Some(s.one),
                false if self.guarded(s.signal) && self.rng.chance(1, 4) => None,
                false => Some(s.other),
            };
            let kind = match equal == many {
                true => self.rng.choose(&[2, 7]),
                false => 2,
            };
            self.assign(kind, s, value, n + 1);
        }
        let ninth = many == 8 && equal == 8;
        let later = match ninth && !self.fails {
            true => self.rng.choose(&[-1, 0, 0]),
            false => self.rng.choose(&[0, 1, 1, 1]),
        };
        let null = self.guarded(s.signal).then_some((6, None));
        let (kind, value) = match self.rng.below(6) {
            0 if self.fails => (2, Some(s.one)),
            1 if self.fails => null.unwrap_or((2, Some(s.other))),
            _ => (7, Some(s.one)),
        };
        self.assign(kind, s, value, many + later);
    }

    /// Assignments of any kind, with little time between.
    fn mixed(&mut self, s: Scene) {
        for _ in 0..self.rng.range(3, 6) {
            let kind = self.rng.choose(&[2, 7, 7]);
            let value = self.carried(s);
            let delay = self.rng.range(0, 4) as i32;
            self.assign(kind, s, value, delay);
            if self.rng.chance(1, 3) {
                let time = self.rng.range(0, 2) as i32;
                self.pause(time);
            }
        }
    }

    /// A process that hands a signal's changes on, the short ones filtered.
    fn filter(&mut self) {
        let input = self.rng.below(self.b.m.signals.len()) as u16;
        let ty = self.b.m.signals[input as usize].ty;
        let output = self.b.signal(ty, 0);
        let (read, delay) = (self.b.read_signal(input), self.rng.range(1, 4) as i32);
        let delay = match self.fails && self.rng.chance(1, 4) {
            true => self.integer(-1),
            false => self.integer(delay),
        };
        self.driven.insert(output);
        self.b.inertial(output, read, delay);
        self.b.wait(1 << input, ABSENT, ABSENT);
    }
}
