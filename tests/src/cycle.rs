//! Configuration, pick, settle, read, pick of a set, delta step and time step.

use crate::integers;
use crate::model::{driver_of, Model, StatementRecord, ABSENT, BOOLEAN, BUS, INTEGER, REGISTER};
use crate::values;

pub const READY: u8 = 0;
pub const WAITING: u8 = 1;
pub const STOPPED: u8 = 2;

/// Faults.
pub const OUT_OF_RANGE: u8 = 1;
pub const NEGATIVE_DELAY: u8 = 2;
pub const NINTH: u8 = 3;
pub const DIVISOR_ZERO: u8 = 4;

/// In place of a node, for the faults that no node has: 2 and 3.
pub const NO_NODE: u16 = 65_535;

/// Why a process stops: the fault's number, and the node whose own operation
/// failed.
#[derive(Clone, Copy, Debug, PartialEq, Eq)]
pub struct Fault {
    pub number: u8,
    pub node: u16,
}

impl Fault {
    /// A fault of the statement itself.
    fn of_statement(number: u8) -> Fault {
        Fault {
            number,
            node: NO_NODE,
        }
    }
}

/// Most pending transactions of a driver.
pub const WAVEFORM: usize = 8;
/// Most delta steps at one time.
pub const DELTA_LIMIT: u32 = 1_000;
pub const TIME_LIMIT: u64 = 1_000_000_000_000;

/// What a transaction carries: a value, or null where it is None.
pub type Carried = Option<i32>;

/// A pending transaction: its time and what it carries.
pub type Pending = (u64, Carried);

#[derive(Clone, Debug, Default, PartialEq, Eq)]
pub struct Driver {
    /// The current transaction; a null one turns the driver off.
    pub current: Carried,
    /// Pending transactions, rising in time.
    pub wave: Vec<Pending>,
}

impl Driver {
    /// Removes the pending ones at the new one's time or later and adds it; of those
    /// before it an inertial one leaves the marked alone. A ninth is a fault, and the
    /// driver stays.
    fn schedule(&mut self, new: Pending, inertial: bool) -> Result<(), Fault> {
        let before = self.wave.iter().take_while(|t| t.0 < new.0).count();
        let marks = match inertial {
            true => marks(&self.wave[..before], new.1),
            false => [true; WAVEFORM],
        };
        if marks[..before].iter().filter(|&&mark| mark).count() == WAVEFORM {
            return Err(Fault::of_statement(NINTH));
        }
        self.wave.truncate(before);
        let mut marks = marks.into_iter();
        self.wave.retain(|_| marks.next() == Some(true));
        self.wave.push(new);
        Ok(())
    }
}

/// The marks of the pending ones before a new one, which is marked itself: going back
/// from it, each whose next one is marked and has an equal value. Null equals none.
fn marks(wave: &[Pending], new: Carried) -> [bool; WAVEFORM] {
    let mut marks = [false; WAVEFORM];
    let (mut marked, mut next) = (true, new);
    for (mark, &(_, carried)) in marks.iter_mut().zip(wave).rev() {
        marked = marked && carried.is_some() && carried == next;
        (*mark, next) = (marked, carried);
    }
    marks
}

#[derive(Clone, Copy, Debug, Default, PartialEq, Eq)]
pub struct Process {
    pub place: u16,
    pub standing: u8,
    /// The fault's number and its node, both 0 without a fault.
    pub fault: u8,
    pub node: u16,
    pub deadline: Option<u64>,
}

impl Process {
    /// A fault stops the process; place and deadline stay.
    fn stop(&mut self, fault: Fault) {
        self.standing = STOPPED;
        self.fault = fault.number;
        self.node = fault.node;
    }
}

/// `Config::default()` is the empty configuration.
#[derive(Clone, Debug, Default, PartialEq, Eq)]
pub struct Config {
    pub time: u64,
    /// Delta steps at this time.
    pub delta: u32,
    /// The current value, then those of 1 to 31 time units ago.
    pub signals: Vec<[i32; 32]>,
    /// The value just before the latest delta step, or the first current value.
    pub earlier: Vec<i32>,
    pub variables: Vec<i32>,
    pub drivers: Vec<Driver>,
    pub processes: Vec<Process>,
}

/// A worked out expression.
#[derive(Clone, Copy, Debug, PartialEq, Eq)]
pub enum Value {
    Integer(i32),
    Logic(u8),
    Boolean(bool),
}

impl Value {
    fn of(ty: u8, raw: i32) -> Value {
        match ty {
            INTEGER => Value::Integer(raw),
            BOOLEAN => Value::Boolean(raw == 1),
            _ => Value::Logic(raw as u8),
        }
    }

    pub fn raw(self) -> i32 {
        match self {
            Value::Integer(i) => i,
            Value::Logic(v) => v as i32,
            Value::Boolean(b) => b as i32,
        }
    }
}

/// The two steps: orders 6 and 7.
#[derive(Clone, Copy, Debug, PartialEq, Eq)]
pub enum Step {
    Delta,
    Time,
}

impl Step {
    pub fn other(self) -> Step {
        match self {
            Step::Delta => Step::Time,
            Step::Time => Step::Delta,
        }
    }
}

/// The current values of a signal's drivers; one that is null adds none.
fn driving_values(m: &Model, drivers: &[Driver], signal: usize) -> Vec<i32> {
    m.drivers
        .iter()
        .zip(drivers)
        .filter(|(record, _)| record.signal as usize == signal)
        .filter_map(|(_, driver)| driver.current)
        .collect()
}

/// A signal's value from its driving values, none if there are none.
fn resolved(m: &Model, drivers: &[Driver], signal: usize) -> Option<i32> {
    let values = driving_values(m, drivers, signal);
    if values.is_empty() {
        None
    } else if m.signals[signal].ty == INTEGER {
        // An integer signal has one driver at most.
        Some(values[0])
    } else {
        let codes: Vec<u8> = values.iter().map(|&v| v as u8).collect();
        Some(values::resolve_by(m.table(), &codes) as i32)
    }
}

impl Config {
    /// The first configuration of an accepted model.
    pub fn first(m: &Model) -> Config {
        let drivers: Vec<Driver> = m
            .drivers
            .iter()
            .map(|d| Driver {
                current: Some(m.signals[d.signal as usize].start),
                wave: Vec::new(),
            })
            .collect();
        let first: Vec<i32> = (0..m.signals.len())
            .map(|s| resolved(m, &drivers, s).unwrap_or(m.signals[s].start))
            .collect();
        let processes = m
            .processes
            .iter()
            .map(|p| Process {
                place: p.first,
                standing: READY,
                fault: 0,
                node: 0,
                deadline: None,
            })
            .collect();
        Config {
            time: 0,
            delta: 0,
            signals: first.iter().map(|&value| [value; 32]).collect(),
            earlier: first,
            variables: m.variables.iter().map(|v| v.start).collect(),
            drivers,
            processes,
        }
    }

    /// Every signal's current value.
    pub fn current(&self) -> Vec<i32> {
        self.signals.iter().map(|values| values[0]).collect()
    }

    /// Works out a node: its value, or the fault of the first node that fails.
    pub fn evaluate(&self, m: &Model, node: u16) -> Result<Value, Fault> {
        use Value::*;
        let n = &m.nodes[node as usize];
        let (a, b) = (n.a as usize, n.b);
        // The operands have values: what fails now is this node.
        let own = |result: Result<i32, u8>| match result {
            Ok(value) => Ok(Integer(value)),
            Err(number) => Err(Fault { number, node }),
        };
        let value = match n.kind {
            1 => Integer(n.k),
            2 => Logic(n.k as u8),
            3 => Value::of(m.variables[a].ty, self.variables[a]),
            4 => Value::of(m.signals[a].ty, self.signals[a][0]),
            5 if n.k == 0 => Value::of(m.signals[a].ty, self.earlier[a]),
            5 => Value::of(m.signals[a].ty, self.signals[a][n.k as usize]),
            6 => match self.evaluate(m, n.a)? {
                Logic(v) => Logic(values::not(v)),
                Boolean(v) => Boolean(!v),
                Integer(_) => unreachable!(),
            },
            7 => match self.evaluate(m, n.a)? {
                Boolean(false) => Boolean(false),
                left => match (left, self.evaluate(m, b)?) {
                    (Logic(v), Logic(w)) => Logic(values::and(v, w)),
                    (Boolean(v), Boolean(w)) => Boolean(v && w),
                    _ => unreachable!(),
                },
            },
            8 => match self.evaluate(m, n.a)? {
                Boolean(true) => Boolean(true),
                left => match (left, self.evaluate(m, b)?) {
                    (Logic(v), Logic(w)) => Logic(values::or(v, w)),
                    (Boolean(v), Boolean(w)) => Boolean(v || w),
                    _ => unreachable!(),
                },
            },
            9 => match (self.evaluate(m, n.a)?, self.evaluate(m, b)?) {
                (Logic(v), Logic(w)) => Logic(values::xor(v, w)),
                (Boolean(v), Boolean(w)) => Boolean(v != w),
                _ => unreachable!(),
            },
            10 => match self.evaluate(m, n.a)? {
                Integer(v) => own(integers::negate(v))?,
                _ => unreachable!(),
            },
            11 | 12 | 15..=18 => match (self.evaluate(m, n.a)?, self.evaluate(m, b)?) {
                (Integer(v), Integer(w)) => own(integers::operate(n.kind, v, w))?,
                _ => unreachable!(),
            },
            13 => match (self.evaluate(m, n.a)?, self.evaluate(m, b)?) {
                (Integer(v), Integer(w)) => Boolean(v == w),
                (Logic(v), Logic(w)) => Boolean(v == w),
                _ => unreachable!(),
            },
            14 => match (self.evaluate(m, n.a)?, self.evaluate(m, b)?) {
                (Integer(v), Integer(w)) => Boolean(v < w),
                _ => unreachable!(),
            },
            _ => unreachable!(),
        };
        Ok(value)
    }

    fn condition(&self, m: &Model, node: u16) -> Result<bool, Fault> {
        Ok(self.evaluate(m, node)? == Value::Boolean(true))
    }

    /// A delay, which must not be negative.
    fn delay(&self, m: &Model, node: u16) -> Result<u64, Fault> {
        let c = self.evaluate(m, node)?.raw();
        if c < 0 {
            Err(Fault::of_statement(NEGATIVE_DELAY))
        } else {
            Ok(c as u64)
        }
    }

    /// The place after this one in its process.
    fn following(m: &Model, process: usize, place: u16) -> u16 {
        let p = &m.processes[process];
        if place + 1 == p.first + p.count {
            p.first
        } else {
            place + 1
        }
    }

    /// Kinds 2, 6 and 7: gives the process's driver of signal a, after c, what the
    /// transaction carries; Err is the fault.
    fn schedule(
        &mut self,
        m: &Model,
        process: usize,
        s: &StatementRecord,
        carried: Carried,
    ) -> Result<(), Fault> {
        let at = self.time + self.delay(m, s.c)?;
        let driver = driver_of(m, process, s.a as usize).expect("an assignment has its driver");
        self.drivers[driver].schedule((at, carried), s.kind == 7)
    }

    /// Runs one statement of the process; Err is its fault.
    fn run(&mut self, m: &Model, process: usize, s: &StatementRecord) -> Result<(), Fault> {
        let place = self.processes[process].place;
        let mut next = Config::following(m, process, place);
        match s.kind {
            0 => {}
            1 => {
                self.variables[s.a as usize] = self.evaluate(m, s.b)?.raw();
            }
            2 | 7 => {
                let value = self.evaluate(m, s.b)?.raw();
                self.schedule(m, process, s, Some(value))?;
            }
            3 => {
                if !self.condition(m, s.b)? {
                    next = s.a;
                }
            }
            4 => next = s.a,
            5 => {
                let deadline = match s.c {
                    ABSENT => None,
                    c => Some(self.time + self.delay(m, c)?),
                };
                let p = &mut self.processes[process];
                p.deadline = deadline;
                p.standing = WAITING;
                next = place;
            }
            6 => self.schedule(m, process, s, None)?,
            _ => unreachable!(),
        }
        self.processes[process].place = next;
        Ok(())
    }

    /// A pick of a ready process.
    fn pick_ready(&mut self, m: &Model, process: usize) {
        let s = m.statements[self.processes[process].place as usize];
        if let Err(fault) = self.run(m, process, &s) {
            self.processes[process].stop(fault);
        }
    }

    /// Pick: the refusal, or what the process is then.
    pub fn pick(&mut self, m: &Model, process: usize) -> Result<Process, u32> {
        if process >= self.processes.len() {
            return Err(12);
        }
        if self.processes[process].standing != READY {
            return Err(13);
        }
        self.pick_ready(m, process);
        Ok(self.processes[process])
    }

    /// The processes of a set, bit n for process n, where each is known and ready; Err is
    /// the refusal, 12 over the whole set before 13.
    pub fn members(&self, set: u16) -> Result<Vec<usize>, u32> {
        let members: Vec<usize> = (0..16).filter(|p| set >> p & 1 == 1).collect();
        if members.iter().any(|&p| p >= self.processes.len()) {
            return Err(12);
        }
        let ready = |&p: &usize| self.processes[p].standing == READY;
        match members.iter().all(ready) {
            true => Ok(members),
            false => Err(13),
        }
    }

    /// Pick of a set: the refusal, or how many were picked and whether one of them stopped.
    /// The end is that of every arrangement, so any will do: here the highest is first.
    pub fn pick_set(&mut self, m: &Model, set: u16) -> Result<(u16, bool), u32> {
        let members = self.members(set)?;
        for &p in members.iter().rev() {
            self.pick_ready(m, p);
        }
        let stopped = |&p: &usize| self.processes[p].standing == STOPPED;
        Ok((members.len() as u16, members.iter().any(stopped)))
    }

    /// The processes that stand so.
    pub fn standing(&self, standing: u8) -> Vec<usize> {
        let all = 0..self.processes.len();
        all.filter(|&p| self.processes[p].standing == standing)
            .collect()
    }

    pub fn lowest_ready(&self) -> Option<usize> {
        self.processes.iter().position(|p| p.standing == READY)
    }

    /// Settle: the picks made, and whether a process is still ready.
    pub fn settle(&mut self, m: &Model, count: u16) -> (u16, bool) {
        let mut picks = 0;
        while picks < count {
            match self.lowest_ready() {
                Some(process) => self.pick_ready(m, process),
                None => break,
            }
            picks += 1;
        }
        (picks, self.lowest_ready().is_some())
    }

    /// Read: the signal's current value.
    pub fn read(&self, signal: usize) -> Result<i32, u32> {
        match self.signals.get(signal) {
            Some(values) => Ok(values[0]),
            None => Err(19),
        }
    }

    /// The earliest time at which a transaction or a deadline is due.
    pub(crate) fn earliest(&self) -> Option<u64> {
        let transactions = self.drivers.iter().flat_map(|d| d.wave.iter().map(|t| t.0));
        let deadlines = self
            .processes
            .iter()
            .filter(|p| p.standing == WAITING)
            .filter_map(|p| p.deadline);
        transactions.chain(deadlines).min()
    }

    /// The step that is not refused by what is due now.
    pub fn fitting(&self) -> Step {
        match self.earliest() == Some(self.time) {
            true => Step::Delta,
            false => Step::Time,
        }
    }

    /// A delta step or a time step; Err is the refusal.
    pub fn step(&mut self, m: &Model, step: Step) -> Result<(), u32> {
        self.rested()?;
        let (earliest, now) = (self.earliest(), self.time);
        match (step, earliest) {
            (Step::Delta, due) if due != Some(now) => Err(22),
            (Step::Delta, _) if self.delta >= DELTA_LIMIT => Err(16),
            (Step::Delta, _) => {
                self.do_delta_step(m);
                Ok(())
            }
            (Step::Time, due) if due == Some(now) => Err(23),
            (Step::Time, None) => Err(17),
            (Step::Time, Some(due)) if due > TIME_LIMIT => Err(18),
            (Step::Time, Some(due)) => {
                self.do_time_step(due);
                Ok(())
            }
        }
    }

    /// Err where a process is ready, or one is stopped.
    pub(crate) fn rested(&self) -> Result<(), u32> {
        let any = |standing: u8| self.processes.iter().any(|p| p.standing == standing);
        if any(READY) {
            return Err(14);
        }
        if any(STOPPED) {
            return Err(15);
        }
        Ok(())
    }

    pub(crate) fn do_delta_step(&mut self, m: &Model) {
        let now = self.time;
        self.delta += 1;
        self.earlier = self.current();
        let mut active = vec![false; self.signals.len()];
        for (record, driver) in m.drivers.iter().zip(&mut self.drivers) {
            if let Some(n) = driver.wave.iter().position(|t| t.0 == now) {
                driver.current = driver.wave.remove(n).1;
                active[record.signal as usize] = true;
            }
        }
        let mut changed = 0u32;
        for signal in 0..self.signals.len() {
            if !active[signal] {
                continue;
            }
            let old = self.signals[signal][0];
            let value = match resolved(m, &self.drivers, signal) {
                Some(value) => value,
                // All its drivers are null.
                None => match m.signals[signal].kind {
                    BUS => values::Z as i32,
                    REGISTER => old,
                    _ => unreachable!("a plain signal has no null driver"),
                },
            };
            if value != old {
                changed |= 1 << signal;
                self.signals[signal][0] = value;
            }
        }
        for process in 0..self.processes.len() {
            let (place, deadline) = match &self.processes[process] {
                p if p.standing == WAITING => (p.place, p.deadline),
                _ => continue,
            };
            let s = &m.statements[place as usize];
            let wakes = if deadline == Some(now) {
                Ok(true)
            } else if s.set & changed == 0 {
                Ok(false)
            } else if s.b == ABSENT {
                Ok(true)
            } else {
                self.condition(m, s.b)
            };
            let p = &mut self.processes[process];
            match wakes {
                Ok(true) => {
                    p.standing = READY;
                    p.deadline = None;
                    p.place = Config::following(m, process, place);
                }
                Ok(false) => {}
                Err(fault) => p.stop(fault),
            }
        }
    }

    pub(crate) fn do_time_step(&mut self, due: u64) {
        let units = due - self.time;
        for values in &mut self.signals {
            let old = *values;
            for ago in 1..32u64 {
                // Up to `units` ago the old current value stood.
                values[ago as usize] = if ago <= units {
                    old[0]
                } else {
                    old[(ago - units) as usize]
                };
            }
        }
        self.time = due;
        self.delta = 0;
    }
}
