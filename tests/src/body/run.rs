//! The meaning of a body: source document 000, rules 8 to 15, on its tree. The body stands
//! in a loop without end; a run goes on from the start, or past a wait, up to a wait or a
//! fault. Values, faults and waveforms are those of documents 01 and 02.

use super::tree::*;
use crate::cycle::{
    Config, Driver, Process, Value, DIVISOR_ZERO, NEGATIVE_DELAY, NINTH, NO_NODE, OUT_OF_RANGE,
    READY, STOPPED, WAITING, WAVEFORM,
};
use crate::integers::{modulus, quotient, remainder, MOD, PRODUCT, QUOTIENT, REM, SUM, TOP};
use crate::model::{Model, BOOLEAN, INTEGER};
use crate::values;
use std::collections::BTreeMap;

/// A statement with the number of the first that it makes, and its branches.
pub struct Numbered<'b> {
    pub number: usize,
    pub statement: &'b Statement,
    branches: Vec<Vec<Numbered<'b>>>,
}

impl<'b> Numbered<'b> {
    pub fn branches(&self) -> impl Iterator<Item = &[Numbered<'b>]> {
        self.branches.iter().map(Vec::as_slice)
    }
}

/// The statements of a list; `if` has one between its lists.
fn numbered(list: &List, first: usize) -> Vec<Numbered<'_>> {
    let mut number = first;
    let mut out = vec![];
    for statement in list {
        let mut inner = number + 1;
        let mut branches = vec![];
        for branch in statement.branches() {
            branches.push(numbered(branch, inner));
            inner += makes(branch) + 1;
        }
        out.push(Numbered {
            number,
            statement,
            branches,
        });
        number += statement.makes();
    }
    out
}

/// A body with its statements and expressions numbered.
pub struct Program<'b> {
    pub body: &'b Body,
    pub list: Vec<Numbered<'b>>,
    /// The node of each expression.
    nodes: Vec<u16>,
}

/// What is still to be run, the next statement last; behind it the body comes again.
pub type Rest<'p> = Vec<&'p Numbered<'p>>;

impl<'b> Program<'b> {
    pub fn of(body: &'b Body) -> Program<'b> {
        let mut nodes = vec![0; body.expressions.len()];
        let mut next = 0;
        for (_, s) in body.statements() {
            for e in s.expressions() {
                count(body, e, &mut next, &mut nodes);
            }
        }
        Program {
            body,
            list: numbered(&body.list, 0),
            nodes,
        }
    }

    /// Each wait, and what is to be run past it.
    pub fn waits(&'b self) -> Vec<(&'b Numbered<'b>, Rest<'b>)> {
        let mut found = vec![];
        gather(&self.list, &mut vec![], &mut found);
        found
    }
}

/// Numbers an expression's nodes: the operands' first.
fn count(body: &Body, e: usize, next: &mut u16, nodes: &mut [u16]) {
    match body.expressions[e] {
        Expression::One(_, a) => count(body, a, next, nodes),
        Expression::Two(_, a, b) => {
            count(body, a, next, nodes);
            count(body, b, next, nodes);
        }
        _ => {}
    }
    nodes[e] = *next;
    *next += 1;
}

fn gather<'b>(
    list: &'b [Numbered<'b>],
    behind: &mut Rest<'b>,
    found: &mut Vec<(&'b Numbered<'b>, Rest<'b>)>,
) {
    for (n, s) in list.iter().enumerate() {
        let before = behind.len();
        behind.extend(list[n + 1..].iter().rev());
        match s.statement {
            Statement::Wait(_) => found.push((s, behind.clone())),
            Statement::While(..) => {
                behind.push(s);
                gather(&s.branches[0], behind, found);
            }
            _ => s.branches.iter().for_each(|b| gather(b, behind, found)),
        }
        behind.truncate(before);
    }
}

/// What a body's run reads and changes.
#[derive(Clone, Debug, PartialEq, Eq)]
pub struct State {
    pub time: u64,
    pub signals: Vec<[i32; 32]>,
    pub earlier: Vec<i32>,
    pub variables: Vec<i32>,
    /// Per signal the current value of its driver and the pending ones by time.
    pub drivers: BTreeMap<u8, (Option<i32>, BTreeMap<u64, i32>)>,
}

impl State {
    /// What a configuration of one process holds.
    pub fn of(m: &Model, c: &Config) -> State {
        let driver = |d: &Driver| {
            let value = |v: Option<i32>| v.expect("no text makes null transactions");
            let wave = d.wave.iter().map(|&(at, carried)| (at, value(carried)));
            (d.current, wave.collect())
        };
        let pairs = m.drivers.iter().zip(&c.drivers);
        State {
            time: c.time,
            signals: c.signals.clone(),
            earlier: c.earlier.clone(),
            variables: c.variables.clone(),
            drivers: pairs.map(|(r, d)| (r.signal, driver(d))).collect(),
        }
    }
}

/// Where a run ends.
#[derive(Clone, Copy, Debug, PartialEq, Eq)]
pub enum Stop {
    /// At a wait: its statement, set and deadline.
    Wait(usize, u32, Option<u64>),
    /// At a fault: the statement, the fault and its node.
    Fault(usize, u8, u16),
}

/// A fault and its node.
type Failed = (u8, u16);

struct Run<'r> {
    program: &'r Program<'r>,
    m: &'r Model,
    state: &'r mut State,
}

/// Runs at most `most` statements: how many were run, and where it stopped, if it did.
pub fn run<'b>(
    program: &'b Program<'b>,
    m: &Model,
    state: &mut State,
    mut rest: Rest<'b>,
    most: usize,
) -> (usize, Option<Stop>) {
    let mut run = Run { program, m, state };
    for done in 0..most {
        // while true do body
        if rest.is_empty() {
            rest.extend(program.list.iter().rev());
        }
        let s = rest.pop().expect("a list has a statement");
        match run.step(s, &mut rest) {
            Ok(None) => {}
            Ok(Some((set, deadline))) => {
                return (done + 1, Some(Stop::Wait(s.number, set, deadline)))
            }
            Err((fault, node)) => return (done + 1, Some(Stop::Fault(s.number, fault, node))),
        }
    }
    (most, None)
}

impl Run<'_> {
    /// One statement: at a wait its set and deadline.
    fn step<'b>(
        &mut self,
        s: &'b Numbered<'b>,
        rest: &mut Rest<'b>,
    ) -> Result<Option<(u32, Option<u64>)>, Failed> {
        match s.statement {
            // Rule 10.
            Statement::Null => {}
            // Rule 8.
            Statement::Assign(v, e) => {
                self.state.variables[*v as usize] = self.value(*e)?.raw();
            }
            // Rule 9.
            Statement::Schedule(signal, e, after) => {
                let value = self.value(*e)?.raw();
                let at = self.state.time + self.delay(*after)?;
                let driver = self.state.drivers.get_mut(signal);
                let pending = &mut driver.expect("it has its driver").1;
                if pending.range(..at).count() == WAVEFORM {
                    return Err((NINTH, NO_NODE));
                }
                pending.split_off(&at);
                pending.insert(at, value);
            }
            Statement::Wait(w) => {
                let deadline = match w.span {
                    Some(e) => Some(self.state.time + self.delay(e)?),
                    None => None,
                };
                return Ok(Some((waited(self.program.body, w), deadline)));
            }
            // Rules 14 and 15, and 11 for what comes behind.
            Statement::If(e, ..) => {
                let branch = &s.branches[!self.truth(*e)? as usize];
                rest.extend(branch.iter().rev());
            }
            // Rules 12 and 13.
            Statement::While(e, _) => {
                if self.truth(*e)? {
                    rest.push(s);
                    rest.extend(s.branches[0].iter().rev());
                }
            }
        }
        Ok(None)
    }

    fn truth(&self, e: usize) -> Result<bool, Failed> {
        Ok(self.value(e)? == Value::Boolean(true))
    }

    fn delay(&self, e: usize) -> Result<u64, Failed> {
        let span = self.value(e)?.raw();
        u64::try_from(span).map_err(|_| (NEGATIVE_DELAY, NO_NODE))
    }

    fn typed(ty: u8, raw: i32) -> Value {
        match ty {
            INTEGER => Value::Integer(raw),
            BOOLEAN => Value::Boolean(raw != 0),
            _ => Value::Logic(raw as u8),
        }
    }

    fn value(&self, e: usize) -> Result<Value, Failed> {
        use Value::*;
        let signal = |s: u8| self.m.signals[s as usize].ty;
        let (kind, a, b) = match self.program.body.expressions[e] {
            Expression::Integer(k) => return Ok(Integer(k)),
            Expression::Logic(code) => return Ok(Logic(code)),
            Expression::Variable(v) => {
                let v = v as usize;
                let ty = self.m.variables[v].ty;
                return Ok(Self::typed(ty, self.state.variables[v]));
            }
            Expression::Signal(s) => {
                return Ok(Self::typed(signal(s), self.state.signals[s as usize][0]))
            }
            // Document 02, item 4.
            Expression::Delayed(s, 0) => {
                return Ok(Self::typed(signal(s), self.state.earlier[s as usize]))
            }
            Expression::Delayed(s, k) => {
                let past = self.state.signals[s as usize][k as usize];
                return Ok(Self::typed(signal(s), past));
            }
            Expression::One(kind, a) => {
                return Ok(match (kind, self.value(a)?) {
                    (NOT, Logic(v)) => Logic(values::not(v)),
                    (NOT, Boolean(v)) => Boolean(!v),
                    (_, Integer(v)) => Integer(-v),
                    _ => unreachable!("types are right"),
                });
            }
            Expression::Two(kind, a, b) => (kind, a, b),
        };
        let left = self.value(a)?;
        if matches!((kind, left), (7, Boolean(false)) | (8, Boolean(true))) {
            return Ok(left);
        }
        let right = self.value(b)?;
        match (left, right) {
            (Integer(v), Integer(w)) => match kind {
                13 => Ok(Boolean(v == w)),
                14 => Ok(Boolean(v < w)),
                _ => {
                    let number = arithmetic(kind, v.into(), w.into());
                    number.map(Integer).map_err(|f| (f, self.program.nodes[e]))
                }
            },
            (Boolean(v), Boolean(w)) => Ok(Boolean(match kind {
                7 => v & w,
                8 => v | w,
                _ => v ^ w,
            })),
            (Logic(v), Logic(w)) => Ok(match kind {
                7 => Logic(values::and(v, w)),
                8 => Logic(values::or(v, w)),
                9 => Logic(values::xor(v, w)),
                _ => Boolean(v == w),
            }),
            _ => unreachable!("types are right"),
        }
    }
}

fn arithmetic(kind: u8, a: i64, b: i64) -> Result<i32, u8> {
    if matches!(kind, QUOTIENT | MOD | REM) && b == 0 {
        return Err(DIVISOR_ZERO);
    }
    let n = match kind {
        SUM => a + b,
        PRODUCT => a * b,
        QUOTIENT => quotient(a, b),
        MOD => modulus(a, b),
        REM => remainder(a, b),
        _ => a - b,
    };
    let top = i64::from(TOP);
    match (-top..=top).contains(&n) {
        true => Ok(n as i32),
        false => Err(OUT_OF_RANGE),
    }
}

/// The signals that a wait is on, as bits.
fn waited(body: &Body, w: &Wait) -> u32 {
    match (&w.on, w.until) {
        (Some(on), _) => on.iter().map(|s| 1 << s).fold(0, |x: u32, y: u32| x | y),
        (None, Some(e)) => read_in(body, e),
        (None, None) => 0,
    }
}

fn read_in(body: &Body, e: usize) -> u32 {
    match body.expressions[e] {
        Expression::Signal(s) => 1 << s,
        Expression::Delayed(s, _) => 1 << s,
        Expression::One(_, a) => read_in(body, a),
        Expression::Two(_, a, b) => read_in(body, a) | read_in(body, b),
        _ => 0,
    }
}

/// Where process 0 of a configuration has come to.
fn stop_of(m: &Model, c: &Config) -> Option<Stop> {
    let p = c.processes[0];
    let place = p.place as usize;
    match p.standing {
        WAITING => Some(Stop::Wait(place, m.statements[place].set, p.deadline)),
        STOPPED => Some(Stop::Fault(place, p.fault, p.node)),
        _ => None,
    }
}

/// Most statements of a body that are run to its next wait.
pub const STEPS: usize = 2_000;

/// Runs the body from here and picks the records' process from its place: where both come
/// to, if they do. Err where they differ.
pub fn both<'b>(
    program: &'b Program<'b>,
    m: &Model,
    c: &mut Config,
    rest: Rest<'b>,
) -> Result<Option<Stop>, String> {
    let mut state = State::of(m, c);
    let (done, stop) = run(program, m, &mut state, rest, STEPS);
    // A statement of the text is at least one pick and with its go to and null three at most;
    // past a wait there are those of the statements that it stands in.
    let most = match stop {
        Some(_) => 3 * done + 2 * LEVELS,
        None => done,
    };
    for _ in 0..most {
        if c.pick(m, 0).is_err() {
            break;
        }
    }
    let found = stop_of(m, c);
    if found != stop {
        return Err(format!("the text comes to {stop:?}, its records {found:?}"));
    }
    let theirs = State::of(m, c);
    if stop.is_some() && theirs != state {
        return Err(format!(
            "at {stop:?} the text has {state:?}, its records {theirs:?}"
        ));
    }
    Ok(stop)
}

/// A configuration whose process stands at this statement, ready.
pub fn ready_at(c: &mut Config, place: usize) {
    c.processes[0] = Process {
        place: place as u16,
        standing: READY,
        ..Process::default()
    };
}
