//! The made records, and the number of a text with its given records.

use super::parser::parse;
use super::tree::*;
use crate::model::*;

/// The nodes and statements of a body.
#[derive(Clone, Debug, Default, PartialEq, Eq)]
pub struct Made {
    pub nodes: Vec<NodeRecord>,
    pub statements: Vec<StatementRecord>,
}

/// Each literal, name, operator and delayed group is a node, numbered as the text goes;
/// each simple statement is a statement, `if` is unless, list, go to, list, null, and
/// `while` is unless, list, go to, null.
pub fn made(body: &Body) -> Made {
    let mut maker = Maker {
        body,
        numbers: vec![0; body.expressions.len()],
        made: Made::default(),
    };
    maker.list(&body.list);
    maker.made
}

struct Maker<'b> {
    body: &'b Body,
    /// The node of each expression that has one.
    numbers: Vec<u16>,
    made: Made,
}

impl Maker<'_> {
    fn expression(&mut self, root: usize) -> u16 {
        for e in self.body.within(root) {
            let of = |operand: usize| self.numbers[operand];
            let (kind, a, b, k) = match self.body.expressions[e] {
                Expression::Integer(k) => (1, 0, 0, k),
                Expression::Logic(code) => (2, 0, 0, code.into()),
                Expression::Variable(v) => (3, v.into(), 0, 0),
                Expression::Signal(s) => (4, s.into(), 0, 0),
                Expression::Delayed(s, k) => (5, s.into(), 0, k.into()),
                Expression::One(kind, a) => (kind, of(a), 0, 0),
                Expression::Two(kind, a, b) => (kind, of(a), of(b), 0),
            };
            self.numbers[e] = self.made.nodes.len() as u16;
            self.made.nodes.push(NodeRecord { kind, a, b, k });
        }
        self.numbers[root]
    }

    /// Adds a statement; gives its number.
    fn statement(&mut self, kind: u8, a: u16, b: u16, c: u16, set: u32) -> usize {
        let record = StatementRecord { kind, a, b, c, set };
        self.made.statements.push(record);
        self.made.statements.len() - 1
    }

    /// Lets the jump go to the statement that comes next.
    fn lands_here(&mut self, jump: usize) {
        self.made.statements[jump].a = self.made.statements.len() as u16;
    }

    fn list(&mut self, list: &List) {
        for s in list {
            match s {
                Statement::Null => {
                    self.statement(0, 0, 0, 0, 0);
                }
                Statement::Assign(v, e) => {
                    let b = self.expression(*e);
                    self.statement(1, (*v).into(), b, 0, 0);
                }
                Statement::Schedule(s, value, delay) => {
                    let b = self.expression(*value);
                    let c = self.expression(*delay);
                    self.statement(2, (*s).into(), b, c, 0);
                }
                Statement::Wait(w) => {
                    let b = w.until.map_or(ABSENT, |e| self.expression(e));
                    let c = w.span.map_or(ABSENT, |e| self.expression(e));
                    let set = waits_on(self.body, w);
                    self.statement(5, 0, b, c, set);
                }
                Statement::If(condition, then, other) => {
                    let b = self.expression(*condition);
                    let unless = self.statement(3, 0, b, 0, 0);
                    self.list(then);
                    let go = self.statement(4, 0, 0, 0, 0);
                    self.lands_here(unless);
                    self.list(other);
                    self.lands_here(go);
                    self.statement(0, 0, 0, 0, 0);
                }
                Statement::While(condition, list) => {
                    let b = self.expression(*condition);
                    let unless = self.statement(3, 0, b, 0, 0);
                    self.list(list);
                    self.statement(4, unless as u16, 0, 0, 0);
                    self.lands_here(unless);
                    self.statement(0, 0, 0, 0, 0);
                }
            }
        }
    }
}

/// A wait's set: `on`; where it is missing the signals in `until`, delayed ones too.
pub fn waits_on(body: &Body, w: &Wait) -> u32 {
    let signals = match (&w.on, w.until) {
        (Some(on), _) => on.clone(),
        (None, Some(until)) => {
            let read = |e: usize| match body.expressions[e] {
                Expression::Signal(s) | Expression::Delayed(s, _) => Some(s),
                _ => None,
            };
            body.within(until).into_iter().filter_map(read).collect()
        }
        (None, None) => vec![],
    };
    signals.iter().fold(0, |set, s| set | 1 << s)
}

/// The text's nodes and statements; Err is 26.
pub fn read(text: &[u8]) -> Result<Made, u32> {
    match parse(text) {
        Ok(body) => Ok(made(&body)),
        Err(_) => Err(26),
    }
}

/// The records' bytes, as far as the buffer reaches.
fn store(buffer: &mut [u8], records: &[Record]) {
    for (room, byte) in buffer.iter_mut().zip(records.iter().flatten()) {
        *room = *byte;
    }
}

/// Reads a text into buffers: the records as far as these reach, the number, and how many nodes
/// and statements there are. A refused text writes none and has none.
pub fn read_into(text: &[u8], nodes: &mut [u8], statements: &mut [u8], counts: &mut [u32; 3]) {
    match read(text) {
        Err(number) => *counts = [number, 0, 0],
        Ok(made) => {
            let m = Model {
                nodes: made.nodes,
                statements: made.statements,
                ..Model::default()
            };
            let all = records(&m);
            store(nodes, &all[4]);
            store(statements, &all[5]);
            *counts = [0, all[4].len() as u32, all[5].len() as u32];
        }
    }
}

/// Given records as bytes: how many signals, variables and drivers, then the records.
pub fn given(m: &Model) -> Vec<u8> {
    let all = records(m);
    let lists = [&all[0], &all[1], &all[3]];
    let mut bytes = lists.map(|list| list.len() as u8).to_vec();
    for record in lists.into_iter().flatten() {
        bytes.extend_from_slice(record);
    }
    bytes
}

/// How many signals, variables and drivers are said to be given.
fn many(given: &[u8]) -> [usize; 3] {
    std::array::from_fn(|n| given.get(n).copied().unwrap_or(0) as usize)
}

/// Is each name among the records?
fn names_right(made: &Made, signals: usize, variables: usize) -> bool {
    let node = |n: &NodeRecord| match n.kind {
        3 => (n.a as usize) < variables,
        4 | 5 => (n.a as usize) < signals,
        _ => true,
    };
    let statement = |s: &StatementRecord| match s.kind {
        1 => (s.a as usize) < variables,
        2 => (s.a as usize) < signals,
        5 => (0..32).all(|n| s.set >> n & 1 == 0 || n < signals),
        _ => true,
    };
    made.nodes.iter().all(node) && made.statements.iter().all(statement)
}

/// The model of a text and given records, or the first number that applies: 26, 27, then a
/// model's own from 4 on.
pub fn model(text: &[u8], given: &[u8]) -> Result<Model, u32> {
    let made = read(text)?;
    let [signals, variables, drivers] = many(given);
    if !names_right(&made, signals, variables) {
        return Err(27);
    }
    if given.len() != 3 + RECORD * (signals + variables + drivers) {
        return Err(4);
    }
    let mut list: Vec<Record> = vec![];
    for record in given[3..].chunks_exact(RECORD) {
        list.push(record.try_into().expect("it is whole"));
    }
    let count = made.statements.len() as u16;
    let m = Model {
        processes: vec![ProcessRecord { first: 0, count }],
        nodes: made.nodes,
        statements: made.statements,
        ..Model::default()
    };
    let mut all = records(&m);
    all[3] = list.split_off(signals + variables);
    all[1] = list.split_off(signals);
    all[0] = list;
    load_records(&all)
}
