//! Models damaged in one rule of a model's refusals, in two, or in a single byte; and cases
//! on both sides of each limit.

mod arithmetic;
mod guarded;
mod inertial;
mod own_table;

use crate::builder::Builder;
use crate::gen;
use crate::integers;
use crate::model::*;
use crate::numbers;
use crate::rng::Rng;
pub use arithmetic::ARITHMETIC;
pub use guarded::GUARDED;
pub use inertial::INERTIAL;
pub use own_table::OWN_TABLE;
use std::array::from_fn;

/// A model and bytes to change in its records (kind, record, byte, value).
struct Subject {
    m: Model,
    patches: Vec<(usize, usize, usize, u8)>,
}

impl Subject {
    fn bytes(&self, rng: &mut Rng) -> Vec<u8> {
        let mut list = records(&self.m);
        for &(kind, record, byte, value) in &self.patches {
            // Another damage may have removed the record.
            if let Some(r) = list[kind - 1].get_mut(record) {
                r[byte] = value;
            }
        }
        encode_records(&list, &gen::plan(rng, &self.m))
    }
}

/// Damages the model in its rule; None if it can not.
type ModelOp = fn(&mut Rng, &mut Subject) -> Option<()>;
/// A way to damage a model, with its name.
type Way = (&'static str, ModelOp);
/// The ways to damage a feature, each list with the number that it comes to.
#[derive(Clone, Copy)]
pub struct Ways(&'static [(u32, &'static [Way])]);

impl Ways {
    pub const NONE: Ways = Ways(&[]);

    /// The number and the name of each way.
    pub fn names(self) -> Vec<(u32, &'static str)> {
        let lists = self.0.iter();
        lists
            .flat_map(|&(rule, ways)| ways.iter().map(move |way| (rule, way.0)))
            .collect()
    }

    /// A model damaged in one of the ways, each as likely: the number, how, and
    /// the bytes.
    pub fn damaged(self, rng: &mut Rng) -> (u32, &'static str, Vec<u8>) {
        let many: Vec<usize> = self.0.iter().map(|(_, ways)| ways.len()).collect();
        let (rule, ways) = self.0[rng.weighted(&many)];
        let (name, op) = rng.choose(ways);
        loop {
            let mut s = subject(rng);
            if op(rng, &mut s).is_some() {
                return (rule, name, s.bytes(rng));
            }
        }
    }
}

/// Damages the blocks; gives whether it did.
type BlockOp = fn(&mut Rng, &mut Vec<u8>) -> bool;

fn blocks(bytes: &[u8]) -> usize {
    bytes.len() / BLOCK
}

fn repair(bytes: &mut [u8], n: usize) {
    repair_sum(&mut bytes[BLOCK * n..BLOCK * (n + 1)]);
}

fn empty_block(number: usize, kind: u8) -> [u8; BLOCK] {
    block(number as u16, kind, &[])
}

/// A byte other than this one.
fn other_byte(rng: &mut Rng, old: u8) -> u8 {
    let new = match rng.below(5) {
        0 => old.wrapping_add(1),
        1 => old.wrapping_sub(1),
        2 => old ^ 1 << rng.below(8),
        3 => rng.choose(&[0, 1, 2, 3, 7, 8, 9, 15, 31, 32, 64, 127, 128, 255]),
        _ => rng.below(256) as u8,
    };
    if new == old {
        old ^ 0x80
    } else {
        new
    }
}

const LENGTH: &[(&str, BlockOp)] = &[
    ("no bytes", |_, b| {
        b.clear();
        true
    }),
    ("cut short", |rng, b| {
        let off = 1 + rng.below(511);
        b.truncate(b.len() - off);
        true
    }),
    ("one byte off", |rng, b| {
        if rng.chance(1, 2) {
            b.push(0);
        } else {
            b.pop();
        }
        true
    }),
    ("drawn out", |rng, b| {
        let more = 1 + rng.below(511);
        let fill = rng.choose(&[0, 255]);
        b.resize(b.len() + more, fill);
        true
    }),
    ("65 blocks or more", |rng, b| {
        let total = 65 + rng.below(6);
        while blocks(b) < total {
            let block = empty_block(blocks(b), 6);
            b.extend_from_slice(&block);
        }
        true
    }),
];

const SUM: &[(&str, BlockOp)] = &[
    ("a bit without its sum", |rng, b| {
        let at = rng.below(b.len());
        b[at] ^= 1 << rng.below(8);
        true
    }),
    ("a byte without its sum", |rng, b| {
        let at = rng.below(b.len());
        b[at] = other_byte(rng, b[at]);
        true
    }),
    ("a sum other than 1", |rng, b| {
        let at = BLOCK * rng.below(blocks(b)) + 510;
        let word = u16::from_le_bytes([b[at], b[at + 1]]);
        let off = rng.choose(&[1, 2, 3, 255, 256, 32_768, 65_534, 65_535]);
        b[at..at + 2].copy_from_slice(&word.wrapping_add(off).to_le_bytes());
        true
    }),
    ("the last block's sum", |rng, b| {
        let at = b.len() - 1 - rng.below(2);
        b[at] = other_byte(rng, b[at]);
        true
    }),
];

const HEADER: &[(&str, BlockOp)] = &[
    ("a block's number", |rng, b| {
        let n = rng.below(blocks(b));
        let at = BLOCK * n + rng.below(2);
        b[at] = other_byte(rng, b[at]);
        repair(b, n);
        true
    }),
    ("two blocks changed over", |rng, b| {
        if blocks(b) < 2 {
            return false;
        }
        let x = rng.below(blocks(b) - 1);
        let (one, two) = b[BLOCK * x..BLOCK * (x + 2)].split_at_mut(BLOCK);
        one.swap_with_slice(two);
        true
    }),
    ("no such kind", |rng, b| {
        let n = rng.below(blocks(b));
        b[BLOCK * n + 2] = rng.choose(&[0, 8, 9, 128, 255]);
        repair(b, n);
        true
    }),
    ("a falling kind", |rng, b| {
        let n = rng.below(blocks(b));
        if n == 0 || b[BLOCK * (n - 1) + 2] < 2 {
            return false;
        }
        let below = b[BLOCK * (n - 1) + 2] as usize - 1;
        b[BLOCK * n + 2] = 1 + rng.below(below) as u8;
        repair(b, n);
        true
    }),
    ("rows before another kind", |rng, b| {
        let n = rng.below(blocks(b));
        if n + 1 == blocks(b) || b[BLOCK * (n + 1) + 2] == 7 {
            return false;
        }
        b[BLOCK * n + 2] = 7;
        repair(b, n);
        true
    }),
    ("a count over 42", |rng, b| {
        let n = rng.below(blocks(b));
        b[BLOCK * n + 3] = rng.choose(&[43, 43, 44, 64, 128, 255]);
        repair(b, n);
        true
    }),
    ("a trailing byte", |rng, b| {
        let n = rng.below(blocks(b));
        let first = 4 + RECORD * b[BLOCK * n + 3] as usize;
        let at = match rng.below(4) {
            0 => first,
            1 => 509,
            2 => 508,
            _ => first + rng.below(510 - first),
        };
        b[BLOCK * n + at] = 1 + rng.below(255) as u8;
        repair(b, n);
        true
    }),
    ("a count one too low", |rng, b| {
        let n = rng.below(blocks(b));
        let count = b[BLOCK * n + 3] as usize;
        if count == 0 {
            return false;
        }
        let at = BLOCK * n + 4 + RECORD * (count - 1);
        if b[at..at + RECORD].iter().all(|&x| x == 0) {
            return false;
        }
        b[BLOCK * n + 3] -= 1;
        repair(b, n);
        true
    }),
];

const TOTAL: &[Way] = &[
    ("33 signals or more", |rng, s| {
        s.m.signals
            .resize(33 + rng.below(20), SignalRecord::default());
        Some(())
    }),
    ("65 variables or more", |rng, s| {
        s.m.variables
            .resize(65 + rng.below(20), VariableRecord::default());
        Some(())
    }),
    ("17 processes or more", |rng, s| {
        for _ in s.m.processes.len()..17 + rng.below(10) {
            let first = s.m.statements.len() as u16;
            s.m.processes.push(ProcessRecord { first, count: 1 });
            s.m.statements.push(StatementRecord::default());
        }
        Some(())
    }),
    ("65 drivers or more", |rng, s| {
        s.m.drivers
            .resize(65 + rng.below(20), DriverRecord::default());
        Some(())
    }),
    ("401 nodes or more", |rng, s| {
        s.m.nodes.resize(
            401 + rng.below(40),
            NodeRecord {
                kind: 1,
                ..Default::default()
            },
        );
        Some(())
    }),
    ("201 statements or more", |rng, s| {
        let more = 201 + rng.below(40) - s.m.statements.len();
        s.m.statements
            .resize(s.m.statements.len() + more, StatementRecord::default());
        if let Some(p) = s.m.processes.last_mut() {
            p.count += more as u16;
        }
        Some(())
    }),
    ("no process", |_, s| {
        s.m.processes.clear();
        Some(())
    }),
    ("no statement", |_, s| {
        s.m.statements.clear();
        Some(())
    }),
];

/// A number of an item that is not there.
fn missing(rng: &mut Rng, total: usize, most: usize) -> u16 {
    let n = rng.choose(&[total, total + 1, most, most - 1, most / 2]);
    n.max(total) as u16
}

/// A value that the type does not have.
fn outside(rng: &mut Rng, ty: u8) -> i32 {
    match ty {
        INTEGER => i32::MIN,
        LOGIC => rng.choose(&[9, 10, -1, 256, 65_536, i32::MAX, i32::MIN, 0x0200_0000]),
        _ => rng.choose(&[2, 3, -1, 256, 65_537, i32::MAX, i32::MIN]),
    }
}

/// One of the numbers, if there is any.
fn one_of(rng: &mut Rng, numbers: impl Iterator<Item = usize>) -> Option<usize> {
    let found: Vec<usize> = numbers.collect();
    (!found.is_empty()).then(|| rng.choose(&found))
}

fn some<T>(rng: &mut Rng, list: &[T], fits: impl Fn(&T) -> bool) -> Option<usize> {
    one_of(rng, (0..list.len()).filter(|&n| fits(&list[n])))
}

/// Does the statement name a delay c?
fn delays(s: &StatementRecord) -> bool {
    assigns_signal(s) || s.kind == 5
}

/// Adds a node; gives its number.
fn node(m: &mut Model, kind: u8, a: u16, b: u16) -> u16 {
    m.nodes.push(NodeRecord { kind, a, b, k: 0 });
    m.nodes.len() as u16 - 1
}

fn nonzero(rng: &mut Rng) -> u16 {
    rng.choose(&[1, 2, 255, 256, 32_768, 65_535])
}

const UNNAMED: [&[usize]; KINDS] = [
    &[2, 3, 8, 9, 10, 11],
    &[2, 3, 8, 9, 10, 11],
    &[4, 5, 6, 7, 8, 9, 10, 11],
    &[2, 3, 4, 5, 6, 7, 8, 9, 10, 11],
    &[1, 6, 7],
    &[1],
    &[9, 10, 11],
];

const FIELD: &[Way] = &[
    ("an unnamed byte", |rng, s| {
        let kind = 1 + rng.below(KINDS);
        let total = records(&s.m)[kind - 1].len();
        if total == 0 {
            return None;
        }
        let byte = rng.choose(UNNAMED[kind - 1]);
        s.patches
            .push((kind, rng.below(total), byte, 1 + rng.below(255) as u8));
        Some(())
    }),
    ("a signal's type", |rng, s| {
        let n = some(rng, &s.m.signals, |_| true)?;
        s.m.signals[n].ty = rng.choose(&[2, 3, 128, 255]);
        Some(())
    }),
    ("a signal's start", |rng, s| {
        let n = some(rng, &s.m.signals, |_| true)?;
        s.m.signals[n].start = outside(rng, s.m.signals[n].ty);
        Some(())
    }),
    ("a variable's type", |rng, s| {
        let n = some(rng, &s.m.variables, |_| true)?;
        s.m.variables[n].ty = rng.choose(&[3, 4, 128, 255]);
        Some(())
    }),
    ("a variable's process", |rng, s| {
        let n = some(rng, &s.m.variables, |_| true)?;
        s.m.variables[n].process = missing(rng, s.m.processes.len(), 255) as u8;
        Some(())
    }),
    ("a variable's start", |rng, s| {
        let n = some(rng, &s.m.variables, |_| true)?;
        s.m.variables[n].start = outside(rng, s.m.variables[n].ty);
        Some(())
    }),
    ("a process's first", |rng, s| {
        let n = rng.below(s.m.processes.len());
        let off = rng.choose(&[1, 65_535, 2, 256, 32_768]);
        s.m.processes[n].first = s.m.processes[n].first.wrapping_add(off);
        Some(())
    }),
    ("a process's count", |rng, s| {
        let n = rng.below(s.m.processes.len());
        let off = rng.choose(&[1, 65_535, 2, 256, 32_768]);
        s.m.processes[n].count = s.m.processes[n].count.wrapping_add(off);
        Some(())
    }),
    ("a process of no statement", |rng, s| {
        // The spans join all the same.
        if s.m.processes.len() >= 16 {
            return None;
        }
        let n = rng.below(s.m.processes.len() + 1);
        let first = match s.m.processes.get(n) {
            Some(p) => p.first,
            None => s.m.statements.len() as u16,
        };
        s.m.processes.insert(n, ProcessRecord { first, count: 0 });
        Some(())
    }),
    ("a driver's process", |rng, s| {
        let n = some(rng, &s.m.drivers, |_| true)?;
        s.m.drivers[n].process = missing(rng, s.m.processes.len(), 255) as u8;
        Some(())
    }),
    ("a driver's signal", |rng, s| {
        let n = some(rng, &s.m.drivers, |_| true)?;
        s.m.drivers[n].signal = missing(rng, s.m.signals.len(), 255) as u8;
        Some(())
    }),
    ("a node's kind", |rng, s| {
        let n = rng.below(s.m.nodes.len());
        s.m.nodes[n].kind = rng.choose(&[0, 19, 20, 128, 255]);
        Some(())
    }),
    ("a constant", |rng, s| {
        let n = some(rng, &s.m.nodes, |n| n.kind <= 2)?;
        s.m.nodes[n].k = outside(
            rng,
            if s.m.nodes[n].kind == 1 {
                INTEGER
            } else {
                LOGIC
            },
        );
        Some(())
    }),
    ("a node's variable", |rng, s| {
        let n = some(rng, &s.m.nodes, |n| n.kind == 3)?;
        s.m.nodes[n].a = missing(rng, s.m.variables.len(), 65_535);
        Some(())
    }),
    ("a node's signal", |rng, s| {
        let n = some(rng, &s.m.nodes, |n| n.kind == 4 || n.kind == 5)?;
        s.m.nodes[n].a = missing(rng, s.m.signals.len(), 65_535);
        Some(())
    }),
    ("a delayed signal's delay", |rng, s| {
        let n = some(rng, &s.m.nodes, |n| n.kind == 5)?;
        s.m.nodes[n].k = rng.choose(&[32, 33, -1, 256, 65_536, i32::MIN, i32::MAX]);
        Some(())
    }),
    ("a node's unused a", |rng, s| {
        let n = some(rng, &s.m.nodes, |n| n.kind <= 2)?;
        s.m.nodes[n].a = nonzero(rng);
        Some(())
    }),
    ("a node's unused b", |rng, s| {
        let n = some(rng, &s.m.nodes, |n| n.kind <= 6 || n.kind == 10)?;
        s.m.nodes[n].b = nonzero(rng);
        Some(())
    }),
    ("a node's unused k", |rng, s| {
        let unused = |n: &NodeRecord| n.kind == 3 || n.kind == 4 || n.kind >= 6;
        let n = some(rng, &s.m.nodes, unused)?;
        s.m.nodes[n].k = rng.choose(&[1, -1, 256, 65_536, 0x0100_0000, i32::MIN]);
        Some(())
    }),
    ("a statement's kind", |rng, s| {
        let n = rng.below(s.m.statements.len());
        s.m.statements[n].kind = rng.choose(&[8, 9, 128, 255]);
        Some(())
    }),
    ("an assigned variable", |rng, s| {
        let n = some(rng, &s.m.statements, |s| s.kind == 1)?;
        s.m.statements[n].a = missing(rng, s.m.variables.len(), 65_535);
        Some(())
    }),
    ("an assigned signal", |rng, s| {
        let n = some(rng, &s.m.statements, assigns_signal)?;
        no_signal(rng, s, n)
    }),
    ("a statement's b", |rng, s| {
        let uses = |s: &StatementRecord| [1, 2, 3, 5, 7].contains(&s.kind);
        let n = some(rng, &s.m.statements, uses)?;
        let most = 65_535 - (s.m.statements[n].kind == 5) as usize;
        s.m.statements[n].b = missing(rng, s.m.nodes.len(), most);
        Some(())
    }),
    ("a statement's c", |rng, s| {
        let n = some(rng, &s.m.statements, delays)?;
        let most = 65_535 - (s.m.statements[n].kind == 5) as usize;
        s.m.statements[n].c = missing(rng, s.m.nodes.len(), most);
        Some(())
    }),
    ("a jump out of its process", |rng, s| {
        let jumps = |s: &StatementRecord| s.kind == 3 || s.kind == 4;
        let n = some(rng, &s.m.statements, jumps)?;
        let p = s.m.processes[process_of(&s.m, n)];
        let total = s.m.statements.len() as u16;
        let end = p.first + p.count;
        let target = rng.choose(&[end, p.first.wrapping_sub(1), total, 0, total - 1, 65_535]);
        if (p.first..end).contains(&target) {
            return None;
        }
        s.m.statements[n].a = target;
        Some(())
    }),
    ("a statement's unused a", |rng, s| {
        let n = some(rng, &s.m.statements, |s| s.kind == 0 || s.kind == 5)?;
        s.m.statements[n].a = nonzero(rng);
        Some(())
    }),
    ("a statement's unused b", |rng, s| {
        let n = some(rng, &s.m.statements, |s| [0, 4, 6].contains(&s.kind))?;
        s.m.statements[n].b = nonzero(rng);
        Some(())
    }),
    ("a statement's unused c", |rng, s| {
        let n = some(rng, &s.m.statements, |s| !delays(s))?;
        s.m.statements[n].c = nonzero(rng);
        Some(())
    }),
    ("a statement's unused set", |rng, s| {
        let n = some(rng, &s.m.statements, |s| s.kind != 5)?;
        s.m.statements[n].set = 1 << rng.below(32);
        Some(())
    }),
    ("a set's signal", |rng, s| {
        let signals = s.m.signals.len();
        let n = some(rng, &s.m.statements, |s| s.kind == 5)?;
        if signals == 32 {
            return None;
        }
        let bit = if rng.chance(1, 2) {
            signals
        } else {
            signals + rng.below(32 - signals)
        };
        s.m.statements[n].set |= 1 << bit;
        Some(())
    }),
];

/// Tree sizes of an accepted model.
fn sizes(m: &Model) -> Vec<usize> {
    let mut list: Vec<usize> = vec![];
    for n in &m.nodes {
        list.push(1 + operands(n).iter().map(|&o| list[o as usize]).sum::<usize>());
    }
    list
}

fn set_operand(n: &mut NodeRecord, second: bool, operand: u16) {
    if second {
        n.b = operand;
    } else {
        n.a = operand;
    }
}

fn not_lower(rng: &mut Rng, n: usize, total: usize) -> u16 {
    let any = n + rng.below(total - n);
    rng.choose(&[n, n, n + 1, total, any, 65_535]) as u16
}

const OPERAND: &[Way] = &[
    ("an operand a", |rng, s| {
        let n = some(rng, &s.m.nodes, |n| n.kind >= 6)?;
        s.m.nodes[n].a = not_lower(rng, n, s.m.nodes.len());
        Some(())
    }),
    ("an operand b", |rng, s| {
        let n = some(rng, &s.m.nodes, |n| n.kind >= 7 && n.kind != 10)?;
        s.m.nodes[n].b = not_lower(rng, n, s.m.nodes.len());
        Some(())
    }),
    ("a tree of 65 nodes", |rng, s| {
        // Unary nodes on top of any node.
        let n = rng.below(s.m.nodes.len());
        let types = node_types(&s.m)?;
        let more = 65 - sizes(&s.m)[n];
        if s.m.nodes.len() + more > 400 {
            return None;
        }
        let kind = if types[n] == INTEGER { 10 } else { 6 };
        let mut a = n as u16;
        for _ in 0..more {
            a = node(&mut s.m, kind, a, 0);
        }
        Some(())
    }),
    ("a tree of repeats", |rng, s| {
        let n = rng.below(s.m.nodes.len());
        let types = node_types(&s.m)?;
        let rounds = if rng.chance(1, 4) { 60 } else { 7 };
        if s.m.nodes.len() + rounds > 400 {
            return None;
        }
        let kind = if types[n] == INTEGER { 11 } else { 7 };
        let mut a = n as u16;
        for _ in 0..rounds {
            a = node(&mut s.m, kind, a, a);
        }
        Some(())
    }),
];

/// Nodes that take operands of a wrong type when one is exchanged for a leaf.
fn wrong_operand(rng: &mut Rng, s: &mut Subject, second: bool) -> Option<()> {
    let types = node_types(&s.m)?;
    let takes = |n: &NodeRecord| n.kind >= 6 && (!second || (n.kind != 6 && n.kind != 10));
    let n = some(rng, &s.m.nodes, takes)?;
    let node = s.m.nodes[n];
    let old = types[if second { node.b } else { node.a } as usize];
    let wrong = |l: &usize| match node.kind {
        // One operand: the other allowed type stays allowed.
        6 => types[*l] == INTEGER,
        _ => types[*l] != old,
    };
    let leaves = (0..n).filter(|&l| s.m.nodes[l].kind <= 5);
    let leaf = one_of(rng, leaves.filter(wrong))? as u16;
    set_operand(&mut s.m.nodes[n], second, leaf);
    Some(())
}

/// A node of a type other than this one.
fn other_type(rng: &mut Rng, types: &[u8], ty: u8) -> Option<u16> {
    some(rng, types, |&t| t != ty).map(|n| n as u16)
}

const TYPE: &[Way] = &[
    ("an operand a of a wrong type", |rng, s| {
        wrong_operand(rng, s, false)
    }),
    ("an operand b of a wrong type", |rng, s| {
        wrong_operand(rng, s, true)
    }),
    ("an unused node of wrong types", |rng, s| {
        let types = node_types(&s.m)?;
        if s.m.nodes.len() >= 400 {
            return None;
        }
        let sizes = sizes(&s.m);
        let kind = 6 + rng.below(13) as u8;
        let (x, y) = (rng.below(types.len()), rng.below(types.len()));
        let (t, u) = (types[x], types[y]);
        let wrong = match kind {
            6 => t == INTEGER,
            7..=9 => t == INTEGER || t != u,
            10 => t != INTEGER,
            13 => t == BOOLEAN || t != u,
            _ => t != INTEGER || u != INTEGER,
        };
        let one = kind == 6 || kind == 10;
        if !wrong || sizes[x] + if one { 0 } else { sizes[y] } > 63 {
            return None;
        }
        node(&mut s.m, kind, x as u16, if one { 0 } else { y as u16 });
        Some(())
    }),
    ("booleans compared", |rng, s| {
        let types = node_types(&s.m)?;
        let small: Vec<usize> = {
            let sizes = sizes(&s.m);
            (0..types.len())
                .filter(|&n| types[n] == BOOLEAN && sizes[n] <= 31)
                .collect()
        };
        if small.is_empty() || s.m.nodes.len() >= 400 {
            return None;
        }
        let (a, b) = (rng.choose(&small) as u16, rng.choose(&small) as u16);
        node(&mut s.m, 13, a, b);
        Some(())
    }),
    ("an assigned value's type", |rng, s| {
        let types = node_types(&s.m)?;
        let n = some(rng, &s.m.statements, |s| s.kind == 1 || assigns_value(s))?;
        let t = s.m.statements[n];
        let ty = match t.kind {
            1 => s.m.variables[t.a as usize].ty,
            _ => s.m.signals[t.a as usize].ty,
        };
        let b = other_type(rng, &types, ty)?;
        s.m.statements[n].b = b;
        Some(())
    }),
    ("a delay's type", |rng, s| {
        let n = some(rng, &s.m.statements, delays)?;
        other_delay(rng, s, n)
    }),
    ("a condition's type", |rng, s| {
        let types = node_types(&s.m)?;
        let n = some(rng, &s.m.statements, |s| s.kind == 3 || s.kind == 5)?;
        let b = other_type(rng, &types, BOOLEAN)?;
        s.m.statements[n].b = b;
        Some(())
    }),
];

/// For each node the processes whose variables its tree reads.
fn readers(m: &Model) -> Vec<u32> {
    let mut list: Vec<u32> = vec![];
    for n in &m.nodes {
        let own = if n.kind == 3 {
            1 << m.variables[n.a as usize].process
        } else {
            0
        };
        list.push(
            operands(n)
                .iter()
                .fold(own, |set, &o| set | list[o as usize]),
        );
    }
    list
}

/// For each variable: does a statement assign or read it?
fn variables_used(m: &Model) -> Vec<bool> {
    let mut used = vec![false; m.variables.len()];
    let mut in_tree = vec![false; m.nodes.len()];
    for s in &m.statements {
        if s.kind == 1 {
            used[s.a as usize] = true;
        }
        for root in roots(s) {
            in_tree[root as usize] = true;
        }
    }
    for n in (0..m.nodes.len()).rev() {
        if in_tree[n] {
            for o in operands(&m.nodes[n]) {
                in_tree[o as usize] = true;
            }
            if m.nodes[n].kind == 3 {
                used[m.nodes[n].a as usize] = true;
            }
        }
    }
    used
}

/// Makes an assignment's signal one that is not there.
fn no_signal(rng: &mut Rng, s: &mut Subject, n: usize) -> Option<()> {
    s.m.statements[n].a = missing(rng, s.m.signals.len(), 65_535);
    Some(())
}

/// Makes an assignment's delay a node that is not there.
fn no_delay(rng: &mut Rng, s: &mut Subject, n: usize) -> Option<()> {
    s.m.statements[n].c = missing(rng, s.m.nodes.len(), 65_535);
    Some(())
}

/// Gives a statement a set.
fn some_set(rng: &mut Rng, s: &mut Subject, n: usize) -> Option<()> {
    s.m.statements[n].set = 1 << rng.below(32);
    Some(())
}

/// Changes the byte of a statement that no kind names.
fn unnamed_byte(rng: &mut Rng, s: &mut Subject, n: usize) -> Option<()> {
    s.patches.push((6, n, 1, 1 + rng.below(255) as u8));
    Some(())
}

/// Gives a statement a kind that there is not.
fn raised_kind(rng: &mut Rng, s: &mut Subject, n: usize) -> Option<()> {
    let any = 8 + rng.below(248) as u8;
    s.m.statements[n].kind = rng.choose(&[8, 9, 255, any]);
    Some(())
}

/// Gives a statement a delay that is no integer.
fn other_delay(rng: &mut Rng, s: &mut Subject, n: usize) -> Option<()> {
    let types = node_types(&s.m)?;
    s.m.statements[n].c = other_type(rng, &types, INTEGER)?;
    Some(())
}

/// Removes an assignment's driver.
fn remove_driver(s: &mut Subject, n: usize) -> Option<()> {
    let p = process_of(&s.m, n);
    let d = driver_of(&s.m, p, s.m.statements[n].a as usize)?;
    s.m.drivers.remove(d);
    Some(())
}

/// Gives an assignment such a signal that its process does not drive.
fn undriven(
    rng: &mut Rng,
    s: &mut Subject,
    n: usize,
    fits: impl Fn(&SignalRecord) -> bool,
) -> Option<()> {
    let p = process_of(&s.m, n);
    let free = |&x: &usize| fits(&s.m.signals[x]) && driver_of(&s.m, p, x).is_none();
    s.m.statements[n].a = one_of(rng, (0..s.m.signals.len()).filter(free))? as u16;
    Some(())
}

/// Puts another process's variable, or what one operator makes of it, in place of an
/// expression of statement n.
fn foreign(rng: &mut Rng, s: &mut Subject, n: usize, role: Role) -> Option<()> {
    let p = process_of(&s.m, n);
    let (_, old) = expressions(&s.m.statements[n])
        .into_iter()
        .find(|e| e.0 == role)?;
    let ty = node_types(&s.m)?[old as usize];
    let fits = |v: &VariableRecord| v.ty == ty && v.process as usize != p;
    let v = some(rng, &s.m.variables, fits)? as u16;
    if s.m.nodes.len() > 398 {
        return None;
    }
    let mut new = node(&mut s.m, 3, v, 0);
    if rng.chance(1, 2) {
        new = node(&mut s.m, if ty == INTEGER { 10 } else { 6 }, new, 0);
    }
    set_expression(&mut s.m.statements[n], role, new);
    Some(())
}

fn add_driver(m: &mut Model, process: u8, signal: u8) {
    m.drivers.push(DriverRecord { process, signal });
    m.drivers.sort_by_key(|d| (d.process, d.signal));
}

const OWNER: &[Way] = &[
    ("drivers changed over", |rng, s| {
        if s.m.drivers.len() < 2 {
            return None;
        }
        let n = rng.below(s.m.drivers.len() - 1);
        let other = if rng.chance(1, 2) {
            n + 1
        } else {
            s.m.drivers.len() - 1
        };
        s.m.drivers.swap(n, other);
        (n != other).then_some(())
    }),
    ("a driver twice", |rng, s| {
        if s.m.drivers.is_empty() || s.m.drivers.len() >= 64 {
            return None;
        }
        let n = rng.below(s.m.drivers.len());
        s.m.drivers.insert(n, s.m.drivers[n]);
        Some(())
    }),
    ("an integer signal of two drivers", |rng, s| {
        let n = some(rng, &s.m.signals, |s| s.ty == INTEGER)?;
        if s.m.processes.len() < 2 || s.m.drivers.len() > 62 {
            return None;
        }
        let free: Vec<u8> = (0..s.m.processes.len())
            .filter(|&p| driver_of(&s.m, p, n).is_none())
            .map(|p| p as u8)
            .collect();
        let has = s.m.processes.len() - free.len();
        for &p in free.iter().take(2 - has.min(2)) {
            add_driver(&mut s.m, p, n as u8);
        }
        Some(())
    }),
    ("a driver removed", |rng, s| {
        let n = some(rng, &s.m.statements, assigns_signal)?;
        remove_driver(s, n)
    }),
    ("a signal without a driver here", |rng, s| {
        let n = some(rng, &s.m.statements, assigns_signal)?;
        let ty = s.m.signals[s.m.statements[n].a as usize].ty;
        undriven(rng, s, n, |x| x.ty == ty)
    }),
    ("another process's variable assigned", |rng, s| {
        let n = some(rng, &s.m.statements, |s| s.kind == 1)?;
        let v = s.m.variables[s.m.statements[n].a as usize];
        let fits = |w: &VariableRecord| w.ty == v.ty && w.process != v.process;
        let w = some(rng, &s.m.variables, fits)?;
        s.m.statements[n].a = w as u16;
        Some(())
    }),
    ("another process's variable read", |rng, s| {
        let types = node_types(&s.m)?;
        let readers = readers(&s.m);
        let n = some(rng, &s.m.statements, |s| !roots(s).is_empty())?;
        let own = 1u32 << process_of(&s.m, n);
        let (role, old) = rng.choose(&expressions(&s.m.statements[n]));
        let fits = |&x: &usize| types[x] == types[old as usize] && readers[x] & !own != 0;
        let new = one_of(rng, (0..types.len()).filter(fits))? as u16;
        set_expression(&mut s.m.statements[n], role, new);
        Some(())
    }),
    ("a used variable moved", |rng, s| {
        if s.m.processes.len() < 2 {
            return None;
        }
        let used = variables_used(&s.m);
        let v = some(rng, &used, |&u| u)?;
        let others: Vec<u8> = (0..s.m.processes.len() as u8)
            .filter(|&p| p != s.m.variables[v].process)
            .collect();
        s.m.variables[v].process = rng.choose(&others);
        Some(())
    }),
];

fn model_ops(rule: u32) -> &'static [Way] {
    match rule {
        4 => TOTAL,
        5 => FIELD,
        6 => OPERAND,
        7 => TYPE,
        8 => OWNER,
        20 => guarded::NULL,
        24 => own_table::SYMMETRY,
        _ => own_table::ASSOCIATIVITY,
    }
}

fn block_ops(rule: u32) -> &'static [(&'static str, BlockOp)] {
    match rule {
        1 => LENGTH,
        2 => SUM,
        _ => HEADER,
    }
}

fn subject(rng: &mut Rng) -> Subject {
    Subject {
        m: gen::model(rng),
        patches: vec![],
    }
}

fn damage_model(rng: &mut Rng, s: &mut Subject, ops: &[Way]) -> Option<&'static str> {
    for _ in 0..20 {
        let (name, op) = rng.choose(ops);
        if op(rng, s).is_some() {
            return Some(name);
        }
    }
    None
}

fn damage_blocks(rng: &mut Rng, bytes: &mut Vec<u8>, rule: u32) -> &'static str {
    loop {
        let (name, op) = rng.choose(block_ops(rule));
        if op(rng, bytes) {
            return name;
        }
    }
}

/// A model damaged in that rule alone, and how.
pub fn damaged(rng: &mut Rng, rule: u32) -> (&'static str, Vec<u8>) {
    loop {
        let mut s = subject(rng);
        if rule <= 3 {
            let mut bytes = s.bytes(rng);
            let name = damage_blocks(rng, &mut bytes, rule);
            return (name, bytes);
        }
        if let Some(name) = damage_model(rng, &mut s, model_ops(rule)) {
            return (name, s.bytes(rng));
        }
    }
}

/// A model damaged in two rules: the one that is checked first, how, and the
/// bytes.
pub fn twice(rng: &mut Rng) -> (u32, &'static str, Vec<u8>) {
    loop {
        let after = 1 + rng.below(numbers::MODEL.len() - 1);
        let high = numbers::MODEL[after];
        let low = numbers::MODEL[rng.below(after)];
        let mut s = subject(rng);
        if high >= 4 && damage_model(rng, &mut s, model_ops(high)).is_none() {
            continue;
        }
        if low >= 4 && damage_model(rng, &mut s, model_ops(low)).is_none() {
            continue;
        }
        let mut bytes = s.bytes(rng);
        if high <= 3 {
            damage_blocks(rng, &mut bytes, high);
        }
        if low <= 3 {
            damage_blocks(rng, &mut bytes, low);
        }
        return (low, "two rules", bytes);
    }
}

/// A record kind and a byte of its records.
pub type Place = (u8, usize);

/// An accepted model with one byte changed, sums mostly repaired.
pub fn byte(rng: &mut Rng) -> (Option<Place>, &'static str, Vec<u8>) {
    loop {
        let s = subject(rng);
        let mut bytes = s.bytes(rng);
        if rng.chance(1, 10) {
            // Any byte of a block, its header and its end above all.
            let n = rng.below(blocks(&bytes));
            let at = match rng.below(3) {
                0 => rng.below(4),
                1 => 506 + rng.below(6),
                _ => rng.below(BLOCK),
            };
            bytes[BLOCK * n + at] = other_byte(rng, bytes[BLOCK * n + at]);
            if rng.chance(3, 4) && at < 510 {
                repair(&mut bytes, n);
            }
            return (None, "a block's byte", bytes);
        }
        let kind = 1 + rng.below(KINDS) as u8;
        let places: Vec<(usize, usize)> = (0..blocks(&bytes))
            .filter(|&n| bytes[BLOCK * n + 2] == kind)
            .flat_map(|n| (0..bytes[BLOCK * n + 3] as usize).map(move |r| (n, r)))
            .collect();
        if places.is_empty() {
            continue;
        }
        let (n, r) = rng.choose(&places);
        let byte = rng.below(RECORD);
        let at = BLOCK * n + 4 + RECORD * r + byte;
        bytes[at] = other_byte(rng, bytes[at]);
        repair(&mut bytes, n);
        return (Some((kind, byte)), "a record's byte", bytes);
    }
}

/// Two signals, three variables and two processes, each record kind used.
fn small() -> Builder {
    let mut b = Builder::new();
    b.signal(INTEGER, 0);
    b.signal(LOGIC, 2);
    b.variable(INTEGER, 0, 0);
    b.variable(LOGIC, 0, 2);
    b.variable(BOOLEAN, 1, 0);
    b.integer(1); // 0
    b.logic(3); // 1
    b.read_variable(0); // 2
    b.read_variable(2); // 3
    b.delayed(1, 0); // 4
    b.binary(11, 0, 2); // 5
    b.binary(13, 1, 4); // 6
    b.process();
    b.assign(0, 5);
    b.schedule(0, 2, 0);
    b.unless(6, 0);
    b.wait(3, 6, 0);
    b.process();
    b.assign(2, 3);
    b.go(4);
    b.wait(0, ABSENT, ABSENT);
    b.driver(0, 0);
    b.driver(0, 1);
    b.driver(1, 1);
    b
}

fn changed(change: impl Fn(&mut Builder)) -> Vec<u8> {
    let mut b = small();
    change(&mut b);
    b.encode()
}

/// Models by name, with the number that each comes to.
#[derive(Default)]
struct Limits(Vec<(String, Vec<u8>, u32)>);

impl Limits {
    fn add(&mut self, number: u32, name: impl Into<String>, bytes: Vec<u8>) {
        self.0.push((name.into(), bytes, number));
    }

    /// The small model after a change.
    fn changed(&mut self, number: u32, name: impl Into<String>, change: impl Fn(&mut Builder)) {
        self.add(number, name, changed(change));
    }

    /// The small model with each value, its number beside it, in a field.
    fn field(&mut self, what: &str, values: &[(i64, u32)], set: fn(&mut Model, i64)) {
        for &(x, number) in values {
            self.changed(number, format!("{what} {x}"), |b| set(&mut b.m, x));
        }
    }

    /// A byte of block n changed, its sum repaired: the header is wrong.
    fn header(&mut self, name: String, bytes: &[u8], n: usize, at: usize, value: u8) {
        let mut bytes = bytes.to_vec();
        bytes[BLOCK * n + at] = value;
        repair(&mut bytes, n);
        self.add(3, name, bytes);
    }

    /// A model of n records of a kind, up to `least` and about `most` many.
    fn total(&mut self, what: &str, least: usize, most: usize, fill: fn(&mut Builder, usize)) {
        for n in (0..=least).chain(most - 1..=most + 1) {
            let mut b = Builder::new();
            fill(&mut b, n);
            let number = if n < least || n > most { 4 } else { 0 };
            self.add(number, format!("{n} {what}"), b.encode());
        }
    }
}

/// Models on both sides of each limit: name, bytes, number.
pub fn limits() -> Vec<(String, Vec<u8>, u32)> {
    let mut list = Limits::default();
    let accepted = small().encode();
    list.add(0, "small model", accepted.clone());

    // Lengths.
    for length in [
        0, 1, 2, 511, 513, 1_023, 1_025, 32_767, 32_769, 33_279, 33_280, 65_536,
    ] {
        list.add(1, format!("{length} zero bytes"), vec![0; length]);
        let mut bytes = accepted.clone();
        bytes.resize(length, 0);
        list.add(1, format!("small model resized to {length}"), bytes);
    }
    for length in [512, 1_024, 32_768] {
        list.add(2, format!("{length} zero bytes"), vec![0; length]);
    }
    for total in [6, 7, 63, 64, 65, 66] {
        for kind in 1..=KINDS {
            let m = small().m;
            let mut plan = full_plan(&m);
            plan[kind - 1].splice(0..0, vec![0; total - 6]);
            let name = format!("{total} blocks, empty ones of kind {kind}");
            list.add((total > 64) as u32, name, encode_with(&m, &plan));
        }
    }

    // Sums.
    for off in [1u16, 2, 256, 32_768, 65_535] {
        for n in 0..blocks(&accepted) {
            let mut bytes = accepted.clone();
            let at = BLOCK * n + 510;
            let word = u16::from_le_bytes([bytes[at], bytes[at + 1]]).wrapping_add(off);
            bytes[at..at + 2].copy_from_slice(&word.to_le_bytes());
            list.add(2, format!("sum of block {n} off by {off}"), bytes);
        }
    }

    // Headers.
    let mut lone = vec![0; BLOCK];
    repair(&mut lone, 0);
    list.add(3, "a block of nothing but its sum", lone);
    let empty = (1..=6).flat_map(|k| empty_block(k as usize - 1, k));
    let empty: Vec<u8> = empty.collect();
    list.add(4, "six empty blocks", empty.clone());
    let rows = empty_block(6, 7).to_vec();
    list.add(4, "seven empty blocks", [empty, rows].concat());
    for (at, values) in [
        (0usize, &[1u8, 6, 64, 255][..]),
        (1, &[1, 128]),
        (2, &[0, 8, 128, 255]),
        (3, &[43, 44, 255]),
        (507, &[1]),
        (508, &[1, 255]),
        (509, &[1, 255]),
    ] {
        for &value in values {
            for n in (0..blocks(&accepted)).filter(|&n| at != 0 || n != value as usize) {
                let name = format!("block {n} byte {at} is {value}");
                list.header(name, &accepted, n, at, value);
            }
        }
    }
    let nodes = |n| changed(|b| b.m.nodes.resize(n, b.m.nodes[0]));
    for n in [41, 42, 43, 84, 85] {
        list.add(0, format!("{n} nodes"), nodes(n));
    }
    for (name, at, value) in [
        ("43 records in a block", 3, 43),
        ("42 records and a byte after them", 508, 1),
    ] {
        list.header(name.into(), &nodes(42), 4, at, value);
    }

    // Totals.
    list.total("signals", 0, 32, |b, n| {
        for x in 0..n {
            b.signal((x % 2) as u8, 0);
        }
        b.process();
        b.wait(((1u64 << n.min(32)) - 1) as u32, ABSENT, ABSENT);
    });
    list.total("variables", 0, 64, |b, n| {
        for x in 0..n {
            b.variable((x % 3) as u8, 0, 0);
        }
        b.process();
        b.null();
    });
    list.total("processes", 1, 16, |b, n| {
        for _ in 0..n {
            b.process();
            b.null();
        }
        if n == 0 {
            b.m.statements.push(StatementRecord::default());
        }
    });
    list.total("drivers", 0, 64, |b, n| {
        for _ in 0..32 {
            b.signal(LOGIC, 4);
        }
        for p in 0..3 {
            b.process();
            b.null();
            for s in 0..32 {
                b.driver(p, s);
            }
        }
        b.m.drivers.truncate(n);
    });
    list.total("nodes alone", 0, 400, |b, n| {
        b.process();
        b.null();
        for k in 0..n {
            b.integer(k as i32);
        }
    });
    list.total("statements", 1, 200, |b, n| {
        b.process();
        for _ in 0..n {
            b.null();
        }
    });

    // Field values.
    let whole = [(TOP, 0), (-TOP, 0), (-TOP - 1, 5)];
    list.field("integer signal starts at", &whole, |m, x| {
        m.signals[0].start = x as i32
    });
    list.field("integer variable starts at", &whole, |m, x| {
        m.variables[0].start = x as i32
    });
    list.field("integer constant", &whole, |m, x| m.nodes[0].k = x as i32);
    let codes = [(0, 0), (8, 0), (9, 5), (-1, 5), (256, 5), (-TOP - 1, 5)];
    list.field("logic signal starts at", &codes, |m, x| {
        m.signals[1].start = x as i32
    });
    list.field("logic variable starts at", &codes, |m, x| {
        m.variables[1].start = x as i32
    });
    list.field("logic constant", &codes, |m, x| m.nodes[1].k = x as i32);
    let truths = [(0, 0), (1, 0), (2, 5), (-1, 5), (256, 5)];
    list.field("boolean variable starts at", &truths, |m, x| {
        m.variables[2].start = x as i32
    });
    let delays = [(0, 0), (1, 0), (31, 0), (32, 5), (-1, 5)];
    list.field("signal delayed by", &delays, |m, x| m.nodes[4].k = x as i32);
    list.changed(5, "a boolean signal", |b| b.m.signals[0].ty = 2);
    list.changed(5, "variable type 3", |b| b.m.variables[2].ty = 3);
    let processes = [(1, 0), (2, 5), (255, 5)];
    list.field("an idle variable of process", &processes, |m, x| {
        m.variables[1].process = x as u8
    });
    list.field("last driver of process", &processes, |m, x| {
        m.drivers[2].process = x as u8
    });
    let signals = [(1, 0), (2, 5), (32, 5), (255, 5)];
    list.field("last driver of signal", &signals, |m, x| {
        m.drivers[2].signal = x as u8
    });
    let kinds = [(0, 5), (19, 5), (255, 5)];
    list.field("node kind", &kinds, |m, x| m.nodes[0].kind = x as u8);
    let kinds = [(6, 5), (8, 5), (255, 5)];
    list.field("statement kind", &kinds, |m, x| {
        m.statements[0].kind = x as u8
    });
    let sets = [
        (0, 0),
        (1, 0),
        (3, 0),
        (4, 5),
        (7, 5),
        (1 << 31, 5),
        (u32::MAX as i64, 5),
    ];
    list.field("a wait on set", &sets, |m, x| {
        m.statements[3].set = x as u32
    });
    let conditions = [(6, 0), (7, 5), (65_534, 5), (65_535, 0)];
    list.field("a wait until node", &conditions, |m, x| {
        m.statements[3].b = x as u16
    });
    let times = [(5, 0), (7, 5), (65_534, 5), (65_535, 0)];
    list.field("a wait for node", &times, |m, x| {
        m.statements[3].c = x as u16
    });
    let values = [(5, 0), (7, 5), (65_534, 5), (65_535, 5)];
    list.field("an assignment of node", &values, |m, x| {
        m.statements[0].b = x as u16
    });
    list.field("a transaction of node", &values, |m, x| {
        m.statements[1].b = x as u16
    });
    list.field("a transaction after node", &values, |m, x| {
        m.statements[1].c = x as u16
    });
    list.changed(5, "unless without a condition", |b| {
        b.m.statements[2].b = ABSENT
    });
    let own = [(0, 0), (2, 0), (3, 0), (4, 5), (6, 5), (7, 5), (65_535, 5)];
    list.field("process 0 jumps to", &own, |m, x| {
        m.statements[2].a = x as u16
    });
    let own = [(0, 5), (3, 5), (4, 0), (6, 0), (7, 5), (65_535, 5)];
    list.field("process 1 jumps to", &own, |m, x| {
        m.statements[5].a = x as u16
    });

    // Spans.
    for (p, first, count, number) in [
        (1, 4, 3, 0),
        (1, 3, 3, 5),
        (1, 3, 4, 5),
        (1, 5, 3, 5),
        (1, 5, 2, 5),
        (1, 4, 2, 5),
        (1, 4, 4, 5),
        (1, 4, 0, 5),
        (0, 0, 4, 0),
        (0, 0, 3, 5),
        (0, 0, 5, 5),
        (0, 1, 3, 5),
        (0, 0, 0, 5),
        (0, 0, 65_535, 5),
    ] {
        let name = format!("process {p} from {first} with {count}");
        list.changed(number, name, |b| {
            b.m.processes[p] = ProcessRecord { first, count }
        });
    }
    // Spans whose 16-bit sums would come round to the right places.
    list.changed(5, "spans that meet modulo 65,536", |b| {
        b.m.processes[0].count = 65_535;
        b.m.processes[1].first = 65_535;
        b.m.processes[1].count = 8;
    });

    // Operands and trees.
    let operands = [(4, 7), (5, 6), (6, 6), (7, 6), (65_535, 6)];
    list.field("node 5 over operand", &operands, |m, x| {
        m.nodes[5].b = x as u16
    });
    for size in [63, 64, 65, 66] {
        let number = if size > 64 { 6 } else { 0 };
        for used in [true, false] {
            let name = format!("a chain of {size}, used: {used}");
            list.changed(number, name, |b| {
                let n = (1..size).fold(0, |n, _| b.unary(10, n));
                if used {
                    b.m.statements[0].b = n;
                }
            });
            let name = format!("a tree of {size} with repeats, used: {used}");
            list.changed(number, name, |b| {
                let n = (0..5).fold(0, |n, _| b.binary(11, n, n));
                let n = (63..size).fold(n, |n, _| b.unary(10, n));
                if used {
                    b.m.statements[1].b = n;
                }
            });
        }
    }
    list.changed(6, "repeats without end", |b| {
        (0..390).fold(0, |n, _| b.binary(11, n, n));
    });

    // Types of every node kind over every pair of types.
    for kind in 6..=18u8 {
        for (ta, a) in [(INTEGER, 0u16), (LOGIC, 1), (BOOLEAN, 3)] {
            for (tb, b) in [(INTEGER, 0u16), (LOGIC, 1), (BOOLEAN, 3)] {
                let one = kind == 6 || kind == 10;
                if one && ta != tb {
                    continue;
                }
                let right = match kind {
                    6 => ta != INTEGER,
                    7..=9 => ta == tb && ta != INTEGER,
                    10 => ta == INTEGER,
                    13 => ta == tb && ta != BOOLEAN,
                    _ => ta == INTEGER && tb == INTEGER,
                };
                let name = format!("node kind {kind} over types {ta} and {tb}");
                list.changed(if right { 0 } else { 7 }, name, |m| {
                    m.node(kind, a, if one { 0 } else { b }, 0);
                });
            }
        }
    }

    guarded::limits(&mut list);
    arithmetic::limits(&mut list);
    inertial::limits(&mut list);
    own_table::limits(&mut list);

    // Drivers and variables.
    list.changed(8, "a driver twice", |b| b.driver(1, 1));
    let name = "a second driver of an integer signal";
    list.changed(8, name, |b| b.m.drivers[2].signal = 0);
    list.changed(8, "no drivers", |b| b.m.drivers.clear());
    let name = "a variable of the other process";
    list.changed(8, name, |b| b.m.variables[0].process = 1);
    let name = "an unused node over a variable of the other process";
    list.changed(0, name, |b| {
        b.unary(6, 3);
    });
    let name = "a skipped part over a variable of the other process";
    list.changed(8, name, |b| {
        let truth = b.binary(13, 0, 0);
        b.m.statements[2].b = b.binary(8, truth, 3);
    });
    list.0
}

const TOP: i64 = integers::TOP as i64;

#[cfg(test)]
mod tests {
    use super::*;
    use crate::features;

    #[test]
    fn limits_come_out_as_said() {
        for (name, bytes, number) in limits() {
            assert_eq!(judge(&bytes), number, "{name}");
        }
    }

    #[test]
    fn generated_models_are_accepted() {
        for seed in 0..3_000 {
            let mut rng = Rng::new(seed);
            let m = gen::model(&mut rng);
            let plan = gen::plan(&mut rng, &m);
            let bytes = encode_with(&m, &plan);
            assert_eq!(load(&bytes).as_ref(), Ok(&m), "seed {seed}");
        }
    }

    #[test]
    fn every_damage_comes_out_as_made() {
        let mut seen = std::collections::BTreeSet::new();
        for &rule in numbers::MODEL {
            for seed in 0..4_000 {
                let mut rng = Rng::new(seed);
                let (name, bytes) = damaged(&mut rng, rule);
                assert_eq!(judge(&bytes), rule, "{name}, seed {seed}");
                seen.insert((rule, name));
            }
        }
        let ops = LENGTH.len() + SUM.len() + HEADER.len();
        let ops = ops + TOTAL.len() + FIELD.len() + OPERAND.len() + TYPE.len() + OWNER.len();
        let ops = ops + guarded::NULL.len() + own_table::SYMMETRY.len();
        assert_eq!(seen.len(), ops + own_table::ASSOCIATIVITY.len());
        for seed in 0..4_000 {
            let (rule, _, bytes) = twice(&mut Rng::new(seed));
            assert_eq!(judge(&bytes), rule, "two rules, seed {seed}");
        }
    }

    #[test]
    fn every_damage_of_a_feature_comes_out_as_made() {
        for damages in features::damages() {
            let mut seen = std::collections::BTreeSet::new();
            for seed in 0..8_000 {
                let (rule, name, bytes) = damages.damaged(&mut Rng::new(seed));
                assert_eq!(judge(&bytes), rule, "{name}, seed {seed}");
                seen.insert((rule, name));
            }
            assert_eq!(seen, damages.names().into_iter().collect());
        }
    }
}
