//! Model blocks and records: reading, the refusals of a model (1 to 8, 20, 24 and 25), and
//! writing.

use crate::values::{self, Table, STANDARD};

pub const BLOCK: usize = 512;
pub const RECORD: usize = 12;
/// Most records of a block.
pub const PER_BLOCK: usize = 42;
/// Stands for an absent b or c of a wait.
pub const ABSENT: u16 = 65_535;

/// Types of signals, variables and nodes.
pub const INTEGER: u8 = 0;
pub const LOGIC: u8 = 1;
pub const BOOLEAN: u8 = 2;

/// Kinds of signals; a bus or a register is a logic signal.
pub const PLAIN: u8 = 0;
pub const BUS: u8 = 1;
pub const REGISTER: u8 = 2;

/// How many kinds of records there are.
pub const KINDS: usize = 7;

/// Least and greatest total of the record kinds 1 to 6; of kind 7 there are none, or nine.
const LIMITS: [(usize, usize); 6] = [(0, 32), (0, 64), (1, 16), (0, 64), (0, 400), (1, 200)];
const ROWS: [usize; 2] = [0, 9];

#[derive(Clone, Copy, Debug, Default, PartialEq, Eq)]
pub struct SignalRecord {
    pub ty: u8,
    pub kind: u8,
    pub start: i32,
}

#[derive(Clone, Copy, Debug, Default, PartialEq, Eq)]
pub struct VariableRecord {
    pub ty: u8,
    pub process: u8,
    pub start: i32,
}

#[derive(Clone, Copy, Debug, Default, PartialEq, Eq)]
pub struct ProcessRecord {
    pub first: u16,
    pub count: u16,
}

#[derive(Clone, Copy, Debug, Default, PartialEq, Eq)]
pub struct DriverRecord {
    pub process: u8,
    pub signal: u8,
}

#[derive(Clone, Copy, Debug, Default, PartialEq, Eq)]
pub struct NodeRecord {
    pub kind: u8,
    pub a: u16,
    pub b: u16,
    pub k: i32,
}

#[derive(Clone, Copy, Debug, Default, PartialEq, Eq)]
pub struct StatementRecord {
    pub kind: u8,
    pub a: u16,
    pub b: u16,
    pub c: u16,
    pub set: u32,
}

/// A row of the model's own resolution table, a code for each column.
pub type RowRecord = [u8; 9];

#[derive(Clone, Debug, Default, PartialEq, Eq)]
pub struct Model {
    pub signals: Vec<SignalRecord>,
    pub variables: Vec<VariableRecord>,
    pub processes: Vec<ProcessRecord>,
    pub drivers: Vec<DriverRecord>,
    pub nodes: Vec<NodeRecord>,
    pub statements: Vec<StatementRecord>,
    pub rows: Vec<RowRecord>,
}

impl Model {
    /// The resolution table of its logic signals: its own, or else the standard's.
    pub fn table(&self) -> &Table {
        self.own_table().unwrap_or(&STANDARD)
    }

    /// Its own one, if it carries one.
    pub fn own_table(&self) -> Option<&Table> {
        <&Table>::try_from(&self.rows[..]).ok()
    }
}

/// A record as bytes.
pub type Record = [u8; RECORD];

fn u16_at(bytes: &[u8], at: usize) -> u16 {
    u16::from_le_bytes([bytes[at], bytes[at + 1]])
}

fn u32_at(bytes: &[u8], at: usize) -> u32 {
    u32::from_le_bytes([bytes[at], bytes[at + 1], bytes[at + 2], bytes[at + 3]])
}

fn i32_at(bytes: &[u8], at: usize) -> i32 {
    u32_at(bytes, at) as i32
}

/// The sum of a block's 256 words modulo 65,536.
pub fn block_sum(block: &[u8]) -> u16 {
    let mut sum = 0u16;
    for word in block.chunks_exact(2) {
        sum = sum.wrapping_add(u16_at(word, 0));
    }
    sum
}

/// Chooses bytes 510-511 so that the block's words sum to 1.
pub fn repair_sum(block: &mut [u8]) {
    block[510] = 0;
    block[511] = 0;
    let word = 1u16.wrapping_sub(block_sum(block));
    block[510..512].copy_from_slice(&word.to_le_bytes());
}

/// The records of the kinds as bytes.
pub type Raw = [Vec<Record>; KINDS];

/// The first refusal that applies, 0 when the model is accepted.
pub fn judge(bytes: &[u8]) -> u32 {
    match load(bytes) {
        Ok(_) => 0,
        Err(number) => number,
    }
}

/// The accepted model, or the first refusal that applies.
pub fn load(bytes: &[u8]) -> Result<Model, u32> {
    if !length_right(bytes) {
        return Err(1);
    }
    if !bytes.chunks_exact(BLOCK).all(|block| block_sum(block) == 1) {
        return Err(2);
    }
    if !headers_right(bytes) {
        return Err(3);
    }
    load_records(&split(bytes))
}

/// The same from records, the numbers from 4 on.
pub fn load_records(raw: &Raw) -> Result<Model, u32> {
    if !totals_right(raw) {
        return Err(4);
    }
    let model = read(raw);
    if !fields_right(raw, &model) {
        return Err(5);
    }
    if !operands_right(&model) {
        return Err(6);
    }
    if !types_right(&model) {
        return Err(7);
    }
    if !ownership_right(&model) {
        return Err(8);
    }
    if !nulls_right(&model) {
        return Err(20);
    }
    if !values::symmetric(model.table()) {
        return Err(24);
    }
    if !values::associative(model.table()) {
        return Err(25);
    }
    Ok(model)
}

// Rule 1.
fn length_right(bytes: &[u8]) -> bool {
    bytes.len() % BLOCK == 0 && (512..=32_768).contains(&bytes.len())
}

// Rule 3.
fn headers_right(bytes: &[u8]) -> bool {
    let mut last_kind = 0;
    for (number, block) in bytes.chunks_exact(BLOCK).enumerate() {
        let kind = block[2];
        let count = block[3] as usize;
        if u16_at(block, 0) as usize != number {
            return false;
        }
        if !(1..=KINDS as u8).contains(&kind) || kind < last_kind {
            return false;
        }
        if count > PER_BLOCK {
            return false;
        }
        if block[4 + RECORD * count..510].iter().any(|&b| b != 0) {
            return false;
        }
        last_kind = kind;
    }
    true
}

fn split(bytes: &[u8]) -> Raw {
    let mut raw = Raw::default();
    for block in bytes.chunks_exact(BLOCK) {
        let list = &mut raw[block[2] as usize - 1];
        for n in 0..block[3] as usize {
            let start = 4 + RECORD * n;
            let mut record = [0; RECORD];
            record.copy_from_slice(&block[start..start + RECORD]);
            list.push(record);
        }
    }
    raw
}

// Rule 4.
fn totals_right(raw: &Raw) -> bool {
    let mut ranges = raw.iter().zip(LIMITS);
    ranges.all(|(list, (least, most))| (least..=most).contains(&list.len()))
        && ROWS.contains(&raw[6].len())
}

fn read(raw: &Raw) -> Model {
    Model {
        signals: raw[0]
            .iter()
            .map(|r| SignalRecord {
                ty: r[0],
                kind: r[1],
                start: i32_at(r, 4),
            })
            .collect(),
        variables: raw[1]
            .iter()
            .map(|r| VariableRecord {
                ty: r[0],
                process: r[1],
                start: i32_at(r, 4),
            })
            .collect(),
        processes: raw[2]
            .iter()
            .map(|r| ProcessRecord {
                first: u16_at(r, 0),
                count: u16_at(r, 2),
            })
            .collect(),
        drivers: raw[3]
            .iter()
            .map(|r| DriverRecord {
                process: r[0],
                signal: r[1],
            })
            .collect(),
        nodes: raw[4]
            .iter()
            .map(|r| NodeRecord {
                kind: r[0],
                a: u16_at(r, 2),
                b: u16_at(r, 4),
                k: i32_at(r, 8),
            })
            .collect(),
        statements: raw[5]
            .iter()
            .map(|r| StatementRecord {
                kind: r[0],
                a: u16_at(r, 2),
                b: u16_at(r, 4),
                c: u16_at(r, 6),
                set: u32_at(r, 8),
            })
            .collect(),
        rows: raw[6]
            .iter()
            .map(|r| std::array::from_fn(|column| r[column]))
            .collect(),
    }
}

/// May a starting value of this type be `value`?
fn value_right(ty: u8, value: i32) -> bool {
    match ty {
        INTEGER => value != i32::MIN,
        LOGIC => (0..=8).contains(&value),
        BOOLEAN => value == 0 || value == 1,
        _ => false,
    }
}

/// Are all bytes outside the listed ones zero?
fn only(record: &Record, named: &[usize]) -> bool {
    (0..RECORD).all(|n| record[n] == 0 || named.contains(&n))
}

// Rule 5.
fn fields_right(raw: &Raw, m: &Model) -> bool {
    // Bytes that no record of the kind names.
    raw[0].iter().all(|r| only(r, &[0, 1, 4, 5, 6, 7]))
        && raw[1].iter().all(|r| only(r, &[0, 1, 4, 5, 6, 7]))
        && raw[2].iter().all(|r| only(r, &[0, 1, 2, 3]))
        && raw[3].iter().all(|r| only(r, &[0, 1]))
        && raw[4]
            .iter()
            .all(|r| only(r, &[0, 2, 3, 4, 5, 8, 9, 10, 11]))
        && raw[5]
            .iter()
            .all(|r| only(r, &[0, 2, 3, 4, 5, 6, 7, 8, 9, 10, 11]))
        && raw[6].iter().all(|r| only(r, &[0, 1, 2, 3, 4, 5, 6, 7, 8]))
        && m.signals.iter().all(signal_fields_right)
        && m.variables
            .iter()
            .all(|v| value_right(v.ty, v.start) && (v.process as usize) < m.processes.len())
        && spans_right(m)
        && m.drivers.iter().all(|d| {
            (d.process as usize) < m.processes.len() && (d.signal as usize) < m.signals.len()
        })
        && m.nodes.iter().all(|n| node_fields_right(m, n))
        && (0..m.statements.len()).all(|s| statement_fields_right(m, s))
        && m.rows.iter().flatten().all(|&code| code <= values::DASH)
}

fn signal_fields_right(s: &SignalRecord) -> bool {
    let kind_right = match s.kind {
        PLAIN => true,
        BUS | REGISTER => s.ty == LOGIC,
        _ => false,
    };
    kind_right && s.ty != BOOLEAN && value_right(s.ty, s.start)
}

fn spans_right(m: &Model) -> bool {
    let mut next = 0usize;
    for p in &m.processes {
        if p.first as usize != next || p.count == 0 {
            return false;
        }
        next += p.count as usize;
    }
    next == m.statements.len()
}

fn node_fields_right(m: &Model, n: &NodeRecord) -> bool {
    let is_signal = (n.a as usize) < m.signals.len();
    match n.kind {
        1 => n.a == 0 && n.b == 0 && value_right(INTEGER, n.k),
        2 => n.a == 0 && n.b == 0 && value_right(LOGIC, n.k),
        3 => (n.a as usize) < m.variables.len() && n.b == 0 && n.k == 0,
        4 => is_signal && n.b == 0 && n.k == 0,
        5 => is_signal && n.b == 0 && (0..=31).contains(&n.k),
        6 | 10 => n.b == 0 && n.k == 0,
        7..=9 | 11..=18 => n.k == 0,
        _ => false,
    }
}

/// The process whose span holds the statement; the spans must be right.
pub fn process_of(m: &Model, statement: usize) -> usize {
    m.processes
        .iter()
        .position(|p| {
            let first = p.first as usize;
            (first..first + p.count as usize).contains(&statement)
        })
        .expect("every statement is covered by a process")
}

fn statement_fields_right(m: &Model, number: usize) -> bool {
    let s = &m.statements[number];
    let is_node = |n: u16| (n as usize) < m.nodes.len();
    let is_signal = |n: u16| (n as usize) < m.signals.len();
    let inside = |target: u16| {
        (target as usize) < m.statements.len()
            && process_of(m, target as usize) == process_of(m, number)
    };
    match s.kind {
        0 => s.a == 0 && s.b == 0 && s.c == 0 && s.set == 0,
        1 => (s.a as usize) < m.variables.len() && is_node(s.b) && s.c == 0 && s.set == 0,
        2 | 7 => is_signal(s.a) && is_node(s.b) && is_node(s.c) && s.set == 0,
        3 => inside(s.a) && is_node(s.b) && s.c == 0 && s.set == 0,
        4 => inside(s.a) && s.b == 0 && s.c == 0 && s.set == 0,
        5 => {
            s.a == 0
                && (s.b == ABSENT || is_node(s.b))
                && (s.c == ABSENT || is_node(s.c))
                && (0..32).all(|n| s.set >> n & 1 == 0 || is_signal(n))
        }
        6 => is_signal(s.a) && s.b == 0 && is_node(s.c) && s.set == 0,
        _ => false,
    }
}

/// The operands of a node, a before b.
pub fn operands(n: &NodeRecord) -> Vec<u16> {
    match n.kind {
        6 | 10 => vec![n.a],
        7..=9 | 11..=18 => vec![n.a, n.b],
        _ => vec![],
    }
}

// Rule 6.
fn operands_right(m: &Model) -> bool {
    // Trees over 64 are refused where they first occur, so no size grows.
    let mut sizes: Vec<usize> = Vec::with_capacity(m.nodes.len());
    for (number, n) in m.nodes.iter().enumerate() {
        let mut size = 1;
        for operand in operands(n) {
            if operand as usize >= number {
                return false;
            }
            size += sizes[operand as usize];
        }
        if size > 64 {
            return false;
        }
        sizes.push(size);
    }
    true
}

/// The types of all nodes, none if they disagree somewhere. Fields and
/// operand numbers must be right.
pub fn node_types(m: &Model) -> Option<Vec<u8>> {
    let mut types: Vec<u8> = Vec::with_capacity(m.nodes.len());
    for n in &m.nodes {
        let of = |operand: u16| types[operand as usize];
        let ty = match n.kind {
            1 => INTEGER,
            2 => LOGIC,
            3 => m.variables[n.a as usize].ty,
            4 | 5 => m.signals[n.a as usize].ty,
            6 if of(n.a) != INTEGER => of(n.a),
            7..=9 if of(n.a) != INTEGER && of(n.a) == of(n.b) => of(n.a),
            10 if of(n.a) == INTEGER => INTEGER,
            11 | 12 | 15..=18 if of(n.a) == INTEGER && of(n.b) == INTEGER => INTEGER,
            13 if of(n.a) != BOOLEAN && of(n.a) == of(n.b) => BOOLEAN,
            14 if of(n.a) == INTEGER && of(n.b) == INTEGER => BOOLEAN,
            _ => return None,
        };
        types.push(ty);
    }
    Some(types)
}

// Rule 7.
fn types_right(m: &Model) -> bool {
    let Some(types) = node_types(m) else {
        return false;
    };
    let of = |node: u16| types[node as usize];
    m.statements.iter().all(|s| match s.kind {
        1 => of(s.b) == m.variables[s.a as usize].ty,
        2 | 7 => of(s.b) == m.signals[s.a as usize].ty && of(s.c) == INTEGER,
        3 => of(s.b) == BOOLEAN,
        5 => (s.b == ABSENT || of(s.b) == BOOLEAN) && (s.c == ABSENT || of(s.c) == INTEGER),
        6 => of(s.c) == INTEGER,
        _ => true,
    })
}

/// What an expression is in its statement.
#[derive(Clone, Copy, Debug, PartialEq, Eq)]
pub enum Role {
    VariableValue,
    SignalValue,
    Delay,
    NullDelay,
    Unless,
    Until,
    For,
}

impl Role {
    pub const ALL: [Role; 7] = [
        Role::VariableValue,
        Role::SignalValue,
        Role::Delay,
        Role::NullDelay,
        Role::Unless,
        Role::Until,
        Role::For,
    ];
}

/// The expressions of a statement, b before c: the role and the node of each.
pub fn expressions(s: &StatementRecord) -> Vec<(Role, u16)> {
    use Role::*;
    match s.kind {
        1 => vec![(VariableValue, s.b)],
        2 | 7 => vec![(SignalValue, s.b), (Delay, s.c)],
        3 => vec![(Unless, s.b)],
        5 => {
            let mut list = vec![(Until, s.b), (For, s.c)];
            list.retain(|e| e.1 != ABSENT);
            list
        }
        6 => vec![(NullDelay, s.c)],
        _ => vec![],
    }
}

/// Puts a node in place of one of a statement's expressions.
pub fn set_expression(s: &mut StatementRecord, role: Role, node: u16) {
    match role {
        Role::Delay | Role::NullDelay | Role::For => s.c = node,
        _ => s.b = node,
    }
}

/// The nodes at the roots of a statement's trees.
pub fn roots(s: &StatementRecord) -> Vec<u16> {
    expressions(s).into_iter().map(|e| e.1).collect()
}

/// Is it a signal assignment: transport (2), null (6) or inertial (7)?
pub fn assigns_signal(s: &StatementRecord) -> bool {
    matches!(s.kind, 2 | 6 | 7)
}

/// Is it a signal assignment with a value?
pub fn assigns_value(s: &StatementRecord) -> bool {
    matches!(s.kind, 2 | 7)
}

/// Does the tree read variables of this process alone?
fn tree_own(m: &Model, node: u16, process: usize) -> bool {
    let n = &m.nodes[node as usize];
    if n.kind == 3 {
        return m.variables[n.a as usize].process as usize == process;
    }
    operands(n)
        .into_iter()
        .all(|operand| tree_own(m, operand, process))
}

// Rule 8.
fn ownership_right(m: &Model) -> bool {
    let pair = |d: &DriverRecord| (d.process, d.signal);
    if !m.drivers.windows(2).all(|w| pair(&w[0]) < pair(&w[1])) {
        return false;
    }
    for (number, s) in m.signals.iter().enumerate() {
        let driven = m
            .drivers
            .iter()
            .filter(|d| d.signal as usize == number)
            .count();
        if s.ty == INTEGER && driven > 1 {
            return false;
        }
    }
    m.statements.iter().enumerate().all(|(number, s)| {
        let process = process_of(m, number);
        let own = match s.kind {
            1 => m.variables[s.a as usize].process as usize == process,
            2 | 6 | 7 => driver_of(m, process, s.a as usize).is_some(),
            _ => true,
        };
        own && roots(s).into_iter().all(|root| tree_own(m, root, process))
    })
}

// Rule 20, which comes after 8.
fn nulls_right(m: &Model) -> bool {
    m.statements
        .iter()
        .all(|s| s.kind != 6 || m.signals[s.a as usize].kind != PLAIN)
}

/// The driver of a process for a signal.
pub fn driver_of(m: &Model, process: usize, signal: usize) -> Option<usize> {
    m.drivers
        .iter()
        .position(|d| d.process as usize == process && d.signal as usize == signal)
}

// Writing.

fn put(record: &mut Record, at: usize, bytes: &[u8]) {
    record[at..at + bytes.len()].copy_from_slice(bytes);
}

/// The records of the kinds as bytes.
pub fn records(m: &Model) -> [Vec<Record>; KINDS] {
    let signal = |s: &SignalRecord| {
        let mut r = [0; RECORD];
        r[0] = s.ty;
        r[1] = s.kind;
        put(&mut r, 4, &s.start.to_le_bytes());
        r
    };
    let variable = |v: &VariableRecord| {
        let mut r = [0; RECORD];
        r[0] = v.ty;
        r[1] = v.process;
        put(&mut r, 4, &v.start.to_le_bytes());
        r
    };
    let process = |p: &ProcessRecord| {
        let mut r = [0; RECORD];
        put(&mut r, 0, &p.first.to_le_bytes());
        put(&mut r, 2, &p.count.to_le_bytes());
        r
    };
    let driver = |d: &DriverRecord| {
        let mut r = [0; RECORD];
        r[0] = d.process;
        r[1] = d.signal;
        r
    };
    let node = |n: &NodeRecord| {
        let mut r = [0; RECORD];
        r[0] = n.kind;
        put(&mut r, 2, &n.a.to_le_bytes());
        put(&mut r, 4, &n.b.to_le_bytes());
        put(&mut r, 8, &n.k.to_le_bytes());
        r
    };
    let statement = |s: &StatementRecord| {
        let mut r = [0; RECORD];
        r[0] = s.kind;
        put(&mut r, 2, &s.a.to_le_bytes());
        put(&mut r, 4, &s.b.to_le_bytes());
        put(&mut r, 6, &s.c.to_le_bytes());
        put(&mut r, 8, &s.set.to_le_bytes());
        r
    };
    let row = |codes: &RowRecord| {
        let mut r = [0; RECORD];
        put(&mut r, 0, codes);
        r
    };
    [
        m.signals.iter().map(signal).collect(),
        m.variables.iter().map(variable).collect(),
        m.processes.iter().map(process).collect(),
        m.drivers.iter().map(driver).collect(),
        m.nodes.iter().map(node).collect(),
        m.statements.iter().map(statement).collect(),
        m.rows.iter().map(row).collect(),
    ]
}

/// How the records of each kind are split over blocks: for each kind the
/// counts of the blocks in order. A 0 is an empty block.
pub type Plan = [Vec<usize>; KINDS];

/// Full blocks, the last of a kind as full as it comes, none empty.
pub fn full_plan(m: &Model) -> Plan {
    let totals = [
        m.signals.len(),
        m.variables.len(),
        m.processes.len(),
        m.drivers.len(),
        m.nodes.len(),
        m.statements.len(),
        m.rows.len(),
    ];
    let mut plan = Plan::default();
    for (counts, total) in plan.iter_mut().zip(totals) {
        let mut left = total;
        while left > 0 {
            let count = left.min(PER_BLOCK);
            counts.push(count);
            left -= count;
        }
    }
    plan
}

/// One block with its sum; more than 42 records do not fit.
pub fn block(number: u16, kind: u8, records: &[Record]) -> [u8; BLOCK] {
    let mut b = [0; BLOCK];
    b[0..2].copy_from_slice(&number.to_le_bytes());
    b[2] = kind;
    b[3] = records.len() as u8;
    for (n, r) in records.iter().enumerate() {
        b[4 + RECORD * n..4 + RECORD * (n + 1)].copy_from_slice(r);
    }
    repair_sum(&mut b);
    b
}

/// Records in blocks, split as planned. The counts of each kind must add up
/// to its records.
pub fn encode_records(records: &[Vec<Record>; KINDS], plan: &Plan) -> Vec<u8> {
    let mut bytes = Vec::new();
    let mut number = 0u16;
    for (index, list) in records.iter().enumerate() {
        let mut next = 0;
        for &count in &plan[index] {
            bytes.extend_from_slice(&block(number, index as u8 + 1, &list[next..next + count]));
            next += count;
            number += 1;
        }
        assert_eq!(
            next,
            list.len(),
            "the plan leaves out records of kind {}",
            index + 1
        );
    }
    bytes
}

/// The model in blocks, split as planned.
pub fn encode_with(m: &Model, plan: &Plan) -> Vec<u8> {
    encode_records(&records(m), plan)
}

/// The model in full blocks.
pub fn encode(m: &Model) -> Vec<u8> {
    encode_with(m, &full_plan(m))
}
