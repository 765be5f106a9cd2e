//! Puts models together item by item.

use crate::model::*;
use crate::values::Table;

#[derive(Clone, Debug, Default)]
pub struct Builder {
    pub m: Model,
}

impl Builder {
    pub fn new() -> Builder {
        Builder::default()
    }

    /// A plain signal.
    pub fn signal(&mut self, ty: u8, start: i32) -> u16 {
        self.signal_of(ty, PLAIN, start)
    }

    /// A logic signal that is a bus.
    pub fn bus(&mut self, start: i32) -> u16 {
        self.signal_of(LOGIC, BUS, start)
    }

    /// A logic signal that is a register.
    pub fn register(&mut self, start: i32) -> u16 {
        self.signal_of(LOGIC, REGISTER, start)
    }

    /// Adds a signal of any type and kind.
    pub fn signal_of(&mut self, ty: u8, kind: u8, start: i32) -> u16 {
        self.m.signals.push(SignalRecord { ty, kind, start });
        self.m.signals.len() as u16 - 1
    }

    pub fn variable(&mut self, ty: u8, process: u8, start: i32) -> u16 {
        self.m.variables.push(VariableRecord { ty, process, start });
        self.m.variables.len() as u16 - 1
    }

    /// Opens a process; the statements up to the next call are its own.
    pub fn process(&mut self) -> u8 {
        let first = self.m.statements.len() as u16;
        self.m.processes.push(ProcessRecord { first, count: 0 });
        self.m.processes.len() as u8 - 1
    }

    pub fn driver(&mut self, process: u8, signal: u16) {
        self.m.drivers.push(DriverRecord {
            process,
            signal: signal as u8,
        });
    }

    /// Adds a node of any kind.
    pub fn node(&mut self, kind: u8, a: u16, b: u16, k: i32) -> u16 {
        self.m.nodes.push(NodeRecord { kind, a, b, k });
        self.m.nodes.len() as u16 - 1
    }

    /// A constant, which the model has once.
    pub fn shared_constant(&mut self, kind: u8, k: i32) -> u16 {
        let found = |n: &NodeRecord| (n.kind, n.k) == (kind, k);
        let old = self.m.nodes.iter().position(found);
        old.map_or_else(|| self.node(kind, 0, 0, k), |n| n as u16)
    }

    pub fn integer(&mut self, k: i32) -> u16 {
        self.node(1, 0, 0, k)
    }

    pub fn logic(&mut self, k: u8) -> u16 {
        self.node(2, 0, 0, k as i32)
    }

    /// A constant of this type.
    pub fn constant(&mut self, ty: u8, k: i32) -> u16 {
        match ty {
            INTEGER => self.integer(k),
            _ => self.logic(k as u8),
        }
    }

    pub fn read_variable(&mut self, variable: u16) -> u16 {
        self.node(3, variable, 0, 0)
    }

    pub fn read_signal(&mut self, signal: u16) -> u16 {
        self.node(4, signal, 0, 0)
    }

    pub fn delayed(&mut self, signal: u16, k: i32) -> u16 {
        self.node(5, signal, 0, k)
    }

    pub fn unary(&mut self, kind: u8, a: u16) -> u16 {
        self.node(kind, a, 0, 0)
    }

    pub fn binary(&mut self, kind: u8, a: u16, b: u16) -> u16 {
        self.node(kind, a, b, 0)
    }

    /// Adds a statement of any kind to the open process; gives its number.
    pub fn statement(&mut self, kind: u8, a: u16, b: u16, c: u16, set: u32) -> u16 {
        self.m
            .statements
            .push(StatementRecord { kind, a, b, c, set });
        self.m
            .processes
            .last_mut()
            .expect("a process is open")
            .count += 1;
        self.m.statements.len() as u16 - 1
    }

    pub fn null(&mut self) -> u16 {
        self.statement(0, 0, 0, 0, 0)
    }

    pub fn assign(&mut self, variable: u16, b: u16) -> u16 {
        self.statement(1, variable, b, 0, 0)
    }

    pub fn schedule(&mut self, signal: u16, b: u16, c: u16) -> u16 {
        self.statement(2, signal, b, c, 0)
    }

    /// An inertial assignment.
    pub fn inertial(&mut self, signal: u16, b: u16, c: u16) -> u16 {
        self.statement(7, signal, b, c, 0)
    }

    pub fn unless(&mut self, b: u16, target: u16) -> u16 {
        self.statement(3, target, b, 0, 0)
    }

    pub fn go(&mut self, target: u16) -> u16 {
        self.statement(4, target, 0, 0, 0)
    }

    pub fn wait(&mut self, set: u32, b: u16, c: u16) -> u16 {
        self.statement(5, 0, b, c, set)
    }

    /// A null transaction.
    pub fn release(&mut self, signal: u16, c: u16) -> u16 {
        self.statement(6, signal, 0, c, 0)
    }

    /// Gives the model its own resolution table.
    pub fn table(&mut self, table: &Table) {
        self.m.rows = table.to_vec();
    }

    pub fn encode(&self) -> Vec<u8> {
        encode(&self.m)
    }
}
