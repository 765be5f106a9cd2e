//! Damages of inertial assignments, and their limits.

use super::*;

/// An inertial assignment.
fn an_inertial(rng: &mut Rng, s: &Subject) -> Option<usize> {
    some(rng, &s.m.statements, |s| s.kind == 7)
}

const FIELD: &[Way] = &[
    ("an inertial one's signal", |rng, s| {
        let n = an_inertial(rng, s)?;
        no_signal(rng, s, n)
    }),
    ("an inertial one's value that names nothing", |rng, s| {
        let n = an_inertial(rng, s)?;
        s.m.statements[n].b = missing(rng, s.m.nodes.len(), 65_535);
        Some(())
    }),
    ("an inertial one's delay that names nothing", |rng, s| {
        let n = an_inertial(rng, s)?;
        no_delay(rng, s, n)
    }),
    ("an inertial one's set", |rng, s| {
        let n = an_inertial(rng, s)?;
        some_set(rng, s, n)
    }),
    ("an inertial one's unnamed byte", |rng, s| {
        let n = an_inertial(rng, s)?;
        unnamed_byte(rng, s, n)
    }),
    ("an inertial one's kind raised", |rng, s| {
        let n = an_inertial(rng, s)?;
        raised_kind(rng, s, n)
    }),
];

const TYPE: &[Way] = &[
    ("an inertial one's value of another type", |rng, s| {
        let types = node_types(&s.m)?;
        let n = an_inertial(rng, s)?;
        let ty = s.m.signals[s.m.statements[n].a as usize].ty;
        s.m.statements[n].b = other_type(rng, &types, ty)?;
        Some(())
    }),
    ("an inertial one's delay that is no integer", |rng, s| {
        let n = an_inertial(rng, s)?;
        other_delay(rng, s, n)
    }),
];

const OWNER: &[Way] = &[
    ("an inertial one's driver removed", |rng, s| {
        let n = an_inertial(rng, s)?;
        remove_driver(s, n)
    }),
    ("an inertial one without a driver here", |rng, s| {
        let n = an_inertial(rng, s)?;
        let ty = s.m.signals[s.m.statements[n].a as usize].ty;
        undriven(rng, s, n, |x| x.ty == ty)
    }),
    ("an inertial one's value of another process", |rng, s| {
        let n = an_inertial(rng, s)?;
        foreign(rng, s, n, Role::SignalValue)
    }),
    ("an inertial one's delay of another process", |rng, s| {
        let n = an_inertial(rng, s)?;
        foreign(rng, s, n, Role::Delay)
    }),
];

pub const INERTIAL: Ways = Ways(&[(5, FIELD), (7, TYPE), (8, OWNER)]);

/// Process 1 of the small model assigns '1', node 1, to the logic signal 1.
fn on_line(m: &mut Model) {
    m.statements[4] = StatementRecord {
        kind: 7,
        a: 1,
        b: 1,
        ..Default::default()
    };
}

/// Inertial assignments to a logic and to an integer signal.
pub fn limits(list: &mut Limits) {
    // A plain signal will do.
    let kinds = [(0, 0), (1, 0), (2, 0), (3, 5), (255, 5)];
    list.field("an inertial one on a signal of kind", &kinds, |m, x| {
        on_line(m);
        m.signals[1].kind = x as u8
    });
    // Signal 0 is an integer.
    let signals = [(0, 7), (1, 0), (2, 5), (65_535, 5)];
    list.field("an inertial one on signal", &signals, |m, x| {
        on_line(m);
        m.statements[4].a = x as u16
    });
    // Nodes 1 and 4 are logic, 3 and 6 boolean; 2 and 5 read process 0's variable.
    let values = [
        (0, 7),
        (1, 0),
        (2, 7),
        (3, 7),
        (4, 0),
        (5, 7),
        (6, 7),
        (7, 5),
        (65_535, 5),
    ];
    list.field("an inertial one of node", &values, |m, x| {
        on_line(m);
        m.statements[4].b = x as u16
    });
    let delays = [
        (0, 0),
        (1, 7),
        (2, 8),
        (3, 7),
        (4, 7),
        (5, 8),
        (6, 7),
        (7, 5),
        (65_535, 5),
    ];
    list.field("an inertial one after node", &delays, |m, x| {
        on_line(m);
        m.statements[4].c = x as u16
    });
    let sets = [(0, 0), (1, 5), (2, 5), (1 << 31, 5)];
    list.field("an inertial one with set", &sets, |m, x| {
        on_line(m);
        m.statements[4].set = x as u32
    });
    for value in [1, 255] {
        // Block 5 has the statements.
        let mut bytes = changed(|b| on_line(&mut b.m));
        bytes[BLOCK * 5 + 4 + RECORD * 4 + 1] = value;
        repair(&mut bytes, 5);
        list.add(5, format!("an inertial one with byte 1 {value}"), bytes);
    }
    let drivers = [(0, 8), (1, 8), (2, 8), (3, 0)];
    let name = "an inertial one with so many drivers left";
    list.field(name, &drivers, |m, x| {
        on_line(m);
        m.drivers.truncate(x as usize)
    });
    list.changed(8, "an inertial one of another's variable", |b| {
        on_line(&mut b.m);
        b.m.statements[4].b = b.read_variable(1);
    });
    // Statement 1 assigns the integer signal.
    let kinds = [(2, 0), (6, 5), (7, 0), (8, 5), (9, 5), (255, 5)];
    list.field("an assignment of kind", &kinds, |m, x| {
        m.statements[1].kind = x as u8
    });
    let name = "an inertial one on an integer signal without its driver";
    list.changed(8, name, |b| {
        b.m.statements[1].kind = 7;
        b.m.drivers.remove(0);
    });
    let name = "an inertial one and a null on a plain signal";
    list.changed(20, name, |b| {
        on_line(&mut b.m);
        b.m.statements[5] = StatementRecord {
            kind: 6,
            a: 1,
            ..Default::default()
        };
    });
}
