//! Damages of bus and register signals and of null transactions, and their
//! limits.

use super::*;

/// A null transaction's statement.
fn a_null(rng: &mut Rng, s: &Subject) -> Option<usize> {
    some(rng, &s.m.statements, |s| s.kind == 6)
}

/// Makes a null of an assignment to a plain signal of this type.
fn on_plain(rng: &mut Rng, s: &mut Subject, ty: u8) -> Option<()> {
    let signals = &s.m.signals;
    let plain = |n: u16| signals[n as usize].kind == PLAIN && signals[n as usize].ty == ty;
    let n = some(rng, &s.m.statements, |t| assigns_value(t) && plain(t.a))?;
    s.m.statements[n].kind = 6;
    s.m.statements[n].b = 0;
    Some(())
}

const FIELD: &[Way] = &[
    ("a signal's kind above 2", |rng, s| {
        let n = some(rng, &s.m.signals, |_| true)?;
        let any = 3 + rng.below(253) as u8;
        s.m.signals[n].kind = rng.choose(&[3, 4, 128, 255, any]);
        Some(())
    }),
    ("an integer bus or register", |rng, s| {
        let n = some(rng, &s.m.signals, |s| s.ty == INTEGER)?;
        s.m.signals[n].kind = rng.choose(&[BUS, REGISTER]);
        let given = |t: &StatementRecord| assigns_value(t) && t.a as usize == n;
        if let Some(t) = some(rng, &s.m.statements, given) {
            // A null on it, now and then.
            if rng.chance(1, 2) {
                s.m.statements[t].kind = 6;
                s.m.statements[t].b = 0;
            }
        }
        Some(())
    }),
    ("a null's signal", |rng, s| {
        let n = a_null(rng, s)?;
        no_signal(rng, s, n)
    }),
    ("a null's b", |rng, s| {
        let n = a_null(rng, s)?;
        let node = 1 + rng.below(s.m.nodes.len()) as u16;
        s.m.statements[n].b = rng.choose(&[node, 1, 256, ABSENT]);
        Some(())
    }),
    ("a null's delay that names nothing", |rng, s| {
        let n = a_null(rng, s)?;
        no_delay(rng, s, n)
    }),
    ("a null's set", |rng, s| {
        let n = a_null(rng, s)?;
        some_set(rng, s, n)
    }),
    ("a null's unnamed byte", |rng, s| {
        let n = a_null(rng, s)?;
        unnamed_byte(rng, s, n)
    }),
    ("a null's kind raised", |rng, s| {
        let n = a_null(rng, s)?;
        raised_kind(rng, s, n)
    }),
];

const TYPE: &[Way] = &[("a null's delay that is no integer", |rng, s| {
    let n = a_null(rng, s)?;
    other_delay(rng, s, n)
})];

const OWNER: &[Way] = &[
    ("a null's driver removed", |rng, s| {
        let n = a_null(rng, s)?;
        remove_driver(s, n)
    }),
    ("a null without a driver here", |rng, s| {
        let n = a_null(rng, s)?;
        undriven(rng, s, n, |x| x.kind != PLAIN)
    }),
    ("a null's delay of another process", |rng, s| {
        let n = a_null(rng, s)?;
        foreign(rng, s, n, Role::NullDelay)
    }),
];

/// Rule 20.
pub const NULL: &[Way] = &[
    ("a null on a plain logic signal", |rng, s| {
        on_plain(rng, s, LOGIC)
    }),
    ("a null on an integer signal", |rng, s| {
        on_plain(rng, s, INTEGER)
    }),
    ("a signal with nulls made plain", |rng, s| {
        let n = a_null(rng, s)?;
        s.m.signals[s.m.statements[n].a as usize].kind = PLAIN;
        Some(())
    }),
];

/// Rules 8 and 20 both.
const OWNER_AND_NULL: &[Way] = &[
    ("a null on a plain signal not driven here", |rng, s| {
        let n = a_null(rng, s)?;
        undriven(rng, s, n, |x| x.kind == PLAIN)
    }),
    ("8 and 20 at two places", |rng, s| {
        damage_model(rng, s, NULL)?;
        let ops = rng.choose(&[OWNER, super::OWNER]);
        damage_model(rng, s, ops).map(|_| ())
    }),
];

pub const GUARDED: Ways = Ways(&[
    (5, FIELD),
    (7, TYPE),
    (8, OWNER),
    (8, OWNER_AND_NULL),
    (20, NULL),
]);

/// Signal 1 of the small model becomes a bus, and process 1 assigns null to it.
fn null_on_bus(m: &mut Model) {
    m.signals[1].kind = BUS;
    m.statements[4] = StatementRecord {
        kind: 6,
        a: 1,
        ..Default::default()
    };
}

/// Bus and register signals, and a null on a bus.
pub fn limits(list: &mut Limits) {
    let whole = [(0, 0), (1, 5), (2, 5), (3, 5), (255, 5)];
    list.field("integer signal of kind", &whole, |m, x| {
        m.signals[0].kind = x as u8
    });
    let codes = [(0, 0), (1, 0), (2, 0), (3, 5), (4, 5), (128, 5), (255, 5)];
    list.field("logic signal of kind", &codes, |m, x| {
        m.signals[1].kind = x as u8
    });
    let codes = [(0, 20), (1, 0), (2, 0), (3, 5), (255, 5)];
    list.field("a null on a signal of kind", &codes, |m, x| {
        null_on_bus(m);
        m.signals[1].kind = x as u8
    });
    let starts = [(0, 0), (4, 0), (8, 0), (9, 5)];
    list.field("a bus starts at", &starts, |m, x| {
        null_on_bus(m);
        m.signals[1].start = x as i32
    });
    // Process 1 does not drive signal 0.
    let signals = [(0, 8), (1, 0), (2, 5), (65_535, 5)];
    list.field("a null on signal", &signals, |m, x| {
        null_on_bus(m);
        m.statements[4].a = x as u16
    });
    let unnamed = [(0, 0), (1, 5), (7, 5), (65_535, 5)];
    list.field("a null with b", &unnamed, |m, x| {
        null_on_bus(m);
        m.statements[4].b = x as u16
    });
    // Node 1 is logic, node 6 boolean, node 2 reads process 0's variable.
    let delays = [
        (0, 0),
        (1, 7),
        (2, 8),
        (3, 7),
        (5, 8),
        (6, 7),
        (7, 5),
        (65_535, 5),
    ];
    list.field("a null after node", &delays, |m, x| {
        null_on_bus(m);
        m.statements[4].c = x as u16
    });
    let sets = [(0, 0), (1, 5), (2, 5), (1 << 31, 5)];
    list.field("a null with set", &sets, |m, x| {
        null_on_bus(m);
        m.statements[4].set = x as u32
    });
    let drivers = [(0, 8), (1, 8), (2, 8), (3, 0)];
    list.field("a null with so many drivers left", &drivers, |m, x| {
        null_on_bus(m);
        m.drivers.truncate(x as usize)
    });
    // Statement 1 is an assignment to the integer signal.
    fn null(m: &mut Model) {
        m.statements[1].kind = 6;
        m.statements[1].b = 0;
    }
    let name = "a null on an integer signal";
    list.changed(20, name, |b| null(&mut b.m));
    list.changed(8, "the same without its driver", |b| {
        null(&mut b.m);
        b.m.drivers.remove(0);
    });
    list.changed(5, "the same on an integer bus", |b| {
        null(&mut b.m);
        b.m.signals[0].kind = BUS;
    });
    list.changed(8, "the same and a foreign variable later", |b| {
        null(&mut b.m);
        b.m.statements[6] = StatementRecord {
            kind: 1,
            ..Default::default()
        };
    });
    list.changed(7, "the same and a wrong type later", |b| {
        null(&mut b.m);
        b.m.statements[6].c = 1;
    });
    list.changed(20, "20 in the last statement", |b| {
        null_on_bus(&mut b.m);
        b.m.statements[6] = StatementRecord {
            kind: 6,
            a: 2,
            ..Default::default()
        };
        b.signal(LOGIC, 2);
        b.driver(1, 2);
    });
}
