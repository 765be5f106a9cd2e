//! Damages of the nodes of product, quotient, mod and rem, and their limits.

use super::*;

fn is_operator(n: &NodeRecord) -> bool {
    integers::ARITHMETIC.contains(&n.kind)
}

fn an_operator(rng: &mut Rng, s: &Subject) -> Option<usize> {
    some(rng, &s.m.nodes, is_operator)
}

fn a_kind(rng: &mut Rng) -> u8 {
    rng.choose(&integers::ARITHMETIC)
}

fn not_lower_operand(rng: &mut Rng, s: &mut Subject, second: bool) -> Option<()> {
    let n = an_operator(rng, s)?;
    let operand = not_lower(rng, n, s.m.nodes.len());
    set_operand(&mut s.m.nodes[n], second, operand);
    Some(())
}

/// Gives an operator a leaf of this type.
fn operand_of(rng: &mut Rng, s: &mut Subject, second: bool, ty: u8) -> Option<()> {
    let types = node_types(&s.m)?;
    let n = an_operator(rng, s)?;
    let leaves = (0..n).filter(|&l| s.m.nodes[l].kind <= 5 && types[l] == ty);
    let leaf = one_of(rng, leaves)? as u16;
    set_operand(&mut s.m.nodes[n], second, leaf);
    Some(())
}

/// Puts an operator in place of operand a of a node that takes another type.
fn beneath(rng: &mut Rng, s: &mut Subject, takes: fn(u8) -> bool) -> Option<()> {
    let types = node_types(&s.m)?;
    let other = |n: &NodeRecord| takes(n.kind) && types[n.a as usize] != INTEGER;
    let n = some(rng, &s.m.nodes, other)?;
    let operator = one_of(rng, (0..n).filter(|&l| is_operator(&s.m.nodes[l])))?;
    s.m.nodes[n].a = operator as u16;
    sizes(&s.m).iter().all(|&size| size <= 64).then_some(())
}

/// Adds an operator over a variable of another process to a statement.
fn foreign_operand(rng: &mut Rng, s: &mut Subject, second: bool) -> Option<()> {
    let types = node_types(&s.m)?;
    let n = some(rng, &s.m.statements, |t| !roots(t).is_empty())?;
    let p = process_of(&s.m, n);
    let fits = |v: &VariableRecord| v.ty == INTEGER && v.process as usize != p;
    let v = some(rng, &s.m.variables, fits)? as u16;
    if s.m.nodes.len() > 396 {
        return None;
    }
    let (read, own) = (node(&mut s.m, 3, v, 0), node(&mut s.m, 1, 0, 0));
    let (a, b) = if second { (own, read) } else { (read, own) };
    let mut new = node(&mut s.m, a_kind(rng), a, b);
    let (role, old) = rng.choose(&expressions(&s.m.statements[n]));
    match types[old as usize] {
        INTEGER => {}
        BOOLEAN => new = node(&mut s.m, 14, new, own),
        _ => return None,
    }
    set_expression(&mut s.m.statements[n], role, new);
    Some(())
}

const FIELD: &[Way] = &[
    ("an operator's kind above 18", |rng, s| {
        let n = an_operator(rng, s)?;
        let any = 19 + rng.below(237) as u8;
        s.m.nodes[n].kind = rng.choose(&[19, 19, 20, 31, 128, 255, any]);
        Some(())
    }),
    ("an operator's k", |rng, s| {
        let n = an_operator(rng, s)?;
        s.m.nodes[n].k = rng.choose(&[1, -1, 256, 65_536, 0x0100_0000, i32::MIN]);
        Some(())
    }),
    ("an operator's unnamed byte", |rng, s| {
        let n = an_operator(rng, s)?;
        let byte = rng.choose(UNNAMED[4]);
        s.patches.push((5, n, byte, 1 + rng.below(255) as u8));
        Some(())
    }),
];

const OPERAND: &[Way] = &[
    ("an operator's a not lower", |rng, s| {
        not_lower_operand(rng, s, false)
    }),
    ("an operator's b not lower", |rng, s| {
        not_lower_operand(rng, s, true)
    }),
    ("operators in a tree of 65 nodes", |rng, s| {
        // Each one adds itself and a leaf.
        if s.m.nodes.len() + 33 > 400 {
            return None;
        }
        let leaf = node(&mut s.m, 1, 0, 0);
        let mut top = leaf;
        for _ in 0..32 {
            let (a, b) = rng.choose(&[(top, leaf), (leaf, top)]);
            top = node(&mut s.m, a_kind(rng), a, b);
        }
        Some(())
    }),
    ("operators in a tree of repeats", |rng, s| {
        let rounds = if rng.chance(1, 4) { 60 } else { 7 };
        if s.m.nodes.len() + rounds > 400 {
            return None;
        }
        let types = node_types(&s.m)?;
        let mut top = some(rng, &types, |&t| t == INTEGER)? as u16;
        for _ in 0..rounds {
            top = node(&mut s.m, a_kind(rng), top, top);
        }
        Some(())
    }),
];

const TYPE: &[Way] = &[
    ("an operator's a that is logic", |rng, s| {
        operand_of(rng, s, false, LOGIC)
    }),
    ("an operator's a that is boolean", |rng, s| {
        operand_of(rng, s, false, BOOLEAN)
    }),
    ("an operator's b that is logic", |rng, s| {
        operand_of(rng, s, true, LOGIC)
    }),
    ("an operator's b that is boolean", |rng, s| {
        operand_of(rng, s, true, BOOLEAN)
    }),
    ("an operator under not, and, or, xor", |rng, s| {
        beneath(rng, s, |kind| (6..=9).contains(&kind))
    }),
    ("an operator compared with logic", |rng, s| {
        beneath(rng, s, |kind| kind == 13)
    }),
    ("an operator as a condition", |rng, s| {
        let operator = an_operator(rng, s)? as u16;
        let n = some(rng, &s.m.statements, |t| t.kind == 3 || t.kind == 5)?;
        s.m.statements[n].b = operator;
        Some(())
    }),
    ("an operator as no integer's value", |rng, s| {
        let operator = an_operator(rng, s)? as u16;
        let other = |t: &StatementRecord| match t.kind {
            1 => s.m.variables[t.a as usize].ty != INTEGER,
            2 => s.m.signals[t.a as usize].ty != INTEGER,
            _ => false,
        };
        let n = some(rng, &s.m.statements, other)?;
        s.m.statements[n].b = operator;
        Some(())
    }),
];

const OWNER: &[Way] = &[
    ("another's variable as an operator's a", |rng, s| {
        foreign_operand(rng, s, false)
    }),
    ("another's variable as an operator's b", |rng, s| {
        foreign_operand(rng, s, true)
    }),
];

pub const ARITHMETIC: Ways = Ways(&[(5, FIELD), (6, OPERAND), (7, TYPE), (8, OWNER)]);

/// The small model's sum, node 5, made product, quotient, mod or rem. Statement 0
/// assigns it; nodes 1 and 4 are logic, node 3 is boolean.
pub fn limits(list: &mut Limits) {
    let kinds = [
        (11, 0),
        (12, 0),
        (13, 7),
        (14, 7),
        (15, 0),
        (16, 0),
        (17, 0),
        (18, 0),
        (19, 5),
        (20, 5),
        (32, 5),
        (255, 5),
    ];
    list.field("a sum made node kind", &kinds, |m, x| {
        m.nodes[5].kind = x as u8
    });
    for kind in integers::ARITHMETIC {
        field_limits(list, kind);
        operand_limits(list, kind);
        tree_limits(list, kind);
        use_limits(list, kind);
    }
}

/// The small model with its sum made this kind, after a change.
fn made(list: &mut Limits, number: u32, kind: u8, what: String, change: impl Fn(&mut Model)) {
    list.changed(number, format!("node kind {kind} {what}"), |b| {
        b.m.nodes[5].kind = kind;
        change(&mut b.m);
    });
}

fn field_limits(list: &mut Limits, kind: u8) {
    for (k, number) in [(0, 0), (1, 5), (-1, 5), (256, 5), (i32::MIN, 5)] {
        made(list, number, kind, format!("with k {k}"), |m| {
            m.nodes[5].k = k
        });
    }
    for &byte in UNNAMED[4] {
        let mut bytes = changed(|b| b.m.nodes[5].kind = kind);
        bytes[BLOCK * 4 + 4 + RECORD * 5 + byte] = 1;
        repair(&mut bytes, 4);
        list.add(5, format!("node kind {kind} with byte {byte}"), bytes);
    }
}

fn operand_limits(list: &mut Limits, kind: u8) {
    let operands = [
        (0, 0),
        (1, 7),
        (2, 0),
        (3, 7),
        (4, 7),
        (5, 6),
        (6, 6),
        (7, 6),
        (65_535, 6),
    ];
    for (x, number) in operands {
        for (second, name) in [(false, "a"), (true, "b")] {
            made(list, number, kind, format!("with {name} {x}"), |m| {
                set_operand(&mut m.nodes[5], second, x)
            });
        }
    }
}

/// Trees that grow by the node itself and a constant, from a constant or a negated
/// one.
fn tree_limits(list: &mut Limits, kind: u8) {
    for (size, number) in [(63, 0), (64, 0), (65, 6), (66, 6)] {
        made(list, number, kind, format!("in a tree of {size}"), |m| {
            let first = if size % 2 == 0 { node(m, 10, 0, 0) } else { 0 };
            let top = (0..(size - 1) / 2).fold(first, |top, _| node(m, kind, top, 0));
            m.statements[0].b = top;
        });
    }
}

fn use_limits(list: &mut Limits, kind: u8) {
    let uses: [(u32, &str, fn(&mut Model)); 5] = [
        (7, "in unless", |m| m.statements[2].b = 5),
        (7, "in a wait's condition", |m| m.statements[3].b = 5),
        (7, "as a logic value", |m| m.statements[0].a = 1),
        (0, "in a delay", |m| m.statements[1].c = 5),
        (8, "over a variable of the other process", |m| {
            m.statements[6].c = 5
        }),
    ];
    for (number, what, change) in uses {
        made(list, number, kind, what.into(), change);
    }
}
