//! Damages of the model's own resolution table, and its limits.

use super::*;
use crate::cases::refused_tables;
use crate::gen::tables::*;
use crate::values::{Table, STANDARD};

/// Gives the model its own table, if it has none.
fn with_rows(rng: &mut Rng, s: &mut Subject) {
    if s.m.rows.is_empty() {
        s.m.rows = table(rng).to_vec();
    }
}

/// Gives the model this table.
fn carry(s: &mut Subject, table: Table) -> Option<()> {
    s.m.rows = table.to_vec();
    Some(())
}

/// Gives the model so many rows, each one of a table.
fn total(rng: &mut Rng, s: &mut Subject, rows: usize) -> Option<()> {
    let table = match rng.below(4) {
        0 => asymmetric(rng),
        _ => table(rng),
    };
    s.m.rows = (0..rows).map(|n| table[n % 9]).collect();
    Some(())
}

/// Changes a byte of a row.
fn byte(rng: &mut Rng, s: &mut Subject, at: usize, value: u8) -> Option<()> {
    with_rows(rng, s);
    s.patches.push((7, rng.below(9), at, value));
    Some(())
}

const TOTAL: &[Way] = &[
    ("eight rows", |rng, s| total(rng, s, 8)),
    ("ten rows", |rng, s| total(rng, s, 10)),
    ("one row to seven", |rng, s| {
        let rows = 1 + rng.below(7);
        total(rng, s, rows)
    }),
    ("11 rows to 42", |rng, s| {
        let any = 11 + rng.below(32);
        let rows = rng.choose(&[18, any]);
        total(rng, s, rows)
    }),
    ("43 rows or more", |rng, s| {
        let rows = 43 + rng.below(60);
        total(rng, s, rows)
    }),
];

const FIELD: &[Way] = &[
    ("a row's code 9", |rng, s| {
        let column = rng.below(9);
        byte(rng, s, column, 9)
    }),
    ("a row's code above 8", |rng, s| {
        let (column, any) = (rng.below(9), 9 + rng.below(247) as u8);
        let code = rng.choose(&[10, 16, 128, 255, any]);
        byte(rng, s, column, code)
    }),
    ("a row's byte 9", |rng, s| {
        let value = 1 + rng.below(255) as u8;
        byte(rng, s, 9, value)
    }),
    ("a row's byte 10", |rng, s| {
        let value = 1 + rng.below(255) as u8;
        byte(rng, s, 10, value)
    }),
    ("a row's byte 11", |rng, s| {
        let value = 1 + rng.below(255) as u8;
        byte(rng, s, 11, value)
    }),
];

/// Rule 24.
pub const SYMMETRY: &[Way] = &[
    ("one entry that is not symmetric", |rng, s| {
        carry(s, one_sided(rng))
    }),
    ("a table not symmetric, but associative", |rng, s| {
        carry(s, first_or_last(rng))
    }),
    ("a table neither symmetric nor associative", |rng, s| {
        carry(s, neither(rng))
    }),
];

/// Rule 25.
pub const ASSOCIATIVITY: &[Way] = &[
    ("a table that is not associative", |rng, s| {
        carry(s, unassociative(rng))
    }),
    ("one triple that is not associative", |rng, s| {
        carry(s, one_triple_of(rng))
    }),
];

/// A table that breaks one of its rules, and another rule of these ways besides.
fn besides(rng: &mut Rng, s: &mut Subject, table: &[Way], ways: &[Way]) -> Option<()> {
    damage_model(rng, s, ways)?;
    damage_model(rng, s, table).map(|_| ())
}

const OWNER_AND_TABLE: &[Way] = &[
    ("8 and 24", |rng, s| besides(rng, s, SYMMETRY, super::OWNER)),
    ("8 and 25", |rng, s| {
        besides(rng, s, ASSOCIATIVITY, super::OWNER)
    }),
];

const NULL_AND_TABLE: &[Way] = &[
    ("20 and 24", |rng, s| {
        besides(rng, s, SYMMETRY, guarded::NULL)
    }),
    ("20 and 25", |rng, s| {
        besides(rng, s, ASSOCIATIVITY, guarded::NULL)
    }),
];

pub const OWN_TABLE: Ways = Ways(&[
    (4, TOTAL),
    (5, FIELD),
    (8, OWNER_AND_TABLE),
    (20, NULL_AND_TABLE),
    (24, SYMMETRY),
    (25, ASSOCIATIVITY),
]);

/// The small model with a table.
fn with_table(list: &mut Limits, number: u32, name: String, table: &Table) {
    list.changed(number, name, |b| b.table(table));
}

/// The small model with the standard's table as rows, split as said.
fn in_blocks(list: &mut Limits, name: &str, counts: &[usize]) {
    let mut b = small();
    b.table(&STANDARD);
    let mut plan = full_plan(&b.m);
    plan[6] = counts.to_vec();
    list.add(0, name, encode_with(&b.m, &plan));
}

/// The small model with a table of its own.
pub fn limits(list: &mut Limits) {
    for rows in (0..=20).chain([27, 41, 42, 43, 44, 81, 84, 90]) {
        let number = if [0, 9].contains(&rows) { 0 } else { 4 };
        list.changed(number, format!("{rows} rows"), |b| {
            b.m.rows = (0..rows).map(|n| STANDARD[n % 9]).collect()
        });
    }
    in_blocks(list, "rows in nine blocks", &[1; 9]);
    in_blocks(
        list,
        "rows in blocks, empty ones between",
        &[0, 4, 0, 0, 5, 0],
    );
    in_blocks(list, "rows in two blocks", &[8, 1]);
    // Kinds never fall: no row before a statement.
    for (name, rows) in [("nine rows", 9), ("an empty block of rows", 0)] {
        let m = small().m;
        let mut bytes = encode(&m);
        let last = blocks(&bytes) - 1;
        let mut statements = bytes.split_off(BLOCK * last);
        let records: Vec<Record> = STANDARD[..rows]
            .iter()
            .map(|row| from_fn(|n| row.get(n).copied().unwrap_or(0)))
            .collect();
        bytes.extend(block(last as u16, 7, &records));
        statements[0] = last as u8 + 1;
        repair(&mut statements, 0);
        bytes.extend(statements);
        list.add(3, format!("{name} before the statements"), bytes);
    }
    let last = changed(|b| b.table(&STANDARD));
    for kind in [0, 5, 8, 9, 255] {
        list.header(format!("the rows' block of kind {kind}"), &last, 6, 2, kind);
    }
    list.header("44 rows in a block".into(), &last, 6, 3, 44);
    for (name, at, value) in [
        ("a byte behind the rows", 4 + 9 * RECORD, 1),
        ("509", 509, 1),
    ] {
        list.header(name.into(), &last, 6, at, value);
    }

    // Fields.
    for (row, column) in pairs() {
        for code in [9, 255] {
            let name = format!("code {code} in row {row}, column {column}");
            list.changed(5, name, |b| {
                b.table(&STANDARD);
                b.m.rows[row][column] = code;
            });
        }
    }
    for (row, byte) in (0..9).flat_map(|row| (9..12).map(move |byte| (row, byte))) {
        let mut bytes = last.clone();
        bytes[BLOCK * 6 + 4 + RECORD * row + byte] = 1 + row as u8;
        repair(&mut bytes, 6);
        list.add(5, format!("row {row}, byte {byte}"), bytes);
    }

    // Tables that are right: each code alone is an entry of one.
    for code in 0..9 {
        with_table(list, 0, format!("a table of {code} alone"), &[[code; 9]; 9]);
    }
    with_table(list, 0, "the open-drain table".into(), &open_drain());
    for seed in 0..60 {
        let table = table(&mut Rng::new(seed));
        with_table(list, 0, format!("table {seed}"), &table);
    }
    // One entry that is not symmetric, on each side.
    for (x, y) in pairs() {
        let mut table = STANDARD;
        table[x][y] = (table[x][y] + 1) % 9;
        if x != y {
            let name = format!("entry {x}, {y} alone is another");
            with_table(list, 24, name, &table);
        }
    }
    // One triple that is not associative: a code twice, or three codes.
    for n in 0..729u16 {
        let [x, y, z] = [n / 81, n / 9 % 9, n % 9].map(|code| code as u8);
        let mut free = (0..9).filter(|code| ![x, y, z].contains(code));
        let others = from_fn(|_| free.next().unwrap_or(0));
        if x <= y && ![x, y].contains(&z) {
            let name = format!("triple {x}, {y}, {z} alone tells");
            with_table(list, 25, name, &one_triple(x, y, z, others));
        }
    }

    // Other rules beside.
    let names = ["24", "24 and 25", "25"];
    for ((number, table), name) in refused_tables().into_iter().zip(names) {
        with_table(list, number, name.into(), &table);
        list.changed(20, format!("20 and {name}"), |b| {
            b.table(&table);
            // A null on the plain integer signal.
            b.m.statements[1].kind = 6;
            b.m.statements[1].b = 0;
        });
        list.changed(8, format!("8 and {name}"), |b| {
            b.table(&table);
            b.m.drivers.clear();
        });
        list.changed(7, format!("7 and {name}"), |b| {
            b.table(&table);
            b.m.statements[6].c = 1;
        });
        list.changed(6, format!("6 and {name}"), |b| {
            b.table(&table);
            b.m.nodes[5].b = 5;
        });
        list.changed(5, format!("5 and {name}"), |b| {
            b.table(&table);
            b.m.rows[8][8] = 9;
        });
        list.changed(4, format!("4 and {name}"), |b| {
            b.table(&table);
            b.m.rows.pop();
        });
        // A model without logic signals is held to it too.
        let mut b = Builder::new();
        b.process();
        b.null();
        b.table(&table);
        list.add(number, format!("{name} without signals"), b.encode());
    }
}
