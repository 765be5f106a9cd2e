//! Runs with the model's own resolution table.

use super::{drivers, first_reads, orders, resolution_row, turned_off, watch, DEL, READ, SETTLE};
use crate::builder::Builder;
use crate::gen::tables::open_drain;
use crate::model::{BUS, REGISTER};
use crate::values::{Table, STANDARD};
use std::array::from_fn;

/// Sums of codes modulo 9: but for U no code with itself is itself, Z with Z is -, and U is
/// neutral.
pub fn sums() -> Table {
    from_fn(|x| from_fn(|y| ((x + y) % 9) as u8))
}

/// Tables by name: the standard's as rows, wired-and, sums, the higher code of two, W for all.
pub fn own_tables() -> [(&'static str, Table); 5] {
    [
        ("the standard's", STANDARD),
        ("open drain", open_drain()),
        ("sums", sums()),
        ("higher codes", from_fn(|x| from_fn(|y| x.max(y) as u8))),
        ("W alone", [[5; 9]; 9]),
    ]
}

/// Tables that are refused: with 24, with 24 and else 25, with 25.
pub fn refused_tables() -> [(u32, Table); 3] {
    let first = from_fn(|x| [x as u8; 9]);
    let differences = from_fn(|x| from_fn(|y| ((9 + x - y) % 9) as u8));
    let distances = from_fn(|x| from_fn(|y| x.abs_diff(y) as u8));
    [(24, first), (24, differences), (25, distances)]
}

/// The model with a table.
pub fn with_table(mut b: Builder, table: &Table) -> Builder {
    b.table(table);
    b
}

/// All of them as sessions.
pub fn sessions(add: &mut impl FnMut(String, &Builder, Vec<u8>)) {
    let step = orders(&[(SETTLE, 0, 40), DEL, (READ, 0, 0)]);
    for (name, table) in own_tables() {
        for row in 0..9 {
            let b = with_table(resolution_row(row), &table);
            add(format!("{name}, row {row}"), &b, step.clone());
        }
        for letters in [
            "X",
            "-",
            "ZZ",
            "--",
            "01Z",
            "Z01",
            "HL1Z",
            "UX01ZWLH-",
            "-HLWZ10XU",
            "UUUUUUUUUUUUUUU1",
            "1000100001000010",
        ] {
            let b = with_table(drivers(letters), &table);
            add(format!("{name}, drivers {letters}"), &b, step.clone());
        }
        for (kind, line) in [(BUS, "bus"), (REGISTER, "register")] {
            for letters in ["X", "-", "01", "ZZ", "H0L", "WWWW"] {
                let b = with_table(turned_off(kind, letters), &table);
                let name = format!("{name}, a {line} turned off after {letters}");
                watch(add, name, &b, 2 * letters.len() + 2);
            }
        }
        for drivers in 0..4 {
            let b = with_table(first_reads(drivers), &table);
            let name = format!("{name}, first values of - with {drivers} drivers");
            watch(add, name, &b, 1);
        }
    }
    for (number, table) in refused_tables() {
        let b = with_table(drivers("01"), &table);
        for length in [0, 3, 8, 16_388] {
            let name = format!("a table refused with {number}, {length} bytes of orders");
            add(name, &b, vec![SETTLE; length]);
        }
    }
}
