//! The second kernel's dump of a run (document 02, item 7).

use crate::cycle::Config;
use crate::model::{Model, INTEGER};
use crate::numbers::OUTPUT;
use crate::session::{accepted, play, ANSWER, ORDER};
use crate::values::*;
use std::fmt::Write;

/// Signal values at a time.
pub type Row = (u64, Vec<i32>);

/// The settled values at each time of a run: those just before a time step, or at the
/// end of the orders.
pub fn settled(m: &Model, orders: &[u8]) -> Vec<Row> {
    let mut c = Config::first(m);
    let mut rows = vec![];
    for order in orders.chunks_exact(ORDER) {
        let before = (c.time, c.current());
        play(m, &mut c, order, &mut [0; ANSWER]);
        if c.time != before.0 {
            rows.push(before);
        }
    }
    rows.push((c.time, c.current()));
    rows
}

/// The line of a signal's value.
pub fn line(m: &Model, signal: usize, value: i32) -> String {
    let identifier = identifier(signal);
    if m.signals[signal].ty == INTEGER {
        return format!("b{value:b} {identifier}\n");
    }
    let state = match value as u8 {
        ZERO | L => '0',
        ONE | H => '1',
        Z => 'z',
        _ => 'x',
    };
    format!("{state}{identifier}\n")
}

fn identifier(signal: usize) -> char {
    char::from(33 + signal as u8)
}

/// The lines before the first time.
fn header(m: &Model) -> String {
    let mut text = String::from("$timescale 1 ns $end\n$scope module model $end\n");
    for (n, signal) in m.signals.iter().enumerate() {
        let width = if signal.ty == INTEGER { 32 } else { 1 };
        let _ = writeln!(text, "$var wire {width} {} s{n} $end", identifier(n));
    }
    text + "$upscope $end\n$enddefinitions $end\n"
}

/// The dump of a run, given by its settled values.
pub fn text(m: &Model, run: &[Row]) -> String {
    let mut text = header(m);
    let mut written = vec![String::new(); m.signals.len()];
    for (time, row) in run {
        let lines = row.iter().enumerate().map(|(n, &v)| line(m, n, v));
        let mut changes = String::new();
        for (line, last) in lines.zip(&mut written) {
            if line != *last {
                changes += &line;
                *last = line;
            }
        }
        if *time == 0 || !changes.is_empty() {
            let _ = write!(text, "#{time}\n{changes}");
        }
    }
    text
}

/// The dump of these orders on this model, or the number that refuses the run.
fn dump(model: &[u8], orders: &[u8]) -> Result<String, u32> {
    let m = accepted(model, orders)?;
    Ok(text(&m, &settled(&m, orders)))
}

/// Writes the dump to the front of the buffer: the run's number and the dump's length. A
/// refused run writes nothing.
pub fn write(model: &[u8], orders: &[u8], out: &mut [u8]) -> (u32, usize) {
    let text = match dump(model, orders) {
        Ok(text) if text.len() > out.len() => return (OUTPUT, 0),
        Ok(text) => text,
        Err(number) => return (number, 0),
    };
    out[..text.len()].copy_from_slice(text.as_bytes());
    (0, text.len())
}

/// What `dumpbench` prints: the dump, or the refused run's number alone.
pub fn print(model: &[u8], orders: &[u8]) -> String {
    dump(model, orders).unwrap_or_else(|number| format!("{number}\n"))
}
