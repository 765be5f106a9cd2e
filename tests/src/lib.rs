//! A second delta-cycle kernel, written from the papers alone, to be held
//! against the proved one.

pub mod body;
pub mod builder;
pub mod cases;
pub mod cycle;
pub mod damage;
pub mod dump;
pub mod edge;
pub mod features;
pub mod folder;
pub mod gen;
pub mod integers;
pub mod loops;
pub mod model;
pub mod moves;
pub mod numbers;
pub mod operands;
#[cfg(feature = "proved")]
pub mod proved;
#[cfg(feature = "bodies")]
pub mod proved_bodies;
#[cfg(feature = "loops")]
pub mod proved_loops;
#[cfg(feature = "moves")]
pub mod proved_moves;
pub mod rng;
pub mod session;
pub mod tally;
pub mod values;
pub mod vcd;
pub mod vhdl;

#[cfg(test)]
mod bench;

use std::io::Write;

/// A program that prints a text of the files `model` and `orders` in its folder.
pub fn print_files(program: &str, print: fn(&[u8], &[u8]) -> String) -> std::process::ExitCode {
    let text = || Ok(print(&file("model")?, &file("orders")?));
    end(program, text().and_then(put))
}

/// One that prints a text of the file `model` alone.
pub fn print_model(program: &str, print: fn(&[u8]) -> String) -> std::process::ExitCode {
    let text = || Ok(print(&file("model")?));
    end(program, text().and_then(put))
}

/// One that makes the files `text` and `records` into the file `model` and prints the number.
pub fn make_model(program: &str) -> std::process::ExitCode {
    let make = || {
        let number = match body::whole::made(&file("text")?, &file("records")?) {
            Ok((_, blocks)) => {
                let written = std::fs::write("model", blocks);
                written.map_err(|e| format!("cannot write file `model`: {e}"))?;
                0
            }
            Err(number) => number,
        };
        put(format!("{number}\n"))
    };
    end(program, make())
}

fn file(name: &str) -> Result<Vec<u8>, String> {
    let bytes = std::fs::read(name);
    bytes.map_err(|e| format!("cannot read file `{name}`: {e}"))
}

/// Writes a text to standard output.
fn put(text: String) -> Result<(), String> {
    let mut out = std::io::stdout().lock();
    out.write_all(text.as_bytes())
        .and_then(|()| out.flush())
        .map_err(|e| format!("cannot write: {e}"))
}

/// The end of a program: an error is told on standard error.
pub fn end(program: &str, result: Result<(), String>) -> std::process::ExitCode {
    match result {
        Ok(()) => std::process::ExitCode::SUCCESS,
        Err(message) => {
            eprintln!("{program}: {message}");
            std::process::ExitCode::FAILURE
        }
    }
}
