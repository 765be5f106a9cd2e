//! Holds the program that plays the files `model` and `orders` against the
//! second kernel's text: `edge PROGRAM`; `edge dump PROGRAM` the one that dumps them,
//! `edge loop PROGRAM` the one that checks the file `model` for a loop without delay,
//! `edge text PROGRAM` the one that makes the files `text` and `records` into `model`.

use second_kernel::edge::{examine, sessions, texts, DUMP, LOOP, PLAY};
use second_kernel::end;
use std::process::Command;

/// What is wrong is told, and what is due.
fn judge(wrong: &[String], due: Result<(), String>, runs: u64) -> Result<(), String> {
    for wrong in wrong.iter().take(20) {
        println!("WRONG: {wrong}");
    }
    if !wrong.is_empty() {
        return Err(format!("{} runs are wrong", wrong.len()));
    }
    due?;
    println!("no difference in {runs} runs");
    Ok(())
}

fn run() -> Result<(), String> {
    let arguments: Vec<_> = std::env::args_os().skip(1).collect();
    let (bench, path) = match &arguments[..] {
        [path] => (Some(&PLAY), path),
        [dump, path] if dump == "dump" => (Some(&DUMP), path),
        [name, path] if name == "loop" => (Some(&LOOP), path),
        [name, path] if name == "text" => (None, path),
        _ => {
            return Err(
                "use: edge PROGRAM | edge dump PROGRAM | edge loop PROGRAM | edge text PROGRAM"
                    .into(),
            )
        }
    };
    // The program runs in other folders.
    let path = std::fs::canonicalize(path).map_err(|e| format!("{}: {e}", path.display()))?;
    let program = || Command::new(&path);
    match bench {
        Some(bench) => {
            let found = examine(bench, &program, &sessions(bench))?;
            found.print();
            judge(&found.wrong, found.require(), found.runs())
        }
        None => {
            let found = texts::examine(&program, &texts::groups())?;
            found.print();
            judge(&found.wrong, found.require(), found.runs())
        }
    }
}

fn main() -> std::process::ExitCode {
    end("edge", run())
}
