//! How long `playbench` and `dumpbench` take for full sessions on 32 signals, and how many bytes they write: the programs named as
//! arguments, as processes that write into a file, in turn.

use second_kernel::builder::Builder;
use second_kernel::cases::{inverter, orders, stepped, Order, STEP};
use second_kernel::model::*;
use second_kernel::session::SETTLE;
use std::fs::{self, File};
use std::path::Path;
use std::process::{Command, ExitCode};
use std::time::Instant;

const RUNS: usize = 50;
const ORDERS: usize = 4096;

const SET: Order = (SETTLE, 0, 1000);

type Session = (Vec<u8>, Vec<u8>);

/// A full session of these orders over and over.
fn session(b: &Builder, round: &[Order]) -> Session {
    let list: Vec<_> = round.iter().copied().cycle().take(ORDERS).collect();
    (b.encode(), orders(&stepped(b, &list)))
}

/// A clock of two time units and fifteen dividers in a row. Each has a logic signal, which the next one divides, and an integer that
/// counts its changes.
fn typical() -> Session {
    let mut b = Builder::new();
    for _ in 0..16 {
        b.signal(LOGIC, 2);
        b.signal(INTEGER, 0);
    }
    let (high, now, one) = (b.logic(3), b.integer(0), b.integer(1));
    for n in 0..16 {
        let (line, count) = (2 * n, 2 * n + 1);
        let process = b.process();
        b.driver(process, line);
        b.driver(process, count);
        if n > 0 {
            let before = b.read_signal(line - 2);
            let rose = b.binary(13, before, high);
            b.wait(1 << (line - 2), rose, ABSENT);
        }
        let (old, counted) = (b.read_signal(line), b.read_signal(count));
        let (new, next) = (b.unary(6, old), b.binary(11, counted, one));
        b.schedule(line, new, now);
        b.schedule(count, next, now);
        if n == 0 {
            b.wait(0, ABSENT, one);
        }
    }
    session(&b, &[SET, STEP])
}

/// A process that gives all of 32 integers another value of 32 digits for each of the next eight times, as many as a driver holds.
fn worst() -> Session {
    let mut b = Builder::new();
    let process = b.process();
    let (value, delay) = (
        b.variable(INTEGER, process, -1),
        b.variable(INTEGER, process, 1),
    );
    let (v, d) = (b.read_variable(value), b.read_variable(delay));
    let (one, eight, sum) = (b.integer(1), b.integer(8), b.integer(-3));
    let (other, later, enough) = (
        b.binary(12, sum, v),
        b.binary(11, d, one),
        b.binary(14, eight, d),
    );
    for n in 0..32 {
        b.signal(INTEGER, -2);
        b.driver(process, n);
        b.schedule(n, v, d);
    }
    b.assign(value, other);
    b.assign(delay, later);
    b.unless(enough, 0);
    b.assign(delay, one);
    b.wait(0, ABSENT, eight);
    session(&b, &[vec![SET], vec![STEP; 16]].concat())
}

/// The milliseconds of one process, and what it wrote.
fn run(program: &str, folder: &Path) -> Result<(f64, Vec<u8>), String> {
    let said = |e: std::io::Error| format!("{program}: {e}");
    let out = File::create(folder.join("out")).map_err(said)?;
    let mut command = Command::new(program);
    command.current_dir(folder).stdout(out);
    let start = Instant::now();
    let status = command.status().map_err(said)?;
    let took = start.elapsed().as_secs_f64() * 1e3;
    if !status.success() {
        return Err(format!("{program}: {status}"));
    }
    Ok((took, fs::read(folder.join("out")).map_err(said)?))
}

fn median(mut times: Vec<f64>) -> f64 {
    times.sort_by(f64::total_cmp);
    times[times.len() / 2]
}

/// Err unless the lines answer this many orders, all of them done.
fn all_done(text: &[u8], many: usize) -> Result<(), String> {
    let lines = text.split(|&c| c == b'\n').filter(|line| !line.is_empty());
    let done = lines.clone().filter(|line| line.starts_with(b"0 ")).count();
    if lines.count() != many || done != many {
        return Err(format!("{done} orders done of {many}"));
    }
    Ok(())
}

fn measure(
    name: &str,
    programs: &[String; 2],
    (model, orders): &Session,
    folder: &Path,
) -> Result<(), String> {
    let put =
        |name: &str, bytes: &[u8]| fs::write(folder.join(name), bytes).map_err(|e| e.to_string());
    put("model", model)?;
    put("orders", orders)?;
    let mut took = [vec![], vec![]];
    let mut wrote = [vec![], vec![]];
    for _ in 0..RUNS {
        for n in 0..2 {
            let (time, text) = run(&programs[n], folder)?;
            took[n].push(time);
            wrote[n] = text;
        }
    }
    all_done(&wrote[0], orders.len() / 4)?;
    let times = wrote[1].windows(2).filter(|pair| pair == b"\n#").count();
    let [play, dump] = took.map(median);
    let [text, vcd] = wrote.map(|text| text.len());
    println!(
        "{name:8} {:6} {times:6} {play:8.2} {dump:8.2} {text:9} {vcd:9}",
        orders.len() / 4
    );
    Ok(())
}

fn compare(programs: &[String; 2]) -> Result<(), String> {
    let folder = std::env::temp_dir().join(format!("dumptime-{}", std::process::id()));
    fs::create_dir(&folder).map_err(|e| e.to_string())?;
    println!("                          milliseconds          bytes written");
    println!("session  orders  times     play     dump      play      dump");
    let sessions = [
        ("empty", (inverter().encode(), vec![])),
        ("typical", typical()),
        ("worst", worst()),
    ];
    let result = sessions
        .iter()
        .try_for_each(|(name, session)| measure(name, programs, session, &folder));
    fs::remove_dir_all(&folder).map_err(|e| e.to_string())?;
    result
}

fn main() -> ExitCode {
    let programs: Vec<String> = std::env::args().skip(1).collect();
    let result = match <[String; 2]>::try_from(programs) {
        Ok(programs) => compare(&programs),
        Err(_) => Err("usage: dumptime PLAYBENCH DUMPBENCH".to_string()),
    };
    second_kernel::end("dumptime", result)
}
