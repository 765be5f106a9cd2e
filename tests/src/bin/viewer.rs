//! Runs dumps through GTKWave's converters, which read them as the viewer does, and
//! compares what comes back: `viewer [N [SEED]]`, N random runs from SEED on (default 50
//! from 1) besides fixed ones. With the feature `dumps` the dumps are the proved
//! kernel's, else the second kernel's.
//!
//! A dump goes to FST and to LXT2 and back; no converter may complain, and every signal
//! must have its value at each time of the run. Random runs are those whose dump has a
//! signal and two times: of one without signals GTKWave says `No symbols in VCD file`
//! and ends; one that has `#0` alone it shows, but its converters do not bring it back.

use second_kernel::builder::Builder;
use second_kernel::cases::{self, rounds};
use second_kernel::end;
use second_kernel::folder::Folder;
use second_kernel::gen;
use second_kernel::model::load;
use second_kernel::vcd::read::read;
use second_kernel::vcd::write::{print, settled};
use second_kernel::vcd::{alike, dump, read_back};
use std::process::Command;

/// The converters there and back: a name, the command, what comes of it, the command
/// back, and how the lines begin that it tells of its work on standard error.
const FORMATS: [(&str, &str, &str, &str, &str); 2] = [
    ("FST", "vcd2fst", "dump.fst", "fst2vcd", ""),
    ("LXT2", "vcd2lxt2", "dump.lxt2", "lxt2vcd", "LXTLOAD |"),
];

/// Runs a converter; what it prints. Err where it fails, or tells more than its work.
fn convert(folder: &Folder, program: &str, files: &[&str], work: &str) -> Result<String, String> {
    let output = Command::new(program)
        .args(files)
        .current_dir(&folder.0)
        .output()
        .map_err(|e| format!("{program}: {e}"))?;
    let told = String::from_utf8_lossy(&output.stderr).to_string();
    let complains = |line: &&str| work.is_empty() || !line.starts_with(work);
    if let Some(line) = told.lines().find(complains) {
        return Err(format!("{program} says: {line}"));
    }
    if !output.status.success() {
        return Err(format!("{program} ended with {}", output.status));
    }
    String::from_utf8(output.stdout).map_err(|e| format!("{program}: {e}"))
}

/// Takes a dump there and back in each format; how many values it was compared in.
fn through(model: &[u8], orders: &[u8]) -> Result<usize, String> {
    let m = load(model).expect("a dumped model is accepted");
    let (text, run) = (dump(model, orders)?, settled(&m, orders));
    let ours = read(&text)?;
    read_back(&ours, &m, &run)?;
    let times: Vec<u64> = run.iter().map(|row| row.0).collect();
    let folder = Folder::new()?;
    folder.put("dump.vcd", text.as_bytes())?;
    for (format, there, file, back, work) in FORMATS {
        let said = convert(&folder, there, &["dump.vcd", file], "")?;
        if there == "vcd2fst" && !said.is_empty() {
            return Err(format!("vcd2fst says: {said}"));
        }
        let text = convert(&folder, back, &[file], work)?;
        let theirs = read(&text).map_err(|e| format!("{format}: {e}"))?;
        let many = (theirs.unit, theirs.variables.len());
        if many != (ours.unit, ours.variables.len()) {
            return Err(format!("{format}: units of time and variables {many:?}"));
        }
        let names = ours.variables.iter().map(|v| v.name.clone());
        alike(&ours, &theirs, (&times, 1), names).map_err(|e| format!("{format}: {e}"))?;
    }
    Ok(FORMATS.len() * times.len() * m.signals.len())
}

/// The fixed runs.
fn fixed() -> Vec<(String, Vec<u8>, Vec<u8>)> {
    let case = |name: &str, b: &Builder, orders| (name.to_string(), b.encode(), orders);
    let (nine, integers) = (cases::nine_in_turn(), cases::integers_in_turn());
    let (longest, orders) = cases::longest_dump();
    vec![
        case("the inverter", &cases::inverter(), cases::inverter_orders()),
        case("nine values", &nine, rounds(&nine, 250, 1)),
        case("integers", &integers, rounds(&integers, 300, 1)),
        case("the longest dump", &longest, orders),
    ]
}

/// Does the dump have a signal and two times?
fn is_shown(model: &[u8], orders: &[u8]) -> bool {
    let text = print(model, orders);
    text.contains("$var ") && text.matches("\n#").count() > 1
}

fn run() -> Result<(), String> {
    let arguments: Vec<String> = std::env::args().skip(1).collect();
    let number = |n: usize, default: u64| match arguments.get(n) {
        Some(text) => text.parse().map_err(|_| format!("no number: {text}")),
        None => Ok(default),
    };
    let (n, seed) = (number(0, 50)?, number(1, 1)?);
    let random = (seed..)
        .map(|seed| (seed, gen::dump_case(seed)))
        .filter(|(_, case)| is_shown(&case.model, &case.orders))
        .map(|(seed, case)| (format!("seed {seed}"), case.model, case.orders));
    let (mut dumps, mut values) = (0, 0);
    for (name, model, orders) in fixed().into_iter().chain(random.take(n as usize)) {
        values += through(&model, &orders).map_err(|e| format!("{name}: {e}"))?;
        dumps += 1;
    }
    println!(
        "viewer: {dumps} dumps through GTKWave's FST and LXT2 and back, {values} values alike"
    );
    Ok(())
}

fn main() -> std::process::ExitCode {
    end("viewer", run())
}
