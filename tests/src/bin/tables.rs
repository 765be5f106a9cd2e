//! Holds GHDL's printed tables of the nine values against a kernel's.
//!
//!     tables second FILE     the second kernel's `values`
//!     tables proved FILE     the proved kernel (cargo feature `proved`)
//!
//! FILE is what `ghdl/tables.sh` writes. Every entry must stand there once,
//! no other line, and each must agree; and the operators must read a number
//! above 8 as X. Else the exit code is 1.

use second_kernel::values::{self, Functions};
use std::process::exit;

const X: u32 = values::X as u32;

/// Name and number of operands of each kind of line.
const KINDS: [(&str, usize); 7] = [
    ("resolve1", 1),
    ("resolve", 2),
    ("resolve3", 3),
    ("not", 1),
    ("and", 2),
    ("or", 2),
    ("xor", 2),
];

#[cfg(feature = "proved")]
fn proved() -> Functions {
    second_kernel::proved::VALUES
}

#[cfg(not(feature = "proved"))]
fn proved() -> Functions {
    eprintln!("tables: built without the feature `proved`");
    exit(2)
}

/// What the kernel gives for one line.
fn apply(k: &Functions, name: &str, v: &[u8]) -> u32 {
    let code = |n: usize| v[n] as u32;
    match name {
        "not" => (k.not)(code(0)),
        "and" => (k.and)(code(0), code(1)),
        "or" => (k.or)(code(0), code(1)),
        "xor" => (k.xor)(code(0), code(1)),
        _ => (k.resolve)(v),
    }
}

/// A line's kind, operands and result.
fn parse(line: &str) -> Option<(usize, Vec<u8>, u32)> {
    let mut words = line.split(' ');
    let name = words.next()?;
    let kind = KINDS.iter().position(|k| k.0 == name)?;
    let mut codes = Vec::new();
    for w in words {
        codes.push(w.parse::<u8>().ok().filter(|&c| c <= 8)?);
    }
    let result = codes.pop()?;
    (codes.len() == KINDS[kind].1).then_some((kind, codes, result as u32))
}

/// Compares every line; the lines of each kind on success.
fn compare(text: &str, k: &Functions) -> Result<[usize; 7], String> {
    let mut seen: [Vec<bool>; 7] = KINDS.map(|(_, n)| vec![false; 9usize.pow(n as u32)]);
    for line in text.lines() {
        let (kind, v, printed) = parse(line).ok_or(format!("cannot read line: {line}"))?;
        let place = v.iter().fold(0, |p, &c| 9 * p + c as usize);
        if std::mem::replace(&mut seen[kind][place], true) {
            return Err(format!("line twice: {line}"));
        }
        let ours = apply(k, KINDS[kind].0, &v);
        if ours != printed {
            return Err(format!("GHDL: {line}, kernel: {ours}"));
        }
    }
    for (kind, s) in seen.iter().enumerate() {
        let have = s.iter().filter(|&&b| b).count();
        if have != s.len() {
            return Err(format!("{}: {have} lines of {}", KINDS[kind].0, s.len()));
        }
    }
    Ok(seen.map(|s| s.len()))
}

/// Numbers above 8: those of a byte and a little more, and each code with one bit more.
fn above() -> Vec<u32> {
    let small = 9..300;
    let high = (4..32).flat_map(|bit| (0..9).map(move |code| (1u32 << bit) + code));
    small.chain(high).chain([u32::MAX]).collect()
}

/// Holds what the operators make of numbers above 8 against what they make
/// of X; how many they were on success.
fn compare_above(k: &Functions) -> Result<usize, String> {
    let pairs = [("and", k.and), ("or", k.or), ("xor", k.xor)];
    let numbers = above();
    for &n in &numbers {
        if (k.not)(n) != (k.not)(X) {
            return Err(format!("not {n} is not as not X"));
        }
        for (name, f) in pairs {
            for y in (0..9).chain([n]) {
                let read = if y == n { X } else { y };
                if f(n, y) != f(X, read) || f(y, n) != f(read, X) {
                    return Err(format!("{name} of {n} and {y} is not as of X"));
                }
            }
        }
    }
    Ok(numbers.len())
}

fn main() {
    let args: Vec<String> = std::env::args().skip(1).collect();
    let kernel = match args.first().map(String::as_str) {
        Some("second") if args.len() == 2 => values::SECOND,
        Some("proved") if args.len() == 2 => proved(),
        _ => {
            eprintln!("usage: tables second|proved FILE");
            exit(2)
        }
    };
    let text = std::fs::read_to_string(&args[1]).unwrap_or_else(|e| {
        eprintln!("tables: {}: {e}", args[1]);
        exit(2)
    });
    let above = compare_above(&kernel);
    match compare(&text, &kernel).and_then(|counts| Ok((counts, above?))) {
        Ok((counts, numbers)) => {
            let parts: Vec<String> = KINDS
                .iter()
                .zip(counts)
                .map(|(k, n)| format!("{} {n}", k.0))
                .collect();
            println!(
                "tables {}: {} lines agree ({}), {numbers} numbers above 8 read as X",
                args[0],
                counts.iter().sum::<usize>(),
                parts.join(", ")
            );
        }
        Err(e) => {
            println!("tables {}: {e}", args[0]);
            exit(1)
        }
    }
}
