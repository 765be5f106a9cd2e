//! Holds product, quotient, mod and rem of many operand pairs by GHDL against the
//! second kernel and, with the feature `session`, against the proved one:
//!
//!     arithmetic [N [SEED]]    N pairs, by default 200,000 from seed 1
//!
//! A kernel gets each operator on two constants in an assignment to a variable of
//! its own, in models as full as can be: 64 that are done, or 16 with a fault, one
//! a process. The variables, faults and places of the end configuration tell what
//! came out. GHDL is not asked for products out of range and divisions by 0: they
//! must have fault 1 and 4. The exit code is 1 on any difference, where an operator
//! is done on fewer than 100,000 pairs, and where a sort of pairs does not occur.

use second_kernel::builder::Builder;
use second_kernel::cases::{orders, SETTLE};
use second_kernel::dump::{dump, place_and_fault, variable, DUMP};
use second_kernel::integers::{ARITHMETIC, PRODUCT, QUOTIENT, TOP};
use second_kernel::model::{ABSENT, INTEGER};
use second_kernel::numbers::Counts;
use second_kernel::{end, operands, session, tally};
use std::fs;
use std::process::{Command, ExitCode};

const DESIGN: &str = include_str!("../../ghdl/arithmetic.vhd");

/// Fewer pairs on which an operator is done are an error.
const LEAST: u64 = 100_000;

const END: i64 = TOP as i64;

/// Sorts of pairs, each of which must occur.
const SORTS: &[(&str, fn(i64, i64) -> bool)] = &[
    ("a above 0, b above 0", |a, b| a > 0 && b > 0),
    ("a above 0, b below 0", |a, b| a > 0 && b < 0),
    ("a below 0, b above 0", |a, b| a < 0 && b > 0),
    ("a below 0, b below 0", |a, b| a < 0 && b < 0),
    ("a is 0", |a, b| a == 0 && b != 0),
    ("b is 0", |a, b| a != 0 && b == 0),
    ("both are 0", |a, b| a == 0 && b == 0),
    ("b is 1", |_, b| b == 1),
    ("b is -1", |_, b| b == -1),
    ("a is the upper end", |a, _| a == END),
    ("a is the lower end", |a, _| a == -END),
    ("b is the upper end", |_, b| b == END),
    ("b is the lower end", |_, b| b == -END),
    ("both are ends", |a, b| a.abs() == END && b.abs() == END),
    ("an end and -1", |a, b| a.abs() == END && b == -1),
    ("b divides a", |a, b| b.abs() > 1 && a != 0 && a % b == 0),
    ("mod and rem differ", |a, b| b != 0 && a % b * b < 0),
    ("the product is an end", |a, b| (a * b).abs() == END),
    ("the product is just inside", |a, b| {
        (END - 100_000..END).contains(&(a * b).abs())
    }),
    ("the product is one past the upper end", |a, b| {
        a * b == END + 1
    }),
    ("the product is one past the lower end", |a, b| {
        a * b == -END - 1
    }),
    ("the product is above the range", |a, b| a * b > END),
    ("the product is below the range", |a, b| a * b < -END),
];

/// An operator on two operands, and what must come out.
#[derive(Clone, Copy)]
struct Operation {
    kind: u8,
    a: i32,
    b: i32,
    expected: Result<i32, u8>,
}

/// A variable's value and a fault, or 0.
type Found = (i32, u8);

impl Operation {
    /// Where its variable starts: not at the value that it is to have.
    fn start(&self) -> i32 {
        (self.expected == Ok(0)) as i32
    }

    /// What must be found: a fault leaves the variable at its start.
    fn due(&self) -> Found {
        match self.expected {
            Ok(value) => (value, 0),
            Err(fault) => (self.start(), fault),
        }
    }

    fn show(&self, kernel: &str, (value, fault): Found) -> String {
        let name = ["*", "/", "mod", "rem"][(self.kind - PRODUCT) as usize];
        let ((a, b), (right, right_fault)) = ((self.a, self.b), self.due());
        format!("{a} {name} {b}: {kernel} {value}, fault {fault}; due {right}, fault {right_fault}")
    }
}

/// The fault of an operator.
fn fault(kind: u8, a: i32, b: i32) -> Option<u8> {
    match kind {
        PRODUCT => ((a as i64 * b as i64).abs() > END).then_some(1),
        _ => (b == 0).then_some(4),
    }
}

/// GHDL's results for the four kinds; none where it is not asked.
type Results = [Option<i32>; 4];

fn parse(line: &str) -> Option<Results> {
    let number = |word: &str| match word {
        "-" => Some(None),
        _ => word.parse().ok().map(Some),
    };
    let words: Option<Vec<Option<i32>>> = line.split(' ').map(number).collect();
    words?.try_into().ok()
}

/// Gives the pairs to GHDL.
fn ghdl(pairs: &[(i32, i32)]) -> Result<Vec<Results>, String> {
    let dir = std::env::temp_dir().join(format!("arithmetic-{}", std::process::id()));
    let result = fs::create_dir_all(&dir)
        .map_err(|e| e.to_string())
        .and_then(|()| ghdl_in(&dir, pairs));
    let _ = fs::remove_dir_all(&dir);
    result
}

fn ghdl_in(dir: &std::path::Path, pairs: &[(i32, i32)]) -> Result<Vec<Results>, String> {
    let line = |&(a, b): &(i32, i32)| {
        let [p, d] = [PRODUCT, QUOTIENT].map(|kind| fault(kind, a, b).is_none() as u8);
        format!("{a} {b} {p} {d}\n")
    };
    let lines: String = pairs.iter().map(line).collect();
    let (design, given) = (dir.join("arithmetic.vhd"), dir.join("pairs"));
    let written = fs::write(&design, DESIGN).and_then(|()| fs::write(&given, lines));
    let out = written
        .and_then(|()| fs::File::open(&given))
        .and_then(|given| {
            Command::new("ghdl")
                .args(["-c", "--std=93"])
                .arg(format!("--workdir={}", dir.display()))
                .arg(&design)
                .args(["-r", "arithmetic"])
                .stdin(given)
                .output()
        })
        .map_err(|e| format!("ghdl: {e}"))?;
    if !out.status.success() {
        return Err(format!("GHDL: {}", String::from_utf8_lossy(&out.stderr)));
    }
    let said = String::from_utf8_lossy(&out.stdout);
    let lines = said.lines();
    lines
        .map(|l| parse(l).ok_or(format!("cannot read GHDL's line: {l}")))
        .collect()
}

/// All operators on the pairs, with GHDL's results and the faults.
fn operations(pairs: &[(i32, i32)]) -> Result<Vec<Operation>, String> {
    let results = ghdl(pairs)?;
    if results.len() != pairs.len() {
        return Err(format!("GHDL: {} lines", results.len()));
    }
    let mut list = vec![];
    for (&(a, b), results) in pairs.iter().zip(results) {
        for (kind, result) in ARITHMETIC.into_iter().zip(results) {
            let expected = match (fault(kind, a, b), result) {
                (None, Some(value)) => Ok(value),
                (Some(fault), None) => Err(fault),
                _ => return Err(format!("GHDL: wrong line for {a} and {b}")),
            };
            list.push(Operation {
                kind,
                a,
                b,
                expected,
            });
        }
    }
    Ok(list)
}

/// Statements of a process with so many operations, and a wait.
fn span(each: usize) -> usize {
    each + 1
}

/// A model that works out the operations, so many in each process.
fn model(list: &[Operation], each: usize) -> Vec<u8> {
    let mut b = Builder::new();
    for some in list.chunks(each) {
        let process = b.process();
        for o in some {
            let v = b.variable(INTEGER, process, o.start());
            let (x, y) = (b.integer(o.a), b.integer(o.b));
            let node = b.binary(o.kind, x, y);
            b.assign(v, node);
        }
        b.wait(0, ABSENT, ABSENT);
    }
    b.encode()
}

/// Plays a session: the end configuration's dump, or why there is none.
type Play = fn(&[u8], &[u8], &mut [u8]) -> Result<[u8; DUMP], String>;

fn second(model: &[u8], orders: &[u8], answers: &mut [u8]) -> Result<[u8; DUMP], String> {
    match session::session(model, orders, answers) {
        (0, config) => Ok(dump(&config)),
        (number, _) => Err(format!("the second kernel refuses a session: {number}")),
    }
}

#[cfg(feature = "session")]
fn proved(model: &[u8], orders: &[u8], answers: &mut [u8]) -> Result<[u8; DUMP], String> {
    let mut dump = [0; DUMP];
    match second_kernel::proved::session(model, orders, answers, &mut dump)? {
        0 => Ok(dump),
        number => Err(format!("the proved kernel refuses a session: {number}")),
    }
}

const KERNELS: &[(&str, Play)] = &[
    ("second kernel", second),
    #[cfg(feature = "session")]
    ("proved kernel", proved),
];

/// What came out of operation n, by the end configuration: its variable, and the
/// fault if its process stopped there.
fn found(n: usize, each: usize, dump: &[u8; DUMP]) -> Found {
    let process = n / each;
    let statement = process * span(each) + n % each;
    let (place, fault) = place_and_fault(dump, process);
    let here = place as usize == statement;
    (variable(dump, n), if here { fault } else { 0 })
}

/// Plays the operations on a kernel, so many in a process of each model; the
/// differences.
fn differences(
    (name, play): (&str, Play),
    list: &[Operation],
    each: usize,
) -> Result<Vec<String>, String> {
    let orders = orders(&[(SETTLE, 0, 1_000)]);
    let mut wrong = vec![];
    for some in list.chunks(16 * each) {
        let dump = play(&model(some, each), &orders, &mut [0; 16])?;
        for (n, o) in some.iter().enumerate() {
            let found = found(n, each, &dump);
            if found != o.due() {
                wrong.push(o.show(name, found));
            }
        }
    }
    Ok(wrong)
}

fn count(pairs: &[(i32, i32)]) -> Counts<&'static str> {
    let mut counts = Counts::default();
    for &(a, b) in pairs {
        for (name, fits) in SORTS {
            if fits(a as i64, b as i64) {
                counts.add(*name);
            }
        }
    }
    counts
}

/// All differences of all kernels.
fn compare(done: &[Operation], faults: &[Operation]) -> Result<(), String> {
    let mut wrong = vec![];
    for &kernel in KERNELS {
        wrong.extend(differences(kernel, done, 4)?);
        wrong.extend(differences(kernel, faults, 1)?);
    }
    for line in wrong.iter().take(10) {
        println!("{line}");
    }
    match wrong.len() {
        0 => Ok(()),
        many => Err(format!("{many} operations differ")),
    }
}

/// Operations by node kind.
fn by_kind(list: &[Operation]) -> Counts {
    let mut counts = Counts::default();
    for o in list {
        counts.add(o.kind as u32);
    }
    counts
}

fn run() -> Result<(), String> {
    let arguments: Vec<String> = std::env::args().skip(1).collect();
    let number = |n: usize, default: u64| match arguments.get(n) {
        Some(text) => text.parse().map_err(|_| "use: arithmetic [N [SEED]]"),
        None => Ok(default),
    };
    let pairs = operands::pairs(number(0, 200_000)? as usize, number(1, 1)?);
    let sorts: Vec<&str> = SORTS.iter().map(|s| s.0).collect();
    let counts = count(&pairs);
    tally::print_shown("operand pairs", &counts, &sorts);
    let list = operations(&pairs)?;
    let (done, faults): (Vec<Operation>, Vec<Operation>) =
        list.iter().partition(|o| o.expected.is_ok());
    let kinds = ARITHMETIC.map(u32::from);
    let (kinds_done, kinds_faults) = (by_kind(&done), by_kind(&faults));
    println!("node kind        done    faults");
    for kind in kinds {
        println!(
            "{kind:9} {:11} {:9}",
            kinds_done.of(kind),
            kinds_faults.of(kind)
        );
    }
    compare(&done, &faults)?;
    counts.require("pairs:", &sorts, 1)?;
    kinds_done.require("node kind", &kinds, LEAST)?;
    kinds_faults.require("a fault of node kind", &kinds, 1)?;
    let names: Vec<&str> = KERNELS.iter().map(|k| k.0).collect();
    println!(
        "arithmetic: no difference in {} operand pairs, {} operations: GHDL, {}",
        pairs.len(),
        list.len(),
        names.join(", ")
    );
    Ok(())
}

fn main() -> ExitCode {
    end("arithmetic", run())
}

#[cfg(test)]
mod tests {
    use super::*;
    use second_kernel::cases;

    /// The bench's products and divisions, with a fault or without.
    fn bench(fault: bool) -> Vec<Operation> {
        let list = cases::operations().into_iter();
        list.filter(|(o, result)| ARITHMETIC.contains(&o.1) && result.is_err() == fault)
            .map(|((a, kind, b), expected)| Operation {
                kind,
                a,
                b,
                expected,
            })
            .collect()
    }

    fn second_differs(list: &[Operation], each: usize) -> Vec<String> {
        differences(("second kernel", second), list, each).unwrap()
    }

    #[test]
    fn the_bench_agrees() {
        assert!(bench(false).len() > 64 && bench(true).len() > 16);
        assert!(second_differs(&bench(false), 4).is_empty());
        assert!(second_differs(&bench(true), 1).is_empty());
    }

    #[test]
    fn each_operation_is_looked_at() {
        for (fault, each) in [(false, 4), (true, 1)] {
            for n in 0..bench(fault).len() {
                let mut list = bench(fault);
                list[n].expected = match list[n].expected {
                    Ok(value) => Ok(value ^ 1),
                    Err(1) => Err(4),
                    Err(_) => Err(1),
                };
                let told = second_differs(&list, each);
                assert_eq!(told.len(), 1, "{told:?}");
                let start = format!("{} ", list[n].a);
                assert!(told[0].starts_with(&start), "{told:?}");
            }
        }
    }

    #[test]
    fn a_fault_in_place_of_a_value_is_found() {
        let mut list = bench(false);
        let by_zero = bench(true).pop().unwrap();
        list[5] = Operation {
            expected: Ok(3),
            ..by_zero
        };
        // Those behind it in the process are not worked out either.
        let told = second_differs(&list, 4);
        assert_eq!(told.len(), 3, "{told:?}");
        assert!(told[0].contains("fault 4; due 3, fault 0"), "{told:?}");
    }

    #[test]
    fn lines() {
        assert_eq!(parse("6 -1 0 2"), Some([6, -1, 0, 2].map(Some)));
        assert_eq!(parse("- 1 2 3"), Some([None, Some(1), Some(2), Some(3)]));
        for wrong in ["", "1 2 3", "1 2 3 4 5", "1 2 3 x", "1  2 3 4"] {
            assert_eq!(parse(wrong), None, "{wrong}");
        }
    }
}
