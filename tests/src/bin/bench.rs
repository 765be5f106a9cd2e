//! Picks per second, nanoseconds per advance and per logic operator of the
//! second kernel, of GHDL on the translated model and, with the feature
//! `session`, of the proved kernel, all in one run. `bench/run` builds and
//! starts it.
//!
//! Kernels play sessions of at most 4,096 orders, again and again, loading
//! included. GHDL runs two lengths of the same design; the difference takes
//! its start-up away. The three take turns; of each the best round counts.

use second_kernel::builder::Builder;
use second_kernel::cycle::{Config, READY};
use second_kernel::model::{ABSENT, BOOLEAN, INTEGER, LOGIC};
use second_kernel::session;
use second_kernel::values::{Functions, SECOND, STANDARD};
use second_kernel::vhdl;
use std::hint::black_box;
use std::process::{exit, Command};
use std::time::{Duration, Instant};

const ZERO: i32 = 2;
const ROUND: Duration = Duration::from_millis(300);
const ROUNDS: usize = 5;

/// Ends a process that has one turn: from the first statement again while the
/// count is below `turns`, then it rests. Three statements a turn.
fn again(b: &mut Builder, process: u8, count: u16, turns: i32) {
    let flag = b.variable(BOOLEAN, process, 0);
    let limit = b.integer(turns);
    let below = b.binary(14, count, limit);
    let read_flag = b.read_variable(flag);
    b.assign(flag, below);
    let rest = b.m.statements.len() as u16 + 2;
    b.unless(read_flag, rest);
    b.go(0);
    b.wait(0, ABSENT, ABSENT);
}

/// One busy process, six statements a turn, which rests after `turns`.
fn busy(turns: i32) -> Builder {
    let mut b = Builder::new();
    let p = b.process();
    let count = b.variable(INTEGER, p, 0);
    let other = b.variable(INTEGER, p, 0);
    let level = b.variable(LOGIC, p, ZERO);
    let one = b.integer(1);
    let (read_count, read_other) = (b.read_variable(count), b.read_variable(other));
    let read_level = b.read_variable(level);
    let more = b.binary(11, read_count, one);
    let less = b.binary(12, read_count, read_other);
    let turned = b.unary(6, read_level);
    b.assign(count, more);
    b.assign(other, less);
    b.assign(level, turned);
    again(&mut b, p, read_count, turns);
    b
}

/// The same with a product, a quotient, a mod and a rem, seven statements a turn.
fn dividing(turns: i32) -> Builder {
    let mut b = Builder::new();
    let p = b.process();
    let [count, product, quotient, rest] = [0; 4].map(|start| b.variable(INTEGER, p, start));
    let [one, thousand, metres] = [1, 1_000, 37].map(|k| b.integer(k));
    let (read_count, read_product) = (b.read_variable(count), b.read_variable(product));
    let more = b.binary(11, read_count, one);
    let pulses = b.binary(17, read_count, thousand);
    let times = b.binary(15, pulses, thousand);
    let divided = b.binary(16, read_product, metres);
    let left = b.binary(18, read_product, metres);
    b.assign(count, more);
    b.assign(product, times);
    b.assign(quotient, divided);
    b.assign(rest, left);
    again(&mut b, p, read_count, turns);
    b
}

/// The same with logic operators, seven statements a turn: three assign
/// `a xor b`, `not (a and c)` and `(a or b) xor c`.
fn logical(turns: i32) -> Builder {
    let mut b = Builder::new();
    let p = b.process();
    let count = b.variable(INTEGER, p, 0);
    let levels = [ZERO, ZERO + 1, ZERO].map(|start| b.variable(LOGIC, p, start));
    let one = b.integer(1);
    let read_count = b.read_variable(count);
    let more = b.binary(11, read_count, one);
    let [x, y, z] = levels.map(|v| b.read_variable(v));
    let differ = b.binary(9, x, y);
    let both = b.binary(7, x, z);
    let not_both = b.unary(6, both);
    let either = b.binary(8, x, y);
    let odd = b.binary(9, either, z);
    b.assign(count, more);
    b.assign(levels[0], differ);
    b.assign(levels[1], not_both);
    b.assign(levels[2], odd);
    again(&mut b, p, read_count, turns);
    b
}

/// A clock and fifteen processes that each assign one of so many signals on every edge.
fn clocked(signals: u16) -> Builder {
    let mut b = Builder::new();
    for _ in 0..=signals {
        b.signal(LOGIC, ZERO);
    }
    let (zero, one) = (b.integer(0), b.integer(1));
    let clock = b.read_signal(0);
    for n in 0..16u16 {
        let p = b.process();
        let target = if n == 0 { 0 } else { 1 + (n - 1) % signals };
        b.driver(p, target);
        let (value, delay) = if n == 0 {
            (b.unary(6, clock), one)
        } else {
            let before = b.read_signal(target - 1);
            (b.binary(9, before, clock), zero)
        };
        b.schedule(target, value, delay);
        b.wait(1, ABSENT, ABSENT);
    }
    b
}

/// Each a signal of its own.
fn fan() -> Builder {
    clocked(15)
}

/// Five lines, each driven by three.
fn shared() -> Builder {
    clocked(5)
}

/// The same with the standard's resolution table as its own.
fn own() -> Builder {
    let mut b = shared();
    b.table(&STANDARD);
    b
}

/// Sixteen inverters in a row. The first inverts its own output one unit
/// after the last has changed, so one process is awake in each delta step.
fn chain() -> Builder {
    let mut b = Builder::new();
    for n in 0..16 {
        b.signal(LOGIC, ZERO + n % 2);
    }
    let (zero, one) = (b.integer(0), b.integer(1));
    for n in 0..16u16 {
        let p = b.process();
        b.driver(p, n);
        let input = b.read_signal(n.saturating_sub(1));
        let turned = b.unary(6, input);
        b.schedule(n, turned, if n == 0 { one } else { zero });
        b.wait(if n == 0 { 1 << 15 } else { 1 << (n - 1) }, ABSENT, ABSENT);
    }
    b
}

/// Sixteen processes that schedule eight transactions each, at 128 different
/// times, and wait for ever: after one settle there are only advances.
fn quiet() -> Builder {
    let mut b = Builder::new();
    for _ in 0..16 {
        b.signal(LOGIC, ZERO);
    }
    let values = [b.logic(3), b.logic(2)];
    for n in 0..16u16 {
        let p = b.process();
        b.driver(p, n);
        for turn in 0..8 {
            let delay = b.integer(16 * turn + n as i32 + 1);
            b.schedule(n, values[turn as usize % 2], delay);
        }
        b.wait(0, ABSENT, ABSENT);
    }
    b
}

/// Sixteen busy processes, which never wait.
fn crowd() -> Builder {
    let mut b = Builder::new();
    let one = b.integer(1);
    for _ in 0..16 {
        let p = b.process();
        let count = b.variable(INTEGER, p, 0);
        let read = b.read_variable(count);
        let [more, less] = [11, 12].map(|kind| b.binary(kind, read, one));
        b.assign(count, more);
        b.assign(count, less);
    }
    b
}

/// The ways to make 4,096 picks of sixteen processes.
const WAYS: [(&str, fn() -> Vec<u8>); 3] = [
    ("single", || {
        (0..4_096)
            .flat_map(|n| [session::PICK, (n % 16) as u8, 0, 0])
            .collect()
    }),
    ("sets", || [session::PICK_SET, 0, 255, 255].repeat(256)),
    ("settle", || [session::SETTLE, 0, 16, 0].repeat(256)),
];

/// Nanoseconds a pick of the second and of the proved kernel, by single picks, sets of
/// sixteen and settles of sixteen picks: the kernels in turn, the best of each.
fn ways((name, orders): (&'static str, fn() -> Vec<u8>)) -> (&'static str, [Option<f64>; 2]) {
    let model = crowd().encode();
    let l = List {
        orders: orders(),
        picks: 4_096,
        advances: 0,
    };
    let mut best = [f64::MAX; 2];
    for _ in 0..ROUNDS {
        best[0] = best[0].min(time(second, &model, &l));
        if let Some(play) = PROVED {
            best[1] = best[1].min(time(play, &model, &l));
        }
    }
    let pick = |s: f64| s / l.picks as f64 * 1e9;
    (name, [Some(pick(best[0])), PROVED.map(|_| pick(best[1]))])
}

/// A list of orders with what it does.
struct List {
    orders: Vec<u8>,
    picks: u64,
    advances: u64,
}

/// Settles where a process is ready, the step that fits otherwise, up to `most` orders
/// or until a step would be refused.
fn list(b: &Builder, most: usize) -> List {
    let mut c = Config::first(&b.m);
    let mut l = List {
        orders: Vec::new(),
        picks: 0,
        advances: 0,
    };
    while l.orders.len() < 4 * most {
        if c.processes.iter().any(|p| p.standing == READY) {
            l.picks += c.settle(&b.m, 65_535).0 as u64;
            l.orders.extend([3, 0, 255, 255]);
        } else {
            let fits = c.fitting();
            if c.step(&b.m, fits).is_err() {
                break;
            }
            l.advances += 1;
            l.orders.extend(fits.order());
        }
    }
    l
}

/// Plays one session; panics if it is refused.
type Play = fn(&[u8], &[u8], &mut [u8]);

fn second(model: &[u8], orders: &[u8], answers: &mut [u8]) {
    assert_eq!(session::session(model, orders, answers).0, 0);
}

#[cfg(feature = "session")]
fn proved(model: &[u8], orders: &[u8], answers: &mut [u8]) {
    let number = second_kernel::proved::play(model, orders, answers, &mut []);
    assert_eq!(number, 0);
}

#[cfg(feature = "session")]
const PROVED: Option<Play> = Some(proved);
#[cfg(not(feature = "session"))]
const PROVED: Option<Play> = None;

#[cfg(feature = "session")]
const PROVED_VALUES: Option<Functions> = Some(second_kernel::proved::VALUES);
#[cfg(not(feature = "session"))]
const PROVED_VALUES: Option<Functions> = None;

/// Seconds of one session, from a round of many.
fn time(play: Play, model: &[u8], l: &List) -> f64 {
    let mut answers = vec![0; 4 * l.orders.len()];
    let start = Instant::now();
    let mut sessions = 0u32;
    while start.elapsed() < ROUND {
        play(model, &l.orders, &mut answers);
        sessions += 1;
    }
    let seconds = start.elapsed().as_secs_f64();
    check(l, &answers);
    seconds / sessions as f64
}

/// Every order done, and as many picks as the list was made with.
fn check(l: &List, answers: &[u8]) {
    let mut picks = 0;
    for a in answers.chunks_exact(16) {
        assert_eq!(a[0], 0, "an order was refused");
        picks += u16::from_le_bytes([a[2], a[3]]) as u64;
    }
    assert_eq!(picks, l.picks, "picks of the session");
}

/// Seconds of GHDL on a text, up to a time.
fn ghdl(text: &str, stop: u64) -> f64 {
    let dir = std::env::temp_dir().join(format!("bench-{}", std::process::id()));
    std::fs::create_dir_all(&dir).expect("a folder for GHDL's files");
    let file = dir.join("top.vhd");
    std::fs::write(&file, text).expect("GHDL's file");
    let start = Instant::now();
    let out = Command::new("ghdl")
        .args(["-c", "--std=93"])
        .arg(format!("--workdir={}", dir.display()))
        .arg(&file)
        .args(["-r", "top"])
        .arg(format!("--stop-time={stop}ns"))
        .output();
    let seconds = start.elapsed().as_secs_f64();
    let _ = std::fs::remove_dir_all(&dir);
    match out {
        Ok(o) if o.status.success() => seconds,
        Ok(o) => {
            eprintln!("bench: GHDL: {}", String::from_utf8_lossy(&o.stderr));
            exit(1)
        }
        Err(e) => {
            eprintln!("bench: ghdl: {e}");
            exit(1)
        }
    }
}

/// A design of a given length: turns of a loop, or units of time.
struct Design {
    name: &'static str,
    build: fn(u64) -> Builder,
    stop: fn(u64) -> u64,
    /// Orders of a kernel's session.
    orders: usize,
    /// GHDL's longer length; the shorter is a tenth of it.
    long: u64,
}

const DESIGNS: [Design; 7] = [
    Design {
        name: "loop",
        build: |n| busy(n as i32),
        stop: |_| 0,
        orders: 32,
        long: 10_000_000,
    },
    Design {
        name: "divide",
        build: |n| dividing(n as i32),
        stop: |_| 0,
        orders: 32,
        long: 10_000_000,
    },
    Design {
        name: "logic",
        build: |n| logical(n as i32),
        stop: |_| 0,
        orders: 32,
        long: 10_000_000,
    },
    Design {
        name: "fan",
        build: |_| fan(),
        stop: |n| n,
        orders: 4_096,
        long: 500_000,
    },
    Design {
        name: "shared",
        build: |_| shared(),
        stop: |n| n,
        orders: 4_096,
        long: 500_000,
    },
    Design {
        name: "own",
        build: |_| own(),
        stop: |n| n,
        orders: 4_096,
        long: 500_000,
    },
    Design {
        name: "chain",
        build: |_| chain(),
        stop: |n| n,
        orders: 4_096,
        long: 250_000,
    },
];

/// Picks and advances of a design's length, counted on the second kernel.
fn work(d: &Design, length: u64) -> [f64; 2] {
    let (b, stop) = ((d.build)(length), (d.stop)(length));
    let mut c = Config::first(&b.m);
    let mut done = [0.0; 2];
    loop {
        while let (picks @ 1.., _) = c.settle(&b.m, 65_535) {
            done[0] += picks as f64;
        }
        if c.time > stop || c.step(&b.m, c.fitting()).is_err() {
            return done;
        }
        done[1] += 1.0;
    }
}

/// One row: millions of picks per second and nanoseconds per advance, of the
/// second kernel, GHDL and the proved kernel.
struct Row {
    name: &'static str,
    rates: [Option<f64>; 3],
    advances: [Option<f64>; 3],
}

/// Measures a design: the three in turn in each round, the best of each.
fn measure(d: &Design) -> Row {
    let b = (d.build)(i32::MAX as u64);
    let (model, l) = (b.encode(), list(&b, d.orders));
    let short = d.long / 10;
    let lengths = [d.long, short].map(|n| {
        (
            vhdl::translate(&(d.build)(n).m, vhdl::Form::Bare),
            (d.stop)(n),
        )
    });
    let mut best = [f64::MAX; 4];
    for _ in 0..ROUNDS {
        best[0] = best[0].min(time(second, &model, &l));
        best[1] = best[1].min(ghdl(&lengths[0].0, lengths[0].1));
        best[2] = best[2].min(ghdl(&lengths[1].0, lengths[1].1));
        if let Some(play) = PROVED {
            best[3] = best[3].min(time(play, &model, &l));
        }
    }
    let (more, less) = (work(d, 2_000), work(d, 1_000));
    let [picks, advances] = [0, 1].map(|n| (more[n] - less[n]) / 1_000.0);
    let turn = (best[1] - best[2]) / (d.long - short) as f64;
    let rate = |s: f64| l.picks as f64 / s / 1e6;
    let step = |s: f64| (l.advances > 0).then(|| s / l.advances as f64 * 1e9);
    let theirs = PROVED.map(|_| best[3]);
    Row {
        name: d.name,
        rates: [
            Some(rate(best[0])),
            Some(picks / turn / 1e6),
            theirs.map(rate),
        ],
        advances: [
            step(best[0]),
            (advances > 0.0).then(|| turn / advances * 1e9),
            theirs.and_then(step),
        ],
    }
}

/// Nanoseconds of an advance alone: a list less its first settle.
fn alone(play: Play) -> f64 {
    let b = quiet();
    let model = b.encode();
    let (all, settle) = (list(&b, 4_096), list(&b, 1));
    assert_eq!((all.advances, settle.advances), (256, 0));
    let mut best = [f64::MAX; 2];
    for _ in 0..ROUNDS {
        best[0] = best[0].min(time(play, &model, &all));
        best[1] = best[1].min(time(play, &model, &settle));
    }
    (best[0] - best[1]) / all.advances as f64 * 1e9
}

/// Names of the logic operators, with their VHDL for operands x and y.
const OPERATORS: [(&str, &str); 4] = [
    ("not", "not x"),
    ("and", "x and y"),
    ("or", "x or y"),
    ("xor", "x xor y"),
];

/// Nanoseconds of a call of one operator, over all pairs of codes.
fn operator(k: &Functions, name: &str) -> f64 {
    match name {
        "not" => calls(|x, _| (k.not)(x)),
        "and" => calls(k.and),
        "or" => calls(k.or),
        _ => calls(k.xor),
    }
}

fn calls(call: impl Fn(u32, u32) -> u32) -> f64 {
    let start = Instant::now();
    let mut done = 0u32;
    while start.elapsed() < ROUND / 3 {
        for _ in 0..100 {
            for x in 0..9 {
                for y in 0..9 {
                    black_box(call(black_box(x), black_box(y)));
                }
            }
        }
        done += 8_100;
    }
    start.elapsed().as_secs_f64() / done as f64 * 1e9
}

/// The same loop in VHDL, `turns` times over all pairs.
fn operator_text(expression: &str, turns: u32) -> String {
    format!(
        "library ieee; use ieee.std_logic_1164.all;
entity top is end top;
architecture a of top is begin
  process
    variable r : std_ulogic;
  begin
    for turn in 1 to {turns} loop
      for x in std_ulogic loop
        for y in std_ulogic loop
          r := {expression};
        end loop;
      end loop;
    end loop;
    wait;
  end process;
end a;
"
    )
}

/// Nanoseconds a logic operator of the second kernel, GHDL and the proved
/// kernel: the three in turn in each round, the best of each.
fn operators((name, expression): (&'static str, &str)) -> (&'static str, [Option<f64>; 3]) {
    const LONG: u32 = 500_000;
    const SHORT: u32 = LONG / 10;
    let texts = [LONG, SHORT].map(|turns| operator_text(expression, turns));
    let mut best = [f64::MAX; 4];
    for _ in 0..ROUNDS {
        best[0] = best[0].min(operator(&SECOND, name));
        best[1] = best[1].min(ghdl(&texts[0], 0));
        best[2] = best[2].min(ghdl(&texts[1], 0));
        if let Some(k) = &PROVED_VALUES {
            best[3] = best[3].min(operator(k, name));
        }
    }
    let theirs = (best[1] - best[2]) / (81 * (LONG - SHORT)) as f64 * 1e9;
    let proved = PROVED_VALUES.map(|_| best[3]);
    (name, [Some(best[0]), Some(theirs), proved])
}

fn cell(x: Option<f64>, places: usize) -> String {
    x.map_or("-".to_string(), |x| format!("{x:.places$}"))
}

fn main() {
    let rows = DESIGNS.map(|d| measure(&d));
    let (own, theirs) = (Some(alone(second)), PROVED.map(alone));
    println!("        million picks per second     proved kernel     nanoseconds per advance");
    println!("design    second     GHDL   proved   /second   /GHDL   second     GHDL   proved");
    for r in &rows {
        let ratio = |n: usize| cell(r.rates[2].zip(r.rates[n]).map(|(p, x)| p / x), 3);
        let rates = r.rates.map(|x| cell(x, 2));
        let steps = r.advances.map(|x| cell(x, 0));
        println!(
            "{:7} {:>8} {:>8} {:>8}  {:>8} {:>7} {:>8} {:>8} {:>8}",
            r.name,
            rates[0],
            rates[1],
            rates[2],
            ratio(0),
            ratio(1),
            steps[0],
            steps[1],
            steps[2]
        );
    }
    let steps = [own, None, theirs].map(|x| cell(x, 0));
    println!(
        "{:52} {:>8} {:>8} {:>8}",
        "quiet", steps[0], steps[1], steps[2]
    );
    println!(
        "fan, shared, own, chain: an advance with the picks after it; quiet: an advance alone"
    );
    println!("own: shared with the standard's resolution table as its own");
    println!();
    println!("nanoseconds a pick of sixteen busy processes: single picks, sets of all, settles of sixteen");
    println!("way       second   proved");
    for (name, times) in WAYS.map(ways) {
        let [own, proved] = times.map(|x| cell(x, 1));
        println!("{name:7} {own:>8} {proved:>8}");
    }
    println!();
    println!("nanoseconds a logic operator, over all pairs of codes, the loop included");
    for (name, times) in OPERATORS.map(operators) {
        let [own, theirs, proved] = times.map(|x| cell(x, 2));
        println!("{name:7} {own:>8} {theirs:>8} {proved:>8}");
    }
}
