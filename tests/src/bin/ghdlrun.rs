//! Plays random models on a kernel and, translated, on GHDL, and compares
//! every signal's settled value at every time. With the feature `session` the
//! values are those that the proved kernel reads out, else the second kernel's;
//! the orders are chosen, and the end is named, by the second kernel.
//!
//!     ghdlrun N [SEED]             N lively models from SEED on (default 200
//!                                  from 1), in which a signal changes, all
//!                                  others between them, the delta limit,
//!                                  sixteen processes on a line, and a body in
//!                                  text for each five of the lively models
//!     ghdlrun N SEED FROM TO       the same with FROM replaced by TO in each
//!                                  translation: differences are expected
//!     ghdlrun show SEED            one model's translation and its run
//!     ghdlrun show text SEED       the same of a body in text
//!
//! Each accepted model is played, by settles, sets and picks, until nothing is due (or 60
//! time steps), or up to the time at which it faults, passes 1,000 delta steps or has a process
//! that never waits. GHDL must show the same changes of settled values and the
//! same end: a failure at that time, or a stop by `--stop-delta`. Fault 3 is
//! foreign to VHDL: such a run is compared up to the time before, and left out
//! if no signal changes before. Where GHDL may fail by itself (`vhdl`) and does, the
//! changes before that are compared. The exit code is 1 on any difference, where too few
//! models that GHDL played to their end show what the features of document 02 do before
//! their last settled values, where GHDL failed in more than one model of ten, and with
//! the feature `session` also where the proved kernel played too few: a run of more than
//! 4,096 orders is the second kernel's, one lively model in ten at most.
//!
//! GHDL also writes a dump of its run (`--vcd`), which is read beside the kernel's own (the
//! proved kernel's with the feature `dumps`): where GHDL came to its end, every signal must
//! have the same value in both at each time of the run. GHDL's unit is 1 fs; it writes
//! std_logic with the nine letters, not as IEEE 1364 has four states, so these are mapped as
//! document 02, item 7, says before it is read: U W - to x, L to 0, H to 1. Each of the nine
//! must occur. Integers are 32 bits in both; what else GHDL's dump has (delayed signals) is
//! left aside.
//!
//! A body in text becomes a process of VHDL by its own statements (`body::vhdl`), and the
//! kernel plays the model that is made of text and given records, by the proved maker with
//! the feature `bodies`. These have three changes of settled values at least.

use second_kernel::body::gen::{body_of, given_records, setting, Style};
use second_kernel::body::records::given;
use second_kernel::body::spell::{pieces, set};
use second_kernel::body::tree::{Body, Expression, Statement};
use second_kernel::body::{self, whole};
use second_kernel::builder::Builder;
use second_kernel::cycle::{Config, Step, DELTA_LIMIT, NINTH, READY, TIME_LIMIT};
use second_kernel::features::{
    self, arithmetic, delay_zero, inertial, nulls, own_table, pick_set, Seen, FEATURES,
};
use second_kernel::gen::{self, order, set_of, tables};
use second_kernel::model::{self, Model, ABSENT, BUS, INTEGER, LOGIC, PLAIN, REGISTER};
use second_kernel::numbers::Counts;
use second_kernel::rng::Rng;
use second_kernel::session::{PICK, PICK_SET, SETTLE};
use second_kernel::tally;
use second_kernel::values::LETTERS;
use second_kernel::vcd::read::{read, Waves};
use second_kernel::vcd::{self, FOUR_STATES};
use second_kernel::vhdl::{self, Form};
use std::collections::{BTreeMap, BTreeSet};
use std::path::{Path, PathBuf};
use std::process::{exit, Command};
use std::sync::atomic::{AtomicUsize, Ordering};
use std::sync::Mutex;

const TIME_STEPS: usize = 60;
/// Picks in one settling after which some process is taken never to wait:
/// then one has made the number that the translation allows.
const PICKS: usize = 16 * vhdl::STEPS;
/// Orders of a list up to which some picks are made by sets.
const WITH_SETS: usize = 1_000;

/// What many models must show: nulls that come due in one lively model of five,
/// operators that are done in one of ten, a delay of 0 that the current value would not
/// tell in one of fifty, an inertial assignment that removes an unmarked transaction in one
/// of ten, sets of several processes in one of five, and by the model's own resolution table
/// values other than the standard's, of two, of three and of more, each in one of twenty.
const OFTEN: [(&[&str], u64); 6] = [
    (&nulls::DUE, 5),
    (&arithmetic::OPERATORS, 10),
    (&delay_zero::TOLD, 50),
    (&[inertial::REMOVED], 10),
    (&pick_set::SEVERAL, 5),
    (&own_table::TOLD, 20),
];

/// One body in text for so many lively models.
const TEXTS: usize = 5;

/// What bodies in text must have, each one in ten of them.
const PARTS: [&str; 11] = [
    "null",
    "v := e",
    "s <= e after e",
    "if",
    "while",
    "wait on",
    "wait until",
    "wait until without on",
    "wait for",
    "(s delayed k)",
    "a bus or a register",
];

/// Signal values at a time.
type Row = (u64, Vec<i32>);

/// Why a run ended.
#[derive(Clone, Copy, Debug, PartialEq, Eq, PartialOrd, Ord)]
enum End {
    NothingDue,
    TimeSteps,
    DeltaSteps,
    NoWait,
    Fault,
    Ninth,
}

/// A run of the second kernel.
struct Run {
    /// The first values, then the settled ones at each time.
    rows: Vec<Row>,
    /// The orders of the run, with reads of all signals where a row is taken.
    orders: Vec<[u8; 4]>,
    /// What it shows of the features up to the last row.
    shown: Seen,
    end: End,
    /// The time up to which GHDL is to run, and the delta cycles of a time that it may
    /// make.
    stop: u64,
    cycles: u32,
    /// GHDL may fail by itself.
    breaks: bool,
}

/// Makes some of the picks by sets of ready processes, one of them alone behind a set.
fn pick_sets(c: &mut Config, m: &Model, orders: &mut Vec<[u8; 4]>, rng: &mut Rng) {
    for _ in 0..rng.range(1, 3) {
        let drawn = rng.next() as u16;
        let set = set_of(&c.standing(READY)) & rng.choose(&[u16::MAX, drawn]);
        c.pick_set(m, set).expect("its processes are ready");
        orders.push(order(PICK_SET, 0, set));
        let again = c.lowest_ready().filter(|_| rng.chance(1, 4));
        if let Some(p) = again {
            c.pick(m, p).expect("it is ready");
            orders.push(order(PICK, p as u8, 0));
        }
    }
}

/// Settles, by sets before anything else and then half the time; false if some process is
/// still ready after many picks.
fn settle(c: &mut Config, m: &Model, orders: &mut Vec<[u8; 4]>, rng: &mut Rng) -> bool {
    let first = c.time == 0 && c.delta == 0;
    if orders.len() < WITH_SETS && (first || rng.chance(1, 2)) {
        pick_sets(c, m, orders, rng);
        if c.lowest_ready().is_none() {
            return true;
        }
    }
    let mut picks = 0;
    while picks < PICKS {
        let (made, ready) = c.settle(m, 1_000);
        orders.push(order(SETTLE, 0, 1_000));
        picks += made as usize;
        if !ready {
            return true;
        }
    }
    false
}

fn run(m: &Model) -> Run {
    let mut c = Config::first(m);
    let rng = &mut Rng::new(m.statements.len() as u64);
    let mut rows = vec![(0, c.current())];
    let reads: Vec<[u8; 4]> = (0..rows[0].1.len()).map(|s| [4, s as u8, 0, 0]).collect();
    let mut orders = reads.clone();
    let mut compared = 0;
    let mut cycles = DELTA_LIMIT;
    let end = loop {
        if !settle(&mut c, m, &mut orders, rng) {
            break End::NoWait;
        }
        let (time, row) = (c.time, c.current());
        let last = c.delta == DELTA_LIMIT;
        let fits = c.fitting();
        if orders.len() < WITH_SETS && rng.chance(1, 4) {
            // Refused, so that nothing comes of it.
            orders.push(fits.other().order());
        }
        let step = c.step(m, fits).map(|()| fits);
        if last && step != Err(16) && m.nodes.iter().any(delay_zero::is_delay_zero) {
            // The delayed signals follow in a cycle more.
            cycles = DELTA_LIMIT + 1;
        }
        if !matches!(step, Ok(Step::Delta) | Err(15 | 16)) {
            orders.extend(&reads);
        }
        orders.push(fits.order());
        match step {
            Ok(Step::Delta) => {}
            Ok(Step::Time) => {
                rows.push((time, row));
                compared = orders.len();
                if rows.len() > TIME_STEPS {
                    break End::TimeSteps;
                }
            }
            Err(15) if c.processes.iter().all(|p| p.fault == 0 || p.fault == NINTH) => {
                break End::Ninth
            }
            Err(15) => break End::Fault,
            Err(16) => break End::DeltaSteps,
            Err(_) => {
                rows.push((time, row));
                compared = orders.len();
                break End::NothingDue;
            }
        }
    };
    let stop = match end {
        End::NothingDue => TIME_LIMIT,
        End::TimeSteps | End::Ninth => rows.last().map_or(0, |r| r.0),
        _ => c.time,
    };
    let shown = features::of_session(m, &orders[..compared].concat());
    let breaks = inertial::of_session(m, &orders.concat()).contains(inertial::SHARED);
    Run {
        rows,
        orders,
        shown,
        end,
        stop,
        cycles,
        breaks,
    }
}

/// The rows that the proved kernel reads out when it plays the orders; none
/// where there is no signal, or the list is longer than a session may be.
#[cfg(feature = "session")]
fn proved_rows(model: &[u8], orders: &[[u8; 4]], signals: usize) -> Option<Vec<Row>> {
    if signals == 0 || orders.len() > 4_096 {
        return None;
    }
    let bytes = orders.concat();
    let mut answers = vec![0; 4 * bytes.len()];
    let number = second_kernel::proved::play(model, &bytes, &mut answers, &mut []);
    assert_eq!(number, 0, "the proved kernel refused a session");
    let reads = answers.chunks_exact(16).zip(orders);
    let read: Vec<(u64, i32)> = reads
        .filter(|(_, o)| o[0] == 4)
        .map(|(a, _)| {
            assert_eq!(a[0], 0, "the proved kernel refused a read");
            (
                u64::from_le_bytes(a[8..].try_into().unwrap()),
                i32::from_le_bytes(a[4..8].try_into().unwrap()),
            )
        })
        .collect();
    Some(
        read.chunks(signals)
            .map(|row| (row[0].0, row.iter().map(|r| r.1).collect()))
            .collect(),
    )
}

#[cfg(not(feature = "session"))]
fn proved_rows(_: &[u8], _: &[[u8; 4]], _: usize) -> Option<Vec<Row>> {
    None
}

/// The kernel's dump of the orders, read; none where there is no signal, or the list is
/// longer than a session may be.
fn dump(model: &[u8], orders: &[[u8; 4]], signals: usize) -> Option<Waves> {
    if signals == 0 || orders.len() > 4_096 {
        return None;
    }
    let text = vcd::dump(model, &orders.concat()).expect("a run has a dump");
    Some(read(&text).expect("a dump can be read"))
}

/// The first row and those that differ from the one before.
fn changes(rows: Vec<Row>) -> Vec<Row> {
    let mut kept: Vec<Row> = Vec::new();
    for r in rows {
        if kept.last().is_none_or(|l| l.1 != r.1) {
            kept.push(r);
        }
    }
    kept
}

/// A line of the translation's monitor: `@ TIME ns VALUES`.
fn parse(line: &str) -> Option<Row> {
    let mut words = line.strip_prefix("@ ")?.split(' ');
    let time = words.next()?.parse().ok()?;
    if words.next()? != "ns" {
        return None;
    }
    let row: Result<Vec<i32>, _> = words.map(str::parse).collect();
    Some((time, row.ok()?))
}

/// How GHDL ended.
#[derive(Debug, PartialEq, Eq)]
enum Outcome {
    Done,
    StopDelta,
    Failure,
    /// GHDL's own failure.
    Broken,
}

/// What GHDL says where the model faults or never waits: the translation's own
/// words, and GHDL's for an overflow at run time and in a constant expression.
const FAILURES: [&str; 6] = [
    "fault 1",
    "fault 2",
    "fault 4",
    "no wait",
    "overflow detected",
    "bound check failure",
];

/// What a run of GHDL gave: the lines of the monitor, its end and its dump.
type Output = (Vec<Row>, Outcome, String);

/// Runs GHDL on a case's text up to a time, that time included.
fn ghdl(text: &str, case: &Case, dir: &Path, name: &str) -> Result<Output, String> {
    let file = dir.join(name);
    let dump = file.with_extension("vcd");
    std::fs::write(&file, text).map_err(|e| e.to_string())?;
    let out = Command::new("timeout")
        .args(["10", "ghdl", "-c", "--std=93", "-Wno-runtime-error"])
        .arg(format!("--workdir={}", dir.display()))
        .arg(&file)
        .args(["-r", "top"])
        .arg(format!("--stop-time={}ns", case.stop))
        .arg(format!("--stop-delta={}", case.cycles))
        .arg(format!("--vcd={}", dump.display()))
        .output()
        .map_err(|e| format!("ghdl: {e}"))?;
    let dumped = std::fs::read_to_string(&dump).unwrap_or_default();
    let _ = (std::fs::remove_file(&file), std::fs::remove_file(&dump));
    let said = String::from_utf8_lossy(&out.stdout).to_string();
    let errors = String::from_utf8_lossy(&out.stderr).to_string();
    let heard = |words: &str| said.contains(words) || errors.contains(words);
    let outcome = if out.status.success() {
        if heard("by --stop-delta") {
            Outcome::StopDelta
        } else {
            Outcome::Done
        }
    } else if FAILURES.into_iter().any(heard) {
        Outcome::Failure
    } else if case.breaks && heard("GHDL Bug occurred") {
        Outcome::Broken
    } else {
        return Err(format!("GHDL ended with {}: {}", out.status, errors.trim()));
    };
    let lines = said.lines().filter(|l| l.starts_with('@'));
    let rows: Result<_, _> = lines
        .map(|l| parse(l).ok_or(format!("cannot read GHDL's line: {l}")))
        .collect();
    Ok((rows?, outcome, dumped))
}

/// What was compared of a case.
#[derive(Debug, Default, PartialEq, Eq)]
struct Compared {
    /// The whole run, and not that before a failure of GHDL's own.
    whole: bool,
    /// Values in the two dumps, 0 where they were not compared.
    values: usize,
    /// The letters in GHDL's dump.
    letters: BTreeSet<char>,
}

/// GHDL's dump in four states, and the letters that it had.
fn four_states(text: &str) -> (String, BTreeSet<char>) {
    let (mut letters, mut changes, mut mapped) = (BTreeSet::new(), false, String::new());
    for line in text.lines() {
        let letter = line.bytes().next().filter(|_| changes);
        match letter.and_then(|l| LETTERS.iter().position(|&m| m == l)) {
            Some(code) => {
                letters.insert(LETTERS[code] as char);
                mapped.push(FOUR_STATES[code] as char);
                mapped += &line[1..];
            }
            None => mapped += line,
        }
        mapped.push('\n');
        changes |= line.starts_with("$enddefinitions");
    }
    (mapped, letters)
}

/// Compares the kernel's dump and GHDL's at each time of the run.
fn compare_dumps(case: &Case, theirs: &str) -> Result<Compared, String> {
    let mut compared = Compared {
        whole: true,
        ..Compared::default()
    };
    let Some(ours) = &case.dump else {
        return Ok(compared);
    };
    let (text, letters) = four_states(theirs);
    let theirs = read(&text).map_err(|e| format!("GHDL's dump: {e}"))?;
    let names = (0..case.model.signals.len()).map(|n| format!("s{n}"));
    let factor = ours.unit / theirs.unit;
    vcd::alike(ours, &theirs, (&case.times, factor), names)
        .map_err(|e| format!("the kernel's dump and GHDL's: {e}"))?;
    compared.values = case.times.len() * case.model.signals.len();
    compared.letters = letters;
    Ok(compared)
}

/// Is the whole run alike, or that before a failure of GHDL's own? Err is the first
/// place where the two lists of changes, or where GHDL came to its end the two dumps,
/// part.
fn compare(case: &Case, (theirs, outcome, dump): Output) -> Result<Compared, String> {
    let theirs = &changes(theirs)[..];
    let whole = outcome != Outcome::Broken;
    // A failure in the first settling comes before GHDL's first line.
    let early = outcome == Outcome::Failure && case.stop == 0 && theirs.is_empty();
    let ours = match &case.changes[..] {
        all if early => &all[1..],
        all if whole => all,
        all => &all[..theirs.len().min(all.len())],
    };
    let show = |r: Option<&Row>| match r {
        Some((time, row)) => format!("time {time}, values {row:?}"),
        None => "no further change".to_string(),
    };
    for n in 0..ours.len().max(theirs.len()) {
        let (a, b) = (ours.get(n), theirs.get(n));
        if a != b {
            return Err(format!("kernel: {}\n  GHDL:   {}", show(a), show(b)));
        }
    }
    let expected = match case.end {
        End::NothingDue | End::TimeSteps | End::Ninth => Outcome::Done,
        End::DeltaSteps => Outcome::StopDelta,
        End::NoWait | End::Fault => Outcome::Failure,
    };
    if whole && outcome != expected {
        return Err(format!(
            "kernel: end {:?} up to time {}\n  GHDL:   {outcome:?}",
            case.end, case.stop
        ));
    }
    if outcome == Outcome::Done {
        return compare_dumps(case, &dump);
    }
    Ok(Compared {
        whole,
        ..Compared::default()
    })
}

/// A model with its run.
struct Case {
    name: String,
    model: Model,
    /// The values are the proved kernel's.
    proved: bool,
    /// A signal changes, as the second kernel has it.
    lively: bool,
    stop: u64,
    cycles: u32,
    breaks: bool,
    changes: Vec<Row>,
    /// The kernel's dump of the run, and the times at which values are settled.
    dump: Option<Waves>,
    times: Vec<u64>,
    /// What the run shows of the features up to the last row.
    shown: Seen,
    end: End,
    /// The body that the model was made of, if it was one in text.
    body: Option<Body>,
}

/// The blocks made of a text and given records: the proved maker's.
#[cfg(feature = "bodies")]
fn blocks_of(text: &[u8], given: &[u8]) -> Result<Vec<u8>, u32> {
    let (mut blocks, mut words) = (vec![0; 32_768], [0; 4]);
    second_kernel::proved_bodies::make(text, given, &mut blocks, &mut words);
    blocks.truncate(model::BLOCK * words[3] as usize);
    match words[0] {
        0 => Ok(blocks),
        number => Err(number),
    }
}

#[cfg(not(feature = "bodies"))]
fn blocks_of(text: &[u8], given: &[u8]) -> Result<Vec<u8>, u32> {
    whole::made(text, given).map(|(_, blocks)| blocks)
}

impl Case {
    fn new(name: String, model: Model, bytes: &[u8]) -> Case {
        let Run {
            rows,
            orders,
            shown,
            end,
            stop,
            cycles,
            breaks,
        } = run(&model);
        let proved = proved_rows(bytes, &orders, rows[0].1.len());
        let dump = dump(bytes, &orders, rows[0].1.len());
        let times = rows[1..].iter().map(|row| row.0).collect();
        let second = changes(rows);
        Case {
            name,
            model,
            stop,
            cycles,
            breaks,
            proved: proved.is_some(),
            lively: second.len() > 1,
            changes: proved.map_or(second, changes),
            dump,
            times,
            shown,
            end,
            body: None,
        }
    }

    /// Does it show one of these, settled values after it?
    fn shows(&self, names: &[&str]) -> bool {
        names.iter().any(|what| self.shown.contains(what))
    }

    fn of_seed(seed: u64) -> Case {
        let model = gen::run_model(seed);
        let bytes = model::encode(&model);
        Case::new(format!("seed {seed}"), model, &bytes)
    }

    /// A body in text; none where its model is refused.
    fn of_text(seed: u64) -> Option<Case> {
        let rng = &mut Rng::new(seed);
        let style = Style {
            nodes: rng.choose(&[60, 120, 200]),
            statements: rng.choose(&[8, 16, 40]),
            wild: rng.chance(1, 4),
            ..Style::random(rng)
        };
        let mut m = given_records(rng);
        m.signals.truncate(8);
        m.drivers.retain(|d| d.signal < 8);
        let draft = body_of(rng, style, m);
        let setting = setting(rng);
        let text = set(rng, &pieces(&draft.body), setting);
        let given = given(&draft.m);
        whole::made(&text, &given).ok()?;
        let bytes = blocks_of(&text, &given).expect("the second maker takes it");
        let model = model::load(&bytes).expect("a made model is accepted");
        let mut case = Case::new(format!("text of seed {seed}"), model, &bytes);
        case.body = Some(body::parser::parse(&text).expect("it is a sentence"));
        Some(case)
    }

    /// The translation.
    fn vhdl(&self) -> String {
        match &self.body {
            Some(body) => body::vhdl::translate(body, &self.model, Form::Checked),
            None => vhdl::translate(&self.model, Form::Checked),
        }
    }

    /// What its text has, as in `PARTS`.
    fn parts(&self) -> Vec<&'static str> {
        let Some(body) = &self.body else {
            return vec![];
        };
        let mut has = [false; PARTS.len()];
        for (_, s) in body.statements() {
            match s {
                Statement::Null => has[0] = true,
                Statement::Assign(..) => has[1] = true,
                Statement::Schedule(..) => has[2] = true,
                Statement::If(..) => has[3] = true,
                Statement::While(..) => has[4] = true,
                Statement::Wait(w) => {
                    has[5] |= w.on.is_some();
                    has[6] |= w.until.is_some();
                    has[7] |= w.until.is_some() && w.on.is_none();
                    has[8] |= w.span.is_some();
                }
            }
        }
        let delayed = |e: &Expression| matches!(e, Expression::Delayed(..));
        has[9] = body.expressions.iter().any(delayed);
        has[10] = self.model.signals.iter().any(|s| s.kind != PLAIN);
        let names = PARTS.into_iter().zip(has);
        names.filter(|row| row.1).map(|row| row.0).collect()
    }
}

/// From time `start` on, `steps` waits for 0: as many delta steps, one more if
/// start is not 0. Then a plain signal changes one unit later; a bus or a register
/// has a null come due at once, a delta step more that a register's value does
/// not show.
fn counted(kind: u8, start: i32, steps: i32) -> Case {
    let mut b = Builder::new();
    let s = b.signal_of(LOGIC, kind, 2);
    let v = b.variable(INTEGER, 0, 0);
    let (zero, one) = (b.integer(0), b.integer(1));
    let (first, many) = (b.integer(start), b.integer(steps));
    let (read_v, read_s) = (b.read_variable(v), b.read_signal(s));
    let (more, next) = (b.binary(14, read_v, many), b.binary(11, read_v, one));
    let turned = b.unary(6, read_s);
    b.driver(0, s);
    b.process();
    if start == 0 {
        b.null();
    } else {
        b.wait(0, ABSENT, first);
    }
    b.unless(more, 5);
    b.assign(v, next);
    b.wait(0, ABSENT, zero);
    b.go(1);
    if kind == PLAIN {
        b.schedule(s, turned, one);
    } else {
        b.release(s, zero);
    }
    b.wait(0, ABSENT, ABSENT);
    let bytes = b.encode();
    Case::new(
        format!("kind {kind}, {steps} delta steps from time {start}"),
        b.m,
        &bytes,
    )
}

/// A signal changes in so many delta steps of a time, and a process has it delayed by 0
/// in each.
fn followed(start: i32, steps: i32) -> Case {
    let mut b = Builder::new();
    let (s, t) = (b.signal(LOGIC, 2), b.signal(LOGIC, 2));
    let v = b.variable(INTEGER, 0, 0);
    let (zero, one) = (b.integer(0), b.integer(1));
    let (first, many) = (b.integer(start), b.integer(steps));
    let (read_v, read_s, before) = (b.read_variable(v), b.read_signal(s), b.delayed(s, 0));
    let (more, next) = (b.binary(14, read_v, many), b.binary(11, read_v, one));
    let turned = b.unary(6, read_s);
    b.driver(0, s);
    b.driver(1, t);
    b.process();
    b.wait(0, ABSENT, first);
    b.unless(more, 6);
    b.assign(v, next);
    b.schedule(s, turned, zero);
    b.wait(1 << s, ABSENT, ABSENT);
    b.go(1);
    b.wait(0, ABSENT, ABSENT);
    b.process();
    b.wait(1 << s, ABSENT, ABSENT);
    b.schedule(t, before, one);
    let bytes = b.encode();
    Case::new(format!("{steps} changes from time {start}"), b.m, &bytes)
}

/// Sixteen processes drive a line, each at times of its own, to one of the nine values and
/// a unit later to Z, or off where the line is a bus or a register; some by their own table.
fn sixteen(kind: u8, turn: i32, table: Option<u64>) -> Case {
    let mut b = Builder::new();
    if let Some(seed) = table {
        b.table(&tables::table(&mut Rng::new(seed)));
    }
    let s = b.signal_of(LOGIC, kind, 4);
    let (zero, one, z) = (b.integer(0), b.integer(1), b.logic(4));
    for p in 0..16 {
        let (value, pause) = (b.logic(p % 9), b.integer(turn + p as i32));
        b.driver(p, s);
        b.process();
        b.schedule(s, value, zero);
        match kind {
            PLAIN => b.schedule(s, z, one),
            _ => b.release(s, one),
        };
        b.wait(0, ABSENT, pause);
    }
    let bytes = b.encode();
    let name =
        format!("sixteen processes, kind {kind}, each {turn} units or more, table {table:?}");
    Case::new(name, b.m, &bytes)
}

/// The models from the seed on until n are lively.
fn choose(n: usize, first: u64) -> Vec<Case> {
    let mut cases: Vec<Case> = Vec::new();
    let mut left = n;
    for seed in first.. {
        if left == 0 {
            break;
        }
        let case = Case::of_seed(seed);
        left -= case.lively as usize;
        cases.push(case);
    }
    cases
}

/// The bodies in text from the seed on until n have a few changes and come to their waits,
/// these alone.
fn choose_texts(n: usize, first: u64) -> Vec<Case> {
    let all = (first..).filter_map(Case::of_text);
    let fit = all.filter(|c| c.changes.len() > 3 && c.end != End::NoWait);
    fit.take(n).collect()
}

/// Models at the delta limit, and of as many processes as there can be.
fn fixed() -> Vec<Case> {
    let mut cases = vec![];
    for kind in [PLAIN, BUS, REGISTER] {
        for at in [0, 3] {
            cases.extend((998..1_003).map(|k| counted(kind, at, k)));
        }
        cases.extend([1, 2, 5].map(|turn| sixteen(kind, turn, None)));
        cases.extend((0..6).map(|seed| sixteen(kind, 2, Some(seed))));
    }
    cases.extend((997..1_002).map(|k| followed(3, k)));
    cases
}

/// Compares all cases, one GHDL run each, on all processors; what came of each.
fn compare_all(
    cases: &[Case],
    alter: &dyn Fn(String) -> String,
    dir: &Path,
) -> Vec<Result<Compared, String>> {
    let texts: Vec<String> = cases.iter().map(|c| alter(c.vhdl())).collect();
    let next = AtomicUsize::new(0);
    let found = Mutex::new(BTreeMap::new());
    let workers = std::thread::available_parallelism().map_or(2, |n| n.get());
    std::thread::scope(|s| {
        for _ in 0..workers {
            s.spawn(|| loop {
                let n = next.fetch_add(1, Ordering::Relaxed);
                let Some(case) = cases.get(n) else { return };
                let result = ghdl(&texts[n], case, dir, &format!("model{n}.vhd"))
                    .and_then(|output| compare(case, output));
                found.lock().unwrap().insert(n, result);
            });
        }
    });
    found.into_inner().unwrap().into_values().collect()
}

fn scratch() -> PathBuf {
    let dir = std::env::temp_dir().join(format!("ghdlrun-{}", std::process::id()));
    std::fs::create_dir_all(&dir).expect("a folder for GHDL's files");
    dir
}

fn show(case: Case) {
    println!("{}", case.vhdl());
    let Case {
        stop, changes, end, ..
    } = case;
    for (time, row) in changes {
        println!("-- {time}: {row:?}");
    }
    println!("-- end {end:?}, GHDL up to {stop}");
}

/// Err where too few of the models compared show what a feature does: beside
/// `OFTEN` each thing in one of a hundred lively models; in a small run nothing is
/// due.
fn features_due(shown: &Counts<&'static str>, n: u64) -> Result<(), String> {
    if n < 100 {
        return Ok(());
    }
    for (names, share) in OFTEN {
        shown.require("models with", names, n / share)?;
    }
    let all: Vec<&str> = FEATURES.iter().flat_map(|f| (f.session)()).collect();
    shown.require("models with", &all, n / 100)
}

/// Err where there are too few bodies in text, or too few have what they must; in a small run
/// nothing is due.
fn texts_due(parts: &Counts<&'static str>, texts: usize, n: usize) -> Result<(), String> {
    if n < 100 {
        return Ok(());
    }
    if texts < n / TEXTS {
        return Err(format!("{texts} bodies in text, too few"));
    }
    parts.require("bodies in text with", &PARTS, (texts / 10) as u64)
}

/// Err where the proved kernel played too few of the lively models.
fn proved_due(cases: &[Case]) -> Result<(), String> {
    let lively = cases.iter().filter(|c| c.lively);
    let (many, by_proved) = lively.fold((0, 0), |(m, p), c| (m + 1, p + c.proved as usize));
    if cfg!(feature = "session") && 10 * by_proved < 9 * many {
        return Err(format!(
            "the proved kernel played {by_proved} of {many} lively models, too few"
        ));
    }
    Ok(())
}

/// Err where GHDL failed by itself in too many models.
fn whole_due(broken: usize, all: usize) -> Result<(), String> {
    match 10 * broken > all {
        true => Err(format!("GHDL failed by itself in {broken} of {all} models")),
        false => Ok(()),
    }
}

/// What was compared in dumps.
#[derive(Default)]
struct Dumps {
    models: u64,
    values: usize,
    /// Models by the letters in GHDL's dump.
    letters: Counts<char>,
}

impl Dumps {
    fn add(&mut self, compared: &Compared) {
        self.models += (compared.values > 0) as u64;
        self.values += compared.values;
        compared.letters.iter().for_each(|&l| self.letters.add(l));
    }

    fn print(&self) {
        let letters = LETTERS.map(|l| format!("{} {}", l as char, self.letters.of(l as char)));
        println!(
            "dumps beside GHDL's: {} models, {} settled values; models by letter: {}",
            self.models,
            self.values,
            letters.join(", ")
        );
    }

    /// Err where too few were compared, of half of the lively models at least, or a letter is
    /// missing; in a small run nothing is due.
    fn due(&self, n: u64) -> Result<(), String> {
        if n < 100 {
            return Ok(());
        }
        let letters = LETTERS.map(char::from);
        self.letters.require("models with letter", &letters, 1)?;
        match self.models < n / 2 {
            true => Err(format!("{} dumps beside GHDL's, too few", self.models)),
            false => Ok(()),
        }
    }
}

fn usage() -> ! {
    eprintln!("usage: ghdlrun [N [SEED [FROM TO]]] | ghdlrun show [text] SEED");
    exit(2)
}

fn main() {
    let args: Vec<String> = std::env::args().skip(1).collect();
    let number = |n: usize, default: u64| match args.get(n) {
        Some(a) => a.parse().unwrap_or_else(|_| usage()),
        None => default,
    };
    if args.first().is_some_and(|a| a == "show") {
        return match args.get(1).is_some_and(|a| a == "text") {
            true => show(Case::of_text(number(2, 1)).unwrap_or_else(|| usage())),
            false => show(Case::of_seed(number(1, 1))),
        };
    }
    let (n, seed) = (number(0, 200) as usize, number(1, 1));
    let alter = |text: String| match &args[..] {
        [_, _, from, to] => text.replace(from, to),
        _ => text,
    };
    if args.len() == 3 || args.len() > 4 {
        usage()
    }
    let mut cases = choose(n, seed);
    cases.extend(fixed());
    cases.extend(choose_texts(n / TEXTS, seed));
    let mut counts: BTreeMap<End, [usize; 4]> = BTreeMap::new();
    for c in &cases {
        let row = counts.entry(c.end).or_default();
        let at = 2 * !c.lively as usize;
        row[at] += 1;
        row[at + 1] += c.proved as usize;
    }
    println!("  lively  of them played by     others  of them played by");
    println!("          the proved kernel             the proved kernel  end");
    for (end, [lively, by_proved, others, others_proved]) in &counts {
        println!("{lively:8}{by_proved:19}{others:11}{others_proved:19}  {end:?}");
    }
    let all = cases.len();
    cases.retain(|c| c.end != End::Ninth || c.lively);
    println!(
        "{} models left out: fault 3 before any change",
        all - cases.len()
    );
    let dir = scratch();
    let found = compare_all(&cases, &alter, &dir);
    let pairs = cases.iter().zip(&found);
    let bad: Vec<(&Case, &String)> = pairs
        .filter_map(|(c, found)| Some((c, found.as_ref().err()?)))
        .collect();
    for (case, e) in bad.iter().take(10) {
        println!("{}:\n  {e}", case.name);
    }
    let differ = bad.len();
    let broke = |found: &&Result<Compared, String>| found.as_ref().is_ok_and(|c| !c.whole);
    let mut whole = found.iter().map(|found| !broke(&found));
    let all = cases.len();
    cases.retain(|_| whole.next() == Some(true));
    let broken = all - cases.len();
    println!("{broken} models compared up to a failure of GHDL's own and not counted below");
    let mut shown: Counts<&'static str> = Counts::default();
    for what in cases.iter().flat_map(|c| &c.shown) {
        shown.add(what);
    }
    for feature in FEATURES {
        let title = format!("{} in the models that are compared", feature.name);
        tally::print_shown(&title, &shown, &(feature.session)());
    }
    let mut parts: Counts<&'static str> = Counts::default();
    for what in cases.iter().flat_map(Case::parts) {
        parts.add(what);
    }
    tally::print_shown("bodies in text that are compared", &parts, &PARTS);
    let bodies = cases.iter().filter(|c| c.body.is_some());
    let texts = bodies.clone().count();
    let text_rows: usize = bodies.map(|c| c.changes.len() - 1).sum();
    println!("bodies in text: {texts}, {text_rows} changes of settled values");
    let rows: usize = cases.iter().map(|c| c.changes.len() - 1).sum();
    let proved = cases.iter().filter(|c| c.proved).count();
    let tables = cases.iter().filter(|c| c.model.own_table().is_some());
    let tables = tables.count();
    let [nulls, operators, delays, inertial, sets, others] =
        OFTEN.map(|(names, _)| cases.iter().filter(|c| c.shows(names)).count());
    println!(
        "ghdlrun: {} models ({proved} played by the proved kernel, {texts} made of bodies in text, {nulls} with nulls that came due, \
         {operators} with products, quotients, mods or rems, {delays} with delays of 0 that the current \
         value would not tell, {inertial} with inertial assignments that removed an unmarked transaction, \
         {sets} with sets of several processes, {tables} with their own resolution table, {others} of them with \
         values other than the standard's), {rows} changes of settled values, {differ} models differ",
        cases.len(),
    );
    let _ = std::fs::remove_dir_all(&dir);
    let mut dumps = Dumps::default();
    found.iter().flatten().for_each(|c| dumps.add(c));
    dumps.print();
    let mut wrong = differ > 0;
    for due in [
        features_due(&shown, n as u64),
        dumps.due(n as u64),
        proved_due(&cases),
        whole_due(broken, all),
        texts_due(&parts, texts, n),
    ] {
        if let Err(e) = due {
            eprintln!("ghdlrun: {e}");
            wrong = true;
        }
    }
    if wrong {
        exit(1)
    }
}

#[cfg(test)]
mod tests {
    use super::*;

    #[test]
    fn nine_letters_become_four_states() {
        let header = "$date\n  Wed\n$end\n$var reg 1 ! s0 $end\n$enddefinitions $end\n";
        let text = "#0\nU!\nX!\n0!\n1!\nZ!\nW!\nL!\nH!\n-!\nb101 -\n";
        let (mapped, letters) = four_states(&format!("{header}{text}"));
        let states = "#0\nx!\nx!\n0!\n1!\nz!\nx!\n0!\n1!\nx!\nb101 -\n";
        assert_eq!(mapped, format!("{header}{states}"));
        assert_eq!(letters, BTreeSet::from(LETTERS.map(char::from)));
    }

    #[test]
    fn bodies_in_text_have_what_is_due() {
        let cases = choose_texts(40, 1);
        let mut parts = Counts::default();
        cases
            .iter()
            .flat_map(Case::parts)
            .for_each(|what| parts.add(what));
        assert_eq!(texts_due(&parts, cases.len(), 200), Ok(()));
        assert_eq!(texts_due(&Counts::default(), 0, 99), Ok(()));
        assert!(texts_due(&parts, 39, 200).is_err());
        let message = texts_due(&Counts::default(), 40, 200).unwrap_err();
        assert!(message.contains("bodies in text with while occurred 0"));
        // The translation is the text's own, and not that of its records.
        assert!(cases.iter().all(|c| !c.vhdl().contains("case pc is")));
        assert!(cases.iter().all(|c| c.dump.is_some()));
    }

    // Before GHDL is asked: the runs of its models show what is due, and are short enough
    // for the proved kernel.
    #[test]
    fn runs_show_the_features() {
        let mut cases = choose(200, 1);
        cases.extend(fixed());
        let mut shown = Counts::default();
        cases
            .iter()
            .flat_map(|c| &c.shown)
            .for_each(|what| shown.add(*what));
        assert_eq!(features_due(&shown, 200), Ok(()));
        let lively = cases.iter().filter(|c| c.lively);
        let (short, long): (Vec<&Case>, Vec<&Case>) = lively.partition(|c| c.dump.is_some());
        assert!(short.len() >= 20 * long.len(), "{} are long", long.len());
    }

    #[test]
    fn dumps_that_differ_are_found() {
        let case = Case::of_seed(1);
        let text = vcd::dump(
            &model::encode(&case.model),
            &run(&case.model).orders.concat(),
        );
        let right = text.unwrap();
        let scaled = |factor: u64| -> String {
            let line = |l: &str| match l.strip_prefix('#') {
                Some(time) => format!("#{}\n", factor * time.parse::<u64>().unwrap()),
                None => format!("{l}\n"),
            };
            right
                .lines()
                .map(line)
                .collect::<String>()
                .replace("1 ns", "1 fs")
        };
        let compared = compare_dumps(&case, &scaled(1_000_000)).unwrap();
        assert_eq!(compared.values, case.times.len() * case.model.signals.len());
        assert!(compared.values > 0 && compared.whole);
        let message = compare_dumps(&case, &scaled(2_000_000)).unwrap_err();
        assert!(
            message.contains("the kernel's dump and GHDL's: s"),
            "{message}"
        );
    }

    #[test]
    fn few_dumps_or_letters_are_an_error() {
        let mut dumps = Dumps::default();
        assert_eq!(dumps.due(99), Ok(()));
        assert!(dumps.due(100).unwrap_err().contains("letter U occurred 0"));
        let compared = Compared {
            whole: true,
            values: 1,
            letters: BTreeSet::from(LETTERS.map(char::from)),
        };
        (0..49).for_each(|_| dumps.add(&compared));
        assert_eq!(
            dumps.due(100),
            Err("49 dumps beside GHDL's, too few".into())
        );
        dumps.add(&compared);
        assert_eq!(dumps.due(100), Ok(()));
    }
}
