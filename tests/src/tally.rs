//! Runs generated cases through this kernel and, where given, another one;
//! counts what came out and tells the first difference. A large run in which a
//! number of the papers is rare fails, and so does one in which something of a
//! feature is.

mod bodies;
mod dumps;
mod loops;
mod moves;
mod schedules;
mod texts;

use crate::cases;
use crate::cycle::Config;
use crate::damage;
use crate::dump::{dump, DUMP};
use crate::features::{self, failing_node, FEATURES};
use crate::gen;
use crate::model::{judge, load, ABSENT, KINDS};
use crate::moves::ADVANCE;
use crate::numbers::{self, Counts};
use crate::session::{session, DELTA, PICK, PICK_SET, SETTLE, TIME};
pub use bodies::Read;
pub use dumps::Dump;
use dumps::DumpTally;
pub use loops::Check;
pub use moves::Move;
use moves::{as_before, MoveTally, Stored};
use std::collections::{BTreeMap, BTreeSet};
pub use texts::Make;
use texts::Others;

/// Another kernel's judge: the number of a model.
pub type Judge<'a> = &'a dyn Fn(&[u8]) -> u32;
/// Another kernel's session: model, orders, answers and dump to its number, or
/// why there is no dump.
pub type Session<'a> = &'a dyn Fn(&[u8], &[u8], &mut [u8], &mut [u8]) -> Result<u32, String>;

/// Another kernel, as far as it is given.
#[derive(Clone, Copy, Default)]
pub struct Other<'a> {
    pub judge: Option<Judge<'a>>,
    pub session: Option<Session<'a>>,
    pub dump: Option<Dump<'a>>,
    pub move_over: Option<Move<'a>>,
    pub check: Option<Check<'a>>,
    pub read: Option<Read<'a>>,
    pub make: Option<Make<'a>>,
}

impl Other<'_> {
    /// Err where there is another kernel, but not this part of it.
    fn has<T>(&self, part: Option<T>, what: &str) -> Result<(), String> {
        match self.judge.is_some() && part.is_none() {
            true => Err(format!("this build has no {what} to compare")),
            false => Ok(()),
        }
    }
}

/// How often a run must have met each thing.
#[derive(Clone, Copy, Default)]
pub struct Least {
    /// Each number of the papers.
    pub number: u64,
    /// Each way to damage a feature, and each thing that models and sessions show
    /// of it.
    pub feature: u64,
    /// A wait's condition that fails, in sessions.
    pub condition: u64,
}

/// What is due of n cases: each number in one of 500, each thing of a feature in
/// one of `feature`, a wait's condition that fails in one of `CONDITION_SESSIONS`;
/// in a small run nothing.
fn least(n: u64, feature: u64) -> Least {
    if n < 10_000 {
        return Least::default();
    }
    Least {
        number: n / 500,
        feature: n / feature,
        condition: n / CONDITION_SESSIONS,
    }
}

/// 500 times among the 200,000 models and 100,000 sessions of `make test`.
const FEATURE_MODELS: u64 = 400;
const FEATURE_SESSIONS: u64 = 200;
/// 1,000 times among those sessions.
const CONDITION_SESSIONS: u64 = 100;
/// Each number and each thing of a dump, 200 times among the 20,000 of `make test`.
const DUMPS: u64 = 100;
/// Each thing that stored lists show, 100 times among the 20,000 of `make test`.
const MOVES: u64 = 200;
/// Each thing that checks for loops show or that decides them, 200 times among the 20,000
/// of `make test`.
const LOOPS: u64 = 100;
/// Each thing that bodies in text show, and each way to damage them, 40 times among the
/// 20,000 of `make test`.
const BODIES: u64 = 500;
/// Each thing that texts with given records show, and each way to damage them, 100 times
/// among the 20,000 of `make test`; each number twice as often, each two damages 20 times.
const TEXTS: u64 = 200;
const TEXT_PAIRS: u64 = 1_000;
/// Each thing that schedules show.
const SCHEDULES: u64 = 100;

/// What `tally` and `compare` do: `models N SEED`, `sessions N SEED`, `schedules N SEED`,
/// `moves N SEED`, `dumps N SEED`, `loops N SEED`, `bodies N SEED`, `texts N SEED` or `limits`, in
/// this kernel and in the other one where it is given.
pub fn run(name: &str, other: Other) -> Result<(), String> {
    let arguments: Vec<String> = std::env::args().skip(1).collect();
    let number = |n: usize, name: &str| {
        let text = arguments.get(n).ok_or(format!("{name} is missing"))?;
        text.parse::<u64>()
            .map_err(|_| format!("{name} is not a number: {text}"))
    };
    let cases = match arguments.first().map(String::as_str) {
        Some("models") => {
            let (n, seed) = (number(1, "N")?, number(2, "SEED")?);
            let counts = models(n, seed, other.judge)?;
            counts.print();
            counts.require(least(n, FEATURE_MODELS))?;
            format!("{n} judged models from seed {seed} on")
        }
        Some("sessions") => {
            let (n, seed) = (number(1, "N")?, number(2, "SEED")?);
            other.has(other.session, "sessions")?;
            let counts = sessions(n, seed, other.session)?;
            counts.print();
            counts.require(least(n, FEATURE_SESSIONS))?;
            format!("{n} sessions from seed {seed} on")
        }
        Some("dumps") => {
            let (n, seed) = (number(1, "N")?, number(2, "SEED")?);
            other.has(other.dump, "dumps")?;
            let counts = dumps::dumps(n, seed, other.dump)?;
            counts.print();
            counts.require(least(n, DUMPS).feature)?;
            format!("the dumps of {n} runs from seed {seed} on")
        }
        Some("schedules") => {
            let (n, seed) = (number(1, "N")?, number(2, "SEED")?);
            other.has(other.session, "sessions")?;
            let counts = schedules::schedules(n, seed, other.session)?;
            counts.print();
            counts.require(n / SCHEDULES)?;
            format!("the schedules of {n} models from seed {seed} on")
        }
        Some("moves") => {
            let (n, seed) = (number(1, "N")?, number(2, "SEED")?);
            other.has(other.session, "sessions")?;
            other.has(other.move_over, "moves")?;
            let counts = moves::moves(n, seed, other.move_over, other.session)?;
            counts.print();
            let least = least(n, MOVES);
            counts.require(least.number, least.feature)?;
            format!("{n} lists moved over from seed {seed} on")
        }
        Some("loops") => {
            let (n, seed) = (number(1, "N")?, number(2, "SEED")?);
            other.has(other.session, "sessions")?;
            other.has(other.check, "loops")?;
            let counts = loops::loops(n, seed, other.check, other.session)?;
            counts.print();
            let least = least(n, LOOPS);
            counts.require(least.number, least.feature)?;
            format!("{n} checked models from seed {seed} on")
        }
        Some("bodies") => {
            let (n, seed) = (number(1, "N")?, number(2, "SEED")?);
            other.has(other.read, "bodies")?;
            let counts = bodies::bodies(n, seed, other.read)?;
            counts.print();
            let least = least(n, BODIES);
            counts.require(least.number, least.feature)?;
            format!("{n} texts from seed {seed} on")
        }
        Some("texts") => {
            let (n, seed) = (number(1, "N")?, number(2, "SEED")?);
            other.has(other.session, "sessions")?;
            other.has(other.make, "texts")?;
            let Other {
                make,
                judge,
                session,
                ..
            } = other;
            let others = Others {
                make,
                judge,
                session,
            };
            let counts = texts::texts(n, seed, others)?;
            counts.print();
            let pairs = least(n, TEXT_PAIRS).feature;
            let least = least(n, TEXTS).feature;
            counts.require(2 * least, least, pairs)?;
            format!("{n} texts with given records from seed {seed} on")
        }
        Some("limits") => {
            let counts = limits(other)?;
            counts.print();
            counts.require()?;
            format!(
                "{} limit cases",
                counts.models.sum() + counts.sessions.sum()
            )
        }
        _ => {
            return Err(format!(
                "use: {name} models N SEED | sessions N SEED | schedules N SEED | moves N SEED | dumps N SEED | loops N SEED | bodies N SEED | texts N SEED | limits"
            ))
        }
    };
    if other.judge.is_some() {
        println!("no difference in {cases}");
    }
    Ok(())
}

#[derive(Default)]
pub struct ModelTally {
    pub cases: u64,
    /// Cases by number, 0 the accepted ones.
    pub numbers: Counts,
    /// Damaged bytes by record kind and byte.
    pub bytes: [[u64; 12]; KINDS],
    /// Numbers by the way a case was made.
    pub ways: BTreeMap<&'static str, Counts>,
    /// Cases made to be accepted, and those that were.
    pub made: u64,
    pub made_accepted: u64,
    /// What the accepted ones show of the features.
    pub shown: Counts<&'static str>,
}

/// Judges `n` cases from seed `seed` on; case i has the seed `seed + i`.
pub fn models(n: u64, seed: u64, other: Option<Judge>) -> Result<ModelTally, String> {
    let mut t = ModelTally::default();
    for i in 0..n {
        let seed = seed.wrapping_add(i);
        let case = gen::model_case(seed);
        let loaded = load(&case.bytes);
        let number = loaded.as_ref().err().copied().unwrap_or(0);
        if let Some(other) = other {
            let theirs = other(&case.bytes);
            if theirs != number {
                return Err(format!(
                    "models: first difference at seed {seed} ({}): second kernel {number}, proved kernel {theirs}",
                    case.what
                ));
            }
        }
        if case.expected.is_some_and(|e| e != number) {
            return Err(format!(
                "models: seed {seed} ({}) was made for number {}, but is judged {number}",
                case.what,
                case.expected.unwrap_or(0)
            ));
        }
        t.cases += 1;
        t.numbers.add(number);
        t.ways.entry(case.what).or_default().add(number);
        if let Some((kind, byte)) = case.byte {
            t.bytes[kind as usize - 1][byte] += 1;
        }
        if case.expected == Some(0) {
            t.made += 1;
            t.made_accepted += (number == 0) as u64;
        }
        if let Ok(m) = loaded {
            for what in features::of_model(&m) {
                t.shown.add(what);
            }
        }
    }
    Ok(t)
}

/// 0 and the numbers.
fn with_none(numbers: &[u32]) -> Vec<u32> {
    [&[0], numbers].concat()
}

/// A line of counts, one for each number.
fn row(counts: &Counts, numbers: &[u32], width: usize) -> String {
    let cell = |&n: &u32| format!("{:width$}", counts.of(n));
    with_none(numbers).iter().map(cell).collect()
}

/// The title and a line for each name, if there are any.
pub fn print_shown(title: &str, shown: &Counts<&'static str>, names: &[&'static str]) {
    if !names.is_empty() {
        println!("{title}");
    }
    for name in names {
        println!("{name:44}{:8}", shown.of(name));
    }
}

impl ModelTally {
    /// Err where something occurred less often than `least`.
    pub fn require(&self, least: Least) -> Result<(), String> {
        self.numbers
            .require("refusal", numbers::MODEL, least.number)?;
        let none = Counts::default();
        for feature in FEATURES {
            self.shown
                .require("accepted:", &(feature.model)(), least.feature)?;
            for (number, way) in feature.damages.names() {
                let counts = self.ways.get(way).unwrap_or(&none);
                let what = format!("{way}: refusal");
                counts.require(&what, &[number], least.feature)?;
            }
        }
        Ok(())
    }

    pub fn print(&self) {
        println!("judged {} models", self.cases);
        println!("number      cases");
        for number in with_none(numbers::MODEL) {
            println!("{number:6} {:10}", self.numbers.of(number));
        }
        println!(
            "made to be accepted {}, accepted {}",
            self.made, self.made_accepted
        );
        println!("damaged bytes, record kinds 1 to {KINDS} by bytes 0 to 11");
        for (kind, row) in self.bytes.iter().enumerate() {
            let row: Vec<String> = row.iter().map(|n| format!("{n:6}")).collect();
            println!("{:4} {}", kind + 1, row.join(""));
        }
        println!(
            "{:44} numbers {:?}",
            "how it was made",
            with_none(numbers::MODEL)
        );
        for (way, counts) in &self.ways {
            println!("{way:44}{}", row(counts, numbers::MODEL, 7));
        }
        for feature in FEATURES {
            let ways = feature.damages.names();
            let mut damaged = Counts::default();
            for counts in ways.iter().filter_map(|(_, way)| self.ways.get(way)) {
                damaged.extend(counts);
            }
            let name = format!("{} damaged", feature.name);
            if !ways.is_empty() {
                println!("{name:44}{}", row(&damaged, numbers::MODEL, 7));
            }
        }
        for feature in FEATURES {
            let title = format!("{} in accepted models", feature.name);
            print_shown(&title, &self.shown, &(feature.model)());
        }
    }
}

/// Counts of the limit cases.
#[derive(Default)]
pub struct LimitTally {
    /// Judged models and played sessions by number.
    pub models: Counts,
    pub sessions: Counts,
    /// The dumps of these sessions, and their lists as stored before, moved over.
    pub dumps: DumpTally,
    pub moves: MoveTally,
}

impl LimitTally {
    /// Err where a number does not occur.
    pub fn require(&self) -> Result<(), String> {
        self.models
            .require("a limit model's refusal", numbers::MODEL, 1)?;
        let own = [numbers::ORDERS, numbers::ANSWERS];
        self.sessions
            .require("a limit session's refusal", &own, 1)?;
        let own = [numbers::ORDERS, numbers::OUTPUT];
        self.dumps
            .numbers
            .require("a limit dump's refusal", &own, 1)?;
        self.moves.require_limits()
    }

    pub fn print(&self) {
        let all = numbers::session();
        println!("by number {:?}", with_none(&all));
        println!("limit models              {}", row(&self.models, &all, 5));
        println!("bench and limit sessions  {}", row(&self.sessions, &all, 5));
        let DumpTally {
            numbers, longest, ..
        } = &self.dumps;
        let (whole, short) = (numbers.of(0), numbers.of(numbers::OUTPUT));
        println!(
            "their dumps: {whole} whole, {short} refused with 21; the longest {longest} bytes"
        );
        self.moves.print_limits();
    }
}

/// Judges the limit models, plays the bench cases and dumps them.
pub fn limits(other: Other) -> Result<LimitTally, String> {
    let mut t = LimitTally::default();
    for (name, bytes, expected) in damage::limits() {
        let number = judge(&bytes);
        if number != expected {
            return Err(format!("limits: `{name}` is {number}, not {expected}"));
        }
        if let Some(other) = other.judge {
            let theirs = other(&bytes);
            if theirs != number {
                return Err(format!(
                    "limits: first difference at `{name}`: second kernel {number}, proved kernel {theirs}"
                ));
            }
        }
        t.models.add(number);
    }
    for case in cases::sessions() {
        let different = |found| format!("limits: first difference at `{}`: {found}", case.name);
        let (number, _) =
            play(&case.model, &case.orders, case.room, 0xA5, other.session).map_err(different)?;
        t.sessions.add(number);
        let (dumps, model, orders) = (&mut t.dumps, &case.model, &case.orders);
        dumps.run(model, orders, 0, other.dump).map_err(different)?;
        let before = as_before(orders);
        let stored = Stored {
            model,
            orders: &before,
            room: match case.room == 4 * orders.len() {
                true => orders.len(),
                false => case.room,
            },
        };
        t.moves
            .run(&stored, 0xA5, other.move_over, other.session)
            .map_err(different)?;
    }
    Ok(t)
}

/// What this kernel made of a session.
type Played = (u32, (Vec<u8>, Config));

/// Plays a session here and in the other kernel, with answer buffers full of
/// `blank`; Err is the difference.
fn play(
    model: &[u8],
    orders: &[u8],
    room: usize,
    blank: u8,
    other: Option<Session>,
) -> Result<Played, String> {
    let mut answers = vec![blank; room];
    let (number, config) = session(model, orders, &mut answers);
    if let Some(other) = other {
        let mut their_answers = vec![blank; room];
        let mut their_dump = vec![!blank; DUMP];
        let theirs = other(model, orders, &mut their_answers, &mut their_dump)?;
        let found = difference(
            (number, &answers, &dump(&config)),
            (theirs, &their_answers, &their_dump),
            orders,
        );
        if let Some(found) = found {
            return Err(found);
        }
    }
    Ok((number, (answers, config)))
}

/// Refused orders by answers and by sessions.
#[derive(Default)]
pub struct Refusals {
    pub answers: Counts,
    pub sessions: Counts,
}

impl Refusals {
    /// Adds the numbers of a session's answers.
    fn add(&mut self, numbers: &[u32]) {
        numbers.iter().for_each(|&n| self.answers.add(n));
        let each: BTreeSet<u32> = numbers.iter().copied().collect();
        each.into_iter().for_each(|n| self.sessions.add(n));
    }

    fn print(&self, title: &str, numbers: &[u32]) {
        println!("{title:24}answers   sessions");
        for &n in numbers {
            let (answers, sessions) = (self.answers.of(n), self.sessions.of(n));
            println!("{n:18} {answers:12} {sessions:10}");
        }
    }
}

/// Whose refusals are counted, of which kind, if not of all, and the numbers that they can
/// have.
const REFUSED: [(&str, Option<u8>, &[u32]); 6] = [
    ("refusal", None, numbers::ORDER),
    ("a pick's refusal", Some(PICK), numbers::PICK),
    ("a set's refusal", Some(PICK_SET), numbers::PICK),
    ("a delta step's refusal", Some(DELTA), numbers::DELTA),
    ("a time step's refusal", Some(TIME), numbers::TIME),
    ("order 2's refusal", Some(ADVANCE), &[11]),
];

#[derive(Default)]
pub struct SessionTally {
    pub sessions: u64,
    pub orders: u64,
    pub picks: u64,
    /// Sessions by number.
    pub numbers: Counts,
    /// Refused orders, for each row of `REFUSED`.
    pub refused: [Refusals; 6],
    /// Faults by processes and by sessions.
    pub faults: Counts,
    pub faulted: Counts,
    /// Faults in a wait's condition, by processes.
    pub until: Counts,
    /// Done orders: picks by new standing, settles and sets by byte 1, delta steps,
    /// time steps, reads.
    pub done_picks: [u64; 3],
    pub settles: [u64; 2],
    pub sets: [u64; 2],
    pub steps: [u64; 3],
    pub reads: u64,
    /// Done sets by their processes.
    pub sizes: [u64; 17],
    /// End configurations: drivers by pending transactions.
    pub pending: [u64; 9],
    /// Signals whose past is not all alike.
    pub varied: u64,
    /// Sessions by time steps: none, 1, 2 to 4, 5 to 9, 10 to 29, more.
    pub depth: [u64; 6],
    pub ways: BTreeMap<&'static str, u64>,
    /// What sessions show of the features, by sessions.
    pub shown: Counts<&'static str>,
}

/// Plays `n` sessions from seed `seed` on; session i has the seed `seed + i`.
pub fn sessions(n: u64, seed: u64, other: Option<Session>) -> Result<SessionTally, String> {
    let mut t = SessionTally::default();
    for i in 0..n {
        let seed = seed.wrapping_add(i);
        let case = gen::session_case(seed);
        // Bytes that a refused session must leave alone.
        let blank = 0xA5 ^ seed as u8;
        let (number, (answers, config)) = play(&case.model, &case.orders, case.room, blank, other)
            .map_err(|found| {
                format!(
                    "sessions: first difference at seed {seed} ({}): {found}",
                    case.what
                )
            })?;
        *t.ways.entry(case.what).or_default() += 1;
        t.count(&case, number, &answers, &config);
    }
    Ok(t)
}

/// What a byte of a dump belongs to.
fn part(at: usize) -> String {
    match at {
        0..=7 => "time".into(),
        8..=11 => "delta count".into(),
        12..=15 => "totals".into(),
        16..=4_111 => {
            let at = at - 16;
            format!("signal {}, {} units ago", at / 128, at % 128 / 4)
        }
        4_112..=4_367 => format!("variable {}", (at - 4_112) / 4),
        4_368..=13_583 => format!("driver {}, byte {}", (at - 4_368) / 144, (at - 4_368) % 144),
        13_584..=13_839 => {
            let (process, byte) = ((at - 13_584) / 16, (at - 13_584) % 16);
            let what = match byte {
                0 | 1 => "place",
                2 => "standing",
                3 => "fault",
                6 | 7 => "node",
                _ => "deadline",
            };
            format!("process {process}, {what}")
        }
        _ => format!("signal {}, its earlier value", (at - 13_840) / 4),
    }
}

type Outcome<'a> = (u32, &'a [u8], &'a [u8]);

fn difference(ours: Outcome, theirs: Outcome, orders: &[u8]) -> Option<String> {
    if ours.0 != theirs.0 {
        return Some(format!(
            "number: second kernel {}, proved kernel {}",
            ours.0, theirs.0
        ));
    }
    if let Some(at) = (0..ours.1.len()).find(|&n| ours.1[n] != theirs.1[n]) {
        let n = at / 16;
        let end = (16 * n + 16).min(ours.1.len());
        return Some(format!(
            "answer {n} to order {:?}: second kernel {:?}, proved kernel {:?}",
            orders.get(4 * n..4 * n + 4),
            &ours.1[16 * n..end],
            &theirs.1[16 * n..end],
        ));
    }
    let at = (0..DUMP).find(|&n| ours.2[n] != theirs.2[n])?;
    Some(format!(
        "end configuration, byte {at} ({}): second kernel {}, proved kernel {}",
        part(at),
        ours.2[at],
        theirs.2[at]
    ))
}

impl SessionTally {
    fn count(&mut self, case: &gen::SessionCase, number: u32, answers: &[u8], config: &Config) {
        self.sessions += 1;
        self.numbers.add(number);
        if number != 0 {
            return;
        }
        let mut refused: Vec<(u8, u32)> = vec![];
        let before = self.steps[2];
        for (order, answer) in case.orders.chunks_exact(4).zip(answers.chunks_exact(16)) {
            let picks = u16::from_le_bytes([answer[2], answer[3]]);
            self.orders += 1;
            self.picks += picks as u64;
            if answer[0] != 0 {
                refused.push((order[0], answer[0] as u32));
                continue;
            }
            match order[0] {
                PICK => self.done_picks[answer[1] as usize] += 1,
                DELTA | TIME => self.steps[answer[1] as usize] += 1,
                SETTLE => self.settles[answer[1] as usize] += 1,
                PICK_SET => {
                    self.sets[answer[1] as usize] += 1;
                    self.sizes[picks as usize] += 1;
                }
                _ => self.reads += 1,
            }
        }
        for ((_, kind, _), counts) in REFUSED.iter().zip(&mut self.refused) {
            let such = refused
                .iter()
                .filter(|r| kind.is_none_or(|kind| kind == r.0));
            counts.add(&such.map(|r| r.1).collect::<Vec<u32>>());
        }
        let depth = match self.steps[2] - before {
            0 => 0,
            1 => 1,
            2..=4 => 2,
            5..=9 => 3,
            10..=29 => 4,
            _ => 5,
        };
        self.depth[depth] += 1;
        let m = load(&case.model).expect("a played model is accepted");
        let mut faulted = BTreeSet::new();
        for p in config.processes.iter().filter(|p| p.fault != 0) {
            self.faults.add(p.fault as u32);
            faulted.insert(p.fault as u32);
            let s = &m.statements[p.place as usize];
            let waited = p.deadline.is_some() || s.c == ABSENT;
            if s.kind == 5 && waited {
                self.until.add(p.fault as u32);
            }
        }
        for n in faulted {
            self.faulted.add(n);
        }
        for what in features::of_session(&m, &case.orders) {
            self.shown.add(what);
        }
        for d in &config.drivers {
            self.pending[d.wave.len()] += 1;
        }
        let varied = |s: &&[i32; 32]| s[1..].iter().any(|&v| v != s[1]);
        self.varied += config.signals.iter().filter(varied).count() as u64;
    }

    /// Err where something occurred in fewer sessions than `least`.
    pub fn require(&self, least: Least) -> Result<(), String> {
        self.numbers
            .require("session number", &numbers::session(), least.number)?;
        for ((what, _, numbers), refused) in REFUSED.iter().zip(&self.refused) {
            let what = format!("sessions: {what}");
            refused.sessions.require(&what, numbers, least.number)?;
        }
        self.faulted
            .require("sessions: fault", numbers::FAULT, least.number)?;
        for feature in FEATURES {
            let shown = [(feature.session)(), (feature.fault)()].concat();
            self.shown.require("sessions:", &shown, least.feature)?;
        }
        let condition = [failing_node::CONDITION];
        self.shown.require("sessions:", &condition, least.condition)
    }

    pub fn print(&self) {
        println!(
            "played {} sessions, {} orders, {} picks",
            self.sessions, self.orders, self.picks
        );
        println!("session number    sessions");
        for n in with_none(&numbers::session()) {
            println!("{n:14} {:11}", self.numbers.of(n));
        }
        for ((what, _, numbers), refused) in REFUSED.iter().zip(&self.refused) {
            refused.print(what, numbers);
        }
        println!("fault            processes   sessions");
        for &n in numbers::FAULT {
            let (processes, sessions) = (self.faults.of(n), self.faulted.of(n));
            println!("{n:5} {processes:20} {sessions:10}");
        }
        for &n in numbers::EXPRESSION {
            println!("fault {n} in a wait's condition: {}", self.until.of(n));
        }
        println!(
            "sessions in which a wait's condition fails and its node is kept: {}, one of {CONDITION_SESSIONS} due",
            self.shown.of(failing_node::CONDITION)
        );
        println!(
            "done: picks by standing {:?}, settles {:?}, delta steps {}, time steps {}, reads {}, sets {:?}",
            self.done_picks, self.settles, self.steps[1], self.steps[2], self.reads, self.sets
        );
        println!("done sets by their processes: {:?}", self.sizes);
        println!(
            "drivers by pending transactions at the end: {:?}",
            self.pending
        );
        println!("signals with a varied past at the end: {}", self.varied);
        println!(
            "sessions by time steps (0, 1, 2-4, 5-9, 10-29, more): {:?}",
            self.depth
        );
        println!("how the session was made");
        for (way, count) in &self.ways {
            println!("{way:44}{count:8}");
        }
        for feature in FEATURES {
            let title = format!("{} in sessions", feature.name);
            let names = [(feature.session)(), (feature.fault)()].concat();
            print_shown(&title, &self.shown, &names);
        }
    }
}

#[cfg(test)]
mod tests {
    use super::*;
    use crate::body::records::read_into;
    use crate::body::whole::make_into;
    use crate::loops::check;
    use crate::moves::move_over;
    use crate::vcd::write::write;

    /// This kernel, as another one.
    pub(super) fn own(
        m: &[u8],
        orders: &[u8],
        answers: &mut [u8],
        out: &mut [u8],
    ) -> Result<u32, String> {
        let (number, config) = session(m, orders, answers);
        out.copy_from_slice(&dump(&config));
        Ok(number)
    }

    const OWN: Other = Other {
        judge: Some(&judge),
        session: Some(&own),
        dump: Some(&write),
        move_over: Some(&move_over),
        check: Some(&check),
        read: Some(&read_into),
        make: Some(&make_into),
    };

    fn judged_by<'a>(judge: Judge<'a>) -> Other<'a> {
        Other {
            judge: Some(judge),
            ..OWN
        }
    }

    fn played_by<'a>(session: Session<'a>) -> Other<'a> {
        Other {
            session: Some(session),
            ..OWN
        }
    }

    #[test]
    fn agreement() {
        assert!(models(2_000, 5, Some(&judge)).is_ok());
        assert!(sessions(1_000, 5, Some(&own)).is_ok());
        assert!(limits(OWN).is_ok());
    }

    #[test]
    fn a_wrong_judge_is_found() {
        let wrong = |b: &[u8]| if judge(b) == 8 { 0 } else { judge(b) };
        let message = models(2_000, 5, Some(&wrong)).err().unwrap();
        assert!(
            message.contains("second kernel 8, proved kernel 0"),
            "{message}"
        );
        assert!(limits(judged_by(&wrong)).is_err());
        let wrong = |b: &[u8]| if judge(b) == 20 { 5 } else { judge(b) };
        let message = models(2_000, 5, Some(&wrong)).err().unwrap();
        let found = "second kernel 20, proved kernel 5";
        assert!(message.contains(found), "{message}");
        assert!(limits(judged_by(&wrong)).is_err());
    }

    #[test]
    fn wrong_sessions_are_found() {
        let number = |m: &[u8], o: &[u8], a: &mut [u8], d: &mut [u8]| match own(m, o, a, d)? {
            10 => Ok(9),
            n => Ok(n),
        };
        assert!(sessions(1_000, 5, Some(&number)).is_err());
        assert!(limits(played_by(&number)).is_err());
        let time = told_of(|number, _, answers, _| {
            let played = answers.chunks_exact_mut(16).filter(|_| number == 0);
            played.filter(|x| x[0] == 18).for_each(|x| x[8] ^= 1);
        });
        assert!(time.contains("second kernel [18, "), "{time}");
        let writes_when_refused = told_of(|number, _, answers, _| {
            if number != 0 {
                answers.fill(0);
            }
        });
        assert!(writes_when_refused.contains("answer 0"));
        // A node in byte 5 of a pick's answer.
        let byte = told_of(|number, orders, answers, _| {
            let pairs = orders.chunks_exact(4).zip(answers.chunks_exact_mut(16));
            let picks = pairs.filter(|(order, _)| number == 0 && order[0] == PICK);
            picks.for_each(|(_, x)| x.swap(5, 6));
        });
        assert!(byte.contains("to order Some([1, "), "{byte}");
        // A set's answer with one pick, and with a member's standing.
        for at in [1, 2] {
            let found = told_of(|number, orders, answers, _| {
                let pairs = orders.chunks_exact(4).zip(answers.chunks_exact_mut(16));
                let sets = pairs.filter(|(order, _)| number == 0 && order[0] == PICK_SET);
                sets.filter(|(_, x)| x[at] > 0)
                    .for_each(|(_, x)| x[at] = 3 - at as u8);
            });
            assert!(found.contains("to order Some([5, "), "{found}");
        }
        // Null as 0, a signal's past, a node and an earlier value that are not kept.
        for (at, part) in [
            (4_368 + 4, "driver 0, byte 4"),
            (16 + 124, "signal 0, 31 units ago"),
            (13_584 + 6, "process 0, node"),
            (13_840, "signal 0, its earlier value"),
        ] {
            let found = told_of(|_, _, _, dump| dump[at] = 0);
            assert!(found.contains(part), "{found}");
        }
    }

    /// What is told of a kernel that spoils, by number and orders, the answers or the
    /// dump.
    fn told_of(spoil: impl Fn(u32, &[u8], &mut [u8], &mut [u8])) -> String {
        let other = |m: &[u8], o: &[u8], a: &mut [u8], d: &mut [u8]| {
            let number = own(m, o, a, d)?;
            spoil(number, o, a, d);
            Ok(number)
        };
        sessions(2_000, 5, Some(&other)).err().unwrap()
    }

    #[test]
    fn a_session_without_a_dump_is_told_with_its_seed() {
        let none =
            |_: &[u8], _: &[u8], _: &mut [u8], _: &mut [u8]| Err("word 1 is too large".to_string());
        let message = sessions(1, 5, Some(&none)).err().unwrap();
        assert!(message.contains("seed 5"), "{message}");
        assert!(message.contains("word 1 is too large"), "{message}");
    }

    // What the runs of `make test` demand of 100,000 and more, in small and with
    // some room for chance.
    #[test]
    fn every_number_occurs() {
        let due = |n, feature| {
            let least = least(n, feature);
            (least.number, least.feature, least.condition)
        };
        assert_eq!((due(1, 400), due(9_999, 200)), ((0, 0, 0), (0, 0, 0)));
        assert_eq!(due(200_000, FEATURE_MODELS), (400, 500, 2_000));
        assert_eq!(due(100_000, FEATURE_SESSIONS), (200, 500, 1_000));
        let judged = models(6_000, 5, None).unwrap();
        assert_eq!(judged.require(at_least(12, 10)), Ok(()));
        assert_eq!(limits(Other::default()).unwrap().require(), Ok(()));
        let played = sessions(6_000, 5, None).unwrap();
        let least = Least {
            condition: 60,
            ..at_least(12, 20)
        };
        assert_eq!(played.require(least), Ok(()));
    }

    fn at_least(number: u64, feature: u64) -> Least {
        Least {
            number,
            feature,
            condition: 0,
        }
    }

    #[test]
    fn a_rare_number_is_an_error() {
        let few = models(20, 5, None).unwrap();
        assert!(few.require(at_least(0, 0)).is_ok() && few.require(at_least(6, 0)).is_err());
        let mut played = sessions(2_000, 5, None).unwrap();
        assert_eq!(played.require(at_least(1, 0)), Ok(()));
        for (n, (what, _, numbers)) in REFUSED.iter().enumerate() {
            let counted = std::mem::take(&mut played.refused[n]);
            let message = played.require(at_least(1, 0)).unwrap_err();
            for number in *numbers {
                assert!(message.contains(&format!("{what} {number} ")), "{message}");
            }
            played.refused[n] = counted;
        }
        played.faulted = Counts::default();
        let message = played.require(at_least(1, 0)).unwrap_err();
        assert!(message.contains("fault 3"), "{message}");
        assert!(LimitTally::default().require().is_err());
    }

    #[test]
    fn a_rare_thing_of_a_feature_is_an_error() {
        let mut judged = models(4_000, 5, None).unwrap();
        let mut played = sessions(100, 5, None).unwrap();
        for feature in FEATURES {
            for (number, way) in feature.damages.names() {
                let counts = judged.ways.remove(way).unwrap();
                let message = judged.require(at_least(0, 1)).unwrap_err();
                let expected = format!("{way}: refusal {number} occurred 0 times");
                assert!(message.starts_with(&expected), "{message}");
                judged.ways.insert(way, counts);
            }
        }
        (judged.shown, played.shown) = (Counts::default(), Counts::default());
        let told = |required: Result<(), String>| required.err().unwrap_or_default();
        for feature in FEATURES {
            // All of it is told; then it counts as seen, for the next one.
            let message = told(judged.require(at_least(0, 1)));
            for what in (feature.model)() {
                assert!(message.contains(&format!("{what} occurred 0")), "{message}");
                judged.shown.add(what);
            }
            let message = told(played.require(at_least(0, 1)));
            for what in [(feature.session)(), (feature.fault)()].concat() {
                assert!(message.contains(&format!("{what} occurred 0")), "{message}");
                played.shown.add(what);
            }
        }
        // Conditions that fail are due more often.
        assert_eq!(played.require(at_least(0, 1)), Ok(()));
        let message = told(played.require(Least {
            condition: 2,
            ..Least::default()
        }));
        let expected = format!("sessions: {} occurred 1 times", failing_node::CONDITION);
        assert!(message.starts_with(&expected), "{message}");
    }

    // Seeds stand for the same cases for good within one build.
    #[test]
    fn seeds_repeat() {
        let (a, b) = (gen::session_case(77), gen::session_case(77));
        assert_eq!((a.model, a.orders, a.room), (b.model, b.orders, b.room));
        assert_eq!(gen::model_case(78).bytes, gen::model_case(78).bytes);
    }
}
