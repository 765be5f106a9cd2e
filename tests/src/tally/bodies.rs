//! Bodies in text, read here and, where one is given, by another reader: the number, the
//! counts and every byte of the buffers; their models' numbers; and the meaning of the
//! text beside the run of its records.

use super::print_shown;
use crate::body::damage::{case, ways, Case, ORDER};
use crate::body::earley;
use crate::body::lexer::{tokens, Token};
use crate::body::limits::limits;
use crate::body::parser::{parse, Refused};
use crate::body::records::{made, model, read_into};
use crate::body::run::{both, ready_at, Program, Stop};
use crate::body::spell::{same, Setting};
use crate::body::tree::*;
use crate::cycle::{Config, Driver, READY, WAITING};
use crate::model::*;
use crate::numbers::Counts;
use crate::rng::Rng;
use std::collections::BTreeMap;

/// Another reader: text, room for nodes and for statements, and its three words.
pub type Read<'a> = &'a dyn Fn(&[u8], &mut [u8], &mut [u8], &mut [u32; 3]);

/// The rooms for records: as many bytes as they have, more, fewer, none, and no multiple of
/// a record's.
const ROOMS: [&str; 5] = [
    "a room of just the records",
    "a longer room",
    "a shorter room",
    "no room",
    "a room of no multiple of 12 bytes",
];

/// What sentences show.
const SHOWN: [&str; 42] = [
    "set close",
    "set evenly",
    "set freely",
    "a line feed",
    "null",
    "v := e",
    "s <= e after e",
    "if",
    "while",
    "wait",
    "wait on",
    "wait until",
    "wait for",
    "wait on until",
    "wait on for",
    "wait until for",
    "wait on until for",
    "a signal twice in `on`",
    "no `on`, and signals in `until`",
    "no `on`, and a signal in `until` that is delayed only",
    "no `on`, and a signal in `for` that `until` has not",
    "no `on`, and no signal in `until`",
    "`on`, and a signal in `until` that it has not",
    "an integer",
    "a logic value",
    "a variable",
    "a signal",
    "(s delayed k)",
    "(s delayed 0)",
    "(s delayed 31)",
    "not",
    "minus",
    "an operation in each operand",
    "an operation in the first operand alone",
    "an operation in the second operand alone",
    "`if` in the first branch",
    "`if` in the second branch",
    "`while` in `while`",
    "`if` last in `while`",
    "`while` last",
    "`if` last",
    "16 levels deep",
];

/// What runs show.
const RUNS: [&str; 20] = [
    "from the start to a wait",
    "from the start to a fault",
    "from the start, no wait",
    "past a wait to the next",
    "past a wait to the same",
    "past a wait to an earlier one",
    "past a wait to a fault",
    "past a wait, no wait",
    "past any wait to a wait",
    "past any wait to a fault",
    "past any wait, no wait",
    "fault 1",
    "fault 2",
    "fault 3",
    "fault 4",
    "a fault in v := e",
    "a fault in s <= e after e",
    "a fault in `for`",
    "a fault at `if`",
    "a fault at `while`",
];

/// Past how many waits a body is run on.
const WAITS: usize = 6;
/// Tokens of a text up to which it is read by the table too, and its readings counted.
const TABLE: usize = 120;
const COUNTED: usize = 40;

#[derive(Default)]
pub struct BodyTally {
    /// Texts by the model's number.
    pub numbers: Counts,
    /// Sentences, and texts that are none.
    pub sentences: [u64; 2],
    ways: BTreeMap<&'static str, Counts>,
    pub shown: Counts<&'static str>,
    pub operators: Counts,
    pub rooms: Counts<&'static str>,
    pub runs: Counts<&'static str>,
    /// Sentences by their deepest level.
    pub levels: [u64; 17],
    /// Texts read by the table too, and those whose readings were counted.
    pub by_table: u64,
    pub counted: u64,
    pub limits: u64,
    /// The most nodes and statements of a text.
    pub most: [usize; 2],
}

/// Reads `n` texts from seed `seed` on; text i has the seed `seed + i`.
pub fn bodies(n: u64, seed: u64, other: Option<Read>) -> Result<BodyTally, String> {
    let mut t = BodyTally::default();
    for limit in limits() {
        let told = |found: String| format!("bodies: `{}`: {found}", limit.name);
        let (number, _) = t.read(&limit.text, 1, other).map_err(told)?;
        let found = (number, number_of(&limit.text, &limit.given));
        if found != (limit.sentence, limit.number) {
            let expected = (limit.sentence, limit.number);
            return Err(told(format!("is {found:?}, not {expected:?}")));
        }
        t.limits += 1;
    }
    for i in 0..n {
        let seed = seed.wrapping_add(i);
        let case = case(seed);
        t.run(&case, seed, other).map_err(|found| {
            let what = case.what;
            format!("bodies: first difference at seed {seed} ({what}): {found}")
        })?;
    }
    Ok(t)
}

/// The model's number, 0 where it is accepted.
fn number_of(text: &[u8], given: &[u8]) -> u32 {
    model(text, given).err().unwrap_or(0)
}

/// So many random bytes.
pub(super) fn noise(rng: &mut Rng, many: usize) -> Vec<u8> {
    (0..many).map(|_| rng.next() as u8).collect()
}

/// The length of a room for so many records.
fn room(rng: &mut Rng, which: &str, records: usize) -> usize {
    let whole = RECORD * records;
    if which == ROOMS[0] {
        whole
    } else if which == ROOMS[1] {
        whole + RECORD * (1 + rng.below(3)) + rng.below(RECORD)
    } else if which == ROOMS[2] {
        RECORD * rng.below(records.max(1))
    } else if which == ROOMS[3] {
        0
    } else {
        let length = rng.below(whole + 2 * RECORD);
        length + (length % RECORD == 0) as usize
    }
}

impl BodyTally {
    fn see(&mut self, what: &'static str, when: bool) {
        if when {
            self.shown.add(what);
        }
    }

    /// Reads a text in both readers, in every sort of room: its number and records.
    fn read(
        &mut self,
        text: &[u8],
        seed: u64,
        other: Option<Read>,
    ) -> Result<(u32, [usize; 2]), String> {
        let rng = &mut Rng::new(!seed);
        let mut counts = [7; 3];
        read_into(text, &mut [], &mut [], &mut counts);
        let many = [counts[1] as usize, counts[2] as usize];
        for n in 0..2 {
            self.most[n] = self.most[n].max(many[n]);
        }
        let Some(other) = other else {
            return Ok((counts[0], many));
        };
        // Every sort of room for the nodes, with one for the statements in turn.
        let shift = rng.below(ROOMS.len());
        for (n, which) in ROOMS.into_iter().enumerate() {
            let rooms = [which, ROOMS[(n + shift) % ROOMS.len()]];
            let [nodes, statements] = [0, 1].map(|n| room(rng, rooms[n], many[n].max(2)));
            let before = (noise(rng, nodes), noise(rng, statements));
            let (mut ours, mut theirs) = (before.clone(), before);
            let (mut our_counts, mut their_counts) = ([0; 3], [rng.next() as u32; 3]);
            read_into(text, &mut ours.0, &mut ours.1, &mut our_counts);
            other(text, &mut theirs.0, &mut theirs.1, &mut their_counts);
            let rooms = format!("in rooms of {nodes} and {statements} bytes");
            if our_counts != their_counts {
                return Err(format!(
                    "second reader {our_counts:?}, proved reader {their_counts:?}, {rooms}"
                ));
            }
            for (what, a, b) in [
                ("node", &ours.0, &theirs.0),
                ("statement", &ours.1, &theirs.1),
            ] {
                if let Some(at) = (0..a.len()).find(|&n| a[n] != b[n]) {
                    let (record, byte) = (at / RECORD, at % RECORD);
                    return Err(format!(
                        "byte {byte} of {what} {record}: second reader {}, proved reader {}, {rooms}",
                        a[at], b[at]
                    ));
                }
            }
            self.rooms.add(which);
        }
        Ok((counts[0], many))
    }

    fn run(&mut self, case: &Case, seed: u64, other: Option<Read>) -> Result<(), String> {
        let (sentence, many) = self.read(&case.text, seed, other)?;
        let number = number_of(&case.text, &case.given);
        self.numbers.add(number);
        self.ways.entry(case.what).or_default().add(number);
        self.sentences[(sentence != 0) as usize] += 1;
        if case.expected.is_some_and(|e| e != number) {
            return Err(format!("made for {:?}, but is {number}", case.expected));
        }
        let parsed = parse(&case.text);
        self.by_table(&case.text, &parsed)?;
        let Ok(body) = parsed else {
            return match number {
                26 => Ok(()),
                _ => Err(format!("no sentence, but {number}")),
            };
        };
        let own = case.body.as_ref();
        if own.is_some_and(|own| !same(own, &body) || made(own) != made(&body)) {
            return Err("what was read is not what was spelled".into());
        }
        if many != [body.expressions.len(), makes(&body.list)] {
            return Err(format!("{many:?} records of another number of parts"));
        }
        self.count(case, &body);
        match model(&case.text, &case.given) {
            Ok(m) => self.runs(&body, &m, seed),
            Err(_) => Ok(()),
        }
    }

    /// Reads by the grammar's table: the same place, and one reading or none.
    fn by_table(&mut self, text: &[u8], parsed: &Result<Body, Refused>) -> Result<(), String> {
        if text.len() > TABLE * 20 {
            return Ok(());
        }
        let list = tokens(text);
        if list.len() > TABLE {
            return Ok(());
        }
        let plain: Vec<Token> = list.iter().map(|t| t.1).collect();
        let place = earley::place(&plain).map(|n| list[n].0);
        let ours = match parsed {
            Ok(_) => None,
            Err(Refused::At(place)) => Some(place.offset),
            Err(Refused::TooLong) => return Ok(()),
        };
        if ours != place {
            return Err(format!(
                "no sentence goes on at {ours:?}, by the table at {place:?}"
            ));
        }
        self.by_table += 1;
        if plain.len() <= COUNTED && plain.last() == Some(&Token::End) {
            let readings = earley::readings(&plain);
            if readings != parsed.is_ok() as u64 {
                return Err(format!("{readings} readings"));
            }
            self.counted += 1;
        }
        Ok(())
    }

    /// Counts what a sentence shows.
    fn count(&mut self, case: &Case, body: &Body) {
        if case.body.is_some() {
            let n = [Setting::Close, Setting::Even, Setting::Free];
            let n = n.iter().position(|&s| s == case.setting);
            self.see(SHOWN[n.expect("it is one of them")], true);
        }
        self.see(SHOWN[3], case.text.contains(&b'\n'));
        let all = body.statements();
        let deepest = all.iter().map(|s| s.0).max().unwrap_or(0);
        self.levels[deepest] += 1;
        self.see(SHOWN[41], deepest == 16);
        for (_, s) in all {
            match s {
                Statement::Null => self.see(SHOWN[4], true),
                Statement::Assign(..) => self.see(SHOWN[5], true),
                Statement::Schedule(..) => self.see(SHOWN[6], true),
                Statement::Wait(w) => self.count_wait(body, w),
                Statement::If(_, then, other) => {
                    let has = |list: &List| list.iter().any(|s| matches!(s, Statement::If(..)));
                    self.see(SHOWN[7], true);
                    self.see(SHOWN[35], has(then));
                    self.see(SHOWN[36], has(other));
                }
                Statement::While(_, list) => {
                    let has = |s: &Statement| matches!(s, Statement::While(..));
                    self.see(SHOWN[8], true);
                    self.see(SHOWN[37], list.iter().any(has));
                    self.see(SHOWN[38], matches!(list.last(), Some(Statement::If(..))));
                }
            }
        }
        self.see(
            SHOWN[39],
            matches!(body.list.last(), Some(Statement::While(..))),
        );
        self.see(
            SHOWN[40],
            matches!(body.list.last(), Some(Statement::If(..))),
        );
        for e in &body.expressions {
            let group = |e: usize| {
                let e = body.expressions[e];
                matches!(e, Expression::One(..) | Expression::Two(..))
            };
            match *e {
                Expression::Integer(_) => self.see(SHOWN[23], true),
                Expression::Logic(_) => self.see(SHOWN[24], true),
                Expression::Variable(_) => self.see(SHOWN[25], true),
                Expression::Signal(_) => self.see(SHOWN[26], true),
                Expression::Delayed(_, k) => {
                    self.see(SHOWN[27], true);
                    self.see(SHOWN[28], k == 0);
                    self.see(SHOWN[29], k == 31);
                }
                Expression::One(kind, _) => {
                    self.see(SHOWN[30], kind == NOT);
                    self.see(SHOWN[31], kind == NEGATE);
                }
                Expression::Two(kind, a, b) => {
                    self.operators.add(kind.into());
                    self.see(SHOWN[32], group(a) && group(b));
                    self.see(SHOWN[33], group(a) && !group(b));
                    self.see(SHOWN[34], !group(a) && group(b));
                }
            }
        }
    }

    fn count_wait(&mut self, body: &Body, w: &Wait) {
        let parts = [w.on.is_some(), w.until.is_some(), w.span.is_some()];
        let at = match parts {
            [false, false, false] => 9,
            [true, false, false] => 10,
            [false, true, false] => 11,
            [false, false, true] => 12,
            [true, true, false] => 13,
            [true, false, true] => 14,
            [false, true, true] => 15,
            [true, true, true] => 16,
        };
        self.see(SHOWN[at], true);
        let within = |e: Option<usize>| e.map_or(vec![], |e| body.within(e));
        let signals = |e: Option<usize>, past: bool| {
            let read = |&e: &usize| match body.expressions[e] {
                Expression::Signal(s) if !past => Some(s),
                Expression::Delayed(s, _) if past => Some(s),
                _ => None,
            };
            let list = within(e);
            list.iter().filter_map(read).collect::<Vec<u8>>()
        };
        let (now, past) = (signals(w.until, false), signals(w.until, true));
        let until = [now.clone(), past.clone()].concat();
        let span = [signals(w.span, false), signals(w.span, true)].concat();
        match &w.on {
            Some(on) => {
                let twice = |n: usize| on[..n].contains(&on[n]);
                self.see(SHOWN[17], (0..on.len()).any(twice));
                self.see(SHOWN[22], until.iter().any(|s| !on.contains(s)));
            }
            None => {
                self.see(SHOWN[18], !until.is_empty());
                self.see(SHOWN[19], past.iter().any(|s| !now.contains(s)));
                self.see(SHOWN[20], span.iter().any(|s| !until.contains(s)));
                self.see(SHOWN[21], w.until.is_some() && until.is_empty());
            }
        }
    }

    /// Counts where a run came to.
    fn came_to(&mut self, body: &Body, stop: Option<Stop>, names: [&'static str; 3]) {
        let Some(Stop::Fault(number, fault, _)) = stop else {
            self.runs.add(match stop {
                Some(_) => names[0],
                None => names[2],
            });
            return;
        };
        self.runs.add(names[1]);
        self.runs.add(RUNS[10 + fault as usize]);
        let program = Program::of(body);
        let at = find(&program.list, number).expect("it stopped at a statement");
        self.runs.add(match at {
            Statement::Assign(..) => RUNS[15],
            Statement::Schedule(..) => RUNS[16],
            Statement::Wait(_) => RUNS[17],
            Statement::If(..) => RUNS[18],
            Statement::While(..) => RUNS[19],
            Statement::Null => unreachable!("null has no fault"),
        });
    }

    /// The text's meaning beside its records: from the start, past the waits that the
    /// process is woken from, and past any wait with any signals, time, variables and
    /// drivers.
    fn runs(&mut self, body: &Body, m: &Model, seed: u64) -> Result<(), String> {
        let rng = &mut Rng::new(seed ^ 0x5EED);
        let program = Program::of(body);
        let waits = program.waits();
        let mut c = Config::first(m);
        let mut stop = both(&program, m, &mut c, vec![])?;
        self.came_to(body, stop, [RUNS[0], RUNS[1], RUNS[2]]);
        for _ in 0..WAITS {
            let Some(Stop::Wait(last, ..)) = stop else {
                break;
            };
            if !woken(m, &mut c) {
                break;
            }
            let at = waits.iter().find(|w| w.0.number == last);
            let (_, rest) = at.ok_or("it stopped at no wait")?;
            stop = both(&program, m, &mut c, rest.clone())?;
            let to = match stop {
                Some(Stop::Wait(next, ..)) if next == last => RUNS[4],
                Some(Stop::Wait(next, ..)) if next < last => RUNS[5],
                _ => RUNS[3],
            };
            self.came_to(body, stop, [to, RUNS[6], RUNS[7]]);
        }
        for _ in 0..WAITS.min(waits.len()) {
            let (wait, rest) = &waits[rng.below(waits.len())];
            let mut c = any_config(rng, m);
            ready_at(&mut c, (wait.number + 1) % m.statements.len());
            let stop = both(&program, m, &mut c, rest.clone())?;
            self.came_to(body, stop, [RUNS[8], RUNS[9], RUNS[10]]);
        }
        Ok(())
    }

    /// Err where something occurred less often than it must.
    pub fn require(&self, number: u64, least: u64) -> Result<(), String> {
        self.numbers.require("number", &ORDER, number)?;
        let mut all = Counts::default();
        for way in ways() {
            all.add_many(way, self.ways.get(way).map_or(0, Counts::sum));
        }
        all.require("bodies:", &ways(), least)?;
        self.shown.require("bodies:", &SHOWN, least)?;
        let operators = OPERATORS.map(|row| row.1.into());
        self.operators.require("operator", &operators, least)?;
        self.runs.require("bodies, runs:", &RUNS, least)?;
        if self.rooms.sum() > 0 {
            self.rooms.require("bodies:", &ROOMS, least)?;
        }
        if self.by_table < 10 * least || self.counted < least {
            let (by_table, counted) = (self.by_table, self.counted);
            return Err(format!(
                "{by_table} texts were read by the table, the readings of {counted} counted"
            ));
        }
        Ok(())
    }

    pub fn print(&self) {
        println!(
            "read {} texts: {} sentences, {} that are none; {} limit cases",
            self.numbers.sum(),
            self.sentences[0],
            self.sentences[1],
            self.limits
        );
        println!("number       texts");
        for n in ORDER {
            println!("{n:6} {:11}", self.numbers.of(n));
        }
        let head: String = ORDER.iter().map(|n| format!("{n:7}")).collect();
        println!("{:44}{head}", "how it was made, by number");
        for way in ways() {
            let none = Counts::default();
            let counts = self.ways.get(way).unwrap_or(&none);
            let row: String = ORDER
                .iter()
                .map(|&n| format!("{:7}", counts.of(n)))
                .collect();
            println!("{way:44}{row}");
        }
        print_shown("sentences that show", &self.shown, &SHOWN);
        let each = OPERATORS.map(|(word, kind)| {
            let many = self.operators.of(kind.into());
            format!("{word} {many}")
        });
        println!("operators: {}", each.join(", "));
        println!("sentences by their deepest level: {:?}", self.levels);
        println!(
            "the most nodes {}, the most statements {}",
            self.most[0], self.most[1]
        );
        print_shown("text and records run", &self.runs, &RUNS);
        println!(
            "read by the table too {}, readings counted {}",
            self.by_table, self.counted
        );
        if self.rooms.sum() > 0 {
            print_shown("readings", &self.rooms, &ROOMS);
        }
    }
}

/// The statement that makes first this one.
fn find<'b>(list: &'b [crate::body::run::Numbered<'b>], number: usize) -> Option<&'b Statement> {
    let at = list.iter().rev().find(|s| s.number <= number)?;
    match at.number == number {
        true => Some(at.statement),
        false => at.branches().find_map(|b| find(b, number)),
    }
}

/// Steps until the process goes on past its wait; false where it does not soon.
fn woken(m: &Model, c: &mut Config) -> bool {
    for _ in 0..20 {
        if c.processes[0].standing != WAITING {
            break;
        }
        let step = c.fitting();
        if c.step(m, step).is_err() {
            break;
        }
    }
    c.processes[0].standing == READY
}

/// A value of this type.
fn any_value(rng: &mut Rng, ty: u8) -> i32 {
    match ty {
        INTEGER if rng.chance(1, 8) => rng.choose(&[i32::MAX, -i32::MAX, 1 << 30]),
        INTEGER => rng.range(-4, 12) as i32,
        LOGIC => rng.below(9) as i32,
        _ => rng.below(2) as i32,
    }
}

/// A configuration with any values and times.
fn any_config(rng: &mut Rng, m: &Model) -> Config {
    let mut c = Config::first(m);
    c.time = match rng.below(3) {
        0 => 0,
        1 => rng.below(1_000) as u64,
        _ => rng.next() % 1_000_000_000_001,
    };
    c.delta = rng.below(1_001) as u32;
    for (n, s) in m.signals.iter().enumerate() {
        c.signals[n] = std::array::from_fn(|_| any_value(rng, s.ty));
        c.earlier[n] = any_value(rng, s.ty);
    }
    for (v, record) in c.variables.iter_mut().zip(&m.variables) {
        *v = any_value(rng, record.ty);
    }
    for (d, record) in c.drivers.iter_mut().zip(&m.drivers) {
        let ty = m.signals[record.signal as usize].ty;
        let mut at = c.time;
        let mut pending = || {
            at += rng.below(4) as u64 + 1;
            (at - 1, Some(any_value(rng, ty)))
        };
        let wave: Vec<_> = (0..8).map(|_| pending()).collect();
        *d = Driver {
            current: Some(any_value(rng, ty)),
            wave: wave[..rng.below(9)].to_vec(),
        };
    }
    c
}

#[cfg(test)]
mod tests {
    use super::*;

    #[test]
    fn agreement() {
        let t = bodies(6_000, 5, Some(&read_into)).unwrap();
        assert_eq!(t.require(60, 10), Ok(()));
        assert_eq!(bodies(300, 5, None).unwrap().rooms.sum(), 0);
        let message = BodyTally::default().require(0, 1).unwrap_err();
        for way in ways() {
            assert!(message.contains(&format!("{way} occurred 0")), "{message}");
        }
        let message = BodyTally::default().require(1, 0).unwrap_err();
        assert!(message.contains("number 27 occurred 0"), "{message}");
    }

    #[test]
    fn what_is_rare_is_told() {
        let t = bodies(3_000, 5, Some(&read_into)).unwrap();
        assert_eq!(t.require(1, 1), Ok(()));
        let found = t.require(1, 1_000_000).unwrap_err();
        assert!(found.contains("at least 1000000 are due"), "{found}");
    }

    /// What is told of a reader that spoils what this one gives.
    fn told_of(spoil: impl Fn(&[u8], &mut [u8], &mut [u8], &mut [u32; 3]), expected: &str) {
        let other = |t: &[u8], n: &mut [u8], s: &mut [u8], c: &mut [u32; 3]| {
            read_into(t, n, s, c);
            spoil(t, n, s, c);
        };
        let found = bodies(2_000, 5, Some(&other)).err().unwrap_or_default();
        assert!(found.contains(expected), "{expected}: {found}");
    }

    #[test]
    fn another_readers_difference_is_told() {
        told_of(|_, _, _, c| c[0] = 0, "second reader [26, 0, 0]");
        told_of(
            |_, _, _, c| c[1] += (c[0] == 26) as u32,
            "second reader [26, 0, 0]",
        );
        told_of(
            |_, _, _, c| c[2] = c[2].min(200),
            "second reader [0, 0, 201]",
        );
        told_of(|_, _, _, c| c[1] = c[1].min(400), "second reader [0, 405, ");
        // A byte behind the records, one of a refused text, one of a record that does not fit.
        told_of(
            |_, n, _, c| {
                if let Some(byte) = n.get_mut(12 * c[1] as usize) {
                    *byte ^= 1;
                }
            },
            "byte 0 of node",
        );
        told_of(
            |_, _, s, c| {
                if c[0] == 26 && !s.is_empty() {
                    s[0] ^= 1;
                }
            },
            "byte 0 of statement 0",
        );
        told_of(
            |_, n, _, c| {
                let whole = n.len() / 12 * 12;
                if c[0] == 0 && whole < n.len() && whole < 12 * c[1] as usize {
                    n[whole] ^= 1;
                }
            },
            "byte 0 of node",
        );
        told_of(
            |_, _, s, _| {
                if s.len() >= 2_400 {
                    s[2_399] ^= 128;
                }
            },
            "byte 11 of statement 199",
        );
        // A text that is too long is read.
        told_of(
            |t, n, s, c| {
                if t.len() == 65_536 {
                    read_into(&t[..65_535], n, s, c);
                }
            },
            "65536 bytes",
        );
    }
}
