//! Texts with given records, for whole models: most of them accepted, the others damaged in
//! one way, or in two ways of different numbers.

use super::damage::*;
use super::gen::{accepted, body_of, draft, given_records, setting, Draft, Style};
use super::records::given;
use super::spell::{pieces, set};
use super::tree::*;
use crate::integers::TOP;
use crate::model::*;
use crate::rng::Rng;

/// What is damaged.
#[derive(Clone, Copy)]
enum Op {
    Tree(TreeOp),
    Tokens(TokenOp),
    Text(ByteOp),
    Given(ByteOp),
}

/// A way to damage a text or its records: how it is called, the number that it comes to.
#[derive(Clone, Copy)]
struct Damage {
    name: &'static str,
    number: u32,
    op: Op,
}

/// How many signals, variables and drivers are given.
fn counts(given: &[u8]) -> [usize; 3] {
    [0, 1, 2].map(|n| given[n] as usize)
}

/// The place of one of the given records: 0 signals, 1 variables, 2 drivers.
fn record(rng: &mut Rng, given: &[u8], kind: usize) -> Option<usize> {
    let many = counts(given);
    let before: usize = many[..kind].iter().sum();
    (many[kind] > 0).then(|| 3 + RECORD * (before + rng.below(many[kind])))
}

/// Any byte from `least` on.
fn from(rng: &mut Rng, least: u8) -> u8 {
    match rng.chance(1, 2) {
        true => least,
        false => rng.range(least.into(), 255) as u8,
    }
}

/// One of a record's bytes becomes one from `least` on.
fn byte(rng: &mut Rng, given: &mut [u8], kind: usize, at: usize, least: u8) -> Option<()> {
    let record = record(rng, given, kind)?;
    given[record + at] = from(rng, least);
    Some(())
}

/// A byte that records of this kind do not name.
fn unnamed(rng: &mut Rng, given: &mut [u8], kind: usize) -> Option<()> {
    let at = match kind {
        2 => 2 + rng.below(10),
        _ => rng.choose(&[2, 3, 8, 9, 10, 11]),
    };
    byte(rng, given, kind, at, 1)
}

/// A starting value that the record's type does not have.
fn wrong_start(rng: &mut Rng, given: &mut [u8], kind: usize) -> Option<()> {
    let record = record(rng, given, kind)?;
    let value = match given[record] {
        INTEGER => i32::MIN,
        LOGIC => rng.choose(&[9, 10, 256, -1, TOP, i32::MIN]),
        _ => rng.choose(&[2, 3, 256, -1, TOP, i32::MIN]),
    };
    given[record + 4..record + 8].copy_from_slice(&value.to_le_bytes());
    Some(())
}

const GIVEN: &[(&str, u32, ByteOp)] = &[
    ("given records cut", 4, |rng, given| {
        let length = given.len();
        (length > 3).then(|| given.truncate(rng.range(3, length as i64 - 1) as usize))
    }),
    ("no more given than how many", 4, |_, given| {
        (given.len() > 3).then(|| given.truncate(3))
    }),
    ("a byte too few", 4, |_, given| {
        (given.len() > 3).then(|| _ = given.pop())
    }),
    ("a byte too many", 4, |rng, given| {
        given.push(rng.choose(&[0, 0, 1, 255]));
        Some(())
    }),
    ("given records drawn out", 4, |rng, given| {
        let more = rng.choose(&[2, 11, 12, 24, 500, 3_072, 65_536]);
        let fill = rng.choose(&[0, 1, 255]);
        given.resize(given.len() + more, fill);
        Some(())
    }),
    ("more records said than given", 4, |rng, given| {
        let at = rng.below(3);
        given[at] = from(rng, given[at].checked_add(1)?);
        Some(())
    }),
    ("fewer drivers said than given", 4, |rng, given| {
        let many = given[2] as usize;
        (many > 0).then(|| given[2] = rng.below(many) as u8)
    }),
    ("a signal's type", 5, |rng, given| byte(rng, given, 0, 0, 2)),
    ("a signal's kind", 5, |rng, given| {
        let record = record(rng, given, 0)?;
        let least = if given[record] == INTEGER { 1 } else { 3 };
        given[record + 1] = from(rng, least);
        Some(())
    }),
    ("a signal's starting value", 5, |rng, given| {
        wrong_start(rng, given, 0)
    }),
    ("an unnamed byte of a signal", 5, |rng, given| {
        unnamed(rng, given, 0)
    }),
    ("a variable's type", 5, |rng, given| {
        byte(rng, given, 1, 0, 3)
    }),
    ("a variable of process 1 or above", 5, |rng, given| {
        byte(rng, given, 1, 1, 1)
    }),
    ("a variable's starting value", 5, |rng, given| {
        wrong_start(rng, given, 1)
    }),
    ("an unnamed byte of a variable", 5, |rng, given| {
        unnamed(rng, given, 1)
    }),
    ("a driver of process 1 or above", 5, |rng, given| {
        byte(rng, given, 2, 0, 1)
    }),
    ("a driver of a signal that is not given", 5, |rng, given| {
        let signals = given[0];
        byte(rng, given, 2, 1, signals)
    }),
    ("an unnamed byte of a driver", 5, |rng, given| {
        unnamed(rng, given, 2)
    }),
    ("two drivers exchanged", 8, |rng, given| {
        let (a, b) = (record(rng, given, 2)?, record(rng, given, 2)?);
        let length = RECORD.min(a.abs_diff(b));
        (0..length).for_each(|n| given.swap(a + n, b + n));
        (length > 0).then_some(())
    }),
    ("a driver twice", 8, |rng, given| {
        let record = record(rng, given, 2)?;
        let again = given[record..record + RECORD].to_vec();
        given.splice(record..record, again);
        given[2] += 1;
        Some(())
    }),
];

/// Ways on the tree that stand here more finely.
const FINER: [&str; 4] = [
    "a signal record's field",
    "a variable record's field",
    "a driver record's field",
    "drivers that do not rise",
];

/// As many records of a kind as its byte can say.
fn most_said(rng: &mut Rng, d: &mut Draft) -> Option<()> {
    match rng.below(3) {
        0 => d.m.signals.resize(255, SignalRecord::default()),
        1 => d.m.variables.resize(255, VariableRecord::default()),
        _ => d.m.drivers.resize(255, DriverRecord::default()),
    }
    Some(())
}

/// All the ways that come to a number.
fn damages() -> Vec<Damage> {
    let tree = TREE.iter().filter(|w| !FINER.contains(&w.0));
    let tree = tree.filter_map(|&(name, number, op)| Some((name, number?, Op::Tree(op))));
    let text = TEXT.iter().filter(|w| w.1 == Some(26));
    let text = text.map(|&(name, _, op)| (name, 26, Op::Text(op)));
    let given = GIVEN.iter().map(|&(name, n, op)| (name, n, Op::Given(op)));
    let mut list: Vec<_> = tree.chain(text).chain(given).collect();
    list.push(("tokens of no sentence", 26, Op::Tokens(no_sentence)));
    list.push(("255 records of a kind", 4, Op::Tree(most_said)));
    let all = list.into_iter();
    all.map(|(name, number, op)| Damage { name, number, op })
        .collect()
}

/// An accepted draft with room left for what damages add.
fn base(rng: &mut Rng) -> Draft {
    loop {
        let d = accepted(rng);
        if nodes(&d.body) <= 300 && makes(&d.body.list) <= 150 {
            return d;
        }
    }
}

/// Damages a draft, its text and its records in the ways, one after another at each of these;
/// None where it can not be.
fn damage(rng: &mut Rng, what: &'static str, number: u32, ways: &[Damage]) -> Option<Case> {
    let mut d = base(rng);
    for way in ways {
        if let Op::Tree(op) = way.op {
            op(rng, &mut d)?;
        }
    }
    let mut tokens = pieces(&d.body);
    for way in ways {
        if let Op::Tokens(op) = way.op {
            op(rng, &mut tokens)?;
        }
    }
    let setting = setting(rng);
    let mut text = set(rng, &tokens, setting);
    let mut given = given(&d.m);
    let before = counts(&given);
    for way in ways {
        match way.op {
            Op::Text(op) => op(rng, &mut text)?,
            Op::Given(op) => op(rng, &mut given)?,
            _ => {}
        }
    }
    // A name that is not among the records must not be said to be.
    if number == 27 && (0..2).any(|n| counts(&given)[n] > before[n]) {
        return None;
    }
    Some(Case {
        what,
        text,
        given,
        expected: Some(number),
        body: None,
        setting,
    })
}

/// An accepted draft of given records.
fn accepted_of(rng: &mut Rng, records: impl Fn(&mut Rng) -> Model) -> Draft {
    loop {
        let (style, m) = (Style::random(rng), records(rng));
        let d = body_of(rng, style, m);
        if d.number(rng) == 0 {
            return d;
        }
    }
}

/// Signals alone.
fn signals_given(rng: &mut Rng) -> Model {
    Model {
        variables: vec![],
        ..given_records(rng)
    }
}

/// 32 signals, each driven, and 64 variables.
fn all_given(rng: &mut Rng) -> Model {
    let mut m = Model::default();
    while m.signals.len() < 32 || m.variables.len() < 64 {
        let more = given_records(rng);
        m.signals.extend(more.signals);
        m.variables.extend(more.variables);
    }
    m.signals.truncate(32);
    m.variables.truncate(64);
    let driver = |signal| DriverRecord { process: 0, signal };
    m.drivers = (0..32).map(driver).collect();
    m
}

/// Adds nodes, statements or variables until as many as `rest` are in a last block that is not
/// full.
fn fill(rng: &mut Rng, d: &mut Draft, rest: usize) -> Option<()> {
    match rng.below(3) {
        0 => {
            while nodes(&d.body) == 0 || nodes(&d.body) % PER_BLOCK != rest {
                let left = (PER_BLOCK + rest - nodes(&d.body) % PER_BLOCK) % PER_BLOCK;
                add_tree(rng, &mut d.body, left.max(1));
            }
        }
        1 => {
            while makes(&d.body.list) % PER_BLOCK != rest {
                insert(rng, &mut d.body, Statement::Null);
            }
        }
        _ => {
            let many = PER_BLOCK + rest;
            if d.m.variables.len() > many {
                return None;
            }
            d.m.variables.resize(many, VariableRecord::default());
        }
    }
    Some(())
}

/// Cuts the given bytes.
fn cut(rng: &mut Rng, what: &'static str, number: u32, d: &Draft, length: usize) -> Case {
    let mut case = finish(rng, what, Some(number), d);
    case.given.truncate(length);
    case
}

/// Does the text name a signal, a variable?
fn names(d: &Draft) -> [bool; 2] {
    let tokens = pieces(&d.body);
    let named = |letter: char| {
        let digit = |t: &String| t.as_bytes().get(1).is_some_and(u8::is_ascii_digit);
        tokens.iter().any(|t| t.starts_with(letter) && digit(t))
    };
    ['s', 'v'].map(named)
}

/// An accepted draft whose text names such a thing.
fn naming(rng: &mut Rng, which: fn([bool; 2]) -> bool) -> Draft {
    loop {
        let d = accepted(rng);
        if which(names(&d)) {
            return d;
        }
    }
}

/// A way to make a case, with how often it is taken among them.
type Made = (&'static str, usize, fn(&mut Rng, &'static str) -> Case);

const MADE: &[Made] = &[
    ("a body of fitting types", 480, |rng, what| {
        let d = accepted(rng);
        finish(rng, what, Some(0), &d)
    }),
    ("65,535 bytes", 15, |rng, what| {
        let pad = TEXT.iter().find(|w| w.0 == "65,535 bytes");
        let d = accepted(rng);
        let mut case = finish(rng, what, Some(0), &d);
        (pad.expect("it is a way").2)(rng, &mut case.text);
        case.body = None;
        case
    }),
    ("all that can be given", 15, |rng, what| {
        let d = accepted_of(rng, all_given);
        finish(rng, what, Some(0), &d)
    }),
    ("the most blocks", 15, |rng, what| loop {
        let mut d = accepted_of(rng, all_given);
        while nodes(&d.body) < 400 {
            let left = 400 - nodes(&d.body);
            add_tree(rng, &mut d.body, left.min(64));
        }
        while makes(&d.body.list) < 200 {
            insert(rng, &mut d.body, Statement::Null);
        }
        if d.number(rng) == 0 {
            return finish(rng, what, Some(0), &d);
        }
    }),
    ("no expression at all", 15, |rng, what| {
        let style = Style {
            nodes: 0,
            ..Style::random(rng)
        };
        let d = draft(rng, style);
        finish(rng, what, Some(0), &d)
    }),
    ("nothing given", 15, |rng, what| {
        let d = accepted_of(rng, |_| Model::default());
        finish(rng, what, Some(0), &d)
    }),
    ("a block filled to its last record", 40, |rng, what| {
        still(rng, what, |rng, d| fill(rng, d, 0))
    }),
    ("one record in a last block", 40, |rng, what| {
        still(rng, what, |rng, d| fill(rng, d, 1))
    }),
    ("no bytes given, no name", 15, |rng, what| {
        let d = accepted_of(rng, |_| Model::default());
        cut(rng, what, 4, &d, 0)
    }),
    ("one byte given, no variable named", 15, |rng, what| {
        let d = accepted_of(rng, signals_given);
        cut(rng, what, 4, &d, 1)
    }),
    ("two bytes given", 15, |rng, what| {
        let d = accepted(rng);
        cut(rng, what, 4, &d, 2)
    }),
    ("no bytes given, a name", 15, |rng, what| {
        let d = naming(rng, |names| names[0] || names[1]);
        cut(rng, what, 27, &d, 0)
    }),
    ("one byte given, a variable named", 15, |rng, what| {
        let d = naming(rng, |names| names[1]);
        cut(rng, what, 27, &d, 1)
    }),
    ("a body of any types", 15, |rng, what| {
        let style = Style {
            ill: Some(rng.choose(&[5, 20, 60])),
            ..Style::random(rng)
        };
        let d = draft(rng, style);
        finish(rng, what, None, &d)
    }),
    ("records of one kind said as of another", 15, |rng, what| {
        loop {
            let d = accepted(rng);
            let mut case = finish(rng, what, None, &d);
            let (a, b) = (rng.below(3), rng.below(3));
            if a != b && case.given[a] > 0 {
                let many = 1 + rng.below(case.given[a] as usize) as u8;
                case.given[a] -= many;
                case.given[b] += many;
                return case;
            }
        }
    }),
    ("any bytes given", 15, |rng, what| {
        let d = accepted(rng);
        let mut case = finish(rng, what, None, &d);
        let head = [32, 64, 32].map(|most| rng.below(most + 2) as u8);
        let records = RECORD * counts(&head).iter().sum::<usize>();
        let length = match rng.chance(1, 2) {
            true => records,
            false => rng.below(records + 40),
        };
        case.given = head.to_vec();
        let end = rng.choose(&[1, 2, 256]);
        let more = (0..length).map(|_| rng.below(end) as u8);
        case.given.extend(more);
        case
    }),
];

/// Shares of the drafts at a limit, of one damage and of two beside those of `MADE`.
const LIMIT: usize = 50;
const ONE: usize = 800;
const TWO: usize = 100;
const TWO_WAYS: &str = "two damages";

/// Every way by its name.
pub fn ways() -> Vec<&'static str> {
    let made = MADE.iter().map(|m| m.0);
    let damaged = damages().into_iter().map(|w| w.name);
    let limits = PLAIN_WAYS[2..6].iter().copied();
    let list = made.chain(limits).chain(damaged);
    list.chain([TWO_WAYS]).collect()
}

/// The pairs of numbers of two damages, the one that is tested first before the other.
pub fn pairs() -> Vec<[u32; 2]> {
    let numbers = &ORDER[..7];
    let all = (0..7).flat_map(|a| (a + 1..7).map(move |b| [numbers[a], numbers[b]]));
    all.collect()
}

/// A random case; of two damages the pair of their numbers.
pub fn case(seed: u64) -> (Case, Option<[u32; 2]>) {
    let rng = &mut Rng::new(seed);
    let shares = MADE.iter().map(|m| m.1);
    let shares: Vec<usize> = shares.chain([LIMIT, ONE, TWO]).collect();
    let which = rng.weighted(&shares);
    if let Some((what, _, make)) = MADE.get(which) {
        return (make(rng, what), None);
    }
    if which == MADE.len() {
        return (at_limit(rng), None);
    }
    let all = damages();
    if which == MADE.len() + 1 {
        let way = all[rng.below(all.len())];
        loop {
            if let Some(case) = damage(rng, way.name, way.number, &[way]) {
                return (case, None);
            }
        }
    }
    let pairs = pairs();
    let pair = pairs[rng.below(pairs.len())];
    let of = |n: u32| all.iter().filter(move |w| w.number == n).copied();
    let [first, second] = pair.map(|n| of(n).collect::<Vec<Damage>>());
    loop {
        // The one that is tested first is done last, so that the other does not undo it.
        let ways = [rng.choose(&second), rng.choose(&first)];
        if let Some(case) = damage(rng, TWO_WAYS, pair[0], &ways) {
            return (case, Some(pair));
        }
    }
}
