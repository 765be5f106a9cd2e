//! Texts with given records, made into models here and, where one is given, by another maker:
//! the number, the three counts and every byte of the buffer, in rooms of several sorts. The
//! models are judged from their blocks, hold the given and the made records, and some are
//! played, in both kernels and beside the meaning of their texts.

use super::bodies::noise;
use super::{play, print_shown, Judge, Session};
use crate::body::damage::ORDER;
use crate::body::limits::limits;
use crate::body::parser::parse;
use crate::body::records::read;
use crate::body::run::{both, Program};
use crate::body::texts::{case, pairs, ways};
use crate::body::whole::{made, make_into, Words};
use crate::cycle::Config;
use crate::gen;
use crate::model::*;
use crate::numbers::Counts;
use crate::rng::Rng;
use std::collections::BTreeMap;

/// Another maker: text, given records, room for the model, and its four words.
pub type Make<'a> = &'a dyn Fn(&[u8], &[u8], &mut [u8], &mut Words);

/// The rooms for a model.
const ROOMS: [&str; 6] = [
    "a room of just the blocks",
    "a longer room",
    "a room of fewer blocks",
    "a room that ends in a block",
    "a room of one byte less",
    "no room",
];

/// What accepted models show.
const SHOWN: [&str; 28] = [
    "no signals",
    "32 signals",
    "no variables",
    "42 variables",
    "43 variables",
    "64 variables",
    "no drivers",
    "32 drivers",
    "no nodes",
    "nodes that fill their blocks",
    "one node in the last block",
    "400 nodes",
    "statements that fill their blocks",
    "one statement in the last block",
    "200 statements",
    "an integer signal",
    "a plain logic signal",
    "a bus",
    "a register",
    "an integer variable",
    "a logic variable",
    "a boolean variable",
    "a driver of a signal that is not assigned",
    "a signal that is assigned twice",
    "2 to 6 blocks",
    "7 to 12 blocks",
    "13 to 19 blocks",
    "20 blocks",
];

/// One accepted model in so many is played, with at most so many orders.
const PLAYED: u64 = 8;
const ORDERS: usize = 60;

/// An accepted share that is due of the texts.
const ACCEPTED: u64 = 3;

#[derive(Default)]
pub struct TextTally {
    pub numbers: Counts,
    ways: BTreeMap<&'static str, Counts>,
    /// Texts by the two numbers of their damages.
    pairs: BTreeMap<[u32; 2], u64>,
    pub shown: Counts<&'static str>,
    pub rooms: Counts<&'static str>,
    /// Bytes of buffers that were compared.
    pub bytes: u64,
    pub limits: u64,
    /// Models that were played, and the orders.
    pub played: u64,
    pub orders: u64,
    /// Texts run to their first wait or fault.
    pub runs: u64,
}

/// What another kernel has of this.
#[derive(Clone, Copy, Default)]
pub struct Others<'a> {
    pub make: Option<Make<'a>>,
    pub judge: Option<Judge<'a>>,
    pub session: Option<Session<'a>>,
}

/// Makes `n` texts into models from seed `seed` on; text i has the seed `seed + i`.
pub fn texts(n: u64, seed: u64, other: Others) -> Result<TextTally, String> {
    let mut t = TextTally::default();
    for limit in limits() {
        let told = |found: String| format!("texts: `{}`: {found}", limit.name);
        let words = t.make(&limit.text, &limit.given, 1, other).map_err(told)?;
        if words[0] != limit.number {
            return Err(told(format!("is {}, not {}", words[0], limit.number)));
        }
        t.limits += 1;
    }
    for i in 0..n {
        let seed = seed.wrapping_add(i);
        let (case, pair) = case(seed);
        let told = |found: String| {
            let what = case.what;
            format!("texts: first difference at seed {seed} ({what}): {found}")
        };
        let words = t.make(&case.text, &case.given, seed, other).map_err(told)?;
        let number = words[0];
        if case.expected.is_some_and(|e| e != number) {
            let expected = case.expected;
            return Err(told(format!("made for {expected:?}, but is {number}")));
        }
        t.numbers.add(number);
        t.ways.entry(case.what).or_default().add(number);
        if let Some(pair) = pair {
            *t.pairs.entry(pair).or_default() += 1;
        }
    }
    Ok(t)
}

/// The length of a room for so many bytes of blocks.
fn room(rng: &mut Rng, which: &str, whole: usize) -> usize {
    if which == ROOMS[0] {
        whole
    } else if which == ROOMS[1] {
        let more = rng.choose(&[1, 2, 511, 512, 513, 1_024, 4_000]);
        whole + more
    } else if which == ROOMS[2] {
        BLOCK * rng.below(whole / BLOCK)
    } else if which == ROOMS[3] {
        let inside = 1 + rng.below(BLOCK - 1);
        BLOCK * rng.below(whole / BLOCK) + inside
    } else if which == ROOMS[4] {
        whole - 1
    } else {
        0
    }
}

/// Where two buffers differ.
fn difference(a: &[u8], b: &[u8]) -> Option<String> {
    let at = (0..a.len()).find(|&n| a[n] != b[n])?;
    let (block, byte) = (at / BLOCK, at % BLOCK);
    Some(format!(
        "byte {byte} of block {block}: second maker {}, proved maker {}",
        a[at], b[at]
    ))
}

impl TextTally {
    fn see(&mut self, what: &'static str, when: bool) {
        if when {
            self.shown.add(what);
        }
    }

    /// Makes a text into a model in both makers, in every sort of room; an accepted model is
    /// looked at, and maybe played.
    fn make(
        &mut self,
        text: &[u8],
        given: &[u8],
        seed: u64,
        other: Others,
    ) -> Result<Words, String> {
        let rng = &mut Rng::new(!seed);
        let mut words = [7; 4];
        make_into(text, given, &mut [], &mut words);
        let whole = match words[3] {
            0 => BLOCK * (1 + rng.below(21)),
            blocks => BLOCK * blocks as usize,
        };
        if let Some(make) = other.make {
            for which in ROOMS {
                let length = room(rng, which, whole);
                self.compare(text, given, noise(rng, length), make)?;
                self.rooms.add(which);
            }
        }
        if let Ok((m, blocks)) = made(text, given) {
            self.accepted(text, given, &m, &blocks, other)?;
            if seed % PLAYED == 0 {
                self.play(text, &m, &blocks, rng, other)?;
            }
        }
        Ok(words)
    }

    /// Holds the two makers to each other in a room with these bytes.
    fn compare(
        &mut self,
        text: &[u8],
        given: &[u8],
        room: Vec<u8>,
        make: Make,
    ) -> Result<(), String> {
        let (mut ours, mut theirs) = (room.clone(), room);
        let (mut our_words, mut their_words) = ([7; 4], [8; 4]);
        make_into(text, given, &mut ours, &mut our_words);
        make(text, given, &mut theirs, &mut their_words);
        let length = ours.len();
        if our_words != their_words {
            return Err(format!(
                "second maker {our_words:?}, proved maker {their_words:?}, in a room of {length} bytes"
            ));
        }
        self.bytes += length as u64;
        match difference(&ours, &theirs) {
            Some(found) => Err(format!("{found}, in a room of {length} bytes")),
            None => Ok(()),
        }
    }

    /// The blocks are judged from their bytes, and hold the given and the made records.
    fn accepted(
        &mut self,
        text: &[u8],
        given: &[u8],
        m: &Model,
        blocks: &[u8],
        other: Others,
    ) -> Result<(), String> {
        if load(blocks).as_ref() != Ok(m) {
            return Err("the blocks are not those of the model".into());
        }
        let theirs = other.judge.map_or(0, |judge| judge(blocks));
        if theirs != 0 {
            return Err(format!("the proved kernel judges the blocks {theirs}"));
        }
        laid_out(blocks)?;
        let of = |kind: u8| records_of(blocks, kind);
        if [of(1), of(2), of(4)].concat() != given[3..] {
            return Err("the blocks have not the given records".into());
        }
        let own = read(text).map(|made| (made.nodes, made.statements));
        if own != Ok((m.nodes.clone(), m.statements.clone())) {
            return Err("the blocks have not the made records".into());
        }
        let many = m.statements.len().to_le_bytes();
        if of(3) != [0, 0, many[0], many[1], 0, 0, 0, 0, 0, 0, 0, 0] {
            return Err("the one process has not all statements".into());
        }
        self.count(m, blocks.len() / BLOCK);
        Ok(())
    }

    /// Counts what an accepted model shows.
    fn count(&mut self, m: &Model, blocks: usize) {
        let (nodes, statements) = (m.nodes.len(), m.statements.len());
        let variables = m.variables.len();
        self.see(SHOWN[0], m.signals.is_empty());
        self.see(SHOWN[1], m.signals.len() == 32);
        self.see(SHOWN[2], variables == 0);
        self.see(SHOWN[3], variables == 42);
        self.see(SHOWN[4], variables == 43);
        self.see(SHOWN[5], variables == 64);
        self.see(SHOWN[6], m.drivers.is_empty());
        self.see(SHOWN[7], m.drivers.len() == 32);
        self.see(SHOWN[8], nodes == 0);
        self.see(SHOWN[9], nodes > 0 && nodes % PER_BLOCK == 0);
        self.see(SHOWN[10], nodes > 1 && nodes % PER_BLOCK == 1);
        self.see(SHOWN[11], nodes == 400);
        self.see(SHOWN[12], statements % PER_BLOCK == 0);
        self.see(SHOWN[13], statements > 1 && statements % PER_BLOCK == 1);
        self.see(SHOWN[14], statements == 200);
        let signal = |ty, kind| m.signals.iter().any(|s| (s.ty, s.kind) == (ty, kind));
        self.see(SHOWN[15], signal(INTEGER, PLAIN));
        self.see(SHOWN[16], signal(LOGIC, PLAIN));
        self.see(SHOWN[17], signal(LOGIC, BUS));
        self.see(SHOWN[18], signal(LOGIC, REGISTER));
        for (n, ty) in [INTEGER, LOGIC, BOOLEAN].into_iter().enumerate() {
            self.see(SHOWN[19 + n], m.variables.iter().any(|v| v.ty == ty));
        }
        let assigned = |signal: u8| {
            let own = |s: &&StatementRecord| s.kind == 2 && s.a == signal.into();
            m.statements.iter().filter(own).count()
        };
        let mut drivers = m.drivers.iter().map(|d| assigned(d.signal));
        self.see(SHOWN[22], drivers.clone().any(|many| many == 0));
        self.see(SHOWN[23], drivers.any(|many| many > 1));
        self.see(SHOWN[24], (2..=6).contains(&blocks));
        self.see(SHOWN[25], (7..=12).contains(&blocks));
        self.see(SHOWN[26], (13..=19).contains(&blocks));
        self.see(SHOWN[27], blocks == 20);
    }

    /// Plays the model, in both kernels, and runs its text to the first wait or fault.
    fn play(
        &mut self,
        text: &[u8],
        m: &Model,
        blocks: &[u8],
        rng: &mut Rng,
        other: Others,
    ) -> Result<(), String> {
        let orders = gen::orders(rng, m, ORDERS);
        let blank = rng.next() as u8;
        let (number, _) = play(blocks, &orders, 4 * orders.len(), blank, other.session)?;
        if number != 0 {
            return Err(format!("a session of the model is refused with {number}"));
        }
        self.played += 1;
        self.orders += (orders.len() / 4) as u64;
        let body = parse(text).map_err(|_| "the text is no sentence")?;
        let stop = both(&Program::of(&body), m, &mut Config::first(m), vec![])?;
        self.runs += stop.is_some() as u64;
        Ok(())
    }

    /// Err where something occurred less often than it must: each number, each way and each
    /// thing that is shown, each pair of damages, models that were played.
    pub fn require(&self, number: u64, least: u64, pair: u64) -> Result<(), String> {
        self.numbers.require("number", &ORDER, number)?;
        let mut all = Counts::default();
        for way in ways() {
            all.add_many(way, self.ways.get(way).map_or(0, Counts::sum));
        }
        all.require("texts:", &ways(), least)?;
        self.shown.require("texts:", &SHOWN, least)?;
        if self.rooms.sum() > 0 {
            self.rooms.require("texts:", &ROOMS, least)?;
        }
        for [first, second] in pairs() {
            let many = self.pairs.get(&[first, second]).copied().unwrap_or(0);
            if many < pair {
                return Err(format!(
                    "{first} and {second} in one text occurred {many} times; at least {pair} are due"
                ));
            }
        }
        let (all, accepted) = (self.numbers.sum(), self.numbers.of(0));
        if ACCEPTED * accepted < all || self.played.min(self.runs) < least {
            return Err(format!(
                "of {all} texts {accepted} are accepted, {} models played, {} texts run",
                self.played, self.runs
            ));
        }
        Ok(())
    }

    pub fn print(&self) {
        println!(
            "made {} texts with given records into models: {} accepted; {} limit cases",
            self.numbers.sum(),
            self.numbers.of(0),
            self.limits
        );
        println!("number       texts");
        for n in ORDER {
            println!("{n:6} {:11}", self.numbers.of(n));
        }
        let head: String = ORDER.iter().map(|n| format!("{n:7}")).collect();
        println!("{:44}{head}", "how it was made, by number");
        for way in ways() {
            let none = Counts::default();
            let counts = self.ways.get(way).unwrap_or(&none);
            let cell = |&n: &u32| format!("{:7}", counts.of(n));
            let row: String = ORDER.iter().map(cell).collect();
            println!("{way:44}{row}");
        }
        let each = pairs().into_iter().map(|[first, second]| {
            let many = self.pairs.get(&[first, second]).copied().unwrap_or(0);
            format!("{first} before {second}: {many}")
        });
        println!("two damages: {}", each.collect::<Vec<_>>().join(", "));
        print_shown("accepted models with", &self.shown, &SHOWN);
        println!(
            "models played {} by {} orders, their texts run to a wait or a fault {}",
            self.played, self.orders, self.runs
        );
        if self.rooms.sum() > 0 {
            print_shown("makings", &self.rooms, &ROOMS);
            println!("bytes of rooms compared {}", self.bytes);
        }
    }
}

/// The records of a kind, one after another.
fn records_of(blocks: &[u8], kind: u8) -> Vec<u8> {
    let own = blocks.chunks_exact(BLOCK).filter(|b| b[2] == kind);
    own.flat_map(|b| &b[4..4 + RECORD * b[3] as usize])
        .copied()
        .collect()
}

/// Each kind in blocks of its own, all full but the last of a kind, none empty.
fn laid_out(blocks: &[u8]) -> Result<(), String> {
    let all: Vec<&[u8]> = blocks.chunks_exact(BLOCK).collect();
    for (n, b) in all.iter().enumerate() {
        let last = all.get(n + 1).is_none_or(|next| next[2] != b[2]);
        let least = if last { 1 } else { PER_BLOCK as u8 };
        if b[..2] != (n as u16).to_le_bytes() || b[3] < least {
            return Err(format!("block {n} has another number, or too few records"));
        }
    }
    Ok(())
}

#[cfg(test)]
mod tests {
    use super::*;

    const SECOND: Others = Others {
        make: Some(&make_into),
        judge: Some(&judge),
        session: None,
    };

    #[test]
    fn agreement() {
        let t = texts(6_000, 5, SECOND).unwrap();
        assert_eq!(t.require(40, 15, 3), Ok(()));
        assert_eq!(texts(300, 5, Others::default()).unwrap().rooms.sum(), 0);
        let message = TextTally::default().require(0, 1, 0).unwrap_err();
        for way in ways() {
            assert!(message.contains(&format!("{way} occurred 0")), "{message}");
        }
        let message = TextTally::default().require(1, 0, 0).unwrap_err();
        assert!(message.contains("number 27 occurred 0"), "{message}");
        let message = TextTally::default().require(0, 0, 1).unwrap_err();
        assert!(message.contains("26 and 27 in one text"), "{message}");
    }

    #[test]
    fn names_differ() {
        let mut all = ways();
        let many = all.len();
        all.sort();
        all.dedup();
        assert_eq!(all.len(), many);
        assert_eq!(pairs().len(), 21);
    }

    /// What is told of a maker that spoils what this one gives.
    fn told_of(spoil: impl Fn(&[u8], &[u8], &mut [u8], &mut Words), expected: &str) {
        let other = |t: &[u8], g: &[u8], m: &mut [u8], w: &mut Words| {
            make_into(t, g, m, w);
            spoil(t, g, m, w);
        };
        let others = Others {
            make: Some(&other),
            ..SECOND
        };
        let found = texts(2_000, 5, others).err().unwrap_or_default();
        assert!(found.contains(expected), "{expected}: {found}");
    }

    #[test]
    fn another_makers_difference_is_told() {
        for n in ORDER.into_iter().filter(|&n| n != 0) {
            let second = format!("second maker [{n}, 0, 0, 0], proved maker [99");
            told_of(
                |_, _, _, w| w[0] = if w[0] == n { 99 } else { w[0] },
                &second,
            );
        }
        // Counts of a refused text, and one too many of an accepted one.
        for at in 1..4 {
            told_of(
                |_, _, _, w| w[at] += (w[0] == 8) as u32,
                "maker [8, 0, 0, 0]",
            );
            told_of(|_, _, _, w| w[at] += (w[0] == 0) as u32, "maker [0, ");
        }
        // A byte behind the blocks, one of a refused text, the last that fits.
        told_of(
            |_, _, m, w| {
                if let Some(byte) = m.get_mut(BLOCK * w[3] as usize) {
                    *byte ^= 1;
                }
            },
            "byte 0 of block",
        );
        told_of(
            |_, _, m, w| {
                if w[0] == 5 && !m.is_empty() {
                    m[0] ^= 1;
                }
            },
            "byte 0 of block 0",
        );
        told_of(
            |_, _, m, w| {
                if w[0] == 0 && m.len() == BLOCK * w[3] as usize - 1 {
                    m[BLOCK * w[3] as usize - 2] ^= 1;
                }
            },
            "byte 510 of block",
        );
        told_of(
            |_, _, m, w| {
                let inside = 1..BLOCK - 1;
                if w[0] == 0
                    && inside.contains(&(m.len() % BLOCK))
                    && m.len() < BLOCK * w[3] as usize
                {
                    let last = m.len() - 1;
                    m[last] ^= 1;
                }
            },
            " of block",
        );
        // Given bytes that are too many by a record.
        told_of(
            |t, g, m, w| {
                if w[0] == 4 && g.len() % RECORD == 3 && g.len() > 14 {
                    make_into(t, &g[..g.len() - RECORD], m, w);
                }
            },
            "proved maker [0",
        );
    }

    #[test]
    fn another_layout_is_told() {
        let block = |n: u16, kind: u8, many: usize| block(n, kind, &vec![[0; RECORD]; many]);
        let right = [block(0, 1, 3), block(1, 5, 42), block(2, 5, 1)].concat();
        assert_eq!(laid_out(&right), Ok(()));
        for wrong in [
            [block(0, 1, 3), block(1, 5, 41), block(2, 5, 2)],
            [block(0, 1, 3), block(1, 5, 42), block(2, 5, 0)],
            [block(0, 1, 3), block(1, 2, 0), block(2, 5, 2)],
            [block(0, 1, 3), block(2, 5, 42), block(2, 5, 1)],
        ] {
            assert!(laid_out(&wrong.concat()).is_err());
        }
        assert_eq!(records_of(&right, 5).len(), 43 * RECORD);
    }
}
