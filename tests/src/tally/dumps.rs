//! Dumps of generated runs: this kernel's against another's where one is given, in
//! output buffers of several lengths, each dump read back.

use super::{print_shown, with_none};
use crate::features::dumps;
use crate::gen;
use crate::model::load;
use crate::numbers::{self, Counts};
use crate::rng::Rng;
use crate::vcd::read::read;
use crate::vcd::read_back;
use crate::vcd::write::{settled, write};
use std::collections::BTreeSet;

/// Another kernel's dump: model, orders and output buffer to its number and the dump's
/// length.
pub type Dump<'a> = &'a dyn Fn(&[u8], &[u8], &mut [u8]) -> (u32, usize);

/// Bytes behind an output buffer that must stay.
const GUARD: usize = 64;

#[derive(Default)]
pub struct DumpTally {
    pub runs: u64,
    /// Runs by number; one that is not refused has 21 too, for want of room.
    pub numbers: Counts,
    /// Of the runs that are not refused: times, those printed, lines of values; values read
    /// back.
    pub times: u64,
    pub printed: u64,
    pub lines: u64,
    pub read: u64,
    pub bytes: u64,
    pub longest: usize,
    /// What they show.
    pub shown: Counts<&'static str>,
}

/// Dumps `n` runs from seed `seed` on; run i has the seed `seed + i`.
pub fn dumps(n: u64, seed: u64, other: Option<Dump>) -> Result<DumpTally, String> {
    let mut t = DumpTally::default();
    for i in 0..n {
        let seed = seed.wrapping_add(i);
        let case = gen::dump_case(seed);
        t.run(&case.model, &case.orders, seed, other)
            .map_err(|found| {
                let what = case.what;
                format!("dumps: first difference at seed {seed} ({what}): {found}")
            })?;
    }
    Ok(t)
}

/// What a kernel does with an output buffer: the number, the length, and all bytes.
type Written = (u32, usize, Vec<u8>);

/// Has a kernel dump a run into so many bytes full of `blank`, more of them behind.
fn dump(kernel: Dump, model: &[u8], orders: &[u8], room: usize, blank: u8) -> Written {
    let mut bytes = vec![blank; room + GUARD];
    let (number, length) = kernel(model, orders, &mut bytes[..room]);
    (number, length, bytes)
}

/// Lengths of output buffers: longer than the dump, its length, a byte shorter, much
/// shorter, none.
fn rooms(rng: &mut Rng, length: usize) -> Vec<usize> {
    let (more, less) = (1 + rng.below(1_000), rng.below(length.max(1)));
    let short = length.saturating_sub(1);
    vec![length + more, length, short, less, 0]
}

/// The number, the line of the first byte, or the length in which two differ.
fn difference(ours: &Written, theirs: &Written, room: usize) -> Option<String> {
    let told = |what: &str, a: String, b: String| {
        Some(format!(
            "{what} with {room} bytes of output: second kernel {a}, proved kernel {b}"
        ))
    };
    if ours.0 != theirs.0 {
        return told("number", ours.0.to_string(), theirs.0.to_string());
    }
    if let Some(at) = (0..ours.2.len()).find(|&n| ours.2[n] != theirs.2[n]) {
        let line = |w: &Written| {
            let text = &w.2[..w.1.min(w.2.len())];
            if at >= text.len() {
                return format!("{} behind its dump", w.2[at]);
            }
            let is_end = |&b: &u8| b == b'\n';
            let before = text[..at].rsplit(is_end).next().unwrap_or(&[]);
            let behind = text[at..].split(is_end).next().unwrap_or(&[]);
            let line = [before, behind].concat();
            format!("{:?}", String::from_utf8_lossy(&line))
        };
        return told(&format!("byte {at}"), line(ours), line(theirs));
    }
    match ours.1 == theirs.1 {
        true => None,
        false => told("length", ours.1.to_string(), theirs.1.to_string()),
    }
}

impl DumpTally {
    /// Dumps one run; Err is the difference, or why the dump does not read back.
    pub fn run(
        &mut self,
        model: &[u8],
        orders: &[u8],
        seed: u64,
        other: Option<Dump>,
    ) -> Result<(), String> {
        self.runs += 1;
        // Bytes that must stay where nothing is written.
        let blank = 0xA5 ^ seed as u8;
        let whole = crate::vcd::write::print(model, orders);
        let (mut numbers, mut text) = (BTreeSet::new(), None);
        for room in rooms(&mut Rng::new(seed), whole.len()) {
            let ours = dump(&write, model, orders, room, blank);
            let theirs = other.map(|other| dump(other, model, orders, room, blank));
            if let Some(found) = theirs.as_ref().and_then(|t| difference(&ours, t, room)) {
                return Err(found);
            }
            numbers.insert(ours.0);
            if ours.0 == 0 {
                let (_, length, bytes) = theirs.unwrap_or(ours);
                text = Some(bytes[..length].to_vec());
            }
        }
        numbers.into_iter().for_each(|n| self.numbers.add(n));
        match text {
            Some(text) => self.read(model, orders, text),
            None => Ok(()),
        }
    }

    /// Reads a dump and holds it to the settled values.
    fn read(&mut self, model: &[u8], orders: &[u8], text: Vec<u8>) -> Result<(), String> {
        let text = String::from_utf8(text).map_err(|e| e.to_string())?;
        let m = load(model).expect("a dumped model is accepted");
        let run = settled(&m, orders);
        let waves = read(&text).map_err(|e| format!("the dump cannot be read: {e}"))?;
        read_back(&waves, &m, &run)?;
        for what in dumps::of_run(&m, orders, &run) {
            self.shown.add(what);
        }
        let header = 4 + m.signals.len();
        self.times += run.len() as u64;
        self.printed += waves.times.len() as u64;
        self.lines += (text.lines().count() - header - waves.times.len()) as u64;
        self.read += (run.len() * m.signals.len()) as u64;
        self.bytes += text.len() as u64;
        self.longest = self.longest.max(text.len());
        Ok(())
    }

    /// Err where a number, or what a dump can show, occurred less often than `least`.
    pub fn require(&self, least: u64) -> Result<(), String> {
        let numbers = with_none(&numbers::dump());
        self.numbers.require("a dump's number", &numbers, least)?;
        self.shown.require("dumps:", &dumps::names(), least)
    }

    pub fn print(&self) {
        println!("dumped {} runs, each into five output buffers", self.runs);
        println!("number        runs");
        for n in with_none(&numbers::dump()) {
            println!("{n:6} {:11}", self.numbers.of(n));
        }
        println!(
            "{} bytes, the longest dump {}; {} of {} times printed, {} lines of values",
            self.bytes, self.longest, self.printed, self.times, self.lines
        );
        println!("{} settled values read back", self.read);
        print_shown("in dumps, by runs", &self.shown, &dumps::names());
    }
}

#[cfg(test)]
mod tests {
    use super::*;
    use crate::numbers::{ORDERS, OUTPUT};

    /// What is told of a kernel.
    fn told(kernel: Dump) -> String {
        dumps(400, 5, Some(kernel)).err().unwrap_or_default()
    }

    #[test]
    fn agreement() {
        assert_eq!(told(&write), "");
    }

    #[test]
    fn wrong_numbers_and_lengths_are_found() {
        let kernels: [(&str, Dump); 5] = [
            // 21 before 9, for a dump that just fits, for none; a length too large, and that
            // of a refused run.
            (
                "second kernel 9, proved kernel 21",
                &|m, o, out| match write(m, o, out) {
                    (ORDERS, _) if out.is_empty() => (OUTPUT, 0),
                    written => written,
                },
            ),
            ("second kernel 0, proved kernel 21", &|m, o, out| {
                let room = out.len().saturating_sub(1);
                write(m, o, &mut out[..room])
            }),
            (
                "second kernel 21, proved kernel 0",
                &|m, o, out| match write(m, o, out) {
                    (OUTPUT, _) => (0, 0),
                    written => written,
                },
            ),
            ("length with", &|m, o, out| {
                let (number, length) = write(m, o, out);
                (number, length + 1)
            }),
            (
                "second kernel 0, proved kernel 7",
                &|m, o, out| match write(m, o, out) {
                    (0, length) => (0, length),
                    (number, _) => (number, 7),
                },
            ),
        ];
        for (words, kernel) in kernels {
            let message = told(kernel);
            assert!(message.contains(words), "{words}: {message}");
        }
    }

    #[test]
    fn wrong_bytes_are_found() {
        let kernels: [(&[&str], Dump); 3] = [
            (&["proved kernel 0 behind its dump"], &|m, o, out| {
                let (number, length) = write(m, o, out);
                out[length..].fill(0);
                (number, length)
            }),
            // Written before a refusal.
            (&["proved kernel 36 behind its dump"], &|m, o, out| {
                let written = write(m, o, out);
                if written.0 == OUTPUT && !out.is_empty() {
                    out[0] = b'$';
                }
                written
            }),
            (&["second kernel \"z", "proved kernel \"x"], &|m, o, out| {
                let written = write(m, o, out);
                let text = &mut out[..written.1];
                for n in 1..text.len() {
                    if text[n - 1] == b'\n' && text[n] == b'z' {
                        text[n] = b'x';
                    }
                }
                written
            }),
        ];
        for (words, kernel) in kernels {
            let message = told(kernel);
            let found = words.iter().all(|words| message.contains(words));
            assert!(found && message.contains(": byte "), "{message}");
        }
    }

    // Dumps that agree are read all the same.
    #[test]
    fn what_does_not_read_back_is_told() {
        let (b, orders) = (crate::cases::inverter(), crate::cases::inverter_orders());
        let model = b.encode();
        let text = |from: &str, to: &str| {
            let text = crate::vcd::write::print(&model, &orders);
            text.replace(from, to).into_bytes()
        };
        let mut t = DumpTally::default();
        assert_eq!(t.read(&model, &orders, text("", "")), Ok(()));
        for (from, to, words) in [
            ("#1\n", "#2\n", "signal 0 at time 1"),
            ("1\"\n", "1\n", "the dump cannot be read"),
        ] {
            let message = t.read(&model, &orders, text(from, to)).unwrap_err();
            assert!(message.starts_with(words), "{message}");
        }
    }

    #[test]
    fn every_number_and_all_that_dumps_show_occur() {
        let mut t = dumps(2_000, 5, None).unwrap();
        assert_eq!(t.require(12), Ok(()));
        t.shown = Counts::default();
        let message = t.require(1).unwrap_err();
        for name in dumps::names() {
            assert!(message.contains(&format!("{name} occurred 0 times")));
        }
        t.numbers = Counts::default();
        let message = t.require(1).unwrap_err();
        for n in numbers::dump() {
            assert!(message.contains(&format!("number {n} occurred 0 times")));
        }
    }
}
