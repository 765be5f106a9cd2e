//! A configuration in a fixed layout, little endian, all past a total zero:
//! 0-7 time, 8-11 delta count, 12 to 15 how many signals, variables, drivers
//! and processes. Signal s at 16 + 128 s: 32 values of 4 bytes. Variable v at
//! 4,112 + 4 v. Driver d at 4,368 + 144 d, 8 bytes each: what its current
//! transaction carries, count of pending, eight times, what those eight carry:
//! a value's 32 bits, or 4,294,967,296 for null.
//! Process p at 13,584 + 16 p: place (2 bytes), standing, fault, 1 if it has
//! a deadline, a zero byte, the fault's node (2 bytes), deadline (8 bytes).
//! Signal s at 13,840 + 4 s: its earlier value.

use crate::cycle::{Carried, Config};

pub const DUMP: usize = 13_968;

/// Stands for null; no value has more than 32 bits.
pub const NULL: u64 = 1 << 32;

fn word(carried: Carried) -> u64 {
    carried.map_or(NULL, |value| value as u32 as u64)
}

pub fn dump(config: &Config) -> [u8; DUMP] {
    let mut out = [0; DUMP];
    let mut put = |at: usize, bytes: &[u8]| out[at..at + bytes.len()].copy_from_slice(bytes);
    put(0, &config.time.to_le_bytes());
    put(8, &config.delta.to_le_bytes());
    put(12, &[config.signals.len() as u8]);
    put(13, &[config.variables.len() as u8]);
    put(14, &[config.drivers.len() as u8]);
    put(15, &[config.processes.len() as u8]);
    for (s, values) in config.signals.iter().enumerate() {
        for (n, value) in values.iter().enumerate() {
            put(16 + 128 * s + 4 * n, &value.to_le_bytes());
        }
    }
    for (v, value) in config.variables.iter().enumerate() {
        put(4_112 + 4 * v, &value.to_le_bytes());
    }
    for (d, driver) in config.drivers.iter().enumerate() {
        let at = 4_368 + 144 * d;
        put(at, &word(driver.current).to_le_bytes());
        put(at + 8, &(driver.wave.len() as u64).to_le_bytes());
        for (n, &(time, carried)) in driver.wave.iter().enumerate() {
            put(at + 16 + 8 * n, &time.to_le_bytes());
            put(at + 80 + 8 * n, &word(carried).to_le_bytes());
        }
    }
    for (p, process) in config.processes.iter().enumerate() {
        let at = 13_584 + 16 * p;
        put(at, &process.place.to_le_bytes());
        put(
            at + 2,
            &[
                process.standing,
                process.fault,
                process.deadline.is_some() as u8,
            ],
        );
        put(at + 6, &process.node.to_le_bytes());
        put(at + 8, &process.deadline.unwrap_or(0).to_le_bytes());
    }
    for (s, value) in config.earlier.iter().enumerate() {
        put(13_840 + 4 * s, &value.to_le_bytes());
    }
    out
}

/// The value of a variable in a dump.
pub fn variable(dump: &[u8; DUMP], v: usize) -> i32 {
    let at = 4_112 + 4 * v;
    i32::from_le_bytes([dump[at], dump[at + 1], dump[at + 2], dump[at + 3]])
}

/// The place and the fault of a process in a dump.
pub fn place_and_fault(dump: &[u8; DUMP], p: usize) -> (u16, u8) {
    let at = 13_584 + 16 * p;
    (u16::from_le_bytes([dump[at], dump[at + 1]]), dump[at + 3])
}

/// How many words the proved kernel's dump has (crates/exports, specs/Dump).
pub const WORDS: usize = 2374;

/// Where word n stands in the layout of `dump`, and in how many bytes.
fn place(n: usize) -> (usize, usize) {
    match n {
        0 => (0, 8),
        1 => (8, 4),
        2..6 => (12 + (n - 2), 1),
        6..1030 => (16 + 4 * (n - 6), 4),
        1030..1094 => (4112 + 4 * (n - 1030), 4),
        1094..2246 => (4368 + 8 * (n - 1094), 8),
        2246..2342 => {
            // Place, standing, fault, node, whether it has a deadline, the deadline.
            let (p, j) = ((n - 2246) / 6, (n - 2246) % 6);
            let (within, bytes) = [(0, 2), (2, 1), (3, 1), (6, 2), (4, 1), (8, 8)][j];
            (13584 + 16 * p + within, bytes)
        }
        _ => (13840 + 4 * (n - 2342), 4),
    }
}

/// The proved kernel's words in the layout of `dump`; Err tells the first that
/// its field cannot hold.
pub fn pack(words: &[u64; WORDS]) -> Result<[u8; DUMP], String> {
    let mut out = [0; DUMP];
    for (n, word) in words.iter().enumerate() {
        let (at, bytes) = place(n);
        let word_bytes = word.to_le_bytes();
        let (field, rest) = word_bytes.split_at(bytes);
        if rest.iter().any(|&b| b != 0) {
            return Err(format!("word {n} is {word}, too large for {bytes} bytes"));
        }
        out[at..at + bytes].copy_from_slice(field);
    }
    Ok(out)
}

#[cfg(test)]
mod tests {
    use super::*;
    use crate::cycle::{Driver, Process};

    #[test]
    fn empty_is_all_zero() {
        assert!(dump(&Config::default()).iter().all(|&b| b == 0));
    }

    #[test]
    fn last_places() {
        let mut values = [0; 32];
        values[31] = -2;
        let config = Config {
            time: 0x0102_0304_0506_0708,
            delta: 999,
            signals: vec![values; 32],
            earlier: vec![-3; 32],
            variables: vec![7; 64],
            drivers: vec![
                Driver {
                    current: Some(3),
                    wave: vec![(9, Some(-1)); 8]
                };
                64
            ],
            processes: vec![
                Process {
                    place: 258,
                    standing: 1,
                    fault: 2,
                    node: 1_029,
                    deadline: Some(6)
                };
                16
            ],
        };
        let out = dump(&config);
        assert_eq!(out[0..8], [8, 7, 6, 5, 4, 3, 2, 1]);
        assert_eq!(out[8..16], [231, 3, 0, 0, 32, 64, 64, 16]);
        assert_eq!(out[4_108..4_112], [254, 255, 255, 255]);
        assert_eq!(out[4_364..4_368], [7, 0, 0, 0]);
        assert_eq!((variable(&out, 0), variable(&out, 63)), (7, 7));
        assert_eq!(place_and_fault(&out, 15), (258, 2));
        assert_eq!(
            out[4_368..4_392],
            [3, 0, 0, 0, 0, 0, 0, 0, 8, 0, 0, 0, 0, 0, 0, 0, 9, 0, 0, 0, 0, 0, 0, 0]
        );
        assert_eq!(out[13_576..13_584], [255, 255, 255, 255, 0, 0, 0, 0]);
        assert_eq!(
            out[13_824..13_840],
            [2, 1, 1, 2, 1, 0, 5, 4, 6, 0, 0, 0, 0, 0, 0, 0]
        );
        assert_eq!(out[13_840..], [253, 255, 255, 255].repeat(32));
    }

    #[test]
    fn null_is_no_value() {
        let driver = |current, pending| Config {
            drivers: vec![Driver {
                current,
                wave: vec![(1, pending)],
            }],
            ..Config::default()
        };
        let off = words(&dump(&driver(None, None)));
        assert_eq!((off[1094], off[1104]), (4_294_967_296, 4_294_967_296));
        for value in [0, 4, 8, -1, i32::MAX, -i32::MAX, i32::MIN] {
            let on = words(&dump(&driver(Some(value), Some(value))));
            assert_eq!(
                (on[1094], on[1104]),
                (value as u32 as u64, value as u32 as u64)
            );
        }
        // What the proved kernel's word for null becomes.
        assert_eq!(pack(&off), Ok(dump(&driver(None, None))));
    }

    #[test]
    fn the_words_of_a_process() {
        let process = |node, deadline| {
            let processes = vec![
                Process::default(),
                Process {
                    place: 7,
                    standing: 2,
                    fault: 4,
                    node,
                    deadline,
                },
            ];
            let config = Config {
                processes,
                ..Config::default()
            };
            let words = words(&dump(&config));
            words[2246 + 6..2246 + 12].to_vec()
        };
        assert_eq!(process(399, Some(9)), [7, 2, 4, 399, 1, 9]);
        assert_eq!(process(65_535, None), [7, 2, 4, 65_535, 0, 0]);
    }

    #[test]
    fn the_words_of_earlier_values() {
        let config = Config {
            earlier: (-16..16).collect(),
            ..Config::default()
        };
        let words = words(&dump(&config));
        for (s, value) in (-16..16).enumerate() {
            assert_eq!(words[2342 + s], value as u32 as u64);
        }
    }

    /// The words that a layout's fields hold.
    fn words(dump: &[u8; DUMP]) -> [u64; WORDS] {
        std::array::from_fn(|n| {
            let (at, bytes) = place(n);
            let mut word = [0; 8];
            word[..bytes].copy_from_slice(&dump[at..at + bytes]);
            u64::from_le_bytes(word)
        })
    }

    #[test]
    fn words_fill_the_layout_and_overlap_nowhere() {
        let mut bytes = vec![0; DUMP];
        for n in 0..WORDS {
            let (at, many) = place(n);
            bytes[at..at + many].iter_mut().for_each(|b| *b += 1);
        }
        let unused = |at: usize| (13_584..13_840).contains(&at) && at % 16 == 5;
        for (at, &times) in bytes.iter().enumerate() {
            assert_eq!(times, !unused(at) as i32, "byte {at}");
        }
    }

    #[test]
    fn packing_cuts_no_word() {
        let full: [u64; WORDS] = std::array::from_fn(|n| u64::MAX >> (64 - 8 * place(n).1));
        assert_eq!(words(&pack(&full).unwrap()), full);
        for n in (0..WORDS).filter(|&n| place(n).1 < 8) {
            for large in [full[n] + 1, 1 << 63] {
                let mut words = full;
                words[n] = large;
                let message = pack(&words).unwrap_err();
                assert!(message.starts_with(&format!("word {n} is {large},")));
            }
        }
    }
}
