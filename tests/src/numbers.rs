//! The numbers that the papers name. A large comparison must meet each of
//! them: a new number is added here.

use std::collections::BTreeMap;
use std::fmt::Display;

/// Refusals of a model, in checking order.
pub const MODEL: &[u32] = &[1, 2, 3, 4, 5, 6, 7, 8, 20, 24, 25];
/// Refusals of a session whose model is accepted: its orders, its answer buffer.
pub const ORDERS: u32 = 9;
pub const ANSWERS: u32 = 10;
/// Refusal of a dump whose model and orders are accepted: its output buffer.
pub const OUTPUT: u32 = 21;
/// Refusals of an order.
pub const ORDER: &[u32] = &[11, 12, 13, 14, 15, 16, 17, 18, 19, 22, 23];
/// Those of them that a pick can have, of one process or of a set.
pub const PICK: &[u32] = &[11, 12, 13];
/// Those that a delta step and a time step can have, in checking order.
pub const DELTA: &[u32] = &[11, 14, 15, 22, 16];
pub const TIME: &[u32] = &[11, 14, 15, 23, 17, 18];
/// Refusals of a body in text, before those of its model.
pub const TEXT: &[u32] = &[26, 27];
/// Faults that stop a process.
pub const FAULT: &[u32] = &[1, 2, 3, 4];
/// Those of them that an expression has.
pub const EXPRESSION: &[u32] = &[1, 4];

/// Refusals of a session.
pub fn session() -> Vec<u32> {
    [MODEL, &[ORDERS, ANSWERS]].concat()
}

/// Refusals of a dump.
pub fn dump() -> Vec<u32> {
    [MODEL, &[ORDERS, OUTPUT]].concat()
}

/// How often each number, or each thing by its name, occurred.
#[derive(Clone, Debug, Default)]
pub struct Counts<K = u32>(BTreeMap<K, u64>);

impl<K: Copy + Ord + Display> Counts<K> {
    pub fn add(&mut self, number: K) {
        self.add_many(number, 1);
    }

    pub fn add_many(&mut self, number: K, many: u64) {
        *self.0.entry(number).or_default() += many;
    }

    pub fn of(&self, number: K) -> u64 {
        self.0.get(&number).copied().unwrap_or(0)
    }

    pub fn sum(&self) -> u64 {
        self.0.values().sum()
    }

    /// Adds another's counts.
    pub fn extend(&mut self, other: &Counts<K>) {
        for (&number, count) in &other.0 {
            *self.0.entry(number).or_default() += count;
        }
    }

    /// Err tells the numbers that occurred less often than `least`.
    pub fn require(&self, what: &str, numbers: &[K], least: u64) -> Result<(), String> {
        let missed = numbers.iter().filter(|&&n| self.of(n) < least);
        let missed: Vec<String> = missed
            .map(|&n| format!("{what} {n} occurred {} times", self.of(n)))
            .collect();
        if missed.is_empty() {
            return Ok(());
        }
        Err(format!("{}; at least {least} are due", missed.join(", ")))
    }
}

#[cfg(test)]
mod tests {
    use super::*;

    #[test]
    fn what_is_missing_is_told() {
        let mut counts = Counts::default();
        for n in [1, 1, 2, 19] {
            counts.add(n);
        }
        assert_eq!((counts.of(1), counts.of(3), counts.sum()), (2, 0, 4));
        assert_eq!(counts.require("refusal", &[1, 2, 19], 1), Ok(()));
        assert_eq!(counts.require("refusal", &[3], 0), Ok(()));
        let message = counts.require("refusal", &[1, 2, 3], 2).unwrap_err();
        assert_eq!(
            message,
            "refusal 2 occurred 1 times, refusal 3 occurred 0 times; at least 2 are due"
        );
    }

    #[test]
    fn every_number_is_listed_once() {
        let mut all = [session(), ORDER.to_vec(), vec![OUTPUT], TEXT.to_vec()].concat();
        assert!((1..=27).all(|n| all.contains(&n)));
        let at = |n: u32| session().iter().position(|&m| m == n);
        let rising = [8, 20, 24, 25, 9, 10].map(at);
        assert!(rising.windows(2).all(|pair| pair[0] < pair[1]));
        let many = all.len();
        all.sort();
        all.dedup();
        assert_eq!(all.len(), many);
    }
}
