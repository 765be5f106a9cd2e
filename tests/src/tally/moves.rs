//! Stored lists of the orders of before, moved over here and, where one is given, by
//! another kernel: the same list, which plays under the orders of now as the stored one
//! did before.

use super::{difference, play, print_shown, with_none, Session};
use crate::cycle::Config;
use crate::dump::dump;
use crate::gen;
use crate::moves::{move_over, session_before, ADVANCE};
use crate::numbers::{self, Counts};
use crate::session::{ANSWER, DELTA, ORDER, TIME};

/// Another kernel's move: model, orders and the buffer for the moved ones to its number.
pub type Move<'a> = &'a dyn Fn(&[u8], &[u8], &mut [u8]) -> u32;

/// What an order 2 came to before, by refusal and byte 1.
const ADVANCES: [(&str, u8, u8); 8] = [
    ("2: a delta step", 0, 1),
    ("2: a time step", 0, 2),
    ("2: 11 by an unused byte", 11, 0),
    ("2: 14", 14, 0),
    ("2: 15", 15, 0),
    ("2: 16", 16, 0),
    ("2: 17", 17, 0),
    ("2: 18", 18, 0),
];

/// What lists and buffers show besides.
const EMPTY: &str = "a list of no orders";
const WITHOUT: &str = "a list without order 2";
const WITH: &str = "a list with an order 6 or 7 beside order 2";
const STILL: &str = "a played list with a 6 or 7 that is 11 still";
const UNKNOWN: &str = "a list with an unknown kind";
const EACH: &str = "a list with each kind from 1 to 5";
const SHORT: &str = "a buffer that is too short";
const LONG: &str = "a buffer that is too long";
const BOTH: &str = "orders and a buffer of a wrong length";
const OTHERS: [&str; 9] = [
    EMPTY, WITHOUT, WITH, STILL, UNKNOWN, EACH, SHORT, LONG, BOTH,
];

#[derive(Default)]
pub struct MoveTally {
    /// Lists by number, 0 those that are moved over.
    pub numbers: Counts,
    pub orders: u64,
    /// What they show, by lists; the orders 2 among it by orders, too.
    pub shown: Counts<&'static str>,
    pub advances: Counts<&'static str>,
    /// Orders 2 that became 6 and 7.
    pub became: [u64; 2],
    /// Moved lists that were played.
    pub played: u64,
}

/// A stored list and the length of the buffer that it is moved into.
pub struct Stored<'s> {
    pub model: &'s [u8],
    pub orders: &'s [u8],
    pub room: usize,
}

/// The list with each order 6 or 7 as the order 2 that it could be before.
pub fn as_before(orders: &[u8]) -> Vec<u8> {
    let mut list = orders.to_vec();
    let steps = list.chunks_exact_mut(ORDER);
    let steps = steps.filter(|order| order[0] == DELTA || order[0] == TIME);
    steps.for_each(|order| order[0] = ADVANCE);
    list
}

/// The kinds of a list's orders.
fn kinds(orders: &[u8]) -> impl Iterator<Item = u8> + '_ {
    orders.chunks_exact(ORDER).map(|order| order[0])
}

/// Moves `n` lists over from seed `seed` on; list i has the seed `seed + i`.
pub fn moves(
    n: u64,
    seed: u64,
    other: Option<Move>,
    session: Option<Session>,
) -> Result<MoveTally, String> {
    let mut t = MoveTally::default();
    for i in 0..n {
        let seed = seed.wrapping_add(i);
        let case = gen::move_case(seed);
        let stored = Stored {
            model: &case.model,
            orders: &case.orders,
            room: case.room,
        };
        t.run(&stored, 0xA5 ^ seed as u8, other, session)
            .map_err(|found| {
                let what = case.what;
                format!("moves: first difference at seed {seed} ({what}): {found}")
            })?;
    }
    Ok(t)
}

/// Moves a list over in both kernels, with buffers full of `blank`: the number and the
/// buffer.
fn moved(
    case: &Stored,
    orders: &[u8],
    blank: u8,
    other: Option<Move>,
) -> Result<(u32, Vec<u8>), String> {
    let mut out = vec![blank; case.room];
    let number = move_over(case.model, orders, &mut out);
    let Some(other) = other else {
        return Ok((number, out));
    };
    let mut their_out = vec![blank; case.room];
    let theirs = other(case.model, orders, &mut their_out);
    if theirs != number {
        return Err(format!(
            "number: second kernel {number}, proved kernel {theirs}"
        ));
    }
    match (0..out.len()).find(|&n| out[n] != their_out[n]) {
        None => Ok((number, out)),
        Some(at) => {
            let n = at / ORDER;
            let part = |list: &[u8]| list.iter().skip(ORDER * n).take(ORDER).copied().collect();
            let [old, ours, theirs]: [Vec<u8>; 3] = [orders, &out, &their_out].map(part);
            Err(format!(
                "order {n}, {old:?}: second kernel {ours:?}, proved kernel {theirs:?}"
            ))
        }
    }
}

impl MoveTally {
    /// Moves a list over and plays it.
    pub fn run(
        &mut self,
        case: &Stored,
        blank: u8,
        other: Option<Move>,
        session: Option<Session>,
    ) -> Result<(), String> {
        let (number, out) = moved(case, case.orders, blank, other)?;
        self.numbers.add(number);
        let length = case.orders.len();
        self.see(SHORT, number == numbers::ANSWERS && case.room < length);
        self.see(LONG, number == numbers::ANSWERS && case.room > length);
        self.see(BOTH, number == numbers::ORDERS && case.room != length);
        if number != 0 {
            return match out.iter().all(|&byte| byte == blank) {
                true => Ok(()),
                false => Err(format!("refused with {number}, but written")),
            };
        }
        let again = moved(case, &out, blank, other)?;
        if again != (0, out.clone()) {
            return Err("moved again, the moved list is another".into());
        }
        let mut answers = vec![blank; 4 * length];
        let (_, end) = session_before(case.model, case.orders, &mut answers);
        // Orders 6 and 7 were refused; with an unused byte set they are still.
        let is_new = |order: &[u8]| matches!(order, [DELTA | TIME, 0, 0, 0]);
        if !case.orders.chunks_exact(ORDER).any(is_new) {
            self.plays_alike(case, &out, (&answers, &end), session)?;
            let steps = kinds(case.orders).any(|kind| kind == DELTA || kind == TIME);
            self.see(STILL, steps);
        }
        self.count(case.orders, &answers, &out);
        Ok(())
    }

    /// Plays the moved list: it has the answers and the end of the stored one.
    fn plays_alike(
        &mut self,
        case: &Stored,
        moved: &[u8],
        (answers, end): (&[u8], &Config),
        session: Option<Session>,
    ) -> Result<(), String> {
        let (number, (found, other_end)) = play(case.model, moved, answers.len(), 0, session)?;
        let (before, now) = (dump(end), dump(&other_end));
        self.played += 1;
        match difference((0, answers, &before), (number, &found, &now), moved) {
            None => Ok(()),
            Some(found) => Err(format!("played before and moved over: {found}")),
        }
    }

    fn see(&mut self, what: &'static str, when: bool) {
        if when {
            self.shown.add(what);
        }
    }

    fn count(&mut self, orders: &[u8], answers: &[u8], moved: &[u8]) {
        let has = |kind: u8| kinds(orders).any(|k| k == kind);
        self.see(EMPTY, orders.is_empty());
        self.see(WITHOUT, !orders.is_empty() && !has(ADVANCE));
        self.see(WITH, has(ADVANCE) && (has(DELTA) || has(TIME)));
        self.see(UNKNOWN, has(0) || kinds(orders).any(|kind| kind > TIME));
        self.see(EACH, (1..=5).all(has));
        self.orders += kinds(orders).count() as u64;
        let pairs = orders.chunks_exact(ORDER).zip(answers.chunks_exact(ANSWER));
        let old = pairs.filter(|(order, _)| order[0] == ADVANCE);
        let mut seen = [0; ADVANCES.len()];
        for (_, answer) in old {
            let is = |row: &(&str, u8, u8)| (row.1, row.2) == (answer[0], answer[1]);
            seen[ADVANCES.iter().position(is).expect("an advance's answer")] += 1;
        }
        for (row, many) in ADVANCES.iter().zip(seen) {
            self.see(row.0, many > 0);
            (0..many).for_each(|_| self.advances.add(row.0));
        }
        for (old, new) in kinds(orders).zip(kinds(moved)) {
            if old == ADVANCE {
                self.became[(new == TIME) as usize] += 1;
            }
        }
    }

    /// Err where an order 2 of the limit sessions never came to something, or a list was
    /// never refused.
    pub fn require_limits(&self) -> Result<(), String> {
        let own = [numbers::ORDERS, numbers::ANSWERS];
        self.numbers.require("a limit move's refusal", &own, 1)?;
        let names = ADVANCES.map(|row| row.0);
        self.shown.require("limit moves:", &names, 1)
    }

    /// Err where something occurred in fewer lists than it must.
    pub fn require(&self, number: u64, least: u64) -> Result<(), String> {
        self.numbers
            .require("move number", &numbers::session(), number)?;
        let names = ADVANCES.map(|row| row.0);
        let all = [&names[..], &OTHERS].concat();
        self.shown.require("moves:", &all, least)
    }

    pub fn print_limits(&self) {
        let count = |row: &(&str, u8, u8)| format!("{} {}", row.0, self.advances.of(row.0));
        println!(
            "their lists as stored before: {} moved over, {} refused with 9, {} with 10; orders {}",
            self.numbers.of(0),
            self.numbers.of(numbers::ORDERS),
            self.numbers.of(numbers::ANSWERS),
            ADVANCES.each_ref().map(count).join(", ")
        );
    }

    pub fn print(&self) {
        println!(
            "moved over {} of {} lists, {} orders; played {}",
            self.numbers.of(0),
            self.numbers.sum(),
            self.orders,
            self.played
        );
        println!("move number          lists");
        for n in with_none(&numbers::session()) {
            println!("{n:11} {:14}", self.numbers.of(n));
        }
        println!("orders 2, by what they came to         lists    orders");
        for (name, ..) in ADVANCES {
            let (lists, orders) = (self.shown.of(name), self.advances.of(name));
            println!("{name:34}{lists:10}{orders:10}");
        }
        println!("became 6: {}, became 7: {}", self.became[0], self.became[1]);
        print_shown("lists and buffers", &self.shown, &OTHERS);
    }
}

#[cfg(test)]
mod tests {
    use super::*;
    use crate::tally::tests::own;

    #[test]
    fn agreement() {
        let t = moves(2_000, 5, Some(&move_over), Some(&own)).unwrap();
        assert_eq!(t.require(4, 5), Ok(()));
        let message = MoveTally::default().require(0, 1).unwrap_err();
        for name in ADVANCES.map(|row| row.0).into_iter().chain(OTHERS) {
            assert!(message.contains(&format!("{name} occurred 0")), "{message}");
        }
        assert!(MoveTally::default().require(1, 0).is_err());
    }

    /// What is told of a kernel that spoils what it has moved, by number and orders.
    fn told_of(spoil: impl Fn(u32, &[u8], &mut [u8]) -> u32) -> String {
        let other = |m: &[u8], orders: &[u8], out: &mut [u8]| {
            let number = move_over(m, orders, out);
            spoil(number, orders, out)
        };
        moves(2_000, 5, Some(&other), None).err().unwrap()
    }

    #[test]
    fn another_kernels_difference_is_told() {
        let number = told_of(|number, _, _| if number == 10 { 9 } else { number });
        assert!(number.contains("second kernel 10, proved kernel 9"));
        let written = told_of(|number, _, out| {
            if number != 0 {
                out.fill(0);
            }
            number
        });
        assert!(written.contains("order 0, "), "{written}");
        // Each advance as a delta step, or left as it was.
        for kind in [DELTA, ADVANCE] {
            let found = told_of(|number, orders, out| {
                let pairs = orders.chunks_exact(ORDER).zip(out.chunks_exact_mut(ORDER));
                let old = pairs.filter(|(order, _)| number == 0 && order[0] == ADVANCE);
                old.for_each(|(_, new)| new[0] = kind);
                number
            });
            assert!(found.contains(", [2, 0, 0, 0]: second kernel ["), "{found}");
            assert!(
                found.contains(&format!("proved kernel [{kind}, 0")),
                "{found}"
            );
        }
        // A session that plays order 7 otherwise.
        let wrong = |m: &[u8], o: &[u8], a: &mut [u8], d: &mut [u8]| {
            let number = own(m, o, a, d)?;
            a.chunks_mut(ANSWER)
                .filter(|x| x[0] == 17)
                .for_each(|x| x[0] = 22);
            Ok(number)
        };
        let found = moves(2_000, 5, Some(&move_over), Some(&wrong))
            .err()
            .unwrap();
        assert!(found.contains("to order Some([7, 0, 0, 0])"), "{found}");
    }
}
