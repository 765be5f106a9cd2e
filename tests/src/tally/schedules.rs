//! Schedules of generated models: lists that pick the same statements one by one, by
//! sets or by settles come to the same end with as many picks, and a set order does what
//! single picks of its processes do in every arrangement. The signals of a model with its own
//! resolution table have the same values where its processes, and so its drivers, are numbered
//! otherwise. Each list is played here and, where one is given, by another kernel.

use super::{part, play, print_shown, Session};
use crate::cycle::{Config, Step, READY, STOPPED, WAITING};
use crate::dump::{dump, DUMP};
use crate::features::{replay, Player};
use crate::gen::numbering::{place, renumbered};
use crate::gen::{self, order, set_of, Played};
use crate::model::{encode, Model, LOGIC};
use crate::moves::ADVANCE;
use crate::numbers::Counts;
use crate::rng::Rng;
use crate::session::{session, ANSWER, DELTA, ORDER, PICK, PICK_SET, READ, SETTLE, TIME};
use crate::values;

/// Picks of a list that is arranged otherwise, at most.
const MOST: usize = 1_000;

/// Steps of a list that is played with processes numbered otherwise, and picks before each, at
/// most.
const STEPS: usize = 24;
const PICKS: u16 = 500;

/// How the picks of a list are arranged.
const ONE_BY_ONE: &str = "single picks";
const BY_SETS: &str = "sets";
const IN_ROUNDS: &str = "sets of all that have a pick left";
const MIXED: &str = "picks, sets, settles and idle orders";
const FREELY: &str = "to rest after as many advances";
const FORMS: [&str; 5] = [ONE_BY_ONE, BY_SETS, IN_ROUNDS, MIXED, FREELY];

/// Steps that are refused among a list's orders.
const REFUSED: [(&str, u8, u8); 5] = [
    ("order 6 with 22", DELTA, 22),
    ("order 7 with 23", TIME, 23),
    ("order 6 with 14", DELTA, 14),
    ("order 7 with 14", TIME, 14),
    ("order 2 with 11", ADVANCE, 11),
];
/// What the ends show, and the sets that are held against single picks.
const ENDS: [&str; 3] = [
    "an end with a process ready",
    "an end with a process stopped",
    "an end at a later time",
];
const SETS: [&str; 6] = [
    "a set of two",
    "a set of three to fifteen",
    "a set of 16",
    "a set of which one waits then",
    "a set of which one stops",
    "a set of which none stops, another had",
];
/// What a delta step resolves by the model's own table, by models numbered otherwise: values
/// that stand in another order, and of these such that the standard's table gives another.
const NUMBERED: [&str; 4] = [
    "two values in another order",
    "three values or more in another order",
    "two, the standard's table gives another",
    "three or more, the standard's gives another",
];

#[derive(Default)]
pub struct ScheduleTally {
    pub models: u64,
    /// Lists that are not arranged, for their many picks.
    pub left_out: u64,
    /// Lists held against the first one of their model, by form; what their ends and the
    /// sets held against single picks show.
    pub shown: Counts<&'static str>,
    /// Picks and done advances of those lists, and their done sets by processes.
    pub picks: u64,
    pub advances: u64,
    pub sizes: [u64; 17],
    /// Sets held against single picks, and the arrangements of these.
    pub sets: u64,
    pub arrangements: u64,
    /// Models with their own table that are numbered otherwise, and the values read.
    pub numbered: u64,
    pub values: u64,
}

/// Arranges the lists of `n` models from seed `seed` on; model i has the seed `seed + i`.
pub fn schedules(n: u64, seed: u64, other: Option<Session>) -> Result<ScheduleTally, String> {
    let mut t = ScheduleTally::default();
    for i in 0..n {
        let seed = seed.wrapping_add(i);
        let rng = &mut Rng::new(seed);
        let (m, orders) = gen::schedule_case(rng);
        let game = Game {
            model: encode(&m),
            m: &m,
            other,
        };
        t.models += 1;
        t.arrange(rng, &game, &orders)
            .and_then(|()| t.set(rng, &game, &orders))
            .and_then(|()| t.renumber(rng, &game))
            .map_err(|found| format!("schedules: first difference at seed {seed}: {found}"))?;
    }
    Ok(t)
}

/// A model that both kernels play.
struct Game<'g> {
    m: &'g Model,
    model: Vec<u8>,
    other: Option<Session<'g>>,
}

/// What a list comes to.
struct Outcome {
    answers: Vec<u8>,
    end: Config,
    picks: u64,
    advances: u64,
}

impl Game<'_> {
    /// Plays a list; Err is a difference of the kernels.
    fn play(&self, orders: &[u8]) -> Result<Outcome, String> {
        let room = 4 * orders.len();
        let (number, (answers, end)) = play(&self.model, orders, room, 0, self.other)?;
        if number != 0 {
            return Err(format!("a list is refused with {number}"));
        }
        let picks = |a: &[u8]| u16::from_le_bytes([a[2], a[3]]) as u64;
        let pairs = orders.chunks(ORDER).zip(answers.chunks(ANSWER));
        let advanced = |(o, a): &(&[u8], &[u8])| [DELTA, TIME].contains(&o[0]) && a[0] == 0;
        Ok(Outcome {
            end,
            picks: answers.chunks(ANSWER).map(picks).sum(),
            advances: pairs.filter(advanced).count() as u64,
            answers,
        })
    }

    /// Plays a list that must come to what another one did.
    fn held(&self, what: &str, orders: &[u8], to: &Outcome) -> Result<Outcome, String> {
        let found = self.play(orders).map_err(|e| format!("{what}: {e}"))?;
        let counts = |o: &Outcome| format!("{} picks, {} advances", o.picks, o.advances);
        if counts(&found) != counts(to) {
            let (a, b) = (counts(to), counts(&found));
            return Err(format!("{what}: {b}, not {a}"));
        }
        let (a, b) = (dump(&to.end), dump(&found.end));
        match (0..DUMP).find(|&n| a[n] != b[n]) {
            Some(at) => Err(format!("{what}: another end, {}", part(at))),
            None => Ok(found),
        }
    }
}

/// Err where a list has another answer, or signals have other values then, on two games whose
/// processes are numbered otherwise.
fn numbered_alike(game: &Game, other: &Game, orders: &[u8]) -> Result<(), String> {
    let (a, b) = (game.play(orders)?, other.play(orders)?);
    let pairs = a.answers.chunks(ANSWER).zip(b.answers.chunks(ANSWER));
    let differ = pairs.enumerate().find(|(_, (one, two))| one != two);
    if let Some((n, (one, two))) = differ {
        let order = &orders[ORDER * n..][..ORDER];
        return Err(format!(
            "numbered otherwise: {two:?} to {order:?}, not {one:?}"
        ));
    }
    match (a.end.time, a.end.signals, a.end.earlier) == (b.end.time, b.end.signals, b.end.earlier) {
        true => Ok(()),
        false => Err("numbered otherwise: another end".into()),
    }
}

/// How often each process is picked up to each done advance, and behind the last.
struct Turns<'m> {
    m: &'m Model,
    c: Config,
    turns: Vec<[usize; 16]>,
}

impl Player for Turns<'_> {
    fn config(&self) -> &Config {
        &self.c
    }

    fn pick(&mut self, p: usize) {
        let turn = self.turns.last_mut().expect("there is a turn");
        if self.c.pick(self.m, p).is_ok() {
            turn[p] += 1;
        }
    }

    fn step(&mut self, step: Step) {
        if self.c.step(self.m, step).is_ok() {
            self.turns.push([0; 16]);
        }
    }
}

fn turns(m: &Model, orders: &[u8]) -> Vec<[usize; 16]> {
    let mut player = Turns {
        m,
        c: Config::first(m),
        turns: vec![[0; 16]],
    };
    replay(&mut player, orders);
    player.turns
}

/// A list that is made as it is played.
struct List<'l> {
    rng: &'l mut Rng,
    played: Played<'l>,
    /// Picks of each process that are left before the next step.
    left: [usize; 16],
}

impl List<'_> {
    fn order(&mut self, kind: u8, argument: u8, count: u16) {
        self.played.order(order(kind, argument, count));
    }

    /// The processes that have a pick left.
    fn open(&self) -> Vec<usize> {
        (0..16).filter(|&p| self.left[p] > 0).collect()
    }

    fn pick(&mut self, p: usize) {
        self.left[p] -= 1;
        self.order(PICK, p as u8, 0);
    }

    fn set(&mut self, list: &[usize]) {
        list.iter().for_each(|&p| self.left[p] -= 1);
        self.order(PICK_SET, 0, set_of(list));
    }

    /// Some of these, at least one.
    fn some(&mut self, list: &[usize]) -> Vec<usize> {
        let set = self.rng.next();
        let some = list.iter().copied().filter(|p| set >> p & 1 == 1);
        let some: Vec<usize> = some.collect();
        match some.is_empty() {
            true => vec![self.rng.choose(list)],
            false => some,
        }
    }

    /// A settle of the lowest ready ones, as long as they have picks left.
    fn settle(&mut self) {
        let (most, mut c, mut count) = (self.rng.range(1, 20), self.played.c.clone(), 0);
        while let Some(p) = c.lowest_ready().filter(|&p| self.left[p] > 0) {
            if count == most {
                break;
            }
            c.pick(self.played.m, p).expect("a ready process is picked");
            self.left[p] -= 1;
            count += 1;
        }
        self.order(SETTLE, 0, count as u16);
    }

    /// An order that changes nothing.
    fn idle(&mut self) {
        let all = self.played.c.processes.len();
        let every: Vec<usize> = (0..all).collect();
        let waits = self.played.c.standing(READY).len() < all;
        match self.rng.below(10) {
            0 => self.order(READ, 0, 0),
            1 => self.order(PICK_SET, 0, 0),
            2 => self.order(PICK_SET, 1, set_of(&every)),
            3 if all < 16 => self.order(PICK_SET, 0, u16::MAX),
            4 if waits => self.order(PICK_SET, 0, set_of(&every)),
            5 => self.order(PICK, all as u8, 0),
            6 => self.order(ADVANCE, 0, 0),
            // A process is ready.
            7 => self.order(DELTA, 0, 0),
            8 => self.order(TIME, 0, 0),
            _ => self.order(SETTLE, 0, 0),
        }
    }

    /// A step that is done; where others may stand before it, half the time the other one,
    /// now and then the order that is withdrawn.
    fn advance(&mut self, others: bool) {
        if others && self.rng.chance(1, 2) {
            self.played.wrong_step();
        }
        if others && self.rng.chance(1, 4) {
            self.order(ADVANCE, 0, 0);
        }
        self.played.step();
    }

    /// The next picks of those that are left.
    fn picks(&mut self, form: &str) {
        let open = self.open();
        let way = match form {
            ONE_BY_ONE => 0,
            BY_SETS => 1,
            IN_ROUNDS => 2,
            _ => self.rng.below(5),
        };
        match way {
            0 => {
                let p = self.rng.choose(&open);
                self.pick(p);
            }
            1 => {
                let some = self.some(&open);
                self.set(&some);
            }
            2 => self.set(&open),
            3 => self.settle(),
            _ => self.idle(),
        }
    }
}

/// A list of the same picks between the same steps.
fn arranged(rng: &mut Rng, m: &Model, turns: &[[usize; 16]], form: &str) -> Vec<u8> {
    let mut list = List {
        rng,
        played: Played::new(m),
        left: [0; 16],
    };
    for (n, turn) in turns.iter().enumerate() {
        if n > 0 {
            list.advance(form == MIXED);
        }
        list.left = *turn;
        while !list.open().is_empty() {
            list.picks(form);
        }
    }
    list.played.orders
}

/// A list of so many advances that ends with no process ready, its picks freely chosen.
fn free(rng: &mut Rng, m: &Model, advances: u64) -> Vec<u8> {
    let mut list = List {
        rng,
        played: Played::new(m),
        left: [usize::MAX; 16],
    };
    let mut made = 0;
    loop {
        let ready = list.played.c.standing(READY);
        match ready[..] {
            [] if made == advances => return list.played.orders,
            [] => {
                list.advance(true);
                made += 1;
            }
            _ => match list.rng.below(4) {
                0 => {
                    let p = list.rng.choose(&ready);
                    list.pick(p);
                }
                1 => list.settle(),
                2 => list.set(&ready),
                _ => {
                    let some = list.some(&ready);
                    list.set(&some);
                }
            },
        }
    }
}

/// Arrangements of these: all of three or fewer, else rising, falling and some others.
fn arrangements(rng: &mut Rng, list: &[usize]) -> Vec<Vec<usize>> {
    if let &[a, b] = list {
        return vec![vec![a, b], vec![b, a]];
    }
    if let &[a, b, c] = list {
        let all = [
            [a, b, c],
            [a, c, b],
            [b, a, c],
            [b, c, a],
            [c, a, b],
            [c, b, a],
        ];
        return all.map(|l| l.to_vec()).to_vec();
    }
    let falling: Vec<usize> = list.iter().rev().copied().collect();
    let mut all = vec![list.to_vec(), falling];
    for _ in 0..3 {
        let mut any = list.to_vec();
        rng.shuffle(&mut any);
        all.push(any);
    }
    all
}

/// All that schedules must show.
fn names() -> Vec<&'static str> {
    [
        &FORMS[..],
        &REFUSED.map(|row| row.0),
        &ENDS,
        &SETS,
        &NUMBERED,
    ]
    .concat()
}

impl ScheduleTally {
    fn see(&mut self, what: &'static str, when: bool) {
        if when {
            self.shown.add(what);
        }
    }

    /// Arranges a list's picks in each form.
    fn arrange(&mut self, rng: &mut Rng, game: &Game, orders: &[u8]) -> Result<(), String> {
        let first = game.play(orders)?;
        if first.picks > MOST as u64 {
            self.left_out += 1;
            return Ok(());
        }
        let turns = turns(game.m, orders);
        let ready = first.end.lowest_ready().is_some();
        for form in FORMS {
            let list = match form {
                FREELY if ready => continue,
                FREELY => free(rng, game.m, first.advances),
                _ => arranged(rng, game.m, &turns, form),
            };
            let found = game.held(form, &list, &first)?;
            self.shown.add(form);
            self.picks += found.picks;
            self.advances += found.advances;
            let pairs = || list.chunks(ORDER).zip(found.answers.chunks(ANSWER));
            for (_, a) in pairs().filter(|(o, a)| o[0] == PICK_SET && a[0] == 0) {
                self.sizes[a[2] as usize] += 1;
            }
            for (what, kind, refusal) in REFUSED {
                self.see(what, pairs().any(|(o, a)| (o[0], a[0]) == (kind, refusal)));
            }
        }
        self.see(ENDS[0], ready);
        self.see(ENDS[1], !first.end.standing(STOPPED).is_empty());
        self.see(ENDS[2], first.end.time > 0);
        Ok(())
    }

    /// Somewhere in a list, holds a set of ready processes against single picks of them.
    fn set(&mut self, rng: &mut Rng, game: &Game, orders: &[u8]) -> Result<(), String> {
        let any = rng.below(orders.len() / ORDER + 1);
        let front = &orders[..ORDER * rng.choose(&[0, any, any])];
        let before = session(&game.model, front, &mut vec![0; 4 * front.len()]).1;
        let drawn = rng.next();
        let drawn = rng.choose(&[u64::MAX, drawn, drawn]);
        let ready = before.standing(READY).into_iter();
        let members: Vec<usize> = ready.filter(|p| drawn >> p & 1 == 1).collect();
        if members.len() < 2 {
            return Ok(());
        }
        let with = |more: &[[u8; 4]]| [front, &more.concat()].concat();
        let at_once = game.play(&with(&[order(PICK_SET, 0, set_of(&members))]))?;
        let answer = at_once.answers[at_once.answers.len() - ANSWER..].to_vec();
        for arrangement in arrangements(rng, &members) {
            let picks = arrangement.iter().map(|&p| order(PICK, p as u8, 0));
            let picks: Vec<[u8; 4]> = picks.collect();
            let what = format!("set {members:?} as {arrangement:?}");
            let found = game.held(&what, &with(&picks), &at_once)?;
            let single = found.answers.chunks(ANSWER).skip(front.len() / ORDER);
            let stops = single.filter(|a| a[1] == STOPPED).count() > 0;
            let expected = [0, stops as u8, members.len() as u8, 0, 0, 0, 0, 0];
            if answer[..8] != expected {
                return Err(format!("{what}: answer {answer:?}, not {expected:?}"));
            }
            self.arrangements += 1;
        }
        self.sets += 1;
        let then = |standing: u8| {
            let standing = at_once.end.standing(standing);
            members.iter().any(|p| standing.contains(p))
        };
        let had = !before.standing(STOPPED).is_empty();
        self.see(SETS[0], members.len() == 2);
        self.see(SETS[1], (3..16).contains(&members.len()));
        self.see(SETS[2], members.len() == 16);
        self.see(SETS[3], then(WAITING));
        self.see(SETS[4], then(STOPPED));
        self.see(SETS[5], !then(STOPPED) && had);
        Ok(())
    }

    /// Plays a model with its own table also with its processes numbered otherwise: settles
    /// to rest, reads of all signals and the steps that fit.
    fn renumber(&mut self, rng: &mut Rng, game: &Game) -> Result<(), String> {
        let m = game.m;
        if m.own_table().is_none() || m.processes.len() < 2 {
            return Ok(());
        }
        let mut numbers: Vec<usize> = (0..m.processes.len()).collect();
        match rng.chance(1, 2) {
            true => numbers.reverse(),
            false => rng.shuffle(&mut numbers),
        }
        let new = renumbered(m, &numbers);
        let other = Game {
            model: encode(&new),
            m: &new,
            ..*game
        };
        let mut list = Played::new(m);
        let mut seen = [false; NUMBERED.len()];
        for _ in 0..STEPS {
            list.order(order(SETTLE, 0, PICKS));
            if list.c.lowest_ready().is_some() {
                // What is picked first then depends on the numbers.
                list.orders.truncate(list.orders.len() - ORDER);
                break;
            }
            let step = list.c.fitting();
            if list.step() != 0 {
                break;
            }
            for s in 0..m.signals.len() {
                list.order(order(READ, s as u8, 0));
                self.values += 1;
                if step == Step::Delta {
                    other_order(m, &list.c, &numbers, s, &mut seen);
                }
            }
        }
        numbered_alike(game, &other, &list.orders)?;
        self.numbered += 1;
        for (what, shown) in NUMBERED.into_iter().zip(seen) {
            self.see(what, shown);
        }
        Ok(())
    }

    /// Err where something occurred less often than `least`.
    pub fn require(&self, least: u64) -> Result<(), String> {
        let names = names();
        self.shown.require("schedules:", &names, least)
    }

    pub fn print(&self) {
        println!(
            "arranged the lists of {} models, {} left out for more than {MOST} picks",
            self.models, self.left_out
        );
        println!(
            "{} picks, {} advances; done sets by their processes: {:?}",
            self.picks, self.advances, self.sizes
        );
        print_shown("lists with the same end and picks", &self.shown, &FORMS);
        let refused = REFUSED.map(|row| row.0);
        print_shown("of them, with refused steps", &self.shown, &refused);
        print_shown("their ends, by models", &self.shown, &ENDS);
        println!(
            "sets held against single picks: {}, in {} arrangements",
            self.sets, self.arrangements
        );
        print_shown("of them", &self.shown, &SETS);
        println!(
            "models with their own table numbered otherwise: {}, {} values read alike",
            self.numbered, self.values
        );
        print_shown("of them", &self.shown, &NUMBERED);
    }
}

/// Looks at the values that are on a signal, in the order of its drivers and in that of the
/// numbers: the rows of `NUMBERED`.
fn other_order(m: &Model, c: &Config, numbers: &[usize], s: usize, seen: &mut [bool; 4]) {
    let pairs = m.drivers.iter().zip(&c.drivers);
    let own = pairs.filter(|(d, _)| d.signal as usize == s && m.signals[s].ty == LOGIC);
    let on = own.filter_map(|(d, driver)| Some((place(numbers, d.process), driver.current?)));
    let mut on: Vec<(usize, i32)> = on.collect();
    let codes = |on: &[(usize, i32)]| -> Vec<u8> { on.iter().map(|v| v.1 as u8).collect() };
    let before = codes(&on);
    on.sort();
    if before == codes(&on) {
        return;
    }
    let many = (before.len() > 2) as usize;
    seen[many] = true;
    seen[2 + many] |= values::resolve(&before) as i32 != c.signals[s][0];
}

#[cfg(test)]
mod tests {
    use super::*;
    use crate::builder::Builder;
    use crate::cases::{drivers, inverter, inverter_orders, orders, team, watched, Turn};
    use crate::gen::tables::open_drain;
    use crate::tally::tests::own;

    fn game(b: &Builder) -> Game<'_> {
        Game {
            m: &b.m,
            model: b.encode(),
            other: None,
        }
    }

    #[test]
    fn agreement() {
        let t = schedules(300, 5, Some(&own)).unwrap();
        assert_eq!(t.require(3), Ok(()));
        let message = ScheduleTally::default().require(1).unwrap_err();
        for name in names() {
            assert!(message.contains(&format!("{name} occurred 0")), "{message}");
        }
    }

    #[test]
    fn another_kernels_difference_is_told() {
        // A set order makes one pick.
        let wrong = |m: &[u8], o: &[u8], a: &mut [u8], d: &mut [u8]| {
            let number = own(m, o, a, d)?;
            let pairs = o.chunks(ORDER).zip(a.chunks_mut(ANSWER));
            let sets = pairs.filter(|(o, a)| o[0] == PICK_SET && a[2] > 1);
            sets.for_each(|(_, a)| a[2] = 1);
            Ok(number)
        };
        let message = schedules(300, 5, Some(&wrong)).err().unwrap();
        assert!(message.contains("to order Some([5, 0, "), "{message}");
    }

    #[test]
    fn picks_between_advances() {
        let b = inverter();
        let counts = |list: &[u8]| -> Vec<[usize; 2]> {
            let turns = turns(&b.m, list).into_iter();
            turns.map(|turn| [turn[0], turn[1]]).collect()
        };
        let all = [[2, 2], [0, 0], [0, 0], [2, 0], [0, 0]];
        assert_eq!(counts(&inverter_orders()), all);
        // Refused picks and sets are none.
        let list = [
            (PICK, 0, 0),
            (PICK, 2, 0),
            (PICK_SET, 0, 7),
            (PICK_SET, 0, 3),
        ];
        assert_eq!(counts(&orders(&list)), [[2, 1]]);
    }

    // What is arranged has the picks of each process that it is to have.
    #[test]
    fn the_same_picks() {
        for seed in 0..200 {
            let rng = &mut Rng::new(seed);
            let (m, list) = gen::schedule_case(rng);
            let all = turns(&m, &list);
            if all.iter().flatten().sum::<usize>() > 200 {
                continue;
            }
            for form in &FORMS[..4] {
                let other = arranged(rng, &m, &all, form);
                assert_eq!(turns(&m, &other), all, "seed {seed}, {form}");
                let kinds: Vec<u8> = other.chunks(ORDER).map(|o| o[0]).collect();
                let own: &[u8] = match *form {
                    ONE_BY_ONE => &[PICK, DELTA, TIME],
                    BY_SETS | IN_ROUNDS => &[PICK_SET, DELTA, TIME],
                    _ => &[PICK, PICK_SET, DELTA, TIME, ADVANCE, SETTLE, READ],
                };
                assert!(kinds.iter().all(|kind| own.contains(kind)));
            }
        }
    }

    #[test]
    fn another_outcome_is_told() {
        let b = team(&[Turn::Null, Turn::Drive(3), Turn::Null]);
        let game = game(&b);
        let list = |sets: &[u16]| -> Vec<u8> {
            let all: Vec<_> = sets.iter().map(|&set| (PICK_SET, 0, set)).collect();
            orders(&all)
        };
        let told = |a: &[u16], b: &[u16]| {
            let first = game.play(&list(a)).unwrap();
            game.held("it", &list(b), &first).err().unwrap_or_default()
        };
        assert_eq!(told(&[7], &[1, 4, 2]), "");
        assert_eq!(
            told(&[7], &[7, 7]),
            "it: 6 picks, 0 advances, not 3 picks, 0 advances"
        );
        assert_eq!(
            told(&[1, 1], &[1, 4]),
            "it: another end, process 0, standing"
        );
        assert!(told(&[1], &[2]).starts_with("it: another end, driver 0"));
    }

    #[test]
    fn other_values_are_told() {
        let b = drivers("01Z");
        let (one, list) = (game(&b), watched(&b, 1));
        let told = |change: fn(&mut Builder)| {
            let mut b = b.clone();
            b.m = renumbered(&b.m, &[2, 0, 1]);
            change(&mut b);
            numbered_alike(&one, &game(&b), &list)
        };
        assert_eq!(told(|_| ()), Ok(()));
        // 0 with 1 is 0 then, and not X.
        let message = told(|b| b.table(&open_drain())).unwrap_err();
        assert!(message.contains("to [4, 0, 0, 0], not"), "{message}");
        // A value of before alone.
        let list = orders(&[(SETTLE, 0, 9)]);
        let mut first = b.clone();
        first.m.signals[0].start = 2;
        assert!(numbered_alike(&one, &game(&first), &list).is_err());
    }

    // Which of the values stand in another order.
    #[test]
    fn orders_of_values() {
        let of = |letters: &str, numbers: &[usize]| {
            let b = drivers(letters);
            let mut c = Config::first(&b.m);
            c.settle(&b.m, 99);
            c.step(&b.m, Step::Delta).unwrap();
            let mut seen = [false; 4];
            other_order(&b.m, &c, numbers, 0, &mut seen);
            seen
        };
        assert_eq!(of("01", &[0, 1]), [false; 4]);
        assert_eq!(of("11", &[1, 0]), [false; 4]);
        assert_eq!(of("01", &[1, 0]), [true, false, false, false]);
        assert_eq!(of("01Z", &[0, 2, 1]), [false, true, false, false]);
    }

    #[test]
    fn every_arrangement_of_a_few() {
        let rng = &mut Rng::new(1);
        let few = arrangements(rng, &[2, 5, 9]);
        let each: std::collections::BTreeSet<Vec<usize>> = few.iter().cloned().collect();
        assert_eq!((few.len(), each.len()), (6, 6));
        for mut list in arrangements(rng, &[0, 3, 4, 15]) {
            list.sort();
            assert_eq!(list, [0, 3, 4, 15]);
        }
    }
}
