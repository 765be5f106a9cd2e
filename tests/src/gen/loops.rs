//! Models for the check of loops without delay: a random graph of processes, and a model
//! whose processes lead to one another just so. Much in it does not count: assignments
//! that are always delayed, waits that nothing undelayed meets; and much counts that is
//! easily missed: delays by an expression, of 0 or below, statements that are not reached.

mod graphs;

use super::{order, plan, tables, Played};
use crate::builder::Builder;
use crate::integers::{DIFFERENCE, MOD, PRODUCT, SUM};
use crate::loops::Graph;
use crate::model::*;
use crate::rng::Rng;
use graphs::{shuffled, NO_CHAIN, SHAPES};
use std::collections::BTreeSet;

const TOP: i32 = i32::MAX;

/// A delay or a wait's c, by what it is.
#[derive(Clone, Copy, PartialEq, Eq)]
enum Delay {
    Above0,
    Zero,
    Negative,
    Expression,
}

/// The processes that assign a signal without delay, and those that wait on it.
#[derive(Clone, Default)]
struct Star {
    sources: Vec<usize>,
    targets: Vec<usize>,
}

/// Edges as stars: each by a signal of the process that leads, or by one of the process
/// that is led to, or by both.
fn stars(rng: &mut Rng, g: &Graph) -> Vec<Star> {
    let n = g.len();
    // Ten at most, so that there are signals for all.
    let mut by_target = vec![false; n];
    for _ in 0..rng.choose(&[0, 3, 10]) {
        by_target[rng.below(n)] = true;
    }
    let mut from = vec![Star::default(); n];
    let mut to = vec![Star::default(); n];
    let mut drivers = 0;
    for (a, list) in g.iter().enumerate() {
        from[a].sources.push(a);
        for &b in list {
            let both = rng.chance(1, 8);
            if by_target[b] && drivers < 24 {
                to[b].sources.push(a);
                to[b].targets = vec![b];
                drivers += 1;
                if !both {
                    continue;
                }
            }
            from[a].targets.push(b);
        }
    }
    let mut list: Vec<Star> = from.into_iter().chain(to).collect();
    list.retain(|star| !star.targets.is_empty());
    if rng.chance(1, 3) {
        // One in two parts.
        let at = rng.below(list.len().max(1));
        if let Some(star) = list.get_mut(at).filter(|star| star.targets.len() > 1) {
            let many = 1 + rng.below(star.targets.len() - 1);
            let targets = star.targets.split_off(many);
            let sources = star.sources.clone();
            list.push(Star { sources, targets });
        }
    }
    list
}

struct Maker<'r> {
    rng: &'r mut Rng,
    b: Builder,
    /// Nothing faults, and every process comes to a wait.
    tame: bool,
    /// An integer signal that nothing drives.
    reader: u16,
    /// The statements of each process; jumps count from its first.
    bodies: Vec<Vec<StatementRecord>>,
    drivers: BTreeSet<(u8, u16)>,
}

impl Maker<'_> {
    fn room(&self) -> bool {
        self.b.m.nodes.len() + 4 <= 390
    }

    fn statements(&self) -> usize {
        self.bodies.iter().map(Vec::len).sum()
    }

    fn constant(&mut self, k: i32) -> u16 {
        match self.room() && self.rng.chance(1, 2) {
            true => self.b.integer(k),
            false => self.b.shared_constant(1, k),
        }
    }

    /// A node that is no constant; of a tame model it is worth 0 or a little more.
    fn expression(&mut self, process: usize) -> u16 {
        let (less, more) = match self.tame {
            true => (0, 1),
            false => (self.rng.choose(&[-3, 0]), self.rng.choose(&[1, 2, TOP])),
        };
        match self.rng.below(9) {
            _ if !self.room() => self.b.delayed(self.reader, 1),
            0 => {
                let k = self.rng.range(1, 31) as i32;
                self.b.delayed(self.reader, k)
            }
            1 => self.b.delayed(self.reader, 0),
            2 => self.b.read_signal(self.reader),
            3 | 4 => {
                let own = |v: &VariableRecord| v.process as usize == process;
                let v = self.b.m.variables.iter().position(own);
                self.b
                    .read_variable(v.expect("each process has one") as u16)
            }
            5 => {
                let one = self.b.integer(1);
                let negative = self.b.unary(10, one);
                self.b.unary(10, negative)
            }
            6 => {
                let k = self.b.integer(-less);
                self.b.unary(10, k)
            }
            7 => {
                let k = self.b.integer(more);
                let kind = self.rng.choose(&[DIFFERENCE, DIFFERENCE, MOD]);
                self.b.binary(kind, k, k)
            }
            _ => {
                let (x, y) = (self.b.integer(1), self.b.integer(less.max(0)));
                let kind = self.rng.choose(&[SUM, PRODUCT]);
                self.b.binary(kind, x, y)
            }
        }
    }

    fn delay(&mut self, process: usize, delay: Delay) -> u16 {
        let k = match delay {
            Delay::Above0 if self.tame => self.rng.choose(&[1, 1, 1, 2, 3, 5, 40]),
            Delay::Above0 => {
                let ends = [1, 1, 2, 5, 128, 255, 256, 32_768, 65_536, 1 << 24, 1 << 30];
                let any = self.rng.choose(&ends);
                self.rng.choose(&[any, TOP, TOP - 1, 1])
            }
            Delay::Zero => 0,
            Delay::Negative => {
                let any = self.rng.choose(&[-1, -2, -5, -128, -256, -65_536]);
                self.rng.choose(&[any, -1, -TOP])
            }
            Delay::Expression => return self.expression(process),
        };
        self.constant(k)
    }

    /// What an assignment without delay has.
    fn soon(&mut self) -> Delay {
        match self.tame {
            true => self
                .rng
                .choose(&[Delay::Zero, Delay::Zero, Delay::Expression]),
            false => self
                .rng
                .choose(&[Delay::Zero, Delay::Negative, Delay::Expression]),
        }
    }

    /// An assignment of any kind that the signal takes.
    fn assign(&mut self, process: usize, signal: u16, delay: Delay) {
        let c = self.delay(process, delay);
        let record = self.b.m.signals[signal as usize];
        let kinds: &[u8] = match record.kind {
            PLAIN => &[2, 7],
            _ => &[2, 7, 6, 6],
        };
        let kind = self.rng.choose(kinds);
        let b = match (kind, record.ty) {
            (6, _) => 0,
            (_, LOGIC) if self.room() && self.rng.chance(2, 3) => {
                let read = self.b.read_signal(signal);
                self.b.unary(6, read)
            }
            (_, LOGIC) => self.b.shared_constant(2, 3),
            _ if self.room() && self.rng.chance(1, 2) => {
                let read = self.b.read_signal(signal);
                self.b.unary(10, read)
            }
            _ => self.b.shared_constant(1, 1),
        };
        self.drivers.insert((process as u8, signal));
        self.bodies[process].push(StatementRecord {
            kind,
            a: signal,
            b,
            c,
            set: 0,
        });
    }

    fn wait(&mut self, process: usize, set: u32, c: Option<Delay>) {
        let b = match self.rng.chance(1, 8) && self.room() {
            true => {
                let x = self.rng.range(0, 1) as i32;
                let (x, one) = (self.b.integer(x), self.b.integer(1));
                self.b.binary(14, x, one)
            }
            false => ABSENT,
        };
        let c = c.map_or(ABSENT, |delay| self.delay(process, delay));
        self.bodies[process].push(StatementRecord {
            kind: 5,
            a: 0,
            b,
            c,
            set,
        });
    }

    /// Puts a process's statements in any order, and one or two jumps among them; in a tame
    /// model a wait stays last and is reached.
    fn arrange(&mut self, process: usize, jumps: usize) {
        let mut body = std::mem::take(&mut self.bodies[process]);
        self.rng.shuffle(&mut body);
        if self.tame {
            let wait = body.iter().position(|s| s.kind == 5);
            let wait = body.remove(wait.expect("a process waits"));
            body.push(wait);
        }
        for _ in 0..jumps {
            let at = self.rng.below(body.len());
            // Those that are there already go on with their statement.
            for s in body.iter_mut().filter(|s| [3, 4].contains(&s.kind)) {
                s.a += (s.a as usize >= at) as u16;
            }
            let end = body.len() + 1;
            let target = match self.tame {
                true => self.rng.range(at as i64 + 1, end as i64 - 1) as usize,
                false => self.rng.below(end),
            };
            let mut s = StatementRecord {
                kind: 4,
                a: target as u16,
                ..StatementRecord::default()
            };
            if self.room() && self.rng.chance(1, 4) {
                let (x, one) = (self.b.integer(0), self.b.integer(1));
                (s.kind, s.b) = (3, self.b.binary(14, x, one));
            }
            body.insert(at, s);
        }
        self.bodies[process] = body;
    }
}

/// An accepted model with this graph.
fn model_with(rng: &mut Rng, g: &Graph, tame: bool) -> Model {
    let n = g.len();
    let stars = stars(rng, g);
    let mut maker = Maker {
        rng,
        b: Builder::new(),
        tame,
        reader: 0,
        bodies: vec![vec![]; n],
        drivers: BTreeSet::new(),
    };
    // Signals: one of each star, the one that is read, some that are waited on and some
    // that are not, in any order.
    let spare = 32 - stars.len() - 1;
    let more = maker.rng.below(spare.min(8) + 1);
    let more = maker.rng.choose(&[more, more, spare]);
    let mut roles: Vec<usize> = (0..stars.len() + 1 + more).collect();
    maker.rng.shuffle(&mut roles);
    let mut place = vec![0u16; roles.len()];
    for (signal, &role) in roles.iter().enumerate() {
        place[role] = signal as u16;
        let integer = stars.get(role).is_some_and(|star| star.sources.len() == 1);
        let kinds = [PLAIN, BUS, REGISTER];
        match role == stars.len() || integer && maker.rng.chance(1, 5) {
            true => maker.b.signal(INTEGER, 0),
            false => {
                let (kind, start) = (maker.rng.choose(&kinds), maker.rng.choose(&[2, 3]));
                maker.b.signal_of(LOGIC, kind, start)
            }
        };
    }
    maker.reader = place[stars.len()];
    let (watched, idle) = place[stars.len() + 1..].split_at(more / 2);
    for p in 0..n {
        let start = match tame {
            true => maker.rng.choose(&[0, 0, 1]),
            false => maker.rng.range(-1, 2) as i32,
        };
        maker.b.variable(INTEGER, p as u8, start);
    }
    for k in [0, 1, -1] {
        maker.b.integer(k);
    }
    maker.b.logic(3);
    for (star, &signal) in stars.iter().zip(&place) {
        for &a in &star.sources {
            let soon = maker.soon();
            maker.assign(a, signal, soon);
            if maker.rng.chance(1, 6) {
                let again = maker.soon();
                let delay = maker.rng.choose(&[again, Delay::Above0, Delay::Above0]);
                maker.assign(a, signal, delay);
            }
        }
    }
    let free = |maker: &Maker| maker.statements() < 110 && maker.drivers.len() < 60;
    let logic = |maker: &Maker, s: u16| maker.b.m.signals[s as usize].ty == LOGIC;
    let tries = maker.rng.choose(&[0, 1, n, 2 * n]);
    for _ in 0..tries {
        // Always delayed, to a signal that others wait on.
        let (a, role) = (maker.rng.below(n), maker.rng.below(stars.len() + 1));
        let other = stars
            .get(role)
            .is_some_and(|star| !star.sources.contains(&a));
        if other && logic(&maker, place[role]) && free(&maker) {
            maker.assign(a, place[role], Delay::Above0);
        }
    }
    for (list, soon) in [(watched, false), (idle, true)] {
        for &signal in list {
            if free(&maker) && maker.rng.chance(1, 2) {
                let a = maker.rng.below(n);
                let delay = match soon {
                    true => maker.soon(),
                    false => Delay::Above0,
                };
                maker.assign(a, signal, delay);
            }
        }
    }
    let sets: Vec<u32> = (0..n)
        .map(|b| {
            let on = stars.iter().zip(&place);
            let on = on.filter(|(star, _)| star.targets.contains(&b));
            on.fold(0, |set, (_, &signal)| set | 1 << signal)
        })
        .collect();
    let noise = watched.iter().fold(0u32, |set, &signal| set | 1 << signal);
    // All waits later, all but one, or any.
    let (mode, odd) = (maker.rng.below(4), maker.rng.below(n));
    for (b, &set) in sets.iter().enumerate() {
        let many = match set == 0 && !tame && maker.rng.chance(1, 6) {
            true => 0,
            false => maker.rng.choose(&[1, 1, 2, 3]),
        };
        let mut left = set;
        for turn in 1..=many {
            let part = match turn == many {
                true => left,
                false => set & maker.rng.next() as u32,
            };
            left &= !part;
            let part = part | noise & maker.rng.next() as u32 & maker.rng.next() as u32;
            let soon = [Delay::Zero, Delay::Negative, Delay::Expression];
            let wrong = match mode {
                _ if tame => false,
                0 | 1 => false,
                2 => b == odd && turn == many,
                _ => maker.rng.chance(1, 4),
            };
            let c = match wrong {
                true => Some(maker.rng.choose(&soon)),
                false if tame && part == 0 => Some(Delay::Above0),
                false => maker.rng.choose(&[None, Some(Delay::Above0)]),
            };
            maker.wait(b, part, c);
        }
        if maker.bodies[b].is_empty() {
            maker.bodies[b].push(StatementRecord::default());
        }
    }
    let jumps = maker.rng.choose(&[0, 0, 1, 2]);
    for b in 0..n {
        maker.arrange(b, jumps);
    }
    let Maker {
        mut b,
        bodies,
        drivers,
        ..
    } = maker;
    for body in bodies {
        b.process();
        let first = b.m.statements.len() as u16;
        for s in body {
            let jump = match s.kind {
                3 | 4 => first,
                _ => 0,
            };
            b.statement(s.kind, s.a + jump, s.b, s.c, s.set);
        }
    }
    for (process, signal) in drivers {
        b.driver(process, signal);
    }
    b.m
}

/// A ladder of P processes: the first waits for a time and assigns its signal after 0, each
/// next waits on the last one's signal and assigns its own. At that time its deadline is
/// one delta step, and each of the P transactions one more: P + 1. The processes stand
/// in the given order.
pub fn ladder(rng: &mut Rng, places: &[usize]) -> Model {
    let mut b = Builder::new();
    for _ in places {
        b.signal(LOGIC, rng.choose(&[2, 3]));
    }
    let time = b.integer(rng.range(1, 3) as i32);
    let zero = b.integer(0);
    let one = b.integer(1);
    let nothing = b.binary(DIFFERENCE, one, one);
    for p in 0..places.len() {
        let at = places.iter().position(|&place| place == p);
        let at = at.expect("each process has a place");
        b.process();
        match at {
            0 => b.wait(0, ABSENT, time),
            _ => b.wait(1 << (at - 1), ABSENT, ABSENT),
        };
        let read = b.read_signal(at as u16);
        let not = b.unary(6, read);
        let delay = rng.choose(&[zero, zero, nothing]);
        b.statement(rng.choose(&[2, 7]), at as u16, not, delay, 0);
        b.driver(p as u8, at as u16);
    }
    b.m
}

/// P processes in a ring, each without delay: from the start there is no end of delta
/// steps.
pub fn endless(processes: usize) -> Model {
    let mut b = Builder::new();
    let zero = b.integer(0);
    for p in 0..processes as u16 {
        b.signal(LOGIC, 2);
        let read = b.read_signal(p);
        let not = b.unary(6, read);
        b.process();
        b.schedule(p, not, zero);
        let before = (p as usize + processes - 1) % processes;
        b.wait(1 << before, ABSENT, ABSENT);
        b.driver(p as u8, p);
    }
    b.m
}

/// P processes of which the last waits for 0 again and again, by a constant or by an
/// expression: there is no chain, and no end of delta steps.
pub fn restless(processes: usize, constant: bool) -> Model {
    let mut b = Builder::new();
    let (zero, one) = (b.integer(0), b.integer(1));
    let nothing = b.binary(DIFFERENCE, one, one);
    for p in 0..processes {
        b.process();
        let c = match p + 1 == processes {
            false => ABSENT,
            true if constant => zero,
            true => nothing,
        };
        b.wait(0, ABSENT, c);
    }
    b.m
}

/// A list that settles before each step, up to `most` orders.
pub fn straight(m: &Model, most: usize) -> Vec<u8> {
    let mut list = Played::new(m);
    while list.orders.len() / 4 + 1 < most {
        list.order(order(3, 0, 200));
        if list.step() != 0 {
            break;
        }
    }
    list.orders
}

/// The checked input of a seed.
pub struct LoopCase {
    pub model: Vec<u8>,
    /// How it was made, and the group that this belongs to.
    pub what: &'static str,
    pub group: &'static str,
    /// The graph that it was made for, if it was.
    pub graph: Option<Graph>,
    /// It is accepted, or refused, for sure.
    pub expected: Option<u32>,
    /// It is to be played, in more than one way.
    pub lively: bool,
}

/// Breaks one rule of a model that has a graph: the number and the bytes.
fn broken(rng: &mut Rng, m: &Model) -> (u32, Vec<u8>) {
    let mut m = m.clone();
    let number = rng.choose(&[1, 2, 3, 5, 6, 8, 8, 20, 24]);
    match number {
        5 => m.signals[0].ty = 3,
        6 => {
            // An operand that is its own node.
            let a = m.nodes.len() as u16;
            let (kind, b, k) = (10, 0, 0);
            m.nodes.push(NodeRecord { kind, a, b, k });
        }
        8 => m.drivers.extend(m.drivers.last().copied()),
        20 => m.signals.iter_mut().for_each(|s| s.kind = PLAIN),
        24 => m.rows = (0..9).map(|row| [row; 9]).collect(),
        _ => {}
    }
    let mut bytes = encode_with(&m, &plan(rng, &m));
    match number {
        1 => bytes.push(0),
        2 => bytes[9] ^= 1,
        3 => {
            bytes[0] = 1;
            repair_sum(&mut bytes[..BLOCK]);
        }
        // Some models have no driver, or no null.
        8 | 20 if judge(&bytes) == 0 => return (1, bytes[1..].to_vec()),
        _ => {}
    }
    (number, bytes)
}

/// The checked input of a seed.
pub fn case(seed: u64) -> LoopCase {
    let rng = &mut Rng::new(seed);
    let form = rng.weighted(&[18, 9, 2, 2, 8, 4]);
    if form == 4 {
        let case = super::model_case(rng.next());
        return LoopCase {
            model: case.bytes,
            what: case.what,
            group: "judged models",
            graph: None,
            expected: case.expected,
            lively: false,
        };
    }
    let (what, graph, m) = match form {
        2 => {
            let many = 1 + rng.below(16);
            let places = shuffled(rng, many);
            let mut graph = vec![vec![]; many];
            for pair in places.windows(2) {
                graph[pair[0]] = vec![pair[1]];
            }
            ("a ladder", Some(graph), ladder(rng, &places))
        }
        3 => ("crowds", None, super::crowds::model(rng)),
        _ => {
            let n = match rng.below(3) {
                0 => 16,
                1 => 8 + rng.below(9),
                _ => 1 + rng.below(9),
            };
            let tame = form == 1;
            let weights = SHAPES.map(|shape| shape.1);
            let shape = match tame {
                // This is what is played.
                true => NO_CHAIN,
                false => rng.weighted(&weights),
            };
            let (name, _, make) = SHAPES[shape];
            let graph = make(rng, n).graph();
            let m = model_with(rng, &graph, tame);
            (
                if tame { "no way back, played" } else { name },
                Some(graph),
                m,
            )
        }
    };
    let m = tables::carried(rng, m);
    if form == 5 {
        let (number, model) = broken(rng, &m);
        return LoopCase {
            model,
            what,
            group: "made for a graph, then refused",
            graph,
            expected: Some(number),
            lively: false,
        };
    }
    let plan = plan(rng, &m);
    LoopCase {
        model: encode_with(&m, &plan),
        what,
        group: what,
        graph,
        expected: Some(0),
        lively: form == 1 || form == 2,
    }
}

#[cfg(test)]
mod tests {
    use super::*;
    use crate::loops::{chain, leads};

    // The tally asks for the graph of every model; here of each shape, with ends of sizes.
    #[test]
    fn models_have_their_graphs() {
        for (name, _, make) in SHAPES {
            for seed in 0..400 {
                let rng = &mut Rng::new(seed);
                let n = rng.choose(&[1, 2, 3, 7, 15, 16, 16]);
                let g = make(rng, n).graph();
                let none = chain(&g).is_empty();
                assert!(
                    none == (name == SHAPES[NO_CHAIN].0) || name == "any edges",
                    "{name}"
                );
                for tame in [false, true] {
                    let m = model_with(rng, &g, tame);
                    assert_eq!(judge(&encode(&m)), 0, "{name}, seed {seed}");
                    assert_eq!(leads(&m), g, "{name}, seed {seed}");
                }
            }
        }
    }
}
