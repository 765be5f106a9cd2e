//! Models checked for loops without delay, here and, where one is given, by another kernel;
//! and those without a chain, whose waits are all later, played: at most P + 1 delta steps
//! at any one time.

mod readings;

use super::{play, print_shown, with_none, Session};
use crate::cases;
use crate::cycle::DELTA_LIMIT;
use crate::damage;
use crate::gen::{self, loops as made};
use crate::loops::*;
use crate::model::*;
use crate::numbers::{self, Counts};
use crate::rng::Rng;
use crate::session::{ANSWER, DELTA, ORDER};
use readings::*;
use std::collections::BTreeMap;

/// Another kernel's check: a model and the words to its number.
pub type Check<'a> = &'a dyn Fn(&[u8], &mut [u64; WORDS]) -> u32;

/// What checks show besides.
const NONE: &str = "no chain";
const ABOVE: &str = "a chain that begins above 0";
const LED_TO: &str = "a chain that a lower process leads to";
const ON: &str = "a process on no chain behind a chain";
const IS_LATER: &str = "all waits later";
const NOT_LATER: &str = "a wait that is not";
const NONE_LATER: &str = "no chain, all waits later";
const NONE_NOT: &str = "no chain, a wait that is not later";
const REFUSED: &str = "a refused model whose records have a chain";
const REFUSED_NONE: &str = "a refused model whose records have none";
const LISTED: &str = "a graph whose closed chains were all listed";
const MADE: &str = "a graph that was made so";
const SHOWN: [&str; 12] = [
    NONE,
    ABOVE,
    LED_TO,
    ON,
    IS_LATER,
    NOT_LATER,
    NONE_LATER,
    NONE_NOT,
    REFUSED,
    REFUSED_NONE,
    LISTED,
    MADE,
];

/// In place of a chain's processes.
const REFUSED_WAY: u32 = 99;

/// Kinds of orders that are done, and refusals, in the played lists: all but 16, since the
/// limit of 1,000 delta steps is far, and 18, since the last time is.
const DONE: &[u32] = &[1, 3, 4, 5, 6, 7];
const PLAYED_REFUSALS: &[u32] = &[11, 12, 13, 14, 15, 17, 19, 22, 23];

/// Up to so many processes all closed chains are listed.
const LIST: usize = 7;

/// Where a model reads otherwise by a wrong reading: its graph, its answer.
#[derive(Clone, Copy, Default)]
struct Otherwise {
    graph: u64,
    answer: u64,
}

#[derive(Default)]
pub struct LoopTally {
    /// Models by number, 0 the accepted ones.
    pub numbers: Counts,
    /// Chains by their processes, 0 none.
    pub lengths: [u64; 17],
    pub shown: Counts<&'static str>,
    /// Models that another reading gives another graph or answer, by the reading's name.
    otherwise: BTreeMap<&'static str, Otherwise>,
    ways: BTreeMap<&'static str, Counts>,
    /// Played models and lists; their orders, the done by kind and the others by refusal.
    pub played: u64,
    pub lists: u64,
    pub done: Counts,
    pub refused: Counts,
    /// The most delta steps at one time, and how many models had P + 1, by processes.
    pub most: [u64; 17],
    pub full: [u64; 17],
    /// Models of each of the families, by processes: those that come to P + 1, and the most
    /// delta steps of those that lack a premise.
    pub exact: [u64; 17],
    pub endless: [u64; 17],
    pub restless: [[u64; 17]; 2],
}

/// Checks `n` models from seed `seed` on; model i has the seed `seed + i`.
pub fn loops(
    n: u64,
    seed: u64,
    other: Option<Check>,
    session: Option<Session>,
) -> Result<LoopTally, String> {
    let mut t = LoopTally::default();
    t.families(other, session)
        .map_err(|found| format!("loops: {found}"))?;
    for (name, model, _) in damage::limits() {
        both(&model, other).map_err(|found| format!("loops: `{name}`: {found}"))?;
    }
    for case in cases::sessions() {
        let name = case.name;
        both(&case.model, other).map_err(|found| format!("loops: `{name}`: {found}"))?;
    }
    for i in 0..n {
        let seed = seed.wrapping_add(i);
        let case = made::case(seed);
        let different = |found| {
            let what = case.what;
            format!("loops: first difference at seed {seed} ({what}): {found}")
        };
        t.run(&case, seed, other, session).map_err(different)?;
    }
    Ok(t)
}

/// Checks a model in both kernels: the number and the words.
fn both(model: &[u8], other: Option<Check>) -> Result<(u32, [u64; WORDS]), String> {
    let mut words = [0; WORDS];
    let number = check(model, &mut words);
    let Some(other) = other else {
        return Ok((number, words));
    };
    // Words that must be written, whatever they held.
    for blank in [u64::MAX, 0] {
        let mut theirs = [blank; WORDS];
        let their_number = other(model, &mut theirs);
        if their_number != number {
            return Err(format!(
                "number: second kernel {number}, proved kernel {their_number}"
            ));
        }
        if theirs != words {
            return Err(format!("second kernel {words:?}, proved kernel {theirs:?}"));
        }
    }
    Ok((number, words))
}

/// The most done delta steps at one time, by the answers.
fn most_at_one_time(orders: &[u8], answers: &[u8]) -> u64 {
    let mut times: BTreeMap<u64, u64> = BTreeMap::new();
    let pairs = orders.chunks_exact(ORDER).zip(answers.chunks_exact(ANSWER));
    let done = pairs.filter(|(order, answer)| order[0] == DELTA && answer[0] == 0);
    for (_, answer) in done {
        let time = answer[8..].try_into().expect("eight bytes");
        *times.entry(u64::from_le_bytes(time)).or_default() += 1;
    }
    times.values().max().copied().unwrap_or(0)
}

/// Plays a list in both kernels: its answers.
fn answers(m: &Model, orders: &[u8], session: Option<Session>) -> Result<Vec<u8>, String> {
    let (number, (answers, _)) = play(&encode(m), orders, 4 * orders.len(), 0x5A, session)?;
    match number {
        0 => Ok(answers),
        _ => Err(format!("a list to be played is refused with {number}")),
    }
}

impl LoopTally {
    fn see(&mut self, what: &'static str, when: bool) {
        if when {
            self.shown.add(what);
        }
    }

    /// The ladders, whose chain of wakings is as long as it can be, reach P + 1; without
    /// one of the premises it is passed, up to the limit of 1,000.
    fn families(&mut self, other: Option<Check>, session: Option<Session>) -> Result<(), String> {
        let none = |later: bool| Checked {
            chain: vec![],
            later,
        };
        for p in 1..=16usize {
            let rising: Vec<usize> = (0..p).collect();
            let falling: Vec<usize> = (0..p).rev().collect();
            for places in [&rising, &falling] {
                let m = made::ladder(&mut Rng::new(p as u64), places);
                let most = self.family(&m, &none(true), 100, other, session)?;
                if most != p as u64 + 1 {
                    return Err(format!("a ladder of {p} made {most} delta steps at a time"));
                }
                self.exact[p] += 1;
            }
            let limit = DELTA_LIMIT as u64;
            let around = Checked {
                chain: match p {
                    1 => vec![0],
                    _ => rising.clone(),
                },
                later: true,
            };
            self.endless[p] = self.family(&made::endless(p), &around, 2_100, other, session)?;
            for constant in [true, false] {
                let m = made::restless(p, constant);
                let most = self.family(&m, &none(false), 2_100, other, session)?;
                self.restless[constant as usize][p] = most;
            }
            let found = [self.endless[p], self.restless[0][p], self.restless[1][p]];
            if found != [limit; 3] {
                return Err(format!(
                    "{p} processes without a premise: {found:?} delta steps"
                ));
            }
        }
        Ok(())
    }

    /// Checks a model of a family and plays it: the most delta steps at one time.
    fn family(
        &mut self,
        m: &Model,
        expected: &Checked,
        orders: usize,
        other: Option<Check>,
        session: Option<Session>,
    ) -> Result<u64, String> {
        let found = both(&encode(m), other)?;
        if found != (0, expected.words()) {
            return Err(format!("a family's model: {found:?}, not {expected:?}"));
        }
        let list = made::straight(m, orders);
        let answers = answers(m, &list, session)?;
        Ok(most_at_one_time(&list, &answers))
    }

    /// Checks a model, and plays it where it has no chain and all its waits are later.
    fn run(
        &mut self,
        case: &made::LoopCase,
        seed: u64,
        other: Option<Check>,
        session: Option<Session>,
    ) -> Result<(), String> {
        let (number, words) = both(&case.model, other)?;
        self.numbers.add(number);
        if case.expected.is_some_and(|e| e != number) {
            return Err(format!("made for {:?}, but is {number}", case.expected));
        }
        let way = self.ways.entry(case.group).or_default();
        if number != 0 {
            way.add(REFUSED_WAY);
            if let Some(g) = &case.graph {
                let has = !chain(g).is_empty();
                self.see(REFUSED, has);
                self.see(REFUSED_NONE, !has);
            }
            return Ok(());
        }
        way.add(words[16] as u32);
        let m = load(&case.model).expect("the model is accepted");
        let g = leads(&m);
        if let Some(made) = &case.graph {
            if *made != g {
                return Err(format!("made for {made:?}, but is {g:?}"));
            }
            self.see(MADE, true);
        }
        let checked = Checked::of(&m);
        self.count(&m, &g, &checked)?;
        if checked.chain.is_empty() && checked.later {
            self.bounded(&m, case.lively, seed, session)?;
        }
        Ok(())
    }

    /// Counts what an accepted model shows.
    fn count(&mut self, m: &Model, g: &Graph, checked: &Checked) -> Result<(), String> {
        let Checked { chain, later } = checked;
        self.lengths[chain.len()] += 1;
        if g.len() <= LIST {
            let all = closed_chains(g);
            let best = all.iter().min_by_key(|c| (c[0], c.len(), c.to_vec()));
            if best.unwrap_or(&vec![]) != chain {
                return Err(format!(
                    "of all closed chains {best:?} is first, not {chain:?}"
                ));
            }
            self.see(LISTED, true);
        }
        self.see(NONE, chain.is_empty());
        self.see(IS_LATER, *later);
        self.see(NOT_LATER, !later);
        self.see(NONE_LATER, chain.is_empty() && *later);
        self.see(NONE_NOT, chain.is_empty() && !later);
        if let Some(&start) = chain.first() {
            self.see(ABOVE, start > 0);
            let leads_to = |p: usize| reached(g, p, &[])[start];
            self.see(LED_TO, (0..start).any(leads_to));
            let behind = reached(g, start, &[]);
            let off = |p: usize| behind[p] && !on_a_chain(g, p);
            self.see(ON, (0..g.len()).any(off));
        }
        self.read_otherwise(m, g, checked)
    }

    /// Counts the wrong readings that give this model another graph or another answer.
    fn read_otherwise(&mut self, m: &Model, g: &Graph, checked: &Checked) -> Result<(), String> {
        let soon = |n: usize| without_delay(m, statement(m, n));
        let every = |_: usize| true;
        if relation(m, &soon, &every) != *g {
            return Err("the relation by sets of signals is another".into());
        }
        for (name, taken) in DELAYS {
            self.otherwise(name, relation(m, &|n| taken(m, n), &every), g, checked);
        }
        for (name, taken) in ASSIGNMENTS {
            let soon = |n: usize| soon(n) && taken(m, n);
            self.otherwise(name, relation(m, &soon, &every), g, checked);
        }
        for (name, taken) in WAITS {
            let waits = |n: usize| taken(m, n);
            self.otherwise(name, relation(m, &soon, &waits), g, checked);
        }
        let met = come_to(m);
        let reached = relation(m, &|n| soon(n) && met[n], &|n| met[n]);
        self.otherwise(UNREACHED, reached, g, checked);
        for (name, missed) in EDGES {
            let mut fewer = g.clone();
            for (a, list) in fewer.iter_mut().enumerate() {
                list.retain(|&b| !missed(m, a, b));
            }
            self.otherwise(name, fewer, g, checked);
        }
        let chain = &checked.chain;
        for (name, wrong) in CHAINS {
            let differs = !chain.is_empty() && wrong(g, chain) != *chain;
            self.otherwise.entry(name).or_default().answer += differs as u64;
        }
        let waits: Vec<usize> = (0..m.statements.len())
            .filter(|&n| is_wait(statement(m, n)))
            .collect();
        for (name, wrong) in LATER {
            let differs = waits.iter().all(|&n| wrong(m, n)) != checked.later;
            self.otherwise.entry(name).or_default().answer += differs as u64;
        }
        let mut reached = waits.iter().filter(|&&n| met[n]);
        let later = reached.all(|&n| waits_later(m, statement(m, n)));
        let unreached = self.otherwise.entry(LATER_UNREACHED).or_default();
        unreached.answer += (later != checked.later) as u64;
        Ok(())
    }

    fn otherwise(&mut self, name: &'static str, other: Graph, g: &Graph, checked: &Checked) {
        let row = self.otherwise.entry(name).or_default();
        if other != *g {
            row.graph += 1;
            row.answer += (chain(&other) != checked.chain) as u64;
        }
    }

    /// Plays random lists on a model whose delta steps are bounded.
    fn bounded(
        &mut self,
        m: &Model,
        lively: bool,
        seed: u64,
        session: Option<Session>,
    ) -> Result<(), String> {
        let rng = &mut Rng::new(!seed);
        let processes = m.processes.len();
        let mut lists = vec![gen::orders(rng, m, 40)];
        if lively {
            lists.push(gen::orders(rng, m, 120));
            lists.push(made::straight(m, 120));
        }
        let mut most = 0;
        for list in lists {
            let answers = answers(m, &list, session)?;
            self.lists += 1;
            let pairs = list.chunks_exact(ORDER).zip(answers.chunks_exact(ANSWER));
            for (order, answer) in pairs {
                match answer[0] {
                    0 => self.done.add(order[0].into()),
                    refusal => self.refused.add(refusal.into()),
                }
            }
            let here = most_at_one_time(&list, &answers);
            most = most.max(here);
            if here > processes as u64 + 1 {
                return Err(format!(
                    "{here} delta steps at one time by {processes} processes"
                ));
            }
        }
        self.played += 1;
        self.most[processes] = self.most[processes].max(most);
        self.full[processes] += (most == processes as u64 + 1) as u64;
        Ok(())
    }

    /// The names of the readings, those of the graph first.
    fn readings() -> (Vec<&'static str>, Vec<&'static str>) {
        let graph = DELAYS.map(|row| row.0).into_iter();
        let graph = graph.chain(ASSIGNMENTS.map(|row| row.0));
        let graph = graph.chain(WAITS.map(|row| row.0)).chain([UNREACHED]);
        let graph = graph.chain(EDGES.map(|row| row.0));
        let answer = CHAINS.map(|row| row.0).into_iter();
        let answer = answer
            .chain(LATER.map(|row| row.0))
            .chain([LATER_UNREACHED]);
        (graph.collect(), answer.collect())
    }

    /// Err where something occurred in fewer models than it must.
    pub fn require(&self, number: u64, least: u64) -> Result<(), String> {
        self.numbers
            .require("check number", &with_none(numbers::MODEL), number)?;
        self.shown.require("loops:", &SHOWN, least)?;
        let mut all = Counts::default();
        let names: [String; 17] = std::array::from_fn(|n| format!("a chain of {n}"));
        let names = names.each_ref().map(|name| name.as_str());
        for (name, &many) in names.iter().zip(&self.lengths) {
            all.add_many(*name, many);
        }
        all.require("loops:", &names, least)?;
        let (graph, answer) = LoopTally::readings();
        let mut all = Counts::default();
        for name in graph.iter().chain(&answer) {
            let row = self.otherwise.get(name).copied().unwrap_or_default();
            all.add_many(*name, row.answer);
        }
        let names = [graph, answer].concat();
        all.require("loops, the answer decided by:", &names, least)?;
        self.done
            .require("loops, played: a done order", DONE, least)?;
        self.refused
            .require("loops, played: refusal", PLAYED_REFUSALS, least)?;
        for p in 1..=16 {
            if self.full[p] < least / 20 || self.played < 10 * least {
                return Err(format!(
                    "{} models of {p} processes came to P + 1 delta steps; {} were played",
                    self.full[p], self.played
                ));
            }
        }
        Ok(())
    }

    pub fn print(&self) {
        println!("checked {} models", self.numbers.sum());
        println!("number      models");
        for n in with_none(numbers::MODEL) {
            println!("{n:6} {:11}", self.numbers.of(n));
        }
        println!("chains by their processes, 0 none: {:?}", self.lengths);
        print_shown("checks that show", &self.shown, &SHOWN);
        let (graph, answer) = LoopTally::readings();
        println!("models in which it decides           the graph   the answer");
        for name in graph {
            let row = self.otherwise.get(name).copied().unwrap_or_default();
            println!("{name:56}{:8}{:8}", row.graph, row.answer);
        }
        println!("models in which it decides                       the answer");
        for name in answer {
            let row = self.otherwise.get(name).copied().unwrap_or_default();
            println!("{name:64}{:8}", row.answer);
        }
        let kinds: Vec<u32> = (0..=16).chain([REFUSED_WAY]).collect();
        println!("how it was made, by the chain's processes from 0 on, at the end the refused");
        for (way, counts) in &self.ways {
            let row: String = kinds
                .iter()
                .map(|&n| format!("{:6}", counts.of(n)))
                .collect();
            println!("{way:44}{row}");
        }
        println!(
            "no chain and all waits later: played {} models, {} lists",
            self.played, self.lists
        );
        for (title, counts, list) in [
            ("done orders by kind", &self.done, DONE),
            ("refused orders", &self.refused, numbers::ORDER),
        ] {
            let each = list.iter().map(|&n| format!("{n}: {}", counts.of(n)));
            println!("{title}: {}", each.collect::<Vec<_>>().join(", "));
        }
        println!(
            "the most delta steps at one time, by 1 to 16 processes: {:?}",
            &self.most[1..]
        );
        println!("models that came to P + 1: {:?}", &self.full[1..]);
        println!(
            "ladders of 1 to 16 processes at P + 1: {:?}",
            &self.exact[1..]
        );
        println!("with a chain: {:?}", &self.endless[1..]);
        println!(
            "with a wait for the constant 0: {:?}",
            &self.restless[1][1..]
        );
        println!(
            "with a wait for an expression worth 0: {:?}",
            &self.restless[0][1..]
        );
    }
}

#[cfg(test)]
mod tests {
    use super::*;
    use crate::tally::tests::own;

    #[test]
    fn agreement() {
        let t = loops(4_000, 5, Some(&check), Some(&own)).unwrap();
        assert_eq!(t.require(4, 10), Ok(()));
        let message = LoopTally::default().require(0, 1).unwrap_err();
        for name in SHOWN {
            assert!(message.contains(&format!("{name} occurred 0")), "{message}");
        }
        assert!(LoopTally::default().require(1, 0).is_err());
    }

    #[test]
    fn what_is_rare_is_told() {
        let mut t = loops(4_000, 5, None, None).unwrap();
        let old = std::mem::take(&mut t.lengths[16]);
        let message = t.require(1, 10).unwrap_err();
        assert!(
            message.contains("a chain of 16 occurred 0 times"),
            "{message}"
        );
        t.lengths[16] = old;
        let (graph, answer) = LoopTally::readings();
        for name in [graph, answer].concat() {
            let old = t.otherwise.remove(name).expect("each reading occurs");
            let message = t.require(1, 10).unwrap_err();
            assert!(
                message.contains(&format!("{name} occurred 0 times")),
                "{message}"
            );
            t.otherwise.insert(name, old);
        }
        t.full[9] = 0;
        let message = t.require(1, 20).unwrap_err();
        assert!(
            message.contains("0 models of 9 processes came to"),
            "{message}"
        );
    }

    /// What is told of a kernel that spoils the words, by number and model.
    fn told_of(spoil: impl Fn(u32, &[u8], &mut [u64; WORDS]) -> u32) -> String {
        let other = |m: &[u8], out: &mut [u64; WORDS]| {
            let number = check(m, out);
            spoil(number, m, out)
        };
        loops(2_000, 5, Some(&other), None)
            .err()
            .unwrap_or_default()
    }

    #[test]
    fn another_kernels_difference_is_told() {
        let number = told_of(|number, _, _| if number == 24 { 25 } else { number });
        assert!(
            number.contains("second kernel 24, proved kernel 25"),
            "{number}"
        );
        let later = told_of(|number, _, out| {
            out[17] = (number == 0) as u64;
            number
        });
        assert!(later.contains("proved kernel ["), "{later}");
        // A refused model's words, words that are left alone, one behind the chain.
        for spoil in [
            |number: u32, out: &mut [u64; WORDS]| out[16] = out[16].max((number != 0) as u64),
            |number: u32, out: &mut [u64; WORDS]| out[17] = out[17].max((number != 0) as u64),
            |_, out: &mut [u64; WORDS]| out[15] = if out[16] < 16 { 15 } else { out[15] },
        ] {
            let found = told_of(|number, _, out| {
                spoil(number, out);
                number
            });
            assert!(found.contains("proved kernel ["), "{found}");
        }
        let left = |m: &[u8], out: &mut [u64; WORDS]| match check(m, &mut [0; WORDS]) {
            0 => check(m, out),
            number => number,
        };
        let found = loops(1, 5, Some(&left), None).err().unwrap();
        assert!(
            found.contains("proved kernel [18446744073709551615, "),
            "{found}"
        );
    }

    /// A check with each of the wrong readings is found.
    #[test]
    fn wrong_readings_are_found() {
        let told = |name: &str, wrong: &dyn Fn(&Model) -> Checked| {
            let other = |bytes: &[u8], out: &mut [u64; WORDS]| {
                let m = load(bytes);
                *out = m.as_ref().map_or([0; WORDS], |m| wrong(m).words());
                m.err().unwrap_or(0)
            };
            let found = loops(2_000, 5, Some(&other), None).err();
            assert!(found.is_some(), "{name}");
        };
        let by = |m: &Model, g: Graph| Checked {
            chain: chain(&g),
            later: later(m),
        };
        let every = |_: usize| true;
        for (name, taken) in DELAYS {
            told(name, &|m| by(m, relation(m, &|n| taken(m, n), &every)));
        }
        for (name, taken) in ASSIGNMENTS {
            told(name, &|m| {
                let soon = |n: usize| without_delay(m, statement(m, n)) && taken(m, n);
                by(m, relation(m, &soon, &every))
            });
        }
        for (name, taken) in WAITS {
            told(name, &|m| {
                let soon = |n: usize| without_delay(m, statement(m, n));
                by(m, relation(m, &soon, &|n| taken(m, n)))
            });
        }
        for (name, missed) in EDGES {
            told(name, &|m| {
                let mut g = leads(m);
                for (a, list) in g.iter_mut().enumerate() {
                    list.retain(|&b| !missed(m, a, b));
                }
                by(m, g)
            });
        }
        for (name, wrong) in CHAINS {
            told(name, &|m| {
                let g = leads(m);
                let right = by(m, g.clone());
                let chain = match right.chain.is_empty() {
                    true => vec![],
                    false => wrong(&g, &right.chain),
                };
                Checked { chain, ..right }
            });
        }
        for (name, wrong) in LATER {
            told(name, &|m| Checked {
                chain: chain(&leads(m)),
                later: (0..m.statements.len())
                    .filter(|&n| is_wait(statement(m, n)))
                    .all(|n| wrong(m, n)),
            });
        }
    }

    /// A session that makes too many delta steps, or none.
    #[test]
    fn delta_steps_are_counted() {
        let step = |refusal: u8, time: u64| {
            let mut answer = [0; ANSWER];
            answer[0] = refusal;
            answer[8..].copy_from_slice(&time.to_le_bytes());
            answer
        };
        let orders = [[DELTA, 0, 0, 0], [7, 0, 0, 0]].concat().repeat(3);
        let answers = [(0, 1), (0, 1), (0, 1), (0, 300), (22, 1), (0, 1)];
        let answers = answers.map(|(refusal, time)| step(refusal, time)).concat();
        assert_eq!(most_at_one_time(&orders, &answers), 2);
        assert_eq!(most_at_one_time(&[], &[]), 0);
        // Models without a premise pass the bound.
        let models = [
            made::endless(3),
            made::restless(3, true),
            made::restless(3, false),
        ];
        for m in models {
            let found = LoopTally::default().bounded(&m, true, 1, None).unwrap_err();
            let told = "delta steps at one time by 3 processes";
            assert!(found.contains(told), "{found}");
        }
        // A kernel whose time is left out of the answer is another.
        let wrong = |m: &[u8], o: &[u8], a: &mut [u8], d: &mut [u8]| {
            let number = own(m, o, a, d)?;
            a.chunks_mut(ANSWER).for_each(|x| x[8] = 0);
            Ok(number)
        };
        let found = loops(1, 5, None, Some(&wrong)).err().unwrap();
        assert!(found.contains("to order Some([7, 0, 0, 0])"), "{found}");
    }
}
