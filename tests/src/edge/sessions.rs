//! The sessions that a program is held to.

use super::Bench;
use crate::builder::Builder;
use crate::cases::{
    self, in_64_blocks, inverter, inverter_orders, largest, DELTA, READ, SETTLE, TIME,
};
use crate::damage;
use crate::features;
use crate::gen;
use crate::model::*;
use crate::numbers;
use crate::rng::Rng;

/// How many random sessions there are, and from which seed on.
pub const RANDOM: u64 = 1_000;
const SEED: u64 = 1;

/// Two files for the program.
pub struct Case {
    pub name: String,
    pub model: Vec<u8>,
    pub orders: Vec<u8>,
    /// The number that must come out, where it is known beforehand.
    pub number: Option<u32>,
}

impl Case {
    pub fn new(name: impl Into<String>, model: &[u8], orders: &[u8], number: u32) -> Case {
        Case {
            name: name.into(),
            model: model.to_vec(),
            orders: orders.to_vec(),
            number: Some(number),
        }
    }
}

/// A valid model of 64 blocks cut or drawn out to other lengths, by further
/// valid blocks, by zeros and by ones.
fn model_lengths() -> Vec<Case> {
    let longest = in_64_blocks(&inverter().m);
    let orders = inverter_orders();
    let mut list = vec![
        Case::new("6 blocks", &inverter().encode(), &orders, 0),
        Case::new("64 blocks", &longest, &orders, 0),
        Case::new("64 blocks, each total at its limit", &largest(), &orders, 0),
    ];
    for length in [0, 1, 511, 513, 32_257, 32_767] {
        let name = format!("64 blocks cut to {length} bytes");
        list.push(Case::new(name, &longest[..length], &orders, 1));
    }
    let blocks: Vec<u8> = (64..2_048).flat_map(|n| block(n, 6, &[])).collect();
    let fills = [
        ("blocks", blocks),
        ("zeros", vec![0; 1_015_808]),
        ("ones", vec![255; 1_015_808]),
    ];
    for more in [
        1, 2, 256, 511, 512, 513, 700, 1_024, 7_232, 32_767, 32_768, 33_280, 65_536, 98_304,
        1_015_808,
    ] {
        for (fill, bytes) in &fills {
            let name = format!("64 blocks and {more} bytes more of {fill}");
            let model = [&longest, &bytes[..more]].concat();
            list.push(Case::new(name, &model, &orders, 1));
        }
    }
    list
}

/// The inverter's orders again and again, of many lengths in bytes.
fn order_lengths() -> Vec<Case> {
    let model = inverter().encode();
    let many = inverter_orders().repeat(32_768);
    let mut list = vec![];
    for length in [0, 4, 8, 32, 16_380, 16_384] {
        let name = format!("{length} bytes of orders");
        list.push(Case::new(name, &model, &many[..length], 0));
    }
    for length in [
        1, 2, 3, 5, 16_383, 16_385, 16_386, 16_387, 16_388, 16_389, 16_392, 16_400, 20_000, 32_768,
        65_536, 65_540, 81_920, 1_048_576,
    ] {
        let name = format!("{length} bytes of orders");
        list.push(Case::new(name, &model, &many[..length], 9));
    }
    list
}

/// Each of a model's numbers, some with orders that would be refused too: the
/// model's number comes first.
fn damaged_models() -> Vec<Case> {
    let mut list = vec![];
    for &rule in numbers::MODEL {
        for seed in 0..12 {
            let (what, model) = damage::damaged(&mut Rng::new(seed), rule);
            for length in [0, 3, 32, 16_388, 70_000] {
                let name = format!("{what}, {length} bytes of orders");
                let orders = inverter_orders().repeat(2_188);
                list.push(Case::new(name, &model, &orders[..length], rule));
            }
        }
    }
    for damages in features::damages() {
        for seed in 0..40 {
            let (rule, what, model) = damages.damaged(&mut Rng::new(seed));
            list.push(Case::new(what, &model, &inverter_orders(), rule));
        }
    }
    list
}

/// Models on both sides of each limit.
fn limit_models() -> Vec<Case> {
    let orders = inverter_orders();
    let cases = damage::limits().into_iter();
    cases
        .map(|(name, model, number)| Case::new(name, &model, &orders, number))
        .collect()
}

/// The paper's bench cases, but for those with another answer buffer.
fn bench_cases() -> Vec<Case> {
    let cases = cases::sessions().into_iter();
    let mut list: Vec<Case> = cases
        .filter(|c| c.room == 4 * c.orders.len())
        .map(|c| Case {
            name: c.name,
            model: c.model,
            orders: c.orders,
            number: None,
        })
        .collect();
    list.push(long_lines());
    list
}

/// A session of 4,096 orders with lines as long as they can be: a clock goes to
/// the last time, and then the lowest integer is read again and again.
pub fn long_lines() -> Case {
    let mut b = Builder::new();
    b.signal(INTEGER, -2_147_483_647);
    let step = b.integer(2_000_000_000);
    b.process();
    b.wait(0, ABSENT, step);
    let round = [(SETTLE, 0, 9), (TIME, 0, 0), (DELTA, 0, 0)].repeat(500);
    let reads = vec![(READ, 0, 0); 4_096 - round.len()];
    let orders = cases::orders(&[round, reads].concat());
    Case::new("4,096 orders, long lines", &b.encode(), &orders, 0)
}

/// The longest dump that can be.
pub fn longest_dump() -> Case {
    let (b, orders) = cases::longest_dump();
    Case::new("the longest dump", &b.encode(), &orders, 0)
}

/// A model whose chain has all processes, the second of them the last.
pub fn longest_chain() -> Case {
    let mut m = gen::loops::endless(16);
    // Process p assigns signal p; each waits on the one of the process before it.
    let order: Vec<u32> = [0].into_iter().chain((1..16).rev()).collect();
    for (n, &p) in order.iter().enumerate() {
        let before = order[(n + 15) % 16];
        m.statements[2 * p as usize + 1].set = 1 << before;
    }
    Case::new("a chain of 16", &encode(&m), &[], 0)
}

fn random_sessions(bench: &Bench) -> Vec<Case> {
    (SEED..SEED + RANDOM)
        .map(|seed| {
            let case = (bench.random)(seed);
            Case {
                name: format!("seed {seed} ({})", case.what),
                model: case.model,
                orders: case.orders,
                number: None,
            }
        })
        .collect()
}

/// The group of orders of other lengths.
const ORDERS: &str = "the orders' length";

/// The group of random sessions.
pub const RANDOM_SESSIONS: &str = "random sessions";

/// Sessions of one sort, with its name.
pub type Group = (&'static str, Vec<Case>);

/// Without what orders alone differ in.
fn models_once(groups: Vec<Group>) -> Vec<Group> {
    let mut groups: Vec<Group> = groups.into_iter().filter(|g| g.0 != ORDERS).collect();
    for (_, list) in &mut groups {
        for case in &mut *list {
            case.number = case.number.filter(|&n| n != numbers::ORDERS);
            case.orders.clear();
        }
        list.dedup_by(|a, b| a.model == b.model);
    }
    groups
}

/// All sessions for a program.
pub fn sessions(bench: &Bench) -> Vec<Group> {
    let groups = all_sessions(bench);
    match bench.plays() {
        true => groups,
        false => models_once(groups),
    }
}

fn all_sessions(bench: &Bench) -> Vec<Group> {
    vec![
        ("a model's length", model_lengths()),
        (ORDERS, order_lengths()),
        ("damaged models", damaged_models()),
        ("limits of a model", limit_models()),
        ("bench cases", bench_cases()),
        (RANDOM_SESSIONS, random_sessions(bench)),
    ]
}
