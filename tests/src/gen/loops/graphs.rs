//! Graphs of processes of many shapes.

use crate::loops::Graph;
use crate::rng::Rng;

/// A graph in the making.
pub struct Edges(Vec<Vec<bool>>);

impl Edges {
    fn new(n: usize) -> Edges {
        Edges(vec![vec![false; n]; n])
    }

    fn add(&mut self, a: usize, b: usize) {
        self.0[a][b] = true;
    }

    /// Each of these leads to the next, the last to the first.
    fn ring(&mut self, list: &[usize]) {
        for (n, &a) in list.iter().enumerate() {
            self.add(a, list[(n + 1) % list.len()]);
        }
    }

    /// Edges from earlier to later ones of the list, one of so many.
    fn rising(&mut self, rng: &mut Rng, list: &[usize], of: usize) {
        for (n, &a) in list.iter().enumerate() {
            for &b in &list[n + 1..] {
                if rng.chance(1, of) {
                    self.add(a, b);
                }
            }
        }
    }

    pub fn graph(&self) -> Graph {
        let to = |row: &Vec<bool>| (0..row.len()).filter(|&b| row[b]).collect();
        self.0.iter().map(to).collect()
    }
}

/// The processes in any order.
pub fn shuffled(rng: &mut Rng, n: usize) -> Vec<usize> {
    let mut list: Vec<usize> = (0..n).collect();
    rng.shuffle(&mut list);
    list
}

/// Puts the lowest first.
fn lowest_first(list: &mut [usize]) {
    let lowest = (0..list.len()).min_by_key(|&n| list[n]).unwrap_or(0);
    list.rotate_left(lowest);
}

/// Any edges, few or many.
fn any(rng: &mut Rng, n: usize) -> Edges {
    let mut e = Edges::new(n);
    let of = rng.choose(&[1, 2, 3, n, n, 2 * n]);
    for a in 0..n {
        for b in 0..n {
            if rng.chance(1, of) && (of > 1 || rng.chance(9, 10)) {
                e.add(a, b);
            }
        }
    }
    e
}

/// One ring of any length, with edges back that make it no shorter, seldom one that may;
/// the other processes lead to it or are led to.
fn ring(rng: &mut Rng, n: usize) -> Edges {
    let in_turn = rng.chance(1, 4);
    // Short ones are made in other shapes too.
    let (any, long) = (1 + rng.below(16), 9 + rng.below(8));
    let length = match in_turn && rng.chance(1, 4) {
        true => 16,
        false => rng.choose(&[any, any, long]),
    };
    let n = n.max(length);
    let mut e = Edges::new(n);
    let all = match in_turn {
        true => (0..n).collect(),
        false => shuffled(rng, n),
    };
    let (inner, outer) = all.split_at(length);
    let mut inner = inner.to_vec();
    lowest_first(&mut inner);
    e.ring(&inner);
    let back = rng.choose(&[0, 1, 3]);
    for (at, &a) in inner.iter().enumerate().skip(1) {
        for &b in &inner[1..=at] {
            if rng.chance(back, 6) {
                e.add(a, b);
            }
        }
    }
    if rng.chance(1, 8) {
        e.add(rng.choose(&inner), rng.choose(&inner));
    }
    let (before, behind) = outer.split_at(rng.below(outer.len() + 1));
    for list in [before, behind, outer] {
        let of = rng.choose(&[2, 4]);
        e.rising(rng, list, of);
    }
    for &a in before {
        e.add(a, rng.choose(&inner));
    }
    for &b in behind {
        e.add(rng.choose(&inner), b);
    }
    e
}

/// No way back to any process.
fn rising(rng: &mut Rng, n: usize) -> Edges {
    let mut e = Edges::new(n);
    let all = shuffled(rng, n);
    let of = rng.choose(&[1, 2, 4, 8]);
    e.rising(rng, &all, of);
    e
}

/// The same with processes that lead to themselves.
fn selves(rng: &mut Rng, n: usize) -> Edges {
    let mut e = rising(rng, n);
    for _ in 0..rng.range(1, 3) {
        let a = rng.below(n);
        e.add(a, a);
    }
    e
}

/// Two rings that share a process.
fn two_rings(rng: &mut Rng, n: usize) -> Edges {
    let mut e = Edges::new(n);
    let all = shuffled(rng, n);
    let first = 1 + rng.below(n);
    let second = rng.below(n - first + 1);
    e.ring(&all[..first]);
    e.ring(&[&all[..1], &all[first..first + second]].concat());
    let rest = &all[first + second..];
    e.rising(rng, &[&all[..first], rest].concat()[first - 1..], 2);
    e
}

/// From the lowest process through layers back to it: many chains that are equally short,
/// with ways inside a layer and back beside them.
fn layers(rng: &mut Rng, n: usize) -> Edges {
    let mut e = Edges::new(n);
    let mut all = shuffled(rng, n);
    lowest_first(&mut all);
    let mut layers = vec![all[..1].to_vec()];
    let mut rest = &all[1..];
    let most = rng.range(2, 6) as usize;
    while !rest.is_empty() {
        let (layer, other) = rest.split_at((1 + rng.below(most)).min(rest.len()));
        layers.push(layer.to_vec());
        rest = other;
    }
    let (of, inside) = (rng.choose(&[1, 2, 3]), rng.choose(&[0, 1, 2]));
    for n in 0..layers.len() {
        let next = &layers[(n + 1) % layers.len()];
        for &a in &layers[n] {
            for &b in next {
                if rng.chance(1, of) {
                    e.add(a, b);
                }
            }
            for &b in layers[1..=n].iter().flatten() {
                if rng.chance(inside, 6) {
                    e.add(a, b);
                }
            }
        }
        e.add(layers[n][0], next[0]);
    }
    e
}

/// From one process a short ring over high numbers and a longer one over lower ones; those
/// below it are on none.
fn short_and_high(rng: &mut Rng, n: usize) -> Edges {
    let mut e = Edges::new(n);
    let start = rng.below(n.div_ceil(3));
    let mut low: Vec<usize> = (start + 1..n).collect();
    let short = 1 + rng.below(low.len().saturating_sub(1).max(2) / 2);
    let mut high = low.split_off(low.len() - short.min(low.len()));
    rng.shuffle(&mut high);
    if low.len() > short {
        low.truncate(short + 1 + rng.below(low.len() - short));
        rng.shuffle(&mut low[1..]);
    }
    e.ring(&[&[start], &high[..]].concat());
    e.ring(&[&[start], &low[..]].concat());
    for a in 0..start {
        e.add(a, a + 1 + rng.below(n - a - 1));
    }
    e
}

/// A shape of graphs: its name, how often it is made, and how, of about so many processes.
pub type Shape = (&'static str, usize, fn(&mut Rng, usize) -> Edges);

/// The one without a chain.
pub const NO_CHAIN: usize = 2;

pub const SHAPES: [Shape; 7] = [
    ("any edges", 3, any),
    ("a ring", 13, ring),
    ("no way back", 5, rising),
    ("processes that lead to themselves", 2, selves),
    ("two rings", 2, two_rings),
    ("layers", 4, layers),
    ("a short ring over high numbers", 3, short_and_high),
];
