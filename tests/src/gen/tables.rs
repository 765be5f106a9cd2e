//! Resolution tables of many shapes: those that a model may carry, and those that it may not.

use crate::model::Model;
use crate::rng::Rng;
use crate::values::{associative, code, symmetric, Table, STANDARD};
use std::array::from_fn;

/// One that a model may carry.
pub fn table(rng: &mut Rng) -> Table {
    let form = rng.weighted(&[2, 2, 4, 4, 1, 4, 4, 4, 4, 3, 3, 4]);
    shape(rng, form)
}

/// Gives one model of four its own table.
pub fn carried(rng: &mut Rng, mut m: Model) -> Model {
    if rng.chance(1, 4) {
        m.rows = table(rng).to_vec();
    }
    m
}

fn shape(rng: &mut Rng, form: usize) -> Table {
    match form {
        0 => STANDARD,
        1 => open_drain(),
        2 => relabelled(rng, &STANDARD),
        3 => {
            // The strongest of the two, by any order of the codes.
            let order = codes(rng);
            relabel(&from_pairs(usize::max), &order)
        }
        4 => [[rng.below(9) as u8; 9]; 9],
        5 => {
            let table = joins(rng);
            relabelled(rng, &table)
        }
        6 => {
            let table = sums(rng);
            relabelled(rng, &table)
        }
        7 => nilpotent(rng),
        8 => {
            let form = rng.choose(&[0, 1, 3, 5, 6, 7]);
            let table = shape(rng, form);
            inflated(rng, &table)
        }
        9 => {
            let table = product(rng);
            relabelled(rng, &table)
        }
        10 => {
            let products = from_pairs(|x, y| x * y % 9);
            relabelled(rng, &products)
        }
        _ => {
            let form = rng.below(11);
            let table = shape(rng, form);
            perturbed(rng, &table)
        }
    }
}

fn from_pairs(pair: impl Fn(usize, usize) -> usize) -> Table {
    from_fn(|x| from_fn(|y| pair(x, y) as u8))
}

/// The nine codes in any order.
fn codes(rng: &mut Rng) -> [u8; 9] {
    let mut all = from_fn(|n| n as u8);
    rng.shuffle(&mut all);
    all
}

/// The table with each code x named new[x].
fn relabel(table: &Table, new: &[u8; 9]) -> Table {
    let mut named = *table;
    for x in 0..9 {
        for y in 0..9 {
            named[new[x] as usize][new[y] as usize] = new[table[x][y] as usize];
        }
    }
    named
}

fn relabelled(rng: &mut Rng, table: &Table) -> Table {
    let new = codes(rng);
    relabel(table, &new)
}

/// Wired-and: 0 wins over all that is known, and a weak value over Z.
pub fn open_drain() -> Table {
    let strength: [usize; 9] = from_fn(|x| {
        let order = b"Z1HLW0-XU";
        order.iter().position(|&l| code(l) == x as u8).unwrap()
    });
    from_pairs(|x, y| if strength[x] > strength[y] { x } else { y })
}

/// Unions of sets: nine sets such that the union of any two is one of them.
fn joins(rng: &mut Rng) -> Table {
    let mut sets: Vec<u8> = vec![];
    while sets.len() < 9 {
        let new = rng.next() as u8 & rng.choose(&[15, 31, 63]);
        let more: Vec<u8> = sets.iter().map(|set| set | new).chain([new]).collect();
        sets.extend(more);
        sets.sort();
        sets.dedup();
    }
    while sets.len() > 9 {
        // Without a set that is no union of two others the rest is closed too.
        let n = rng.below(sets.len());
        let others = || sets.iter().filter(|&&set| set != sets[n]);
        if others().all(|a| others().all(|b| a | b != sets[n])) {
            sets.remove(n);
        }
    }
    let at = |set: u8| sets.iter().position(|&s| s == set).unwrap();
    from_pairs(|x, y| at(sets[x] | sets[y]))
}

/// Sums: those from `first` on repeat with a period, 9 - first. With first 0 it is addition
/// modulo 9, with first 8 addition up to 8; half the time 0 is no code, so that none is neutral.
fn sums(rng: &mut Rng) -> Table {
    let first = rng.below(9);
    let more = rng.below(2);
    from_pairs(|x, y| match x + y + more {
        sum if sum < 9 => sum,
        sum => first + (sum - first) % (9 - first),
    })
}

/// Few pairs come to more than zero, and no three do.
fn nilpotent(rng: &mut Rng) -> Table {
    let order = codes(rng);
    let last = 1 + rng.below(4);
    // With order[..last] every pair comes to order[0], other pairs to one of these.
    let mut table = [[order[0]; 9]; 9];
    for x in last..9 {
        for y in last..=x {
            let (a, b) = (order[x] as usize, order[y] as usize);
            table[a][b] = order[rng.below(last)];
            table[b][a] = table[a][b];
        }
    }
    table
}

/// Codes stand for others, whose pairs they come to.
fn inflated(rng: &mut Rng, table: &Table) -> Table {
    // Closed under the table: what comes of a code and its pairs.
    let seeds = [rng.below(9), rng.below(9), rng.below(9)];
    let mut kept = [false; 9];
    seeds.iter().for_each(|&x| kept[x] = true);
    let mut grows = true;
    while grows {
        grows = false;
        for (x, y) in pairs() {
            let z = table[x][y] as usize;
            grows |= kept[x] && kept[y] && !kept[z];
            kept[z] |= kept[x] && kept[y];
        }
    }
    let list: Vec<usize> = (0..9).filter(|&x| kept[x]).collect();
    let stand: [usize; 9] = from_fn(|x| match kept[x] {
        true => x,
        false => rng.choose(&list),
    });
    from_pairs(|x, y| table[stand[x]][stand[y]] as usize)
}

/// Pairs of two of three, each by a table of three.
fn product(rng: &mut Rng) -> Table {
    let three = |rng: &mut Rng| loop {
        let six: [usize; 6] = from_fn(|_| rng.below(3));
        let at = |x: usize, y: usize| six[[0, 1, 3][x.max(y)] + x.min(y)];
        let all = |n: usize| (n / 9, n / 3 % 3, n % 3);
        if (0..27)
            .map(all)
            .all(|(x, y, z)| at(at(x, y), z) == at(x, at(y, z)))
        {
            return from_fn::<[usize; 3], 3, _>(|x| from_fn(|y| at(x, y)));
        }
    };
    let (a, b) = (three(rng), three(rng));
    from_pairs(|x, y| 3 * a[x / 3][y / 3] + b[x % 3][y % 3])
}

/// With some entries changed, if it then still is one that a model may carry.
fn perturbed(rng: &mut Rng, table: &Table) -> Table {
    let mut found = *table;
    for _ in 0..16 {
        let mut changed = found;
        let (x, y) = (rng.below(9), rng.below(9));
        changed[x][y] = rng.below(9) as u8;
        changed[y][x] = changed[x][y];
        if associative(&changed) {
            found = changed;
        }
    }
    found
}

/// All pairs of codes.
pub fn pairs() -> impl Iterator<Item = (usize, usize)> {
    (0..81).map(|n| (n / 9, n % 9))
}

/// One that is not symmetric.
pub fn asymmetric(rng: &mut Rng) -> Table {
    let form = rng.choose(&[one_sided, first_or_last, neither]);
    form(rng)
}

/// One that is not symmetric in a single entry.
pub fn one_sided(rng: &mut Rng) -> Table {
    let mut changed = table(rng);
    let x = rng.below(9);
    let y = (x + 1 + rng.below(8)) % 9;
    changed[x][y] = other(rng, changed[x][y]);
    changed
}

/// The first, or the last, of the two, or a code that it stands for: not symmetric, but
/// associative.
pub fn first_or_last(rng: &mut Rng) -> Table {
    let (first, order) = (rng.chance(1, 2), codes(rng));
    let kept = &order[..rng.range(2, 9) as usize];
    let stand: [u8; 9] = from_fn(|x| match kept.contains(&(x as u8)) {
        true => x as u8,
        false => rng.choose(kept),
    });
    from_pairs(|x, y| stand[if first { x } else { y }] as usize)
}

/// One that is neither symmetric nor associative.
pub fn neither(rng: &mut Rng) -> Table {
    loop {
        let found = match rng.chance(1, 2) {
            true => any(rng),
            false => one_sided(rng),
        };
        if !symmetric(&found) && !associative(&found) {
            return found;
        }
    }
}

/// Nine rows of any codes.
fn any(rng: &mut Rng) -> Table {
    from_fn(|_| from_fn(|_| rng.below(9) as u8))
}

/// A code other than this one.
fn other(rng: &mut Rng, old: u8) -> u8 {
    (old + 1 + rng.below(8) as u8) % 9
}

/// One that is symmetric, but not associative.
pub fn unassociative(rng: &mut Rng) -> Table {
    loop {
        let found = match rng.chance(1, 2) {
            true => {
                let mut changed = table(rng);
                let (x, y) = (rng.below(9), rng.below(9));
                changed[x][y] = other(rng, changed[x][y]);
                changed[y][x] = changed[x][y];
                changed
            }
            false => {
                let any = any(rng);
                from_pairs(|x, y| any[x.max(y)][x.min(y)] as usize)
            }
        };
        if !associative(&found) {
            return found;
        }
    }
}

/// One that is not associative in the triples of three codes alone, or of one code twice.
pub fn one_triple_of(rng: &mut Rng) -> Table {
    let order = codes(rng);
    let first = order[rng.choose(&[0, 5])];
    one_triple(first, order[0], order[1], [order[2], order[3], order[4]])
}

/// Every pair comes to zero but for the first and the second code, which come to p, and p with
/// the third, which come to q. Of all triples these three alone are told, in some arrangements.
pub fn one_triple(first: u8, second: u8, third: u8, [zero, p, q]: [u8; 3]) -> Table {
    let mut table = [[zero; 9]; 9];
    for (x, y, z) in [(first, second, p), (p, third, q)] {
        table[x as usize][y as usize] = z;
        table[y as usize][x as usize] = z;
    }
    table
}

#[cfg(test)]
mod tests {
    use super::*;
    use crate::values::entry;
    use std::collections::BTreeSet;

    #[test]
    fn tables_are_right() {
        let mut all = BTreeSet::new();
        for form in 0..12 {
            let mut seen = BTreeSet::new();
            for seed in 0..300 {
                let table = shape(&mut Rng::new(seed), form);
                assert!(table.iter().flatten().all(|&code| code < 9));
                assert!(symmetric(&table), "form {form}, seed {seed}");
                assert!(associative(&table), "form {form}, seed {seed}");
                seen.insert(table);
            }
            let least = match form {
                0 | 1 => 1,
                4 => 9,
                _ => 100,
            };
            assert!(seen.len() >= least, "form {form}: {}", seen.len());
            all.extend(seen);
        }
        assert!(all.len() > 2_500, "{}", all.len());
    }

    #[test]
    fn open_drain_lines() {
        let table = open_drain();
        let pair = |x: u8, y: u8| entry(&table, code(x), code(y));
        assert_eq!(pair(b'0', b'1'), code(b'0'));
        assert_eq!(pair(b'Z', b'H'), code(b'H'));
        assert_eq!(pair(b'U', b'0'), code(b'U'));
        assert!((0..9).all(|x| entry(&table, x, x) == x && entry(&table, x, 4) == x));
    }

    #[test]
    fn tables_are_wrong_as_said() {
        let (mut entries, mut triples) = (BTreeSet::new(), BTreeSet::new());
        for seed in 0..4_000 {
            let of = |table: fn(&mut Rng) -> Table| table(&mut Rng::new(seed));
            let right = |table: Table| (symmetric(&table), associative(&table));
            assert_eq!(right(of(first_or_last)), (false, true), "seed {seed}");
            assert_eq!(right(of(neither)), (false, false), "seed {seed}");
            assert_eq!(right(of(unassociative)), (true, false), "seed {seed}");
            assert_eq!(right(of(one_triple_of)), (true, false), "seed {seed}");
            assert!(!right(of(asymmetric)).0, "seed {seed}");
            let table = of(one_sided);
            let differ = pairs().filter(|&(x, y)| x < y && table[x][y] != table[y][x]);
            let differ: Vec<_> = differ.collect();
            assert_eq!(differ.len(), 1, "seed {seed}");
            entries.insert(differ[0]);
            triples.insert(told(&of(one_triple_of)));
        }
        assert_eq!(entries.len(), 36);
        // Each code twice with each other one is told alone.
        for (x, z) in pairs().filter(|(x, z)| x != z) {
            let (x, z) = (x as u8, z as u8);
            let one = BTreeSet::from([[x, x, z], [z, x, x]]);
            assert!(triples.contains(&one), "{x}, {z}");
        }
    }

    /// The triples whose two ways differ.
    fn told(table: &Table) -> BTreeSet<[u8; 3]> {
        let pair = |x, y| entry(table, x, y);
        let all = (0..729).map(|n| [n / 81, n / 9 % 9, n % 9].map(|x| x as u8));
        all.filter(|&[x, y, z]| pair(pair(x, y), z) != pair(x, pair(y, z)))
            .collect()
    }
}
