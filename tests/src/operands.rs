//! Seeded operand pairs of the integer operators: around zero and at both ends of
//! the range, of both signs, with products on both sides of the ends.

use crate::integers::TOP;
use crate::rng::Rng;
use std::collections::HashSet;

/// Where an operator is likely to go wrong, with either sign.
fn magnitudes() -> Vec<i32> {
    let powers = (2..31).flat_map(|n| [(1 << n) - 1, 1 << n, (1 << n) + 1]);
    (0..=12)
        .chain(powers)
        // The root of the upper end, a half and the end itself.
        .chain(46_338..=46_343)
        .chain(TOP / 2 - 2..=TOP / 2 + 2)
        .chain(TOP - 4..=TOP)
        .collect()
}

/// A magnitude, every length in bits alike.
fn any_length(rng: &mut Rng) -> i32 {
    let bits = 1 + rng.below(31);
    (rng.next() >> (64 - bits)) as i32
}

/// A magnitude of any sort.
fn magnitude(rng: &mut Rng) -> i32 {
    match rng.below(4) {
        0 => rng.below(10) as i32,
        1 => rng.choose(&magnitudes()),
        2 => any_length(rng),
        _ => rng.below(TOP as usize + 1) as i32,
    }
}

/// Factors of a product in range.
fn factors(rng: &mut Rng) -> (i32, i32) {
    let a = any_length(rng).max(1);
    (a, rng.below((TOP / a) as usize + 1) as i32)
}

/// Factors of a product close to an end of the range, inside or past it.
fn near_the_end(rng: &mut Rng) -> (i32, i32) {
    let a = any_length(rng).max(1);
    let off = rng.below(3) as i32 - 1;
    (a, (TOP / a).saturating_add(off))
}

/// A multiple of the second, or one off it.
fn near_a_multiple(rng: &mut Rng) -> (i32, i32) {
    let b = any_length(rng).max(1);
    let times = rng.below((TOP / b) as usize + 1) as i32;
    let off = rng.below(3) as i32 - 1;
    (b * times).checked_add(off).map_or((TOP, b), |a| (a, b))
}

/// Two magnitudes, either one first.
fn two_magnitudes(rng: &mut Rng) -> (i32, i32) {
    let (a, b) = match rng.weighted(&[4, 6, 5, 3, 2, 3, 2, 1, 4]) {
        0 => (rng.below(10) as i32, rng.below(10) as i32),
        1 => (magnitude(rng), magnitude(rng)),
        2 => near_the_end(rng),
        3 => return near_a_multiple(rng),
        4 => (TOP, 1),
        5 => {
            // One past the end.
            let n = 1 + rng.below(30);
            (1 << n, 1 << (31 - n))
        }
        6 => (magnitude(rng), rng.choose(&[0, 1])),
        7 => (TOP, magnitude(rng)),
        _ => factors(rng),
    };
    rng.choose(&[(a, b), (b, a)])
}

/// A random operand pair.
pub fn pair(rng: &mut Rng) -> (i32, i32) {
    let (a, b) = two_magnitudes(rng);
    (rng.choose(&[a, -a]), rng.choose(&[b, -b]))
}

/// n operand pairs, all different: of the magnitudes above each with each, both
/// signs, as far as n goes; random ones after them.
pub fn pairs(n: usize, seed: u64) -> Vec<(i32, i32)> {
    let mut rng = Rng::new(seed);
    let signed: Vec<i32> = magnitudes().into_iter().flat_map(|n| [n, -n]).collect();
    let grid = signed
        .iter()
        .flat_map(|&a| signed.iter().map(move |&b| (a, b)));
    let random = std::iter::from_fn(|| Some(pair(&mut rng)));
    let mut seen = HashSet::new();
    grid.chain(random)
        .filter(|&p| seen.insert(p))
        .take(n)
        .collect()
}

#[cfg(test)]
mod tests {
    use super::*;

    #[test]
    fn pairs_are_in_range_and_differ() {
        let list = pairs(100_000, 1);
        assert_eq!(list.iter().collect::<HashSet<_>>().len(), 100_000);
        let range = -TOP..=TOP;
        assert!(list
            .iter()
            .all(|(a, b)| range.contains(a) && range.contains(b)));
        assert_eq!(list, pairs(100_000, 1));
        assert_ne!(list, pairs(100_000, 2));
    }
}
