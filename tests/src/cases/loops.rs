//! Full models for the check of loops without delay.

use super::in_64_blocks;
use crate::builder::Builder;
use crate::model::*;

/// A model with every total at its limit, half of its statements assignments and half waits.
/// Process p assigns signal p by an expression as large as can be, and three others after
/// 1; it waits on the given set.
pub fn full_of_waits(set: impl Fn(u16) -> u32) -> Vec<u8> {
    let mut b = Builder::new();
    for _ in 0..32 {
        b.signal(LOGIC, 2);
    }
    for v in 0..64u16 {
        b.variable(INTEGER, (v / 4) as u8, 0);
    }
    let one = b.integer(1);
    let mut roots = vec![];
    for _ in 0..6 {
        let mut sum = b.integer(0);
        for _ in 0..31 {
            let leaf = b.integer(0);
            sum = b.binary(11, sum, leaf);
        }
        roots.push(sum);
    }
    let mut value = b.logic(3);
    while b.m.nodes.len() < 400 {
        value = b.unary(6, value);
    }
    for p in 0..16u16 {
        let mut driven = [p, 16 + p, 16 + (p + 1) % 16, 16 + (p + 2) % 16];
        b.process();
        for n in 0..if p < 8 { 13 } else { 12 } {
            let (signal, root) = (driven[n / 2 % 4], roots[n % roots.len()]);
            match n % 2 {
                0 if signal == p => b.schedule(signal, value, root),
                0 => b.inertial(signal, value, one),
                _ => b.wait(set(p), ABSENT, one),
            };
        }
        driven.sort();
        for signal in driven {
            b.driver(p as u8, signal);
        }
    }
    in_64_blocks(&b.m)
}

#[cfg(test)]
mod tests {
    use super::*;
    use crate::cases::largest;
    use crate::loops::print;

    #[test]
    fn full_models() {
        let ring = full_of_waits(|p| 1 << ((p + 15) % 16));
        let m = load(&ring).expect("the model is accepted");
        let totals = |m: &Model| (m.nodes.len(), m.statements.len(), m.drivers.len());
        assert_eq!(totals(&m), totals(&load(&largest()).unwrap()));
        assert_eq!(
            print(&ring),
            "chain 0 1 2 3 4 5 6 7 8 9 10 11 12 13 14 15\n"
        );
        let last = full_of_waits(|p| if p == 15 { 1 << 15 } else { 0xFFFF_0000 });
        assert_eq!(print(&last), "chain 15\n");
        let all_before = full_of_waits(|p| (1 << p) - 1);
        assert_eq!(print(&all_before), "none\n");
    }
}
