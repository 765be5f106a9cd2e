//! The integers: their range and the operators of node kinds 10 to 12 and 15 to
//! 18 (document 01; document 02, item 2).

use crate::cycle::{DIVISOR_ZERO, OUT_OF_RANGE};

/// The upper end of the range; the lower one is -TOP.
pub const TOP: i32 = 2_147_483_647;

/// Node kinds.
pub const SUM: u8 = 11;
pub const DIFFERENCE: u8 = 12;
pub const PRODUCT: u8 = 15;
pub const QUOTIENT: u8 = 16;
pub const MOD: u8 = 17;
pub const REM: u8 = 18;

/// The kinds of item 2.
pub const ARITHMETIC: [u8; 4] = [PRODUCT, QUOTIENT, MOD, REM];

/// Does the node kind divide?
pub fn divides(kind: u8) -> bool {
    matches!(kind, QUOTIENT | MOD | REM)
}

/// The value, or the fault where it is out of range.
fn ranged(value: i64) -> Result<i32, u8> {
    match i32::try_from(value) {
        Ok(value) if (-TOP..=TOP).contains(&value) => Ok(value),
        _ => Err(OUT_OF_RANGE),
    }
}

/// Node kind 10.
pub fn negate(a: i32) -> Result<i32, u8> {
    ranged(-(a as i64))
}

/// a / b, cut toward zero: the magnitudes are divided, and it is negative where
/// one of a and b alone is. b is not 0.
pub fn quotient(a: i64, b: i64) -> i64 {
    let magnitude = (a.unsigned_abs() / b.unsigned_abs()) as i64;
    if (a < 0) == (b < 0) {
        magnitude
    } else {
        -magnitude
    }
}

/// a rem b, which has the sign of a: a = (a / b) * b + (a rem b).
pub fn remainder(a: i64, b: i64) -> i64 {
    a - quotient(a, b) * b
}

/// a mod b, which has the sign of b, a smaller magnitude, and differs from a by
/// a multiple of b.
pub fn modulus(a: i64, b: i64) -> i64 {
    let rest = remainder(a, b);
    if rest == 0 || (rest < 0) == (b < 0) {
        rest
    } else {
        rest + b
    }
}

/// Node kinds 11, 12 and 15 to 18: the value, or the fault.
pub fn operate(kind: u8, a: i32, b: i32) -> Result<i32, u8> {
    let (a, b) = (a as i64, b as i64);
    if divides(kind) && b == 0 {
        return Err(DIVISOR_ZERO);
    }
    ranged(match kind {
        SUM => a + b,
        DIFFERENCE => a - b,
        PRODUCT => a * b,
        QUOTIENT => quotient(a, b),
        MOD => modulus(a, b),
        REM => remainder(a, b),
        _ => unreachable!("no operator on two integers"),
    })
}

#[cfg(test)]
mod tests {
    use super::*;

    /// Around zero, at both ends and between.
    fn some() -> Vec<i32> {
        let magnitudes = (0..=12)
            .chain([99, 100, 46_340, 46_341, 65_535, 65_536])
            .chain(TOP / 2 - 2..=TOP / 2 + 2)
            .chain(TOP - 4..=TOP);
        magnitudes.flat_map(|n| [n, -n]).collect()
    }

    /// Every pair whose second is not 0, with quotient, mod and rem.
    fn divided() -> Vec<[i64; 5]> {
        let mut list = vec![];
        for a in some() {
            for b in some().into_iter().filter(|&b| b != 0) {
                let of = |kind| operate(kind, a, b).expect("no fault") as i64;
                list.push([a as i64, b as i64, of(QUOTIENT), of(MOD), of(REM)]);
            }
        }
        list
    }

    fn sign_of(value: i64, other: i64) -> bool {
        value == 0 || (value < 0) == (other < 0)
    }

    #[test]
    fn quotient_and_rem() {
        for [a, b, quotient, _, rem] in divided() {
            assert_eq!(a, quotient * b + rem, "{a} and {b}");
            assert!(sign_of(rem, a) && rem.abs() < b.abs(), "{a} rem {b}");
            // Cut toward zero, never past it.
            assert!(sign_of(quotient * b, a), "{a} / {b}");
            let left = a.abs() - (quotient * b).abs();
            assert!((0..b.abs()).contains(&left), "{a} / {b}");
        }
    }

    #[test]
    fn signs_leave_the_quotient() {
        for [a, b, quotient, ..] in divided() {
            let of = |a: i64, b: i64| operate(QUOTIENT, a as i32, b as i32);
            assert_eq!(of(-a, b), Ok(-quotient as i32), "{a} and {b}");
            assert_eq!(of(a, -b), Ok(-quotient as i32), "{a} and {b}");
        }
    }

    #[test]
    fn mod_has_the_sign_of_b() {
        for [a, b, _, modulus, _] in divided() {
            assert!(
                sign_of(modulus, b) && modulus.abs() < b.abs(),
                "{a} mod {b}"
            );
            // A multiple of b away from a.
            assert_eq!((a - modulus) % b, 0, "{a} mod {b}");
        }
    }

    #[test]
    fn products_in_range() {
        for a in some() {
            for b in some() {
                let product = a as i128 * b as i128;
                let fits = (-2_147_483_647..=2_147_483_647).contains(&product);
                let expected = if fits { Ok(product as i32) } else { Err(1) };
                assert_eq!(operate(PRODUCT, a, b), expected, "{a} * {b}");
            }
        }
    }

    #[test]
    fn a_divisor_of_zero() {
        for a in some() {
            for kind in [QUOTIENT, MOD, REM] {
                assert_eq!(operate(kind, a, 0), Err(4), "{a} in node kind {kind}");
            }
            assert_eq!(operate(PRODUCT, a, 0), Ok(0));
        }
    }
}
