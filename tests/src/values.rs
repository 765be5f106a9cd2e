//! The nine values of IEEE 1164: codes 0 to 8 are U X 0 1 Z W L H -.

pub const U: u8 = 0;
pub const X: u8 = 1;
pub const ZERO: u8 = 2;
pub const ONE: u8 = 3;
pub const Z: u8 = 4;
pub const W: u8 = 5;
pub const L: u8 = 6;
pub const H: u8 = 7;
pub const DASH: u8 = 8;

/// The letters in code order.
pub const LETTERS: &[u8; 9] = b"UX01ZWLH-";

/// A pair table of the resolution, rows and columns in code order.
pub type Table = [[u8; 9]; 9];

/// The standard's, in letters.
const PAIRS: [&[u8; 9]; 9] = [
    b"UUUUUUUUU",
    b"UXXXXXXXX",
    b"UX0X0000X",
    b"UXX11111X",
    b"UX01ZWLHX",
    b"UX01WWWWX",
    b"UX01LWLWX",
    b"UX01HWWHX",
    b"UXXXXXXXX",
];

/// The code of a letter; panics on any other byte.
pub const fn code(letter: u8) -> u8 {
    let mut i = 0;
    while i < 9 {
        if LETTERS[i] == letter {
            return i as u8;
        }
        i += 1;
    }
    panic!("not one of the nine letters")
}

/// The standard's.
pub const STANDARD: Table = {
    let mut t = [[0u8; 9]; 9];
    let mut r = 0;
    while r < 9 {
        let mut c = 0;
        while c < 9 {
            t[r][c] = code(PAIRS[r][c]);
            c += 1;
        }
        r += 1;
    }
    t
};

/// One entry of a pair table.
pub fn entry(table: &Table, a: u8, b: u8) -> u8 {
    table[a as usize][b as usize]
}

/// Resolution: one value is itself; of more, the pair table applied one
/// after another. There is no resolution of no value (panics).
pub fn resolve_by(table: &Table, values: &[u8]) -> u8 {
    let mut result = values[0];
    for &v in &values[1..] {
        result = entry(table, result, v);
    }
    result
}

/// Resolution by the standard's table.
pub fn resolve(values: &[u8]) -> u8 {
    resolve_by(&STANDARD, values)
}

/// Is each entry that of its pair the other way round?
pub fn symmetric(table: &Table) -> bool {
    (0..9).all(|x| (0..9).all(|y| entry(table, x, y) == entry(table, y, x)))
}

/// Do the first two of any three codes, taken together first, come to what the last two,
/// taken together first, do?
pub fn associative(table: &Table) -> bool {
    let pair = |x, y| entry(table, x, y);
    (0..9).all(|x| (0..9).all(|y| (0..9).all(|z| pair(pair(x, y), z) == pair(x, pair(y, z)))))
}

fn low(v: u8) -> bool {
    v == ZERO || v == L
}

fn high(v: u8) -> bool {
    v == ONE || v == H
}

/// 0, L to 1; 1, H to 0; U to U; the rest to X.
pub fn not(a: u8) -> u8 {
    if low(a) {
        ONE
    } else if high(a) {
        ZERO
    } else if a == U {
        U
    } else {
        X
    }
}

/// 0 if either is 0 or L; else U if either is U; else 1 if both are 1 or H;
/// else X.
pub fn and(a: u8, b: u8) -> u8 {
    if low(a) || low(b) {
        ZERO
    } else if a == U || b == U {
        U
    } else if high(a) && high(b) {
        ONE
    } else {
        X
    }
}

/// As `and`, with 0, L and 1, H exchanged.
pub fn or(a: u8, b: u8) -> u8 {
    if high(a) || high(b) {
        ONE
    } else if a == U || b == U {
        U
    } else if low(a) && low(b) {
        ZERO
    } else {
        X
    }
}

/// U if either is U; else X if either is none of 0 1 L H; else 1 if they
/// differ as 0/L against 1/H, else 0.
pub fn xor(a: u8, b: u8) -> u8 {
    let known = |v: u8| low(v) || high(v);
    if a == U || b == U {
        U
    } else if !known(a) || !known(b) {
        X
    } else if low(a) != low(b) {
        ONE
    } else {
        ZERO
    }
}

/// A kernel's resolution of bytes, and its operators on words.
pub struct Functions {
    pub resolve: fn(&[u8]) -> u32,
    pub not: fn(u32) -> u32,
    pub and: fn(u32, u32) -> u32,
    pub or: fn(u32, u32) -> u32,
    pub xor: fn(u32, u32) -> u32,
}

/// Those of this module; a number above 255 is as 255.
pub const SECOND: Functions = Functions {
    resolve: |v| resolve(v) as u32,
    not: |x| not(byte(x)) as u32,
    and: |x, y| and(byte(x), byte(y)) as u32,
    or: |x, y| or(byte(x), byte(y)) as u32,
    xor: |x, y| xor(byte(x), byte(y)) as u32,
};

fn byte(x: u32) -> u8 {
    x.min(255) as u8
}

#[cfg(test)]
mod tests {
    use super::*;
    use crate::cases::refused_tables;

    fn text(f: impl Fn(u8, u8) -> u8) -> Vec<String> {
        (0..9u8)
            .map(|a| {
                (0..9u8)
                    .map(|b| LETTERS[f(a, b) as usize] as char)
                    .collect()
            })
            .collect()
    }

    // The printed tables of IEEE 1164.
    #[test]
    fn printed_and_table() {
        let t = [
            "UU0UUU0UU",
            "UX0XXX0XX",
            "000000000",
            "UX01XX01X",
            "UX0XXX0XX",
            "UX0XXX0XX",
            "000000000",
            "UX01XX01X",
            "UX0XXX0XX",
        ];
        assert_eq!(text(and), t);
    }

    #[test]
    fn printed_or_table() {
        let t = [
            "UUU1UUU1U",
            "UXX1XXX1X",
            "UX01XX01X",
            "111111111",
            "UXX1XXX1X",
            "UXX1XXX1X",
            "UX01XX01X",
            "111111111",
            "UXX1XXX1X",
        ];
        assert_eq!(text(or), t);
    }

    #[test]
    fn printed_xor_table() {
        let t = [
            "UUUUUUUUU",
            "UXXXXXXXX",
            "UX01XX01X",
            "UX10XX10X",
            "UXXXXXXXX",
            "UXXXXXXXX",
            "UX01XX01X",
            "UX10XX10X",
            "UXXXXXXXX",
        ];
        assert_eq!(text(xor), t);
    }

    #[test]
    fn printed_not_table() {
        let t: String = (0..9u8).map(|a| LETTERS[not(a) as usize] as char).collect();
        assert_eq!(t, "UX10XX10X");
    }

    #[test]
    fn pair_table_is_the_papers() {
        let t: Vec<String> =
            "UUUUUUUUU, UXXXXXXXX, UX0X0000X, UXX11111X, UX01ZWLHX, UX01WWWWX, UX01LWLWX, UX01HWWHX, UXXXXXXXX"
                .split(", ")
                .map(String::from)
                .collect();
        assert_eq!(text(|a, b| entry(&STANDARD, a, b)), t);
    }

    // The standard's own table is one that a model may carry.
    #[test]
    fn the_standards_table_is_right() {
        assert!(symmetric(&STANDARD) && associative(&STANDARD));
        // A change of any entry off the diagonal tells.
        for (x, y) in (0..9).flat_map(|x| (0..9).map(move |y| (x, y))) {
            let mut table = STANDARD;
            table[x][y] = (table[x][y] + 1) % 9;
            assert_eq!(symmetric(&table), x == y, "{x}, {y}");
        }
        let wrong = refused_tables().map(|(number, t)| (number, symmetric(&t), associative(&t)));
        let expected = [(24, false, true), (24, false, false), (25, true, false)];
        assert_eq!(wrong, expected);
    }

    #[test]
    fn resolution_cases() {
        let r = |s: &str| {
            let v: Vec<u8> = s.bytes().map(code).collect();
            LETTERS[resolve(&v) as usize] as char
        };
        assert_eq!(r("01"), 'X');
        assert_eq!(r("LH"), 'W');
        assert_eq!(r("ZL"), 'L');
        assert_eq!(r("W0"), '0');
        assert_eq!(r("U1"), 'U');
        assert_eq!(r("-"), '-');
        assert_eq!(r("--"), 'X');
        // One after another.
        assert_eq!(r("LH0"), '0');
        assert_eq!(r("ZZZ"), 'Z');
        assert_eq!(r("HL1Z"), '1');
        assert_eq!(r("10U"), 'U');
    }
}
