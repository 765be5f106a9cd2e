//! A model's own resolution table as text: nine rows of nine logic values, rows and columns in the order U X 0 1 Z W L H -.

use second_kernel::model::RowRecord;
use second_kernel::values::{entry, Table, LETTERS};

pub fn letter(code: u8) -> char {
    LETTERS[code as usize] as char
}

pub fn code(letter: char) -> Option<u8> {
    LETTERS.iter().position(|&l| l as char == letter).map(|n| n as u8)
}

/// The row of a line: nine values, with blanks between them or none, and at most a comment behind them. `--` among the nine is two
/// values.
pub fn row(line: &str) -> Option<RowRecord> {
    let mut row = [0; 9];
    let mut rest = line.trim_start();
    for value in &mut row {
        *value = code(rest.chars().next()?)?;
        rest = rest[1..].trim_start();
    }
    (rest.is_empty() || rest.starts_with("--")).then_some(row)
}

/// What is told of a text that is no row, where that of code `due` should stand.
pub fn no_row(text: &str, due: u8) -> String {
    let values = || text.chars().filter(|c| !c.is_whitespace());
    match values().find(|&c| code(c).is_none()) {
        Some(c) => format!("`{c}` is none of U X 0 1 Z W L H -: the table's row of {} is due here", letter(due)),
        None => format!("the table's row of {} has nine values, not {}", letter(due), values().count()),
    }
}

/// A row as `row` reads it.
pub fn listed(row: &RowRecord) -> String {
    row.iter().map(|&c| letter(c)).collect()
}

/// Why the kernel refuses the table with this number: a row's code, and what shows it, the first by rows and columns.
pub fn refusal(t: &Table, number: u32) -> Option<(u8, String)> {
    match number {
        24 => not_symmetric(t),
        25 => not_associative(t),
        _ => None,
    }
}

fn not_symmetric(t: &Table) -> Option<(u8, String)> {
    let mut pairs = (0..81).map(|n| (n / 9, n % 9));
    let (x, y) = pairs.find(|&(x, y)| entry(t, x, y) != entry(t, y, x))?;
    let has = |x, y| format!("row {}, column {} has {}", letter(x), letter(y), letter(entry(t, x, y)));
    Some((x, format!("the table is not symmetric: {}, and {}", has(x, y), has(y, x))))
}

fn not_associative(t: &Table) -> Option<(u8, String)> {
    let pair = |x, y| entry(t, x, y);
    let mut triples = (0..729).map(|n| [n / 81, n / 9 % 9, n % 9].map(|code| code as u8));
    let [x, y, z] = triples.find(|&[x, y, z]| pair(pair(x, y), z) != pair(x, pair(y, z)))?;
    let is = |a, b| format!("{} with {} is {}", letter(a), letter(b), letter(pair(a, b)));
    let [left, right] = [pair(pair(x, y), z), pair(x, pair(y, z))].map(letter);
    let left = format!("{}, and that with {} is {left}", is(x, y), letter(z));
    let right = format!("{}, and {} with that is {right}", is(y, z), letter(x));
    Some((x, format!("the table is not associative: {left}; but {right}")))
}

#[cfg(test)]
mod tests {
    use super::*;
    use second_kernel::rng::Rng;
    use second_kernel::values::{associative, symmetric, STANDARD};

    fn random_row(rng: &mut Rng, codes: usize) -> RowRecord {
        std::array::from_fn(|_| 8 - rng.below(codes) as u8)
    }

    #[test]
    fn rows() {
        for line in
            ["UX01ZWLH-", "  UX01ZWLH-  ", "U X 0 1 Z W L H -", "\tUX0 1ZW\tLH-", "UX01ZWLH- -- the nine", "UX01ZWLH--- the nine"]
        {
            assert_eq!(row(line), Some([0, 1, 2, 3, 4, 5, 6, 7, 8]), "{line}");
        }
        for line in ["---------", "- - - - - - - - -", "-- -- -- -- -", "--------- -- all", "-----------"] {
            assert_eq!(row(line), Some([8; 9]), "{line}");
        }
        assert_eq!(row("--0000000"), Some([8, 8, 2, 2, 2, 2, 2, 2, 2]));
        for line in [
            "",
            "-- a comment",
            "-- U X 0 1 Z W L H -",
            "UX01ZWLH",
            "UX01ZWLH -- eight",
            "UX01ZWLH-U",
            "UX01ZWLH- -",
            "UX01ZWLH- - -",
            "ux01zwlh-",
            "UX01ZWLHé",
            "'U''X''0'",
        ] {
            assert_eq!(row(line), None, "{line}");
        }
    }

    // Of all codes, and of 8 alone or nearly so, whose letter starts comments elsewhere.
    #[test]
    fn a_listed_row_is_read_again() {
        let mut rng = Rng::new(1);
        for codes in [9, 2, 1] {
            for _ in 0..1_000 {
                let any = random_row(&mut rng, codes);
                assert_eq!(row(&listed(&any)), Some(any));
            }
        }
    }

    #[test]
    fn the_first_pair_is_told() {
        assert_eq!(refusal(&STANDARD, 24), None);
        for (x, y) in (0..81).map(|n| (n / 9, n % 9)) {
            let mut t = STANDARD;
            t[x][y] = (t[x][y] + 1) % 9;
            let (low, high) = (x.min(y), x.max(y));
            let has = |x: usize, y: usize| {
                let [x, y, entry] = [x as u8, y as u8, t[x][y]].map(letter);
                format!("row {x}, column {y} has {entry}")
            };
            let told = format!("the table is not symmetric: {}, and {}", has(low, high), has(high, low));
            assert_eq!(refusal(&t, 24), (x != y).then_some((low as u8, told)), "{x} {y}");
            // A later pair makes no difference.
            if high < 8 {
                let told = refusal(&t, 24);
                t[8][7] = (t[8][7] + 1) % 9;
                assert!(x == y || refusal(&t, 24) == told);
            }
        }
    }

    /// The codes that stand alone in a message, in its order.
    fn codes(told: &str) -> Vec<u8> {
        let words = told.split([' ', ',', ';']).filter(|w| w.len() == 1);
        words.map(|w| w.chars().next().and_then(code).expect("a letter")).collect()
    }

    // What a message says are entries of the table, the two ends differ, and no triple before it has such. Random symmetric tables
    // are hardly ever associative, so the standard's with another entry or two stand beside them.
    #[test]
    fn the_first_triple_is_told() {
        let mut rng = Rng::new(2);
        let (mut right, mut late) = (0, 0);
        for n in 0..2_000 {
            let mut t = STANDARD;
            for _ in 0..[100, 1, 2][n % 3] {
                let [x, y] = [0; 2].map(|_| rng.below(9));
                let entry = rng.below(9) as u8;
                t[x][y] = entry;
                t[y][x] = entry;
            }
            assert_eq!(refusal(&t, 24), None);
            assert!(symmetric(&t));
            let Some((row, told)) = refusal(&t, 25) else {
                assert!(associative(&t), "{t:?}");
                right += 1;
                continue;
            };
            let said = codes(told.strip_prefix("the table is not associative: ").expect("the words"));
            let [x, y, xy, z, left, y_, z_, yz, x_, right] = said[..] else { panic!("{told}") };
            assert_eq!([x, y, z, row], [x_, y_, z_, x]);
            assert_eq!([xy, left, yz, right], [entry(&t, x, y), entry(&t, xy, z), entry(&t, y, z), entry(&t, x, yz)]);
            assert_ne!(left, right);
            let before = (0..729).take_while(|&n| n < 81 * x as usize + 9 * y as usize + z as usize);
            for (a, b, c) in before.map(|n| (n / 81, n / 9 % 9, n % 9)) {
                assert_eq!(t[t[a][b] as usize][c], t[a][t[b][c] as usize], "{told}");
            }
            late += (x > 0) as usize;
        }
        assert!(right > 20 && late > 100, "{right} right tables, {late} with a later row");
    }

    #[test]
    fn other_numbers_are_not_the_tables() {
        let t = [[0, 1, 2, 3, 4, 5, 6, 7, 8]; 9];
        assert!((1..=23).all(|number| refusal(&t, number).is_none()));
        assert!(refusal(&t, 24).is_some());
    }
}
