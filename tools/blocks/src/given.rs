//! The records that are given with a body in text: three bytes say how many signals, variables and drivers there are, and their
//! records of 12 bytes follow. They are made of a text of declarations (see `text.rs`), or taken as they are.

use crate::text;
use second_kernel::body::records::{self, Made};
use second_kernel::model::*;

/// The most signals, variables and drivers.
const MOST: [usize; 3] = [32, 64, 64];
/// The most nodes and statements of a text.
pub const NODES: usize = 400;
pub const STATEMENTS: usize = 200;

const KINDS: [&str; 3] = ["signal", "variable", "driver"];

/// How many bytes say how many records there are.
const HEAD: usize = 3;

/// The records of a text of declarations.
pub fn declared(text: &str) -> Result<Vec<u8>, String> {
    Ok(records::given(&text::declarations(text)?))
}

/// The records of a file. One with a zero byte has them as they are, since all records have such bytes and no text has one; so has
/// an empty file. Any other is a text of declarations.
pub fn read(file: &[u8]) -> Result<Vec<u8>, String> {
    if file.is_empty() || file.contains(&0) {
        return Ok(file.to_vec());
    }
    declared(std::str::from_utf8(file).map_err(|_| "neither records nor a text of declarations")?)
}

/// How many signals, variables and drivers there are said to be.
pub fn counts(given: &[u8]) -> [usize; 3] {
    std::array::from_fn(|n| given.get(n).map_or(0, |&count| count as usize))
}

/// The signals', variables' and drivers' records, as far as the bytes go.
pub fn lists(given: &[u8]) -> [Vec<Record>; 3] {
    let records = given.get(HEAD..).unwrap_or(&[]).chunks_exact(RECORD);
    let mut records = records.map(|r| r.try_into().expect("a whole record"));
    counts(given).map(|many| records.by_ref().take(many).collect())
}

/// The number of the records with these nodes and statements.
pub fn number(given: &[u8], made: &Made) -> u32 {
    let process = ProcessRecord { first: 0, count: made.statements.len() as u16 };
    let (nodes, statements) = (made.nodes.clone(), made.statements.clone());
    let mut all = records(&Model { processes: vec![process], nodes, statements, ..Model::default() });
    [all[0], all[1], all[3]] = lists(given);
    load_records(&all).err().unwrap_or(0)
}

/// Why the number is this one, where the records alone have it.
pub fn wrong(given: &[u8], number: u32) -> Option<String> {
    match number {
        4 => wrong_totals(given),
        5 => wrong_field(given),
        8 => wrong_order(given),
        _ => None,
    }
}

fn many(count: usize, what: &str) -> String {
    format!("{count} {what}{}", if count == 1 { "" } else { "s" })
}

fn wrong_totals(given: &[u8]) -> Option<String> {
    let counts = counts(given);
    let bytes = many(given.len(), "byte");
    if given.len() < HEAD {
        return Some(format!("cut: {bytes}, and three say how many signals, variables and drivers there are"));
    }
    let due = HEAD + RECORD * counts.iter().sum::<usize>();
    if given.len() != due {
        let [signals, variables, drivers] = [0, 1, 2].map(|n| many(counts[n], KINDS[n]));
        let how = if given.len() < due { "cut" } else { "too long" };
        return Some(format!("{how}: {bytes}, and {signals}, {variables} and {drivers} have {due}"));
    }
    let over = (0..3).find(|&n| counts[n] > MOST[n])?;
    Some(format!("{}, and a model has at most {}", many(counts[over], KINDS[over]), MOST[over]))
}

fn start(r: &Record) -> i32 {
    i32::from_le_bytes([r[4], r[5], r[6], r[7]])
}

/// What is wrong with a record's starting value, of this type.
fn wrong_start(r: &Record) -> Option<String> {
    let (right, values) = match r[0] {
        INTEGER => (start(r) != i32::MIN, "-2147483647 to 2147483647"),
        LOGIC => ((0..=8).contains(&start(r)), "0 to 8"),
        _ => ((0..=1).contains(&start(r)), "0 or 1"),
    };
    (!right).then(|| format!("its starting value is {}, not {values}", start(r)))
}

/// Which of the bytes that such a record does not name is not zero.
fn wrong_rest(r: &Record, named: &[usize]) -> Option<String> {
    let byte = (0..RECORD).find(|n| !named.contains(n) && r[*n] != 0)?;
    Some(format!("its byte {byte} is {}, not zero", r[byte]))
}

fn wrong_process(process: u8) -> Option<String> {
    (process != 0).then(|| format!("its process is {process}, and the text is process 0, the only one"))
}

fn wrong_signal(r: &Record) -> Option<String> {
    match (r[0], r[1]) {
        (2.., _) => Some(format!("its type is {}, not 0 integer or 1 logic", r[0])),
        (_, 3..) => Some(format!("its kind is {}, not 0 plain, 1 bus or 2 register", r[1])),
        (INTEGER, 1..) => Some("it is a bus or a register, and these are for logic signals".to_string()),
        _ => wrong_start(r).or_else(|| wrong_rest(r, &[0, 1, 4, 5, 6, 7])),
    }
}

fn wrong_variable(r: &Record) -> Option<String> {
    match r[0] {
        3.. => Some(format!("its type is {}, not 0 integer, 1 logic or 2 boolean", r[0])),
        _ => wrong_process(r[1]).or_else(|| wrong_start(r)).or_else(|| wrong_rest(r, &[0, 1, 4, 5, 6, 7])),
    }
}

fn wrong_driver(r: &Record, signals: usize) -> Option<String> {
    let unknown = r[1] as usize >= signals;
    let no_signal = || unknown.then(|| format!("its signal is {}, and the records have {}", r[1], many(signals, "signal")));
    wrong_process(r[0]).or_else(no_signal).or_else(|| wrong_rest(r, &[0, 1]))
}

fn wrong_field(given: &[u8]) -> Option<String> {
    let [signals, variables, drivers] = lists(given);
    let in_signals = signals.iter().enumerate().find_map(|(n, r)| Some(format!("signal s{n}: {}", wrong_signal(r)?)));
    let in_variables = || variables.iter().enumerate().find_map(|(n, r)| Some(format!("variable v{n}: {}", wrong_variable(r)?)));
    let in_driver = |(n, r)| Some(format!("driver {n}: {}", wrong_driver(r, signals.len())?));
    let in_drivers = || drivers.iter().enumerate().find_map(in_driver);
    in_signals.or_else(in_variables).or_else(in_drivers)
}

/// Drivers of one process rise by their signals.
fn wrong_order(given: &[u8]) -> Option<String> {
    let [_, _, drivers] = lists(given);
    let n = (1..drivers.len()).find(|&n| drivers[n][1] <= drivers[n - 1][1])?;
    let [before, after] = [n - 1, n].map(|n| drivers[n][1]);
    Some(format!("driver {n}, counted from 0, is of s{after} and follows one of s{before}: drivers rise by their signals"))
}

#[cfg(test)]
mod tests {
    use super::*;
    use second_kernel::body::gen;
    use second_kernel::rng::Rng;

    const TEXT: &str = "\
signal pulse logic '0'
signal line logic register 'Z'
variable count integer -2
drives line
";

    /// A text that makes one statement.
    fn null() -> Made {
        Made { nodes: vec![], statements: vec![StatementRecord::default()] }
    }

    #[test]
    fn the_bytes_of_declarations() {
        let expected = [
            &[2, 1, 1][..],
            &[1, 0, 0, 0, 2, 0, 0, 0, 0, 0, 0, 0],
            &[1, 2, 0, 0, 4, 0, 0, 0, 0, 0, 0, 0],
            &[0, 0, 0, 0, 254, 255, 255, 255, 0, 0, 0, 0],
            &[0, 1, 0, 0, 0, 0, 0, 0, 0, 0, 0, 0],
        ]
        .concat();
        assert_eq!(declared(TEXT), Ok(expected.clone()));
        assert_eq!(read(TEXT.as_bytes()), Ok(expected.clone()));
        assert_eq!(read(&expected), Ok(expected));
        assert_eq!(declared(""), Ok(vec![0; 3]));
    }

    // Records as they are, the cut ones too, and texts.
    #[test]
    fn what_a_file_is_taken_for() {
        for bytes in [&[][..], &[0], &[0; 3], &[1, 0], &[255, 0, 255], b"signal a logic '0'\n\0"] {
            assert_eq!(read(bytes), Ok(bytes.to_vec()), "{bytes:?}");
        }
        assert_eq!(read(b"-- nothing"), Ok(vec![0; 3]));
        assert_eq!(read(b"\n"), Ok(vec![0; 3]));
        assert_eq!(read(b"\xff\xfe"), Err("neither records nor a text of declarations".to_string()));
        assert_eq!(read(b"signals"), declared("signals"));
        assert!(read(b"signals").is_err());
    }

    #[test]
    fn random_records_are_taken_whole() {
        for seed in 0..500 {
            let m = gen::given_records(&mut Rng::new(seed));
            let given = records::given(&m);
            assert!(given.contains(&0), "seed {seed}");
            assert_eq!(read(&given).as_ref(), Ok(&given), "seed {seed}");
            assert_eq!(lists(&given).map(|list| list.len()), [m.signals.len(), m.variables.len(), m.drivers.len()]);
            assert_eq!(number(&given, &null()), 0, "seed {seed}");
            assert!([4, 5, 8].iter().all(|&number| wrong(&given, number).is_none()), "seed {seed}");
        }
    }

    #[test]
    fn wrong_totals_are_told() {
        let given = declared(TEXT).expect("records");
        let whole = |counts: [u8; 3]| {
            let records = counts.iter().map(|&count| count as usize).sum::<usize>();
            [&counts[..], &vec![0; RECORD * records]].concat()
        };
        for (given, told) in [
            (vec![], "cut: 0 bytes, and three say how many signals, variables and drivers there are"),
            (vec![2], "cut: 1 byte, and three say how many signals, variables and drivers there are"),
            (vec![2, 1], "cut: 2 bytes, and three say how many signals, variables and drivers there are"),
            (given[..3].to_vec(), "cut: 3 bytes, and 2 signals, 1 variable and 1 driver have 51"),
            (given[..50].to_vec(), "cut: 50 bytes, and 2 signals, 1 variable and 1 driver have 51"),
            ([&given[..], &[0]].concat(), "too long: 52 bytes, and 2 signals, 1 variable and 1 driver have 51"),
            (vec![0; 4], "too long: 4 bytes, and 0 signals, 0 variables and 0 drivers have 3"),
            (whole([33, 65, 65]), "33 signals, and a model has at most 32"),
            (whole([32, 65, 64]), "65 variables, and a model has at most 64"),
            (whole([0, 0, 255]), "255 drivers, and a model has at most 64"),
        ] {
            assert_eq!(wrong(&given, 4), Some(told.to_string()));
            assert_eq!(records::model(b"null;", &given), Err(4), "{told}");
        }
        assert_eq!(wrong(&whole([32, 64, 64]), 4), None);
    }

    #[test]
    fn wrong_fields_are_told() {
        let given = declared(TEXT).expect("records");
        let records = |record: usize| HEAD + RECORD * record;
        for (record, byte, value, told) in [
            (0, 0, 2, "signal s0: its type is 2, not 0 integer or 1 logic"),
            (1, 1, 3, "signal s1: its kind is 3, not 0 plain, 1 bus or 2 register"),
            (1, 0, 0, "signal s1: it is a bus or a register, and these are for logic signals"),
            (0, 4, 9, "signal s0: its starting value is 9, not 0 to 8"),
            (0, 7, 128, "signal s0: its starting value is -2147483646, not 0 to 8"),
            (0, 2, 1, "signal s0: its byte 2 is 1, not zero"),
            (1, 11, 7, "signal s1: its byte 11 is 7, not zero"),
            (2, 0, 3, "variable v0: its type is 3, not 0 integer, 1 logic or 2 boolean"),
            (2, 0, 2, "variable v0: its starting value is -2, not 0 or 1"),
            (2, 1, 1, "variable v0: its process is 1, and the text is process 0, the only one"),
            (2, 3, 255, "variable v0: its byte 3 is 255, not zero"),
            (3, 0, 1, "driver 0: its process is 1, and the text is process 0, the only one"),
            (3, 1, 2, "driver 0: its signal is 2, and the records have 2 signals"),
            (3, 4, 1, "driver 0: its byte 4 is 1, not zero"),
        ] {
            let mut changed = given.clone();
            changed[records(record) + byte] = value;
            assert_eq!(wrong(&changed, 5), Some(told.to_string()));
            assert_eq!(number(&changed, &null()), 5, "{told}");
        }
        let mut changed = given.clone();
        changed[records(2) + 4..records(2) + 8].copy_from_slice(&i32::MIN.to_le_bytes());
        let told = "variable v0: its starting value is -2147483648, not -2147483647 to 2147483647";
        assert_eq!(wrong(&changed, 5), Some(told.to_string()));
    }

    // A field is told of exactly where the kernel refuses with 5.
    #[test]
    fn fields_of_random_records() {
        let (mut right, mut told) = (0, 0);
        for seed in 0..20_000 {
            let mut rng = Rng::new(seed);
            let mut given = records::given(&gen::given_records(&mut rng));
            if given.len() == HEAD {
                continue;
            }
            let byte = HEAD + rng.below(given.len() - HEAD);
            given[byte] = rng.choose(&[0, 1, 2, 3, 8, 9, 32, 128, 255]);
            let found = wrong(&given, 5);
            assert_eq!(found.is_some(), number(&given, &null()) == 5, "seed {seed}: {found:?}");
            told += found.is_some() as usize;
            right += found.is_none() as usize;
        }
        assert!(right > 1_000 && told > 1_000, "{right} right, {told} wrong");
    }

    #[test]
    fn drivers_out_of_order_are_told() {
        let text = "signal a logic '0'\nsignal b logic '0'\nsignal c logic '0'\ndrives a, b, c";
        let given = declared(text).expect("records");
        let at = |driver: usize| HEAD + RECORD * (3 + driver) + 1;
        for (driver, signal, told) in [
            (1, 0, "driver 1, counted from 0, is of s0 and follows one of s0: drivers rise by their signals"),
            (1, 2, "driver 2, counted from 0, is of s2 and follows one of s2: drivers rise by their signals"),
            (0, 1, "driver 1, counted from 0, is of s1 and follows one of s1: drivers rise by their signals"),
            (2, 0, "driver 2, counted from 0, is of s0 and follows one of s1: drivers rise by their signals"),
        ] {
            let mut changed = given.clone();
            changed[at(driver)] = signal;
            assert_eq!(wrong(&changed, 8), Some(told.to_string()));
            assert_eq!(number(&changed, &null()), 8);
        }
    }
}
