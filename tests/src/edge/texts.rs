//! Holds a program that makes the files `text` and `records` of its folder into the file
//! `model` against the second maker: what it prints, and every byte of `model`, which a
//! refused text leaves as it was.

use super::{piece_by_piece, run, Output, Program};
use crate::body::limits::{all_given, limits, BYTES};
use crate::body::records::given;
use crate::body::texts;
use crate::body::whole::made;
use crate::folder::Folder;
use crate::model::RECORD;
use crate::numbers::{self, Counts};
use std::fs;
use std::process::Stdio;

/// How many random texts there are, and from which seed on.
const RANDOM: u64 = 1_000;
const SEED: u64 = 1;
const RANDOM_TEXTS: &str = "random texts";

/// The longest records that can be: 255 of each kind.
const RECORDS: usize = 3 + 3 * 255 * RECORD;

/// Two files for the program.
pub struct Text {
    name: String,
    text: Vec<u8>,
    records: Vec<u8>,
    /// The number that must come out, where it is known beforehand.
    number: Option<u32>,
}

impl Text {
    fn new(name: impl Into<String>, text: &[u8], records: &[u8], number: u32) -> Text {
        Text {
            name: name.into(),
            text: text.to_vec(),
            records: records.to_vec(),
            number: Some(number),
        }
    }

    fn number(&self) -> u32 {
        made(&self.text, &self.records).err().unwrap_or(0)
    }
}

/// Texts of one sort, with its name.
pub type Group = (&'static str, Vec<Text>);

/// A text that is accepted with the records, and one whose model has the most blocks.
const INVERTER: &[u8] = b"s1 <= (not s3) after 1;\nwait on s3;\n";

fn longest() -> Vec<u8> {
    let sums = "v0:=((1+1)+1);".repeat(80);
    (sums + &"null;".repeat(120)).into_bytes()
}

/// Sentences of many lengths, by blanks before and behind, also such that their front is one.
fn text_lengths(records: &[u8]) -> Vec<Text> {
    let mut list = vec![
        Text::new("20 blocks", &longest(), records, 0),
        Text::new("an empty text", b"", records, 26),
    ];
    for length in [
        40, 65_534, BYTES, 65_536, 65_537, 65_540, 131_070, 131_072, 200_000, 1_048_576,
    ] {
        let number = if length > BYTES { 26 } else { 0 };
        let blanks = vec![b' '; length - INVERTER.len()];
        for (how, text) in [
            ("blanks behind", [INVERTER, &blanks].concat()),
            ("blanks before", [&blanks, INVERTER].concat()),
        ] {
            let name = format!("{length} bytes, {how}");
            list.push(Text::new(name, &text, records, number));
        }
        // No sentence by its last byte alone.
        let mut text = [INVERTER, &blanks].concat();
        text[length - 1] = b'x';
        list.push(Text::new(
            format!("{length} bytes, a last letter"),
            &text,
            records,
            26,
        ));
    }
    list
}

/// Records of many lengths, also such that their front is right, with texts of each number
/// that is tested before 4.
fn record_lengths(records: &[u8]) -> Vec<Text> {
    let mut list = vec![
        Text::new("all records", INVERTER, records, 0),
        Text::new("no records", b"null;", &[0, 0, 0], 0),
        Text::new("255 records of each kind", INVERTER, &most(), 4),
    ];
    for length in [0, 1, 2, 3, 4, 14, 15, records.len() - 1] {
        let name = format!("records cut to {length} bytes");
        let number = if length == 0 { 27 } else { 4 };
        list.push(Text::new(name, INVERTER, &records[..length], number));
    }
    for length in [
        records.len() + 1,
        records.len() + RECORD,
        RECORDS - 1,
        RECORDS,
        RECORDS + 1,
        RECORDS + 2,
        RECORDS + RECORD,
        20_000,
        65_536,
        1_000_000,
    ] {
        for fill in [0, 255] {
            let mut long = records.to_vec();
            long.resize(length, fill);
            let name = format!("{length} bytes of records, {fill} behind");
            list.push(Text::new(&name, INVERTER, &long, 4));
            list.push(Text::new(&name, b"wait on v0;", &long, 26));
            long[0] = 3;
            list.push(Text::new(&name, INVERTER, &long, 27));
        }
        let mut long = most();
        long.resize(length, 1);
        let name = format!("{length} bytes, 255 records said");
        list.push(Text::new(name, INVERTER, &long, 4));
    }
    list
}

/// 255 records of each kind, all of their bytes 0.
fn most() -> Vec<u8> {
    let mut records = vec![0; RECORDS];
    records[..3].fill(255);
    records
}

/// All texts for the program.
pub fn groups() -> Vec<Group> {
    let records = given(&all_given());
    let limits = limits().into_iter().map(|limit| Text {
        name: limit.name,
        text: limit.text,
        records: limit.given,
        number: Some(limit.number),
    });
    let random = (SEED..SEED + RANDOM).map(|seed| {
        let (case, _) = texts::case(seed);
        Text {
            name: format!("seed {seed} ({})", case.what),
            text: case.text,
            records: case.given,
            number: case.expected,
        }
    });
    vec![
        ("a text's length", text_lengths(&records)),
        ("the records' length", record_lengths(&records)),
        ("limits", limits.collect()),
        (RANDOM_TEXTS, random.collect()),
    ]
}

/// What came out: counts of each group by number, the other runs, and what was wrong.
#[derive(Default)]
pub struct Found {
    pub groups: Vec<(&'static str, Counts)>,
    /// Runs with a file that cannot be read or written, with pipes or with a failing write.
    pub others: usize,
    pub wrong: Vec<String>,
}

/// The numbers that it can print besides 0.
fn refusals() -> Vec<u32> {
    [numbers::TEXT, &[4, 5, 6, 7, 8]].concat()
}

impl Found {
    /// Err where a number is rare.
    pub fn require(&self) -> Result<(), String> {
        let mut all = Counts::default();
        for (_, counts) in &self.groups {
            all.extend(counts);
        }
        all.require("number", &refusals(), 10)?;
        all.require("number", &[0], RANDOM / 3)
    }

    /// How often the program was run.
    pub fn runs(&self) -> u64 {
        self.groups.iter().map(|g| g.1.sum()).sum::<u64>() + self.others as u64
    }

    pub fn print(&self) {
        let numbers = [&[0], &refusals()[..]].concat();
        let head: String = numbers.iter().map(|n| format!("{n:6}")).collect();
        println!("{:20}{head}", "texts by number");
        for (name, counts) in &self.groups {
            let cell = |&n: &u32| format!("{:6}", counts.of(n));
            let row: String = numbers.iter().map(cell).collect();
            println!("{name:20}{row}");
        }
        println!(
            "numbers 20, 24 and 25 cannot occur: a text makes no null, and no resolution table"
        );
        println!(
            "files that cannot be read or written, pipes, failing writes: {} runs",
            self.others
        );
    }

    /// Adds a run of its own sort.
    fn other(&mut self, right: bool, what: &str, output: &Output) {
        self.others += 1;
        if !right {
            let (told, printed) = (output.told.trim(), output.printed.trim());
            self.wrong.push(format!(
                "{what}: standard error has `{told}`, standard output `{printed}`"
            ));
        }
    }
}

/// What is in the file `model` before a run: nothing, or bytes that are more or fewer than a
/// model's.
fn before(n: usize) -> Option<Vec<u8>> {
    [None, Some(vec![7; 30_000]), Some(vec![7; 5])][n % 3].clone()
}

/// A folder with the files of a case, and `model` as it is before.
fn folder_of(case: &Text, model: Option<&[u8]>) -> Result<Folder, String> {
    let folder = Folder::new()?;
    folder.put("text", &case.text)?;
    folder.put("records", &case.records)?;
    if let Some(bytes) = model {
        folder.put("model", bytes)?;
    }
    Ok(folder)
}

/// Err is what is wrong with the output for a case, or with the file `model`.
fn judge(
    case: &Text,
    before: Option<Vec<u8>>,
    output: &Output,
    folder: &Folder,
) -> Result<(), String> {
    let (number, model) = match made(&case.text, &case.records) {
        Ok((_, blocks)) => (0, Some(blocks)),
        Err(number) => (number, before),
    };
    if output.printed != format!("{number}\n") {
        return Err(format!(
            "it prints {:?}, the second maker's number is {number}",
            output.printed
        ));
    }
    if !output.told.is_empty() || !output.ended {
        let told = output.told.trim();
        return Err(format!(
            "it did not end well, or standard error has `{told}`"
        ));
    }
    if case.number.is_some_and(|n| n != number) {
        return Err(format!("the number is not {:?}", case.number));
    }
    match fs::read(folder.0.join("model")).ok() == model {
        true => Ok(()),
        false if number == 0 => Err("`model` has not the blocks of the model".into()),
        false => Err("a refused text has touched `model`".into()),
    }
}

/// Runs the program on the texts.
fn make_all(program: Program, groups: &[Group], found: &mut Found) -> Result<(), String> {
    for (group, list) in groups {
        let mut counts = Counts::default();
        for (n, case) in list.iter().enumerate() {
            let before = before(n);
            let folder = folder_of(case, before.as_deref())?;
            let output = run(program, &folder, Stdio::piped())?;
            if let Err(e) = judge(case, before, &output, &folder) {
                found.wrong.push(format!("{group}: {}: {e}", case.name));
            }
            counts.add(case.number());
        }
        found.groups.push((group, counts));
    }
    Ok(())
}

/// A file that is missing, or is a folder: it is named on standard error, nothing is printed,
/// and `model` stays.
fn unreadable(program: Program, case: &Text, found: &mut Found) -> Result<(), String> {
    for name in ["text", "records"] {
        for kind in ["no file", "a folder in place of file"] {
            let folder = folder_of(case, Some(b"as before"))?;
            fs::remove_file(folder.0.join(name)).map_err(|e| e.to_string())?;
            if kind != "no file" {
                fs::create_dir(folder.0.join(name)).map_err(|e| e.to_string())?;
            }
            let output = run(program, &folder, Stdio::piped())?;
            let kept = fs::read(folder.0.join("model")).is_ok_and(|m| m == b"as before");
            let right = output.told.contains(name) && output.printed.is_empty() && kept;
            found.other(right, &format!("{kind} `{name}`"), &output);
        }
    }
    Ok(())
}

/// A `model` that cannot be written: it is named on standard error, and nothing is printed; a
/// refused text does not ask for it.
fn unwritable(
    program: Program,
    right: &Text,
    refused: &Text,
    found: &mut Found,
) -> Result<(), String> {
    for case in [right, refused] {
        for kind in ["a folder", "a file without room"] {
            let folder = folder_of(case, None)?;
            let model = folder.0.join("model");
            let made = match kind {
                "a folder" => fs::create_dir(&model),
                _ => std::os::unix::fs::symlink("/dev/full", &model),
            };
            made.map_err(|e| e.to_string())?;
            let output = run(program, &folder, Stdio::piped())?;
            let as_due = match case.number() {
                0 => output.told.contains("model") && output.printed.is_empty(),
                n => output.told.is_empty() && output.printed == format!("{n}\n"),
            };
            let what = format!("`model` is {kind}, {}", case.name);
            found.other(as_due, &what, &output);
        }
        let folder = folder_of(case, None)?;
        let full = fs::OpenOptions::new().write(true).open("/dev/full");
        let full = full.map_err(|e| format!("/dev/full: {e}"))?;
        let output = run(program, &folder, full.into())?;
        let what = format!("a write that fails, {}", case.name);
        found.other(!output.told.is_empty(), &what, &output);
    }
    Ok(())
}

/// Pipes in place of the files, whose bytes come in two pieces: each is read to its end.
fn piecemeal(program: Program, case: &Text, found: &mut Found) -> Result<(), String> {
    let folder = Folder::new()?;
    let files = [("text", &case.text[..]), ("records", &case.records)];
    let output = piece_by_piece(program, &folder, &files)?;
    found.others += 1;
    if let Err(e) = judge(case, None, &output, &folder) {
        found.wrong.push(format!("pipes, {}: {e}", case.name));
    }
    Ok(())
}

/// Holds a program against the second maker on the texts, with files and writes that fail and
/// with pipes; Err where it cannot be run.
pub fn examine(program: Program, groups: &[Group]) -> Result<Found, String> {
    let records = given(&all_given());
    let right = Text::new("an accepted text", INVERTER, &records, 0);
    let refused = Text::new("a refused text", INVERTER, &records[1..], 4);
    let long = Text::new("20 blocks", &longest(), &records, 0);
    let mut found = Found::default();
    make_all(program, groups, &mut found)?;
    unreadable(program, &right, &mut found)?;
    unwritable(program, &right, &refused, &mut found)?;
    for case in [&right, &refused, &long] {
        piecemeal(program, case, &mut found)?;
    }
    Ok(found)
}

#[cfg(test)]
mod tests {
    use super::*;

    #[test]
    fn cases_come_out_as_said() {
        for (group, list) in groups() {
            for case in list {
                let number = case.number();
                let expected = case.number.unwrap_or(number);
                assert_eq!(number, expected, "{group}: {}", case.name);
            }
        }
    }

    #[test]
    fn the_longest_model_has_20_blocks() {
        let (_, blocks) = made(&longest(), &given(&all_given())).unwrap();
        assert_eq!(blocks.len(), 20 * 512);
    }
}
