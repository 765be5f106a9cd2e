//! Holds a program that plays or dumps the files `model` and `orders` of its folder, or
//! checks `model` alone, against the text that the second kernel prints: sessions of each
//! number, files of lengths on both sides of the limits and far beyond, the paper's bench
//! cases and random sessions. A file that cannot be read and a write that fails must be
//! told on standard error. `texts` is for a program that makes texts into models.

mod benches;
mod sessions;
pub mod texts;

use crate::cases::{in_64_blocks, inverter, inverter_orders};
use crate::folder::Folder;
use crate::numbers::Counts;
pub use benches::{Bench, DUMP, LOOP, PLAY};
pub use sessions::{sessions, Case, Group};
use sessions::{RANDOM, RANDOM_SESSIONS};
use std::fs;
use std::process::{Command, Stdio};

/// Starts the program; the folder and the streams are still to be set.
pub type Program<'a> = &'a dyn Fn() -> Command;

/// What a program wrote, and whether it ended well.
struct Output {
    printed: String,
    told: String,
    ended: bool,
}

/// Runs the program in a folder.
fn run(program: Program, folder: &Folder, out: Stdio) -> Result<Output, String> {
    let child = program()
        .current_dir(&folder.0)
        .stdin(Stdio::null())
        .stdout(out)
        .stderr(Stdio::piped())
        .spawn();
    let output = child.and_then(|c| c.wait_with_output());
    let output = output.map_err(|e| format!("the program cannot be run: {e}"))?;
    let text = |bytes: &[u8]| String::from_utf8_lossy(bytes).to_string();
    Ok(Output {
        printed: text(&output.stdout),
        told: text(&output.stderr),
        ended: output.status.success(),
    })
}

/// The number of a session by its text: a number alone, or 0.
fn number_of(text: &str) -> u32 {
    text.strip_suffix('\n')
        .and_then(|t| t.parse().ok())
        .unwrap_or(0)
}

/// The lines of a text, each with its end.
fn lines(text: &str) -> impl Iterator<Item = &str> {
    text.split_inclusive('\n')
}

/// Err is what is wrong with a session's output, beside the second kernel's text.
fn judge_output(bench: &Bench, case: &Case, expected: &str, output: &Output) -> Result<(), String> {
    if output.printed != expected {
        let quoted = |line: Option<&str>| line.map_or("missing".into(), |l| format!("{l:?}"));
        let (mut ours, mut theirs) = (lines(expected), lines(&output.printed));
        for n in 1.. {
            let (a, b) = (ours.next(), theirs.next());
            if a != b {
                let (a, b) = (quoted(a), quoted(b));
                return Err(format!("line {n} is {b}, the second kernel's {a}"));
            }
        }
    }
    if !output.told.is_empty() {
        return Err(format!("standard error has `{}`", output.told.trim()));
    }
    if !output.ended {
        return Err("the program did not end well".into());
    }
    match case.number {
        Some(number) if number != number_of(&output.printed) => {
            Err(format!("the number is not {number}"))
        }
        Some(0) if !(bench.whole)(&case.orders, &output.printed) => {
            Err("the text is not whole".into())
        }
        _ => Ok(()),
    }
}

/// What came out: counts of each group, and what was wrong.
pub struct Findings {
    bench: &'static Bench,
    /// Sessions by number and lines printed, group by group.
    pub groups: Vec<(&'static str, Counts, usize)>,
    /// What the texts of random sessions show, by sessions.
    pub shown: Counts<&'static str>,
    /// Runs with a missing file, with pipes or with a failing write.
    pub others: usize,
    pub wrong: Vec<String>,
}

impl Findings {
    /// Err where a number that can occur does not, or the random sessions are all
    /// played or all refused, or too few of them show what they should.
    pub fn require(&self) -> Result<(), String> {
        let mut all = Counts::default();
        for (_, counts, _) in &self.groups {
            all.extend(counts);
        }
        all.require("session number", &self.bench.numbers(), 10)?;
        all.require("session number", &[0], 100)?;
        let random = self.groups.iter().find(|g| g.0 == RANDOM_SESSIONS);
        let (_, random, _) = random.ok_or("no random sessions")?;
        random.require("random sessions: number", &[0], RANDOM / 2)?;
        let names = (self.bench.names)();
        self.shown
            .require("random sessions:", &names, RANDOM / 50)?;
        match random.sum() - random.of(0) {
            refused if refused < RANDOM / 20 => Err(format!("{refused} random sessions refused")),
            _ => Ok(()),
        }
    }

    /// How often the program was run.
    pub fn runs(&self) -> u64 {
        self.groups.iter().map(|g| g.1.sum()).sum::<u64>() + self.others as u64
    }

    pub fn print(&self) {
        let numbers = [&[0], &self.bench.numbers()[..]].concat();
        let head: String = numbers.iter().map(|n| format!("{n:6}")).collect();
        println!("{:20}{head}   lines", "sessions by number");
        for (name, counts, lines) in &self.groups {
            let row: String = numbers
                .iter()
                .map(|&n| format!("{:6}", counts.of(n)))
                .collect();
            println!("{name:20}{row}{lines:8}");
        }
        println!("{}", self.bench.never);
        for (name, counts, _) in self.groups.iter().filter(|g| g.0 == RANDOM_SESSIONS) {
            let (all, played) = (counts.sum(), counts.of(0));
            println!("{name}: {played} played, {} refused", all - played);
        }
        for name in (self.bench.names)() {
            println!("random sessions with {name}: {}", self.shown.of(name));
        }
        println!("missing files, pipes, failing writes: {} runs", self.others);
    }
}

/// Puts the files that the program reads into a folder.
fn put_files(bench: &Bench, folder: &Folder, case: &Case) -> Result<(), String> {
    files(bench, case)
        .into_iter()
        .try_for_each(|(name, bytes)| folder.put(name, bytes))
}

/// The names of these files, and what is in them.
fn files<'c>(bench: &Bench, case: &'c Case) -> Vec<(&'static str, &'c [u8])> {
    let all = [("model", &case.model[..]), ("orders", &case.orders)];
    let read = all.into_iter().filter(|file| bench.files.contains(&file.0));
    read.collect()
}

/// Runs the program on the sessions.
fn play_all(program: Program, groups: &[Group], found: &mut Findings) -> Result<(), String> {
    let folder = Folder::new()?;
    for (group, list) in groups {
        let (mut counts, mut printed) = (Counts::default(), 0);
        for case in list {
            put_files(found.bench, &folder, case)?;
            let output = run(program, &folder, Stdio::piped())?;
            let expected = (found.bench.print)(&case.model, &case.orders);
            if let Err(e) = judge_output(found.bench, case, &expected, &output) {
                found.wrong.push(format!("{group}: {}: {e}", case.name));
            }
            let number = number_of(&expected);
            counts.add(number);
            if number == 0 {
                printed += lines(&expected).count();
            }
            if number == 0 && *group == RANDOM_SESSIONS {
                let shown = (found.bench.shown)(case, &expected);
                shown.into_iter().for_each(|what| found.shown.add(what));
            }
        }
        found.groups.push((group, counts, printed));
    }
    Ok(())
}

/// A file that is missing, or is a folder: it is named on standard error, and
/// nothing is printed.
fn unreadable(program: Program, found: &mut Findings) -> Result<(), String> {
    let case = Case::new("", &inverter().encode(), &inverter_orders(), 0);
    for name in found.bench.files {
        for kind in ["no file", "a folder in place of file"] {
            let folder = Folder::new()?;
            put_files(found.bench, &folder, &case)?;
            fs::remove_file(folder.0.join(name)).map_err(|e| e.to_string())?;
            if kind != "no file" {
                fs::create_dir(folder.0.join(name)).map_err(|e| e.to_string())?;
            }
            let output = run(program, &folder, Stdio::piped())?;
            found.others += 1;
            if !output.told.contains(name) || !output.printed.is_empty() {
                found.wrong.push(format!(
                    "{kind} `{name}`: standard error `{}` must name it, standard output `{}` must be empty",
                    output.told.trim(),
                    output.printed.trim()
                ));
            }
        }
    }
    Ok(())
}

/// Runs the program with pipes in place of the files, whose bytes come in two pieces.
fn piece_by_piece(
    program: Program,
    folder: &Folder,
    files: &[(&str, &[u8])],
) -> Result<Output, String> {
    let mut writers = vec![];
    for (name, bytes) in files {
        folder.put(&format!("all of {name}"), bytes)?;
        let script =
            "mkfifo $0; (head -c 7 \"all of $0\"; sleep 0.1; tail -c +8 \"all of $0\") >$0";
        let writer = Command::new("timeout")
            .args(["10", "sh", "-c", script, name])
            .current_dir(&folder.0)
            .spawn();
        let mut writer = writer.map_err(|e| format!("sh: {e}"))?;
        while !folder.0.join(name).exists() {
            if writer.try_wait().map_err(|e| format!("sh: {e}"))?.is_some() {
                return Err(format!("no pipe `{name}` could be made"));
            }
            std::thread::yield_now();
        }
        writers.push(writer);
    }
    let output = run(program, folder, Stdio::piped())?;
    for mut writer in writers {
        writer.wait().map_err(|e| format!("sh: {e}"))?;
    }
    Ok(output)
}

/// Pipes in place of the files: each is read to its end.
fn piecemeal(program: Program, found: &mut Findings) -> Result<(), String> {
    let model = in_64_blocks(&inverter().m);
    for case in [
        Case::new("the inverter", &model, &inverter_orders(), 0),
        (found.bench.long)(),
    ] {
        let folder = Folder::new()?;
        let output = piece_by_piece(program, &folder, &files(found.bench, &case))?;
        let expected = (found.bench.print)(&case.model, &case.orders);
        found.others += 1;
        if let Err(e) = judge_output(found.bench, &case, &expected, &output) {
            found.wrong.push(format!("pipes, {}: {e}", case.name));
        }
    }
    Ok(())
}

/// A write that fails, for want of room, must be told on standard error.
fn unwritable(program: Program, found: &mut Findings) -> Result<(), String> {
    let (model, orders) = (inverter().encode(), inverter_orders());
    for case in [
        Case::new("a refused session", &model[1..], &orders, 1),
        Case::new("a session of one order", &model, &orders[..4], 0),
        Case::new("the inverter", &model, &orders, 0),
        (found.bench.long)(),
    ] {
        let folder = Folder::new()?;
        put_files(found.bench, &folder, &case)?;
        let full = fs::OpenOptions::new().write(true).open("/dev/full");
        let full = full.map_err(|e| format!("/dev/full: {e}"))?;
        let output = run(program, &folder, full.into())?;
        found.others += 1;
        if output.told.is_empty() {
            found.wrong.push(format!(
                "a write that fails, {}: standard error is empty",
                case.name
            ));
        }
    }
    Ok(())
}

/// Holds a program against the second kernel on the sessions, with files and
/// writes that fail and with pipes; Err where it cannot be run.
pub fn examine(
    bench: &'static Bench,
    program: Program,
    groups: &[Group],
) -> Result<Findings, String> {
    let mut found = Findings {
        bench,
        groups: vec![],
        shown: Counts::default(),
        others: 0,
        wrong: vec![],
    };
    play_all(program, groups, &mut found)?;
    unreadable(program, &mut found)?;
    piecemeal(program, &mut found)?;
    unwritable(program, &mut found)?;
    Ok(found)
}

#[cfg(test)]
mod tests {
    use super::*;

    #[test]
    fn cases_come_out_as_said() {
        for bench in [&PLAY, &DUMP, &LOOP] {
            for (group, list) in sessions(bench) {
                for case in list {
                    let text = (bench.print)(&case.model, &case.orders);
                    let Some(number) = case.number else { continue };
                    assert_eq!(number_of(&text), number, "{group}: {}", case.name);
                    let whole = (bench.whole)(&case.orders, &text);
                    assert!(number != 0 || whole, "{group}: {}", case.name);
                }
            }
        }
    }

    #[test]
    fn long_lines_are_long() {
        let case = (PLAY.long)();
        let text = (PLAY.print)(&case.model, &case.orders);
        assert_eq!(text.lines().count(), 4_096);
        assert!(text.ends_with("0 0 0 -2147483647 0 1000000000000\n"));
        assert!(text.len() > 118_000, "{} bytes", text.len());
    }

    #[test]
    fn the_longest_chain_is_long() {
        let case = (LOOP.long)();
        let text = (LOOP.print)(&case.model, &case.orders);
        assert_eq!(text, "chain 0 15 14 13 12 11 10 9 8 7 6 5 4 3 2 1\n");
    }

    #[test]
    fn a_number_stands_alone() {
        assert_eq!(number_of("9\n"), 9);
        for played in [
            "",
            "0 0 4 0 0 0\n",
            "$end\n",
            "9",
            "9\n9\n",
            "none\n",
            "chain 4\n",
        ] {
            assert_eq!(number_of(played), 0, "{played}");
        }
    }
}
