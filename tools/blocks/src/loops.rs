//! Tells of loops without delay: a closed chain of processes, each of which leads to the next and the last to the first, or that
//! there is none. The proved library finds the chain; here each step of it is shown by an assignment and a wait.

use crate::{list, refused, text};
use second_kernel::loops::{waits_later, without_delay, WORDS};
use second_kernel::model::*;
use std::fmt::Write;

/// The library's function: a model's number; where it is 0, the words are the chain's processes from word 0 on, in word 16 how
/// many, and in word 17 whether every wait has no c or a constant c above 0.
pub type Library = fn(&[u8], &mut [u64; WORDS]) -> u32;

/// The library, if this build has it.
#[cfg(feature = "library")]
pub const LIBRARY: Option<Library> = Some(second_kernel::proved_loops::check);
#[cfg(not(feature = "library"))]
pub const LIBRARY: Option<Library> = None;

pub const NO_LIBRARY: &str = "this build of `blocks` has no library to find loops with: `make tools` builds one that has it";

/// A model, and how its processes and statements are shown.
struct Shown {
    model: Model,
    processes: Vec<String>,
    /// Where each statement stands, and its words.
    statements: Vec<(String, String)>,
}

impl Shown {
    /// With the names and the lines of the text.
    fn by_text(source: text::Source) -> Shown {
        let processes = source.processes.iter().enumerate().map(|(n, name)| format!("process {n} ({name})")).collect();
        let statements = source.statements.into_iter().map(|(line, words)| (format!("line {line}"), words)).collect();
        Shown { model: source.model, processes, statements }
    }

    /// With the numbers and the words of a listing.
    fn by_blocks(model: Model) -> Shown {
        let processes = (0..model.processes.len()).map(|n| format!("process {n}")).collect();
        let listed = model.statements.iter().enumerate();
        let statements = listed.map(|(n, s)| (format!("statement {n}"), list::statement(&model, s))).collect();
        Shown { model, processes, statements }
    }

    /// The numbers of a process's statements that pass the test.
    fn of_process(&self, process: usize, test: impl Fn(&StatementRecord) -> bool) -> Vec<usize> {
        let p = self.model.processes[process];
        let span = p.first as usize..(p.first + p.count) as usize;
        span.filter(|&n| test(&self.model.statements[n])).collect()
    }

    /// The process's assignments without delay, each with the other process's first wait on its signal; those without one are left
    /// out.
    fn leading(&self, from: usize, to: usize) -> Vec<(usize, usize)> {
        let assignments = self.of_process(from, |s| without_delay(&self.model, s)).into_iter();
        let wait = |signal: u16| self.of_process(to, |s| s.kind == 5 && s.set >> signal & 1 == 1).first().copied();
        assignments.filter_map(|n| Some((n, wait(self.model.statements[n].a)?))).collect()
    }

    /// A statement of a process with how many more there are like it.
    fn statement(&self, process: usize, statement: usize, more: usize) -> String {
        let (place, words) = &self.statements[statement];
        let more = if more == 0 { String::new() } else { format!(" (and {more} more)") };
        format!("{}, {place}{more}: {words}", self.processes[process])
    }

    /// How one process leads to another: the first such assignment, and the first wait on its signal.
    fn step(&self, from: usize, to: usize) -> Result<String, String> {
        let leading = self.leading(from, to);
        let Some(&(assignment, wait)) = leading.first() else {
            return Err(format!("the library has process {from} lead to process {to}, and the model has not"));
        };
        Ok(format!("{} -> {}\n", self.statement(from, assignment, leading.len() - 1), self.statement(to, wait, 0)))
    }

    /// A line with the chain's processes, and one for each of its steps.
    fn chain(&self, chain: &[usize]) -> Result<String, String> {
        let mut out = "chain".to_string();
        for p in chain {
            let _ = write!(out, " {p}");
        }
        out.push('\n');
        for (n, &from) in chain.iter().enumerate() {
            out.push_str(&self.step(from, chain[(n + 1) % chain.len()])?);
        }
        Ok(out)
    }

    /// `none`, and what is known of the delta steps at one time.
    fn none(&self, later: bool) -> String {
        let p = self.model.processes.len();
        if later {
            return format!("none\nat most P + 1 = {} delta steps at any one time\n", p + 1);
        }
        let mut out =
            "none\nno bound known on the delta steps at one time: the time of these waits is no constant above 0\n".to_string();
        for process in 0..p {
            for wait in self.of_process(process, |s| s.kind == 5 && !waits_later(&self.model, s)) {
                let _ = writeln!(out, "{}", self.statement(process, wait, 0));
            }
        }
        out
    }

    /// What is told by what the library found.
    fn told(&self, words: &[u64; WORDS]) -> Result<String, String> {
        let chain: Vec<usize> = words[..words[16] as usize].iter().map(|&p| p as usize).collect();
        match chain[..] {
            [] => Ok(self.none(words[17] == 1)),
            _ => self.chain(&chain),
        }
    }
}

/// What is told of a file with a model. One with a zero byte is taken for blocks, since those begin with zeros and no text has one.
pub fn told(library: Library, file: &[u8]) -> Result<String, String> {
    let mut words = [0; WORDS];
    if file.contains(&0) {
        return match library(file, &mut words) {
            0 => Shown::by_blocks(load(file).map_err(refused)?).told(&words),
            number => Err(refused(number)),
        };
    }
    let text = std::str::from_utf8(file).map_err(|_| "neither a model text nor blocks")?;
    let source = text::source(text)?;
    match library(&encode(&source.model), &mut words) {
        0 => Shown::by_text(source).told(&words),
        number => Err(text::refusal(text, number)),
    }
}

#[cfg(test)]
mod tests {
    use super::*;
    use second_kernel::builder::Builder;
    use second_kernel::loops::check;
    use second_kernel::rng::Rng;
    use second_kernel::{cases, gen};

    const RING: &str = "\
-- three inverters
signal a logic '0'
signal b logic '0'
signal c logic '0'

process first
  a <= not c after 0 -- the last one's
  wait on c

process second
again:
  b <= inertial not a after 0

  wait on a
  goto again

process third
\tc <= not b after 0
\twait on b until b = '1'
";

    /// What is told of a text and of its blocks, by the second kernel.
    fn both(text: &str) -> [String; 2] {
        let blocks = text::model(text).expect("a model text");
        [text.as_bytes(), &blocks].map(|file| told(check, file).expect("an accepted model"))
    }

    #[test]
    fn a_chain_is_told() {
        let [by_text, by_blocks] = both(RING);
        let expected = "\
chain 0 1 2
process 0 (first), line 7: a <= not c after 0 -> process 1 (second), line 14: wait on a
process 1 (second), line 12: b <= inertial not a after 0 -> process 2 (third), line 19: wait on b until b = '1'
process 2 (third), line 18: c <= not b after 0 -> process 0 (first), line 8: wait on c
";
        assert_eq!(by_text, expected);
        let expected = "\
chain 0 1 2
process 0, statement 0: s0 <= (not s2) after 0 -> process 1, statement 3: wait on s0
process 1, statement 2: s1 <= inertial (not s0) after 0 -> process 2, statement 6: wait on s1 until (s1 = '1')
process 2, statement 5: s2 <= (not s1) after 0 -> process 0, statement 1: wait on s2
";
        assert_eq!(by_blocks, expected);
        let [by_text, by_blocks] = both(&RING.replace("not b after 0", "not b after 1"));
        assert_eq!(by_text, "none\nat most P + 1 = 4 delta steps at any one time\n");
        assert_eq!(by_blocks, by_text);
    }

    /// A process that assigns by these lines, and waits on what it assigns.
    fn alone(lines: &str) -> String {
        both(&format!("signal s logic bus 'Z'\nsignal t logic '0'\nprocess p\nvariable v integer 1\n{lines}"))[0].clone()
    }

    #[test]
    fn assignments_of_each_kind() {
        for assignment in [
            "s <= '1' after 0",
            "s <= transport '1' after v",
            "s <= null after 0",
            "s <= null after 1 + 1",
            "s <= inertial '1' after 0",
            "s <= inertial s after - (- 1)",
        ] {
            let expected = format!("chain 0\nprocess 0 (p), line 5: {assignment} -> process 0 (p), line 6: wait on s\n");
            assert_eq!(alone(&format!("{assignment}\nwait on s")), expected);
        }
        for lines in [
            "s <= '1' after 1\nwait on s",
            "s <= null after 2147483647\nwait on s",
            "s <= inertial '1' after 5\nwait on s",
            "s <= '1' after 0\nwait on t",
            "s <= '1' after 0\nwait until s = '1'",
        ] {
            assert_eq!(alone(lines), "none\nat most P + 1 = 2 delta steps at any one time\n", "{lines}");
        }
    }

    // The first assignment that leads on and the first wait on its signal stand for all; how many more assignments lead on is told.
    #[test]
    fn the_first_of_many() {
        let lines = "\
wait on t for 1
t <= '1' after 1
s <= '1' after 0
wait on s, t
t <= '0' after 0
s <= null after v
t <= '1' after 3
wait on t";
        let expected = "chain 0\nprocess 0 (p), line 7 (and 2 more): s <= '1' after 0 -> process 0 (p), line 8: wait on s, t\n";
        assert_eq!(alone(lines), expected);
        let lines = lines.replace("s <= '1' after 0", "null");
        let expected = "chain 0\nprocess 0 (p), line 9 (and 1 more): t <= '0' after 0 -> process 0 (p), line 5: wait on t for 1\n";
        assert_eq!(alone(&lines), expected);
        assert_eq!(alone(&lines.replace("after v", "after 1")), expected.replace(" (and 1 more)", ""));
        assert_eq!(alone(&lines.replace("after 3", "after v - 1")), expected.replace("1 more", "2 more"));
    }

    #[test]
    fn waits_without_a_bound() {
        let text = "\
process first
  wait for 10
  wait for 0
process second
  variable period integer 10
  wait until period = 3
  wait for period -- 10 all along
process third
  wait until 1 = 1 for 5 - 4
";
        let head = "none\nno bound known on the delta steps at one time: the time of these waits is no constant above 0\n";
        let [by_text, by_blocks] = both(text);
        let expected = "\
process 0 (first), line 3: wait for 0
process 1 (second), line 7: wait for period
process 2 (third), line 9: wait until 1 = 1 for 5 - 4
";
        assert_eq!(by_text, format!("{head}{expected}"));
        let expected = "\
process 0, statement 1: wait for 0
process 1, statement 3: wait for v0
process 2, statement 4: wait until (1 = 1) for (5 - 4)
";
        assert_eq!(by_blocks, format!("{head}{expected}"));
        // Below 0 is not above it; only blocks have such a constant, since a text makes a negation of it.
        let mut b = Builder::new();
        let below = b.integer(-1);
        b.process();
        b.wait(0, ABSENT, below);
        assert_eq!(told(check, &b.encode()), Ok(format!("{head}process 0, statement 0: wait for (- 1)\n")));
    }

    #[test]
    fn a_refused_model_is_told() {
        let table = format!("table\nUUUUUUUUU\n{}process p\nwait\n", "000000000\n".repeat(8));
        let pair = "line 2: the table is not symmetric: row U, column X has U, and row X, column U has 0; ";
        for (text, place, number) in [
            ("process p\nwait until 1\n", "", 7),
            ("", "", 1),
            ("signal s logic '0'\n", "", 4),
            ("signal s logic '0'\nprocess p\ns <= null after 0\nwait on s", "", 20),
            (&table, pair, 24),
        ] {
            let error = format!("{place}the kernel would refuse this model with {number}");
            assert_eq!(told(check, text.as_bytes()), Err(error), "{text}");
        }
        assert_eq!(told(check, b"process p\nwait on s\n"), Err("line 2: there is no signal `s`".to_string()));
        let blocks = cases::inverter().encode();
        assert!(told(check, &blocks).is_ok());
        let mut broken = blocks.clone();
        broken[4] ^= 1;
        for (file, number) in [(&blocks[..511], 1), (&broken, 2), (&blocks[512..], 3), (&RING.replace(' ', "\0").into_bytes(), 1)] {
            assert_eq!(told(check, file), Err(format!("the kernel refuses this model with {number}")));
        }
        assert_eq!(told(check, b"process p\nwait -- \xff"), Err("neither a model text nor blocks".to_string()));
    }

    /// A library that accepts, and writes these words.
    fn says(words: &mut [u64; WORDS], chain: &[u64], later: u64) -> u32 {
        words[..chain.len()].copy_from_slice(chain);
        words[16] = chain.len() as u64;
        words[17] = later;
        0
    }

    // The number, the chain and the bound are the library's; a step that the model has not is an error.
    #[test]
    fn what_the_library_says_is_told() {
        let blocks = text::model(RING).expect("a model text");
        for file in [RING.as_bytes(), &blocks] {
            let none = told(|_, words| says(words, &[], 1), file);
            assert_eq!(none, Ok("none\nat most P + 1 = 4 delta steps at any one time\n".to_string()));
            let unknown = told(|_, words| says(words, &[], 0), file).expect("none");
            assert!(unknown.starts_with("none\nno bound known"), "{unknown}");
            let turned = told(|_, words| says(words, &[2, 0, 1], 1), file).expect("a chain");
            assert!(turned.starts_with("chain 2 0 1\nprocess 2"), "{turned}");
            let error = "the library has process 1 lead to process 0, and the model has not";
            assert_eq!(told(|_, words| says(words, &[0, 1], 1), file), Err(error.to_string()));
        }
        assert_eq!(told(|_, _| 5, RING.as_bytes()), Err("the kernel would refuse this model with 5".to_string()));
        assert_eq!(told(|_, _| 5, &blocks), Err("the kernel refuses this model with 5".to_string()));
    }

    /// The process, the statement and how many more, of `process P, statement N (and M more): ..`.
    fn place(line: &str) -> (usize, usize, usize) {
        let (place, _) = line.split_once(": ").expect("a place");
        let numbers: Vec<usize> = place.split([' ', ',', '(', ')']).filter_map(|word| word.parse().ok()).collect();
        match numbers[..] {
            [process, statement] => (process, statement, 0),
            [process, statement, more] => (process, statement, more),
            _ => panic!("{line}"),
        }
    }

    // Each step is told by the first assignment of the process that leads to the next one, and by the first wait on its signal
    // there. Without a chain, the waits that are told are those that stand against the bound. The text that a listing is has the
    // same chain and as many lines; one that grows past a limit is refused.
    #[test]
    fn what_is_told_of_random_models() {
        let (mut chains, mut longer, mut many, mut bounds, mut against) = (0, 0, 0, 0, 0);
        for seed in 0..3_000 {
            let m = gen::model(&mut Rng::new(seed));
            let above_0 = |node: u16| m.nodes[node as usize].kind == 1 && m.nodes[node as usize].k >= 1;
            // the statements that pass the test, of this process or of any
            let found = |process: Option<usize>, test: &dyn Fn(&StatementRecord) -> bool| -> Vec<usize> {
                let all = 0..m.statements.len();
                all.filter(|&n| test(&m.statements[n]) && process.map_or(true, |p| p == process_of(&m, n))).collect()
            };
            let text = told(check, &encode(&m)).expect("an accepted model");
            let lines: Vec<&str> = text.lines().collect();
            if lines[0] == "none" {
                let waits = found(None, &|s| s.kind == 5 && s.c != ABSENT && !above_0(s.c));
                let shown: Vec<_> = lines[2..].iter().map(|line| place(line)).collect();
                assert_eq!(shown, waits.iter().map(|&n| (process_of(&m, n), n, 0)).collect::<Vec<_>>(), "seed {seed}");
                let bound = format!("at most P + 1 = {} delta steps at any one time", m.processes.len() + 1);
                assert_eq!(lines[1] == bound, waits.is_empty(), "seed {seed}");
                bounds += waits.is_empty() as usize;
                against += waits.len();
            } else {
                let chain: Vec<usize> = lines[0]["chain ".len()..].split(' ').map(|p| p.parse().expect("a process")).collect();
                assert_eq!(lines.len(), chain.len() + 1, "seed {seed}");
                for (n, line) in lines[1..].iter().enumerate() {
                    let (p, q) = (chain[n], chain[(n + 1) % chain.len()]);
                    let waits = |s: &StatementRecord| found(Some(q), &|w| w.kind == 5 && w.set >> s.a & 1 == 1);
                    let leading = found(Some(p), &|s| [2, 6, 7].contains(&s.kind) && !above_0(s.c) && !waits(s).is_empty());
                    let (from, to) = line.split_once(" -> ").expect("a step");
                    assert_eq!(place(from), (p, leading[0], leading.len() - 1), "seed {seed}");
                    assert_eq!(place(to), (q, waits(&m.statements[leading[0]])[0], 0), "seed {seed}");
                    many += (leading.len() > 1) as usize;
                }
                chains += 1;
                longer += (chain.len() > 1) as usize;
            }
            if let Ok(listed) = told(check, list::model(&m).as_bytes()) {
                assert_eq!(listed.lines().next(), lines.first().copied(), "seed {seed}");
                assert_eq!(listed.lines().count(), lines.len(), "seed {seed}");
            }
        }
        assert!(chains > 1_000 && longer > 50, "{chains} chains, {longer} of two processes or more");
        assert!(many > 300, "{many} steps by several assignments");
        assert!(bounds > 500 && against > 1_000, "{bounds} bounds, {against} waits against one");
    }

    #[cfg(feature = "library")]
    #[test]
    fn the_library_tells_the_same() {
        let library = LIBRARY.expect("the library");
        for seed in 0..3_000 {
            let mut rng = Rng::new(seed);
            let mut blocks = encode(&gen::model(&mut rng));
            assert_eq!(told(library, &blocks), told(check, &blocks), "seed {seed}");
            let byte = rng.below(blocks.len());
            blocks[byte] ^= 1 << rng.below(8);
            assert_eq!(told(library, &blocks), told(check, &blocks), "seed {seed}, byte {byte}");
        }
        assert_eq!(told(library, RING.as_bytes()), told(check, RING.as_bytes()));
    }
}
