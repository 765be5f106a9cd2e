//! The programs that are held to the second kernel: `playbench`, `dumpbench` and
//! `loopbench`.

use super::sessions::{long_lines, longest_chain, longest_dump, Case};
use crate::features::{dumps, Seen};
use crate::gen::{self, SessionCase};
use crate::loops;
use crate::model::load;
use crate::numbers;
use crate::session;
use crate::vcd::read::read;
use crate::vcd::write;

/// What a program prints of its files.
pub struct Bench {
    /// The files that it reads: `model` and, but for one, `orders`.
    pub files: &'static [&'static str],
    /// The second kernel's text.
    pub print: fn(&[u8], &[u8]) -> String,
    /// Is the text of a session that is played whole, by its orders?
    pub whole: fn(&[u8], &str) -> bool,
    /// The random session of a seed, and one whose text is long.
    pub random: fn(u64) -> SessionCase,
    pub long: fn() -> Case,
    /// What the texts of random sessions must show, and what one shows.
    pub names: fn() -> Vec<&'static str>,
    pub shown: fn(&Case, &str) -> Seen,
    /// Numbers that cannot occur, and why.
    pub never: &'static str,
}

impl Bench {
    /// Does it read orders?
    pub fn plays(&self) -> bool {
        self.files.contains(&"orders")
    }

    /// The numbers that it can print.
    pub fn numbers(&self) -> Vec<u32> {
        match self.plays() {
            true => [numbers::MODEL, &[numbers::ORDERS]].concat(),
            false => numbers::MODEL.to_vec(),
        }
    }
}

const BOTH: &[&str] = &["model", "orders"];

pub const PLAY: Bench = Bench {
    files: BOTH,
    print: session::print,
    whole: |orders, text| text.lines().count() == orders.len() / session::ORDER,
    random: gen::session_case,
    long: long_lines,
    names: || COLUMNS.to_vec(),
    shown: |case, text| columns_shown(&case.orders, text),
    never: "number 10 cannot occur: the program makes the answer buffer itself",
};

pub const DUMP: Bench = Bench {
    files: BOTH,
    print: write::print,
    whole: |_, text| read(text).is_ok(),
    random: gen::dump_case,
    long: longest_dump,
    names: dumps::of_times,
    shown: |case, _| {
        let m = load(&case.model).expect("a played model is accepted");
        dumps::of_run(&m, &case.orders, &write::settled(&m, &case.orders))
    },
    never: "numbers 10 and 21 cannot occur: there is no answer buffer, and the program's own holds every dump",
};

/// What lines of `loopbench` show.
const NONE: &str = "no chain";
const ONE: &str = "a chain of one process";
const SEVERAL_ON: &str = "a chain of several";
const TWO_DIGITS: &str = "a process above 9";
const ABOVE: &str = "a chain that begins above 0";

pub const LOOP: Bench = Bench {
    files: &["model"],
    print: |model, _| loops::print(model),
    whole: |_, text| text == "none\n" || processes(text).is_some(),
    random: |seed| {
        let case = gen::loops::case(seed);
        SessionCase {
            model: case.model,
            orders: vec![],
            room: 0,
            what: case.what,
        }
    },
    long: longest_chain,
    names: || vec![NONE, ONE, SEVERAL_ON, TWO_DIGITS, ABOVE],
    shown: |_, text| {
        let Some(list) = processes(text) else {
            return Seen::from([NONE]);
        };
        let mut seen = Seen::from([if list.len() == 1 { ONE } else { SEVERAL_ON }]);
        seen.extend(list.iter().any(|&p| p > 9).then_some(TWO_DIGITS));
        seen.extend((list[0] > 0).then_some(ABOVE));
        seen
    },
    never: "numbers 9 and 10 cannot occur: there are no orders and no answers",
};

/// The processes of a line with a chain: each once, below 16, the lowest first.
fn processes(text: &str) -> Option<Vec<usize>> {
    let list = text.strip_prefix("chain ")?.strip_suffix('\n')?;
    let number = |word: &str| {
        let number: usize = word.parse().ok()?;
        (number < 16 && number.to_string() == word).then_some(number)
    };
    let list: Vec<usize> = list.split(' ').map(number).collect::<Option<_>>()?;
    let once = (1..list.len()).all(|n| !list[..n].contains(&list[n]) && list[0] < list[n]);
    once.then_some(list)
}

/// What lines of random sessions show in the columns of value and node, besides 0, of sets
/// and of steps.
const NODE: &str = "a pick with a node";
const NO_NODE: &str = "a pick with node 65535";
const NEGATIVE: &str = "a read of a negative value";
const SEVERAL: &str = "a set of several processes";
const STOPPED: &str = "a set of which one stopped";
const NOTHING_DUE: &str = "a delta step with nothing due";
const DUE: &str = "a time step with something due";
const COLUMNS: [&str; 7] = [NODE, NO_NODE, NEGATIVE, SEVERAL, STOPPED, NOTHING_DUE, DUE];

/// What a played session's lines show.
fn columns_shown(orders: &[u8], text: &str) -> Seen {
    let mut seen = Seen::new();
    for (order, line) in orders.chunks_exact(session::ORDER).zip(text.lines()) {
        let columns: Vec<&str> = line.split(' ').collect();
        match (order[0], columns[3], columns[4]) {
            (session::PICK, _, "0") => {}
            (session::PICK, _, "65535") => _ = seen.insert(NO_NODE),
            (session::PICK, ..) => _ = seen.insert(NODE),
            (session::READ, value, _) if value.starts_with('-') => _ = seen.insert(NEGATIVE),
            (session::PICK_SET, ..) => {
                let several = !["0", "1"].contains(&columns[2]);
                seen.extend(several.then_some(SEVERAL));
                seen.extend((columns[1] == "1").then_some(STOPPED));
            }
            (session::DELTA, ..) if columns[0] == "22" => _ = seen.insert(NOTHING_DUE),
            (session::TIME, ..) if columns[0] == "23" => _ = seen.insert(DUE),
            _ => {}
        }
    }
    seen
}

#[cfg(test)]
mod tests {
    use super::*;

    #[test]
    fn lines_of_chains() {
        let shown = |text: &str| {
            assert!((LOOP.whole)(&[], text), "{text}");
            let case = Case::new("", &[], &[], 0);
            (LOOP.shown)(&case, text).into_iter().collect::<Vec<_>>()
        };
        assert_eq!(shown("none\n"), [NONE]);
        assert_eq!(shown("chain 0\n"), [ONE]);
        assert_eq!(shown("chain 2 10 3\n"), [SEVERAL_ON, ABOVE, TWO_DIGITS]);
        for text in [
            "",
            "none",
            "none\nnone\n",
            "chain\n",
            "chain \n",
            "chain 0",
            "chain 0 \n",
            "chain 00\n",
            "chain 1 0\n",
            "chain 0 0\n",
            "chain 0 2 2\n",
            "chain 0 16\n",
            "chain 0  1\n",
            "0 1\n",
        ] {
            assert!(!(LOOP.whole)(&[], text), "{text}");
        }
    }

    #[test]
    fn columns_of_value_and_node() {
        let shown = |order: u8, line: &str| columns_shown(&[order, 0, 0, 0], line);
        for (order, line, what) in [
            (session::PICK, "0 2 1 4 2 0", NODE),
            (session::PICK, "0 2 1 2 65535 0", NO_NODE),
            (session::READ, "0 0 0 -7 0 0", NEGATIVE),
            (session::PICK_SET, "0 0 2 0 0 7", SEVERAL),
            (session::PICK_SET, "0 1 1 0 0 0", STOPPED),
            (session::DELTA, "22 0 0 0 0 7", NOTHING_DUE),
            (session::TIME, "23 0 0 0 0 7", DUE),
        ] {
            assert_eq!(shown(order, line), Seen::from([what]), "{line}");
        }
        assert!(shown(session::PICK, "0 0 1 0 0 3").is_empty());
        assert!(shown(session::READ, "0 0 0 7 0 3").is_empty());
        assert!(shown(session::PICK_SET, "0 0 1 0 0 3").is_empty());
        assert!(shown(session::PICK_SET, "13 0 0 0 0 3").is_empty());
        assert!(shown(session::DELTA, "0 1 0 0 0 3").is_empty());
        assert!(shown(session::TIME, "17 0 0 0 0 3").is_empty());
    }
}
