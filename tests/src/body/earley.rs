//! A third reader: the grammar as a table, by Earley's method, which tells the first token
//! with which no sentence goes on; and the count of a text's readings. For short texts.

use super::lexer::Token;
use super::tree::OPERATORS;
use std::collections::{BTreeMap, BTreeSet};
use std::sync::OnceLock;

/// What a rule's right side is made of: a word as it is written, a class of tokens in
/// capitals, or another left side between angles; N is a level, M the next.
const RULES: [(&str, &str); 24] = [
    ("<names>", "SIGNAL"),
    ("<names>", "SIGNAL , <names>"),
    ("<e>", "SMALL"),
    ("<e>", "NUMBER"),
    ("<e>", "LOGIC"),
    ("<e>", "SIGNAL"),
    ("<e>", "VARIABLE"),
    ("<e>", "( not <e> )"),
    ("<e>", "( - <e> )"),
    ("<e>", "( SIGNAL delayed SMALL )"),
    ("<e>", "( <e> <op> <e> )"),
    ("<on>", "wait on <names>"),
    ("<on>", "wait"),
    ("<until>", "<on> until <e>"),
    ("<until>", "<on>"),
    ("<wait>", "<until> for <e>"),
    ("<wait>", "<until>"),
    ("<simple>", "null"),
    ("<simple>", "VARIABLE := <e>"),
    ("<simple>", "SIGNAL <= <e> after <e>"),
    ("<simple>", "<wait>"),
    ("<list:N>", "<statement:N>"),
    ("<list:N>", "<statement:N> <list:N>"),
    ("<statement:N>", "<simple> ;"),
];
/// Those that go a level deeper.
const DEEPER: [(&str, &str); 2] = [
    (
        "<statement:N>",
        "if <e> then <list:M> else <list:M> end if ;",
    ),
    ("<statement:N>", "while <e> loop <list:M> end loop ;"),
];
const START: &str = "<list:0>";
const LEVELS: usize = 16;

#[derive(Clone, Copy, Debug, PartialEq, Eq)]
enum Part {
    Class(&'static str),
    Side(usize),
}

struct Grammar {
    /// Rules by left side.
    sides: Vec<Vec<Vec<Part>>>,
    start: usize,
}

fn grammar() -> &'static Grammar {
    static GRAMMAR: OnceLock<Grammar> = OnceLock::new();
    GRAMMAR.get_or_init(|| {
        let mut rules: Vec<(String, String)> = vec![];
        for (word, _) in OPERATORS {
            rules.push(("<op>".into(), word.into()));
        }
        for level in 0..=LEVELS {
            let here = RULES
                .iter()
                .chain(DEEPER.iter().filter(|_| level < LEVELS))
                .filter(|row| level == 0 || row.0.contains(":N"));
            for (left, right) in here {
                let at = |text: &str| {
                    text.replace(":N>", &format!(":{level}>"))
                        .replace(":M>", &format!(":{}>", level + 1))
                };
                rules.push((at(left), at(right)));
            }
        }
        let mut names: Vec<String> = rules.iter().map(|row| row.0.clone()).collect();
        names.sort();
        names.dedup();
        let side = |name: &str| names.iter().position(|n| n == name);
        let mut sides = vec![vec![]; names.len()];
        for (left, right) in &rules {
            let parts = right.split(' ').map(|part| match side(part) {
                Some(n) => Part::Side(n),
                None => Part::Class(String::leak(part.to_string())),
            });
            sides[side(left).expect("it is a side")].push(parts.collect());
        }
        Grammar {
            start: side(START).expect("it is a side"),
            sides,
        }
    })
}

fn class(token: Token) -> &'static str {
    match token {
        Token::Number(0..=31) => "SMALL",
        Token::Number(_) => "NUMBER",
        Token::Logic(_) => "LOGIC",
        Token::Signal(_) => "SIGNAL",
        Token::Variable(_) => "VARIABLE",
        Token::Word(word) => word,
        Token::Wrong => "WRONG",
        Token::End => "END",
    }
}

/// A rule by its left side and number, how much of it is done, and where it began.
type Item = (usize, usize, usize, usize);

/// The first token with which no sentence goes on, none where the text is a sentence. The
/// last token is the end, or none.
pub fn place(tokens: &[Token]) -> Option<usize> {
    let g = grammar();
    let mut sets: Vec<BTreeSet<Item>> = vec![];
    let begin = |side: usize, at: usize| (0..g.sides[side].len()).map(move |n| (side, n, 0, at));
    let mut open: Vec<Item> = begin(g.start, 0).collect();
    for (at, &token) in tokens.iter().enumerate() {
        let mut set: BTreeSet<Item> = BTreeSet::new();
        let mut next = vec![];
        let mut whole = false;
        while let Some(item @ (side, rule, dot, origin)) = open.pop() {
            if !set.insert(item) {
                continue;
            }
            match g.sides[side][rule].get(dot) {
                Some(Part::Class(name)) => {
                    if *name == class(token) {
                        next.push((side, rule, dot + 1, origin));
                    }
                }
                Some(&Part::Side(wanted)) => open.extend(begin(wanted, at)),
                None => {
                    whole |= side == g.start && origin == 0;
                    // No rule is empty, so the set where this one began is done.
                    for &(s, r, d, o) in &sets[origin] {
                        if g.sides[s][r].get(d) == Some(&Part::Side(side)) {
                            open.push((s, r, d + 1, o));
                        }
                    }
                }
            }
        }
        if token == Token::End {
            return (!whole).then_some(at);
        }
        if next.is_empty() {
            return Some(at);
        }
        sets.push(set);
        open = next;
    }
    unreachable!("the last token is the end or none")
}

/// In how many ways the tokens before the end are a sentence.
pub fn readings(tokens: &[Token]) -> u64 {
    let many = tokens.len() - 1;
    let mut counts = Counts {
        tokens: &tokens[..many],
        known: BTreeMap::new(),
    };
    counts.side(grammar().start, 0, many)
}

struct Counts<'t> {
    tokens: &'t [Token],
    known: BTreeMap<Item5, u64>,
}

/// The rest of a rule, from a token up to another.
type Item5 = (usize, usize, usize, usize, usize);

impl Counts<'_> {
    fn side(&mut self, side: usize, from: usize, to: usize) -> u64 {
        let rules = 0..grammar().sides[side].len();
        rules.map(|r| self.rest((side, r, 0, from, to))).sum()
    }

    fn rest(&mut self, item @ (side, rule, dot, from, to): Item5) -> u64 {
        let parts = &grammar().sides[side][rule][dot..];
        // Each part takes a token at least.
        if to - from < parts.len() {
            return 0;
        }
        let Some(&part) = parts.first() else {
            return (from == to) as u64;
        };
        if let Some(&known) = self.known.get(&item) {
            return known;
        }
        let rest = |end: usize| (side, rule, dot + 1, end, to);
        let count = match part {
            Part::Class(name) if name == class(self.tokens[from]) => self.rest(rest(from + 1)),
            Part::Class(_) => 0,
            Part::Side(s) => {
                let mut sum = 0;
                for end in from + 1..=to {
                    let after = self.rest(rest(end));
                    if after > 0 {
                        sum += after * self.side(s, from, end);
                    }
                }
                sum
            }
        };
        self.known.insert(item, count);
        count
    }
}
