//! Trees as texts.

use super::tree::*;
use crate::rng::Rng;
use crate::values::LETTERS;

/// The tokens of a body as they are written.
pub fn pieces(body: &Body) -> Vec<String> {
    let mut p = Speller { body, list: vec![] };
    p.statements(&body.list);
    p.list
}

struct Speller<'b> {
    body: &'b Body,
    list: Vec<String>,
}

/// What is still to be written.
enum Todo {
    Word(&'static str),
    Expression(usize),
}

impl Speller<'_> {
    fn words(&mut self, words: &[&str]) {
        self.list.extend(words.iter().map(|word| word.to_string()));
    }

    fn expression(&mut self, root: usize) {
        use Todo::*;
        let mut todo = vec![Expression(root)];
        while let Some(next) = todo.pop() {
            let e = match next {
                Word(word) => {
                    self.words(&[word]);
                    continue;
                }
                Expression(e) => self.body.expressions[e],
            };
            use super::tree::Expression as E;
            match e {
                E::Integer(k) => self.list.push(k.to_string()),
                E::Logic(code) => {
                    let letter = LETTERS[code as usize] as char;
                    self.list.push(format!("'{letter}'"));
                }
                E::Variable(v) => self.list.push(format!("v{v}")),
                E::Signal(s) => self.list.push(format!("s{s}")),
                E::Delayed(s, k) => {
                    let (signal, k) = (format!("s{s}"), k.to_string());
                    self.words(&["(", &signal, "delayed", &k, ")"]);
                }
                E::One(kind, a) => {
                    let word = if kind == NOT { "not" } else { "-" };
                    self.words(&["(", word]);
                    todo.extend([Word(")"), Expression(a)]);
                }
                E::Two(kind, a, b) => {
                    let row = OPERATORS.iter().find(|row| row.1 == kind);
                    let word = row.expect("it is an operator").0;
                    self.words(&["("]);
                    todo.extend([Word(")"), Expression(b), Word(word), Expression(a)]);
                }
            }
        }
    }

    fn statements(&mut self, list: &List) {
        for s in list {
            match s {
                Statement::Null => self.words(&["null"]),
                Statement::Assign(v, e) => {
                    self.words(&[&format!("v{v}"), ":="]);
                    self.expression(*e);
                }
                Statement::Schedule(s, value, delay) => {
                    self.words(&[&format!("s{s}"), "<="]);
                    self.expression(*value);
                    self.words(&["after"]);
                    self.expression(*delay);
                }
                Statement::Wait(w) => self.wait(w),
                Statement::If(condition, then, other) => {
                    self.words(&["if"]);
                    self.expression(*condition);
                    self.words(&["then"]);
                    self.statements(then);
                    self.words(&["else"]);
                    self.statements(other);
                    self.words(&["end", "if"]);
                }
                Statement::While(condition, list) => {
                    self.words(&["while"]);
                    self.expression(*condition);
                    self.words(&["loop"]);
                    self.statements(list);
                    self.words(&["end", "loop"]);
                }
            }
            self.words(&[";"]);
        }
    }

    fn wait(&mut self, w: &Wait) {
        self.words(&["wait"]);
        for (n, s) in w.on.iter().flatten().enumerate() {
            self.words(&[if n == 0 { "on" } else { "," }, &format!("s{s}")]);
        }
        if let Some(e) = w.until {
            self.words(&["until"]);
            self.expression(e);
        }
        if let Some(e) = w.span {
            self.words(&["for"]);
            self.expression(e);
        }
    }
}

/// How a text is set.
#[derive(Clone, Copy, Debug, PartialEq, Eq)]
pub enum Setting {
    /// A space where one is needed.
    Close,
    /// One space between tokens.
    Even,
    /// Any spaces and line feeds around tokens.
    Free,
}

/// Must there be a space between the two?
fn apart(before: &str, after: &str) -> bool {
    let of_run = |byte: Option<&u8>| byte.is_some_and(u8::is_ascii_alphanumeric);
    of_run(before.as_bytes().last()) && of_run(after.as_bytes().first())
}

/// Spaces and line feeds.
fn blanks(rng: &mut Rng, least: usize) -> String {
    let many = match rng.weighted(&[8, 8, 3, 1]) {
        0 => 0,
        1 => 1,
        2 => rng.below(4),
        _ => rng.below(12),
    };
    let blank = |_| rng.choose(&[' ', ' ', '\n']);
    (0..many.max(least)).map(blank).collect()
}

/// The text of some tokens.
pub fn set(rng: &mut Rng, pieces: &[String], setting: Setting) -> Vec<u8> {
    let mut text = String::new();
    if setting == Setting::Free {
        text += &blanks(rng, 0);
    }
    for (n, piece) in pieces.iter().enumerate() {
        let needed = n > 0 && apart(&pieces[n - 1], piece);
        match setting {
            Setting::Close if needed => text.push(rng.choose(&[' ', '\n'])),
            Setting::Even if n > 0 => text.push(' '),
            Setting::Free if n > 0 => text += &blanks(rng, needed as usize),
            _ => {}
        }
        text += piece;
    }
    if setting == Setting::Free {
        text += &blanks(rng, 0);
    }
    text.into_bytes()
}

/// The same body, whatever the order of its expressions.
pub fn same(a: &Body, b: &Body) -> bool {
    pieces(a) == pieces(b)
}
