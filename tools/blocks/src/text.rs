//! Reads model texts, texts of declarations and order texts. One item a line; `--` starts a comment.
//!
//!     signal NAME TYPE [bus|register] VALUE
//!     table                           the model's own resolution table: its nine rows are the lines that follow
//!     process NAME                    opens a process: what follows is its own
//!     variable NAME TYPE VALUE
//!     LABEL:                          names the next statement
//!     null
//!     VARIABLE := EXPRESSION
//!     SIGNAL <= [transport] EXPRESSION after EXPRESSION
//!     SIGNAL <= [transport] null after EXPRESSION
//!     SIGNAL <= inertial EXPRESSION after EXPRESSION
//!     unless EXPRESSION goto LABEL
//!     goto LABEL
//!     wait [on SIGNAL, ..] [until EXPRESSION] [for EXPRESSION]
//!
//! TYPE is integer, logic or (variables) boolean. A signal without `bus` or `register` is plain; these two are for logic signals,
//! and only they take null transactions (the kernel refuses others with 20). `null` is no value. A process gets a driver for each
//! signal that it assigns, also where it assigns only null.
//!
//! Without a word, and with `transport`, an assignment has transport delay (statement kind 2, for null kind 6): what is pending
//! for earlier times stays. With `inertial` (kind 7) only the transactions right before the new one that have its value stay, so
//! a pulse shorter than the delay vanishes. VHDL's own default is inertial: there an assignment without a word is what `inertial`
//! is here. Null has no inertial form.
//!
//! A table stands where a signal can, at most once. A row is nine of the characters U X 0 1 Z W L H -, with blanks between them or
//! none; rows and columns are in that order. `-` is a value there: nine values are read first, and `--` among them starts no
//! comment. `table` alone on a line begins a table; elsewhere it may be a name. The kernel refuses a table that is not symmetric
//! (24) or not associative (25).
//!
//! EXPRESSION: an integer, a logic value as '0' or 'U', a name, `SIGNAL delayed K`, `not e`, `- e`, `e OP e` with OP one of
//! `and or xor = < + - * / mod rem`, and parentheses. As in VHDL, `not` binds strongest, then `* / mod rem`, `+ -`, `= <`, and
//! `and or xor` weakest; those that bind alike group to the left. A minus sign binds as `+ -` do: `- a mod b` is `- (a mod b)`,
//! and after `* / mod rem` a negative operand has parentheses, as in `a * (- b)`.
//!
//! `SIGNAL delayed K` is the signal's value K time units ago, K from 1 to 31; `SIGNAL delayed 0` is its value before the latest
//! delta step, in a wait's condition before the one under way.
//!
//! The words `null transport inertial not and or xor mod rem` are reserved: they name nothing.
//!
//! A text of declarations has the records that go with a body in text (document 02, item 12). The body is the only process, so that
//! no process is opened:
//!
//!     signal NAME TYPE [bus|register] VALUE
//!     variable NAME TYPE VALUE
//!     drives SIGNAL, ..               the signals that the body assigns, each once; in any order, behind their declarations
//!
//! The body calls them s0, s1, .. and v0, v1, .. in the order of their declarations; the names here are for people, and for
//! `drives`. One like s3 or v0 must be the body's own.
//!
//! Orders, with numbers:
//!
//!     pick P                          order 1: a single pick, P from 0 to 255
//!     pick P P ..                     order 5: a set of two processes or more, from 0 to 15
//!     pick set [P ..]                 order 5: any set, the empty one and a set of one process too
//!     delta                           order 6: a delta step
//!     time                            order 7: a time step
//!     settle N                        N from 0 to 65535
//!     read S                          S from 0 to 255
//!     bytes B B B B                   the order's bytes themselves, also where the kernel refuses them with 11
//!     advance                         order 2, withdrawn: the kernel refuses it with 11
//!
//! A process stands in a set once; which stands first does not matter. `advance` is for texts of before: their orders are made as
//! they were, with a warning, and `blocks move` moves them over.

use crate::table;
use second_kernel::model::*;
use std::collections::BTreeSet;
use std::fmt;

#[derive(Clone, PartialEq, Debug)]
enum Token {
    Word(String),
    Number(i64),
    Logic(u8),
    Sign(&'static str),
}

impl fmt::Display for Token {
    fn fmt(&self, f: &mut fmt::Formatter) -> fmt::Result {
        match self {
            Token::Word(w) => write!(f, "`{w}`"),
            Token::Number(n) => write!(f, "`{n}`"),
            Token::Logic(c) => write!(f, "`'{}'`", table::letter(*c)),
            Token::Sign(s) => write!(f, "`{s}`"),
        }
    }
}

const SIGNS: [&str; 13] = [":=", "<=", "(", ")", ",", ":", "=", "<", "+", "-", "*", "/", ";"];

/// The operators of two operands with their node kinds, those that bind alike on one level, the weakest first.
const LEVELS: [&[(&str, u8)]; 4] = [
    &[("and", 7), ("or", 8), ("xor", 9)],
    &[("=", 13), ("<", 14)],
    &[("+", 11), ("-", 12)],
    &[("*", 15), ("/", 16), ("mod", 17), ("rem", 18)],
];

/// The level of `+` and `-`; a minus sign binds alike.
const ADDING: usize = 2;

/// The words that say which delay an assignment to a signal has.
const DELAYS: [&str; 2] = ["transport", "inertial"];

fn is_reserved(word: &str) -> bool {
    word == "null" || word == "not" || DELAYS.contains(&word) || LEVELS.iter().any(|level| level.iter().any(|o| o.0 == word))
}

fn not_reserved(word: String) -> Result<String, String> {
    if is_reserved(&word) {
        return Err(format!("`{word}` is a reserved word, not a name"));
    }
    Ok(word)
}

fn uncommented(line: &str) -> &str {
    line.split("--").next().unwrap_or("")
}

fn tokens(line: &str) -> Result<Vec<Token>, String> {
    let mut rest = uncommented(line).trim_start();
    let mut out = Vec::new();
    while let Some(c) = rest.chars().next() {
        let used = if c.is_ascii_digit() {
            let n = rest.chars().take_while(char::is_ascii_digit).count();
            out.push(Token::Number(rest[..n].parse().map_err(|_| format!("{}: too large", &rest[..n]))?));
            n
        } else if c.is_ascii_alphabetic() {
            let n = rest.chars().take_while(|c| c.is_ascii_alphanumeric() || *c == '_').count();
            out.push(Token::Word(rest[..n].to_string()));
            n
        } else if c == '\'' {
            let value = rest[1..].chars().next().and_then(table::code);
            match (value, rest.get(2..3)) {
                (Some(v), Some("'")) => out.push(Token::Logic(v)),
                _ => return Err("a logic value is one of U X 0 1 Z W L H - between quotes".to_string()),
            }
            3
        } else {
            let sign = SIGNS.iter().find(|s| rest.starts_with(**s));
            out.push(Token::Sign(sign.ok_or_else(|| format!("`{c}` means nothing here"))?));
            sign.map_or(1, |s| s.len())
        };
        rest = rest[used..].trim_start();
    }
    Ok(out)
}

fn type_of(word: &str) -> Result<u8, String> {
    match word {
        "integer" => Ok(INTEGER),
        "logic" => Ok(LOGIC),
        "boolean" => Ok(BOOLEAN),
        _ => Err(format!("`{word}` is no type: integer, logic or boolean")),
    }
}

/// The latest of these names: it is new, one of a body's form is the one that the body has for it, and there are not too many.
fn body_name(names: &[String], letter: char, what: &str, most: usize) -> Result<(), String> {
    let (name, own) = (&names[names.len() - 1], format!("{letter}{}", names.len() - 1));
    let number = name.strip_prefix(['s', 'v']).unwrap_or("");
    if !number.is_empty() && number.bytes().all(|b| b.is_ascii_digit()) && *name != own {
        return Err(format!("`{name}` is {own} in the body: a name of this form must be the body's own"));
    }
    if names[..names.len() - 1].contains(name) {
        return Err(format!("`{name}` is declared already"));
    }
    if names.len() > most {
        return Err(format!("a model has at most {most} {what}: the kernel would refuse more with 4"));
    }
    Ok(())
}

#[derive(Default)]
struct Reader {
    model: Model,
    signals: Vec<String>,
    variables: Vec<String>,
    processes: Vec<String>,
    // the lines of the statements
    lines: Vec<usize>,
    labels: Vec<(String, u16)>,
    // a jump: the statement, the label and the line
    jumps: Vec<(usize, String, usize)>,
    drivers: BTreeSet<(u8, u8)>,
    // the lines of `table` and of its rows
    table: Vec<usize>,
    items: Vec<Token>,
    at: usize,
}

impl Reader {
    fn peek(&self) -> Option<&Token> {
        self.items.get(self.at)
    }

    fn next(&mut self) -> Result<Token, String> {
        let t = self.peek().cloned().ok_or("something is missing at the end of the line")?;
        self.at += 1;
        Ok(t)
    }

    /// The line ends here.
    fn nothing_left(&self) -> Result<(), String> {
        self.peek().map_or(Ok(()), |t| Err(format!("{t} is one too many")))
    }

    fn takes(&mut self, t: &Token) -> bool {
        let found = self.peek() == Some(t);
        self.at += found as usize;
        found
    }

    fn takes_word(&mut self, w: &str) -> bool {
        self.takes(&Token::Word(w.to_string()))
    }

    fn word(&mut self) -> Result<String, String> {
        match self.next()? {
            Token::Word(w) => Ok(w),
            t => Err(format!("a name is expected, not {t}")),
        }
    }

    /// The name of something new.
    fn new_name(&mut self) -> Result<String, String> {
        not_reserved(self.word()?)
    }

    fn signal(&self, name: &str) -> Result<u16, String> {
        let at = self.signals.iter().position(|s| s == name);
        at.map(|n| n as u16).ok_or_else(|| format!("there is no signal `{name}`"))
    }

    fn node(&mut self, kind: u8, a: u16, b: u16, k: i32) -> u16 {
        self.model.nodes.push(NodeRecord { kind, a, b, k });
        self.model.nodes.len() as u16 - 1
    }

    fn value(&mut self, ty: u8) -> Result<i32, String> {
        let minus = self.takes(&Token::Sign("-"));
        match (self.next()?, ty) {
            (Token::Number(n), INTEGER) if n <= i32::MAX as i64 => Ok(if minus { -(n as i32) } else { n as i32 }),
            (Token::Logic(c), LOGIC) if !minus => Ok(c as i32),
            (Token::Word(w), BOOLEAN) if w == "true" || w == "false" => Ok((w == "true") as i32),
            (t, _) => Err(format!("{t} is no value of this type")),
        }
    }

    fn atom(&mut self) -> Result<u16, String> {
        match self.next()? {
            Token::Number(n) if n <= i32::MAX as i64 => Ok(self.node(1, 0, 0, n as i32)),
            Token::Number(n) => Err(format!("{n} is out of range: integers go up to {}", i32::MAX)),
            Token::Logic(c) => Ok(self.node(2, 0, 0, c as i32)),
            Token::Sign("(") => {
                let e = self.expression()?;
                if !self.takes(&Token::Sign(")")) {
                    return Err("`)` is missing".to_string());
                }
                Ok(e)
            }
            Token::Sign("-") => Err("a minus sign has parentheses here: `(- ..)`".to_string()),
            Token::Word(w) if w == "not" => {
                let e = self.atom()?;
                Ok(self.node(6, e, 0, 0))
            }
            Token::Word(w) if w == "null" => Err("`null` is no value: it stands alone between `<=` and `after`".to_string()),
            Token::Word(w) if DELAYS.contains(&w.as_str()) => Err(format!("`{w}` stands right after `<=`, nowhere else")),
            Token::Word(w) if !is_reserved(&w) => {
                if let Some(v) = self.variables.iter().rposition(|n| *n == w) {
                    return Ok(self.node(3, v as u16, 0, 0));
                }
                let s = self.signal(&w)?;
                if !self.takes_word("delayed") {
                    return Ok(self.node(4, s, 0, 0));
                }
                match self.next()? {
                    Token::Number(k) if k <= 31 => Ok(self.node(5, s, 0, k as i32)),
                    t => Err(format!("a delay is a number from 0 to 31, not {t}")),
                }
            }
            t => Err(format!("an operand cannot begin with {t}")),
        }
    }

    fn operator(&mut self, level: usize) -> Option<u8> {
        let found = match self.peek()? {
            Token::Word(w) => LEVELS[level].iter().find(|o| o.0 == w),
            Token::Sign(s) => LEVELS[level].iter().find(|o| o.0 == *s),
            _ => None,
        }?;
        self.at += 1;
        Some(found.1)
    }

    /// An operand of the operators of `level`.
    fn operand(&mut self, level: usize) -> Result<u16, String> {
        if level == ADDING && self.takes(&Token::Sign("-")) {
            let e = self.operand(level)?;
            return Ok(self.node(10, e, 0, 0));
        }
        self.level(level + 1)
    }

    fn level(&mut self, level: usize) -> Result<u16, String> {
        if level == LEVELS.len() {
            return self.atom();
        }
        let mut left = self.operand(level)?;
        while let Some(kind) = self.operator(level) {
            let right = self.operand(level)?;
            left = self.node(kind, left, right, 0);
        }
        Ok(left)
    }

    fn expression(&mut self) -> Result<u16, String> {
        self.level(0)
    }

    fn statement(&mut self, s: StatementRecord) -> Result<(), String> {
        let process = self.model.processes.last_mut().ok_or("a statement stands before the first process")?;
        process.count += 1;
        self.model.statements.push(s);
        Ok(())
    }

    fn jump(&mut self, kind: u8, b: u16, line: usize) -> Result<(), String> {
        let label = self.word()?;
        self.jumps.push((self.model.statements.len(), label, line));
        self.statement(StatementRecord { kind, a: 0, b, c: 0, set: 0 })
    }

    fn wait(&mut self) -> Result<(), String> {
        let mut s = StatementRecord { kind: 5, a: 0, b: ABSENT, c: ABSENT, set: 0 };
        if self.takes_word("on") {
            loop {
                let name = self.word()?;
                s.set |= 1 << self.signal(&name)?;
                if !self.takes(&Token::Sign(",")) {
                    break;
                }
            }
        }
        if self.takes_word("until") {
            s.b = self.expression()?;
        }
        if self.takes_word("for") {
            s.c = self.expression()?;
        }
        self.statement(s)
    }

    /// What a signal is assigned, with the word before it: the statement's kind and its b.
    fn assigned(&mut self) -> Result<(u8, u16), String> {
        let inertial = self.takes_word("inertial");
        if !inertial {
            self.takes_word("transport");
        }
        match (inertial, self.takes_word("null")) {
            (false, false) => Ok((2, self.expression()?)),
            (false, true) => Ok((6, 0)),
            (true, false) => Ok((7, self.expression()?)),
            (true, true) => Err("`null` has no inertial form: it is assigned with `transport`, or without a word".to_string()),
        }
    }

    fn assignment(&mut self, name: &str) -> Result<(), String> {
        if self.takes(&Token::Sign(":")) {
            self.labels.push((name.to_string(), self.model.statements.len() as u16));
            return Ok(());
        }
        let process = self.model.processes.len() as u8;
        if self.takes(&Token::Sign(":=")) {
            let at = self.variables.iter().rposition(|v| v == name);
            let a = at.ok_or_else(|| format!("there is no variable `{name}`"))? as u16;
            let b = self.expression()?;
            return self.statement(StatementRecord { kind: 1, a, b, c: 0, set: 0 });
        }
        if self.takes(&Token::Sign("<=")) {
            let a = self.signal(name)?;
            let (kind, b) = self.assigned()?;
            if !self.takes_word("after") {
                return Err("`after` and a delay are missing".to_string());
            }
            let c = self.expression()?;
            self.statement(StatementRecord { kind, a, b, c, set: 0 })?;
            self.drivers.insert((process - 1, a as u8));
            return Ok(());
        }
        Err(format!("`{name}` begins no item"))
    }

    fn signal_kind(&mut self) -> u8 {
        if self.takes_word("bus") {
            BUS
        } else if self.takes_word("register") {
            REGISTER
        } else {
            PLAIN
        }
    }

    fn open_table(&mut self, line: usize) -> Result<(), String> {
        if let Some(first) = self.table.first() {
            return Err(format!("a second table: line {first} has the model's table"));
        }
        self.table.push(line);
        Ok(())
    }

    /// Is the table under way, and the line one of its own, a row or a comment?
    fn in_table(&mut self, line: &str, number: usize) -> Result<bool, String> {
        let row = table::row(line);
        let said = uncommented(line).trim();
        if self.table.is_empty() || self.model.rows.len() == 9 {
            return match row {
                Some(_) if !said.is_empty() => {
                    Err("a row outside a table: a table is the word `table` and the nine rows that follow".to_string())
                }
                _ => Ok(false),
            };
        }
        match row {
            Some(row) => {
                self.table.push(number);
                self.model.rows.push(row);
            }
            None if !said.is_empty() => return Err(table::no_row(said, self.model.rows.len() as u8)),
            None => {}
        }
        Ok(true)
    }

    /// A signal or a variable, behind this word.
    fn declared(&mut self, word: &str) -> Result<(), String> {
        let name = self.new_name()?;
        let ty = type_of(&self.word()?)?;
        let kind = self.signal_kind();
        if kind != PLAIN && (word == "variable" || ty != LOGIC) {
            return Err("`bus` and `register` are for logic signals".to_string());
        }
        let start = self.value(ty)?;
        if word == "signal" {
            self.signals.push(name);
            self.model.signals.push(SignalRecord { ty, kind, start });
        } else {
            let process = self.model.processes.len().checked_sub(1).ok_or("a variable stands in a process")?;
            self.variables.push(name);
            self.model.variables.push(VariableRecord { ty, process: process as u8, start });
        }
        Ok(())
    }

    /// An item of a text of declarations.
    fn declaration(&mut self) -> Result<(), String> {
        let word = self.word()?;
        match word.as_str() {
            "signal" => {
                self.declared(&word)?;
                if self.model.signals.last().is_some_and(|s| s.ty == BOOLEAN) {
                    return Err("a signal is integer or logic, not boolean".to_string());
                }
                body_name(&self.signals, 's', "signals", 32)
            }
            "variable" => {
                self.declared(&word)?;
                body_name(&self.variables, 'v', "variables", 64)
            }
            "drives" => self.drives(),
            _ => Err(format!("`{word}` begins no declaration: these are `signal ..`, `variable ..` and `drives SIGNAL, ..`")),
        }
    }

    fn drives(&mut self) -> Result<(), String> {
        loop {
            let name = self.word()?;
            let signal = self.signal(&name)?;
            if !self.drivers.insert((0, signal as u8)) {
                return Err(format!("`{name}` is driven already"));
            }
            if !self.takes(&Token::Sign(",")) {
                return Ok(());
            }
        }
    }

    fn item(&mut self, line: usize) -> Result<(), String> {
        let word = self.word()?;
        match word.as_str() {
            "table" if self.peek().is_none() => self.open_table(line),
            "signal" | "variable" => self.declared(&word),
            "process" => {
                let name = self.new_name()?;
                self.processes.push(name);
                let first = self.model.statements.len() as u16;
                self.model.processes.push(ProcessRecord { first, count: 0 });
                Ok(())
            }
            "null" => self.statement(StatementRecord { kind: 0, a: 0, b: 0, c: 0, set: 0 }),
            "goto" => self.jump(4, 0, line),
            "unless" => {
                let b = self.expression()?;
                if !self.takes_word("goto") {
                    return Err("`goto` is missing".to_string());
                }
                self.jump(3, b, line)
            }
            "wait" => self.wait(),
            _ => self.assignment(&not_reserved(word)?),
        }
    }
}

fn read(text: &str) -> Result<Reader, String> {
    let mut r = Reader::default();
    for (i, line) in text.lines().enumerate() {
        let at = |e: String| format!("line {}: {e}", i + 1);
        if r.in_table(line, i + 1).map_err(at)? {
            continue;
        }
        r.items = tokens(line).map_err(at)?;
        r.at = 0;
        if !r.items.is_empty() {
            r.item(i + 1).map_err(at)?;
            // An item is at most one statement.
            r.lines.resize(r.model.statements.len(), i + 1);
            r.nothing_left().map_err(at)?;
        }
    }
    for (s, label, line) in std::mem::take(&mut r.jumps) {
        let target = r.labels.iter().find(|l| l.0 == label);
        r.model.statements[s].a = target.ok_or_else(|| format!("line {line}: there is no label `{label}`"))?.1;
    }
    r.model.drivers = r.drivers.iter().map(|&(process, signal)| DriverRecord { process, signal }).collect();
    match r.table.first() {
        Some(line) if r.model.rows.len() < 9 => Err(format!("line {line}: the table has {} rows, not nine", r.model.rows.len())),
        _ => Ok(r),
    }
}

/// The signals, variables and drivers of a text of declarations, all of process 0.
pub fn declarations(text: &str) -> Result<Model, String> {
    let mut r = Reader::default();
    r.model.processes.push(ProcessRecord::default());
    for (i, line) in text.lines().enumerate() {
        let at = |e: String| format!("line {}: {e}", i + 1);
        r.items = tokens(line).map_err(at)?;
        r.at = 0;
        if !r.items.is_empty() {
            r.declaration().map_err(at)?;
            r.nothing_left().map_err(at)?;
        }
    }
    r.model.drivers = r.drivers.iter().map(|&(process, signal)| DriverRecord { process, signal }).collect();
    Ok(r.model)
}

/// The blocks of a model text.
pub fn model(text: &str) -> Result<Vec<u8>, String> {
    Ok(encode(&read(text)?.model))
}

/// The model of a text, and what the text has for its records.
pub struct Source {
    pub model: Model,
    /// The processes' names.
    pub processes: Vec<String>,
    /// Each statement's line, and the words there.
    pub statements: Vec<(usize, String)>,
}

pub fn source(text: &str) -> Result<Source, String> {
    let r = read(text)?;
    let lines: Vec<&str> = text.lines().collect();
    let statements = r.lines.iter().map(|&n| (n, uncommented(lines[n - 1]).trim().to_string())).collect();
    Ok(Source { model: r.model, processes: r.processes, statements })
}

/// What is told of a text whose model the kernel refuses with this number.
pub fn refusal(text: &str, number: u32) -> String {
    let why = read(text).ok().and_then(|r| {
        let (row, shown) = table::refusal(r.model.own_table()?, number)?;
        Some(format!("line {}: {shown}; ", r.table[1 + row as usize]))
    });
    format!("{}the kernel would refuse this model with {number}", why.unwrap_or_default())
}

/// What is told of a line that is no order.
const ORDERS: &str =
    "an order is `pick P`, `pick P P ..`, `pick set P ..`, `delta`, `time`, `settle N`, `read S` or `bytes B B B B`";

/// A number up to `top`; `what` says of what.
fn number(item: &Token, what: &str, top: u16) -> Result<u16, String> {
    match item {
        Token::Number(n) if *n <= top as i64 => Ok(*n as u16),
        t => Err(format!("{what} is a number from 0 to {top}, not {t}")),
    }
}

fn byte(item: &Token, what: &str) -> Result<u8, String> {
    number(item, what, 255).map(|n| n as u8)
}

/// A settle, or a pick of a set, whose count is the set.
fn counted(kind: u8, count: u16) -> [u8; 4] {
    let [low, high] = count.to_le_bytes();
    [kind, 0, low, high]
}

/// The set of the processes, bit n for process n.
fn set(processes: &[Token]) -> Result<u16, String> {
    let mut set = 0;
    for p in processes {
        let n = number(p, "a process of a set", 15)?;
        if set >> n & 1 == 1 {
            return Err(format!("process {n} stands in the set twice"));
        }
        set |= 1 << n;
    }
    Ok(set)
}

/// The order of a line.
fn order(items: &[Token]) -> Result<[u8; 4], String> {
    let [Token::Word(word), rest @ ..] = items else { return Err(ORDERS.to_string()) };
    match (word.as_str(), rest) {
        ("pick", [Token::Word(w), processes @ ..]) if w == "set" => Ok(counted(5, set(processes)?)),
        ("pick", [p]) => Ok([1, byte(p, "a process")?, 0, 0]),
        ("pick", [_, _, ..]) => Ok(counted(5, set(rest)?)),
        ("delta", []) => Ok([6, 0, 0, 0]),
        ("time", []) => Ok([7, 0, 0, 0]),
        ("advance", []) => Ok([2, 0, 0, 0]),
        ("settle", [n]) => Ok(counted(3, number(n, "a count", 65535)?)),
        ("read", [s]) => Ok([4, byte(s, "a signal")?, 0, 0]),
        ("bytes", [a, b, c, d]) => Ok([byte(a, "a byte")?, byte(b, "a byte")?, byte(c, "a byte")?, byte(d, "a byte")?]),
        _ => Err(ORDERS.to_string()),
    }
}

/// The orders of an order text.
pub fn orders(text: &str) -> Result<Vec<u8>, String> {
    let mut out = Vec::new();
    for (i, line) in text.lines().enumerate() {
        let at = |e: String| format!("line {}: {e}", i + 1);
        let items = tokens(line).map_err(at)?;
        if !items.is_empty() {
            out.extend(order(&items).map_err(at)?);
        }
    }
    Ok(out)
}

/// What is told of an order text that has an `advance`.
pub fn warning(text: &str) -> Option<String> {
    let advance = Ok(vec![Token::Word("advance".to_string())]);
    let lines: Vec<usize> = (1..).zip(text.lines()).filter(|l| tokens(l.1) == advance).map(|l| l.0).collect();
    let many = match lines.len() {
        0 => return None,
        1 => String::new(),
        n => format!(" (and {} more)", n - 1),
    };
    Some(format!(
        "line {}{many}: `advance` is order 2, which is withdrawn and gives 11; `blocks move` moves the orders over",
        lines[0]
    ))
}

#[cfg(test)]
mod tests {
    use super::*;
    use crate::list;

    const WAIT: StatementRecord = StatementRecord { kind: 5, a: 0, b: ABSENT, c: ABSENT, set: 0 };

    fn assign(kind: u8, a: u16, b: u16, c: u16) -> StatementRecord {
        StatementRecord { kind, a, b, c, set: 0 }
    }

    fn driver(process: u8, signal: u8) -> DriverRecord {
        DriverRecord { process, signal }
    }

    // Process card_b assigns only null, and has its driver all the same.
    #[test]
    fn null_assignments() {
        let text = "\
signal wire logic '0'
signal line logic bus 'Z'
signal last logic register 'H'
process card_a
  line <= '0' after 2
  last <= null after 3
  wait
process card_b
  line <= null after 0
  wait
";
        let m = load(&model(text).expect("a model text")).expect("an accepted model");
        let signal = |kind, start| SignalRecord { ty: LOGIC, kind, start };
        assert_eq!(m.signals, [signal(PLAIN, 2), signal(BUS, 4), signal(REGISTER, 7)]);
        let constant = |kind, k| NodeRecord { kind, a: 0, b: 0, k };
        assert_eq!(m.nodes, [constant(2, 2), constant(1, 2), constant(1, 3), constant(1, 0)]);
        assert_eq!(m.statements, [assign(2, 1, 0, 1), assign(6, 2, 0, 2), WAIT, assign(6, 1, 0, 3), WAIT]);
        assert_eq!(m.drivers, [driver(0, 1), driver(0, 2), driver(1, 1)]);
    }

    // Like wrong types, this is the kernel's to refuse.
    #[test]
    fn null_on_a_plain_signal_is_20() {
        for (ty, number) in [("logic '0'", 20), ("integer 0", 20), ("logic bus '0'", 0), ("logic register '0'", 0)] {
            let text = format!("signal s {ty}\nprocess p\ns <= null after 0\nwait");
            assert_eq!(model(&text).map(|blocks| judge(&blocks)), Ok(number), "{ty}");
        }
    }

    // Process filter assigns only inertially, and has its driver all the same. A listing says `inertial`, and no word for transport.
    #[test]
    fn transport_and_inertial_assignments() {
        let text = "\
signal pulse logic '0'
signal line logic bus 'Z'
process sensor
  pulse <= '1' after 2
  pulse <= transport '0' after 3
  line <= null after 4
  line <= transport null after 5
  wait
process filter
  line <= inertial pulse after 6
  wait
";
        let blocks = model(text).expect("a model text");
        let m = load(&blocks).expect("an accepted model");
        let sensor = [assign(2, 0, 0, 1), assign(2, 0, 2, 3), assign(6, 1, 0, 4), assign(6, 1, 0, 5), WAIT];
        assert_eq!(m.statements, [&sensor[..], &[assign(7, 1, 6, 7), WAIT]].concat());
        assert_eq!(m.drivers, [driver(0, 0), driver(0, 1), driver(1, 1)]);
        let listed = "\
signal s0 logic '0'
signal s1 logic bus 'Z'
process p0
  -- drives s0
  -- drives s1
  s0 <= '1' after 2
  s0 <= '0' after 3
  s1 <= null after 4
  s1 <= null after 5
  wait
process p1
  -- drives s1
  s1 <= inertial s0 after 6
  wait
";
        assert_eq!(list::model(&m), listed);
        assert_eq!(model(listed), Ok(blocks));
    }

    // Wrong types are the kernel's to refuse.
    #[test]
    fn an_inertial_assignment_obeys_the_types() {
        for (ty, value, delay, number) in [
            ("logic '0'", "'1'", "2", 0),
            ("logic bus 'Z'", "'1'", "2", 0),
            ("logic register '0'", "'1'", "2", 0),
            ("integer 0", "1", "2", 0),
            ("logic '0'", "1", "2", 7),
            ("integer 0", "'1'", "2", 7),
            ("integer 0", "s = 1", "2", 7),
            ("logic '0'", "'1'", "'1'", 7),
            ("integer 0", "1", "s = 1", 7),
        ] {
            let text = format!("signal s {ty}\nprocess p\ns <= inertial {value} after {delay}\nwait");
            assert_eq!(model(&text).map(|blocks| judge(&blocks)), Ok(number), "{text}");
        }
    }

    const OPERANDS: &str = "\
signal s0 integer 0
process p0
  variable v0 integer 0
  variable v1 integer 0
  variable v2 integer 0
  variable v3 boolean false
";

    #[test]
    fn products_quotients_and_remainders() {
        for (operator, kind) in [("*", 15), ("/", 16), ("mod", 17), ("rem", 18)] {
            let text = format!("{OPERANDS}v2 := v0 {operator} v1");
            let m = load(&model(&text).expect("a model text")).expect("an accepted model");
            let variable = |a| NodeRecord { kind: 3, a, b: 0, k: 0 };
            assert_eq!(m.nodes, [variable(0), variable(1), NodeRecord { kind, a: 0, b: 1, k: 0 }], "{operator}");
        }
    }

    // A delay of 0 is no plain read.
    #[test]
    fn delays() {
        let text = format!("{OPERANDS}v0 := s0 delayed 0\nv0 := s0 delayed 1\nv0 := s0 delayed 31\nv0 := s0");
        let m = load(&model(&text).expect("a model text")).expect("an accepted model");
        let read = |kind, k| NodeRecord { kind, a: 0, b: 0, k };
        assert_eq!(m.nodes, [read(5, 0), read(5, 1), read(5, 31), read(4, 0)]);
    }

    // A listing shows each group in parentheses, and makes the same blocks.
    #[test]
    fn operators_group_as_in_vhdl() {
        for (read, grouped) in [
            ("v0 := v0 * v1 - v2", "v0 := ((v0 * v1) - v2)"),
            ("v0 := v0 - v1 * v2", "v0 := (v0 - (v1 * v2))"),
            ("v0 := v0 + v1 / v2", "v0 := (v0 + (v1 / v2))"),
            ("v0 := v0 - v1 mod v2 + v0", "v0 := ((v0 - (v1 mod v2)) + v0)"),
            ("v0 := v0 rem v1 + v2", "v0 := ((v0 rem v1) + v2)"),
            ("v0 := v0 / v1 / v2", "v0 := ((v0 / v1) / v2)"),
            ("v0 := v0 / (v1 / v2)", "v0 := (v0 / (v1 / v2))"),
            ("v0 := v0*1000/v1", "v0 := ((v0 * 1000) / v1)"),
            ("v0 := v0 / v1 * v2", "v0 := ((v0 / v1) * v2)"),
            ("v0 := v0 mod v1 rem v2 mod 7", "v0 := (((v0 mod v1) rem v2) mod 7)"),
            ("v0 := (v0)mod(v1 rem v2)", "v0 := (v0 mod (v1 rem v2))"),
            ("v0 := (v0 - v1) * v2", "v0 := ((v0 - v1) * v2)"),
            ("v0 := - v0 mod v1", "v0 := (- (v0 mod v1))"),
            ("v0 := (- v0) mod v1", "v0 := ((- v0) mod v1)"),
            ("v0 := - v0 + v1", "v0 := ((- v0) + v1)"),
            ("v0 := v0 - - v1 * v2", "v0 := (v0 - (- (v1 * v2)))"),
            ("v0 := - - v0", "v0 := (- (- v0))"),
            ("v0 := 2147483647 * (- 2147483647)", "v0 := (2147483647 * (- 2147483647))"),
            ("v0 := - 2147483647 / 2147483647", "v0 := (- (2147483647 / 2147483647))"),
            ("v0 := s0 delayed 31 rem s0 delayed 0", "v0 := ((s0 delayed 31) rem (s0 delayed 0))"),
            ("v3 := v0 * v1 < v2 + v0 rem v1", "v3 := ((v0 * v1) < (v2 + (v0 rem v1)))"),
            ("v3 := v0 = - v1 / v2", "v3 := (v0 = (- (v1 / v2)))"),
            ("v3 := not v3 and v0 mod v1 = 0", "v3 := ((not v3) and ((v0 mod v1) = 0))"),
            ("s0 <= v0 / v1 after v0 mod 10", "s0 <= (v0 / v1) after (v0 mod 10)"),
            ("s0 <= transport - v0 * v1 after v2 + 1", "s0 <= (- (v0 * v1)) after (v2 + 1)"),
            ("s0 <= inertial - v0 * v1 after v2 + 1", "s0 <= inertial (- (v0 * v1)) after (v2 + 1)"),
            ("s0 <= inertial(v0)after(v1)", "s0 <= inertial v0 after v1"),
            ("wait until v0 rem v1 = 0 for v0 * v1", "wait until ((v0 rem v1) = 0) for (v0 * v1)"),
        ] {
            let blocks = model(&format!("{OPERANDS}{read}")).expect(read);
            let listed = list::model(&load(&blocks).expect(read));
            assert_eq!(listed.lines().last(), Some(format!("  {grouped}").as_str()), "{read}");
            assert_eq!(model(&listed), Ok(blocks), "{read}");
        }
    }

    // Like wrong types, this is the kernel's to refuse.
    #[test]
    fn division_is_for_integers() {
        for operator in ["*", "/", "mod", "rem"] {
            for (operands, number) in [(["v0", "v1"], 0), (["v0", "'1'"], 7), (["'1'", "v1"], 7), (["(v0 = v1)", "v2"], 7)] {
                let text = format!("{OPERANDS}v2 := {} {operator} {}", operands[0], operands[1]);
                assert_eq!(model(&text).map(|blocks| judge(&blocks)), Ok(number), "{text}");
            }
        }
    }

    #[test]
    fn wrong_expressions_are_told() {
        let missing = "something is missing at the end of the line";
        let sign = "a minus sign has parentheses here: `(- ..)`";
        let too_large = "2147483648 is out of range: integers go up to 2147483647";
        for (expression, error) in [
            ("* 3", "an operand cannot begin with `*`"),
            ("/ v1", "an operand cannot begin with `/`"),
            ("mod 3", "an operand cannot begin with `mod`"),
            ("rem", "an operand cannot begin with `rem`"),
            ("v0 *", missing),
            ("v0 /", missing),
            ("v0 mod", missing),
            ("v0 rem", missing),
            ("v0 ** 2", "an operand cannot begin with `*`"),
            ("v0 /= 2", "an operand cannot begin with `=`"),
            ("v0 mod rem 2", "an operand cannot begin with `rem`"),
            ("v0 mod and", "an operand cannot begin with `and`"),
            ("v0 / 'Z' 'L'", "`'L'` is one too many"),
            ("v0 mod3", "`mod3` is one too many"),
            ("v0 MOD 3", "`MOD` is one too many"),
            ("v0 % 3", "`%` means nothing here"),
            ("(v0 * 3", "`)` is missing"),
            ("v0 * 3)", "`)` is one too many"),
            ("v0 * - 3", sign),
            ("v0 mod - v1", sign),
            ("not - v0", sign),
            ("v0 * 2147483648", too_large),
            ("- 2147483648", too_large),
            ("s0 delayed 32", "a delay is a number from 0 to 31, not `32`"),
            ("s0 delayed - 1", "a delay is a number from 0 to 31, not `-`"),
            ("s0 delayed v0", "a delay is a number from 0 to 31, not `v0`"),
            ("s0 delayed", missing),
            ("v0 delayed 0", "`delayed` is one too many"),
            ("(s0) delayed 0", "`delayed` is one too many"),
            ("v0 * null", "`null` is no value: it stands alone between `<=` and `after`"),
        ] {
            assert_eq!(model(&format!("{OPERANDS}v0 := {expression}")), Err(format!("line 7: {error}")), "{expression}");
        }
    }

    #[test]
    fn starting_values_at_the_ends_of_the_range() {
        let started = |value| {
            model(&format!("signal s integer {value}\nprocess p\nwait"))
                .and_then(|blocks| load(&blocks).map(|m| m.signals[0].start).map_err(|number| number.to_string()))
        };
        assert_eq!(started("2147483647"), Ok(2_147_483_647));
        assert_eq!(started("- 2147483647"), Ok(-2_147_483_647));
        let outside = Err("line 1: `2147483648` is no value of this type".to_string());
        assert_eq!(started("2147483648"), outside);
        assert_eq!(started("- 2147483648"), outside);
    }

    #[test]
    fn reserved_words_are_no_names() {
        for word in ["mod", "rem", "and", "or", "xor", "not", "transport", "inertial"] {
            for text in ["signal W integer 0", "process W", "process p\nvariable W integer 0", "process p\nW:", "process p\nW := 3"]
            {
                let line = text.lines().count();
                let error = format!("line {line}: `{word}` is a reserved word, not a name");
                assert_eq!(model(&text.replace('W', word)), Err(error), "{word} in {text}");
            }
        }
        for name in ["modulus", "rem_1", "remainder", "Mod", "transporter", "inertial_1", "Inertial"] {
            let text = format!("signal {name} integer 7\nprocess p\n{name} <= {name} mod 3 after 0");
            assert_eq!(model(&text).map(|blocks| judge(&blocks)), Ok(0), "{name}");
        }
    }

    #[test]
    fn wrong_words_of_delay_are_told() {
        let missing = "something is missing at the end of the line";
        let no_delay = "`after` and a delay are missing";
        let no_value = "`null` is no value: it stands alone between `<=` and `after`";
        let no_inertial_null = "`null` has no inertial form: it is assigned with `transport`, or without a word";
        let transport = "`transport` stands right after `<=`, nowhere else";
        let inertial = "`inertial` stands right after `<=`, nowhere else";
        for (statement, error) in [
            ("s <= inertial null after 0", no_inertial_null),
            ("s <= inertial null", no_inertial_null),
            ("s <= inertial not null after 0", no_value),
            ("s <= transport not null after 0", no_value),
            ("s <= transport null", no_delay),
            ("s <= transport '1'", no_delay),
            ("s <= inertial '1'", no_delay),
            ("s <= '1' inertial after 0", no_delay),
            ("s <= transport", missing),
            ("s <= inertial", missing),
            ("s <= inertial '1' after", missing),
            ("s <= inertial '1' after 0 0", "`0` is one too many"),
            ("s <= inertial transport '1' after 0", transport),
            ("s <= transport inertial '1' after 0", inertial),
            ("s <= inertial inertial '1' after 0", inertial),
            ("s <= not inertial '1' after 0", inertial),
            ("s <= (inertial '1') after 0", inertial),
            ("s <= '1' after transport 2", transport),
            ("v := inertial '1'", inertial),
            ("wait until transport", transport),
            ("wait on inertial", "there is no signal `inertial`"),
            ("s inertial <= '1' after 0", "`s` begins no item"),
            ("s <= Inertial '1' after 0", "there is no signal `Inertial`"),
            ("t <= inertial '1' after 0", "there is no signal `t`"),
            ("v <= inertial '1' after 0", "there is no signal `v`"),
        ] {
            let text = format!("signal s logic bus 'Z'\nprocess p\nvariable v logic '0'\n{statement}");
            assert_eq!(model(&text), Err(format!("line 4: {error}")), "{statement}");
        }
    }

    #[test]
    fn where_the_parts_of_a_text_stand() {
        let text = "\
-- a comment
signal s logic '0'
process one -- the first

\tagain: -- a label
\ts <= not s after 0 -- at once
  goto again
table
-- U
---------
---------
---------
---------
---------
---------
---------
---------
---------
process one
  variable v integer 0
null
  wait   on s";
        let source = source(text).expect("a model text");
        assert_eq!(Ok(encode(&source.model)), model(text));
        assert_eq!(source.processes, ["one", "one"]);
        let expected = [(6, "s <= not s after 0"), (7, "goto again"), (21, "null"), (22, "wait   on s")];
        assert_eq!(source.statements, expected.map(|(line, words)| (line, words.to_string())));
    }

    // The standard's, as document 01 prints it.
    const ROWS: [&str; 9] =
        ["UUUUUUUUU", "UXXXXXXXX", "UX0X0000X", "UXX11111X", "UX01ZWLHX", "UX01WWWWX", "UX01LWLWX", "UX01HWWHX", "UXXXXXXXX"];

    /// A model text with these rows, and behind them the process p, which waits.
    fn with_rows(rows: &[&str]) -> String {
        let rows: String = rows.iter().map(|row| format!("  {row}\n")).collect();
        format!("table\n{rows}process p\nwait\n")
    }

    // The blocks of the table are those without it and one more, of the nine rows.
    #[test]
    fn a_table_of_the_models_own() {
        let rest = model("process p\nwait").expect("a model text");
        let blocks = model(&with_rows(&ROWS)).expect("a model text");
        let (before, last) = blocks.split_at(rest.len());
        assert_eq!(before, rest);
        assert_eq!(last.len(), BLOCK);
        assert_eq!(last[..4], [2, 0, 7, 9]);
        for (n, row) in ROWS.iter().enumerate() {
            let codes: Vec<u8> = row.bytes().map(second_kernel::values::code).collect();
            assert_eq!(last[4 + RECORD * n..][..RECORD], [&codes[..], &[0; 3]].concat(), "{row}");
        }
        assert_eq!(judge(&blocks), 0);
        assert_eq!(list::model(&load(&blocks).expect("an accepted model")), with_rows(&ROWS).replace("p\nwait", "p0\n  wait"));
    }

    // Anywhere a signal can, and also where its rows have blanks, empty lines and comments between.
    #[test]
    fn where_a_table_stands() {
        let table = format!("table\n{}\n", ROWS.join("\n"));
        let blanks = ROWS.map(|row| row.chars().map(|c| format!(" {c}")).collect::<String>()).join(" -- a row\n\n");
        let commented = format!("\ttable -- rows and columns\n-- U X 0 1 Z W L H -\n{blanks}-- the last\n--\n");
        let items =
            ["signal s logic 'Z'\n", "process p\n", "variable v logic '0'\n", "l:\n", "v := s\n", "goto l"].map(String::from);
        let expected = model(&[&table, &items.concat()].map(String::as_str).concat()).expect("a model text");
        assert_eq!(load(&expected).map(|m| m.rows.len()), Ok(9));
        for place in 0..=items.len() {
            for table in [&table, &commented] {
                let mut lines = items.to_vec();
                lines.insert(place, format!("\n{table}"));
                assert_eq!(model(&lines.concat()).as_ref(), Ok(&expected), "{place}");
            }
        }
    }

    // Among a row's nine characters `--` starts no comment.
    #[test]
    fn rows_of_dashes() {
        let blocks = model(&with_rows(&["---------"; 9])).expect("a model text");
        let m = load(&blocks).expect("an accepted model");
        assert_eq!(m.rows, [[8; 9]; 9]);
        assert_eq!(model(&list::model(&m)), Ok(blocks));
        // A tenth line of them is a comment, as elsewhere.
        assert_eq!(model(&with_rows(&["---------"; 10])), model(&with_rows(&["---------"; 9])));
    }

    #[test]
    fn table_may_be_a_name() {
        for text in [
            "signal table logic '0'\nprocess p\ntable <= not table after 0\nwait on table",
            "process table\nvariable table integer 0\ntable := table + 1\nwait",
            "process p\ntable:\nwait\ngoto table",
        ] {
            let blocks = model(text).expect(text);
            assert_eq!(judge(&blocks), 0, "{text}");
            assert!(load(&blocks).expect(text).rows.is_empty(), "{text}");
        }
    }

    #[test]
    fn wrong_tables_are_told_with_their_line() {
        let outside = "a row outside a table: a table is the word `table` and the nine rows that follow";
        let table = with_rows(&ROWS);
        let changed = |number: usize, row: &'static str| {
            let mut rows = ROWS;
            rows[number] = row;
            with_rows(&rows)
        };
        for (text, line, error) in [
            (with_rows(&ROWS[..8]), 10, "`p` is none of U X 0 1 Z W L H -: the table's row of - is due here"),
            (with_rows(&[]), 2, "`p` is none of U X 0 1 Z W L H -: the table's row of U is due here"),
            ("process p\nwait\ntable\n".to_string(), 3, "the table has 0 rows, not nine"),
            (format!("process p\nwait\n\ntable\n{}", ROWS[..8].join("\n-- \n")), 4, "the table has 8 rows, not nine"),
            (with_rows(&[&ROWS[..], &ROWS[8..]].concat()), 11, outside),
            (with_rows(&[&ROWS[..], &["", "-- the tenth", "0 0 0 0 0 0 0 0 0"]].concat()), 13, outside),
            (format!("{table}U X 0 1 Z W L H - -- a header"), 13, outside),
            (ROWS.join("\n"), 1, outside),
            (changed(0, "UUUUUUUU"), 2, "the table's row of U has nine values, not 8"),
            (changed(2, "UX0X0000XX"), 4, "the table's row of 0 has nine values, not 10"),
            (changed(2, "UX0X0000X - -"), 4, "the table's row of 0 has nine values, not 11"),
            (changed(3, "UXX1111 -- seven"), 5, "the table's row of 1 has nine values, not 7"),
            (changed(8, "U"), 10, "the table's row of - has nine values, not 1"),
            (changed(4, "UX01zWLHX"), 6, "`z` is none of U X 0 1 Z W L H -: the table's row of Z is due here"),
            (changed(5, "UX01W?WWX"), 7, "`?` is none of U X 0 1 Z W L H -: the table's row of W is due here"),
            (changed(6, "UX01LWLWX, W"), 8, "`,` is none of U X 0 1 Z W L H -: the table's row of L is due here"),
            (changed(7, "'UX01HWWHX'"), 9, "`'` is none of U X 0 1 Z W L H -: the table's row of H is due here"),
            (format!("{table}{table}"), 13, "a second table: line 1 has the model's table"),
            (format!("-- one\n{table}\ntable"), 15, "a second table: line 2 has the model's table"),
            (changed(8, "table"), 10, "`t` is none of U X 0 1 Z W L H -: the table's row of - is due here"),
            (table.replace("table", "table UUUUUUUUU"), 1, "`table` begins no item"),
            (table.replace("table", "Table"), 1, "`Table` begins no item"),
        ] {
            assert_eq!(model(&text), Err(format!("line {line}: {error}")), "{text}");
        }
    }

    // Like wrong types, this is the kernel's to refuse; the entries are told where the table is what it refuses.
    #[test]
    fn refused_tables_are_told_with_their_line() {
        let zero_z = "the table is not symmetric: row 0, column Z has Z, and row Z, column 0 has 0; ";
        let zero_dash_dash =
            "the table is not associative: 0 with - is X, and that with - is X; but - with - is 0, and 0 with that is 0; ";
        let l_l_h = "the table is not associative: L with L is H, and that with H is H; but L with H is W, and L with that is W; ";
        let changed = |changes: &[(usize, &'static str)]| {
            let mut rows = ROWS;
            changes.iter().for_each(|&(n, row)| rows[n] = row);
            with_rows(&rows)
        };
        let asymmetric = changed(&[(2, "UX0XZ000X")]);
        for (text, number, told) in [
            (with_rows(&ROWS), 0, String::new()),
            (asymmetric.clone(), 24, format!("line 4: {zero_z}")),
            (changed(&[(2, "UX0XZ000X -- 0"), (8, "UXXXXXXX0")]), 24, format!("line 4: {zero_z}")),
            (format!("-- one\n{asymmetric}").replace("  UX0XZ", "\n-- 0\n  UX0XZ"), 24, format!("line 7: {zero_z}")),
            (changed(&[(8, "UXXXXXXX0")]), 25, format!("line 4: {zero_dash_dash}")),
            (changed(&[(6, "UX01LWHWX")]), 25, format!("line 8: {l_l_h}")),
            (format!("{asymmetric}wait until 1"), 7, String::new()),
            (format!("signal s logic '0'\n{asymmetric}s <= null after 0"), 20, String::new()),
        ] {
            assert_eq!(model(&text).map(|blocks| judge(&blocks)), Ok(number), "{text}");
            assert_eq!(refusal(&text, number), format!("{told}the kernel would refuse this model with {number}"), "{text}");
        }
    }

    #[test]
    fn wrong_texts_are_told_with_their_line() {
        let for_logic = "`bus` and `register` are for logic signals";
        let no_value = "`null` is no value: it stands alone between `<=` and `after`";
        for (text, line, error) in [
            ("signal s integer bus 0", 1, for_logic),
            ("signal s integer register 0", 1, for_logic),
            ("signal s boolean bus true", 1, for_logic),
            ("process p\nvariable v logic register '0'", 2, for_logic),
            ("process p\nvariable v integer bus 0", 2, for_logic),
            ("signal s logic bus register 'Z'", 1, "`register` is no value of this type"),
            ("signal s logic 'Z' bus", 1, "`bus` is one too many"),
            ("signal s logic bus", 1, "something is missing at the end of the line"),
            ("signal s logic bus 'Z'\nprocess p\ns <= null", 3, "`after` and a delay are missing"),
            ("signal s logic bus 'Z'\nprocess p\ns <= null after", 3, "something is missing at the end of the line"),
            ("signal s logic bus 'Z'\nprocess p\ns <= null and '1' after 0", 3, "`after` and a delay are missing"),
            ("signal s logic bus 'Z'\nprocess p\ns <= not null after 0", 3, no_value),
            ("signal s logic bus 'Z'\nprocess p\ns <= '1' after null", 3, no_value),
            ("process p\nvariable v logic '0'\nv := null", 3, no_value),
            ("process p\nt <= null after 0", 2, "there is no signal `t`"),
            ("signal s logic bus 'Z'\ns <= null after 0", 2, "a statement stands before the first process"),
            ("signal null logic bus 'Z'", 1, "`null` is a reserved word, not a name"),
            ("process p\nvariable null logic 'Z'", 2, "`null` is a reserved word, not a name"),
            ("process null", 1, "`null` is a reserved word, not a name"),
            ("process p\nnull:", 2, "`:` is one too many"),
        ] {
            assert_eq!(model(text), Err(format!("line {line}: {error}")), "{text}");
        }
    }

    #[test]
    fn texts_of_declarations() {
        let text = "\
-- a pulse counter
signal pulse logic '0' -- s0
drives pulse
variable count integer - 3
signal line logic bus 'Z'

signal s2 integer 2147483647
\tvariable v1 boolean true
variable mod_3 logic 'H'
drives s2, line";
        let m = declarations(text).expect("declarations");
        let signal = |ty, kind, start| SignalRecord { ty, kind, start };
        assert_eq!(m.signals, [signal(LOGIC, PLAIN, 2), signal(LOGIC, BUS, 4), signal(INTEGER, PLAIN, 2_147_483_647)]);
        let variable = |ty, start| VariableRecord { ty, process: 0, start };
        assert_eq!(m.variables, [variable(INTEGER, -3), variable(BOOLEAN, 1), variable(LOGIC, 7)]);
        assert_eq!(m.drivers, [driver(0, 0), driver(0, 1), driver(0, 2)]);
        assert!(m.nodes.is_empty() && m.statements.is_empty() && m.rows.is_empty());
        for empty in ["", "\n\n", "-- nothing is declared"] {
            let m = declarations(empty).expect(empty);
            assert_eq!((m.signals.len(), m.variables.len(), m.drivers.len()), (0, 0, 0), "{empty}");
        }
        let names = |from: usize, to: usize| (from..to).map(|n| format!("variable x{n} integer 0\n")).collect::<String>();
        assert_eq!(declarations(&names(0, 64)).map(|m| m.variables.len()), Ok(64));
        let signals = |many| names(0, many).replace("variable", "signal");
        assert_eq!(declarations(&signals(32)).map(|m| m.signals.len()), Ok(32));
        let too_many =
            |most, what| format!("line {}: a model has at most {most} {what}: the kernel would refuse more with 4", most + 1);
        assert_eq!(declarations(&names(0, 65)), Err(too_many(64, "variables")));
        assert_eq!(declarations(&signals(33)), Err(too_many(32, "signals")));
    }

    #[test]
    fn wrong_declarations_are_told_with_their_line() {
        let missing = "something is missing at the end of the line";
        for (line, error) in [
            ("process p", "`process` begins no declaration: these are `signal ..`, `variable ..` and `drives SIGNAL, ..`"),
            ("wait", "`wait` begins no declaration: these are `signal ..`, `variable ..` and `drives SIGNAL, ..`"),
            ("table", "`table` begins no declaration: these are `signal ..`, `variable ..` and `drives SIGNAL, ..`"),
            ("a <= '1' after 0", "`a` begins no declaration: these are `signal ..`, `variable ..` and `drives SIGNAL, ..`"),
            ("3", "a name is expected, not `3`"),
            ("signal", missing),
            ("signal b", missing),
            ("signal b logic", missing),
            ("signal b bit '0'", "`bit` is no type: integer, logic or boolean"),
            ("signal b logic 0", "`0` is no value of this type"),
            ("signal b integer 2147483648", "`2147483648` is no value of this type"),
            ("signal b logic '0' 1", "`1` is one too many"),
            ("signal b integer bus 0", "`bus` and `register` are for logic signals"),
            ("signal b boolean true", "a signal is integer or logic, not boolean"),
            ("variable b logic bus 'Z'", "`bus` and `register` are for logic signals"),
            ("signal mod integer 0", "`mod` is a reserved word, not a name"),
            ("signal a integer 0", "`a` is declared already"),
            ("variable v integer 0", "`v` is declared already"),
            ("signal s0 logic '0'", "`s0` is s1 in the body: a name of this form must be the body's own"),
            ("signal v0 logic '0'", "`v0` is s1 in the body: a name of this form must be the body's own"),
            ("variable v7 logic '0'", "`v7` is v1 in the body: a name of this form must be the body's own"),
            ("variable s1 logic '0'", "`s1` is v1 in the body: a name of this form must be the body's own"),
            ("drives", missing),
            ("drives b", "there is no signal `b`"),
            ("drives v", "there is no signal `v`"),
            ("drives a,", missing),
            ("drives a, a", "`a` is driven already"),
            ("drives a a", "`a` is one too many"),
            ("drives 0", "a name is expected, not `0`"),
            ("signal b logic '0';", "`;` is one too many"),
        ] {
            let text = format!("signal a logic '0'\nvariable v integer 0\n{line}\nnothing");
            assert_eq!(declarations(&text), Err(format!("line 3: {error}")), "{line}");
        }
        for line in ["signal s1 logic '0'", "variable v1 logic '0'", "signal s logic '0'", "signal v_0 logic '0'", "drives a"] {
            let text = format!("signal a logic '0'\nvariable v integer 0\n{line}\n");
            assert!(declarations(&text).is_ok(), "{line}");
        }
    }

    #[test]
    fn order_texts() {
        for (text, order) in [
            ("pick 3", [1, 3, 0, 0]),
            ("pick 255", [1, 255, 0, 0]),
            ("delta", [6, 0, 0, 0]),
            ("\ttime -- to 5", [7, 0, 0, 0]),
            ("advance", [2, 0, 0, 0]),
            ("settle 0", [3, 0, 0, 0]),
            ("settle 65535", [3, 0, 255, 255]),
            ("read 31", [4, 31, 0, 0]),
            ("pick 0 2 5", [5, 0, 37, 0]),
            ("pick 5 0 2", [5, 0, 37, 0]),
            ("  pick 14\t15 -- the last two", [5, 0, 0, 192]),
            ("pick 0 1 2 3 4 5 6 7 8 9 10 11 12 13 14 15", [5, 0, 255, 255]),
            ("pick set", [5, 0, 0, 0]),
            ("pick set -- none", [5, 0, 0, 0]),
            ("pick set 3", [5, 0, 8, 0]),
            ("pick set 15", [5, 0, 0, 128]),
            ("pick set 0 2 5", [5, 0, 37, 0]),
            ("bytes 5 1 0 0", [5, 1, 0, 0]),
            ("bytes 255 0 255 7", [255, 0, 255, 7]),
        ] {
            assert_eq!(orders(text), Ok(order.to_vec()), "{text}");
        }
        let text = "-- the counters in step\npick 1 2\n\ndelta\npick 1";
        assert_eq!(orders(text), Ok(vec![5, 0, 6, 0, 6, 0, 0, 0, 1, 1, 0, 0]));
        assert_eq!(orders(""), Ok(vec![]));
    }

    #[test]
    fn wrong_orders_are_told_with_their_line() {
        for (order, error) in [
            ("pick 0 16", "a process of a set is a number from 0 to 15, not `16`"),
            ("pick 16 0", "a process of a set is a number from 0 to 15, not `16`"),
            ("pick set 16", "a process of a set is a number from 0 to 15, not `16`"),
            ("pick 0 65536", "a process of a set is a number from 0 to 15, not `65536`"),
            ("pick 0 sensor", "a process of a set is a number from 0 to 15, not `sensor`"),
            ("pick sensor 0", "a process of a set is a number from 0 to 15, not `sensor`"),
            ("pick 0 set 2", "a process of a set is a number from 0 to 15, not `set`"),
            ("pick set set", "a process of a set is a number from 0 to 15, not `set`"),
            ("pick 0, 2", "a process of a set is a number from 0 to 15, not `,`"),
            ("pick 0 -2", "a process of a set is a number from 0 to 15, not `-`"),
            ("pick 0 '1'", "a process of a set is a number from 0 to 15, not `'1'`"),
            ("pick {0 2}", "`{` means nothing here"),
            ("pick 0 99999999999999999999", "99999999999999999999: too large"),
            ("pick 0 2 5 2", "process 2 stands in the set twice"),
            ("pick 3 3", "process 3 stands in the set twice"),
            ("pick set 0 0", "process 0 stands in the set twice"),
            ("pick 256", "a process is a number from 0 to 255, not `256`"),
            ("pick sensor", "a process is a number from 0 to 255, not `sensor`"),
            ("settle 65536", "a count is a number from 0 to 65535, not `65536`"),
            ("settle all", "a count is a number from 0 to 65535, not `all`"),
            ("read 256", "a signal is a number from 0 to 255, not `256`"),
            ("read pulse", "a signal is a number from 0 to 255, not `pulse`"),
            ("bytes 1 2 3 256", "a byte is a number from 0 to 255, not `256`"),
            ("bytes 1 x 3 4", "a byte is a number from 0 to 255, not `x`"),
            ("bytes 5 0 0", ORDERS),
            ("bytes 5 0 0 0 0", ORDERS),
            ("pick", ORDERS),
            ("set 0 2", ORDERS),
            ("Pick 0 2", ORDERS),
            ("delta 1", ORDERS),
            ("time 5", ORDERS),
            ("delta time", ORDERS),
            ("Delta", ORDERS),
            ("step", ORDERS),
            ("advance 1", ORDERS),
            ("settle", ORDERS),
            ("settle 1 2", ORDERS),
            ("read", ORDERS),
            ("read 0 1", ORDERS),
            ("0 2 5", ORDERS),
        ] {
            let text = format!("-- a comment\npick 0 1\n{order}\ndelta");
            assert_eq!(orders(&text), Err(format!("line 3: {error}")), "{order}");
        }
    }

    #[test]
    fn a_withdrawn_order_is_told_with_its_line() {
        let told = "`advance` is order 2, which is withdrawn and gives 11; `blocks move` moves the orders over";
        for (text, place) in [
            ("advance", "line 1"),
            ("settle 10\n\n  advance -- to time 1\ntime", "line 3"),
            ("settle 10\nadvance\nadvance", "line 2 (and 1 more)"),
            ("-- advance\nadvance\ndelta\nadvance\nsettle 10\nadvance\nread 1", "line 2 (and 2 more)"),
        ] {
            assert_eq!(warning(text), Some(format!("{place}: {told}")), "{text}");
        }
        for text in ["", "settle 10\ndelta\ntime\nread 1", "delta -- advance", "-- advance", "bytes 2 0 0 0"] {
            assert_eq!(warning(text), None, "{text}");
        }
    }
}
