//! Reads a text's tree, or tells where no sentence goes on.

use super::lexer::{tokens, Token, BYTES};
use super::tree::*;

/// Where a token begins, or the text ends: bytes before it, line and column from 1.
#[derive(Clone, Copy, Debug, PartialEq, Eq)]
pub struct Place {
    pub offset: usize,
    pub line: usize,
    pub column: usize,
}

impl Place {
    pub fn of(text: &[u8], offset: usize) -> Place {
        let before = &text[..offset];
        let lines = before.iter().filter(|&&byte| byte == b'\n').count();
        let start = before.iter().rposition(|&byte| byte == b'\n');
        Place {
            offset,
            line: lines + 1,
            column: offset - start.map_or(0, |at| at + 1) + 1,
        }
    }
}

/// Why a text is 26.
#[derive(Clone, Copy, Debug, PartialEq, Eq)]
pub enum Refused {
    TooLong,
    /// The first token with which no sentence goes on: no token, none that can stand here,
    /// or the end.
    At(Place),
}

/// The text's tree.
pub fn parse(text: &[u8]) -> Result<Body, Refused> {
    if text.len() > BYTES {
        return Err(Refused::TooLong);
    }
    let mut parser = Parser {
        tokens: tokens(text),
        next: 0,
        body: Body::default(),
    };
    let list = parser.list(0, Token::End);
    match list {
        Ok(list) => Ok(Body {
            list,
            ..parser.body
        }),
        Err(Unexpected) => {
            let offset = parser.tokens[parser.next].0;
            Err(Refused::At(Place::of(text, offset)))
        }
    }
}

/// The next token is the one.
struct Unexpected;

/// A bracket that is open.
enum Open {
    One(u8),
    First,
    Second(u8, usize),
}

struct Parser {
    tokens: Vec<(usize, Token)>,
    next: usize,
    body: Body,
}

impl Parser {
    fn token(&self) -> Token {
        self.tokens[self.next].1
    }

    fn is(&self, word: &str) -> bool {
        matches!(self.token(), Token::Word(w) if w == word)
    }

    fn expect(&mut self, word: &str) -> Result<(), Unexpected> {
        match self.taken(word) {
            true => Ok(()),
            false => Err(Unexpected),
        }
    }

    /// Goes past the word, if it is next.
    fn taken(&mut self, word: &str) -> bool {
        let is = self.is(word);
        self.next += is as usize;
        is
    }

    fn signal(&mut self) -> Result<u8, Unexpected> {
        match self.token() {
            Token::Signal(s) => {
                self.next += 1;
                Ok(s)
            }
            _ => Err(Unexpected),
        }
    }

    /// A list, at least one statement, and what ends it.
    fn list(&mut self, level: usize, end: Token) -> Result<List, Unexpected> {
        let mut list = vec![self.statement(level)?];
        while self.token() != end {
            list.push(self.statement(level)?);
        }
        // The end of the text stays.
        self.next += (end != Token::End) as usize;
        Ok(list)
    }

    fn statement(&mut self, level: usize) -> Result<Statement, Unexpected> {
        let (first, deeper) = (self.token(), level < LEVELS);
        let statement = match first {
            Token::Word("if") | Token::Word("while") if !deeper => return Err(Unexpected),
            Token::Wrong | Token::End | Token::Number(_) | Token::Logic(_) => {
                return Err(Unexpected)
            }
            Token::Variable(v) => {
                self.next += 1;
                self.expect(":=")?;
                Statement::Assign(v, self.expression()?)
            }
            Token::Signal(s) => {
                self.next += 1;
                self.expect("<=")?;
                let value = self.expression()?;
                self.expect("after")?;
                Statement::Schedule(s, value, self.expression()?)
            }
            Token::Word(_) if self.taken("null") => Statement::Null,
            Token::Word(_) if self.taken("wait") => Statement::Wait(self.wait()?),
            Token::Word(_) if self.taken("if") => {
                let condition = self.expression()?;
                self.expect("then")?;
                let then = self.list(level + 1, Token::Word("else"))?;
                let other = self.list(level + 1, Token::Word("end"))?;
                self.expect("if")?;
                Statement::If(condition, then, other)
            }
            Token::Word(_) if self.taken("while") => {
                let condition = self.expression()?;
                self.expect("loop")?;
                let list = self.list(level + 1, Token::Word("end"))?;
                self.expect("loop")?;
                Statement::While(condition, list)
            }
            Token::Word(_) => return Err(Unexpected),
        };
        self.expect(";")?;
        Ok(statement)
    }

    fn wait(&mut self) -> Result<Wait, Unexpected> {
        let mut wait = Wait::default();
        if self.taken("on") {
            let mut on = vec![self.signal()?];
            while self.taken(",") {
                on.push(self.signal()?);
            }
            wait.on = Some(on);
        }
        if self.taken("until") {
            wait.until = Some(self.expression()?);
        }
        if self.taken("for") {
            wait.span = Some(self.expression()?);
        }
        Ok(wait)
    }

    fn operator(&mut self) -> Result<u8, Unexpected> {
        let found = OPERATORS.iter().find(|row| self.is(row.0));
        let row = found.ok_or(Unexpected)?;
        self.next += 1;
        Ok(row.1)
    }

    /// An expression, with its open brackets in a list, since there can be 21,000.
    fn expression(&mut self) -> Result<usize, Unexpected> {
        let mut open = vec![];
        loop {
            let Some(mut read) = self.begin(&mut open)? else {
                continue;
            };
            // An expression has been read: what it goes on with, or closes.
            loop {
                read = match open.pop() {
                    None => return Ok(read),
                    Some(Open::First) => {
                        open.push(Open::Second(self.operator()?, read));
                        break;
                    }
                    Some(Open::One(kind)) => {
                        self.expect(")")?;
                        self.body.add(Expression::One(kind, read))
                    }
                    Some(Open::Second(kind, a)) => {
                        self.expect(")")?;
                        self.body.add(Expression::Two(kind, a, read))
                    }
                };
            }
        }
    }

    /// A literal, a name or a delayed group; none where a bracket was opened.
    fn begin(&mut self, open: &mut Vec<Open>) -> Result<Option<usize>, Unexpected> {
        let e = match self.token() {
            Token::Number(n) => Expression::Integer(n as i32),
            Token::Logic(code) => Expression::Logic(code),
            Token::Variable(v) => Expression::Variable(v),
            Token::Signal(s) => Expression::Signal(s),
            _ => {
                self.expect("(")?;
                return self.opened(open);
            }
        };
        self.next += 1;
        Ok(Some(self.body.add(e)))
    }

    /// The same behind an opening bracket.
    fn opened(&mut self, open: &mut Vec<Open>) -> Result<Option<usize>, Unexpected> {
        if self.taken("not") {
            open.push(Open::One(NOT));
            return Ok(None);
        }
        if self.taken("-") {
            open.push(Open::One(NEGATE));
            return Ok(None);
        }
        let Token::Signal(s) = self.token() else {
            open.push(Open::First);
            return Ok(None);
        };
        self.next += 1;
        if !self.taken("delayed") {
            open.push(Open::First);
            return Ok(Some(self.body.add(Expression::Signal(s))));
        }
        match self.token() {
            Token::Number(k @ 0..=31) => {
                self.next += 1;
                self.expect(")")?;
                Ok(Some(self.body.add(Expression::Delayed(s, k as u8))))
            }
            _ => Err(Unexpected),
        }
    }
}
