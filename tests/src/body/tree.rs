//! A sentence as a tree.

/// Most levels of `if` and `while`.
pub const LEVELS: usize = 16;

/// Node kinds of operators with one operand.
pub const NOT: u8 = 6;
pub const NEGATE: u8 = 10;

/// The operators with two operands: how they are written, and the node kinds.
pub const OPERATORS: [(&str, u8); 11] = [
    ("and", 7),
    ("or", 8),
    ("xor", 9),
    ("=", 13),
    ("<", 14),
    ("+", 11),
    ("-", 12),
    ("*", 15),
    ("/", 16),
    ("mod", 17),
    ("rem", 18),
];

/// An expression; its operands are numbers in the list of the body's expressions, which are
/// there in any order, none of them the operand of two.
#[derive(Clone, Copy, Debug, PartialEq, Eq)]
pub enum Expression {
    Integer(i32),
    Logic(u8),
    Variable(u8),
    Signal(u8),
    /// A signal, and by how much.
    Delayed(u8, u8),
    /// A node kind and the operand.
    One(u8, usize),
    /// A node kind and the operands.
    Two(u8, usize, usize),
}

pub type List = Vec<Statement>;

/// A wait's optional parts.
#[derive(Clone, Debug, Default, PartialEq, Eq)]
pub struct Wait {
    pub on: Option<Vec<u8>>,
    pub until: Option<usize>,
    pub span: Option<usize>,
}

#[derive(Clone, Debug, PartialEq, Eq)]
pub enum Statement {
    Null,
    Assign(u8, usize),
    Schedule(u8, usize, usize),
    Wait(Wait),
    If(usize, List, List),
    While(usize, List),
}

impl Statement {
    /// The lists in its branches.
    pub fn branches(&self) -> Vec<&List> {
        match self {
            Statement::If(_, then, other) => vec![then, other],
            Statement::While(_, list) => vec![list],
            _ => vec![],
        }
    }

    /// Its own expressions, as the text goes.
    pub fn expressions(&self) -> Vec<usize> {
        match self {
            Statement::Null => vec![],
            Statement::Assign(_, e) | Statement::If(e, ..) | Statement::While(e, _) => vec![*e],
            Statement::Schedule(_, e, delay) => vec![*e, *delay],
            Statement::Wait(w) => w.until.into_iter().chain(w.span).collect(),
        }
    }

    /// How many statements it makes.
    pub fn makes(&self) -> usize {
        let lists = self.branches();
        let within: usize = lists.iter().copied().map(makes).sum();
        match self {
            Statement::If(..) | Statement::While(..) => 3 + within,
            _ => 1,
        }
    }
}

/// How many statements a list makes.
pub fn makes(list: &List) -> usize {
    list.iter().map(Statement::makes).sum()
}

/// One process body.
#[derive(Clone, Debug, Default, PartialEq, Eq)]
pub struct Body {
    pub expressions: Vec<Expression>,
    pub list: List,
}

impl Body {
    pub fn add(&mut self, e: Expression) -> usize {
        self.expressions.push(e);
        self.expressions.len() - 1
    }

    /// Every statement as the text goes, with the levels that it stands in.
    pub fn statements(&self) -> Vec<(usize, &Statement)> {
        fn walk<'b>(list: &'b List, level: usize, all: &mut Vec<(usize, &'b Statement)>) {
            for s in list {
                all.push((level, s));
                for branch in s.branches() {
                    walk(branch, level + 1, all);
                }
            }
        }
        let mut all = vec![];
        walk(&self.list, 0, &mut all);
        all
    }

    /// The numbers of an expression and all in it, operands before their operator, a before
    /// b.
    pub fn within(&self, root: usize) -> Vec<usize> {
        // Operators are met before their operands, b before a; so the other way round.
        let (mut open, mut met) = (vec![root], vec![]);
        while let Some(e) = open.pop() {
            met.push(e);
            match self.expressions[e] {
                Expression::One(_, a) => open.push(a),
                Expression::Two(_, a, b) => open.extend([a, b]),
                _ => {}
            }
        }
        met.reverse();
        met
    }
}
