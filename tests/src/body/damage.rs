//! Texts and given records damaged in one way, or in two: each way by its name, with the
//! number that it comes to where that is sure.

use super::gen::{accepted, draft, setting, Draft, Style};
use super::limits::BYTES;
use super::records::given;
use super::spell::{pieces, set, Setting};
use super::tree::*;
use crate::integers::{DIFFERENCE, PRODUCT, REM, SUM};
use crate::model::*;
use crate::rng::Rng;

/// A text with given records.
pub struct Case {
    pub what: &'static str,
    pub text: Vec<u8>,
    pub given: Vec<u8>,
    /// The number that it was made for, where one was.
    pub expected: Option<u32>,
    /// The body that was spelled, where the text is its own.
    pub body: Option<Body>,
    pub setting: Setting,
}

/// What is damaged: the tree, its tokens, the text's bytes, the given records' bytes. None
/// where it can not be.
pub(super) type TreeOp = fn(&mut Rng, &mut Draft) -> Option<()>;
pub(super) type TokenOp = fn(&mut Rng, &mut Vec<String>) -> Option<()>;
pub(super) type ByteOp = fn(&mut Rng, &mut Vec<u8>) -> Option<()>;

pub(super) type Way<Op> = (&'static str, Option<u32>, Op);

/// Calls `f` for every statement, with its level.
fn each(list: &mut List, level: usize, f: &mut dyn FnMut(&mut Statement, usize)) {
    for s in list {
        f(s, level);
        match s {
            Statement::If(_, then, other) => {
                each(then, level + 1, f);
                each(other, level + 1, f);
            }
            Statement::While(_, inner) => each(inner, level + 1, f),
            _ => {}
        }
    }
}

/// Changes one of the statements that `which` takes.
fn change(
    rng: &mut Rng,
    body: &mut Body,
    which: fn(&Statement) -> bool,
    how: &mut dyn FnMut(&mut Statement, usize),
) -> Option<()> {
    let many = body.statements().iter().filter(|s| which(s.1)).count();
    let mut left = rng.below(many.max(1)) as isize;
    let mut found = None;
    each(&mut body.list, 0, &mut |s, level| {
        if which(s) {
            if left == 0 && found.is_none() {
                found = Some(());
                how(s, level);
            }
            left -= 1;
        }
    });
    found
}

/// Changes one of the body's expressions that `how` changes.
fn change_expression(
    rng: &mut Rng,
    body: &mut Body,
    how: impl Fn(Expression) -> Option<Expression>,
) -> Option<()> {
    let all = body.statements().into_iter();
    let used = all.flat_map(|(_, s)| s.expressions());
    let used = used.flat_map(|e| body.within(e));
    let found: Vec<(usize, Expression)> = used
        .filter_map(|n| how(body.expressions[n]).map(|e| (n, e)))
        .collect();
    if found.is_empty() {
        return None;
    }
    let (n, e) = rng.choose(&found);
    body.expressions[n] = e;
    Some(())
}

/// Puts a statement somewhere.
pub(super) fn insert(rng: &mut Rng, body: &mut Body, s: Statement) {
    let mut list = &mut body.list;
    loop {
        let nested = |s: &Statement| !s.branches().is_empty();
        let many = list.iter().filter(|s| nested(s)).count();
        if many == 0 || rng.chance(1, 2) {
            break;
        }
        let n = rng.below(many);
        let at = list.iter().enumerate().filter(|s| nested(s.1)).nth(n);
        let at = at.expect("there are so many").0;
        list = match &mut list[at] {
            Statement::If(_, then, other) => match rng.chance(1, 2) {
                true => then,
                false => other,
            },
            Statement::While(_, inner) => inner,
            _ => unreachable!("it has branches"),
        };
    }
    list.insert(rng.below(list.len() + 1), s);
}

fn is_wait(s: &Statement) -> bool {
    matches!(s, Statement::Wait(_))
}

fn nested(s: &Statement) -> bool {
    !s.branches().is_empty()
}

/// A sum of so many nodes, an odd number: 1 + 1 + .., to the left, the right or both.
pub fn sum_of(rng: &mut Rng, body: &mut Body, nodes: usize) -> usize {
    let mut open: Vec<usize> = (0..nodes / 2 + 1)
        .map(|_| body.add(Expression::Integer(1)))
        .collect();
    let how = rng.below(3);
    while open.len() > 1 {
        let at = match how {
            0 => 0,
            1 => open.len() - 2,
            _ => rng.below(open.len() - 1),
        };
        let (a, b) = (open.remove(at), open[at]);
        open[at] = body.add(Expression::Two(SUM, a, b));
    }
    open[0]
}

/// The nodes that a body makes.
pub fn nodes(body: &Body) -> usize {
    let all = body.statements().into_iter();
    all.flat_map(|(_, s)| s.expressions())
        .map(|e| body.within(e).len())
        .sum()
}

/// A sum in a wait.
pub(super) fn add_tree(rng: &mut Rng, body: &mut Body, size: usize) {
    let mut sum = sum_of(rng, body, size - (size + 1) % 2);
    if size % 2 == 0 {
        sum = body.add(Expression::One(NEGATE, sum));
    }
    let wait = Wait {
        span: Some(sum),
        ..Wait::default()
    };
    insert(rng, body, Statement::Wait(wait));
}

/// Puts a statement into nested ones, so that it stands in `levels`.
fn deepen(rng: &mut Rng, d: &mut Draft, levels: usize) -> Option<()> {
    let zero = [0, 0].map(|k| d.body.add(Expression::Integer(k)));
    // The statements share it; each has it spelled for itself.
    let condition = d.body.add(Expression::Two(13, zero[0], zero[1]));
    let form = rng.below(3);
    let draws: Vec<usize> = (0..levels).map(|_| rng.below(4)).collect();
    change(rng, &mut d.body, |s| !nested(s), &mut |s, level| {
        for draw in draws.iter().take(levels.saturating_sub(level)) {
            let inner = vec![std::mem::replace(s, Statement::Null)];
            let null = vec![Statement::Null];
            *s = match (form, draw) {
                (0, _) | (1, 0) => Statement::While(condition, inner),
                (_, 1) => Statement::If(condition, inner, null),
                _ => Statement::If(condition, null, inner),
            };
        }
    })
}

/// A signal's number that is not among the records.
fn no_signal(rng: &mut Rng, d: &Draft) -> Option<u8> {
    let many = d.m.signals.len();
    (many < 32).then(|| rng.range(many as i64, 31) as u8)
}

fn no_variable(rng: &mut Rng, d: &Draft) -> Option<u8> {
    let many = d.m.variables.len();
    (many < 64).then(|| rng.range(many as i64, 63) as u8)
}

/// Adds an assignment, a condition or a delay of wrong type.
fn wrong_type(
    rng: &mut Rng,
    d: &mut Draft,
    make: impl Fn(&mut Rng, &mut Draft) -> Option<Statement>,
) -> Option<()> {
    let s = make(rng, d)?;
    insert(rng, &mut d.body, s);
    Some(())
}

/// A literal that is no integer, or no logic value.
fn other_literal(body: &mut Body, ty: u8) -> usize {
    body.add(match ty {
        INTEGER => Expression::Logic(2),
        _ => Expression::Integer(0),
    })
}

/// A wait for an operator on two literals, by their types.
fn operation(kind: u8, types: &[u8]) -> impl Fn(&mut Rng, &mut Draft) -> Option<Statement> + '_ {
    move |_, d| {
        let mut literal = |ty: u8| match ty {
            INTEGER => d.body.add(Expression::Integer(1)),
            LOGIC => d.body.add(Expression::Logic(3)),
            _ => {
                let [a, b] = [1, 2].map(|k| d.body.add(Expression::Integer(k)));
                d.body.add(Expression::Two(13, a, b))
            }
        };
        let operands: Vec<usize> = types.iter().map(|&ty| literal(ty)).collect();
        let e = match operands[..] {
            [a] => Expression::One(kind, a),
            _ => Expression::Two(kind, operands[0], operands[1]),
        };
        let until = Some(d.body.add(e));
        Some(Statement::Wait(Wait {
            until,
            ..Wait::default()
        }))
    }
}

pub(super) const TREE: &[Way<TreeOp>] = &[
    ("an empty list", Some(26), |rng, d| {
        let which = rng.below(2);
        change(rng, &mut d.body, nested, &mut |s, _| match s {
            Statement::If(_, then, other) => [then, other][which].clear(),
            Statement::While(_, list) => list.clear(),
            _ => {}
        })
    }),
    ("no statement at all", Some(26), |_, d| {
        d.body.list.clear();
        Some(())
    }),
    ("a 17th level", Some(26), |rng, d| deepen(rng, d, 17)),
    ("levels past the 17th", Some(26), |rng, d| {
        let levels = 18 + rng.below(10);
        deepen(rng, d, levels)
    }),
    ("a signal read that is not given", Some(27), |rng, d| {
        let s = no_signal(rng, d)?;
        change_expression(rng, &mut d.body, |e| match e {
            Expression::Signal(_) => Some(Expression::Signal(s)),
            _ => None,
        })
    }),
    ("a signal delayed that is not given", Some(27), |rng, d| {
        let s = no_signal(rng, d)?;
        change_expression(rng, &mut d.body, |e| match e {
            Expression::Delayed(_, k) => Some(Expression::Delayed(s, k)),
            _ => None,
        })
    }),
    ("a signal assigned that is not given", Some(27), |rng, d| {
        let s = no_signal(rng, d)?;
        let which = |s: &Statement| matches!(s, Statement::Schedule(..));
        change(rng, &mut d.body, which, &mut |found, _| {
            if let Statement::Schedule(target, ..) = found {
                *target = s;
            }
        })
    }),
    ("a signal in `on` that is not given", Some(27), |rng, d| {
        let s = no_signal(rng, d)?;
        let at = rng.below(64);
        change(rng, &mut d.body, is_wait, &mut |found, _| {
            if let Statement::Wait(w) = found {
                let on = w.on.get_or_insert_with(Vec::new);
                on.insert(at % (on.len() + 1), s);
            }
        })
    }),
    ("a variable read that is not given", Some(27), |rng, d| {
        let v = no_variable(rng, d)?;
        change_expression(rng, &mut d.body, |e| match e {
            Expression::Variable(_) => Some(Expression::Variable(v)),
            _ => None,
        })
    }),
    (
        "a variable assigned that is not given",
        Some(27),
        |rng, d| {
            let v = no_variable(rng, d)?;
            let which = |s: &Statement| matches!(s, Statement::Assign(..));
            change(rng, &mut d.body, which, &mut |found, _| {
                if let Statement::Assign(target, _) = found {
                    *target = v;
                }
            })
        },
    ),
    ("fewer signals and no drivers given", None, |rng, d| {
        let many = d.m.signals.len();
        d.m.signals.truncate(rng.below(many.max(1)));
        d.m.drivers.clear();
        Some(())
    }),
    ("401 nodes or more", Some(4), |rng, d| {
        while nodes(&d.body) <= 400 {
            let left = 401 - nodes(&d.body);
            add_tree(rng, &mut d.body, left.min(64));
        }
        Some(())
    }),
    ("201 statements or more", Some(4), |rng, d| {
        let more = rng.below(3);
        while makes(&d.body.list) < 201 + more {
            insert(rng, &mut d.body, Statement::Null);
        }
        Some(())
    }),
    ("33 signals or more", Some(4), |rng, d| {
        let many = 33 + rng.below(3);
        d.m.signals.resize(many, SignalRecord::default());
        Some(())
    }),
    ("65 variables or more", Some(4), |rng, d| {
        let many = 65 + rng.below(3);
        d.m.variables.resize(many, VariableRecord::default());
        Some(())
    }),
    ("65 drivers or more", Some(4), |rng, d| {
        let many = 65 + rng.below(3);
        d.m.drivers.resize(many, DriverRecord::default());
        Some(())
    }),
    ("a signal record's field", Some(5), |rng, d| {
        let how = rng.below(5);
        let s = pick(rng, &mut d.m.signals)?;
        match how {
            0 => (s.ty, s.kind) = (2, 0),
            1 => (s.ty, s.kind) = (1, 3),
            2 => (s.ty, s.kind) = (0, 1),
            3 => s.start = if s.ty == INTEGER { i32::MIN } else { 9 },
            _ => s.ty = 3,
        }
        Some(())
    }),
    ("a variable record's field", Some(5), |rng, d| {
        let how = rng.below(3);
        let v = pick(rng, &mut d.m.variables)?;
        match how {
            0 => v.ty = 3,
            1 => v.process = 1,
            _ => {
                v.start = match v.ty {
                    INTEGER => i32::MIN,
                    LOGIC => -1,
                    _ => 2,
                }
            }
        }
        Some(())
    }),
    ("a driver record's field", Some(5), |rng, d| {
        let (how, many) = (rng.below(2), d.m.signals.len() as u8);
        let driver = pick(rng, &mut d.m.drivers)?;
        match how {
            0 => driver.process = 1,
            _ => driver.signal = many,
        }
        Some(())
    }),
    ("a tree of 65 nodes", Some(6), |rng, d| {
        let size = 65 + rng.choose(&[0, 0, 0, 1, 2, 20]);
        let room = nodes(&d.body) + size <= 400 && makes(&d.body.list) < 200;
        room.then(|| add_tree(rng, &mut d.body, size))
    }),
    ("a variable's value of another type", Some(7), |rng, d| {
        wrong_type(rng, d, |rng, d| {
            let many = d.m.variables.len();
            let v = rng.below(many.max(1));
            let ty = d.m.variables.get(v)?.ty;
            Some(Statement::Assign(v as u8, other_literal(&mut d.body, ty)))
        })
    }),
    ("a signal's value of another type", Some(7), |rng, d| {
        wrong_type(rng, d, |rng, d| {
            let s = pick(rng, &mut d.m.drivers)?.signal;
            let ty = d.m.signals.get(s as usize)?.ty;
            let value = other_literal(&mut d.body, ty);
            let delay = d.body.add(Expression::Integer(0));
            Some(Statement::Schedule(s, value, delay))
        })
    }),
    ("a delay that is no integer", Some(7), |rng, d| {
        wrong_type(rng, d, |rng, d| {
            let s = pick(rng, &mut d.m.drivers)?.signal;
            d.m.signals.get(s as usize)?;
            let value = d.body.add(Expression::Signal(s));
            let delay = d.body.add(Expression::Logic(3));
            Some(Statement::Schedule(s, value, delay))
        })
    }),
    ("a `for` that is no integer", Some(7), |rng, d| {
        wrong_type(rng, d, |_, d| {
            let span = Some(d.body.add(Expression::Logic(3)));
            Some(Statement::Wait(Wait {
                span,
                ..Wait::default()
            }))
        })
    }),
    ("an `until` that is no boolean", Some(7), |rng, d| {
        wrong_type(rng, d, |rng, d| {
            let literals = [Expression::Logic(3), Expression::Integer(1)];
            let until = Some(d.body.add(rng.choose(&literals)));
            Some(Statement::Wait(Wait {
                until,
                ..Wait::default()
            }))
        })
    }),
    ("an `if` or `while` on no boolean", Some(7), |rng, d| {
        let literals = [Expression::Logic(3), Expression::Integer(1)];
        let e = d.body.add(rng.choose(&literals));
        change(rng, &mut d.body, nested, &mut |s, _| match s {
            Statement::If(c, ..) | Statement::While(c, _) => *c = e,
            _ => {}
        })
    }),
    (
        "`not` or a logic operator on integers",
        Some(7),
        |rng, d| {
            let kind = rng.choose(&[NOT, 7, 8, 9]);
            let many = if kind == NOT { 1 } else { 2 };
            wrong_type(rng, d, operation(kind, &[INTEGER; 2][..many]))
        },
    ),
    (
        "a logic operator on logic and boolean",
        Some(7),
        |rng, d| {
            let kind = rng.choose(&[7, 8, 9]);
            let types = rng.choose(&[[LOGIC, BOOLEAN], [BOOLEAN, LOGIC]]);
            wrong_type(rng, d, operation(kind, &types))
        },
    ),
    ("arithmetic on what is no integer", Some(7), |rng, d| {
        let kind = rng.choose(&[NEGATE, SUM, DIFFERENCE, PRODUCT, REM, 16, 17]);
        let types = rng.choose(&[[LOGIC, LOGIC], [BOOLEAN, INTEGER], [INTEGER, LOGIC]]);
        let (first, many) = match kind {
            NEGATE => (LOGIC, 1),
            _ => (types[0], 2),
        };
        wrong_type(rng, d, operation(kind, &[first, types[1]][..many]))
    }),
    ("`=` or `<` on types that it has not", Some(7), |rng, d| {
        let (kind, types) = rng.choose(&[
            (13, [BOOLEAN, BOOLEAN]),
            (13, [INTEGER, LOGIC]),
            (14, [LOGIC, LOGIC]),
            (14, [BOOLEAN, BOOLEAN]),
        ]);
        wrong_type(rng, d, operation(kind, &types))
    }),
    ("an assignment without its driver", Some(8), |rng, d| {
        let all = d.body.statements().into_iter();
        let assigned: Vec<u8> = all
            .filter_map(|(_, s)| match s {
                Statement::Schedule(s, ..) => Some(*s),
                _ => None,
            })
            .collect();
        let s = *assigned.get(rng.below(assigned.len().max(1)))?;
        d.m.drivers.retain(|driver| driver.signal != s);
        Some(())
    }),
    ("drivers that do not rise", Some(8), |rng, d| {
        let list = &mut d.m.drivers;
        match rng.chance(1, 2) {
            true if list.len() > 1 => list.swap(0, 1),
            _ => {
                let first = *list.first()?;
                list.insert(0, first);
            }
        }
        Some(())
    }),
];

/// One of a list.
fn pick<'l, T>(rng: &mut Rng, list: &'l mut [T]) -> Option<&'l mut T> {
    let at = rng.below(list.len().max(1));
    list.get_mut(at)
}

/// The place of one of the tokens that `which` takes.
fn find(rng: &mut Rng, p: &[String], which: impl Fn(&str) -> bool) -> Option<usize> {
    let list = p.iter().enumerate();
    let found: Vec<usize> = list.filter(|t| which(t.1)).map(|t| t.0).collect();
    (!found.is_empty()).then(|| rng.choose(&found))
}

fn is_number(t: &str) -> bool {
    t.as_bytes()[0].is_ascii_digit()
}

fn is_name(t: &str, letter: char) -> bool {
    t.starts_with(letter) && t.len() > 1 && is_number(&t[1..])
}

fn is_operand(t: &str) -> bool {
    is_number(t) || is_name(t, 's') || is_name(t, 'v') || t.starts_with('\'')
}

/// The places of a wait's parts, of one that has at least so many: where each begins, and
/// the semicolon.
fn parts(rng: &mut Rng, p: &[String], least: usize) -> Option<Vec<usize>> {
    let of = |wait: usize| {
        let end = wait + p[wait..].iter().position(|t| t == ";").expect("it ends");
        let begins = |&n: &usize| ["on", "until", "for"].contains(&p[n].as_str());
        let mut list: Vec<usize> = (wait..end).filter(begins).collect();
        list.push(end);
        list
    };
    let waits = (0..p.len()).filter(|&n| p[n] == "wait").map(of);
    let found: Vec<Vec<usize>> = waits.filter(|list| list.len() > least).collect();
    (!found.is_empty()).then(|| found[rng.below(found.len())].clone())
}

fn put(rng: &mut Rng, p: &mut [String], which: impl Fn(&str) -> bool, new: &str) -> Option<()> {
    let at = find(rng, p, which)?;
    p[at] = new.into();
    Some(())
}

fn remove(rng: &mut Rng, p: &mut Vec<String>, word: &str) -> Option<()> {
    let at = find(rng, p, |t| t == word)?;
    p.remove(at);
    Some(())
}

const TOKENS: &[Way<TokenOp>] = &[
    ("a token dropped", None, |rng, p| {
        p.remove(rng.below(p.len()));
        Some(())
    }),
    ("a token doubled", Some(26), |rng, p| {
        let at = rng.below(p.len());
        p.insert(at, p[at].clone());
        Some(())
    }),
    ("two tokens exchanged", None, |rng, p| {
        let a = rng.below(p.len());
        let b = match rng.chance(1, 2) {
            true => (a + 1) % p.len(),
            false => rng.below(p.len()),
        };
        p.swap(a, b);
        Some(())
    }),
    ("a token in place of another", None, |rng, p| {
        let (a, b) = (rng.below(p.len()), rng.below(p.len()));
        p[a] = p[b].clone();
        Some(())
    }),
    ("a word or sign in place of a token", None, |rng, p| {
        let word = rng.choose(&[
            "and", "or", "xor", "mod", "rem", "not", "delayed", "null", "after", "wait", "on",
            "until", "for", "if", "then", "else", "end", "while", "loop", "(", ")", ";", ",", "=",
            "<", "+", "-", "*", "/", ":=", "<=",
        ]);
        put(rng, p, |_| true, word)
    }),
    ("a leading zero", Some(26), |rng, p| {
        let at = find(rng, p, |t| {
            is_number(t) || is_name(t, 's') || is_name(t, 'v')
        })?;
        let name = !is_number(&p[at]);
        p[at].insert(name as usize, '0');
        Some(())
    }),
    ("a number above 2147483647", Some(26), |rng, p| {
        let new = rng.choose(&[
            "2147483648",
            "2147483650",
            "4294967295",
            "4294967296",
            "10000000000",
            "18446744073709551616",
            "18446744073709551617",
        ]);
        put(rng, p, is_number, new)
    }),
    ("a signal above s31", Some(26), |rng, p| {
        let new = rng.choose(&["s32", "s33", "s63", "s100", "s256", "s4294967296"]);
        put(rng, p, |t| is_name(t, 's'), new)
    }),
    ("a variable above v63", Some(26), |rng, p| {
        let new = rng.choose(&["v64", "v65", "v99", "v256", "v4294967296"]);
        put(rng, p, |t| is_name(t, 'v'), new)
    }),
    ("a delay above 31", Some(26), |rng, p| {
        let at = find(rng, p, |t| t == "delayed")?;
        p[at + 1] = rng
            .choose(&["32", "33", "64", "256", "2147483647", "2147483648"])
            .into();
        Some(())
    }),
    ("a delay that is no number", Some(26), |rng, p| {
        let at = find(rng, p, |t| t == "delayed")?;
        p[at + 1] = rng.choose(&["v0", "s0", "'0'", "(- 1)", "-1"]).into();
        Some(())
    }),
    ("a variable delayed", Some(26), |rng, p| {
        let at = find(rng, p, |t| t == "delayed")?;
        p[at - 1] = rng.choose(&["v0", "1", "'0'", "(s0 delayed 1)"]).into();
        Some(())
    }),
    ("a capital letter", Some(26), |rng, p| {
        let at = find(rng, p, |t| t.bytes().any(|b| b.is_ascii_lowercase()))?;
        p[at] = match rng.chance(1, 2) {
            true => p[at].to_uppercase(),
            false => p[at][..1].to_uppercase() + &p[at][1..],
        };
        Some(())
    }),
    ("a logic value in small letters", Some(26), |rng, p| {
        let new = rng.choose(&["'u'", "'x'", "'z'", "'w'", "'l'", "'h'"]);
        put(rng, p, |t| t.starts_with('\''), new)
    }),
    ("no logic value between quotes", Some(26), |rng, p| {
        let new = rng.choose(&["'2'", "'A'", "''", "'01'", "' '", "'", "'''", "\"0\""]);
        put(rng, p, |t| t.starts_with('\''), new)
    }),
    ("a quote missing", Some(26), |rng, p| {
        let at = find(rng, p, |t| t.starts_with('\''))?;
        p[at].remove(rng.choose(&[0, 2]));
        Some(())
    }),
    ("a bracket not closed", Some(26), |rng, p| {
        remove(rng, p, ")")
    }),
    ("a bracket not opened", Some(26), |rng, p| {
        remove(rng, p, "(")
    }),
    ("a bracket too many", Some(26), |rng, p| {
        let at = rng.below(p.len() + 1);
        p.insert(at, rng.choose(&["(", ")"]).into());
        Some(())
    }),
    ("brackets around one operand", Some(26), |rng, p| {
        let at = find(rng, p, is_operand)?;
        p[at] = format!("({})", p[at]);
        Some(())
    }),
    ("an operation without brackets", Some(26), |rng, p| {
        let at = find(rng, p, is_operand)?;
        let op = rng.choose(&["+", "and", "=", "- 1 -", "mod"]);
        p[at] = format!("{} {op} {}", p[at], p[at]);
        Some(())
    }),
    ("a negative number without brackets", Some(26), |rng, p| {
        let at = find(rng, p, is_number)?;
        p[at] = format!("-{}", p[at]);
        Some(())
    }),
    (
        "an operator of VHDL that texts have not",
        Some(26),
        |rng, p| {
            let new = rng.choose(&[
                "nand", "nor", "xnor", "sll", "&", ">", ">=", "/=", "**", "<>", "==", "abs", "<=",
            ]);
            let operators = OPERATORS.map(|row| row.0);
            let at = find(rng, p, |t| operators.contains(&t))?;
            // The sign of one operand stays.
            if p[at - 1] == "(" {
                return None;
            }
            p[at] = new.into();
            Some(())
        },
    ),
    ("`else` missing", Some(26), |rng, p| remove(rng, p, "else")),
    ("`then` missing", Some(26), |rng, p| remove(rng, p, "then")),
    ("`end` missing", Some(26), |rng, p| remove(rng, p, "end")),
    ("`after` missing", Some(26), |rng, p| {
        remove(rng, p, "after")
    }),
    ("`elsif` for `else`", Some(26), |rng, p| {
        put(rng, p, |t| t == "else", "elsif")
    }),
    ("`end` of the other statement", Some(26), |rng, p| {
        let at = find(rng, p, |t| t == "end")?;
        p[at + 1] = match p[at + 1].as_str() {
            "if" => "loop".into(),
            _ => rng.choose(&["if", "while"]).into(),
        };
        Some(())
    }),
    ("`end` alone", Some(26), |rng, p| {
        let at = find(rng, p, |t| t == "end")?;
        p.remove(at + 1);
        Some(())
    }),
    ("a semicolon missing", Some(26), |rng, p| {
        remove(rng, p, ";")
    }),
    ("the last semicolon missing", Some(26), |_, p| {
        p.pop();
        Some(())
    }),
    ("a semicolon too many", Some(26), |rng, p| {
        let at = rng.below(p.len() + 1);
        p.insert(at, ";".into());
        Some(())
    }),
    ("an assignment without a delay", Some(26), |rng, p| {
        let at = find(rng, p, |t| t == "after")?;
        let end = at + p[at..].iter().position(|t| t == ";").expect("it ends");
        p.drain(at..end);
        Some(())
    }),
    ("a variable's value with a delay", Some(26), |rng, p| {
        let at = find(rng, p, |t| t == ":=")?;
        let end = at + p[at..].iter().position(|t| t == ";").expect("it ends");
        p.insert(end, "after 1".into());
        Some(())
    }),
    ("the other sign of assignment", Some(26), |rng, p| {
        let at = find(rng, p, |t| t == ":=" || t == "<=")?;
        p[at] = if p[at] == ":=" { "<=" } else { ":=" }.into();
        Some(())
    }),
    ("`on` without a comma", Some(26), |rng, p| {
        remove(rng, p, ",")
    }),
    ("a comma too many", Some(26), |rng, p| {
        let at = find(rng, p, |t| t == "on" || t == ",")?;
        p.insert(at + 1 + rng.below(2), ",".into());
        Some(())
    }),
    ("a variable or a number in `on`", Some(26), |rng, p| {
        let at = find(rng, p, |t| t == "on" || t == ",")?;
        p[at + 1] = rng.choose(&["v0", "0", "'0'", "(s0 delayed 1)"]).into();
        Some(())
    }),
    ("parts of a wait in another order", Some(26), |rng, p| {
        let list = parts(rng, p, 2)?;
        let n = rng.below(list.len() - 2);
        p[list[n]..list[n + 2]].rotate_left(list[n + 1] - list[n]);
        Some(())
    }),
    ("a part of a wait twice", Some(26), |rng, p| {
        let list = parts(rng, p, 1)?;
        let n = rng.below(list.len() - 1);
        let part = p[list[n]..list[n + 1]].to_vec();
        p.splice(list[n]..list[n], part);
        Some(())
    }),
    ("a part of a wait with nothing in it", Some(26), |rng, p| {
        let list = parts(rng, p, 1)?;
        let n = rng.below(list.len() - 1);
        p.drain(list[n] + 1..list[n + 1]);
        Some(())
    }),
    ("two tokens without a space", Some(26), |rng, p| {
        let runs = |t: &str| t.as_bytes()[0].is_ascii_alphanumeric();
        let found: Vec<usize> = (1..p.len())
            .filter(|&n| runs(&p[n - 1]) && runs(&p[n]))
            .collect();
        let at = *found.get(rng.below(found.len().max(1)))?;
        let second = p.remove(at);
        p[at - 1] += &second;
        Some(())
    }),
    ("a space in a token", Some(26), |rng, p| {
        let at = find(rng, p, |t| t.len() > 1)?;
        let inside = 1 + rng.below(p[at].len() - 1);
        p[at].insert(inside, rng.choose(&[' ', '\n']));
        Some(())
    }),
    ("a comment", Some(26), |rng, p| {
        let at = rng.below(p.len() + 1);
        p.insert(at, rng.choose(&["-- null\n", "--\n", "/* */"]).into());
        Some(())
    }),
    ("a word that is none", Some(26), |rng, p| {
        let new = rng.choose(&[
            "begin",
            "is",
            "process",
            "true",
            "false",
            "transport",
            "nul",
            "nulls",
            "delaye",
            "e",
            "variable",
            "signal",
            "x",
            "ns",
        ]);
        let at = rng.below(p.len());
        match rng.chance(1, 2) {
            true => p[at] = new.into(),
            false => p.insert(at, new.into()),
        }
        Some(())
    }),
];

/// Damages the tokens in one of the ways after which they are no sentence.
pub(super) fn no_sentence(rng: &mut Rng, p: &mut Vec<String>) -> Option<()> {
    let sure: Vec<&Way<TokenOp>> = TOKENS.iter().filter(|w| w.1 == Some(26)).collect();
    (rng.choose(&sure).2)(rng, p)
}

/// Puts a byte somewhere.
fn add_byte(rng: &mut Rng, text: &mut Vec<u8>, byte: u8) -> Option<()> {
    let at = rng.below(text.len() + 1);
    text.insert(at, byte);
    Some(())
}

pub(super) const TEXT: &[Way<ByteOp>] = &[
    ("a byte changed", None, |rng, text| {
        let at = rng.below(text.len());
        text[at] = match rng.below(3) {
            0 => rng.below(256) as u8,
            1 => text[at] ^ 1 << rng.below(8),
            _ => rng.choose(b" \n();,=<+-*/:'0123456789UXZWLHabdefghilmnoprstuvwxy"),
        };
        Some(())
    }),
    ("a byte dropped", None, |rng, text| {
        text.remove(rng.below(text.len()));
        Some(())
    }),
    ("a byte added", None, |rng, text| {
        let byte = rng.choose(b" \n();,=<+-*/:'0123456789svUXZWLHadeiln");
        add_byte(rng, text, byte)
    }),
    ("the text cut", None, |rng, text| {
        text.truncate(rng.below(text.len()));
        Some(())
    }),
    ("a tab", Some(26), |rng, text| add_byte(rng, text, b'\t')),
    ("a byte of no token", Some(26), |rng, text| {
        let byte = rng.choose(&[0, 1, 11, 12, 13, 31, 33, 34, 64, 95, 127, 128, 160, 255]);
        add_byte(rng, text, byte)
    }),
    ("a token behind the end", Some(26), |rng, text| {
        let more: &[&[u8]] = &[b"null", b";", b"0", b"end", b"else", b"end if;", b")"];
        text.extend_from_slice(rng.choose(more));
        Some(())
    }),
    ("blanks alone", Some(26), |rng, text| {
        text.iter_mut().for_each(|byte| *byte = b' ');
        text.truncate(rng.below(4));
        Some(())
    }),
    ("65,535 bytes", Some(0), |rng, text| {
        pad(rng, text, BYTES);
        Some(())
    }),
    ("65,536 bytes or more", Some(26), |rng, text| {
        let more = rng.choose(&[1, 2, 100, 65_536]);
        pad(rng, text, BYTES + more);
        Some(())
    }),
];

/// Blanks before the text, behind it or both.
fn pad(rng: &mut Rng, text: &mut Vec<u8>, length: usize) {
    let more = length - text.len();
    let before = match rng.below(3) {
        0 => 0,
        1 => more,
        _ => rng.below(more),
    };
    let blank = rng.choose(b" \n");
    text.splice(0..0, vec![blank; before]);
    text.resize(length, blank);
}

const GIVEN: &[Way<ByteOp>] = &[
    ("given records cut or drawn out", Some(4), |rng, given| {
        match rng.chance(1, 2) {
            true if given.len() > 3 => {
                given.truncate(rng.range(3, given.len() as i64 - 1) as usize)
            }
            _ => given.resize(given.len() + rng.choose(&[1, 11, 12, 24]), 0),
        }
        Some(())
    }),
    ("more records said than given", Some(4), |rng, given| {
        let at = rng.below(3);
        given[at] = given[at].checked_add(1 + rng.below(3) as u8)?;
        Some(())
    }),
    ("fewer than three bytes given", None, |rng, given| {
        given.truncate(rng.below(3));
        Some(())
    }),
    (
        "an unnamed byte of a given record",
        Some(5),
        |rng, given| {
            let [signals, variables, drivers] = [0, 1, 2].map(|n| given[n] as usize);
            let all = signals + variables + drivers;
            let record = rng.below(all.max(1));
            let unnamed: &[usize] = match record {
                _ if all == 0 => return None,
                n if n < signals + variables => &[2, 3, 8, 9, 10, 11],
                _ => &[2, 3, 4, 5, 6, 7, 8, 9, 10, 11],
            };
            let at = 3 + RECORD * record + rng.choose(unnamed);
            given[at] = 1 + rng.below(255) as u8;
            Some(())
        },
    ),
];

/// The made ways that are no damage.
pub(super) const PLAIN_WAYS: [&str; 7] = [
    "a body of fitting types",
    "a body of any types",
    "8 to 16 levels",
    "a tree of 64 nodes",
    "400 nodes",
    "200 statements",
    "two damages",
];

/// Every way by its name.
pub fn ways() -> Vec<&'static str> {
    let names = PLAIN_WAYS.into_iter();
    let names = names.chain(TREE.iter().map(|w| w.0));
    let names = names.chain(TOKENS.iter().map(|w| w.0));
    let names = names.chain(TEXT.iter().map(|w| w.0));
    names.chain(GIVEN.iter().map(|w| w.0)).collect()
}

/// In checking order.
pub const ORDER: [u32; 8] = [26, 27, 4, 5, 6, 7, 8, 0];

/// The one that is tested first.
pub fn first(a: u32, b: u32) -> u32 {
    let at = |n: u32| ORDER.iter().position(|&m| m == n);
    if at(a) <= at(b) {
        a
    } else {
        b
    }
}

pub(super) fn finish(rng: &mut Rng, what: &'static str, expected: Option<u32>, d: &Draft) -> Case {
    let setting = setting(rng);
    Case {
        what,
        text: set(rng, &pieces(&d.body), setting),
        given: given(&d.m),
        expected,
        body: Some(d.body.clone()),
        setting,
    }
}

/// An accepted draft with this done to it, that is accepted still.
pub(super) fn still(rng: &mut Rng, what: &'static str, op: TreeOp) -> Case {
    loop {
        let mut d = accepted(rng);
        if op(rng, &mut d).is_some() && d.number(rng) == 0 {
            return finish(rng, what, Some(0), &d);
        }
    }
}

/// An accepted draft damaged in one of the ways, with room left for what they add.
pub(super) fn tree_damage(rng: &mut Rng, way: &Way<TreeOp>) -> Draft {
    loop {
        let mut d = accepted(rng);
        let room = nodes(&d.body) <= 300 && makes(&d.body.list) <= 150;
        if room && (way.2)(rng, &mut d).is_some() {
            return d;
        }
    }
}

/// An accepted draft at one of the limits.
pub(super) fn at_limit(rng: &mut Rng) -> Case {
    match rng.below(4) {
        0 => still(rng, PLAIN_WAYS[2], |rng, d| {
            let levels = rng.choose(&[16, 16, 16, 8, 10, 12, 13, 14, 15]);
            deepen(rng, d, levels)
        }),
        1 => still(rng, PLAIN_WAYS[3], |rng, d| {
            add_tree(rng, &mut d.body, 64);
            Some(())
        }),
        2 => still(rng, PLAIN_WAYS[4], |rng, d| {
            while nodes(&d.body) < 400 {
                let left = 400 - nodes(&d.body);
                add_tree(rng, &mut d.body, left.min(64));
            }
            Some(())
        }),
        _ => still(rng, PLAIN_WAYS[5], |rng, d| {
            while makes(&d.body.list) < 200 {
                insert(rng, &mut d.body, Statement::Null);
            }
            Some(())
        }),
    }
}

/// A random case.
pub fn case(seed: u64) -> Case {
    let rng = &mut Rng::new(seed);
    match rng.weighted(&[30, 6, 8, 24, 30, 10, 4, 6]) {
        0 => {
            let d = accepted(rng);
            finish(rng, PLAIN_WAYS[0], Some(0), &d)
        }
        1 => {
            let style = Style {
                ill: Some(rng.choose(&[5, 20, 60])),
                ..Style::random(rng)
            };
            let d = draft(rng, style);
            finish(rng, PLAIN_WAYS[1], None, &d)
        }
        2 => at_limit(rng),
        3 => {
            let way = &TREE[rng.below(TREE.len())];
            let d = tree_damage(rng, way);
            finish(rng, way.0, way.1, &d)
        }
        4 => {
            let way = &TOKENS[rng.below(TOKENS.len())];
            loop {
                let d = accepted(rng);
                let mut p = pieces(&d.body);
                if (way.2)(rng, &mut p).is_some() {
                    let setting = setting(rng);
                    return Case {
                        what: way.0,
                        text: set(rng, &p, setting),
                        given: given(&d.m),
                        expected: way.1,
                        body: None,
                        setting,
                    };
                }
            }
        }
        5 => {
            let way = &TEXT[rng.below(TEXT.len())];
            let d = accepted(rng);
            let mut case = finish(rng, way.0, way.1, &d);
            (way.2)(rng, &mut case.text);
            case.body = None;
            case
        }
        6 => {
            let way = &GIVEN[rng.below(GIVEN.len())];
            loop {
                let d = accepted(rng);
                let mut case = finish(rng, way.0, way.1, &d);
                if (way.2)(rng, &mut case.given).is_some() {
                    return case;
                }
            }
        }
        _ => two(rng),
    }
}

/// Two ways of different numbers: the one that is tested first decides. It is done last, so
/// that the other does not undo it.
fn two(rng: &mut Rng) -> Case {
    let sure: Vec<&Way<TreeOp>> = TREE.iter().filter(|w| w.1.is_some()).collect();
    loop {
        let (a, b) = (rng.choose(&sure), rng.choose(&sure));
        let [one, other] = [a, b].map(|w| w.1.expect("it is sure"));
        if one == other || first(one, other) == one {
            continue;
        }
        let mut d = tree_damage(rng, a);
        if (b.2)(rng, &mut d).is_some() {
            return finish(rng, PLAIN_WAYS[6], Some(other), &d);
        }
    }
}
