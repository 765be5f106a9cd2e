//! Wrong readings of the item: of which process leads to which, of the chain that is
//! returned, and of which waits are later. The tally counts the models that each gives
//! another answer.

use crate::loops::*;
use crate::model::*;

/// What a statement is taken for, by the model and its number.
pub type Taken = fn(&Model, usize) -> bool;

pub fn statement(m: &Model, n: usize) -> &StatementRecord {
    &m.statements[n]
}

/// Is the statement the first, the last or neither of its process that passes the test?
fn at_end(m: &Model, n: usize, first: bool, test: fn(&StatementRecord) -> bool) -> bool {
    let p = m.processes[process_of(m, n)];
    let mut own =
        (p.first as usize..(p.first + p.count) as usize).filter(|&s| test(statement(m, s)));
    let end = if first { own.next() } else { own.next_back() };
    end == Some(n)
}

pub fn is_wait(s: &StatementRecord) -> bool {
    s.kind == 5
}

/// The statements that are come to from the first of their process.
pub fn come_to(m: &Model) -> Vec<bool> {
    let mut met = vec![false; m.statements.len()];
    for p in &m.processes {
        let mut open = vec![p.first];
        while let Some(n) = open.pop() {
            if std::mem::replace(&mut met[n as usize], true) {
                continue;
            }
            let s = statement(m, n as usize);
            let next = match n + 1 == p.first + p.count {
                true => p.first,
                false => n + 1,
            };
            match s.kind {
                3 => open.extend([s.a, next]),
                4 => open.push(s.a),
                _ => open.push(next),
            }
        }
    }
    met
}

/// The relation by other readings of what is assigned without delay and of what waits.
pub fn relation(m: &Model, soon: &dyn Fn(usize) -> bool, waits: &dyn Fn(usize) -> bool) -> Graph {
    let mut assigned = vec![0u32; m.processes.len()];
    let mut waited = assigned.clone();
    for (p, record) in m.processes.iter().enumerate() {
        for n in record.first as usize..(record.first + record.count) as usize {
            let s = statement(m, n);
            if assigns_signal(s) && soon(n) {
                assigned[p] |= 1 << s.a;
            }
            if is_wait(s) && waits(n) {
                waited[p] |= s.set;
            }
        }
    }
    let to = |set: &u32| {
        (0..waited.len())
            .filter(|&b| set & waited[b] != 0)
            .collect()
    };
    assigned.iter().map(to).collect()
}

/// Readings that are wrong: of an assignment's delay, of assignments, of waits. With each
/// the graph of many models is another, and so is the answer.
pub const DELAYS: [(&str, Taken); 6] = [
    ("an edge dropped by a constant above 0", |_, _| true),
    ("an edge kept by a constant 0", |m, n| {
        let c = m.nodes[statement(m, n).c as usize];
        c.kind != 1 || c.k < 0
    }),
    ("an edge kept by a negative constant", |m, n| {
        let c = m.nodes[statement(m, n).c as usize];
        c.kind != 1 || c.k == 0
    }),
    ("an edge kept by an expression", |m, n| {
        let c = m.nodes[statement(m, n).c as usize];
        c.kind == 1 && c.k <= 0
    }),
    ("an edge kept by a signal delayed by more than 0", |m, n| {
        let c = m.nodes[statement(m, n).c as usize];
        without_delay(m, statement(m, n)) && !(c.kind == 5 && c.k > 0)
    }),
    ("an edge by c where b would have it otherwise", |m, n| {
        let s = statement(m, n);
        s.kind == 6 && without_delay(m, s) || s.kind != 6 && !constant_above_0(m, s.b)
    }),
];
pub const ASSIGNMENTS: [(&str, Taken); 7] = [
    ("an edge by kind 2", |m, n| statement(m, n).kind != 2),
    ("an edge by kind 6", |m, n| statement(m, n).kind != 6),
    ("an edge by kind 7", |m, n| statement(m, n).kind != 7),
    ("an edge by a later assignment of its process", |m, n| {
        at_end(m, n, true, assigns_signal)
    }),
    ("an edge by an earlier assignment of its process", |m, n| {
        at_end(m, n, false, assigns_signal)
    }),
    ("an edge by a process's last statement", |m, n| {
        !at_end(m, n, false, |_| true)
    }),
    ("an edge by a signal above 15", |m, n| {
        statement(m, n).a < 16
    }),
];
pub const WAITS: [(&str, Taken); 4] = [
    ("an edge by a later wait", |m, n| {
        at_end(m, n, true, is_wait)
    }),
    ("an edge by an earlier wait", |m, n| {
        at_end(m, n, false, is_wait)
    }),
    ("an edge by a wait with a c", |m, n| {
        statement(m, n).c == ABSENT
    }),
    ("an edge by a wait with a condition", |m, n| {
        statement(m, n).b == ABSENT
    }),
];
pub const UNREACHED: &str = "an edge by statements that are not reached";

/// Edges that are missed, by the model and the two processes.
pub type Missed = fn(&Model, usize, usize) -> bool;
pub const EDGES: [(&str, Missed); 4] = [
    ("an edge to the process itself", |_, a, b| a == b),
    ("the edge from 15 to 0", |_, a, b| (a, b) == (15, 0)),
    ("an edge from or to process 15", |_, a, b| {
        a == 15 || b == 15
    }),
    ("an edge from or to the last process", |m, a, b| {
        let last = m.processes.len() - 1;
        last > 0 && (a == last || b == last)
    }),
];

/// Other chains, by the graph and the right one: the wrong start, or the wrong one from
/// there.
pub type Wrong = fn(&Graph, &[usize]) -> Vec<usize>;
pub const CHAINS: [(&str, Wrong); 6] = [
    ("a lower process that leads to the chain", |g, chain| {
        let on = |&p: &usize| reached(g, p, &[])[chain[0]];
        let start = (0..=chain[0]).find(on).unwrap_or(0);
        [&[start], &chain[1..]].concat()
    }),
    ("a shorter chain elsewhere", |g, chain| {
        let starts = |length: usize| (0..g.len()).flat_map(move |p| chains_from(g, p, length, 1));
        (1..=chain.len())
            .flat_map(starts)
            .next()
            .unwrap_or_default()
    }),
    ("a tie of equally short ones", |g, chain| {
        let list = chains_from(g, chain[0], chain.len(), 2);
        list.last().cloned().unwrap_or_default()
    }),
    ("a longer one with lower numbers", |g, chain| {
        lower_path(g, chain).unwrap_or_else(|| chain.to_vec())
    }),
    ("a chain that is another backwards", |_, chain| {
        let rest = chain[1..].iter().rev().copied();
        chain[..1].iter().copied().chain(rest).collect()
    }),
    (
        "a chain with higher numbers before lower ones",
        |_, chain| {
            let mut list = chain.to_vec();
            list.sort();
            list
        },
    ),
];

/// A way from the chain's start back to it that has a lower number where they part; so it
/// is longer. Only its front up to there is given.
fn lower_path(g: &Graph, chain: &[usize]) -> Option<Vec<usize>> {
    for at in 1..chain.len() {
        let (front, last) = (&chain[..at], chain[at - 1]);
        for &low in g[last].iter().filter(|&&b| b < chain[at]) {
            if !front.contains(&low) && reached(g, low, &front[1..])[chain[0]] {
                return Some([front, &[low]].concat());
            }
        }
    }
    None
}

/// Wrong readings of a wait's c.
pub const LATER: [(&str, Taken); 5] = [
    ("a wait's constant 0", |m, n| {
        let c = statement(m, n).c;
        waits_later(m, statement(m, n))
            || m.nodes[c as usize].kind == 1 && m.nodes[c as usize].k == 0
    }),
    ("a wait's negative constant", |m, n| {
        let c = statement(m, n).c;
        waits_later(m, statement(m, n))
            || m.nodes[c as usize].kind == 1 && m.nodes[c as usize].k < 0
    }),
    ("a wait's expression", |m, n| {
        let c = statement(m, n).c;
        waits_later(m, statement(m, n)) || m.nodes[c as usize].kind != 1
    }),
    ("a wait without c", |m, n| {
        statement(m, n).c != ABSENT && waits_later(m, statement(m, n))
    }),
    ("a later wait than the first", |m, n| {
        waits_later(m, statement(m, n)) || !at_end(m, n, true, is_wait)
    }),
];
pub const LATER_UNREACHED: &str = "a wait that is not reached";
