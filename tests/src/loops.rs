//! Loops without delay (item 11 of document 02): which process leads to which, and the
//! closed chain of processes that is returned.
//!
//! The chain is sought path by path. It begins at the lowest process that comes back to
//! itself; from there every path without a repeat is walked, of one process, of two and so
//! on, the lowest numbers first, until one closes. `closed_chains` walks every path from
//! every process; it is for small graphs, where the two are held against each other.

use crate::model::{assigns_signal, load, Model, StatementRecord, ABSENT};

/// For each process those that it leads to, rising.
pub type Graph = Vec<Vec<usize>>;

/// A constant node above 0.
pub fn constant_above_0(m: &Model, node: u16) -> bool {
    let n = &m.nodes[node as usize];
    n.kind == 1 && n.k > 0
}

/// An assignment of any kind whose c is not a constant node above 0.
pub fn without_delay(m: &Model, s: &StatementRecord) -> bool {
    assigns_signal(s) && !constant_above_0(m, s.c)
}

/// A wait that has no c, or a constant c above 0.
pub fn waits_later(m: &Model, s: &StatementRecord) -> bool {
    s.c == ABSENT || constant_above_0(m, s.c)
}

/// The statements of a process.
fn own(m: &Model, process: usize) -> &[StatementRecord] {
    let p = m.processes[process];
    &m.statements[p.first as usize..(p.first + p.count) as usize]
}

/// Is the signal in some wait set of the process?
fn waits_on(m: &Model, process: usize, signal: u16) -> bool {
    let mut waits = own(m, process).iter().filter(|s| s.kind == 5);
    waits.any(|s| s.set >> signal & 1 == 1)
}

/// Which process of an accepted model leads to which.
pub fn leads(m: &Model) -> Graph {
    let all = 0..m.processes.len();
    let leads_to = |a: usize, b: usize| {
        let mut soon = own(m, a).iter().filter(|s| without_delay(m, s));
        soon.any(|s| waits_on(m, b, s.a))
    };
    let from = |a: usize| all.clone().filter(|&b| leads_to(a, b)).collect();
    all.clone().map(from).collect()
}

/// Has every wait of the model no c or a constant c above 0?
pub fn later(m: &Model) -> bool {
    let mut waits = m.statements.iter().filter(|s| s.kind == 5);
    waits.all(|s| waits_later(m, s))
}

/// The processes that can be come to from `from`, itself among them where it is come back
/// to; none of `avoided` is passed.
pub fn reached(g: &Graph, from: usize, avoided: &[usize]) -> Vec<bool> {
    let mut reached = vec![false; g.len()];
    let mut open = vec![from];
    while let Some(a) = open.pop() {
        for &b in &g[a] {
            if !reached[b] && !avoided.contains(&b) {
                reached[b] = true;
                open.push(b);
            }
        }
    }
    reached
}

/// Does the process come back to itself?
pub fn on_a_chain(g: &Graph, process: usize) -> bool {
    reached(g, process, &[])[process]
}

/// Walks the paths of `length` processes that go on from this one, the lowest numbers
/// first, and hands over those that close; ends where that gives false.
fn walk(
    g: &Graph,
    length: usize,
    path: &mut Vec<usize>,
    found: &mut dyn FnMut(&[usize]) -> bool,
) -> bool {
    let last = path[path.len() - 1];
    if path.len() == length {
        return !g[last].contains(&path[0]) || found(path);
    }
    for &next in &g[last] {
        if path.contains(&next) {
            continue;
        }
        path.push(next);
        let goes_on = walk(g, length, path, found);
        path.pop();
        if !goes_on {
            return false;
        }
    }
    true
}

/// At most `most` of the closed chains of so many processes from this one, those with the
/// lowest numbers.
pub fn chains_from(g: &Graph, start: usize, length: usize, most: usize) -> Vec<Vec<usize>> {
    let mut list = vec![];
    walk(g, length, &mut vec![start], &mut |path| {
        list.push(path.to_vec());
        list.len() < most
    });
    list
}

/// Every closed chain, from each of its processes.
pub fn closed_chains(g: &Graph) -> Vec<Vec<usize>> {
    let all = 0..g.len();
    let of =
        |start| (1..=g.len()).flat_map(move |length| chains_from(g, start, length, usize::MAX));
    all.flat_map(of).collect()
}

/// The closed chain that is returned; empty where none exists.
pub fn chain(g: &Graph) -> Vec<usize> {
    let Some(start) = (0..g.len()).find(|&p| on_a_chain(g, p)) else {
        return vec![];
    };
    let mut found = (1..=g.len()).flat_map(|length| chains_from(g, start, length, 1));
    found.next().expect("what comes back does so on a chain")
}

/// What the check says of an accepted model.
#[derive(Clone, Debug, PartialEq, Eq)]
pub struct Checked {
    /// Empty where there is none.
    pub chain: Vec<usize>,
    pub later: bool,
}

impl Checked {
    pub fn of(m: &Model) -> Checked {
        Checked {
            chain: chain(&leads(m)),
            later: later(m),
        }
    }

    /// Sixteen words for the chain's processes, one for their number, one for the waits.
    pub fn words(&self) -> [u64; WORDS] {
        let mut words = [0; WORDS];
        for (word, &process) in words.iter_mut().zip(&self.chain) {
            *word = process as u64;
        }
        words[16] = self.chain.len() as u64;
        words[17] = self.later as u64;
        words
    }
}

/// How many words the check writes.
pub const WORDS: usize = 18;

/// Checks a model, any bytes: its number; a refused one has zeros.
pub fn check(model: &[u8], out: &mut [u64; WORDS]) -> u32 {
    let checked = load(model).map(|m| Checked::of(&m).words());
    *out = checked.unwrap_or([0; WORDS]);
    checked.err().unwrap_or(0)
}

/// What `loopbench` prints: the chain, `none`, or the refused model's number alone.
pub fn print(model: &[u8]) -> String {
    let chain = match load(model) {
        Err(number) => return format!("{number}\n"),
        Ok(m) => Checked::of(&m).chain,
    };
    if chain.is_empty() {
        return "none\n".into();
    }
    let processes: String = chain.iter().map(|p| format!(" {p}")).collect();
    format!("chain{processes}\n")
}

#[cfg(test)]
mod tests {
    use super::*;
    use crate::builder::Builder;
    use crate::cases::{inverter, largest};
    use crate::model::{INTEGER, LOGIC};
    use crate::rng::Rng;

    fn graph(n: usize, edges: &[(usize, usize)]) -> Graph {
        let to = |a| (0..n).filter(|&b| edges.contains(&(a, b))).collect();
        (0..n).map(to).collect()
    }

    /// The chain by the paths of rising length, and by all closed chains.
    fn both(g: &Graph) -> Vec<usize> {
        let all = closed_chains(g);
        let best = all.into_iter().min_by_key(|c| (c[0], c.len(), c.clone()));
        let found = chain(g);
        assert_eq!(found, best.unwrap_or_default(), "{g:?}");
        found
    }

    fn chain_of(n: usize, edges: &[(usize, usize)]) -> Vec<usize> {
        both(&graph(n, edges))
    }

    #[test]
    fn small_graphs() {
        assert!(chain_of(1, &[]).is_empty());
        assert_eq!(chain_of(1, &[(0, 0)]), [0]);
        assert_eq!(chain_of(2, &[(0, 1), (1, 0)]), [0, 1]);
        assert_eq!(chain_of(4, &[(3, 3), (0, 1), (1, 2), (2, 3)]), [3]);
        // A chain of one goes before a longer one from the same process, not before a
        // longer one from a lower process.
        assert_eq!(chain_of(3, &[(0, 1), (1, 0), (0, 0)]), [0]);
        assert_eq!(chain_of(3, &[(0, 1), (1, 0), (1, 1), (2, 2)]), [0, 1]);
        // Process 0 leads to a chain and is on none; so does 1, which is led to.
        let edges = [(0, 2), (2, 3), (3, 2), (3, 1)];
        assert_eq!(chain_of(4, &edges), [2, 3]);
        // Against the numbers.
        assert_eq!(chain_of(4, &[(0, 3), (3, 2), (2, 1), (1, 0)]), [0, 3, 2, 1]);
        // No way back.
        let rising: Vec<_> = (0..6)
            .flat_map(|a| (a + 1..6).map(move |b| (a, b)))
            .collect();
        assert!(chain_of(6, &rising).is_empty());
    }

    #[test]
    fn the_shortest_then_the_lowest() {
        // The shortest has higher numbers.
        let edges = [(0, 5), (5, 0), (0, 1), (1, 2), (2, 0)];
        assert_eq!(chain_of(6, &edges), [0, 5]);
        // Of two, three, four equally long ones.
        let edges = [(0, 3), (3, 0), (0, 2), (2, 0), (0, 4), (4, 0)];
        assert_eq!(chain_of(5, &edges), [0, 2]);
        let edges = [(0, 1), (0, 2), (1, 4), (2, 3), (3, 0), (4, 0)];
        assert_eq!(chain_of(5, &edges), [0, 1, 4]);
        // The lower second number has no way home in time.
        let edges = [(0, 1), (0, 4), (4, 5), (5, 0), (1, 2), (2, 3), (3, 0)];
        assert_eq!(chain_of(6, &edges), [0, 4, 5]);
        // A repeat is no chain: 1 goes back to itself on the way.
        let edges = [(0, 1), (1, 1), (1, 2), (2, 1), (2, 3), (3, 0)];
        assert_eq!(chain_of(4, &edges), [0, 1, 2, 3]);
        // Two rings that share process 2.
        let edges = [(1, 2), (2, 1), (2, 3), (3, 4), (4, 2)];
        assert_eq!(chain_of(5, &edges), [1, 2]);
    }

    #[test]
    fn a_ring_of_each_length() {
        for n in 1..=16 {
            let ring: Vec<_> = (0..n).map(|a| (a, (a + 1) % n)).collect();
            let whole: Vec<usize> = (0..n).collect();
            assert_eq!(chain(&graph(n, &ring)), whole);
            assert!(chain(&graph(n, &ring[..n - 1])).is_empty());
            // With every edge back to a process that is not the first.
            let back = (1..n).flat_map(|a| (1..=a).map(move |b| (a, b)));
            let edges: Vec<_> = ring.iter().copied().chain(back).collect();
            assert_eq!(chain(&graph(n, &edges)), whole);
        }
    }

    /// All closed chains, really listed, on every graph of up to three processes and on
    /// random ones of up to seven.
    #[test]
    fn all_closed_chains() {
        let of_bits = |n: usize, bits: u64| {
            let to = |a| (0..n).filter(|b| bits >> (n * a + b) & 1 == 1).collect();
            (0..n).map(to).collect::<Graph>()
        };
        for n in 1..=3 {
            for bits in 0..1 << (n * n) {
                both(&of_bits(n, bits));
            }
        }
        let rng = &mut Rng::new(1);
        let mut lengths = [0; 8];
        for _ in 0..20_000 {
            let n = 4 + rng.below(4);
            let bits = match rng.below(4) {
                0 => rng.next(),
                1 => rng.next() & rng.next(),
                _ => rng.next() & rng.next() & rng.next(),
            };
            lengths[both(&of_bits(n, bits)).len()] += 1;
        }
        assert!(lengths[..5].iter().all(|&n| n > 100), "{lengths:?}");
        // As many as there are in a graph of all edges: from each of k processes, k - 1 in
        // any order.
        assert_eq!(
            closed_chains(&of_bits(4, u64::MAX)).len(),
            4 * (1 + 3 + 6 + 6)
        );
    }

    /// Process 0 assigns signal 0 by the delay, process 1 waits on it and assigns signal 1
    /// after 0, on which process 0 waits.
    fn pair(delay: impl Fn(&mut Builder) -> u16) -> Builder {
        let mut b = Builder::new();
        let (s, t) = (b.signal(INTEGER, 0), b.signal(INTEGER, 0));
        let delay = delay(&mut b);
        let zero = b.integer(0);
        b.process();
        b.schedule(s, zero, delay);
        b.wait(1 << t, ABSENT, ABSENT);
        b.process();
        b.schedule(t, zero, zero);
        b.wait(1 << s, ABSENT, ABSENT);
        b.driver(0, s);
        b.driver(1, t);
        b
    }

    fn checked(b: &Builder) -> Checked {
        let m = load(&b.encode()).expect("the model is accepted");
        Checked::of(&m)
    }

    #[test]
    fn delays() {
        const TOP: i32 = i32::MAX;
        let is_chain = |delay: &dyn Fn(&mut Builder) -> u16| match &checked(&pair(delay)).chain[..]
        {
            [] => false,
            [0, 1] => true,
            other => panic!("{other:?}"),
        };
        for k in [1, 2, 255, 256, 65_536, 1 << 30, TOP] {
            assert!(!is_chain(&|b| b.integer(k)), "{k}");
        }
        for k in [0, -1, -2, -256, -65_536, -TOP] {
            assert!(is_chain(&|b| b.integer(k)), "{k}");
        }
        // No constant nodes, though worth more than 0; a signal delayed by more than 0.
        assert!(is_chain(&|b| {
            let one = b.integer(1);
            b.binary(11, one, one)
        }));
        assert!(is_chain(&|b| {
            let one = b.integer(1);
            let less = b.unary(10, one);
            b.unary(10, less)
        }));
        assert!(is_chain(&|b| b.delayed(0, 31)));
        assert!(is_chain(&|b| b.read_signal(1)));
    }

    #[test]
    fn records_alone_decide() {
        // The inverter: the edge from process 1 has a delay of 1.
        let b = inverter();
        let expected = Checked {
            chain: vec![],
            later: true,
        };
        assert_eq!(checked(&b), expected);
        assert_eq!(leads(&b.m), [vec![], vec![]]);
        // Not reached, and in a second wait.
        let mut b = Builder::new();
        let s = b.signal(LOGIC, 2);
        let (zero, high) = (b.integer(0), b.logic(3));
        b.process();
        b.wait(0, ABSENT, ABSENT);
        b.go(0);
        b.statement(7, s, high, zero, 0);
        b.wait(1 << s, ABSENT, zero);
        b.driver(0, s);
        let expected = Checked {
            chain: vec![0],
            later: false,
        };
        assert_eq!(checked(&b), expected);
        b.m.statements[3].set = 0;
        assert!(checked(&b).chain.is_empty());
        // Null assignments too; the same assignment on both of two signals.
        b.m.statements[3].set = 1;
        b.m.signals[0].kind = crate::model::BUS;
        (b.m.statements[2].kind, b.m.statements[2].b) = (6, 0);
        assert_eq!(checked(&b).chain, [0]);
    }

    #[test]
    fn words_and_text() {
        let mut b = pair(|b| b.integer(0));
        let mut out = [7; WORDS];
        assert_eq!(check(&b.encode(), &mut out), 0);
        let mut expected = [0; WORDS];
        (expected[1], expected[16], expected[17]) = (1, 2, 1);
        assert_eq!(out, expected);
        assert_eq!(print(&b.encode()), "chain 0 1\n");
        assert_eq!(print(&inverter().encode()), "none\n");
        assert_eq!(print(&largest()), "none\n");
        b.m.drivers.clear();
        assert_eq!(check(&b.encode(), &mut out), 8);
        assert_eq!(out, [0; WORDS]);
        assert_eq!(print(&b.encode()), "8\n");
        assert_eq!(print(&[]), "1\n");
    }
}
