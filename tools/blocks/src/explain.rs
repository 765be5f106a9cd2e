//! Explains a node by the number that a single pick's answer gives: its expression, and the statements that use it.

use crate::list;
use second_kernel::cycle::NO_NODE;
use second_kernel::model::*;
use std::fmt::Write;

/// The number of a node of the model.
fn number(m: &Model, word: &str) -> Result<u16, String> {
    if word.is_empty() || !word.bytes().all(|b| b.is_ascii_digit()) {
        return Err("not a node's number".to_string());
    }
    match word.parse() {
        Ok(NO_NODE) => Err("faults 2 and 3 have no node; 2 is a negative delay, 3 a ninth pending transaction".to_string()),
        Ok(n) if (n as usize) < m.nodes.len() => Ok(n),
        _ => Err(format!("there is no such node; the model has {}, numbered from 0", m.nodes.len())),
    }
}

/// Is the node in the tree under `root`?
fn in_tree(m: &Model, node: u16, root: u16) -> bool {
    root == node || operands(&m.nodes[root as usize]).into_iter().any(|operand| in_tree(m, node, operand))
}

fn uses(m: &Model, s: &StatementRecord, node: u16) -> bool {
    roots(s).into_iter().any(|root| in_tree(m, node, root))
}

/// The node's expression on a line, then a line for each statement that uses it, as a listing shows them.
pub fn node(m: &Model, word: &str) -> Result<String, String> {
    let node = number(m, word)?;
    let mut used = String::new();
    for (n, s) in m.statements.iter().enumerate().filter(|s| uses(m, s.1, node)) {
        let _ = writeln!(used, "process {}, statement {n}: {}", process_of(m, n), list::statement(m, s));
    }
    if used.is_empty() {
        used.push_str("no statement uses it\n");
    }
    Ok(format!("{}\n{used}", list::expression(m, node)))
}

#[cfg(test)]
pub mod tests {
    use super::*;
    use crate::text;
    use second_kernel::builder::Builder;
    use second_kernel::cycle::{Config, Process};
    use second_kernel::rng::Rng;
    use second_kernel::{gen, session};

    /// The processes that a node stopped, with their numbers.
    pub fn failed(c: &Config) -> Vec<(usize, Process)> {
        c.processes.iter().copied().enumerate().filter(|p| p.1.node != 0 && p.1.node != NO_NODE).collect()
    }

    fn made(text: &str) -> Model {
        load(&text::model(text).expect("a model text")).expect("an accepted model")
    }

    fn explained(m: &Model, node: u16) -> String {
        super::node(m, &node.to_string()).expect("a node")
    }

    // The nodes: 0 count, 1 step, 2 their sum, 3 the constant 60, 4 the quotient.
    #[test]
    fn nodes_of_a_nested_expression() {
        let text = "\
signal step integer 1
process counter
  variable count integer 0
  wait on step
  count := (count + step) / 60
";
        let m = made(text);
        let used = "process 0, statement 1: v0 := ((v0 + s0) / 60)\n";
        for (node, expression) in ["v0", "s0", "(v0 + s0)", "60", "((v0 + s0) / 60)"].iter().enumerate() {
            assert_eq!(explained(&m, node as u16), format!("{expression}\n{used}"));
        }
    }

    // A sum that each kind of statement uses, one of them twice, in two processes; and a constant that none uses.
    #[test]
    fn every_use_of_a_node() {
        let mut b = Builder::new();
        let (s, line) = (b.signal(INTEGER, 0), b.bus(4));
        let v = b.variable(INTEGER, 0, 0);
        let (read, one, unused) = (b.read_signal(s), b.integer(1), b.integer(7));
        let sum = b.binary(11, read, one);
        let less = b.binary(14, one, sum);
        b.process();
        b.assign(v, sum);
        b.schedule(s, sum, sum);
        b.inertial(s, sum, one);
        b.inertial(s, one, sum);
        b.unless(less, 0);
        b.null();
        b.go(0);
        b.process();
        b.release(line, sum);
        b.wait(1, less, ABSENT);
        b.wait(0, ABSENT, sum);
        b.wait(1, ABSENT, ABSENT);
        b.driver(0, s);
        b.driver(1, line);
        let m = load(&b.encode()).expect("an accepted model");
        let expected = "\
(s0 + 1)
process 0, statement 0: v0 := (s0 + 1)
process 0, statement 1: s0 <= (s0 + 1) after (s0 + 1)
process 0, statement 2: s0 <= inertial (s0 + 1) after 1
process 0, statement 3: s0 <= inertial 1 after (s0 + 1)
process 0, statement 4: unless (1 < (s0 + 1)) goto l0
process 1, statement 7: s1 <= null after (s0 + 1)
process 1, statement 8: wait on s0 until (1 < (s0 + 1))
process 1, statement 9: wait for (s0 + 1)
";
        assert_eq!(explained(&m, sum), expected);
        assert_eq!(explained(&m, unused), "7\nno statement uses it\n");
    }

    fn statements(m: &Model) -> Vec<String> {
        m.statements.iter().map(|s| list::statement(m, s)).collect()
    }

    // A statement uses a node exactly if its text changes with the node.
    #[test]
    fn uses_in_random_models() {
        let (mut shared, mut unused) = (0, 0);
        for seed in 0..300 {
            let m = gen::model(&mut Rng::new(seed));
            let texts = statements(&m);
            for node in 0..m.nodes.len() {
                let mut other = m.clone();
                other.nodes[node] = NodeRecord { kind: 3, a: 999, b: 0, k: 0 };
                let changed = statements(&other);
                let users: Vec<usize> = (0..texts.len()).filter(|&n| texts[n] != changed[n]).collect();
                let mut lines = vec![list::expression(&m, node as u16)];
                lines.extend(users.iter().map(|&n| format!("process {}, statement {n}: {}", process_of(&m, n), texts[n])));
                if users.is_empty() {
                    lines.push("no statement uses it".to_string());
                }
                assert_eq!(explained(&m, node as u16).lines().collect::<Vec<_>>(), lines, "seed {seed}, node {node}");
                shared += (users.len() > 1) as usize;
                unused += users.is_empty() as usize;
            }
        }
        assert!(shared > 100, "{shared} nodes used by several statements");
        assert!(unused > 100, "{unused} nodes used by none");
    }

    // The node of a fault is in the statement at which its process stands.
    #[test]
    fn nodes_that_failed() {
        let (mut in_picks, mut in_waits) = (0, 0);
        for seed in 0..4_000 {
            let mut rng = Rng::new(seed);
            let m = gen::model(&mut rng);
            let orders = gen::orders(&mut rng, &m, 60);
            let (_, end) = session::session(&encode(&m), &orders, &mut vec![0; 4 * orders.len()]);
            for (n, p) in failed(&end) {
                let place = format!("\nprocess {n}, statement {}: ", p.place);
                assert!(explained(&m, p.node).contains(&place), "seed {seed}, process {n}, node {}", p.node);
                let s = &m.statements[p.place as usize];
                if s.kind == 5 && s.b != ABSENT && in_tree(&m, p.node, s.b) {
                    in_waits += 1;
                } else {
                    in_picks += 1;
                }
            }
        }
        assert!(in_picks > 100, "{in_picks} nodes that failed in a pick");
        assert!(in_waits > 10, "{in_waits} that failed in a wait's condition");
    }

    #[test]
    fn wrong_numbers_are_told() {
        let m = made("process p\nwait for 2 + 3");
        let none = "there is no such node; the model has 3, numbered from 0";
        let no_number = "not a node's number";
        let no_node = "faults 2 and 3 have no node; 2 is a negative delay, 3 a ninth pending transaction";
        for (word, error) in [
            ("3", none),
            ("400", none),
            ("65534", none),
            ("65536", none),
            ("4294967298", none),
            ("99999999999999999999", none),
            ("65535", no_node),
            ("", no_number),
            ("-1", no_number),
            ("+2", no_number),
            ("2 ", no_number),
            ("s0", no_number),
            ("0x2", no_number),
        ] {
            assert_eq!(node(&m, word), Err(error.to_string()), "{word}");
        }
        assert_eq!(node(&m, "2"), Ok("(2 + 3)\nprocess 0, statement 0: wait for (2 + 3)\n".to_string()));
    }
}
