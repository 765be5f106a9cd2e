//! Lists a model and orders as the texts that `text.rs` reads.

use crate::table;
use second_kernel::model::*;
use std::collections::BTreeSet;
use std::fmt::Write;

fn value(ty: u8, v: i32) -> String {
    match ty {
        LOGIC => format!("'{}'", table::letter(v as u8)),
        BOOLEAN => (v == 1).to_string(),
        _ => v.to_string(),
    }
}

fn type_name(ty: u8) -> &'static str {
    ["integer", "logic", "boolean"][ty as usize]
}

fn kind_name(kind: u8) -> &'static str {
    ["", " bus", " register"][kind as usize]
}

/// The expression of a node, a group in parentheses.
pub fn expression(m: &Model, n: u16) -> String {
    let d = &m.nodes[n as usize];
    let two = |op: &str| format!("({} {op} {})", expression(m, d.a), expression(m, d.b));
    match d.kind {
        1 if d.k < 0 => format!("(- {})", d.k.unsigned_abs()),
        1 => d.k.to_string(),
        2 => value(LOGIC, d.k),
        3 => format!("v{}", d.a),
        4 => format!("s{}", d.a),
        5 => format!("(s{} delayed {})", d.a, d.k),
        6 => format!("(not {})", expression(m, d.a)),
        7 => two("and"),
        8 => two("or"),
        9 => two("xor"),
        10 => format!("(- {})", expression(m, d.a)),
        11 => two("+"),
        12 => two("-"),
        13 => two("="),
        14 => two("<"),
        15 => two("*"),
        16 => two("/"),
        17 => two("mod"),
        _ => two("rem"),
    }
}

fn wait(m: &Model, s: &StatementRecord) -> String {
    let names: Vec<String> = (0..32).filter(|n| s.set >> n & 1 == 1).map(|n| format!("s{n}")).collect();
    let mut out = "wait".to_string();
    if !names.is_empty() {
        let _ = write!(out, " on {}", names.join(", "));
    }
    if s.b != ABSENT {
        let _ = write!(out, " until {}", expression(m, s.b));
    }
    if s.c != ABSENT {
        let _ = write!(out, " for {}", expression(m, s.c));
    }
    out
}

pub fn statement(m: &Model, s: &StatementRecord) -> String {
    match s.kind {
        0 => "null".to_string(),
        1 => format!("v{} := {}", s.a, expression(m, s.b)),
        2 => format!("s{} <= {} after {}", s.a, expression(m, s.b), expression(m, s.c)),
        3 => format!("unless {} goto l{}", expression(m, s.b), s.a),
        4 => format!("goto l{}", s.a),
        6 => format!("s{} <= null after {}", s.a, expression(m, s.c)),
        7 => format!("s{} <= inertial {} after {}", s.a, expression(m, s.b), expression(m, s.c)),
        _ => wait(m, s),
    }
}

/// An accepted model as text. Names are s0, v0, p0 and, for labels, l and the statement's number.
pub fn model(m: &Model) -> String {
    let mut out = String::new();
    for (n, s) in m.signals.iter().enumerate() {
        let _ = writeln!(out, "signal s{n} {}{} {}", type_name(s.ty), kind_name(s.kind), value(s.ty, s.start));
    }
    if !m.rows.is_empty() {
        let rows: String = m.rows.iter().map(|row| format!("  {}\n", table::listed(row))).collect();
        let _ = write!(out, "table\n{rows}");
    }
    let targets: BTreeSet<u16> = m.statements.iter().filter(|s| s.kind == 3 || s.kind == 4).map(|s| s.a).collect();
    for (p, q) in m.processes.iter().enumerate() {
        let _ = writeln!(out, "process p{p}");
        for (n, v) in m.variables.iter().enumerate().filter(|v| v.1.process as usize == p) {
            let _ = writeln!(out, "  variable v{n} {} {}", type_name(v.ty), value(v.ty, v.start));
        }
        for d in m.drivers.iter().filter(|d| d.process as usize == p) {
            let _ = writeln!(out, "  -- drives s{}", d.signal);
        }
        for n in q.first..q.first + q.count {
            if targets.contains(&n) {
                let _ = writeln!(out, "  l{n}:");
            }
            let _ = writeln!(out, "  {}", statement(m, &m.statements[n as usize]));
        }
    }
    out
}

/// A pick of a set. Without the word `set` one process would be a single pick, and none no order.
fn set_pick(set: u16) -> String {
    let members: Vec<String> = (0..16).filter(|n| set >> n & 1 == 1).map(|n| format!(" {n}")).collect();
    let word = if members.len() < 2 { " set" } else { "" };
    format!("pick{word}{}", members.concat())
}

/// Orders as text, one that the kernel refuses with 11 as its bytes, the withdrawn order 2 too. Bytes at the end that make no whole order are a comment.
pub fn orders(bytes: &[u8]) -> String {
    let mut out = String::new();
    for o in bytes.chunks(4) {
        let _ = match *o {
            [1, p, 0, 0] => writeln!(out, "pick {p}"),
            [2, 0, 0, 0] => writeln!(out, "bytes 2 0 0 0 -- advance, withdrawn"),
            [3, 0, low, high] => writeln!(out, "settle {}", u16::from_le_bytes([low, high])),
            [4, s, 0, 0] => writeln!(out, "read {s}"),
            [5, 0, low, high] => writeln!(out, "{}", set_pick(u16::from_le_bytes([low, high]))),
            [6, 0, 0, 0] => writeln!(out, "delta"),
            [7, 0, 0, 0] => writeln!(out, "time"),
            [a, b, c, d] => writeln!(out, "bytes {a} {b} {c} {d}"),
            _ => writeln!(out, "-- bytes {o:?}"),
        };
    }
    out
}

#[cfg(test)]
mod tests {
    use super::*;
    use crate::explain::tests::failed;
    use crate::text;
    use second_kernel::rng::Rng;
    use second_kernel::{cases, gen, session};

    /// The model that a listing makes, if it is accepted.
    fn made_again(m: &Model) -> Option<Model> {
        load(&text::model(&model(m)).expect("a listing is a model text")).ok()
    }

    /// The model with its variables numbered by process, as one made from its listing has them.
    fn by_process(m: &Model) -> Model {
        let mut order: Vec<u16> = (0..m.variables.len() as u16).collect();
        order.sort_by_key(|&v| m.variables[v as usize].process);
        let number = |v: &mut u16| *v = order.iter().position(|o| o == v).expect("a variable") as u16;
        let mut out = m.clone();
        out.variables = order.iter().map(|&v| m.variables[v as usize]).collect();
        out.nodes.iter_mut().filter(|d| d.kind == 3).for_each(|d| number(&mut d.a));
        out.statements.iter_mut().filter(|s| s.kind == 1).for_each(|s| number(&mut s.a));
        out
    }

    /// A session's answers without the nodes that failed, and these as expressions, each with its process.
    fn played(m: &Model, orders: &[u8]) -> (Vec<u8>, Vec<(usize, String)>) {
        let mut answers = vec![0; 4 * orders.len()];
        let (number, end) = session::session(&encode(m), orders, &mut answers);
        assert_eq!(number, 0);
        for (order, answer) in orders.chunks(4).zip(answers.chunks_mut(16)) {
            if order[0] == cases::PICK {
                answer[6..8].fill(0);
            }
        }
        let named = by_process(m);
        let failed = failed(&end).into_iter().map(|(n, p)| (n, expression(&named, p.node)));
        (answers, failed.collect())
    }

    // A node used twice is made twice, a negative constant becomes a negation, and variables are numbered by process: the model
    // made from a listing is another one, but it does the same, and its own listing makes exactly it; the node that fails has
    // the same expression in both. A driver that no statement uses is lost, so models that have one are passed over, and those
    // that grow past a limit.
    #[test]
    fn a_listing_makes_a_model_that_does_the_same() {
        let (mut compared, mut with_null, mut with_inertial, mut with_division, mut with_delay_0, mut failed) = (0, 0, 0, 0, 0, 0);
        let mut with_table = 0;
        for seed in 0..4_000 {
            let mut rng = Rng::new(seed);
            let m = gen::model(&mut rng);
            let Some(again) = made_again(&m) else { continue };
            assert_eq!(made_again(&again).as_ref(), Some(&again), "seed {seed}");
            if again.drivers == m.drivers {
                let orders = gen::orders(&mut rng, &m, 60);
                let ours = played(&m, &orders);
                assert_eq!(ours, played(&again, &orders), "seed {seed}");
                compared += 1;
                failed += ours.1.len();
                with_null += m.statements.iter().any(|s| s.kind == 6) as usize;
                with_inertial += m.statements.iter().any(|s| s.kind == 7) as usize;
                with_division += m.nodes.iter().any(|d| (16..=18).contains(&d.kind)) as usize;
                with_delay_0 += m.nodes.iter().any(|d| d.kind == 5 && d.k == 0) as usize;
                with_table += !m.rows.is_empty() as usize;
            }
        }
        assert!(compared > 500, "{compared} models compared");
        assert!(with_null > 100, "{with_null} of them with a null transaction");
        assert!(with_inertial > 100, "{with_inertial} of them with an inertial assignment");
        assert!(with_division > 100, "{with_division} of them with a division");
        assert!(with_delay_0 > 50, "{with_delay_0} of them with a delay of 0");
        assert!(with_table > 50, "{with_table} of them with a table of their own");
        assert!(failed > 30, "{failed} nodes that failed");
    }

    #[test]
    fn a_listing_of_the_inverter() {
        let expected = "\
signal s0 logic '0'
signal s1 logic '0'
process p0
  -- drives s1
  s1 <= (not s0) after 0
  wait on s0
process p1
  -- drives s0
  s0 <= '1' after 1
  wait
";
        assert_eq!(model(&cases::inverter().m), expected);
    }

    #[test]
    fn a_listing_of_null_and_inertial_assignments() {
        let listed = "\
signal s0 logic bus 'Z'
signal s1 logic register 'H'
signal s2 logic '0'
process p0
  -- drives s0
  -- drives s2
  s0 <= null after 3
  s2 <= '1' after 0
  wait
process p1
  -- drives s0
  -- drives s1
  s1 <= null after (- 2)
  s0 <= 'L' after 0
  s0 <= inertial 'L' after 0
  s1 <= inertial (not s0) after (- 2)
  wait on s0, s1
";
        let blocks = text::model(listed).expect("a listing is a model text");
        assert_eq!(model(&load(&blocks).expect("an accepted model")), listed);
    }

    // Of all codes, and of few, many of them 8, whose letter starts comments elsewhere; most of these tables are refused.
    #[test]
    fn a_listed_table_is_made_again() {
        let mut m = made_again(&cases::inverter().m).expect("an accepted model");
        let mut rng = Rng::new(10);
        for n in 0..300 {
            let codes = [9, 2, 1][n % 3];
            m.rows = vec![[0; 9]; 9];
            m.rows.iter_mut().flatten().for_each(|code| *code = 8 - rng.below(codes) as u8);
            let listed = model(&m);
            assert!(listed.starts_with("signal s0 logic '0'\nsignal s1 logic '0'\ntable\n  "), "{listed}");
            assert_eq!(text::model(&listed), Ok(encode(&m)), "{listed}");
        }
    }

    #[test]
    fn listed_orders_make_the_same_orders() {
        let mut all = vec![6, 0, 0, 0, 7, 0, 0, 0];
        for n in 0..=255 {
            all.extend(cases::orders(&[(cases::PICK, n, 0), (cases::READ, n, 0), (cases::SETTLE, 0, 257 * n as u16)]));
        }
        all.extend((0..=65535).flat_map(|set| cases::orders(&[(session::PICK_SET, 0, set)])));
        assert!(!orders(&all).contains("bytes"));
        assert_eq!(text::orders(&orders(&all)), Ok(all));
    }

    // Bytes near those of the orders' kinds, and any.
    #[test]
    fn listed_bytes_make_the_same_bytes() {
        let small = (0..9).flat_map(|kind| (0..27).map(move |n| [kind, n % 3, n / 3 % 3, n / 9 % 3]));
        let mut rng = Rng::new(8);
        let any: Vec<u8> = (0..40_000).map(|_| rng.below(256) as u8).collect();
        let all = [small.flatten().collect(), any].concat();
        let listed = orders(&all);
        assert_eq!(text::warning(&listed), None);
        assert_eq!(text::orders(&listed), Ok(all));
    }

    #[test]
    fn a_listing_of_orders() {
        for (order, listed) in [
            ([1, 3, 0, 0], "pick 3\n"),
            ([5, 0, 37, 0], "pick 0 2 5\n"),
            ([5, 0, 1, 128], "pick 0 15\n"),
            ([5, 0, 8, 0], "pick set 3\n"),
            ([5, 0, 0, 0], "pick set\n"),
            ([6, 0, 0, 0], "delta\n"),
            ([7, 0, 0, 0], "time\n"),
            ([2, 0, 0, 0], "bytes 2 0 0 0 -- advance, withdrawn\n"),
            ([5, 3, 0, 0], "bytes 5 3 0 0\n"),
            ([6, 0, 1, 0], "bytes 6 0 1 0\n"),
            ([7, 1, 0, 0], "bytes 7 1 0 0\n"),
            ([1, 3, 5, 0], "bytes 1 3 5 0\n"),
            ([2, 0, 0, 1], "bytes 2 0 0 1\n"),
            ([0, 0, 0, 0], "bytes 0 0 0 0\n"),
        ] {
            assert_eq!(orders(&order), listed);
        }
        assert_eq!(orders(&[4, 7, 0, 0, 5, 0, 37]), "read 7\n-- bytes [5, 0, 37]\n");
    }
}
