//! Translation of an accepted model to VHDL-93, for GHDL.
//!
//! | model                     | VHDL                                            |
//! |---------------------------|-------------------------------------------------|
//! | signal n                  | `sN`, `std_logic` or `integer`, its start value |
//! | bus or register           | a guarded signal: `std_logic bus`, `.. register`|
//! | its own resolution table  | `own_logic` in place of `std_logic` for signals |
//! | variable n                | `vN` of its process                             |
//! | process n                 | process `pN`: `case pc is`, a branch a statement|
//! | driver without assignment | an assignment in the branch never taken         |
//! | signal a delayed by k     | `sA_dK <= transport sA after k ns`, k = 0 too    |
//! | kind 2                    | `<= transport .. after ..`                      |
//! | kind 6                    | `<= transport null after ..`                    |
//! | kind 7                    | `<= .. after ..`                                |
//! | node kinds 15 to 18       | `*`, `/`, `mod`, `rem`, in parentheses          |
//! | wait on an empty set      | `wait` or `wait for ..`: b is never asked       |
//! | one unit of time          | 1 ns                                            |
//!
//! Every accepted model translates. `Form::Checked` is for comparing: it
//! prints settled values and ends with a failure where the model has fault 1,
//! 2 or 4 or a process runs `STEPS` statements without a wait. Two ends of a
//! model are foreign to VHDL: fault 3 (a ninth transaction) and 16 (1,000
//! delta steps; GHDL has `--stop-delta`). `Form::Bare` is for measuring.
//!
//! Guarded signals in GHDL 2.0, tried in single designs and in random ones: it
//! takes a null waveform of one element in any process, for one driver or
//! several, without a disconnection specification, and does as document 02, item
//! 1, says: drivers start on; a null driver adds nothing to the resolution, so
//! that one - beside a null stays -; with all null a bus is `resolved` of no
//! value, Z, and a register keeps its value; a null that falls due is a delta
//! cycle, also where the value stays. A signal without a driver keeps its start
//! value. As the papers have it, GHDL refuses a null on a signal that is not
//! guarded (20) and a guarded signal without a resolution (5). It does not take a
//! waveform in which a null follows another element, `'1' after 1 ns, null after
//! 2 ns`: that is analysed and then lacks a symbol at elaboration. A translation
//! has no such waveform, so that no model is left out for its guarded signals.
//!
//! `own_logic` is a subtype of `std_ulogic` with a resolution function written from the table
//! (document 02, item 10): of no value Z, of one that value, of more the table over them, one
//! after another. GHDL calls it at first and in each cycle in which the signal is active, and
//! gives it the drivers that are on.
//!
//! Kind 7 is VHDL's assignment without a word for its delay, inertial by default. Tried
//! in single designs and in random ones, GHDL 2.0 does as document 02, item 6, says: of
//! transactions before the new one those of a run of its value stay, a null or another
//! value ends the run, and what is before that goes. It has no limit of eight. No model
//! has an inertial null, so that none tells whether two nulls are equal. Where one
//! driver of a signal is given a transaction after 0 and, before the next cycle, one of
//! its drivers an inertial one after more, GHDL goes through the drivers for one that is
//! due; it fails by itself (an access check in `grt-signals.adb`) at a driver that has
//! nothing pending. Such a run is compared up to there (`ghdlrun`).
//!
//! Delays, of 0 too, are the process by which IEEE 1076-1987, 14.1, defines
//! `sA'delayed (k ns)`, R <= transport S after T, and not the attribute itself: with
//! 0 ns GHDL 2.0 does not do as that process does. Tried in single designs: its
//! implicit signal misses changes (of a signal that starts at 3 and becomes 4, 5 in
//! delta cycles of time 0 and 6, 7, 8 in those of 3 ns it rests at 3, then at 6), and
//! a signal of several drivers at '-' that has the attribute starts as '-' and not as
//! X. By the process document 02, item 4, is what VHDL does: in the cycle in which S
//! changes R still has the value from before, in the next one S's; conditions and
//! statements of a cycle read R after its update. What is not compared:
//! - the first value, which the translation gives to R: 14.1 asks for S's initial one;
//! - what R is when no process runs: it follows S in one cycle more of the same time,
//!   where the earlier value stays until the next delta step;
//! - with that cycle, which GHDL counts, a run that rests at a time after just 1,000
//!   delta steps: there GHDL is allowed one more (`ghdlrun`).

use crate::model::{Model, NodeRecord, StatementRecord, ABSENT, INTEGER, LOGIC};
use crate::values::{self, Table};
use std::collections::BTreeSet;
use std::fmt::Write;

/// What goes beside the model itself.
#[derive(Clone, Copy, PartialEq, Eq)]
pub enum Form {
    Bare,
    Checked,
}

/// Statements without a wait at which the checked form gives up.
pub const STEPS: usize = 5_000;

/// Delays that are not constants go through `span`. In the checked form sums,
/// differences and products go through `ranged`, as GHDL's integers have one value
/// more, and divisors through `divisor`.
const FUNCTIONS: &str = r#"
  function span (n : integer) return time is
  begin
    assert n >= 0 report "fault 2" severity failure;
    return n * 1 ns;
  end span;

  function ranged (n : integer) return integer is
  begin
    assert n /= integer'low report "fault 1" severity failure;
    return n;
  end ranged;

  function divisor (n : integer) return integer is
  begin
    assert n /= 0 report "fault 4" severity failure;
    return n;
  end divisor;

"#;

/// The subtype `own_logic`, whose resolution function has the table.
fn own_logic(t: &mut String, table: &Table) {
    let row = |codes: &[u8; 9]| {
        let entries = codes.map(|code| format!("'{}'", values::LETTERS[code as usize] as char));
        format!("({})", entries.join(", "))
    };
    let rows: Vec<String> = table.iter().map(row).collect();
    let _ = write!(
        t,
        r#"  type own_pairs is array (std_ulogic, std_ulogic) of std_ulogic;
  constant pairs : own_pairs := (
    {});

  function own (v : std_ulogic_vector) return std_ulogic is
    variable r : std_ulogic := 'Z';
  begin
    for n in v'range loop
      if n = v'left then
        r := v (n);
      else
        r := pairs (r, v (n));
      end if;
    end loop;
    return r;
  end own;

  subtype own_logic is own std_ulogic;

"#,
        rows.join(
            ",
    "
        )
    );
}

/// The entity `top` for a model. The checked form prints `@ TIME ns VALUES`
/// once before the first cycle and at the end of each time with an event,
/// logic values as codes.
pub fn translate(m: &Model, form: Form) -> String {
    design(m, form, |t| {
        (0..m.processes.len()).for_each(|p| process(t, m, p, form));
    })
}

/// The same with other text for the processes.
pub(crate) fn design(m: &Model, form: Form, processes: impl Fn(&mut String)) -> String {
    let mut t = String::new();
    t.push_str("library ieee;\nuse ieee.std_logic_1164.all;\nuse std.textio.all;\n\n");
    t.push_str("entity top is\nend top;\n\narchitecture model of top is");
    t.push_str(FUNCTIONS);
    if let Some(table) = m.own_table() {
        own_logic(&mut t, table);
    }
    for n in 0..m.signals.len() {
        let kind = ["", " bus", " register"][m.signals[n].kind as usize];
        signal(&mut t, m, n, &format!("s{n}"), kind, m.signals[n].start);
    }
    let delayed = delays(m);
    for &(n, k) in &delayed {
        signal(&mut t, m, n, &format!("s{n}_d{k}"), "", first_value(m, n));
    }
    t.push_str("begin\n");
    for (n, k) in delayed {
        let _ = writeln!(t, "  s{n}_d{k} <= transport s{n} after {k} ns;");
    }
    processes(&mut t);
    if form == Form::Checked {
        watch(&mut t, m);
    }
    t.push_str("end model;\n");
    t
}

/// A value of type 0 integer, 1 logic or 2 boolean.
pub(crate) fn literal(ty: u8, v: i32) -> String {
    match ty {
        0 => format!("integer'({v})"),
        1 => format!("std_ulogic'('{}')", values::LETTERS[v as usize] as char),
        _ => if v == 0 { "false" } else { "true" }.to_string(),
    }
}

pub(crate) fn type_name(ty: u8) -> &'static str {
    ["integer", "std_logic", "boolean"][ty as usize]
}

fn signal(t: &mut String, m: &Model, n: usize, name: &str, kind: &str, start: i32) {
    let ty = m.signals[n].ty;
    let type_name = match ty {
        LOGIC if m.own_table().is_some() => "own_logic",
        _ => type_name(ty),
    };
    let value = literal(ty, start);
    let _ = writeln!(t, "  signal {name} : {type_name}{kind} := {value};");
}

/// The signals and delays that nodes read.
fn delays(m: &Model) -> BTreeSet<(usize, i32)> {
    m.nodes
        .iter()
        .filter(|n| n.kind == 5)
        .map(|n| (n.a as usize, n.k))
        .collect()
}

/// A signal's first current value: the resolution of its drivers, each at
/// the start value.
fn first_value(m: &Model, n: usize) -> i32 {
    let start = m.signals[n].start;
    let drivers = m.drivers.iter().filter(|d| d.signal as usize == n).count();
    if m.signals[n].ty == INTEGER || drivers == 0 {
        return start;
    }
    values::resolve_by(m.table(), &vec![start as u8; drivers]) as i32
}

fn process(t: &mut String, m: &Model, p: usize, form: Form) {
    let _ = writeln!(t, "  p{p} : process");
    let first = m.processes[p].first as usize;
    let end = first + m.processes[p].count as usize;
    let _ = writeln!(t, "    variable pc : integer := {first};");
    if form == Form::Checked {
        t.push_str("    variable steps : integer := 0;\n");
    }
    variables(t, m, p);
    t.push_str("  begin\n");
    if form == Form::Checked {
        t.push_str("    steps := steps + 1;\n");
        let _ = writeln!(
            t,
            "    assert steps < {STEPS} report \"no wait\" severity failure;"
        );
    }
    t.push_str("    case pc is\n");
    for n in first..end {
        let next = if n + 1 == end { first } else { n + 1 };
        let text = Text { m, form }.statement(&m.statements[n], next);
        let _ = writeln!(t, "      when {n} => {text}");
    }
    t.push_str("      when others =>\n        null;\n");
    for d in m.drivers.iter().filter(|d| d.process as usize == p) {
        let _ = writeln!(t, "        s{0} <= s{0};", d.signal);
    }
    t.push_str("    end case;\n  end process;\n");
}

/// The variables of a process.
pub(crate) fn variables(t: &mut String, m: &Model, p: usize) {
    for (n, v) in m
        .variables
        .iter()
        .enumerate()
        .filter(|(_, v)| v.process as usize == p)
    {
        let _ = writeln!(
            t,
            "    variable v{n} : {} := {};",
            type_name(v.ty),
            literal(v.ty, v.start)
        );
    }
}

/// Writes statements and expressions.
#[derive(Clone, Copy)]
struct Text<'m> {
    m: &'m Model,
    form: Form,
}

impl Text<'_> {
    /// One statement, with the move of the place.
    fn statement(self, s: &StatementRecord, next: usize) -> String {
        let StatementRecord { kind, a, b, c, .. } = *s;
        match kind {
            0 => format!("pc := {next};"),
            1 => format!("v{a} := {}; pc := {next};", self.expr(b)),
            2 | 7 => {
                let transport = if kind == 2 { "transport " } else { "" };
                let (value, delay) = (self.expr(b), self.delay(c));
                format!("s{a} <= {transport}{value} after {delay}; pc := {next};")
            }
            3 => format!(
                "if {} then pc := {next}; else pc := {a}; end if;",
                self.expr(b)
            ),
            4 => format!("pc := {a};"),
            6 => {
                let delay = self.delay(c);
                format!("s{a} <= transport null after {delay}; pc := {next};")
            }
            _ => {
                let rest = if self.form == Form::Checked {
                    " steps := 0;"
                } else {
                    ""
                };
                format!("{}; pc := {next};{rest}", self.wait(s))
            }
        }
    }

    fn wait(self, s: &StatementRecord) -> String {
        let mut t = String::from("wait");
        let set: Vec<String> = (0..32)
            .filter(|n| s.set >> n & 1 == 1)
            .map(|n| format!("s{n}"))
            .collect();
        if !set.is_empty() {
            let _ = write!(t, " on {}", set.join(", "));
            if s.b != ABSENT {
                let _ = write!(t, " until {}", self.expr(s.b));
            }
        }
        if s.c != ABSENT {
            let _ = write!(t, " for {}", self.delay(s.c));
        }
        t
    }

    /// A delay: a constant as a literal, any other through `span`.
    fn delay(self, n: u16) -> String {
        let node = &self.m.nodes[n as usize];
        if node.kind == 1 && node.k >= 0 {
            format!("{} ns", node.k)
        } else {
            format!("span ({})", self.expr(n))
        }
    }

    fn expr(self, n: u16) -> String {
        let NodeRecord { kind, a, b, k } = self.m.nodes[n as usize];
        let pair = |op: &str| format!("({} {op} {})", self.expr(a), self.expr(b));
        let ranged = |op: &str| match self.form {
            Form::Bare => pair(op),
            Form::Checked => format!("ranged {}", pair(op)),
        };
        let divided = |op: &str| match self.form {
            Form::Bare => pair(op),
            Form::Checked => format!("({} {op} divisor ({}))", self.expr(a), self.expr(b)),
        };
        match kind {
            1 => literal(0, k),
            2 => literal(1, k),
            3 => format!("v{a}"),
            4 => format!("s{a}"),
            5 => format!("s{a}_d{k}"),
            6 => format!("(not {})", self.expr(a)),
            7 => pair("and"),
            8 => pair("or"),
            9 => pair("xor"),
            10 => format!("(- {})", self.expr(a)),
            11 => ranged("+"),
            12 => ranged("-"),
            13 => pair("="),
            14 => pair("<"),
            15 => ranged("*"),
            16 => divided("/"),
            17 => divided("mod"),
            _ => divided("rem"),
        }
    }
}

/// The process that prints settled values: postponed, so that it runs in
/// the last delta of a time.
fn watch(t: &mut String, m: &Model) {
    t.push_str("  watch : postponed process\n    variable l : line;\n  begin\n");
    t.push_str("    write (l, string'(\"@ \"));\n    write (l, now, right, 0, 1 ns);\n");
    for (n, s) in m.signals.iter().enumerate() {
        let value = if s.ty == INTEGER {
            format!("s{n}")
        } else {
            format!("std_ulogic'pos (s{n})")
        };
        let _ = writeln!(t, "    write (l, ' ');\n    write (l, {value});");
    }
    t.push_str("    writeline (output, l);\n");
    let names: Vec<String> = (0..m.signals.len()).map(|n| format!("s{n}")).collect();
    let on = if names.is_empty() { "" } else { " on " };
    let _ = writeln!(t, "    wait{on}{};", names.join(", "));
    t.push_str("  end process;\n");
}

#[cfg(test)]
mod tests {
    use super::*;
    use crate::builder::Builder;

    fn has(text: &str, lines: &[&str]) {
        for line in lines {
            assert!(
                text.lines().any(|l| l.trim() == *line),
                "no line {line} in\n{text}"
            );
        }
    }

    #[test]
    fn guarded_signals() {
        let mut b = Builder::new();
        let (bus, register) = (b.bus(2), b.register(8));
        let (one, past) = (b.integer(1), b.delayed(bus, 3));
        let minus = b.integer(-1);
        b.process();
        b.driver(0, bus);
        b.driver(0, register);
        b.release(bus, one);
        b.release(register, minus);
        b.schedule(register, past, one);
        has(
            &translate(&b.m, Form::Checked),
            &[
                "signal s0 : std_logic bus := std_ulogic'('0');",
                "signal s1 : std_logic register := std_ulogic'('-');",
                // What is read from the past is no guarded signal.
                "signal s0_d3 : std_logic := std_ulogic'('0');",
                "when 0 => s0 <= transport null after 1 ns; pc := 1;",
                "when 1 => s1 <= transport null after span (integer'(-1)); pc := 2;",
                "when 2 => s1 <= transport s0_d3 after 1 ns; pc := 0;",
            ],
        );
    }

    #[test]
    fn own_table() {
        let mut b = Builder::new();
        let (line, number) = (b.bus(8), b.signal(INTEGER, 4));
        let v = b.variable(LOGIC, 0, 3);
        let (past, one, read) = (b.delayed(line, 0), b.integer(1), b.read_variable(v));
        for p in 0..2 {
            b.process();
            b.driver(p, line);
            b.schedule(line, [read, past][p as usize], one);
        }
        b.driver(1, number);
        let standard = translate(&b.m, Form::Checked);
        assert!(!standard.contains("own"));
        let mut table = values::STANDARD;
        table[8][8] = 5;
        b.table(&table);
        has(
            &translate(&b.m, Form::Checked),
            &[
                "('U', 'X', '0', '1', 'Z', 'W', 'L', 'H', 'X'),",
                "('U', 'X', 'X', 'X', 'X', 'X', 'X', 'X', 'W'));",
                "subtype own_logic is own std_ulogic;",
                "signal s0 : own_logic bus := std_ulogic'('-');",
                // Two drivers at '-' give W from the first.
                "signal s0_d0 : own_logic := std_ulogic'('W');",
                "signal s1 : integer := integer'(4);",
                "variable v0 : std_logic := std_ulogic'('1');",
            ],
        );
    }

    #[test]
    fn transport_and_inertial() {
        let mut b = Builder::new();
        let s = b.signal(LOGIC, 2);
        let v = b.variable(INTEGER, 0, 3);
        let (high, one, read) = (b.logic(3), b.integer(1), b.read_variable(v));
        b.process();
        b.driver(0, s);
        b.schedule(s, high, one);
        b.inertial(s, high, one);
        b.inertial(s, high, read);
        has(
            &translate(&b.m, Form::Checked),
            &[
                "when 0 => s0 <= transport std_ulogic'('1') after 1 ns; pc := 1;",
                "when 1 => s0 <= std_ulogic'('1') after 1 ns; pc := 2;",
                "when 2 => s0 <= std_ulogic'('1') after span (v0); pc := 0;",
            ],
        );
    }

    #[test]
    fn operators() {
        let mut b = Builder::new();
        let v = b.variable(INTEGER, 0, -7);
        let (low, read) = (b.integer(-2_147_483_647), b.read_variable(v));
        let product = b.binary(15, low, read);
        b.process();
        for kind in 16..19 {
            let division = b.binary(kind, product, read);
            b.assign(v, division);
        }
        let checked = translate(&b.m, Form::Checked);
        let bare = translate(&b.m, Form::Bare);
        for (n, op) in ["/", "mod", "rem"].into_iter().enumerate() {
            let a = "(integer'(-2147483647) * v0)";
            let line =
                |value: String| format!("when {n} => v0 := ({value}); pc := {};", (n + 1) % 3);
            has(&checked, &[&line(format!("ranged {a} {op} divisor (v0)"))]);
            has(&bare, &[&line(format!("{a} {op} v0"))]);
        }
    }

    /// The paper's inverter.
    #[test]
    fn inverter() {
        let mut b = Builder::new();
        let (i, o) = (b.signal(LOGIC, 2), b.signal(LOGIC, 2));
        let (zero, one, high) = (b.integer(0), b.integer(1), b.logic(3));
        let read = b.read_signal(i);
        let not = b.unary(6, read);
        b.process();
        b.driver(0, o);
        b.schedule(o, not, zero);
        b.wait(1 << i, ABSENT, ABSENT);
        b.process();
        b.driver(1, i);
        b.schedule(i, high, one);
        b.wait(0, ABSENT, ABSENT);
        has(
            &translate(&b.m, Form::Bare),
            &[
                "signal s1 : std_logic := std_ulogic'('0');",
                "when 0 => s1 <= transport (not s0) after 0 ns; pc := 1;",
                "when 1 => wait on s0; pc := 0;",
                "when 2 => s0 <= transport std_ulogic'('1') after 1 ns; pc := 3;",
                "when 3 => wait; pc := 2;",
            ],
        );
    }

    #[test]
    fn waits_and_delays() {
        let mut b = Builder::new();
        let s = b.signal(LOGIC, 8);
        let n = b.signal(INTEGER, -4);
        let (earlier, past) = (b.delayed(s, 0), b.delayed(s, 31));
        let same = b.binary(13, earlier, past);
        let (minus, read) = (b.integer(-1), b.delayed(n, 2));
        let sum = b.binary(11, read, minus);
        for p in 0..2 {
            b.process();
            b.driver(p, s);
            b.wait(3, same, sum);
            b.wait(0, same, minus);
        }
        has(
            &translate(&b.m, Form::Checked),
            &[
                // Two drivers at '-' give X from the first.
                "signal s0 : std_logic := std_ulogic'('-');",
                "signal s0_d0 : std_logic := std_ulogic'('X');",
                "signal s0_d31 : std_logic := std_ulogic'('X');",
                "s0_d0 <= transport s0 after 0 ns;",
                "s0_d31 <= transport s0 after 31 ns;",
                "s1_d2 <= transport s1 after 2 ns;",
                "when 0 => wait on s0, s1 until (s0_d0 = s0_d31) \
                 for span (ranged (s1_d2 + integer'(-1))); pc := 1; steps := 0;",
                "when 1 => wait for span (integer'(-1)); pc := 0; steps := 0;",
                "s0 <= s0;",
            ],
        );
    }
}
