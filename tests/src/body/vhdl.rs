//! Translation of a body to a VHDL process, for GHDL: the text's own statements, with the
//! signals and variables of its model (`crate::vhdl`).
//!
//! | text                      | VHDL                                             |
//! |---------------------------|--------------------------------------------------|
//! | `s <= e after e`          | `<= transport .. after ..`                       |
//! | `wait` without `on`       | the set is written, delayed signals as `sN`      |
//! | `until` with an empty set | left out: it is never asked                      |
//! | `(s delayed k)`           | `sN_dK`                                          |
//! | driver without assignment | an assignment in a branch that is never taken    |
//!
//! The checked form ends with a failure where the text has fault 1, 2 or 4, or runs `STEPS`
//! statements without a wait.

use super::records::waits_on;
use super::tree::*;
use crate::model::{Model, INTEGER, LOGIC};
use crate::vhdl::{design, literal, variables, Form, STEPS};
use std::fmt::Write;

/// The entity `top` for a body and its model.
pub fn translate(body: &Body, m: &Model, form: Form) -> String {
    design(m, form, |t| {
        let text = Text { body, form };
        t.push_str("  p0 : process\n");
        if form == Form::Checked {
            t.push_str("    variable steps : integer := 0;\n");
        }
        variables(t, m, 0);
        t.push_str("  begin\n");
        for d in &m.drivers {
            let s = d.signal;
            let _ = writeln!(t, "    if false then s{s} <= s{s}; end if;");
        }
        text.list(t, &body.list, 2);
        t.push_str("  end process;\n");
    })
}

#[derive(Clone, Copy)]
struct Text<'b> {
    body: &'b Body,
    form: Form,
}

impl Text<'_> {
    fn list(self, t: &mut String, list: &List, depth: usize) {
        let line = |t: &mut String, depth: usize, text: &str| {
            let _ = writeln!(t, "{}{text}", "  ".repeat(depth));
        };
        for s in list {
            if self.form == Form::Checked {
                line(t, depth, "steps := steps + 1;");
                let limit = format!("assert steps < {STEPS} report \"no wait\" severity failure;");
                line(t, depth, &limit);
            }
            match s {
                Statement::Null => line(t, depth, "null;"),
                Statement::Assign(v, e) => {
                    line(t, depth, &format!("v{v} := {};", self.expression(*e)))
                }
                Statement::Schedule(s, e, delay) => {
                    let (value, delay) = (self.expression(*e), self.delay(*delay));
                    let text = format!("s{s} <= transport {value} after {delay};");
                    line(t, depth, &text);
                }
                Statement::Wait(w) => {
                    line(t, depth, &self.wait(w));
                    if self.form == Form::Checked {
                        line(t, depth, "steps := 0;");
                    }
                }
                Statement::If(e, then, other) => {
                    line(t, depth, &format!("if {} then", self.expression(*e)));
                    self.list(t, then, depth + 1);
                    line(t, depth, "else");
                    self.list(t, other, depth + 1);
                    line(t, depth, "end if;");
                }
                Statement::While(e, list) => {
                    line(t, depth, &format!("while {} loop", self.expression(*e)));
                    self.list(t, list, depth + 1);
                    if self.form == Form::Checked {
                        // The next turn's test is a statement that is run.
                        line(t, depth + 1, "steps := steps + 1;");
                    }
                    line(t, depth, "end loop;");
                }
            }
        }
    }

    fn wait(self, w: &Wait) -> String {
        let mut t = String::from("wait");
        let set = waits_on(self.body, w);
        let names = (0..32).filter(|n| set >> n & 1 == 1);
        let names: Vec<String> = names.map(|n| format!("s{n}")).collect();
        if !names.is_empty() {
            let _ = write!(t, " on {}", names.join(", "));
            if let Some(e) = w.until {
                let _ = write!(t, " until {}", self.expression(e));
            }
        }
        if let Some(e) = w.span {
            let _ = write!(t, " for {}", self.delay(e));
        }
        t + ";"
    }

    fn delay(self, e: usize) -> String {
        match self.body.expressions[e] {
            Expression::Integer(k) => format!("{k} ns"),
            _ => format!("span ({})", self.expression(e)),
        }
    }

    fn expression(self, e: usize) -> String {
        let (kind, a, b) = match self.body.expressions[e] {
            Expression::Integer(k) => return literal(INTEGER, k),
            Expression::Logic(code) => return literal(LOGIC, code.into()),
            Expression::Variable(v) => return format!("v{v}"),
            Expression::Signal(s) => return format!("s{s}"),
            Expression::Delayed(s, k) => return format!("s{s}_d{k}"),
            Expression::One(NOT, a) => return format!("(not {})", self.expression(a)),
            Expression::One(_, a) => return format!("(- {})", self.expression(a)),
            Expression::Two(kind, a, b) => (kind, a, b),
        };
        let row = OPERATORS.iter().find(|row| row.1 == kind);
        let word = row.expect("it is an operator").0;
        let (a, b) = (self.expression(a), self.expression(b));
        match (self.form, word) {
            (Form::Checked, "+" | "-" | "*") => format!("ranged ({a} {word} {b})"),
            (Form::Checked, "/" | "mod" | "rem") => format!("({a} {word} divisor ({b}))"),
            _ => format!("({a} {word} {b})"),
        }
    }
}

#[cfg(test)]
mod tests {
    use super::super::limits::all_given;
    use super::super::parser::parse;
    use super::super::records::{given, model};
    use super::*;

    #[test]
    fn statements() {
        let text = b"v0:=((s2+1)/(s0 delayed 3));s1<=(not v1)after v0;\
            if(v0<1)then wait until(s2=(s4 delayed 1))for 2;else wait until v2;end if;\
            while(v1='L')loop wait on s3;null;end loop;";
        let m = model(text, &given(&all_given())).expect("it is accepted");
        let body = parse(text).expect("it is a sentence");
        let checked = translate(&body, &m, Form::Checked);
        let bare = translate(&body, &m, Form::Bare);
        for line in [
            "v0 := (ranged (s2 + integer'(1)) / divisor (s0_d3));",
            "s1 <= transport (not v1) after span (v0);",
            "if (v0 < integer'(1)) then",
            "wait on s2, s4 until (s2 = s4_d1) for 2 ns;",
            "wait;",
            "while (v1 = std_ulogic'('L')) loop",
            "wait on s3;",
            "end loop;",
            "if false then s31 <= s31; end if;",
            "steps := 0;",
        ] {
            let has = checked.lines().any(|l| l.trim() == line);
            assert!(has, "no line {line} in\n{checked}");
        }
        assert!(bare.contains("v0 := ((s2 + integer'(1)) / s0_d3);"));
        assert!(!bare.contains("steps"));
    }
}
