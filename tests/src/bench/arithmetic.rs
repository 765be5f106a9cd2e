//! The operators on integers, and the faults of expressions.

use super::*;
use crate::integers::*;

/// What is left of a model that assigns an expression to a variable: its value, or
/// the fault and its node with the variable at its start.
fn assigned(b: &Builder, what: &str) -> Result<i32, Failed> {
    let (a, c) = play(b, &[(PICK, 0, 0), (PICK, 0, 0)]);
    let failed = failed_at(&c, 0);
    if failed == NONE {
        assert_eq!(a, [(0, 0, 1, 0, 0, 0), (0, 0, 1, 0, 0, 0)], "{what}");
        return Ok(c.variables[0]);
    }
    let (fault, node) = failed;
    let stopped = [(0, 2, 1, fault as i32, node, 0), (13, 0, 0, 0, 0, 0)];
    assert_eq!(a, stopped, "{what}");
    assert_eq!(c.processes, [process(0, STOPPED, failed, None)], "{what}");
    assert_eq!(c.variables, [5], "{what}");
    Err(failed)
}

#[test]
fn every_operation() {
    for ((x, kind, y), result) in operations() {
        let what = format!("{x} and {y} in node kind {kind}");
        let result = result.map_err(|fault| (fault, 2));
        assert_eq!(assigned(&sum(x, kind, y), &what), result, "{what}");
    }
}

#[test]
fn the_lower_end_negated() {
    let mut b = sum(-TOP, SUM, 0);
    b.m.nodes[2] = NodeRecord {
        kind: 10,
        ..Default::default()
    };
    assert_eq!(assigned(&b, "negated"), Ok(TOP));
}

#[test]
fn a_before_b_before_the_divisor() {
    for (x, kind, y, result) in nested_faults() {
        let what = format!("{x:?} and {y:?} in node kind {kind}");
        assert_eq!(assigned(&nested(x, kind, y), &what), result, "{what}");
    }
}

#[test]
fn the_value_before_its_delay() {
    for (value, delay, (fault, node)) in scheduled_faults() {
        let (a, c) = play(&scheduled(value, delay), &[(PICK, 0, 0)]);
        let standing = if fault == 0 { READY } else { STOPPED };
        assert_eq!(a, [(0, standing, 1, fault as i32, node, 0)]);
        let pending: &[(u64, Carried)] = if fault == 0 { &[(2, Some(2))] } else { &[] };
        assert_eq!(c.drivers[0].wave, pending, "{value:?} after {delay:?}");
    }
}

#[test]
fn a_divisor_of_zero_in_every_role() {
    for kind in [QUOTIENT, MOD, REM] {
        for role in Role::ALL {
            let b = by_zero(kind, role);
            let (a, c) = play(&b, &[(PICK, 0, 0), (PICK, 0, 0), (PICK, 1, 0)]);
            assert_eq!(c.variables, [5]);
            assert_eq!(c.drivers[0].wave, [(1, Some(1))]);
            assert!(c.drivers[1].wave.is_empty());
            if role == Role::Until {
                assert_eq!(a[1], (0, 1, 1, 0, 0, 0));
                assert_eq!(c.processes[0], process(1, WAITING, NONE, Some(5)));
            } else {
                assert_eq!(a[1], (0, 2, 1, 4, 4, 0), "{role:?}");
                assert_eq!(c.processes[0], process(1, STOPPED, (4, 4), None));
            }
        }
        // A wait's condition, asked for when the signal changes: the node is kept,
        // and the rest of the delta step is done.
        let (a, c) = play(&by_zero(kind, Role::Until), &[SET, TIM, DEL, SET, DEL]);
        assert_eq!(a[2..4], [(0, 1, 0, 0, 0, 1), (0, 0, 1, 0, 0, 1)]);
        assert_eq!(a[4].0, 15);
        assert_eq!(c.processes[0], process(1, STOPPED, (4, 4), Some(5)));
        assert_eq!(c.signals[0][0], 1);
    }
}
