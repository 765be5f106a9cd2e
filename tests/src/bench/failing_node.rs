//! The node that failed, in answers, in the configuration and in the text.

use super::*;
use crate::integers::*;

/// A pick of a process.
const fn pick(process: u8) -> Order {
    (PICK, process, 0)
}

/// A pick's answer: the new standing with its fault and node.
fn picked(standing: u8, (fault, node): Failed) -> Answer {
    (0, standing, 1, fault as i32, node, 0)
}

#[test]
fn the_first_node_that_fails() {
    for (name, b, failed) in failing_expressions() {
        let (a, c) = play(&b, &[pick(0)]);
        let standing = if failed == NONE { READY } else { STOPPED };
        let place = (failed == NONE) as u16;
        assert_eq!(a, [picked(standing, failed)], "{name}");
        let expected = process(place, standing, failed, None);
        assert_eq!(c.processes, [expected], "{name}");
    }
}

#[test]
fn the_bytes_of_an_answer() {
    let bytes = |b: &Builder, order: [u8; 4]| {
        let mut answer = [0xAA; 16];
        assert_eq!(session(&b.encode(), &order, &mut answer).0, 0);
        answer[..8].to_vec()
    };
    let (number, model, _) = failing_expressions().pop().unwrap();
    assert_eq!(number, "node 399 fails");
    // 399 is 1 times 256 and 143.
    assert_eq!(bytes(&model, [1, 0, 0, 0]), [0, 2, 1, 0, 4, 0, 143, 1]);
    assert_eq!(bytes(&model, [3, 0, 9, 0]), [0, 0, 1, 0, 0, 0, 0, 0]);
    assert_eq!(bytes(&model, [6, 0, 0, 0]), [14, 0, 0, 0, 0, 0, 0, 0]);
    let mut b = Builder::new();
    let minus = b.integer(-1);
    b.signal(INTEGER, -2);
    b.process();
    b.wait(0, ABSENT, minus);
    assert_eq!(bytes(&b, [1, 0, 0, 0]), [0, 2, 1, 0, 2, 0, 255, 255]);
    assert_eq!(bytes(&b, [4, 0, 0, 0]), [0, 0, 0, 0, 254, 255, 255, 255]);
}

#[test]
fn no_node_for_faults_2_and_3() {
    let (none_2, none_3) = ((2, 65_535), (3, 65_535));
    let minus = (-1, SUM, 0);
    for (b, before, failed) in [
        (scheduled(minus, minus), 0, none_2),
        (wait_for(minus), 0, none_2),
        (null_after(-1, 0), 8, none_2),
        (line(&[1, 2, 3, 4, 5, 6, 7, 8, 9]), 8, none_3),
        (null_after(9, 0), 8, none_3),
    ] {
        let (a, c) = play(&b, &[(SETTLE, 0, before), pick(0)]);
        assert_eq!(a[1], picked(STOPPED, failed));
        assert_eq!(c.processes, [process(before, STOPPED, failed, None)]);
    }
}

#[test]
fn a_skipped_operand_has_no_fault() {
    for (left, kind, place) in [
        (false, 7, Some(0)),
        (true, 8, Some(1)),
        (true, 7, None),
        (false, 8, None),
        (false, 9, None),
        (true, 9, None),
    ] {
        let (standing, failed) = match place {
            Some(_) => (READY, NONE),
            None => (STOPPED, (4, 2)),
        };
        let (a, c) = play(&decided(left, kind), &[pick(0)]);
        assert_eq!(a, [picked(standing, failed)], "{left}, kind {kind}");
        let expected = process(place.unwrap_or(0), standing, failed, None);
        assert_eq!(c.processes, [expected], "{left}, kind {kind}");
    }
}

#[test]
fn one_node_in_several_trees() {
    let failed = (4, 2);
    let stopped = [0, 1, 2].map(|place| process(place, STOPPED, failed, None));
    let (a, c) = play(&shared_node(), &[pick(2), pick(0), pick(1)]);
    assert_eq!(a, [picked(STOPPED, failed); 3]);
    assert_eq!(c.processes, stopped);
    // A settle tells no fault; the configuration has them all the same.
    let (a, c) = play(&shared_node(), &[SET]);
    assert_eq!(a, [(0, 0, 3, 0, 0, 0)]);
    assert_eq!(c.processes, stopped);
}

#[test]
fn conditions_that_fail_in_a_delta_step() {
    let b = failing_conditions();
    let list = [SET, TIM, DEL, pick(1), pick(2), pick(3), SET, DEL];
    let (a, c) = play(&b, &list[..3]);
    assert_eq!(a[2], (0, 1, 0, 0, 0, 1));
    let deadline = Some(TOP as u64);
    let stopped = [
        process(2, STOPPED, (4, 3), deadline),
        process(3, STOPPED, (1, 6), None),
    ];
    assert_eq!(c.processes[1..3], stopped);
    assert_eq!(c.processes[0], process(1, WAITING, NONE, None));
    assert_eq!(c.processes[3], process(4, READY, NONE, None));
    // A refused pick of a stopped process tells nothing of it, and it stays.
    let (a, c) = play(&b, &list);
    assert_eq!(
        a[3..],
        [
            (13, 0, 0, 0, 0, 1),
            (13, 0, 0, 0, 0, 1),
            (0, 1, 1, 0, 0, 1),
            (0, 0, 0, 0, 0, 1),
            (15, 0, 0, 0, 0, 1)
        ]
    );
    assert_eq!(c.processes[1..3], stopped);
}

#[test]
fn value_and_node_in_the_text() {
    let text = |b: &Builder, list: &[Order]| print(&b.encode(), &orders(list));
    let list = [pick(0), pick(0), pick(1), SET, DEL, (READ, 0, 0), (2, 0, 0)];
    assert_eq!(
        text(&shared_node(), &list),
        "0 2 1 4 2 0\n13 0 0 0 0 0\n0 2 1 4 2 0\n0 0 1 0 0 0\n15 0 0 0 0 0\n\
         19 0 0 0 0 0\n11 0 0 0 0 0\n"
    );
    let list = [pick(0), SET, TIM, DEL, (READ, 0, 0), pick(1)];
    assert_eq!(
        text(&failing_conditions(), &list),
        "0 0 1 0 0 0\n0 0 4 0 0 0\n0 2 0 0 0 1\n0 1 0 0 0 1\n0 0 0 -1 0 1\n13 0 0 0 0 1\n"
    );
    let ninth = line(&[1, 2, 3, 4, 5, 6, 7, 8, 9]);
    let list = [(SETTLE, 0, 8), pick(0)];
    assert_eq!(text(&ninth, &list), "0 1 8 0 0 0\n0 2 1 3 65535 0\n");
}

#[test]
fn no_node_at_first() {
    let (_, c) = play(&shared_node(), &[]);
    let first = [0, 1, 2].map(|place| process(place, READY, NONE, None));
    assert_eq!(c.processes, first);
}
