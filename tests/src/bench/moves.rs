//! Stored lists of the orders of before, moved over.

use super::*;
use crate::moves::{move_over, moved, session_before, ADVANCE};
use crate::session::ORDER;
use Turn::{Drive, Fail, Null, Wait};

const OLD: Order = STEP;

/// The kinds of the moved orders; all other bytes stay, and where no order 6 or 7 was in
/// the list, answers and end are those of before.
fn kinds(b: &Builder, list: &[Order]) -> Vec<u8> {
    let old = orders(list);
    let new = moved(&b.m, &old);
    assert_eq!(moved(&b.m, &new), new);
    for (old, new) in old.chunks(ORDER).zip(new.chunks(ORDER)) {
        assert_eq!(old[1..], new[1..]);
        assert!(old[0] == ADVANCE || old[0] == new[0]);
    }
    if !list.iter().any(|order| [DELTA, TIME].contains(&order.0)) {
        let room = 4 * old.len();
        let (mut before, mut after) = (vec![1; room], vec![2; room]);
        let model = b.encode();
        assert_eq!(
            session_before(&model, &old, &mut before),
            session(&model, &new, &mut after)
        );
        assert_eq!(before, after);
    }
    new.chunks(ORDER).map(|order| order[0]).collect()
}

#[test]
fn the_inverter() {
    let ten = (SETTLE, 0, 10);
    let list = [ten, OLD, OLD, OLD, ten, OLD, OLD, (READ, 1, 0)];
    assert_eq!(moved(&inverter().m, &orders(&list)), inverter_orders());
    // Played before, it printed what it prints now.
    let mut answers = vec![0; 128];
    assert_eq!(
        session_before(&inverter().encode(), &orders(&list), &mut answers).0,
        0
    );
    let bytes: Vec<(u8, u8)> = answers.chunks(16).map(|a| (a[0], a[1])).collect();
    let steps = [(0, 1), (0, 2), (0, 1), (0, 0), (0, 1), (17, 0)];
    assert_eq!(bytes[1..7], steps);
}

#[test]
fn six_if_both_give_the_answer() {
    // 14 and 15, whatever is due; 11 by an unused byte, in every state.
    for turn in [Drive(3), Fail(3), Wait] {
        let b = team(&[turn, Null, Fail(1)]);
        assert_eq!(kinds(&b, &[(PICK, 0, 0), OLD]), [1, 6]);
        assert_eq!(kinds(&b, &[(SETTLE, 0, 99), OLD, OLD]), [3, 6, 6]);
    }
    let list = [SET, OLD, OLD, OLD, SET, OLD];
    for n in 0..=list.len() {
        let bytes = unused_bytes(ADVANCE);
        let new = kinds(&inverter(), &[&list[..n], &bytes].concat());
        assert_eq!(new[n..], [6; 9]);
    }
}

#[test]
fn the_limits() {
    let list = [&[SET, OLD].repeat(1_000)[..], &[SET, OLD, OLD]].concat();
    // A time step, its delta step and 14; the same one order later; 16 twice.
    for (turns, last) in [
        (999, [7, 3, 6, 6]),
        (1_000, [6, 3, 7, 6]),
        (1_001, [6, 3, 6, 6]),
    ] {
        let new = kinds(&delta_turns(turns), &list);
        assert_eq!(new[1_999..], last, "{turns} delta steps");
    }
    // 18 is order 7's.
    let b = time_turns(2_000_000_001);
    let new = kinds(&b, &[SET, OLD, OLD].repeat(501));
    assert_eq!(new[1_495..1_503], [7, 6, 3, 7, 7, 3, 7, 7]);
}

#[test]
fn orders_six_and_seven_were_unknown() {
    // They change nothing in the run that decides.
    let list = [SET, DEL, OLD, TIM, DEL, OLD, TIM, OLD, (DELTA, 1, 2)];
    assert_eq!(kinds(&inverter(), &list), [3, 6, 6, 7, 6, 7, 7, 6, 6]);
    let list = [DEL, TIM, OLD, SET, TIM, OLD];
    assert_eq!(kinds(&inverter(), &list), [6, 7, 6, 3, 7, 6]);
}

#[test]
fn all_else_stays() {
    let others = [
        (PICK, 0, 0),
        (PICK, 9, 9),
        (SETTLE, 1, 3),
        (READ, 7, 0),
        (PICK_SET, 0, 3),
        (0, 1, 2),
        (8, 0, 0),
        (255, 255, 65_535),
    ];
    assert_eq!(kinds(&inverter(), &others), [1, 1, 3, 4, 5, 0, 8, 255]);
    assert!(kinds(&inverter(), &[]).is_empty());
}

#[test]
fn numbers_and_buffers() {
    let (model, list) = (inverter().encode(), orders(&[SET, OLD]));
    let moves = |model: &[u8], list: &[u8], room: usize| {
        let mut out = vec![0x5A; room];
        let number = move_over(model, list, &mut out);
        if number != 0 {
            assert!(out.iter().all(|&byte| byte == 0x5A));
        }
        (number, out)
    };
    let new = orders(&[SET, DEL]);
    assert_eq!(moves(&model, &list, 8), (0, new));
    for room in [0, 4, 7, 9, 12, 32] {
        assert_eq!(moves(&model, &list, room).0, 10);
    }
    // The model's number first, then the orders' length, then the buffer.
    assert_eq!(moves(&model[1..], &list[1..], 3).0, 1);
    for (length, room) in [(7, 7), (7, 8), (16_388, 16_388), (16_388, 0)] {
        let list = vec![ADVANCE; length];
        assert_eq!(moves(&model, &list, room).0, 9);
    }
    assert_eq!(moves(&model, &[], 0), (0, vec![]));
    assert_eq!(moves(&model, &[], 1).0, 10);
    let longest = [ADVANCE, 0, 0, 0].repeat(4_096);
    assert_eq!(moves(&model, &longest, 16_384).0, 0);
}
