//! Picks of a set.

use super::*;
use Turn::{Drive, Fail, Null, Wait};

/// The answers to these sets, in turn.
fn sets(b: &Builder, list: &[u16]) -> (Vec<Answer>, Config) {
    let orders: Vec<Order> = list.iter().map(|&set| (PICK_SET, 0, set)).collect();
    play(b, &orders)
}

#[test]
fn the_inverter_by_sets() {
    // Its settles as sets: both assign, both wait; then process 0 alone, twice.
    let list = [
        (PICK_SET, 0, 3),
        (PICK_SET, 0, 3),
        DEL,
        TIM,
        DEL,
        (PICK_SET, 0, 1),
        (PICK_SET, 0, 1),
        DEL,
        TIM,
        (READ, 1, 0),
    ];
    let text = "0 0 2 0 0 0\n0 0 2 0 0 0\n0 1 0 0 0 0\n0 2 0 0 0 1\n0 1 0 0 0 1\n\
                0 0 1 0 0 1\n0 0 1 0 0 1\n0 1 0 0 0 1\n17 0 0 0 0 1\n0 0 0 2 0 1\n";
    let model = inverter().encode();
    assert_eq!(print(&model, &orders(&list)), text);
    let mut answers = vec![0; 4 * inverter_orders().len()];
    let (_, end) = session(&model, &inverter_orders(), &mut answers);
    assert_eq!(play(&inverter(), &list).1, end);
}

#[test]
fn each_runs_one_statement() {
    let (a, c) = sets(&inverter(), &[3]);
    assert_eq!(a, [(0, 0, 2, 0, 0, 0)]);
    let ready = |place| process(place, READY, NONE, None);
    assert_eq!(c.processes, [ready(1), ready(3)]);
    let waves: Vec<&[Pending]> = c.drivers.iter().map(|d| &d.wave[..]).collect();
    assert_eq!(waves, [&[(0, Some(3))], &[(1, Some(3))]]);
    // One alone: the other stays.
    let (a, c) = sets(&inverter(), &[2]);
    assert_eq!(a, [(0, 0, 1, 0, 0, 0)]);
    assert_eq!(c.processes, [ready(0), ready(3)]);
}

#[test]
fn the_empty_set() {
    let empty = (PICK_SET, 0, 0);
    let (a, c) = play(&inverter(), &[empty]);
    assert_eq!((a, c), (vec![(0, 0, 0, 0, 0, 0)], play(&inverter(), &[]).1));
    // With none ready, at a later time, and behind a fault.
    let (a, _) = play(&inverter(), &[SET, empty, DEL, TIM, empty]);
    assert_eq!((a[1], a[4]), ((0, 0, 0, 0, 0, 0), (0, 0, 0, 0, 0, 1)));
    let (a, _) = play(&team(&[Fail(1)]), &[SET, empty]);
    assert_eq!(a[1], (0, 0, 0, 0, 0, 0));
}

/// The number of each order's answer, behind these; none changes anything.
fn refusals(b: &Builder, front: &[Order], list: &[Order]) -> Vec<u8> {
    let before = play(b, front).1;
    let (a, after) = play(b, &[front, list].concat());
    assert_eq!(after, before);
    let refused = &a[front.len()..];
    for x in refused {
        assert_eq!((x.1, x.2, x.3, x.4, x.5), (0, 0, 0, 0, before.time));
    }
    refused.iter().map(|x| x.0).collect()
}

#[test]
fn unknown_ones() {
    // Two processes, both ready, beside others that there are not.
    let list = [4, 5, 7, 128, 256, 32_768, 32_771, 65_532, 65_535];
    let list = list.map(|set| (PICK_SET, 0, set));
    assert_eq!(refusals(&inverter(), &[], &list), [12; 9]);
}

#[test]
fn those_not_ready() {
    // Process 0 has stopped, 2 waits; 1 and 3 are ready.
    let (b, front) = mixed_team();
    let stopped = [1, 3, 9, 11].map(|set| (PICK_SET, 0, set));
    let waiting = [4, 6, 12, 14].map(|set| (PICK_SET, 0, set));
    let both = [5, 7, 13, 15].map(|set| (PICK_SET, 0, set));
    for list in [stopped, waiting, both] {
        assert_eq!(refusals(&b, &front, &list), [13; 4]);
    }
    for (set, picks) in [(0, 0), (2, 1), (8, 1), (10, 2)] {
        let (a, _) = play(&b, &[&front[..], &[(PICK_SET, 0, set)]].concat());
        assert_eq!(a[2], (0, 0, picks, 0, 0, 0), "set {set}");
    }
    // At a later time: process 1 of the inverter waits.
    let front = [SET, DEL, TIM, DEL];
    let list = [2, 3].map(|set| (PICK_SET, 0, set));
    assert_eq!(refusals(&inverter(), &front, &list), [13; 2]);
}

#[test]
fn unknown_before_not_ready() {
    let (b, front) = mixed_team();
    let list = [16, 17, 20, 22, 31, 32_769, 65_535].map(|set| (PICK_SET, 0, set));
    assert_eq!(refusals(&b, &front, &list), [12; 7]);
}

#[test]
fn an_unused_byte_before_both() {
    let (b, front) = mixed_team();
    // Else done, 13 and 12.
    for set in [0, 2, 10, 1, 4, 16, 31, 65_535] {
        let list = [1, 2, 128, 255].map(|argument| (PICK_SET, argument, set));
        assert_eq!(refusals(&b, &front, &list), [11; 4]);
    }
}

#[test]
fn byte_one_tells_a_stop_in_the_set() {
    let b = team(&[Drive(3), Fail(1), Wait, Fail(4), Null, Fail(2)]);
    let (a, c) = sets(&b, &[0b010101, 0b000010, 0b010001, 0b101000, 0]);
    assert_eq!(
        a,
        [
            (0, 0, 3, 0, 0, 0),
            // 1 and not the standing; no fault and no node.
            (0, 1, 1, 0, 0, 0),
            // Process 1 has stopped before.
            (0, 0, 2, 0, 0, 0),
            (0, 1, 2, 0, 0, 0),
            (0, 0, 0, 0, 0, 0)
        ]
    );
    let faults: Vec<u8> = c.processes.iter().map(|p| p.fault).collect();
    assert_eq!(faults, [0, 1, 0, 4, 0, 2]);
    assert_eq!(failed_at(&c, 5), (2, 65_535));
    // The lowest, one between, the highest, all.
    for turns in [
        [Fail(1), Null, Null],
        [Null, Fail(2), Wait],
        [Wait, Null, Fail(4)],
        [Fail(1), Fail(2), Fail(4)],
    ] {
        let (a, _) = sets(&team(&turns), &[7]);
        assert_eq!(a, [(0, 1, 3, 0, 0, 0)]);
    }
}

#[test]
fn a_ninth_in_a_set() {
    let b = team(&[Fail(3), Wait]);
    let (a, c) = sets(&b, &[1; 9]);
    assert_eq!(a[..8], [(0, 0, 1, 0, 0, 0); 8]);
    assert_eq!(a[8], (0, 1, 1, 0, 0, 0));
    assert_eq!(c.processes[0], process(8, STOPPED, (3, 65_535), None));
    assert_eq!(c.drivers[0].wave.len(), 8);
}

#[test]
fn as_many_as_there_can_be() {
    let all = |many: usize| team(&vec![Null; many]);
    let (a, c) = sets(&all(16), &[65_535, 65_535, 65_535, 32_768]);
    let (done, refused) = ((0, 0, 16, 0, 0, 0), (13, 0, 0, 0, 0, 0));
    assert_eq!(a, [done, done, refused, refused]);
    assert!(c.processes.iter().all(|p| p.standing == WAITING));
    let (a, _) = sets(&all(15), &[65_535, 32_768, 32_767, 32_767]);
    let (done, refused) = ((0, 0, 15, 0, 0, 0), (12, 0, 0, 0, 0, 0));
    assert_eq!(a, [refused, refused, done, done]);
    // Each alone.
    for p in 0..16 {
        let (a, c) = sets(&all(16), &[1 << p]);
        assert_eq!(a, [(0, 0, 1, 0, 0, 0)]);
        let moved = |n: usize| c.processes[n].place == 2 * n as u16 + 1;
        assert_eq!((0..16).filter(|&n| moved(n)).collect::<Vec<_>>(), [p]);
    }
}

/// Every arrangement of a list.
fn arrangements(list: &[u8]) -> Vec<Vec<u8>> {
    if list.is_empty() {
        return vec![vec![]];
    }
    let first = |n: usize| {
        let rest = [&list[..n], &list[n + 1..]].concat();
        let rest = arrangements(&rest).into_iter();
        rest.map(move |rest| [&[list[n]], &rest[..]].concat())
    };
    (0..list.len()).flat_map(first).collect()
}

#[test]
fn single_picks_in_every_arrangement() {
    let b = team(&[Drive(3), Fail(4), Drive(2), Null, Wait]);
    let (a, end) = sets(&b, &[31]);
    assert_eq!(a, [(0, 1, 5, 0, 0, 0)]);
    let all = arrangements(&[0, 1, 2, 3, 4]);
    assert_eq!(all.len(), 120);
    for list in all {
        let picks: Vec<Order> = list.iter().map(|&p| (PICK, p, 0)).collect();
        let (a, c) = play(&b, &picks);
        assert_eq!(c, end, "{list:?}");
        assert_eq!(a.iter().map(|x| x.2).sum::<u16>(), 5);
    }
}

#[test]
fn members_drive_one_line() {
    // 1 and 0 by two members make X, Z and H of two others H.
    for (codes, value) in [([3, 2], 1), ([4, 7], 7)] {
        let b = team(&codes.map(Drive));
        let (a, c) = play(&b, &[(PICK_SET, 0, 3), (PICK_SET, 0, 3), DEL, (READ, 0, 0)]);
        assert_eq!(a[3].3, value);
        assert_eq!(c.drivers.len(), 2);
    }
}

#[test]
fn unknown_kinds() {
    for kind in [0, 2, 8, 9, 128, 255] {
        assert_eq!(
            refusals(&inverter(), &[], &[(kind, 0, 0), (kind, 0, 3)]),
            [11; 2]
        );
    }
}
