//! What sessions show of picks of a set, by name. A session with set orders is played
//! again order by order; the processes are looked at before and after each of them.

use super::Seen;
use crate::cycle::*;
use crate::model::*;
use crate::session::{self, ANSWER, DELTA, ORDER, PICK, PICK_SET, SETTLE, TIME};

/// A set order and what came of it.
struct SetOrder<'m> {
    m: &'m Model,
    set: u16,
    refusal: u8,
    /// The processes before and after.
    before: &'m [Process],
    after: &'m [Process],
    /// When it is played: the time, and delta steps at this time.
    time: u64,
    delta: u32,
    /// The order right before, if that was a set order: its set and its refusal.
    last: Option<(u16, u8)>,
}

impl SetOrder<'_> {
    fn has(&self, p: usize) -> bool {
        self.set >> p & 1 == 1
    }

    fn lowest(&self) -> usize {
        self.set.trailing_zeros() as usize
    }

    fn highest(&self) -> usize {
        15 - self.set.leading_zeros() as usize
    }

    /// The known processes in the set, or outside of it, for which this holds.
    fn known(&self, inside: bool, holds: impl Fn(usize) -> bool) -> Vec<usize> {
        let all = 0..self.before.len();
        all.filter(|&p| self.has(p) == inside && holds(p)).collect()
    }

    fn members(&self) -> Vec<usize> {
        self.known(true, |_| true)
    }

    fn unknown(&self) -> bool {
        (self.before.len()..16).any(|p| self.has(p))
    }

    /// The members that stood so before, and that stand so behind it.
    fn stood(&self, standing: u8) -> Vec<usize> {
        self.known(true, |p| self.before[p].standing == standing)
    }

    fn stand(&self, standing: u8) -> Vec<usize> {
        self.known(true, |p| self.after[p].standing == standing)
    }

    /// The other processes that stand so, before it and behind it.
    fn others(&self, standing: u8) -> Vec<usize> {
        self.known(false, |p| self.before[p].standing == standing)
    }

    /// Is such a ready process left out of a set that has members?
    fn left_out(&self, is: impl Fn(usize) -> bool) -> bool {
        self.set != 0 && self.others(READY).into_iter().any(is)
    }

    /// Is a process ready behind it?
    fn ready(&self) -> bool {
        self.after.iter().any(|p| p.standing == READY)
    }

    /// The statements that members ran without a fault.
    fn ran(&self) -> Vec<&StatementRecord> {
        let done = self.known(true, |p| self.after[p].standing != STOPPED);
        let places = done.into_iter().map(|p| self.before[p].place);
        places.map(|n| &self.m.statements[n as usize]).collect()
    }

    fn kind(&self, kind: u8) -> bool {
        self.ran().iter().any(|s| s.kind == kind)
    }

    /// The signals whose drivers were given a transaction, one for each.
    fn given(&self) -> Vec<u16> {
        let ran = self.ran().into_iter();
        ran.filter(|s| assigns_signal(s)).map(|s| s.a).collect()
    }

    /// Did a member stop with this fault?
    fn fault(&self, number: u8) -> bool {
        let stopped = self.stand(STOPPED);
        stopped.into_iter().any(|p| self.after[p].fault == number)
    }

    /// Did one of several members alone stop, and such a one?
    fn alone(&self, is: impl Fn(usize) -> bool) -> bool {
        let stopped = self.stand(STOPPED);
        self.members().len() > 1 && stopped.len() == 1 && is(stopped[0])
    }

    /// The refusal that the set has, its argument aside.
    fn of_set(&self) -> u8 {
        match self.unknown() {
            true => 12,
            false if self.stood(READY) != self.members() => 13,
            false => 0,
        }
    }
}

type Row = (&'static str, fn(&SetOrder) -> bool);

/// Done sets of several processes, but for one of all that there can be.
pub const SEVERAL: [&str; 2] = [
    "a set of two processes",
    "a set of three to fifteen processes",
];

/// What a done set order can show but for processes that stop.
const DONE: &[Row] = &[
    ("the empty set, a process ready", |o| {
        o.set == 0 && o.ready()
    }),
    ("the empty set, none ready", |o| o.set == 0 && !o.ready()),
    ("a set of one process", |o| o.members().len() == 1),
    (SEVERAL[0], |o| o.members().len() == 2),
    (SEVERAL[1], |o| (3..16).contains(&o.members().len())),
    ("a set of all 16 processes", |o| o.set == u16::MAX),
    ("a set of all processes of fewer", |o| {
        o.members().len() == o.before.len() && o.set != u16::MAX
    }),
    ("a set of all that are ready, others not", |o| {
        let waiting = !o.others(WAITING).is_empty();
        o.set != 0 && waiting && o.others(READY).is_empty()
    }),
    ("a ready process below the set", |o| {
        o.left_out(|p| p < o.lowest())
    }),
    ("a ready process between its members", |o| {
        o.left_out(|p| o.lowest() < p && p < o.highest())
    }),
    ("a ready process above the set", |o| {
        o.left_out(|p| p > o.highest())
    }),
    ("a set with process 15", |o| o.has(15)),
    ("a set of processes above 7 alone", |o| {
        o.set != 0 && o.lowest() > 7
    }),
    ("a set with processes 7 and 8", |o| o.has(7) && o.has(8)),
    ("all members ready behind it", |o| {
        o.set != 0 && o.stand(READY) == o.members()
    }),
    ("all members wait behind it, another is ready", |o| {
        let wait = o.stand(WAITING) == o.members();
        o.set != 0 && wait && o.ready()
    }),
    ("all members wait behind it, none is ready", |o| {
        let wait = o.stand(WAITING) == o.members();
        o.set != 0 && wait && !o.ready()
    }),
    ("a member ready, another waiting behind it", |o| {
        !o.stand(READY).is_empty() && !o.stand(WAITING).is_empty()
    }),
    ("a member runs a null", |o| o.kind(0)),
    ("a member assigns a variable", |o| o.kind(1)),
    ("a member runs a transport assignment", |o| o.kind(2)),
    ("a member runs `unless`", |o| o.kind(3)),
    ("a member runs `go to`", |o| o.kind(4)),
    ("a member runs a wait", |o| o.kind(5)),
    ("a member runs a null transaction", |o| o.kind(6)),
    ("a member runs an inertial assignment", |o| o.kind(7)),
    ("members run statements of three kinds", |o| {
        (0..8).filter(|&kind| o.kind(kind)).count() >= 3
    }),
    ("two members give drivers of one signal", |o| {
        let given = o.given();
        let again = |n: usize| given[..n].contains(&given[n]);
        (0..given.len()).any(again)
    }),
    ("two members give drivers of two signals", |o| {
        let given = o.given();
        given.iter().any(|s| *s != given[0])
    }),
    ("a member goes back to its first statement", |o| {
        let first = |p: usize| o.m.processes[p].first;
        let back = |p: usize| o.before[p].place > first(p) && o.after[p].place == first(p);
        !o.known(true, back).is_empty()
    }),
    ("a set after a delta step", |o| o.set != 0 && o.delta > 0),
    ("a set at a later time", |o| o.set != 0 && o.time > 0),
    ("the same set once more", |o| {
        o.set != 0 && o.last == Some((o.set, 0))
    }),
    ("another set right behind a set", |o| {
        let other = |(set, refusal)| refusal == 0 && set & o.set == 0 && set != 0;
        o.set != 0 && o.last.is_some_and(other)
    }),
];

const STEPPED: &str = "a step done right behind a set";
const SETTLED: &str = "a settle that picks right behind a set";
const PICKED: &str = "a pick of a member right behind a set";

/// What a done set order can show of processes that stop, or have.
const STOPS: &[Row] = &[
    ("a member stops with fault 1", |o| o.fault(1)),
    ("a member stops with fault 2", |o| o.fault(2)),
    ("a member stops with fault 3", |o| o.fault(3)),
    ("a member stops with fault 4", |o| o.fault(4)),
    ("members stop with different faults", |o| {
        (1..5).filter(|&number| o.fault(number)).count() > 1
    }),
    ("a set of one, which stops", |o| {
        o.members().len() == 1 && !o.stand(STOPPED).is_empty()
    }),
    ("all of several members stop", |o| {
        o.members().len() > 1 && o.stand(STOPPED) == o.members()
    }),
    ("several of the members stop, not all", |o| {
        let stopped = o.stand(STOPPED).len();
        1 < stopped && stopped < o.members().len()
    }),
    ("the lowest member alone stops", |o| {
        o.alone(|p| p == o.lowest())
    }),
    ("the highest member alone stops", |o| {
        o.alone(|p| p == o.highest())
    }),
    ("a member between alone stops", |o| {
        o.alone(|p| o.lowest() < p && p < o.highest())
    }),
    ("process 0 stops", |o| o.stand(STOPPED).contains(&0)),
    ("process 15 stops", |o| o.stand(STOPPED).contains(&15)),
    ("a member stops, one is ready behind it", |o| {
        !o.stand(STOPPED).is_empty() && o.ready()
    }),
    ("a member stops, none is ready behind it", |o| {
        !o.stand(STOPPED).is_empty() && !o.ready()
    }),
    ("none stops, another had stopped before", |o| {
        let stopped = !o.others(STOPPED).is_empty();
        o.set != 0 && o.stand(STOPPED).is_empty() && stopped
    }),
    ("a member stops, another had before", |o| {
        !o.stand(STOPPED).is_empty() && !o.others(STOPPED).is_empty()
    }),
    ("the empty set, a process had stopped", |o| {
        o.set == 0 && !o.others(STOPPED).is_empty()
    }),
    ("a set done right behind a refused one", |o| {
        let refused = |(_, refusal)| refusal == 12 || refusal == 13;
        o.set != 0 && o.last.is_some_and(refused)
    }),
];

/// What a refused set order can show.
const REFUSED: &[Row] = &[
    ("11 by the argument, else 12", |o| {
        o.refusal == 11 && o.of_set() == 12
    }),
    ("11 by the argument, else 13", |o| {
        o.refusal == 11 && o.of_set() == 13
    }),
    ("11 by the argument, else done", |o| {
        o.refusal == 11 && o.of_set() == 0 && o.set != 0
    }),
    ("11 by the argument, the empty set", |o| {
        o.refusal == 11 && o.set == 0
    }),
    ("12, all known members ready", |o| {
        let ready = o.stood(READY);
        o.refusal == 12 && !ready.is_empty() && ready == o.members()
    }),
    ("12, a known member not ready", |o| {
        o.refusal == 12 && o.stood(READY) != o.members()
    }),
    ("12, no known member", |o| {
        o.refusal == 12 && o.members().is_empty()
    }),
    ("12 by the process right above the last", |o| {
        let last = o.before.len();
        o.refusal == 12 && o.highest() == last
    }),
    ("12 by process 15 alone", |o| {
        let others = o.set & !(1 << 15);
        o.refusal == 12 && others >> o.before.len() == 0
    }),
    ("13, no member ready", |o| {
        o.refusal == 13 && o.stood(READY).is_empty()
    }),
    ("13, the highest member alone not ready", |o| {
        let members = o.members();
        o.refusal == 13 && members.len() > 1 && o.stood(READY) == members[..members.len() - 1]
    }),
    ("13, the lowest member alone not ready", |o| {
        let members = o.members();
        o.refusal == 13 && members.len() > 1 && o.stood(READY) == members[1..]
    }),
    ("13, a ready process not in the set", |o| {
        o.refusal == 13 && !o.others(READY).is_empty()
    }),
    ("13 by waiting members", |o| {
        o.refusal == 13 && o.stood(STOPPED).is_empty()
    }),
    ("13 by stopped members", |o| {
        o.refusal == 13 && o.stood(WAITING).is_empty()
    }),
    ("13 by waiting and stopped members", |o| {
        o.refusal == 13 && !o.stood(WAITING).is_empty() && !o.stood(STOPPED).is_empty()
    }),
];

/// What a played session can show, but for processes that stop and refusals.
pub fn in_sessions() -> Vec<&'static str> {
    let done = DONE.iter().map(|row| row.0);
    done.chain([STEPPED, SETTLED, PICKED]).collect()
}

/// The processes that stop and the refusals among what a played session can show.
pub fn faults() -> Vec<&'static str> {
    let all = STOPS.iter().chain(REFUSED);
    all.map(|row| row.0).collect()
}

/// What a session's orders show on an accepted model.
pub fn of_session(m: &Model, orders: &[u8]) -> Seen {
    let mut seen = Seen::new();
    let orders: Vec<&[u8]> = orders.chunks_exact(ORDER).collect();
    let Some(end) = orders.iter().rposition(|order| order[0] == PICK_SET) else {
        return seen;
    };
    let mut c = Config::first(m);
    let mut last = None;
    // Up to the order behind the last set order.
    for order in orders.into_iter().take(end + 2) {
        let is_set = order[0] == PICK_SET;
        let before = is_set.then(|| c.processes.clone());
        let (time, delta, mut answer) = (c.time, c.delta, [0; ANSWER]);
        session::play(m, &mut c, order, &mut answer);
        let (refusal, set) = (answer[0], u16::from_le_bytes([order[2], order[3]]));
        if let Some(before) = before {
            let rows: &[&[Row]] = if refusal == 0 {
                &[DONE, STOPS]
            } else {
                &[REFUSED]
            };
            let order = SetOrder {
                m,
                set,
                refusal,
                before: &before,
                after: &c.processes,
                time,
                delta,
                last,
            };
            let shown = rows.iter().copied().flatten().filter(|row| row.1(&order));
            seen.extend(shown.map(|row| row.0));
            last = Some((set, refusal));
        } else {
            seen.extend(last.and_then(|set| behind(set, order, &answer)));
            last = None;
        }
    }
    seen
}

/// What a done order right behind a set order shows, by that one's set and refusal.
fn behind((set, refusal): (u16, u8), order: &[u8], answer: &[u8]) -> Option<&'static str> {
    if set == 0 || refusal != 0 || answer[0] != 0 {
        return None;
    }
    match order[0] {
        DELTA | TIME => Some(STEPPED),
        SETTLE if answer[2..4] != [0, 0] => Some(SETTLED),
        PICK if set >> order[1] & 1 == 1 => Some(PICKED),
        _ => None,
    }
}

#[cfg(test)]
mod tests {
    use super::*;
    use crate::builder::Builder;
    use crate::cases::*;
    use Turn::{Drive, Fail, Null, Wait};

    const ALL: Order = (SETTLE, 0, 99);

    fn set(set: u16) -> Order {
        (PICK_SET, 0, set)
    }

    /// Those of the names that the orders show on a model, in their order.
    fn shown(names: &[&'static str], b: &Builder, list: &[Order]) -> Vec<&'static str> {
        let seen = of_session(&b.m, &orders(list));
        let had = names.iter().filter(|what| seen.contains(*what));
        had.copied().collect()
    }

    fn names(rows: &[Row]) -> Vec<&'static str> {
        rows.iter().map(|row| row.0).collect()
    }

    /// What a team's orders show of sets and of how they leave their processes.
    fn sets(turns: &[Turn], list: &[Order]) -> Vec<&'static str> {
        let names = &names(DONE)[..18];
        assert_eq!(names[17], "a member ready, another waiting behind it");
        shown(names, &team(turns), list)
    }

    #[test]
    fn sizes() {
        let ready = "all members ready behind it";
        let (one, [two, more]) = ("a set of one process", SEVERAL);
        let sixteen = "a set of all 16 processes";
        let (fewer, last) = ("a set of all processes of fewer", "a set with process 15");
        assert_eq!(
            sets(&[Null; 16], &[set(65_535)]),
            [sixteen, last, "a set with processes 7 and 8", ready]
        );
        assert_eq!(
            sets(&[Null; 16], &[set(65_280)]),
            [
                more,
                "a ready process below the set",
                last,
                "a set of processes above 7 alone",
                ready
            ]
        );
        assert_eq!(
            sets(&[Null; 16], &[set(5)]),
            [
                two,
                "a ready process between its members",
                "a ready process above the set",
                ready
            ]
        );
        assert_eq!(sets(&[Null; 3], &[set(7)]), [more, fewer, ready]);
        assert_eq!(sets(&[Null; 2], &[set(3)]), [two, fewer, ready]);
        assert_eq!(sets(&[Null], &[set(1)]), [one, fewer, ready]);
        let others = "a set of all that are ready, others not";
        let list = [(PICK, 0, 0), set(6)];
        assert_eq!(sets(&[Wait, Null, Null], &list), [two, others, ready]);
    }

    #[test]
    fn the_empty_set() {
        let (ready, none) = (DONE[0].0, DONE[1].0);
        assert_eq!(sets(&[Null], &[set(0)]), [ready]);
        assert_eq!(sets(&[Null], &[ALL, set(0)]), [none]);
        assert!(sets(&[Null], &[ALL, TIM]).is_empty());
    }

    #[test]
    fn standings() {
        let behind = |turns: &[Turn], list: &[Order]| {
            let names = sets(turns, list).into_iter();
            let behind = names.filter(|name| name.contains("behind it"));
            behind.collect::<Vec<_>>()
        };
        let another = "all members wait behind it, another is ready";
        let none = "all members wait behind it, none is ready";
        let both = "a member ready, another waiting behind it";
        assert_eq!(behind(&[Wait, Null], &[set(1)]), [another]);
        assert_eq!(behind(&[Wait, Wait], &[set(3)]), [none]);
        assert_eq!(behind(&[Wait, Null], &[set(3)]), [both]);
        // Of one that stops neither.
        assert!(behind(&[Fail(1), Wait], &[set(3)]).is_empty());
    }

    #[test]
    fn statements() {
        let mut b = Builder::new();
        let (s, v) = (b.bus(4), b.variable(INTEGER, 0, 0));
        let (one, high) = (b.integer(1), b.logic(3));
        let less = b.binary(14, one, one);
        b.driver(0, s);
        b.process();
        b.null();
        b.assign(v, one);
        b.schedule(s, high, one);
        b.unless(less, 4);
        b.go(5);
        b.wait(0, ABSENT, ABSENT);
        b.release(s, one);
        b.inertial(s, high, one);
        let kinds = &names(DONE)[18..26];
        for kind in 0..8 {
            let mut b = b.clone();
            b.go(8);
            b.m.statements.swap(0, kind);
            assert_eq!(shown(kinds, &b, &[set(1)]), [kinds[kind]]);
        }
        // The last of its statements is followed by the first.
        let back = ["a member goes back to its first statement"];
        let mut b = Builder::new();
        b.process();
        b.null();
        b.null();
        assert!(shown(&back, &b, &[set(1)]).is_empty());
        assert_eq!(shown(&back, &b, &[set(1), set(1)]), back);
    }

    #[test]
    fn members_side_by_side() {
        let names = [
            "members run statements of three kinds",
            "two members give drivers of one signal",
            "two members give drivers of two signals",
        ];
        let of = |turns: &[Turn], set: Order| shown(&names, &team(turns), &[set]);
        assert_eq!(of(&[Null, Drive(2), Wait], set(7)), names[..1]);
        assert!(of(&[Null, Drive(2), Wait], set(3)).is_empty());
        assert_eq!(of(&[Drive(2), Drive(3)], set(3)), names[1..2]);
        assert!(of(&[Drive(2), Drive(3)], set(2)).is_empty());
        assert_eq!(shown(&names, &inverter(), &[set(3)]), names[2..]);
        // Nothing is given where a process stops.
        assert!(of(&[Drive(2), Fail(1), Fail(4)], set(7)).is_empty());
    }

    #[test]
    fn times() {
        let names = ["a set after a delta step", "a set at a later time"];
        let of = |list: &[Order]| shown(&names, &inverter(), list);
        assert!(of(&[set(3)]).is_empty());
        assert_eq!(of(&[ALL, DEL, TIM, DEL, set(1)]), names);
        // The line wakes process 1 at time 0.
        let mut b = team(&[Drive(3), Wait]);
        b.m.statements[2].set = 1;
        assert_eq!(shown(&names, &b, &[ALL, DEL, set(2)]), names[..1]);
        assert!(shown(&names, &b, &[ALL, DEL, set(0)]).is_empty());
    }

    #[test]
    fn one_order_behind_another() {
        let names = [
            "the same set once more",
            "another set right behind a set",
            STEPPED,
            SETTLED,
            PICKED,
            "a set done right behind a refused one",
        ];
        let of = |list: &[Order]| shown(&names, &team(&[Drive(2), Null]), list);
        assert_eq!(of(&[set(1), set(1)]), names[..1]);
        assert_eq!(of(&[set(1), set(2)]), names[1..2]);
        assert!(of(&[set(1), set(3)]).is_empty());
        assert!(of(&[set(1), (READ, 0, 0), set(1)]).is_empty());
        assert_eq!(of(&[set(3), set(3), DEL])[1..], [STEPPED]);
        assert!(of(&[set(3), DEL]).is_empty());
        assert_eq!(of(&[set(1), ALL]), [SETTLED]);
        assert!(of(&[set(1), (SETTLE, 0, 0)]).is_empty());
        assert_eq!(of(&[set(1), (PICK, 0, 0)]), [PICKED]);
        assert!(of(&[set(1), (PICK, 1, 0)]).is_empty());
        assert!(of(&[set(4), (PICK, 0, 0)]).is_empty());
        assert_eq!(of(&[set(4), set(1)]), names[5..]);
        assert!(of(&[set(4), set(0)]).is_empty());
    }

    #[test]
    fn stops() {
        let names = names(STOPS);
        let of = |turns: &[Turn], list: &[Order]| shown(&names, &team(turns), list);
        let fault = |n: usize| names[n - 1];
        let (ready, none) = (
            "a member stops, one is ready behind it",
            "a member stops, none is ready behind it",
        );
        let (alone, first) = ("a set of one, which stops", "process 0 stops");
        assert_eq!(
            of(&[Fail(1), Null], &[set(3)]),
            [fault(1), "the lowest member alone stops", first, ready]
        );
        assert_eq!(
            of(&[Null, Fail(2)], &[set(3)]),
            [fault(2), "the highest member alone stops", ready]
        );
        assert_eq!(
            of(&[Wait, Fail(4), Wait], &[set(7)]),
            [fault(4), "a member between alone stops", none]
        );
        assert!(of(&[Fail(3)], &[set(1); 8]).is_empty());
        assert_eq!(of(&[Fail(3)], &[set(1); 9]), [fault(3), alone, first, none]);
        assert_eq!(
            of(&[Fail(1), Fail(1)], &[set(3)]),
            [fault(1), "all of several members stop", first, none]
        );
        assert_eq!(
            of(&[Fail(4); 16], &[set(32_768)]),
            [fault(4), alone, "process 15 stops", ready]
        );
        assert_eq!(
            of(&[Fail(1), Fail(4), Null], &[set(7)]),
            [
                fault(1),
                fault(4),
                "members stop with different faults",
                "several of the members stop, not all",
                first,
                ready
            ]
        );
        // Another process had stopped.
        let before = |turn: Turn, set: Order| of(&[Fail(1), turn], &[(PICK, 0, 0), set]);
        let had = "none stops, another had stopped before";
        assert_eq!(before(Null, set(2)), [had]);
        let had = "a member stops, another had before";
        assert_eq!(before(Fail(2), set(2)), [fault(2), alone, none, had]);
        let had = "the empty set, a process had stopped";
        assert_eq!(before(Null, set(0)), [had]);
    }

    #[test]
    fn refusals() {
        let (b, front) = mixed_team();
        let of = |order: Order| {
            let list = [&front[..], &[order]].concat();
            shown(&names(REFUSED), &b, &list)
        };
        let name = |order: Order| of(order)[0];
        assert_eq!(name((PICK_SET, 1, 16)), "11 by the argument, else 12");
        assert_eq!(name((PICK_SET, 1, 1)), "11 by the argument, else 13");
        assert_eq!(name((PICK_SET, 1, 2)), "11 by the argument, else done");
        assert_eq!(name((PICK_SET, 1, 0)), "11 by the argument, the empty set");
        let [known, unready, unknown, above, last] = [4, 5, 6, 7, 8].map(|n| REFUSED[n].0);
        assert_eq!(of(set(16)), [unknown, above]);
        assert_eq!(of(set(18)), [known, above]);
        assert_eq!(of(set(20)), [unready, above]);
        assert_eq!(of(set(22)), [unready, above]);
        assert_eq!(of(set(32_770)), [known, last]);
        assert_eq!(of(set(32_784)), [unknown]);
        let [none, highest, lowest] = [9, 10, 11].map(|n| REFUSED[n].0);
        let [other, waiting, stopped, both] = [12, 13, 14, 15].map(|n| REFUSED[n].0);
        assert_eq!(of(set(1)), [none, other, stopped]);
        assert_eq!(of(set(4)), [none, other, waiting]);
        assert_eq!(of(set(5)), [none, other, both]);
        assert_eq!(of(set(3)), [lowest, other, stopped]);
        assert_eq!(of(set(12)), [lowest, other, waiting]);
        assert_eq!(of(set(6)), [highest, other, waiting]);
        assert_eq!(of(set(14)), [waiting]);
        assert_eq!(of(set(15)), [both]);
        assert!(of(set(10)).is_empty());
    }
}
