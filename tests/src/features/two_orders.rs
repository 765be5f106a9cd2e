//! What sessions show of delta steps and time steps as two orders, and of order 2, which is
//! withdrawn, by name. A session is played again order by order; what is due is looked at
//! before each of these orders.

use super::Seen;
use crate::cycle::*;
use crate::model::Model;
use crate::moves::ADVANCE;
use crate::session::{self, ANSWER, DELTA, ORDER, READ, TIME};

/// What is due at a time.
#[derive(Clone, Copy, Default, PartialEq)]
struct Due {
    transaction: bool,
    deadline: bool,
}

impl Due {
    fn at(c: &Config, time: u64) -> Due {
        let deadline = |p: &Process| p.standing == WAITING && p.deadline == Some(time);
        Due {
            transaction: c.drivers.iter().any(|d| d.wave.iter().any(|t| t.0 == time)),
            deadline: c.processes.iter().any(deadline),
        }
    }

    fn any(self) -> bool {
        self.transaction || self.deadline
    }
}

/// One of these orders and what came of it.
struct StepOrder {
    kind: u8,
    unused: [u8; 3],
    refusal: u8,
    /// Before it: is a process ready, is one stopped?
    ready: bool,
    stopped: bool,
    time: u64,
    delta: u32,
    /// What is due now, the earliest later time with something due, and that.
    now: Due,
    later: Option<u64>,
    then: Due,
    /// The order right before, and the one before that: kind and refusal.
    last: [Option<(u8, u8)>; 2],
}

impl StepOrder {
    fn new(c: &Config, order: &[u8], last: [Option<(u8, u8)>; 2]) -> StepOrder {
        let any = |standing: u8| c.processes.iter().any(|p| p.standing == standing);
        let transactions = c.drivers.iter().flat_map(|d| d.wave.iter().map(|t| t.0));
        let waiting = c.processes.iter().filter(|p| p.standing == WAITING);
        let all = transactions.chain(waiting.filter_map(|p| p.deadline));
        let later = all.filter(|&due| due > c.time).min();
        StepOrder {
            kind: order[0],
            unused: [order[1], order[2], order[3]],
            refusal: 0,
            ready: any(READY),
            stopped: any(STOPPED),
            time: c.time,
            delta: c.delta,
            now: Due::at(c, c.time),
            later,
            then: later.map_or(Due::default(), |time| Due::at(c, time)),
            last,
        }
    }

    /// The refusal that such an order has by what is due, all processes waiting.
    fn by_due(&self, kind: u8) -> u8 {
        match (kind, self.now.any(), self.later) {
            (DELTA, false, _) => 22,
            (DELTA, true, _) => 16 * (self.delta >= DELTA_LIMIT) as u8,
            (_, true, _) => 23,
            (_, false, None) => 17,
            (_, false, Some(due)) => 18 * (due > TIME_LIMIT) as u8,
        }
    }

    /// The refusal that the order has, its unused bytes aside.
    fn else_refused(&self) -> u8 {
        match (self.ready, self.stopped) {
            (true, _) => 14,
            (_, true) => 15,
            _ => self.by_due(self.kind),
        }
    }

    fn done(&self, kind: u8) -> bool {
        self.kind == kind && self.refusal == 0
    }

    fn refused(&self, kind: u8, refusal: u8) -> bool {
        self.kind == kind && self.refusal == refusal
    }

    /// Refused by a process, and by what is due it has this number.
    fn hides(&self, kind: u8, refusal: u8, by_due: u8) -> bool {
        let both = self.ready && self.stopped;
        self.refused(kind, refusal) && !both && self.by_due(kind) == by_due
    }

    fn both(&self, kind: u8) -> bool {
        self.refused(kind, 14) && self.stopped
    }

    /// Is this unused byte alone set, in an order that would be done?
    fn byte(&self, kind: u8, n: usize) -> bool {
        let alone = (0..3).all(|b| (self.unused[b] != 0) == (b + 1 == n));
        self.refused(kind, 11) && alone && self.else_refused() == 0
    }

    fn behind(&self, kind: u8, refusal: u8) -> bool {
        self.last[0] == Some((kind, refusal))
    }

    /// Behind a read that is done, which is behind such a step.
    fn read_between(&self, kind: u8) -> bool {
        self.last == [Some((READ, 0)), Some((kind, 0))]
    }

    fn units(&self) -> u64 {
        self.later.map_or(0, |due| due - self.time)
    }

    /// Order 2 as it could be before: does it have this answer?
    fn advance(&self, refusal: u8, step: u8) -> bool {
        let rests = !self.ready && !self.stopped;
        let fits = |kind: u8| rests && self.by_due(kind) == refusal;
        self.kind == ADVANCE && self.unused == [0; 3] && fits(step)
    }
}

type Row = (&'static str, fn(&StepOrder) -> bool);

const TRANSACTION: Due = Due {
    transaction: true,
    deadline: false,
};
const DEADLINE: Due = Due {
    transaction: false,
    deadline: true,
};
const BOTH: Due = Due {
    transaction: true,
    deadline: true,
};

/// What a done step can show.
const DONE: &[Row] = &[
    ("6 with a transaction due", |o| {
        o.done(DELTA) && o.now == TRANSACTION
    }),
    ("6 with a deadline due", |o| {
        o.done(DELTA) && o.now == DEADLINE
    }),
    ("6 with a transaction and a deadline due", |o| {
        o.done(DELTA) && o.now == BOTH
    }),
    ("7 to a transaction", |o| {
        o.done(TIME) && o.then == TRANSACTION
    }),
    ("7 to a deadline", |o| o.done(TIME) && o.then == DEADLINE),
    ("7 to a transaction and a deadline", |o| {
        o.done(TIME) && o.then == BOTH
    }),
    ("6 with something due later too", |o| {
        o.done(DELTA) && o.later.is_some()
    }),
    ("6 with nothing due later", |o| {
        o.done(DELTA) && o.later.is_none()
    }),
    ("6 at time 0", |o| o.done(DELTA) && o.time == 0),
    ("6 at a later time", |o| o.done(DELTA) && o.time > 0),
    ("6 after two delta steps at this time", |o| {
        o.done(DELTA) && o.delta > 1
    }),
    ("7 without a delta step before it", |o| {
        o.done(TIME) && o.delta == 0
    }),
    ("7 after one delta step at this time", |o| {
        o.done(TIME) && o.delta == 1
    }),
    ("7 after several delta steps at this time", |o| {
        o.done(TIME) && o.delta > 1
    }),
    ("7 by one unit", |o| o.done(TIME) && o.units() == 1),
    ("7 by 2 to 31 units", |o| {
        o.done(TIME) && (2..32).contains(&o.units())
    }),
    ("7 by more than 31 units", |o| {
        o.done(TIME) && o.units() > 31
    }),
];

/// What a done step can show of the orders before it.
const BEHIND: &[Row] = &[
    ("6 right behind a time step", |o| {
        o.done(DELTA) && o.behind(TIME, 0)
    }),
    ("7 right behind a delta step", |o| {
        o.done(TIME) && o.behind(DELTA, 0)
    }),
    ("a read between a delta step and a time step", |o| {
        o.done(TIME) && o.read_between(DELTA)
    }),
    ("a read between a time step and a delta step", |o| {
        o.done(DELTA) && o.read_between(TIME)
    }),
    ("6 done right behind 7's 23", |o| {
        o.done(DELTA) && o.behind(TIME, 23)
    }),
    ("7 done right behind 6's 22", |o| {
        o.done(TIME) && o.behind(DELTA, 22)
    }),
    ("6 done right behind order 2", |o| {
        o.done(DELTA) && o.behind(ADVANCE, 11)
    }),
    ("7 done right behind order 2", |o| {
        o.done(TIME) && o.behind(ADVANCE, 11)
    }),
];

/// What a refused one can show.
const REFUSED: &[Row] = &[
    ("6: 14, else done", |o| o.hides(DELTA, 14, 0)),
    ("6: 14, else 22", |o| o.hides(DELTA, 14, 22)),
    ("6: 14, another process stopped", |o| o.both(DELTA)),
    ("6: 15, else done", |o| o.hides(DELTA, 15, 0)),
    ("6: 15, else 22", |o| o.hides(DELTA, 15, 22)),
    ("6: 22, something due later", |o| {
        o.refused(DELTA, 22) && o.later.is_some()
    }),
    ("6: 22, nothing ever due", |o| {
        o.refused(DELTA, 22) && o.later.is_none()
    }),
    ("6: 22 without a delta step before it", |o| {
        o.refused(DELTA, 22) && o.delta == 0
    }),
    ("6: 22 right behind a delta step", |o| {
        o.refused(DELTA, 22) && o.behind(DELTA, 0)
    }),
    ("7: 14, else done", |o| o.hides(TIME, 14, 0)),
    ("7: 14, else 17", |o| o.hides(TIME, 14, 17)),
    ("7: 14, else 23", |o| o.hides(TIME, 14, 23)),
    ("7: 14, another process stopped", |o| o.both(TIME)),
    ("7: 15, else done", |o| o.hides(TIME, 15, 0)),
    ("7: 15, else 17", |o| o.hides(TIME, 15, 17)),
    ("7: 15, else 23", |o| o.hides(TIME, 15, 23)),
    ("7: 23 by a transaction", |o| {
        o.refused(TIME, 23) && o.now == TRANSACTION
    }),
    ("7: 23 by a deadline", |o| {
        o.refused(TIME, 23) && o.now == DEADLINE
    }),
    ("7: 23, something due later too", |o| {
        o.refused(TIME, 23) && o.later.is_some()
    }),
    ("7: 23, nothing due later", |o| {
        o.refused(TIME, 23) && o.later.is_none()
    }),
    ("7: 23 right behind a time step", |o| {
        o.refused(TIME, 23) && o.behind(TIME, 0)
    }),
    ("7: 23 after a delta step at this time", |o| {
        o.refused(TIME, 23) && o.delta > 0
    }),
    ("6: 11 by byte 1, else done", |o| o.byte(DELTA, 1)),
    ("6: 11 by byte 2, else done", |o| o.byte(DELTA, 2)),
    ("6: 11 by byte 3, else done", |o| o.byte(DELTA, 3)),
    ("6: 11, else 14", |o| {
        o.refused(DELTA, 11) && o.else_refused() == 14
    }),
    ("7: 11 by byte 1, else done", |o| o.byte(TIME, 1)),
    ("7: 11 by byte 2, else done", |o| o.byte(TIME, 2)),
    ("7: 11 by byte 3, else done", |o| o.byte(TIME, 3)),
    ("7: 11, else 14", |o| {
        o.refused(TIME, 11) && o.else_refused() == 14
    }),
    ("2 where a delta step would be done", |o| {
        o.advance(0, DELTA)
    }),
    ("2 where a time step would be done", |o| o.advance(0, TIME)),
    ("2 where a process is ready", |o| {
        o.kind == ADVANCE && o.unused == [0; 3] && o.ready
    }),
    ("2 where nothing is ever due", |o| o.advance(17, TIME)),
    ("2 with an unused byte set", |o| {
        o.kind == ADVANCE && o.unused != [0; 3]
    }),
];

/// What a played session can show of steps that are done.
pub fn in_sessions() -> Vec<&'static str> {
    DONE.iter().map(|row| row.0).collect()
}

/// What it can show of the orders before those, and of steps that are refused.
pub fn others() -> Vec<&'static str> {
    let all = BEHIND.iter().chain(REFUSED);
    all.map(|row| row.0).collect()
}

/// What a session's orders show on an accepted model.
pub fn of_session(m: &Model, orders: &[u8]) -> Seen {
    let mut seen = Seen::new();
    let mut c = Config::first(m);
    let mut last = [None; 2];
    for order in orders.chunks_exact(ORDER) {
        let is_step = [DELTA, TIME, ADVANCE].contains(&order[0]);
        let before = is_step.then(|| StepOrder::new(&c, order, last));
        let mut answer = [0; ANSWER];
        session::play(m, &mut c, order, &mut answer);
        if let Some(mut step) = before {
            step.refusal = answer[0];
            let rows: &[&[Row]] = if step.refusal == 0 {
                &[DONE, BEHIND]
            } else {
                &[REFUSED]
            };
            let shown = rows.iter().copied().flatten().filter(|row| row.1(&step));
            seen.extend(shown.map(|row| row.0));
        }
        last = [Some((order[0], answer[0])), last[0]];
    }
    seen
}

#[cfg(test)]
mod tests {
    use super::*;
    use crate::builder::Builder;
    use crate::cases::*;
    use crate::model::ABSENT;
    use Turn::{Drive, Fail, Null, Wait};

    const ALL: Order = (SETTLE, 0, 99);
    const OLD: Order = STEP;

    /// What the last order shows behind the others.
    fn shown(b: &Builder, list: &[Order]) -> Vec<&'static str> {
        let of = |list: &[Order]| of_session(&b.m, &orders(list));
        let before = of(&list[..list.len() - 1]);
        let all = [in_sessions(), others()].concat().into_iter();
        all.filter(|what| of(list).contains(what) && !before.contains(what))
            .collect()
    }

    /// A process that waits for each of these times in turn.
    fn waits(times: &[i32]) -> Builder {
        let mut b = Builder::new();
        b.process();
        for &time in times {
            let time = b.integer(time);
            b.wait(0, ABSENT, time);
        }
        b.wait(0, ABSENT, ABSENT);
        b
    }

    #[test]
    fn done_steps() {
        assert_eq!(
            shown(&inverter(), &[ALL, DEL]),
            [
                "6 with a transaction due",
                "6 with something due later too",
                "6 at time 0"
            ]
        );
        assert_eq!(
            shown(&inverter(), &[ALL, DEL, TIM]),
            [
                "7 to a transaction",
                "7 after one delta step at this time",
                "7 by one unit",
                "7 right behind a delta step"
            ]
        );
        assert_eq!(
            shown(&inverter(), &[ALL, DEL, TIM, DEL]),
            [
                "6 with nothing due later",
                "6 at a later time",
                "6 right behind a time step"
            ]
        );
        let alone = "7 without a delta step before it";
        assert_eq!(
            shown(&waits(&[2]), &[ALL, TIM]),
            ["7 to a deadline", alone, "7 by 2 to 31 units"]
        );
        assert_eq!(
            shown(&waits(&[32]), &[ALL, TIM])[2..],
            ["7 by more than 31 units"]
        );
        assert_eq!(
            shown(&waits(&[0]), &[ALL, DEL]),
            [
                "6 with a deadline due",
                "6 with nothing due later",
                "6 at time 0"
            ]
        );
        let list = [ALL, DEL, ALL, DEL, ALL, DEL];
        assert_eq!(
            shown(&waits(&[0; 3]), &list),
            ["6 after two delta steps at this time"]
        );
        let list = [ALL, DEL, ALL, DEL, ALL, TIM];
        let several = "7 after several delta steps at this time";
        assert!(shown(&waits(&[0, 0, 1]), &list).contains(&several));
        // A transaction and a deadline at one time.
        let mut b = line(&[1]);
        let one = b.integer(1);
        b.m.statements[1].c = one;
        assert!(shown(&b, &[ALL, TIM]).contains(&"7 to a transaction and a deadline"));
        let both = "6 with a transaction and a deadline due";
        assert!(shown(&b, &[ALL, TIM, DEL]).contains(&both));
    }

    #[test]
    fn one_behind_another() {
        let of = |list: &[Order]| {
            let seen = shown(&inverter(), list);
            let behind = BEHIND.iter().map(|row| row.0);
            behind
                .filter(|name| seen.contains(name))
                .collect::<Vec<_>>()
        };
        let read = (READ, 0, 0);
        let between = [
            "a read between a delta step and a time step",
            "a read between a time step and a delta step",
        ];
        assert_eq!(of(&[ALL, DEL, read, TIM]), between[..1]);
        assert_eq!(of(&[ALL, DEL, TIM, read, DEL]), between[1..]);
        assert!(of(&[ALL, DEL, (READ, 9, 0), TIM]).is_empty());
        assert_eq!(of(&[ALL, TIM, DEL]), ["6 done right behind 7's 23"]);
        assert_eq!(of(&[ALL, DEL, DEL, TIM]), ["7 done right behind 6's 22"]);
        assert_eq!(of(&[ALL, OLD, DEL]), ["6 done right behind order 2"]);
        assert_eq!(of(&[ALL, DEL, OLD, TIM]), ["7 done right behind order 2"]);
    }

    #[test]
    fn refused_by_processes() {
        let one = |b: &Builder, list: &[Order]| -> Vec<&'static str> { shown(b, list) };
        let front = [(PICK, 0, 0)];
        let with = |order: Order| [&front[..], &[order]].concat();
        // Something is due now, or not; the other process is ready.
        let (due, none) = (team(&[Drive(3), Null]), team(&[Null, Null]));
        assert_eq!(one(&due, &with(DEL)), ["6: 14, else done"]);
        assert_eq!(one(&none, &with(DEL)), ["6: 14, else 22"]);
        assert_eq!(one(&due, &with(TIM)), ["7: 14, else 23"]);
        assert_eq!(one(&none, &with(TIM)), ["7: 14, else 17"]);
        let later = [(PICK, 1, 0), TIM];
        assert_eq!(one(&inverter(), &later), ["7: 14, else done"]);
        let both = team(&[Fail(1), Null]);
        assert_eq!(one(&both, &with(DEL)), ["6: 14, another process stopped"]);
        assert_eq!(one(&both, &with(TIM)), ["7: 14, another process stopped"]);
        // One is stopped and none ready.
        let (due, none) = (team(&[Drive(3), Fail(1)]), team(&[Wait, Fail(1)]));
        assert_eq!(one(&due, &[ALL, DEL]), ["6: 15, else done"]);
        assert_eq!(one(&none, &[ALL, DEL]), ["6: 15, else 22"]);
        assert_eq!(one(&due, &[ALL, TIM]), ["7: 15, else 23"]);
        assert_eq!(one(&none, &[ALL, TIM]), ["7: 15, else 17"]);
        let later = team(&[Fail(3)]);
        assert_eq!(one(&later, &[ALL, TIM]), ["7: 15, else done"]);
    }

    #[test]
    fn the_wrong_way() {
        let first = "6: 22 without a delta step before it";
        let later = "6: 22, something due later";
        let never = "6: 22, nothing ever due";
        assert_eq!(shown(&waits(&[1]), &[ALL, DEL]), [later, first]);
        assert_eq!(shown(&waits(&[]), &[ALL, DEL]), [never, first]);
        assert_eq!(
            shown(&inverter(), &[ALL, DEL, DEL]),
            [later, "6: 22 right behind a delta step"]
        );
        let transaction = "7: 23 by a transaction";
        let too = "7: 23, something due later too";
        let (none, behind) = ("7: 23, nothing due later", "7: 23 right behind a time step");
        assert_eq!(shown(&inverter(), &[ALL, TIM]), [transaction, too]);
        let list = [ALL, DEL, TIM, TIM];
        assert_eq!(shown(&inverter(), &list), [transaction, none, behind]);
        assert_eq!(
            shown(&waits(&[0]), &[ALL, TIM]),
            ["7: 23 by a deadline", none]
        );
        let list = [ALL, DEL, ALL, TIM];
        assert_eq!(
            shown(&waits(&[0, 0]), &list)[2..],
            ["7: 23 after a delta step at this time"]
        );
    }

    #[test]
    fn eleven() {
        let byte = |kind: u8, n: usize| match n {
            1 => (kind, 1, 0),
            2 => (kind, 0, 1),
            _ => (kind, 0, 256),
        };
        for n in 1..=3 {
            let (at, name) = (byte(DELTA, n), format!("6: 11 by byte {n}, else done"));
            assert_eq!(shown(&inverter(), &[ALL, at]), [name]);
            let (at, name) = (byte(TIME, n), format!("7: 11 by byte {n}, else done"));
            assert_eq!(shown(&inverter(), &[ALL, DEL, at]), [name]);
            // Refused all the same.
            assert!(shown(&inverter(), &[ALL, byte(TIME, n)]).is_empty());
            let old = shown(&inverter(), &[ALL, byte(ADVANCE, n)]);
            assert_eq!(old, ["2 with an unused byte set"]);
        }
        assert!(shown(&inverter(), &[ALL, (DELTA, 1, 1)]).is_empty());
        assert_eq!(shown(&inverter(), &[(DELTA, 1, 1)]), ["6: 11, else 14"]);
        assert_eq!(shown(&inverter(), &[(TIME, 0, 1)]), ["7: 11, else 14"]);
        let of = |list: &[Order]| shown(&inverter(), list);
        assert_eq!(of(&[OLD]), ["2 where a process is ready"]);
        assert_eq!(of(&[ALL, OLD]), ["2 where a delta step would be done"]);
        assert_eq!(of(&[ALL, DEL, OLD]), ["2 where a time step would be done"]);
        let rest = [ALL, DEL, TIM, DEL, ALL, DEL, OLD];
        assert_eq!(of(&rest), ["2 where nothing is ever due"]);
    }
}
