//! What models and sessions show of inertial assignments, by name. A session is played
//! again pick by pick; the waveform of an assignment's driver is looked at before and
//! after, and where something unmarked is removed, the session is played by transport
//! too.

use super::{assignments, play, ready_place, replay, Player, Seen};
use crate::cycle::*;
use crate::model::*;
use crate::values::{H, L, ONE, ZERO};
use std::collections::BTreeSet;

const NONE: &str = "no inertial assignment";

/// The signals that it assigns.
const SIGNALS: &[(&str, u8, u8)] = &[
    ("an inertial one on an integer signal", INTEGER, PLAIN),
    ("an inertial one on a plain logic signal", LOGIC, PLAIN),
    ("an inertial one on a bus", LOGIC, BUS),
    ("an inertial one on a register", LOGIC, REGISTER),
];

/// The kinds of assignments that a driver has.
const KINDS: &[(&str, &[u8])] = &[
    ("a driver with inertial ones alone", &[7]),
    ("a driver with transport and inertial ones", &[2, 7]),
    ("a driver with nulls and inertial ones", &[6, 7]),
    ("a driver with all three kinds", &[2, 6, 7]),
];

/// What an accepted model can show.
pub fn in_models() -> Vec<&'static str> {
    let signals = SIGNALS.iter().map(|row| row.0);
    let kinds = KINDS.iter().map(|row| row.0);
    [NONE].into_iter().chain(signals).chain(kinds).collect()
}

/// What an accepted model shows.
pub fn of_model(m: &Model) -> Seen {
    let assigned = m.statements.iter().filter(|s| s.kind == 7);
    let assigned: Vec<SignalRecord> = assigned.map(|s| m.signals[s.a as usize]).collect();
    if assigned.is_empty() {
        return Seen::from([NONE]);
    }
    let had = |&&(_, ty, kind): &&(&str, u8, u8)| {
        let mut assigned = assigned.iter();
        assigned.any(|s| (s.ty, s.kind) == (ty, kind))
    };
    let signals = SIGNALS.iter().filter(had).map(|row| row.0);
    let drivers = m.drivers.iter().map(|d| assignments(m, d));
    let drivers: BTreeSet<BTreeSet<u8>> = drivers.collect();
    let had = |row: &&(&str, &[u8])| drivers.contains(&row.1.iter().copied().collect());
    let kinds = KINDS.iter().filter(had).map(|row| row.0);
    signals.chain(kinds).collect()
}

/// Where a transaction comes from: the kind of its assignment, when that was done, and
/// when it is due.
#[derive(Clone, Copy)]
struct Origin {
    kind: u8,
    at: u64,
    due: u64,
}

/// An inertial assignment that is done.
struct Assignment {
    signal: SignalRecord,
    now: u64,
    /// The new transaction.
    due: u64,
    value: i32,
    /// What the driver carries, and where that came from.
    current: Carried,
    came: Option<Origin>,
    /// The pending ones before: those at the new one's time or later, those removed as
    /// unmarked and those that stay.
    later: Vec<Pending>,
    unmarked: Vec<Pending>,
    marked: Vec<Pending>,
    /// Where the pending ones came from.
    origins: Vec<Origin>,
    /// Another driver of the signal has a pending one that it would have removed.
    beside: bool,
}

impl Assignment {
    fn delay(&self) -> u64 {
        self.due - self.now
    }

    fn equal(&self, t: &Pending) -> bool {
        t.1 == Some(self.value)
    }

    fn origin(&self, t: &Pending) -> Option<&Origin> {
        self.origins.iter().find(|o| o.due == t.0)
    }

    /// Is one of these from an assignment of that kind?
    fn from(&self, list: &[Pending], kind: u8) -> bool {
        let mut origins = list.iter().filter_map(|t| self.origin(t));
        origins.any(|o| o.kind == kind)
    }

    /// How many were pending before its time, and are pending now.
    fn before(&self) -> usize {
        self.unmarked.len() + self.marked.len()
    }

    fn after(&self) -> usize {
        self.marked.len() + 1
    }

    /// The unmarked one next to those that stay.
    fn cut(&self) -> Option<&Pending> {
        self.unmarked.last()
    }

    /// Does a pulse vanish: an inertial one with the same delay, given at an earlier time
    /// and due in so many units, is removed, and the driver's own value follows?
    fn short(&self, fits: impl Fn(u64) -> bool) -> bool {
        let vanishes = |t: &Pending| {
            let origin = self.origin(t).filter(|o| o.kind == 7);
            let pulse = origin.filter(|o| o.due - o.at == self.delay());
            pulse.is_some_and(|o| o.at < self.now && fits(o.due - self.now))
        };
        self.current == Some(self.value) && self.unmarked.iter().any(vanishes)
    }

    /// Does a pulse stay: the driver's value came by an inertial one with the same delay,
    /// so many units ago, and another one follows?
    fn long(&self, fits: impl Fn(u64) -> bool) -> bool {
        let came = self.came.filter(|o| o.kind == 7 && o.due > o.at);
        let pulse = came.filter(|o| o.due - o.at == self.delay());
        let other = self.current.is_some_and(|v| v != self.value);
        other && pulse.is_some_and(|o| fits(self.now - o.due))
    }
}

type Row = (&'static str, fn(&Assignment) -> bool);

/// An unmarked one that is removed.
pub const REMOVED: &str = "an unmarked one removed";

/// What an inertial assignment that is done can show.
const DONE: &[Row] = &[
    (REMOVED, |a| !a.unmarked.is_empty()),
    ("unmarked of an integer signal removed", |a| {
        a.signal.ty == INTEGER && !a.unmarked.is_empty()
    }),
    ("unmarked of a plain logic signal removed", |a| {
        (a.signal.ty, a.signal.kind) == (LOGIC, PLAIN) && !a.unmarked.is_empty()
    }),
    ("unmarked of a bus removed", |a| {
        a.signal.kind == BUS && !a.unmarked.is_empty()
    }),
    ("unmarked of a register removed", |a| {
        a.signal.kind == REGISTER && !a.unmarked.is_empty()
    }),
    ("nothing pending before", |a| {
        a.later.is_empty() && a.before() == 0
    }),
    ("a pulse shorter than the delay vanishes", |a| {
        a.short(|_| true)
    }),
    ("a pulse a unit shorter vanishes", |a| {
        a.short(|left| left == 1)
    }),
    ("a pulse as long as the delay stays", |a| {
        a.long(|ago| ago == 0)
    }),
    ("a pulse a unit longer stays", |a| a.long(|ago| ago == 1)),
    ("a pulse longer than the delay stays", |a| {
        a.long(|ago| ago > 0)
    }),
    ("one equal one stays", |a| a.marked.len() == 1),
    ("several equal ones stay", |a| a.marked.len() > 1),
    ("one due a unit before it stays", |a| {
        a.marked.last().is_some_and(|t| t.0 + 1 == a.due)
    }),
    ("one due a unit before it removed", |a| {
        a.marked.is_empty() && a.cut().is_some_and(|t| t.0 + 1 == a.due)
    }),
    ("several unmarked ones removed", |a| a.unmarked.len() > 1),
    ("equal ones stay, others before them removed", |a| {
        !a.marked.is_empty() && !a.unmarked.is_empty()
    }),
    ("an equal one before another value removed", |a| {
        let other = a.cut().is_some_and(|t| t.1.is_some());
        other && a.unmarked.iter().any(|t| a.equal(t))
    }),
    ("a pending null removed as unmarked", |a| {
        a.unmarked.iter().any(|t| t.1.is_none())
    }),
    ("a null right before it removed", |a| {
        a.marked.is_empty() && a.cut().is_some_and(|t| t.1.is_none())
    }),
    ("an equal one before a null removed", |a| {
        let null = a.cut().is_some_and(|t| t.1.is_none());
        null && a.unmarked.iter().any(|t| a.equal(t))
    }),
    ("0 and L, or 1 and H, told apart", |a| {
        let alike = [[ZERO, L], [L, ZERO], [ONE, H], [H, ONE]];
        let cut = a.cut().and_then(|t| t.1).filter(|_| a.signal.ty == LOGIC);
        cut.is_some_and(|v| alike.contains(&[v as u8, a.value as u8]))
    }),
    ("removed by time and as unmarked at once", |a| {
        !a.later.is_empty() && !a.unmarked.is_empty()
    }),
    ("an equal one at its time replaced", |a| {
        a.later.first().is_some_and(|t| t.0 == a.due && a.equal(t))
    }),
    ("another one at its time replaced", |a| {
        a.later.first().is_some_and(|t| t.0 == a.due && !a.equal(t))
    }),
    ("one a unit after it removed", |a| {
        a.later.first().is_some_and(|t| t.0 == a.due + 1)
    }),
    ("one due now removed as unmarked", |a| {
        a.unmarked.iter().any(|t| t.0 == a.now)
    }),
    ("after 0, what is due now replaced", |a| {
        a.delay() == 0 && a.later.iter().any(|t| t.0 == a.now)
    }),
    ("after 0, later ones removed", |a| {
        a.delay() == 0 && a.later.iter().any(|t| t.0 > a.now)
    }),
    ("the driver's own value, nothing else pending", |a| {
        a.current == Some(a.value) && a.after() == 1
    }),
    ("the driver off, then a value", |a| a.current.is_none()),
    ("eight pending, one left", |a| {
        a.before() == WAVEFORM && a.after() == 1
    }),
    ("eight pending, some of them left", |a| {
        a.before() == WAVEFORM && a.after() > 1
    }),
    ("the eighth of equal values", |a| {
        a.later.is_empty() && a.after() == WAVEFORM
    }),
    ("eight equal ones, the last replaced", |a| {
        a.later.len() == 1 && a.after() == WAVEFORM
    }),
    ("a transport one stays as marked", |a| a.from(&a.marked, 2)),
    ("a transport one removed as unmarked", |a| {
        a.from(&a.unmarked, 2)
    }),
    ("an inertial one removed as unmarked", |a| {
        a.from(&a.unmarked, 7)
    }),
    ("another driver of the signal not altered", |a| a.beside),
];

/// Of the drivers of a signal one is given a transaction after 0, and one, before the
/// next delta step, an inertial one after more.
pub const SHARED: &str = "one after 0, one inertial on a shared line";
const TRANSPORT: &str = "a transport one leaves an inertial one";
const NULL: &str = "a null leaves an inertial one";
const ANSWERS: &str = "answers otherwise by transport";
const END: &str = "an end otherwise by transport";
const NINTH_OTHERWISE: &str = "fault 3 by transport alone";

/// What a played session can show, but for its faults.
pub fn in_sessions() -> Vec<&'static str> {
    let done = DONE.iter().map(|row| row.0);
    let others = [SHARED, TRANSPORT, NULL, ANSWERS, END, NINTH_OTHERWISE];
    done.chain(others).collect()
}

const EQUAL_NINTH: &str = "a ninth of equal values, fault 3";
const NEGATIVE: &str = "an inertial one's delay negative, fault 2";
const VALUE_FAILS: &str = "an inertial one's value fails";
const DELAY_FAILS: &str = "an inertial one's delay fails, not its value";
const BOTH_FAIL: &str = "an inertial one's value fails, its delay too";

/// The faults among what a played session can show.
pub const FAULT: &[&str] = &[EQUAL_NINTH, NEGATIVE, VALUE_FAILS, DELAY_FAILS, BOTH_FAIL];

/// What a session's orders show on an accepted model.
pub fn of_session(m: &Model, orders: &[u8]) -> Seen {
    if m.statements.iter().all(|s| s.kind != 7) {
        return Seen::new();
    }
    let mut play = Play {
        m,
        c: Config::first(m),
        origins: vec![vec![]; m.drivers.len()],
        came: vec![None; m.drivers.len()],
        at_once: 0,
        later: 0,
        seen: Seen::new(),
    };
    replay(&mut play, orders);
    if play.seen.contains(REMOVED) {
        play.otherwise(orders);
    }
    play.seen
}

/// A session as it goes on.
struct Play<'m> {
    m: &'m Model,
    c: Config,
    /// For each driver where its pending transactions came from, and its current one.
    origins: Vec<Vec<Origin>>,
    came: Vec<Option<Origin>>,
    /// Since the last step: the signals that were given a transaction after 0, and an
    /// inertial one after more.
    at_once: u32,
    later: u32,
    seen: Seen,
}

impl Player for Play<'_> {
    fn config(&self) -> &Config {
        &self.c
    }

    fn pick(&mut self, p: usize) {
        let Some(place) = ready_place(&self.c, p) else {
            return;
        };
        let s = self.m.statements[place];
        match driver_of(self.m, p, s.a as usize).filter(|_| assigns_signal(&s)) {
            Some(d) => self.assignment(p, &s, d),
            None => _ = self.c.pick(self.m, p),
        }
    }

    fn step(&mut self, step: Step) {
        let now = self.c.time;
        if self.c.step(self.m, step).is_err() {
            return;
        }
        (self.at_once, self.later) = (0, 0);
        if step == Step::Time {
            return;
        }
        for (origins, came) in self.origins.iter_mut().zip(&mut self.came) {
            if origins.first().is_some_and(|o| o.due == now) {
                *came = Some(origins.remove(0));
            }
        }
    }
}

impl Play<'_> {
    fn see(&mut self, what: &'static str, when: bool) {
        if when {
            self.seen.insert(what);
        }
    }

    /// Picks a process whose next statement is an assignment to driver d.
    fn assignment(&mut self, p: usize, s: &StatementRecord, d: usize) {
        let (now, old) = (self.c.time, self.c.drivers[d].clone());
        let fails = |node| self.c.evaluate(self.m, node).is_err();
        let (value_fails, delay_fails) = (s.kind == 7 && fails(s.b), s.kind == 7 && fails(s.c));
        let done = self.c.pick(self.m, p);
        let fault = done.map_or(0, |p| p.fault);
        if s.kind == 7 {
            self.see(EQUAL_NINTH, fault == NINTH);
            self.see(NEGATIVE, fault == NEGATIVE_DELAY);
            self.see(VALUE_FAILS, value_fails);
            self.see(DELAY_FAILS, !value_fails && delay_fails);
            self.see(BOTH_FAIL, value_fails && delay_fails);
        }
        if fault != 0 {
            return;
        }
        let wave = self.c.drivers[d].wave.clone();
        let Some((&new, before)) = wave.split_last() else {
            return;
        };
        match new.1.filter(|_| s.kind == 7) {
            Some(value) => self.inertial(d, &old, before, (new.0, value)),
            None => self.left(s.kind, d, before, new),
        }
        self.shared(s, new.0);
        let origins = &mut self.origins[d];
        origins.retain(|o| before.iter().any(|t| t.0 == o.due));
        origins.push(Origin {
            kind: s.kind,
            at: now,
            due: new.0,
        });
    }

    /// Looks at what the drivers of a signal were given since the last step.
    fn shared(&mut self, s: &StatementRecord, due: u64) {
        let signal = 1 << s.a;
        if due == self.c.time {
            self.at_once |= signal;
        } else if s.kind == 7 {
            self.later |= signal;
        }
        let drivers = self.m.drivers.iter().filter(|d| d.signal as u16 == s.a);
        let both = self.at_once & self.later & signal != 0;
        self.see(SHARED, both && drivers.count() > 1);
    }

    /// Looks at an inertial assignment that is done.
    fn inertial(&mut self, d: usize, old: &Driver, marked: &[Pending], new: (u64, i32)) {
        let signal = self.m.drivers[d].signal;
        let (earlier, later): (Vec<Pending>, Vec<Pending>) =
            old.wave.iter().partition(|t| t.0 < new.0);
        let drivers = self.m.drivers.iter().zip(&self.c.drivers).enumerate();
        let mut others = drivers.filter(|(n, (r, _))| *n != d && r.signal == signal);
        let other = |t: &Pending| t.0 < new.0 && t.1 != Some(new.1);
        let beside = others.any(|(_, (_, driver))| driver.wave.iter().any(other));
        let many = earlier.len() - marked.len();
        let a = Assignment {
            signal: self.m.signals[signal as usize],
            now: self.c.time,
            due: new.0,
            value: new.1,
            current: old.current,
            came: self.came[d],
            later,
            unmarked: earlier[..many].to_vec(),
            marked: marked.to_vec(),
            origins: self.origins[d].clone(),
            beside,
        };
        for (name, shows) in DONE {
            self.see(name, shows(&a));
        }
    }

    /// Looks at a transport or a null one that is done: does an inertial one with another
    /// value stay before it?
    fn left(&mut self, kind: u8, d: usize, before: &[Pending], new: Pending) {
        let other = |o: &Origin| {
            let mut pending = before.iter().filter(|t| t.1 != new.1);
            o.kind == 7 && pending.any(|t| t.0 == o.due)
        };
        let left = self.origins[d].iter().any(other);
        self.see(TRANSPORT, left && kind == 2);
        self.see(NULL, left && kind == 6);
    }

    /// Plays the orders also on the model whose inertial assignments are transport ones.
    fn otherwise(&mut self, orders: &[u8]) {
        let mut other = self.m.clone();
        for s in other.statements.iter_mut().filter(|s| s.kind == 7) {
            s.kind = 2;
        }
        let played = [self.m, &other].map(|m| play(m, orders));
        let ninth = |c: &Config| c.processes.iter().any(|p| p.fault == NINTH);
        self.see(ANSWERS, played[0].0 != played[1].0);
        self.see(END, played[0].1 != played[1].1);
        self.see(NINTH_OTHERWISE, !ninth(&played[0].1) && ninth(&played[1].1));
    }
}

#[cfg(test)]
mod tests {
    use super::*;
    use crate::builder::Builder;
    use crate::cases::*;
    use Act::{Inertial, Null, Transport, Wait};

    /// What a settle and so many steps with a settle after each show on a model, in
    /// the order of the names.
    fn shown(b: &Builder, steps: usize) -> Vec<&'static str> {
        let seen = of_session(&b.m, &watched(b, steps));
        let all = [in_sessions(), FAULT.to_vec()].concat();
        all.into_iter().filter(|what| seen.contains(what)).collect()
    }

    /// What these show on a bus, before any step.
    fn of(list: &[Act]) -> Vec<&'static str> {
        shown(&acts(LOGIC, BUS, list), 0)
    }

    /// Those of the names that an inertial one behind transactions after 1, 2 and so on
    /// shows, and nothing else of them.
    fn behind(values: &[Carried], delay: i32, names: &[&'static str]) -> Vec<&'static str> {
        let list = [row(values), vec![Inertial(3, delay)]].concat();
        let seen = of(&list);
        seen.into_iter()
            .filter(|what| names.contains(what))
            .collect()
    }

    const ONE: Carried = Some(3);
    const OTHER: Carried = Some(2);

    #[test]
    fn nothing_pending() {
        assert!(of(&[Transport(3, 1)]).is_empty());
        assert_eq!(of(&[Inertial(3, 1)]), ["nothing pending before"]);
        let own = "the driver's own value, nothing else pending";
        assert_eq!(of(&[Inertial(2, 1)]), ["nothing pending before", own]);
        let off = "the driver off, then a value";
        let list = [Null(0), Wait(0), Inertial(2, 1)];
        let names = ["nothing pending before", off];
        assert_eq!(shown(&acts(LOGIC, BUS, &list), 1), names);
    }

    #[test]
    fn pulses() {
        let names = [
            "a pulse shorter than the delay vanishes",
            "a pulse a unit shorter vanishes",
            "a pulse as long as the delay stays",
            "a pulse a unit longer stays",
            "a pulse longer than the delay stays",
        ];
        let of = |width: i32| {
            let seen = shown(&pulse(LOGIC, PLAIN, width, 3), 8);
            let had = names.iter().filter(|what| seen.contains(what));
            had.copied().collect::<Vec<_>>()
        };
        assert_eq!(of(1), names[..1]);
        assert_eq!(of(2), names[..2]);
        assert_eq!(of(3), names[2..3]);
        assert_eq!(of(4), names[3..]);
        assert_eq!(of(5), names[4..]);
    }

    #[test]
    fn runs() {
        let names = [
            REMOVED,
            "one equal one stays",
            "several equal ones stay",
            "several unmarked ones removed",
            "equal ones stay, others before them removed",
            "an equal one before another value removed",
            "a pending null removed as unmarked",
            "a null right before it removed",
            "an equal one before a null removed",
        ];
        let run = |values: &[Carried]| behind(values, 9, &names);
        assert!(run(&[]).is_empty());
        assert_eq!(run(&[ONE]), names[1..2]);
        assert_eq!(run(&[ONE, ONE]), names[2..3]);
        assert_eq!(run(&[OTHER]), [REMOVED]);
        assert_eq!(run(&[OTHER, ONE]), [REMOVED, names[1], names[4]]);
        assert_eq!(run(&[ONE, OTHER]), [REMOVED, names[3], names[5]]);
        assert_eq!(run(&[None]), [REMOVED, names[6], names[7]]);
        let null = [REMOVED, names[3], names[6], names[7], names[8]];
        assert_eq!(run(&[ONE, None]), null);
        let null = [REMOVED, names[1], names[3], names[4], names[6], names[8]];
        assert_eq!(run(&[ONE, None, ONE]), null);
        let apart = "0 and L, or 1 and H, told apart";
        assert_eq!(behind(&[Some(7)], 9, &[apart]), [apart]);
        assert!(behind(&[OTHER], 9, &[apart]).is_empty());
    }

    #[test]
    fn by_time() {
        let names = [
            "one due a unit before it stays",
            "one due a unit before it removed",
            "removed by time and as unmarked at once",
            "an equal one at its time replaced",
            "another one at its time replaced",
            "one a unit after it removed",
            "after 0, later ones removed",
        ];
        let at = |delay: i32, values: &[Carried]| behind(values, delay, &names);
        assert_eq!(at(2, &[ONE]), names[..1]);
        assert_eq!(at(2, &[OTHER]), names[1..2]);
        assert!(at(3, &[OTHER]).is_empty());
        assert_eq!(at(1, &[ONE]), names[3..4]);
        assert_eq!(at(1, &[OTHER]), names[4..5]);
        assert_eq!(at(2, &[OTHER, ONE]), [names[1], names[2], names[3]]);
        assert_eq!(at(0, &[ONE]), [names[5], names[6]]);
        let due = "one due now removed as unmarked";
        assert!(of(&[Transport(2, 0), Inertial(3, 1)]).contains(&due));
        let due = "after 0, what is due now replaced";
        assert!(of(&[Transport(2, 0), Inertial(3, 0)]).contains(&due));
    }

    #[test]
    fn eight() {
        let names = [
            "eight pending, one left",
            "eight pending, some of them left",
            "the eighth of equal values",
            "eight equal ones, the last replaced",
            NINTH_OTHERWISE,
            EQUAL_NINTH,
        ];
        let at = |delay: i32, values: &[Carried]| behind(values, delay, &names);
        assert_eq!(at(9, &[OTHER; 8]), [names[0], NINTH_OTHERWISE]);
        assert!(at(9, &[OTHER; 7]).is_empty());
        let some = [[OTHER; 6].to_vec(), vec![ONE; 2]].concat();
        assert_eq!(at(9, &some), [names[1], NINTH_OTHERWISE]);
        assert_eq!(at(8, &[ONE; 7]), names[2..3]);
        assert_eq!(at(8, &[ONE; 8]), names[3..4]);
        assert_eq!(at(9, &[ONE; 8]), [EQUAL_NINTH]);
    }

    #[test]
    fn kinds_in_turn() {
        let seen = of(&[Inertial(3, 1), Transport(2, 2)]);
        assert_eq!(seen, ["nothing pending before", TRANSPORT]);
        assert_eq!(of(&[Inertial(3, 1), Null(2)])[1..], [NULL]);
        // What has an equal value stays anyway.
        let seen = of(&[Inertial(3, 1), Transport(3, 2)]);
        assert_eq!(seen, ["nothing pending before"]);
        let from = |list: &[Act], what: &str| of(list).contains(&what);
        let removed = "a transport one removed as unmarked";
        assert!(from(&[Transport(2, 1), Inertial(3, 2)], removed));
        assert!(!from(&[Inertial(2, 1), Inertial(3, 2)], removed));
        let removed = "an inertial one removed as unmarked";
        assert!(from(&[Inertial(2, 1), Inertial(3, 2)], removed));
        assert!(!from(&[Transport(2, 1), Inertial(3, 2)], removed));
        let stays = "a transport one stays as marked";
        assert!(from(&[Transport(3, 1), Inertial(3, 2)], stays));
        assert!(!from(&[Inertial(3, 1), Inertial(3, 2)], stays));
    }

    #[test]
    fn by_transport() {
        let of = |width: i32, steps: usize| {
            let seen = shown(&pulse(INTEGER, PLAIN, width, 3), steps);
            (seen.contains(&ANSWERS), seen.contains(&END))
        };
        assert_eq!(of(1, 2), (false, true));
        assert_eq!(of(1, 8), (true, true));
        assert_eq!(of(3, 8), (false, false));
    }

    #[test]
    fn shared_lines() {
        let beside = |delay: i32| {
            let mut b = acts(LOGIC, PLAIN, &[Transport(2, 0)]);
            let (high, delay) = (b.logic(3), b.integer(delay));
            b.process();
            b.inertial(0, high, delay);
            b.driver(2, 0);
            shown(&b, 0).contains(&SHARED)
        };
        assert!(beside(1) && !beside(0));
        // One driver alone.
        assert!(!of(&[Transport(2, 0), Inertial(3, 1)]).contains(&SHARED));
    }

    #[test]
    fn faults() {
        let fault = |value: i32, top: i32, delay: i32| {
            let mut b = acts(INTEGER, PLAIN, &[Inertial(3, 1)]);
            let [value, top, delay] = [value, top, delay].map(|k| b.integer(k));
            b.m.statements[0].b = b.binary(11, value, top);
            b.m.statements[0].c = b.binary(11, delay, top);
            let seen = shown(&b, 0);
            seen.into_iter()
                .filter(|what| FAULT.contains(what))
                .collect::<Vec<_>>()
        };
        let top = 2_147_483_647;
        assert!(fault(1, 0, 1).is_empty());
        assert_eq!(fault(1, 0, -1), [NEGATIVE]);
        assert_eq!(fault(1, top, 0), [VALUE_FAILS]);
        assert_eq!(fault(0, top, 1), [DELAY_FAILS]);
        assert_eq!(fault(1, top, 1), [VALUE_FAILS, BOTH_FAIL]);
    }

    #[test]
    fn models() {
        let of = |kind: u8, list: &[Act]| {
            let seen = of_model(&acts(LOGIC, kind, list).m);
            let all = in_models().into_iter();
            all.filter(|what| seen.contains(what)).collect::<Vec<_>>()
        };
        assert_eq!(of(BUS, &[Transport(2, 1), Null(1)]), [NONE]);
        let [_, plain, bus, register] = [0, 1, 2, 3].map(|n| SIGNALS[n].0);
        let [alone, with_2, with_6, all] = [0, 1, 2, 3].map(|n| KINDS[n].0);
        let (two, six, seven) = (Transport(2, 1), Null(1), Inertial(2, 1));
        assert_eq!(of(PLAIN, &[seven]), [plain, alone]);
        assert_eq!(of(PLAIN, &[two, seven]), [plain, with_2]);
        assert_eq!(of(BUS, &[six, seven]), [bus, with_6]);
        assert_eq!(of(REGISTER, &[two, six, seven]), [register, all]);
        let seen = of_model(&pulse(INTEGER, PLAIN, 1, 1).m);
        assert_eq!(seen, Seen::from([SIGNALS[0].0, alone]));
    }
}
