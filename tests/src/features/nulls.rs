//! What models and sessions show of bus and register signals and of null
//! transactions, by name. A session is played again pick by pick, and its
//! drivers are looked at before and after.

use super::{assignments, replay, Player, Seen};
use crate::cycle::*;
use crate::model::*;
use crate::values;
use std::collections::BTreeSet;

const PLAIN_ALONE: &str = "plain logic signals alone";
const ALL_KINDS: &str = "plain, bus and register signals";
const NULL_ON_BUS: &str = "a null on a bus";
const NULL_ON_REGISTER: &str = "a null on a register";
const BUS_UNDRIVEN: &str = "a bus without a driver";
const REGISTER_UNDRIVEN: &str = "a register without a driver";
const ONLY_NULLS: &str = "a driver given nulls alone";

/// What an accepted model can show.
pub const MODEL: &[&str] = &[
    PLAIN_ALONE,
    ALL_KINDS,
    NULL_ON_BUS,
    NULL_ON_REGISTER,
    BUS_UNDRIVEN,
    REGISTER_UNDRIVEN,
    ONLY_NULLS,
];

const DUE_ON_BUS: &str = "a null due on a bus";
const DUE_ON_REGISTER: &str = "a null due on a register";
const NULL_AND_VALUE: &str = "a null and a value due at once";
const NULL_AGAIN: &str = "a null after a null";
const ON_AGAIN: &str = "a value after a null";
const BUS_TO_Z: &str = "a bus that becomes Z, all null";
const BUS_WAKES: &str = "a bus that becomes Z wakes a process";
const BUS_STAYS: &str = "a bus that is Z, all null again";
const REGISTER_KEEPS: &str = "a register that keeps a value, all null";
const REGISTER_WAKES_NOT: &str = "a register that keeps it wakes nobody";
const BUS_MANY_NULL: &str = "a bus of several drivers, all null";
const REGISTER_MANY_NULL: &str = "a register of several drivers, all null";
const BUS_AMONG: &str = "null among values on a bus";
const REGISTER_AMONG: &str = "null among values on a register";
const NOT_Z: &str = "null among values, Z would show";
const NOT_LAST: &str = "null among values, its last would show";
const NULL_BY_VALUE: &str = "a pending null removed by a value";
const NULL_BY_NULL: &str = "a pending null removed by a null";
const VALUE_BY_NULL: &str = "a pending value removed by a null";
const SAME_TIME: &str = "a null at a pending one's time";
const EIGHT_WITH_NULL: &str = "eight pending, a null among them";
const NULL_EIGHTH: &str = "a null as the eighth pending";
const OFF_AT_END: &str = "a driver off at the end";
const PENDING_AT_END: &str = "a null pending at the end";

/// A null that comes due.
pub const DUE: [&str; 2] = [DUE_ON_BUS, DUE_ON_REGISTER];

/// What a played session can show, but for its faults.
pub const SESSION: &[&str] = &[
    DUE_ON_BUS,
    DUE_ON_REGISTER,
    NULL_AND_VALUE,
    NULL_AGAIN,
    ON_AGAIN,
    BUS_TO_Z,
    BUS_WAKES,
    BUS_STAYS,
    REGISTER_KEEPS,
    REGISTER_WAKES_NOT,
    BUS_MANY_NULL,
    REGISTER_MANY_NULL,
    BUS_AMONG,
    REGISTER_AMONG,
    NOT_Z,
    NOT_LAST,
    NULL_BY_VALUE,
    NULL_BY_NULL,
    VALUE_BY_NULL,
    SAME_TIME,
    EIGHT_WITH_NULL,
    NULL_EIGHTH,
    OFF_AT_END,
    PENDING_AT_END,
];

const NULL_NINTH: &str = "a null as a ninth, fault 3";
const NINTH_AFTER_NULL: &str = "a ninth value after nulls, fault 3";
const NULL_NEGATIVE: &str = "a null's delay negative, fault 2";
const NULL_OVER: &str = "a null's delay out of range, fault 1";

/// The faults among what a played session can show.
pub const FAULT: &[&str] = &[NULL_NINTH, NINTH_AFTER_NULL, NULL_NEGATIVE, NULL_OVER];

/// What an accepted model shows.
pub fn of_model(m: &Model) -> Seen {
    let mut seen = Seen::new();
    let kind = |s: &StatementRecord| m.signals[s.a as usize].kind;
    let has = |kind: u8| m.signals.iter().any(|s| s.ty == LOGIC && s.kind == kind);
    let guarded = has(BUS) || has(REGISTER);
    let mut see = |what, when: bool| {
        if when {
            seen.insert(what);
        }
    };
    see(PLAIN_ALONE, has(PLAIN) && !guarded);
    see(ALL_KINDS, has(PLAIN) && has(BUS) && has(REGISTER));
    if !guarded {
        return seen;
    }
    for s in m.statements.iter().filter(|s| s.kind == 6) {
        see(NULL_ON_BUS, kind(s) == BUS);
        see(NULL_ON_REGISTER, kind(s) == REGISTER);
    }
    for (n, s) in m.signals.iter().enumerate() {
        let undriven = !m.drivers.iter().any(|d| d.signal as usize == n);
        see(BUS_UNDRIVEN, undriven && s.kind == BUS);
        see(REGISTER_UNDRIVEN, undriven && s.kind == REGISTER);
    }
    for d in &m.drivers {
        see(ONLY_NULLS, assignments(m, d) == BTreeSet::from([6]));
    }
    seen
}

/// What a session's orders show on an accepted model.
pub fn of_session(m: &Model, orders: &[u8]) -> Seen {
    if m.statements.iter().all(|s| s.kind != 6) {
        return Seen::new();
    }
    let mut play = Play::new(m);
    replay(&mut play, orders);
    play.end();
    play.seen
}

/// A session as it goes on.
struct Play<'m> {
    m: &'m Model,
    c: Config,
    /// The value that each driver has, or had last.
    last: Vec<i32>,
    seen: Seen,
}

impl Play<'_> {
    fn new(m: &Model) -> Play<'_> {
        let c = Config::first(m);
        let last = c.drivers.iter().map(|d| d.current.unwrap_or(0)).collect();
        Play {
            m,
            c,
            last,
            seen: Seen::new(),
        }
    }

    fn see(&mut self, what: &'static str, when: bool) {
        if when {
            self.seen.insert(what);
        }
    }
}

impl Player for Play<'_> {
    fn config(&self) -> &Config {
        &self.c
    }

    fn pick(&mut self, p: usize) {
        let m = self.m;
        let place = self.c.processes.get(p).map_or(0, |p| p.place as usize);
        let s = m.statements[place];
        let driver = match s.kind {
            2 | 6 | 7 => driver_of(m, p, s.a as usize),
            _ => None,
        };
        let null = |t: &Pending| t.1.is_none();
        let before = driver.map(|d| self.c.drivers[d].wave.clone());
        let done = self.c.pick(m, p);
        let (Some(d), Some(before), Ok(Process { fault, .. })) = (driver, before, done) else {
            return;
        };
        let nulls = before.iter().any(null);
        if s.kind == 6 {
            self.see(NULL_OVER, fault == OUT_OF_RANGE);
            self.see(NULL_NEGATIVE, fault == NEGATIVE_DELAY);
            self.see(NULL_NINTH, fault == NINTH);
        }
        let value = assigns_value(&s);
        self.see(NINTH_AFTER_NULL, fault == NINTH && value && nulls);
        if fault != 0 {
            return;
        }
        let wave = &self.c.drivers[d].wave;
        let (at, many) = (wave.last().map_or(0, |t| t.0), wave.len());
        let nulls_now = wave.iter().any(null);
        let removed = before.iter().copied().filter(|t| t.0 >= at);
        let (off, on): (Vec<Pending>, Vec<Pending>) = removed.partition(null);
        self.see(NULL_BY_VALUE, value && !off.is_empty());
        self.see(NULL_BY_NULL, s.kind == 6 && !off.is_empty());
        self.see(VALUE_BY_NULL, s.kind == 6 && !on.is_empty());
        self.see(SAME_TIME, s.kind == 6 && before.iter().any(|t| t.0 == at));
        self.see(EIGHT_WITH_NULL, many == WAVEFORM && nulls_now);
        self.see(NULL_EIGHTH, many == WAVEFORM && s.kind == 6);
    }

    fn step(&mut self, step: Step) {
        let m = self.m;
        let now = self.c.time;
        let first = |d: &Driver| d.wave.first().copied().filter(|t| t.0 == now);
        let drivers = self.c.drivers.iter();
        let due: Vec<Option<Carried>> = drivers.map(|d| first(d).map(|t| t.1)).collect();
        let off = self.c.drivers.iter().any(|d| d.current.is_none());
        let null = off || due.contains(&Some(None));
        let before = null.then(|| self.c.clone());
        if self.c.step(m, step).is_err() || step == Step::Time {
            return;
        }
        self.remember();
        let Some(before) = before else {
            // No null had a part in this step.
            return;
        };
        let value = |c: &Config, s: usize| c.signals[s][0];
        let changed = (0..m.signals.len())
            .filter(|&s| value(&before, s) != value(&self.c, s))
            .fold(0u32, |set, s| set | 1 << s);
        for s in 0..m.signals.len() {
            let own = |d: &usize| m.drivers[*d].signal as usize == s;
            let drivers: Vec<usize> = (0..m.drivers.len()).filter(own).collect();
            if m.signals[s].kind != PLAIN && drivers.iter().any(|&d| due[d].is_some()) {
                self.line(s, &drivers, &due, &before, changed);
            }
        }
    }
}

impl Play<'_> {
    /// Looks at an active bus or register after a delta step.
    fn line(
        &mut self,
        s: usize,
        drivers: &[usize],
        due: &[Option<Carried>],
        before: &Config,
        changed: u32,
    ) {
        let bus = self.m.signals[s].kind == BUS;
        let (old, new) = (before.signals[s][0], self.c.signals[s][0]);
        let z = values::Z as i32;
        for &d in drivers {
            let was_off = before.drivers[d].current.is_none();
            self.see(DUE_ON_BUS, due[d] == Some(None) && bus);
            self.see(DUE_ON_REGISTER, due[d] == Some(None) && !bus);
            self.see(NULL_AGAIN, due[d] == Some(None) && was_off);
            self.see(ON_AGAIN, matches!(due[d], Some(Some(_))) && was_off);
        }
        let some_due = |null: bool| {
            let mut due = drivers.iter().filter_map(|&d| due[d]);
            due.any(|t| t.is_none() == null)
        };
        self.see(NULL_AND_VALUE, some_due(true) && some_due(false));
        let current = |d: &usize| self.c.drivers[*d].current;
        let (off, on): (Vec<usize>, Vec<usize>) =
            drivers.iter().partition(|d| current(d).is_none());
        if on.is_empty() {
            let several = drivers.len() > 1;
            let woken = self.woken(s, before, changed);
            let asleep = self.asleep(s, before, changed);
            self.see(BUS_TO_Z, bus && old != z);
            self.see(BUS_WAKES, bus && old != z && woken);
            self.see(BUS_STAYS, bus && old == z);
            self.see(REGISTER_KEEPS, !bus && old != z);
            self.see(REGISTER_WAKES_NOT, !bus && old != z && asleep);
            self.see(BUS_MANY_NULL, bus && several);
            self.see(REGISTER_MANY_NULL, !bus && several);
        } else if !off.is_empty() {
            let last =
                |list: &[usize]| -> Vec<u8> { list.iter().map(|&d| self.last[d] as u8).collect() };
            let table = self.m.table();
            let with = |more| values::resolve_by(table, &[last(&on), more].concat()) as i32;
            let (as_z, as_last) = (with(vec![values::Z; off.len()]), with(last(&off)));
            self.see(BUS_AMONG, bus);
            self.see(REGISTER_AMONG, !bus);
            self.see(NOT_Z, as_z != new);
            self.see(NOT_LAST, as_last != new);
        }
    }

    /// Did a process wake by the change of this signal alone?
    fn woken(&self, s: usize, before: &Config, changed: u32) -> bool {
        self.sleepers(before)
            .any(|(set, after)| set & changed == 1 << s && after.standing == READY)
    }

    /// Does a process that waits on this signal sleep on, as none of its signals
    /// changed?
    fn asleep(&self, s: usize, before: &Config, changed: u32) -> bool {
        self.sleepers(before).any(|(set, after)| {
            set >> s & 1 == 1 && set & changed == 0 && after.standing == WAITING
        })
    }

    /// The processes that waited before the step with no deadline due: their set
    /// and what they are now.
    fn sleepers<'a>(&'a self, before: &'a Config) -> impl Iterator<Item = (u32, &'a Process)> {
        let pairs = before.processes.iter().zip(&self.c.processes);
        pairs
            .filter(|(p, _)| p.standing == WAITING && p.deadline != Some(before.time))
            .map(|(p, after)| (self.m.statements[p.place as usize].set, after))
    }

    /// Keeps the drivers' values in mind.
    fn remember(&mut self) {
        for (last, driver) in self.last.iter_mut().zip(&self.c.drivers) {
            *last = driver.current.unwrap_or(*last);
        }
    }

    /// Looks at the end configuration.
    fn end(&mut self) {
        let off = self.c.drivers.iter().any(|d| d.current.is_none());
        let mut waves = self.c.drivers.iter().flat_map(|d| &d.wave);
        let pending = waves.any(|t| t.1.is_none());
        self.see(OFF_AT_END, off);
        self.see(PENDING_AT_END, pending);
    }
}

#[cfg(test)]
mod tests {
    use super::*;
    use crate::builder::Builder;
    use crate::cases::{null_after, releases, turned_off, watched};

    fn shown(b: &Builder, steps: usize) -> Vec<&'static str> {
        of_session(&b.m, &watched(b, steps)).into_iter().collect()
    }

    fn sorted(names: &[&'static str]) -> Vec<&'static str> {
        names
            .iter()
            .copied()
            .collect::<Seen>()
            .into_iter()
            .collect()
    }

    #[test]
    fn drivers_turned_off() {
        let bus = [DUE_ON_BUS, BUS_TO_Z, BUS_WAKES, OFF_AT_END];
        assert_eq!(shown(&turned_off(BUS, "1"), 3), sorted(&bus));
        let register = [
            DUE_ON_REGISTER,
            REGISTER_KEEPS,
            REGISTER_WAKES_NOT,
            OFF_AT_END,
        ];
        assert_eq!(shown(&turned_off(REGISTER, "1"), 3), sorted(&register));
        // Of the two only the first is off.
        let first = [DUE_ON_BUS, BUS_AMONG, NOT_LAST, OFF_AT_END, PENDING_AT_END];
        assert_eq!(shown(&turned_off(BUS, "01"), 3), sorted(&first));
        let first = [
            DUE_ON_REGISTER,
            REGISTER_AMONG,
            NOT_LAST,
            OFF_AT_END,
            PENDING_AT_END,
        ];
        assert_eq!(shown(&turned_off(REGISTER, "01"), 3), sorted(&first));
        let lone = [
            DUE_ON_BUS,
            BUS_AMONG,
            NOT_Z,
            NOT_LAST,
            OFF_AT_END,
            PENDING_AT_END,
        ];
        assert_eq!(shown(&turned_off(BUS, "0-"), 3), sorted(&lone));
        let both = [
            DUE_ON_REGISTER,
            REGISTER_AMONG,
            REGISTER_KEEPS,
            REGISTER_WAKES_NOT,
        ];
        let both = [&both[..], &[REGISTER_MANY_NULL, OFF_AT_END]].concat();
        assert_eq!(shown(&turned_off(REGISTER, "Z1"), 5), sorted(&both));
        let both = [
            DUE_ON_BUS,
            BUS_AMONG,
            BUS_TO_Z,
            BUS_WAKES,
            BUS_MANY_NULL,
            OFF_AT_END,
        ];
        assert_eq!(shown(&turned_off(BUS, "Z1"), 5), sorted(&both));
        // A Z beside a null, and a bus that was Z.
        let quiet = [DUE_ON_BUS, BUS_AMONG, BUS_STAYS, BUS_MANY_NULL, OFF_AT_END];
        assert_eq!(shown(&turned_off(BUS, "ZZ"), 5), sorted(&quiet));
        assert!(shown(&turned_off(BUS, ""), 5).is_empty());
    }

    #[test]
    fn waveforms() {
        let pending = |list: &[(i32, Carried)]| shown(&releases(BUS, list), 0);
        let on = Some(3);
        let some = |names: &[&'static str]| sorted(&[names, &[PENDING_AT_END]].concat());
        assert_eq!(pending(&[(1, on)]), sorted(&[]));
        assert_eq!(pending(&[(1, None)]), some(&[]));
        assert_eq!(pending(&[(1, None), (1, on)]), sorted(&[NULL_BY_VALUE]));
        assert_eq!(
            pending(&[(1, on), (1, None)]),
            some(&[VALUE_BY_NULL, SAME_TIME])
        );
        assert_eq!(pending(&[(1, None), (0, None)]), some(&[NULL_BY_NULL]));
        let eight: Vec<(i32, Carried)> = (1..9).map(|n| (n, (n < 8).then_some(3))).collect();
        let full = [EIGHT_WITH_NULL, NULL_EIGHTH];
        assert_eq!(pending(&eight), some(&full));
        for (ninth, what) in [(None, NULL_NINTH), (on, NINTH_AFTER_NULL)] {
            let list = [&eight[..], &[(9, ninth)]].concat();
            assert_eq!(pending(&list), some(&[&full[..], &[what]].concat()));
        }
        for (x, y, what) in [(2_147_483_647, 1, NULL_OVER), (-1, 0, NULL_NEGATIVE)] {
            assert!(shown(&null_after(x, y), 0).contains(&what));
        }
        let list = [(1, None), (2, None), (3, on)];
        let back = [DUE_ON_BUS, BUS_TO_Z, BUS_STAYS, NULL_AGAIN, ON_AGAIN];
        assert_eq!(shown(&releases(BUS, &list), 6), sorted(&back));
    }

    #[test]
    fn models() {
        let of = |b: &Builder| of_model(&b.m).into_iter().collect::<Vec<_>>();
        assert_eq!(of(&turned_off(PLAIN, "")), [PLAIN_ALONE]);
        assert_eq!(of(&turned_off(BUS, "")), [BUS_UNDRIVEN]);
        assert_eq!(of(&turned_off(REGISTER, "")), [REGISTER_UNDRIVEN]);
        assert_eq!(of(&turned_off(BUS, "1")), [NULL_ON_BUS]);
        assert_eq!(of(&turned_off(REGISTER, "1")), [NULL_ON_REGISTER]);
        let mut b = releases(BUS, &[(1, None)]);
        assert_eq!(of(&b), sorted(&[NULL_ON_BUS, ONLY_NULLS]));
        b.register(2);
        b.signal(LOGIC, 2);
        let more = [NULL_ON_BUS, ONLY_NULLS, REGISTER_UNDRIVEN, ALL_KINDS];
        assert_eq!(of(&b), sorted(&more));
    }
}
