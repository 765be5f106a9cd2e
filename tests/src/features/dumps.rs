//! What the dump of a run shows (document 02, item 7), by name. Sessions themselves show
//! nothing of it, so that it is no row of `FEATURES`: `compare dumps` counts it.

use super::Seen;
use crate::cycle::{Config, STOPPED, TIME_LIMIT};
use crate::integers::TOP;
use crate::model::{Model, INTEGER, LOGIC};
use crate::moves::ADVANCE;
use crate::session::{self, ANSWER, DELTA, ORDER, PICK_SET, TIME};
use crate::vcd::write::{line, Row};

/// A run as it was played.
struct Played<'r> {
    m: &'r Model,
    orders: &'r [u8],
    run: &'r [Row],
    /// The end configuration.
    end: Config,
    /// What the orders before the last time step had among them.
    before: Seen,
    /// The last order was a time step.
    stepped: bool,
    /// Some signal left its value of a time's beginning and had it again at its end.
    pulse: bool,
}

type OfRun = (&'static str, fn(&Played) -> bool);

const REFUSED: &str = "a refused order before a time step";
const SETS: &str = "a set that picks before a time step";
const DELTA_REFUSED: &str = "order 6 with 22 before a time step";
const TIME_REFUSED: &str = "order 7 with 23 before a time step";
const WITHDRAWN: &str = "order 2 before a time step";

const RUNS: &[OfRun] = &[
    ("no signals", |p| p.m.signals.is_empty()),
    ("32 signals", |p| p.m.signals.len() == 32),
    ("no orders", |p| p.orders.is_empty()),
    ("orders, and time 0 alone", |p| {
        !p.orders.is_empty() && p.run.len() == 1
    }),
    ("five times or more", |p| p.run.len() >= 5),
    ("30 time steps or more", |p| p.run.len() > 30),
    ("the last time that can be", |p| p.end.time == TIME_LIMIT),
    ("a stopped process at the end", |p| {
        p.end.processes.iter().any(|q| q.standing == STOPPED)
    }),
    (REFUSED, |p| p.before.contains(REFUSED)),
    (SETS, |p| p.before.contains(SETS)),
    (DELTA_REFUSED, |p| p.before.contains(DELTA_REFUSED)),
    (TIME_REFUSED, |p| p.before.contains(TIME_REFUSED)),
    (WITHDRAWN, |p| p.before.contains(WITHDRAWN)),
    ("a time step at the end", |p| p.stepped),
    ("other values at time 0 than the first", |p| {
        p.run[0].1 != Config::first(p.m).current()
    }),
    ("a pulse within a time", |p| p.pulse),
];

/// A later time of a run.
struct Later<'r> {
    m: &'r Model,
    /// Settled values two times before, at the time before, and at this one.
    former: Option<&'r Row>,
    before: &'r Row,
    now: &'r Row,
    last: bool,
}

impl Later<'_> {
    fn written(&self, n: usize) -> bool {
        line(self.m, n, self.before.1[n]) != line(self.m, n, self.now.1[n])
    }

    fn changed(&self, n: usize) -> bool {
        self.before.1[n] != self.now.1[n]
    }

    /// How many signals are such.
    fn count(&self, is: impl Fn(&Self, usize) -> bool) -> usize {
        let signals = 0..self.m.signals.len();
        signals.filter(|&n| is(self, n)).count()
    }

    fn printed(&self) -> bool {
        self.count(Later::written) > 0
    }

    /// A signal has another value that is written as the last one.
    fn alike(&self) -> bool {
        self.count(|t, n| t.changed(n) && !t.written(n)) > 0
    }
}

type OfTime = (&'static str, fn(&Later) -> bool);

const LATER: &[OfTime] = &[
    ("a time left out, all values as before", |t| {
        t.count(Later::changed) == 0 && !t.m.signals.is_empty()
    }),
    ("a time left out, other values written alike", |t| {
        !t.printed() && t.alike()
    }),
    ("a time at which all of several change", |t| {
        t.m.signals.len() > 1 && t.count(Later::written) == t.m.signals.len()
    }),
    ("a time at which a signal has no line", |t| {
        t.printed() && t.count(|t, n| !t.changed(n)) > 0
    }),
    ("a time at which one is written alike", |t| {
        t.printed() && t.alike()
    }),
    ("a value that stood two times before", |t| {
        let again = |t: &Later, n: usize| {
            let former = t.former.map(|row| row.1[n]);
            t.written(n) && former == Some(t.now.1[n])
        };
        t.count(again) > 0
    }),
    ("values of a time that is never left", |t| {
        t.last && t.printed()
    }),
    ("a time of seven digits or more", |t| {
        t.printed() && t.now.0 >= 1_000_000
    }),
];

type OfLine = (&'static str, u8, fn(i32) -> bool);

/// Lines of values at later times: of each of the nine, and of integers.
const LINES: &[OfLine] = &[
    ("a line for U", LOGIC, |v| v == 0),
    ("a line for X", LOGIC, |v| v == 1),
    ("a line for 0", LOGIC, |v| v == 2),
    ("a line for 1", LOGIC, |v| v == 3),
    ("a line for Z", LOGIC, |v| v == 4),
    ("a line for W", LOGIC, |v| v == 5),
    ("a line for L", LOGIC, |v| v == 6),
    ("a line for H", LOGIC, |v| v == 7),
    ("a line for -", LOGIC, |v| v == 8),
    ("a line for integer 0", INTEGER, |v| v == 0),
    ("a line for integer 1", INTEGER, |v| v == 1),
    ("a line for integer -1", INTEGER, |v| v == -1),
    ("a line for the highest integer", INTEGER, |v| v == TOP),
    ("a line for the lowest integer", INTEGER, |v| v == -TOP),
    ("a line for another negative integer", INTEGER, |v| {
        -TOP < v && v < -1
    }),
];

/// Signals whose identifiers a reader can take for something else, at later times.
const IDENTIFIERS: &[(&str, u8, usize)] = &[
    ("logic signal \"", LOGIC, 1),
    ("logic signal #", LOGIC, 2),
    ("logic signal $", LOGIC, 3),
    ("logic signal -", LOGIC, 12),
    ("logic signal 0", LOGIC, 15),
    ("logic signal 1", LOGIC, 16),
    ("logic signal @", LOGIC, 31),
    ("integer signal \"", INTEGER, 1),
    ("integer signal #", INTEGER, 2),
    ("integer signal $", INTEGER, 3),
    ("integer signal -", INTEGER, 12),
    ("integer signal 0", INTEGER, 15),
    ("integer signal 1", INTEGER, 16),
    ("integer signal @", INTEGER, 31),
];

/// What a dump can show.
pub fn names() -> Vec<&'static str> {
    let runs = RUNS.iter().map(|row| row.0);
    let lines = LINES.iter().map(|row| row.0);
    let identifiers = IDENTIFIERS.iter().map(|row| row.0);
    let all = runs.chain(of_times()).chain(lines).chain(identifiers);
    all.collect()
}

/// Those of them that a later time shows.
pub fn of_times() -> Vec<&'static str> {
    LATER.iter().map(|row| row.0).collect()
}

/// What the dump of these orders, with these settled values, shows.
pub fn of_run(m: &Model, orders: &[u8], run: &[Row]) -> Seen {
    let mut seen = Seen::new();
    let played = played(m, orders, run);
    seen.extend(RUNS.iter().filter(|row| row.1(&played)).map(|row| row.0));
    for n in 1..run.len() {
        let later = Later {
            m,
            former: n.checked_sub(2).map(|n| &run[n]),
            before: &run[n - 1],
            now: &run[n],
            last: n + 1 == run.len(),
        };
        seen.extend(LATER.iter().filter(|row| row.1(&later)).map(|row| row.0));
        for (s, signal) in m.signals.iter().enumerate() {
            if !later.written(s) {
                continue;
            }
            let value = later.now.1[s];
            let lines = LINES.iter().filter(|l| l.1 == signal.ty && l.2(value));
            seen.extend(lines.map(|l| l.0));
            let identifiers = IDENTIFIERS.iter();
            let identifiers = identifiers.filter(|i| (i.1, i.2) == (signal.ty, s));
            seen.extend(identifiers.map(|i| i.0));
        }
    }
    seen
}

fn played<'r>(m: &'r Model, orders: &'r [u8], run: &'r [Row]) -> Played<'r> {
    let mut c = Config::first(m);
    let (mut stepped, mut pulse) = (false, false);
    let (mut had, mut before) = (Seen::new(), Seen::new());
    // The values of the time's beginning, and whether each was another one since.
    let mut began = c.current();
    let mut left = vec![false; began.len()];
    for order in orders.chunks_exact(ORDER) {
        let (time, mut answer) = (c.time, [0; ANSWER]);
        session::play(m, &mut c, order, &mut answer);
        for (what, is) in [
            (REFUSED, answer[0] != 0),
            (SETS, order[0] == PICK_SET && answer[2] > 0),
            (DELTA_REFUSED, order[0] == DELTA && answer[0] == 22),
            (TIME_REFUSED, order[0] == TIME && answer[0] == 23),
            (WITHDRAWN, order[0] == ADVANCE),
        ] {
            had.extend(is.then_some(what));
        }
        stepped = c.time != time;
        let now = c.current();
        for (n, left) in left.iter_mut().enumerate() {
            pulse |= *left && stepped && began[n] == now[n];
            *left = !stepped && (*left || began[n] != now[n]);
        }
        if stepped {
            before = had.clone();
            began = now;
        }
    }
    Played {
        m,
        orders,
        run,
        end: c,
        before,
        stepped,
        pulse,
    }
}

#[cfg(test)]
mod tests {
    use super::*;
    use crate::builder::Builder;
    use crate::cases::*;
    use crate::vcd::write::settled;

    /// What these orders show, but for lines and identifiers.
    fn shown(b: &Builder, orders: &[u8]) -> Vec<&'static str> {
        let seen = of_run(&b.m, orders, &settled(&b.m, orders));
        let others = RUNS.iter().map(|row| row.0).chain(of_times());
        others.filter(|name| seen.contains(name)).collect()
    }

    #[test]
    fn what_runs_show() {
        assert_eq!(
            shown(&inverter(), &inverter_orders()),
            [
                "other values at time 0 than the first",
                "a time at which all of several change",
                "values of a time that is never left",
            ]
        );
        let refused = [&orders(&[(READ, 9, 0)]), &inverter_orders()[..]].concat();
        assert!(shown(&inverter(), &refused).contains(&REFUSED));
        let (front, rest) = (inverter_orders()[..8].to_vec(), &inverter_orders()[8..]);
        for (order, what) in [((DELTA, 0, 0), DELTA_REFUSED), ((ADVANCE, 0, 0), WITHDRAWN)] {
            let list = [&front[..], &orders(&[order]), rest].concat();
            assert!(shown(&inverter(), &list).contains(&what));
        }
        let wrong = orders(&[(SETTLE, 0, 10), (TIME, 0, 0)]);
        let list = [&wrong[..], &inverter_orders()].concat();
        assert!(shown(&inverter(), &list).contains(&TIME_REFUSED));
        let sets = [(PICK_SET, 0, 3), (PICK_SET, 0, 3)];
        let by_sets = [&orders(&sets), &inverter_orders()[..]].concat();
        assert!(shown(&inverter(), &by_sets).contains(&SETS));
        let alone = "orders, and time 0 alone";
        assert_eq!(shown(&inverter(), &inverter_orders()[..4]), [alone]);
        assert_eq!(shown(&inverter(), &[]), ["no orders"]);
        assert_eq!(
            shown(&no_signals(), &rounds(&no_signals(), 40, 1)),
            ["no signals", "five times or more"]
        );
    }

    #[test]
    fn what_times_show() {
        // 1 to H and back, then X: rounds of three orders to a value.
        let b = in_turn(LOGIC, 2, &[3, 7, 3, 1, 3]);
        let left = "a time left out, other values written alike";
        let first = "other values at time 0 than the first";
        assert_eq!(shown(&b, &rounds(&b, 4, 1)), [first, left]);
        // The last time is reached, and left out until it has a value of its own.
        let (same, end) = (
            "a time left out, all values as before",
            "a time step at the end",
        );
        assert_eq!(shown(&b, &rounds(&b, 2, 1)), [end, first, same]);
        let seen = shown(&b, &rounds(&b, 13, 1));
        assert_eq!(
            seen,
            [
                "five times or more",
                first,
                left,
                "a value that stood two times before",
                "values of a time that is never left"
            ]
        );
    }

    #[test]
    fn lines_and_identifiers() {
        let b = in_turn(INTEGER, 5, &[0, 0, -1, TOP, -TOP]);
        let list = rounds(&b, 30, 1);
        let seen = of_run(&b.m, &list, &settled(&b.m, &list));
        let lines: Vec<&str> = LINES
            .iter()
            .map(|l| l.0)
            .filter(|n| seen.contains(n))
            .collect();
        // 0 is that of time 0.
        assert_eq!(
            lines,
            [
                "a line for integer -1",
                "a line for the highest integer",
                "a line for the lowest integer"
            ]
        );
        let named = IDENTIFIERS.iter().filter(|i| seen.contains(i.0)).count();
        assert_eq!(named, 0);
        let (b, list) = longest_dump();
        let seen = of_run(&b.m, &list, &settled(&b.m, &list));
        let mut named = IDENTIFIERS.iter().filter(|i| seen.contains(i.0));
        assert!(named.all(|i| i.1 == INTEGER) && seen.contains("integer signal @"));
    }
}
