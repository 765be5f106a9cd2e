//! What models and sessions show of the model's own resolution table, by name; another value
//! is one that the standard's table would not give. A session is played again step by step;
//! each logic signal that a delta step resolves is looked at, and all of them at first.

use super::{replay, Player, Seen};
use crate::cycle::*;
use crate::model::*;
use crate::values::{self, entry, Table, STANDARD, Z};

/// What an accepted model with its own table can show.
const IN_MODELS: &[(&str, fn(&Model, &Table) -> bool)] = &[
    ("the standard's table as rows", |_, t| *t == STANDARD),
    ("a table of one entry", |_, t| {
        t.iter().flatten().all(|&code| code == t[0][0])
    }),
    ("every code with itself is itself", |_, t| {
        (0..9).all(|x| entry(t, x, x) == x)
    }),
    ("a code with itself is another", |_, t| {
        (0..9).any(|x| entry(t, x, x) != x)
    }),
    ("Z with Z is another", |_, t| entry(t, Z, Z) != Z),
    ("Z is neutral", |_, t| neutral(t, Z)),
    ("a code other than Z is neutral", |_, t| {
        (0..9).any(|x| x != Z && neutral(t, x))
    }),
    ("no code is neutral", |_, t| !(0..9).any(|x| neutral(t, x))),
    ("a code other than U wins over all", |_, t| {
        (1..9).any(|x| wins(t, x))
    }),
    ("no code wins over all", |_, t| !(0..9).any(|x| wins(t, x))),
    ("a code that is no entry", |_, t| {
        !(0..9).all(|x| t.iter().flatten().any(|&code| code == x))
    }),
    ("a table, a plain signal of several drivers", |m, _| {
        several(m, PLAIN)
    }),
    ("a table, a bus of several drivers", |m, _| several(m, BUS)),
    ("a table, a register of several drivers", |m, _| {
        several(m, REGISTER)
    }),
    ("a table, a signal of three drivers or more", |m, _| {
        most_drivers(m) >= 3
    }),
    ("a table, no signal of several drivers", |m, _| {
        most_drivers(m) < 2
    }),
];

/// Is the other code what comes of it and this one?
fn neutral(t: &Table, x: u8) -> bool {
    (0..9).all(|y| entry(t, x, y) == y)
}

/// Is this code what comes of it and any other?
fn wins(t: &Table, x: u8) -> bool {
    (0..9).all(|y| entry(t, x, y) == x)
}

/// How many drivers a signal has.
fn drivers_of(m: &Model, s: usize) -> usize {
    m.drivers.iter().filter(|d| d.signal as usize == s).count()
}

fn several(m: &Model, kind: u8) -> bool {
    let of_kind = |s: &usize| m.signals[*s].ty == LOGIC && m.signals[*s].kind == kind;
    let mut such = (0..m.signals.len()).filter(of_kind);
    such.any(|s| drivers_of(m, s) > 1)
}

fn most_drivers(m: &Model) -> usize {
    let all = (0..m.signals.len()).map(|s| drivers_of(m, s));
    all.max().unwrap_or(0)
}

/// A logic signal that is resolved, at first or in a delta step.
struct Line<'m> {
    table: &'m Table,
    kind: u8,
    first: bool,
    /// How many drivers there are, and the values of those that are on.
    drivers: usize,
    values: Vec<u8>,
    /// The value before and the value then.
    old: u8,
    new: u8,
}

impl Line<'_> {
    /// What the standard's table makes of so many values, two at least.
    fn standard(&self) -> Option<u8> {
        (self.values.len() > 1).then(|| values::resolve(&self.values))
    }

    /// In a delta step the value is not the standard's.
    fn another(&self) -> bool {
        !self.first && self.standard().is_some_and(|value| value != self.new)
    }

    /// At first it is not.
    fn another_first(&self) -> bool {
        self.first && self.standard().is_some_and(|value| value != self.new)
    }

    /// The only value that is on; none at first.
    fn alone(&self) -> Option<u8> {
        match self.values[..] {
            [value] if !self.first => Some(value),
            _ => None,
        }
    }

    fn some_off(&self) -> bool {
        !self.first && !self.values.is_empty() && self.values.len() < self.drivers
    }

    fn all_off(&self, kind: u8) -> bool {
        self.kind == kind && self.values.is_empty() && self.drivers > 0
    }

    fn diagonal(&self, x: u8) -> u8 {
        entry(self.table, x, x)
    }

    /// Of three values or more, do these alone come to another?
    fn tell(&self, some: &[u8]) -> bool {
        let many = !self.first && self.values.len() > 2;
        many && values::resolve_by(self.table, some) != self.new
    }

    /// Is an entry of this code's row used that is not the standard's?
    fn row(&self, code: u8) -> bool {
        let (mut result, mut used) = (self.values.first().copied(), false);
        for &value in self.values.iter().skip(1) {
            let left = result.unwrap_or(value);
            let new = entry(self.table, left, value);
            used |= [left, value].contains(&code) && new != entry(&STANDARD, left, value);
            result = Some(new);
        }
        used
    }
}

type Row = (&'static str, fn(&Line) -> bool);

const OF_TWO: &str = "another value of two";
const OF_THREE: &str = "another value of three";
const OF_MORE: &str = "another value of four or more";

/// Values of a delta step that are not the standard's.
pub const TOLD: [&str; 3] = [OF_TWO, OF_THREE, OF_MORE];

/// What a played session can show: values that are not the standard's, and what no table
/// decides.
const ROWS: &[Row] = &[
    ("another first value of two drivers", |l| {
        l.another_first() && l.drivers == 2
    }),
    ("another first value of three or more", |l| {
        l.another_first() && l.drivers > 2
    }),
    (OF_TWO, |l| l.another() && l.values.len() == 2),
    (OF_THREE, |l| l.another() && l.values.len() == 3),
    (OF_MORE, |l| l.another() && l.values.len() > 3),
    ("another value on a plain signal", |l| {
        l.another() && l.kind == PLAIN
    }),
    ("another value on a bus", |l| l.another() && l.kind == BUS),
    ("another value on a register", |l| {
        l.another() && l.kind == REGISTER
    }),
    ("another value beside a driver off", |l| {
        l.another() && l.some_off()
    }),
    ("equal values that come to another", |l| {
        let equal = l.values.windows(2).all(|pair| pair[0] == pair[1]);
        !l.first && l.values.len() > 1 && equal && l.new != l.values[0]
    }),
    ("a lone driver, its diagonal another", |l| {
        l.drivers == 1 && l.alone().is_some_and(|v| l.diagonal(v) != v)
    }),
    ("one driver on, its diagonal another", |l| {
        l.drivers > 1 && l.alone().is_some_and(|v| l.diagonal(v) != v)
    }),
    ("one driver on, with Z it would be another", |l| {
        l.drivers > 1 && l.alone().is_some_and(|v| entry(l.table, v, Z) != v)
    }),
    ("several on, with Z it would be another", |l| {
        l.some_off() && l.values.len() > 1 && entry(l.table, l.new, Z) != l.new
    }),
    ("a bus all off, Z with Z another", |l| {
        l.all_off(BUS) && l.diagonal(Z) != Z
    }),
    ("a register all off, its diagonal another", |l| {
        l.all_off(REGISTER) && l.diagonal(l.old) != l.old
    }),
    ("a change, by the standard's table none", |l| {
        l.another() && l.new != l.old && l.standard() == Some(l.old)
    }),
    ("no change, by the standard's table one", |l| {
        l.another() && l.new == l.old
    }),
    ("the first two alone come to another", |l| {
        l.tell(&l.values[..l.values.len().min(2)])
    }),
    ("the last two alone come to another", |l| {
        l.tell(&l.values[l.values.len().saturating_sub(2)..])
    }),
    ("row U, an entry not the standard's", |l| l.row(0)),
    ("row X, an entry not the standard's", |l| l.row(1)),
    ("row 0, an entry not the standard's", |l| l.row(2)),
    ("row 1, an entry not the standard's", |l| l.row(3)),
    ("row Z, an entry not the standard's", |l| l.row(4)),
    ("row W, an entry not the standard's", |l| l.row(5)),
    ("row L, an entry not the standard's", |l| l.row(6)),
    ("row H, an entry not the standard's", |l| l.row(7)),
    ("row -, an entry not the standard's", |l| l.row(8)),
];

/// An integer signal that a delta step gives a value.
const INTEGER_DRIVEN: &str = "an integer signal beside a table";

pub fn in_models() -> Vec<&'static str> {
    IN_MODELS.iter().map(|row| row.0).collect()
}

pub fn in_sessions() -> Vec<&'static str> {
    let rows = ROWS.iter().map(|row| row.0);
    rows.chain([INTEGER_DRIVEN]).collect()
}

/// What an accepted model shows.
pub fn of_model(m: &Model) -> Seen {
    let Some(table) = m.own_table() else {
        return Seen::new();
    };
    let rows = IN_MODELS.iter().filter(|row| row.1(m, table));
    rows.map(|row| row.0).collect()
}

/// What a session's orders show on an accepted model.
pub fn of_session(m: &Model, orders: &[u8]) -> Seen {
    let Some(table) = m.own_table() else {
        return Seen::new();
    };
    let mut play = Play {
        m,
        table,
        c: Config::first(m),
        seen: Seen::new(),
    };
    for s in 0..m.signals.len() {
        play.look(s, None);
    }
    replay(&mut play, orders);
    play.seen
}

/// A session as it goes on.
struct Play<'m> {
    m: &'m Model,
    table: &'m Table,
    c: Config,
    seen: Seen,
}

impl Play<'_> {
    /// Looks at a signal, at first or after a delta step, before which it was `old`.
    fn look(&mut self, s: usize, old: Option<i32>) {
        let SignalRecord { ty, kind, start } = self.m.signals[s];
        if ty == INTEGER {
            if old.is_some() {
                self.seen.insert(INTEGER_DRIVEN);
            }
            return;
        }
        let pairs = self.m.drivers.iter().zip(&self.c.drivers);
        let own = pairs.filter(|(d, _)| d.signal as usize == s);
        let current: Vec<Carried> = own.map(|(_, driver)| driver.current).collect();
        let line = Line {
            table: self.table,
            kind,
            first: old.is_none(),
            drivers: current.len(),
            values: current.iter().flatten().map(|&v| v as u8).collect(),
            old: old.unwrap_or(start) as u8,
            new: self.c.signals[s][0] as u8,
        };
        let shown = ROWS.iter().filter(|row| row.1(&line));
        self.seen.extend(shown.map(|row| row.0));
    }
}

impl Player for Play<'_> {
    fn config(&self) -> &Config {
        &self.c
    }

    fn pick(&mut self, p: usize) {
        _ = self.c.pick(self.m, p);
    }

    fn step(&mut self, step: Step) {
        let (now, old) = (self.c.time, self.c.current());
        let due = |d: &Driver| d.wave.first().is_some_and(|t| t.0 == now);
        let pairs = self.m.drivers.iter().zip(&self.c.drivers);
        let active = pairs.filter(|(_, driver)| due(driver));
        let active = active.fold(0u32, |set, (d, _)| set | 1 << d.signal);
        if self.c.step(self.m, step).is_err() || step == Step::Time {
            return;
        }
        for s in (0..old.len()).filter(|s| active >> s & 1 == 1) {
            self.look(s, Some(old[s]));
        }
    }
}

#[cfg(test)]
mod tests {
    use super::*;
    use crate::builder::Builder;
    use crate::cases::{drivers, line, sums, turned_off, watched, with_table};
    use crate::gen::tables::open_drain;

    /// What a model's steps show with a table, in the order of the rows.
    fn shown(b: &Builder, table: &Table, steps: usize) -> Vec<&'static str> {
        let b = with_table(b.clone(), table);
        let seen = of_session(&b.m, &watched(&b, steps));
        let all = in_sessions().into_iter();
        all.filter(|what| seen.contains(what)).collect()
    }

    #[test]
    fn models() {
        let of = |b: Builder, table: &Table| {
            let seen = of_model(&with_table(b, table).m);
            let all = in_models().into_iter();
            all.filter(|what| seen.contains(what)).collect::<Vec<_>>()
        };
        let none = "a table, no signal of several drivers";
        assert_eq!(
            of(drivers(""), &STANDARD),
            [
                "the standard's table as rows",
                "a code with itself is another",
                // Z with - is X.
                "no code is neutral",
                "a code that is no entry",
                none
            ]
        );
        assert_eq!(
            of(turned_off(BUS, "0"), &open_drain()),
            ["every code with itself is itself", "Z is neutral", none]
        );
        assert_eq!(
            of(turned_off(BUS, "01"), &[[5; 9]; 9]),
            [
                "a table of one entry",
                "a code with itself is another",
                "Z with Z is another",
                "no code is neutral",
                "a code other than U wins over all",
                "a code that is no entry",
                "a table, a bus of several drivers"
            ]
        );
        let three = "a table, a signal of three drivers or more";
        let group = [
            "a code with itself is another",
            "Z with Z is another",
            "a code other than Z is neutral",
            "no code wins over all",
        ];
        let plain = "a table, a plain signal of several drivers";
        let register = "a table, a register of several drivers";
        assert_eq!(of(drivers("01"), &sums())[4..], [plain]);
        assert_eq!(of(drivers("01"), &sums())[..4], group);
        let signal = turned_off(REGISTER, "011");
        assert_eq!(of(signal, &sums())[4..], [register, three]);
        assert!(of_model(&drivers("01").m).is_empty());
    }

    #[test]
    fn values_of_two_and_more() {
        // 0 beside 1 is 0, not X; both start at Z, which stays.
        assert_eq!(
            shown(&drivers("01"), &open_drain(), 1),
            [
                "another value of two",
                "another value on a plain signal",
                "row 0, an entry not the standard's",
                "row 1, an entry not the standard's"
            ]
        );
        // Z and Z come to - at first, H and 0 to U.
        let sum = shown(&drivers("H0"), &sums(), 1);
        assert_eq!(sum[0], "another first value of two drivers");
        assert_eq!(
            sum[1..3],
            ["another value of two", "another value on a plain signal"]
        );
        // The entry of Z and Z is not the standard's either.
        let rows: Vec<_> = sum[3..]
            .iter()
            .filter(|what| what.starts_with("row "))
            .collect();
        assert_eq!(rows.len(), 3);
        // A value alone, and all as the standard has it.
        assert!(shown(&drivers("1"), &STANDARD, 1).is_empty());
        assert!(shown(&drivers("01"), &STANDARD, 1).len() < 2);
        assert!(of_session(&drivers("01").m, &watched(&drivers("01"), 1)).is_empty());
        let lone = "a lone driver, its diagonal another";
        assert_eq!(shown(&drivers("1"), &sums(), 1), [lone]);
        // Three: 1 + 2 + 3.
        let three = shown(&drivers("X01"), &sums(), 1);
        for what in [
            "another first value of three or more",
            "another value of three",
            "the first two alone come to another",
            "the last two alone come to another",
        ] {
            assert!(three.contains(&what), "{what}");
        }
        let four = shown(&drivers("0000"), &sums(), 1);
        for what in [
            "another value of four or more",
            "equal values that come to another",
        ] {
            assert!(four.contains(&what), "{what}");
        }
        let integer = ["an integer signal beside a table"];
        assert_eq!(shown(&line(&[0]), &sums(), 1), integer);
    }

    #[test]
    fn drivers_off() {
        let all = "a bus all off, Z with Z another";
        let (own, z) = (
            "one driver on, its diagonal another",
            "one driver on, with Z it would be another",
        );
        let several = "several on, with Z it would be another";
        let beside = "another value beside a driver off";
        let of = |kind: u8, letters: &str, steps: usize| {
            shown(&turned_off(kind, letters), &sums(), steps)
        };
        // The first is off, then the second.
        let bus = of(BUS, "XW", 3);
        assert!(bus.contains(&own) && bus.contains(&z) && !bus.contains(&all));
        assert!(of(BUS, "XW", 5).contains(&all));
        let register = "a register all off, its diagonal another";
        assert!(!of(REGISTER, "XW", 3).contains(&register));
        assert!(of(REGISTER, "XW", 5).contains(&register));
        let three = of(BUS, "XWH", 3);
        assert!(three.contains(&several) && three.contains(&beside));
        // U is itself, and Z with U is Z.
        let unset = of(BUS, "ZU", 3);
        assert!(!unset.contains(&own) && unset.contains(&z));
        // Wired-and has Z neutral and each code itself.
        let wired = shown(&turned_off(BUS, "H01"), &open_drain(), 7);
        for what in [all, own, z, several] {
            assert!(!wired.contains(&what), "{what}");
        }
    }

    #[test]
    fn changes() {
        let (change, none) = (
            "a change, by the standard's table none",
            "no change, by the standard's table one",
        );
        let of = |start: i32, letters: &str, table: &Table| {
            let mut b = drivers(letters);
            b.m.signals[0].start = start;
            let seen = shown(&b, table, 1);
            [change, none].map(|what| seen.contains(&what))
        };
        // From X, to which the standard's brings 0 and 1.
        assert_eq!(of(1, "01", &open_drain()), [true, false]);
        assert_eq!(of(2, "01", &open_drain()), [false, true]);
        assert_eq!(of(3, "01", &open_drain()), [false, false]);
    }
}
