//! The model's own resolution table.

use super::*;
use crate::gen;
use crate::gen::numbering::renumbered;
use crate::gen::tables::{open_drain, pairs, table};
use crate::moves::move_over;
use crate::rng::Rng;
use crate::values::{entry, Table, LETTERS, STANDARD};
use crate::vcd::write::{print as print_dump, write};

/// A step and a read of signal 0 behind a settle: the letter of its value.
fn resolved(b: &Builder) -> char {
    let (a, _) = play(b, &[(SETTLE, 0, 99), DEL, (READ, 0, 0)]);
    assert_eq!((a[1].0, a[2].0), (0, 0));
    LETTERS[a[2].3 as usize] as char
}

/// What the drivers with these letters come to by a table.
fn by(table: &Table, letters: &str) -> char {
    resolved(&with_table(drivers(letters), table))
}

/// Letters of signal 0 at first and after each of so many steps.
fn followed(b: &Builder, steps: usize) -> String {
    let list = watched(b, steps);
    let mut answers = vec![0; 4 * list.len()];
    let (number, _) = session(&b.encode(), &list, &mut answers);
    assert_eq!(number, 0);
    let first = Config::first(&b.m).signals[0][0] as u8;
    let pairs = list.chunks(4).zip(answers.chunks(16));
    let read = pairs.filter(|(o, _)| o[0] == READ).map(|(_, a)| a[4]);
    let codes = [first].into_iter().chain(read);
    codes.map(|c| LETTERS[c as usize] as char).collect()
}

#[test]
fn none_or_nine() {
    for rows in 0..=90 {
        let number = judged(|b| b.m.rows = (0..rows).map(|n| STANDARD[n % 9]).collect());
        let expected = if rows == 0 || rows == 9 { 0 } else { 4 };
        assert_eq!(number, expected, "{rows} rows");
    }
    // Before 5: the first eight rows have a code above 8.
    assert_eq!(judged(|b| b.m.rows = vec![[9; 9]; 8]), 4);
}

#[test]
fn codes_and_zeros() {
    let with_byte = |row: usize, byte: usize, value: u8| {
        let mut bytes = with_table(rich(), &[[8; 9]; 9]).encode();
        let at = bytes.len() - BLOCK;
        assert_eq!(bytes[at + 2..at + 4], [7, 9]);
        bytes[at + 4 + RECORD * row + byte] = value;
        repair_sum(&mut bytes[at..]);
        judge(&bytes)
    };
    for row in 0..9 {
        for byte in 0..9 {
            for value in [9, 10, 16, 128, 255] {
                assert_eq!(with_byte(row, byte, value), 5, "{row}, {byte}");
            }
            assert_eq!(with_byte(row, byte, 8), 0);
        }
        for byte in 9..12 {
            for value in [1, 8, 255] {
                assert_eq!(with_byte(row, byte, value), 5, "{row}, {byte}");
            }
            assert_eq!(with_byte(row, byte, 0), 0);
        }
    }
}

#[test]
fn blocks_of_rows() {
    let b = with_table(rich(), &sums());
    let split = |counts: &[usize]| {
        let mut plan = full_plan(&b.m);
        plan[6] = counts.to_vec();
        load(&encode_with(&b.m, &plan))
    };
    for counts in [&[9][..], &[1; 9], &[4, 5], &[0, 8, 0, 0, 1, 0]] {
        assert_eq!(split(counts).as_ref(), Ok(&b.m), "{counts:?}");
    }
    // An empty block adds no row.
    let mut plan = full_plan(&rich().m);
    plan[6] = vec![0; 3];
    assert_eq!(load(&encode_with(&rich().m, &plan)), Ok(rich().m));
    // Kind 7 is the last, and there is no kind 8.
    let bytes = b.encode();
    let last = bytes.len() / BLOCK - 1;
    let with_kind = |n: usize, kind: u8| {
        let mut bytes = bytes.clone();
        bytes[BLOCK * n + 2] = kind;
        repair_sum(&mut bytes[BLOCK * n..][..BLOCK]);
        judge(&bytes)
    };
    assert_eq!([8, 9, 255].map(|kind| with_kind(last, kind)), [3; 3]);
    assert!((0..last - 1).all(|n| with_kind(n, 7) == 3));
    // The statements' block as one of rows: none falls, and the total is wrong.
    assert_eq!(with_kind(last - 1, 7), 4);
    assert_eq!(with_kind(last, 6), 5);
}

#[test]
fn refusals_in_turn() {
    for (number, table) in refused_tables() {
        let refused = |change: fn(&mut Builder)| {
            judged(|b| {
                b.table(&table);
                change(b);
            })
        };
        assert_eq!(refused(|_| ()), number);
        let null: fn(&mut Builder) = |b| {
            b.m.statements[2].kind = 6;
            b.m.statements[2].b = 0;
        };
        assert_eq!(refused(null), 20);
        assert_eq!(refused(|b| b.m.drivers.reverse()), 8);
        assert_eq!(refused(|b| b.m.statements[5].c = 1), 7);
        assert_eq!(refused(|b| b.m.nodes[8].b = 8), 6);
        assert_eq!(refused(|b| b.m.rows[0][0] = 9), 5);
        assert_eq!(refused(|b| b.m.rows.truncate(8)), 4);
        // Before the orders' length, the answers' and the output's.
        let (model, list) = (with_table(inverter(), &table).encode(), inverter_orders());
        for (length, room) in [(3, 12), (8, 31), (32, 128), (16_388, 0)] {
            let orders = list.repeat(600);
            let mut out = vec![7; room];
            let (found, end) = session(&model, &orders[..length], &mut out);
            assert_eq!((found, end), (number, Config::default()));
            assert_eq!(write(&model, &orders[..length], &mut out), (number, 0));
            assert_eq!(move_over(&model, &orders[..length], &mut out), number);
            assert!(out.iter().all(|&byte| byte == 7));
        }
    }
}

#[test]
fn each_entry_is_held_to_both_rules() {
    for (x, y) in pairs() {
        let changed = |both: bool| {
            let mut table = [[4; 9]; 9];
            table[x][y] = 3;
            if both {
                table[y][x] = 3;
            }
            judged(|b| b.table(&table))
        };
        assert_eq!(changed(false), if x == y { changed(true) } else { 24 });
        // 3 comes of x and y alone, all others come to 4. With 4 in the pair, or with 3 and
        // another, (xy)z and x(yz) part.
        let told = [x, y].iter().any(|code| [3, 4].contains(code)) && (x, y) != (3, 3);
        assert_eq!(changed(true), if told { 25 } else { 0 }, "{x}, {y}");
    }
}

// No other demand: neither that a code with itself is itself, nor that Z is neutral.
#[test]
fn any_such_table_is_accepted() {
    for (name, table) in own_tables() {
        assert_eq!(judged(|b| b.table(&table)), 0, "{name}");
    }
    for code in 0..9 {
        assert_eq!(judged(|b| b.table(&[[code; 9]; 9])), 0);
    }
}

#[test]
fn every_pair_by_the_table() {
    for (name, table) in own_tables() {
        for (x, y) in pairs() {
            let letters: String = [x, y].map(|code| LETTERS[code] as char).iter().collect();
            let expected = LETTERS[table[x][y] as usize] as char;
            assert_eq!(by(&table, &letters), expected, "{name}, {letters}");
        }
    }
    // Open drain: 0 wins over 1.
    assert_eq!(by(&open_drain(), "01"), '0');
    assert_eq!(by(&STANDARD, "01"), 'X');
    // One after another: 1 + 2 + 3 is 6, 8 + 8 + 8 is 6 too.
    assert_eq!(by(&sums(), "X01"), 'L');
    assert_eq!(by(&sums(), "---"), 'L');
    assert_eq!(by(&sums(), "UUUUUUUUUUUUUUU1"), '1');
}

#[test]
fn all_logic_signals_have_it() {
    for kind in [PLAIN, BUS, REGISTER] {
        let mut b = with_table(drivers("01"), &open_drain());
        b.m.signals[0].kind = kind;
        assert_eq!(resolved(&b), '0');
    }
    // A second signal.
    let mut b = with_table(drivers("LH"), &sums());
    let (s, zero) = (b.signal(LOGIC, 3), b.integer(0));
    for p in 0..2 {
        b.driver(p, s);
        b.m.drivers.sort_by_key(|d| (d.process, d.signal));
        b.m.statements[2 * p as usize].a = s;
        b.m.statements[2 * p as usize].c = zero;
    }
    let (_, c) = play(&b, &[SET, DEL]);
    // Of two Z first, of L and H then.
    assert_eq!(c.current(), [8, 4]);
}

#[test]
fn first_values() {
    for (name, table) in own_tables() {
        for start in 0..9u8 {
            let mut b = with_table(drivers("UUUU"), &table);
            b.m.signals[0].start = start as i32;
            let mut expected = start;
            for drivers in 0..4 {
                b.m.drivers.truncate(0);
                (0..drivers).for_each(|p| b.driver(p, 0));
                if drivers > 1 {
                    expected = entry(&table, expected, start);
                }
                let c = Config::first(&b.m);
                assert_eq!(c.signals, [[expected as i32; 32]], "{name}, {drivers}");
                assert_eq!(c.earlier, [expected as i32]);
            }
        }
    }
}

#[test]
fn one_value_is_itself() {
    for (name, table) in own_tables() {
        for letter in LETTERS.map(char::from) {
            assert_eq!(by(&table, &letter.to_string()), letter, "{name}");
            // Beside one that is off, before all are.
            let b = with_table(turned_off(BUS, &format!("U{letter}")), &table);
            let after = followed(&b, 3).chars().last();
            assert_eq!(after, Some(letter), "{name}");
        }
    }
}

#[test]
fn drivers_that_turn_off() {
    // Z with Z is -, X with X is 0, W with H is 1.
    let sums = sums();
    let of = |kind: u8, letters: &str| {
        let b = with_table(turned_off(kind, letters), &sums);
        followed(&b, 2 * letters.len() + 1)
    };
    // Two drivers start at Z, which comes to -; with all off a bus is Z.
    assert_eq!(of(BUS, "XX"), "-00XXZ");
    assert_eq!(of(REGISTER, "XX"), "-00XXX");
    assert_eq!(of(BUS, "ZZ"), "---ZZZ");
    assert_eq!(of(REGISTER, "ZZ"), "---ZZZ");
    // Of three the last two are left, then the last.
    assert_eq!(of(BUS, "XWH"), "1ZZ11HHZ");
    assert_eq!(of(REGISTER, "XWH"), "1ZZ11HHH");
    assert_eq!(of(BUS, "-"), "Z--Z");
    assert_eq!(of(REGISTER, "-"), "Z---");
    // An entry for all: a bus is Z all the same.
    let b = with_table(turned_off(BUS, "01"), &[[5; 9]; 9]);
    assert_eq!(followed(&b, 5), "WWW11Z");
}

#[test]
fn without_drivers_the_start_stays() {
    for kind in [PLAIN, BUS, REGISTER] {
        let mut b = with_table(turned_off(kind, ""), &[[5; 9]; 9]);
        b.m.signals[0].start = 6;
        assert_eq!(Config::first(&b.m).current(), [6]);
    }
}

#[test]
fn integers_and_operators_are_untouched() {
    let integer = with_table(line(&[0, 7]), &sums());
    let list = [SET, DEL, TIM, DEL, (READ, 0, 0)];
    assert_eq!(play(&integer, &list), play(&line(&[0, 7]), &list));
    for kind in 6..=9 {
        for row in 0..9 {
            let b = operator_row(kind, row);
            let own = with_table(b.clone(), &sums());
            let list = [(SETTLE, 0, 20)];
            assert_eq!(play(&b, &list).1.variables, play(&own, &list).1.variables);
        }
    }
}

// The standard's table as rows is as no rows; any other changes no model whose signals have
// one driver at most.
#[test]
fn as_without_rows() {
    let mut several = 0;
    for seed in 0..400 {
        let rng = &mut Rng::new(seed);
        let mut m = gen::model(rng);
        m.rows.clear();
        let list = gen::orders(rng, &m, 40);
        let play = |rows: &[RowRecord]| {
            let mut own = m.clone();
            own.rows = rows.to_vec();
            let mut answers = vec![0; 4 * list.len()];
            let (number, end) = session(&encode(&own), &list, &mut answers);
            assert_eq!(number, 0, "seed {seed}");
            (answers, end)
        };
        assert_eq!(play(&STANDARD), play(&[]), "seed {seed}");
        let mut signals: Vec<u8> = m.drivers.iter().map(|d| d.signal).collect();
        signals.sort();
        match signals.windows(2).any(|pair| pair[0] == pair[1]) {
            true => several += 1,
            false => assert_eq!(play(&[[1; 9]; 9]), play(&[]), "seed {seed}"),
        }
    }
    assert!((100..300).contains(&several), "{several}");
}

// Two numberings of a signal's drivers give one value.
#[test]
fn numberings_of_drivers() {
    let orders = [[0, 1, 2, 3], [3, 2, 1, 0], [1, 3, 0, 2], [2, 0, 3, 1]];
    for seed in 0..200 {
        let rng = &mut Rng::new(seed);
        let table = table(rng);
        let letters: String = (0..4).map(|_| rng.choose(LETTERS) as char).collect();
        let b = with_table(drivers(&letters), &table);
        let values = orders.map(|order| {
            let m = renumbered(&b.m, &order);
            resolved(&Builder { m })
        });
        assert!(
            values.iter().all(|&v| v == values[0]),
            "{letters}, {table:?}"
        );
    }
}

#[test]
fn dumped_as_resolved() {
    let list = orders(&[SET, DEL, TIM]);
    let dump = |b: &Builder| print_dump(&b.encode(), &list);
    assert!(dump(&drivers("01")).ends_with("#0\nx!\n"));
    let own = with_table(drivers("01"), &open_drain());
    assert!(dump(&own).ends_with("#0\n0!\n"));
}
