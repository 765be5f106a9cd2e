//! Texts with their records, places and numbers worked out by hand.

use super::damage::case;
use super::earley;
use super::lexer::{tokens, Token};
use super::limits::{all_given, limits, nest};
use super::parser::{parse, Place, Refused};
use super::records::*;
use super::run::{both, ready_at, Program, Stop};
use super::spell::{pieces, same, set, Setting};
use crate::builder::Builder;
use crate::cycle::{Config, NO_NODE};
use crate::model::*;
use crate::rng::Rng;

/// Nodes as kind, a, b, k.
fn nodes(text: &str) -> Vec<(u8, u16, u16, i32)> {
    let made = read(text.as_bytes()).expect("it is a sentence");
    let fields = |n: &NodeRecord| (n.kind, n.a, n.b, n.k);
    made.nodes.iter().map(fields).collect()
}

/// Statements as kind, a, b, c, set.
fn statements(text: &str) -> Vec<(u8, u16, u16, u16, u32)> {
    let made = read(text.as_bytes()).expect("it is a sentence");
    let fields = |s: &StatementRecord| (s.kind, s.a, s.b, s.c, s.set);
    made.statements.iter().map(fields).collect()
}

/// The number with all names given.
fn number(text: &str) -> u32 {
    let found = model(text.as_bytes(), &given(&all_given()));
    found.err().unwrap_or(0)
}

#[test]
fn each_expression() {
    assert_eq!(nodes("v0:=5;"), [(1, 0, 0, 5)]);
    assert_eq!(nodes("v0:=2147483647;"), [(1, 0, 0, i32::MAX)]);
    for (code, letter) in "UX01ZWLH-".chars().enumerate() {
        let text = format!("v0:='{letter}';");
        assert_eq!(nodes(&text), [(2, 0, 0, code as i32)]);
    }
    assert_eq!(nodes("v0:=v63;"), [(3, 63, 0, 0)]);
    assert_eq!(nodes("v0:=s31;"), [(4, 31, 0, 0)]);
    assert_eq!(nodes("v0:=(s7 delayed 31);"), [(5, 7, 0, 31)]);
    assert_eq!(nodes("v0:=(not v1);"), [(3, 1, 0, 0), (6, 0, 0, 0)]);
    assert_eq!(nodes("v0:=(- 1);"), [(1, 0, 0, 1), (10, 0, 0, 0)]);
    for (sign, kind) in [
        ("and", 7),
        ("or", 8),
        ("xor", 9),
        ("+", 11),
        ("-", 12),
        ("=", 13),
        ("<", 14),
        ("*", 15),
        ("/", 16),
        ("mod", 17),
        ("rem", 18),
    ] {
        let text = format!("v0:=(v1 {sign} s2);");
        let expected = [(3, 1, 0, 0), (4, 2, 0, 0), (kind, 0, 1, 0)];
        assert_eq!(nodes(&text), expected, "{sign}");
    }
}

#[test]
fn nodes_as_the_text_goes() {
    // Operands before their operator, a before b; the value before the delay.
    let text = "s1<=((v1-(s2 delayed 3))*(-4))after(5+6);v7:=8;";
    let expected = [
        (3, 1, 0, 0),
        (5, 2, 0, 3),
        (12, 0, 1, 0),
        (1, 0, 0, 4),
        (10, 3, 0, 0),
        (15, 2, 4, 0),
        (1, 0, 0, 5),
        (1, 0, 0, 6),
        (11, 6, 7, 0),
        (1, 0, 0, 8),
    ];
    assert_eq!(nodes(text), expected);
    assert_eq!(statements(text), [(2, 1, 5, 8, 0), (1, 7, 9, 0, 0)]);
    // A condition before its branches, `until` before `for`, the first branch before the
    // second; nothing is shared.
    let text = "while(1<2)loop if(3=3)then v0:=4;else wait until(5=5)for 6;end if;end loop;v0:=7;";
    let constants: Vec<i32> = nodes(text)
        .iter()
        .filter(|n| n.0 == 1)
        .map(|n| n.3)
        .collect();
    assert_eq!(constants, [1, 2, 3, 3, 4, 5, 5, 6, 7]);
}

#[test]
fn each_statement() {
    const NO: u16 = ABSENT;
    assert_eq!(statements("null;"), [(0, 0, 0, 0, 0)]);
    assert_eq!(statements("v63:=1;"), [(1, 63, 0, 0, 0)]);
    assert_eq!(statements("s31<=1 after 0;"), [(2, 31, 0, 1, 0)]);
    assert_eq!(statements("wait;"), [(5, 0, NO, NO, 0)]);
    assert_eq!(
        statements("wait on s0,s31,s0;"),
        [(5, 0, NO, NO, 1 << 31 | 1)]
    );
    // A missing `on`: the signals in `until`, delayed ones too, not those in `for`.
    let until = "((s1=(s2 delayed 3))and(not((s4 delayed 0)=v5)))";
    let set = 1 << 1 | 1 << 2 | 1 << 4;
    for (text, b, c, set) in [
        (format!("wait until {until};"), 7, NO, set),
        (format!("wait until {until}for s6;"), 7, 8, set),
        (format!("wait on s9 until {until};"), 7, NO, 1 << 9),
        (format!("wait on s9 until {until}for s6;"), 7, 8, 1 << 9),
        ("wait for s6;".into(), NO, 0, 0),
        ("wait for(s6 delayed 1);".into(), NO, 0, 0),
        ("wait on s9,s10 for s6;".into(), NO, 0, 3 << 9),
        ("wait until(v0=1);".into(), 2, NO, 0),
    ] {
        assert_eq!(statements(&text), [(5, 0, b, c, set)], "{text}");
    }
}

#[test]
fn branches() {
    let text = "null;if v2 then v0:=1;null;else v0:=2;end if;null;";
    let expected = [
        (0, 0, 0, 0, 0),
        (3, 5, 0, 0, 0),
        (1, 0, 1, 0, 0),
        (0, 0, 0, 0, 0),
        (4, 6, 0, 0, 0),
        (1, 0, 2, 0, 0),
        (0, 0, 0, 0, 0),
        (0, 0, 0, 0, 0),
    ];
    assert_eq!(statements(text), expected);
    let text = "null;while v2 loop v0:=1;null;end loop;null;";
    let expected = [
        (0, 0, 0, 0, 0),
        (3, 5, 0, 0, 0),
        (1, 0, 1, 0, 0),
        (0, 0, 0, 0, 0),
        (4, 1, 0, 0, 0),
        (0, 0, 0, 0, 0),
        (0, 0, 0, 0, 0),
    ];
    assert_eq!(statements(text), expected);
    // In one another.
    let text = "while v2 loop if v5 then while v8 loop null;end loop;else wait;end if;end loop;";
    let kinds_and_jumps: Vec<(u8, u16)> = statements(text).iter().map(|s| (s.0, s.1)).collect();
    let expected = [
        (3, 10),
        (3, 7),
        (3, 5),
        (0, 0),
        (4, 2),
        (0, 0),
        (4, 8),
        (5, 0),
        (0, 0),
        (4, 0),
        (0, 0),
    ];
    assert_eq!(kinds_and_jumps, expected);
}

/// Where no sentence goes on: bytes before it, line and column.
fn stops(text: &str) -> (usize, usize, usize) {
    match parse(text.as_bytes()) {
        Err(Refused::At(p)) => (p.offset, p.line, p.column),
        other => panic!("{text}: {other:?}"),
    }
}

#[test]
fn places() {
    for (text, place) in [
        ("", (0, 1, 1)),
        ("\n \n", (3, 3, 1)),
        ("nul;", (0, 1, 1)),
        ("null", (4, 1, 5)),
        ("null;null", (9, 1, 10)),
        ("null;\n null ;;", (13, 2, 8)),
        ("v0 <= 1;", (3, 1, 4)),
        ("s0 := 1;", (3, 1, 4)),
        ("s0 <= 1;", (7, 1, 8)),
        ("v0:=(1);", (6, 1, 7)),
        ("v0:=(1+2+3);", (8, 1, 9)),
        ("v0:=1+2;", (5, 1, 6)),
        ("v0:=-2;", (4, 1, 5)),
        ("v0:=(v1 delayed 2);", (8, 1, 9)),
        ("v0:=(s1 delayed 32);", (16, 1, 17)),
        ("v0:=(s1 delayed v1);", (16, 1, 17)),
        ("v0:=(s1);", (7, 1, 8)),
        ("v0:=(1\n<=2);", (7, 2, 1)),
        ("v0:=01;", (4, 1, 5)),
        ("v0:=(1 and2);", (7, 1, 8)),
        ("if v0 then else null;end if;", (11, 1, 12)),
        ("if v0 then null;end if;", (16, 1, 17)),
        ("if v0 then null;else end if;", (21, 1, 22)),
        ("if v0 then null;else null;end loop;", (30, 1, 31)),
        ("if v0 then null;else null;end if", (32, 1, 33)),
        ("while v0 loop end loop;", (14, 1, 15)),
        ("while v0 loop null;end if;", (23, 1, 24)),
        ("while v0 then null;end loop;", (9, 1, 10)),
        ("wait on;", (7, 1, 8)),
        ("wait on s0 s1;", (11, 1, 12)),
        ("wait on s0,;", (11, 1, 12)),
        ("wait on v0;", (8, 1, 9)),
        ("wait until(0=0)on s0;", (15, 1, 16)),
        ("wait for 1 until(0=0);", (11, 1, 12)),
        ("wait for 1 for 1;", (11, 1, 12)),
        ("end;", (0, 1, 1)),
        ("null;\n\n  \tnull;", (9, 3, 3)),
        ("null;Null;", (5, 1, 6)),
        ("v0:='u';", (4, 1, 5)),
        ("v0:=(not);", (8, 1, 9)),
        ("v0:=(not not v0);", (9, 1, 10)),
        ("v0:=(- - v0);", (7, 1, 8)),
    ] {
        assert_eq!(stops(text), place, "{text}");
    }
    // The 17th level's first word; a text that is too long has no place.
    let text = nest(&"w".repeat(17), "null;");
    let seventeenth = text.match_indices("while").nth(16).expect("it is there").0;
    assert_eq!(stops(&text).0, seventeenth);
    let text = nest("ewewewewewewewew", "null;if v0 then");
    let seventeenth = text.find("if v0").expect("it is there");
    assert_eq!(stops(&text).0, seventeenth);
    assert_eq!(parse(&[b' '; 65_536]), Err(Refused::TooLong));
    let last = Place {
        offset: 65_535,
        line: 1,
        column: 65_536,
    };
    assert_eq!(parse(&[b' '; 65_535]), Err(Refused::At(last)));
}

#[test]
fn limits_hold() {
    for limit in limits() {
        let found = read(&limit.text).err().unwrap_or(0);
        assert_eq!(found, limit.sentence, "{}", limit.name);
        let found = model(&limit.text, &limit.given).err().unwrap_or(0);
        assert_eq!(found, limit.number, "{}", limit.name);
    }
}

#[test]
fn numbers_in_turn() {
    let text = |text: &str, m: &Model| model(text.as_bytes(), &given(m)).err().unwrap_or(0);
    let mut b = Builder::new();
    let s = b.signal(INTEGER, 0);
    b.variable(LOGIC, 0, 3);
    b.driver(0, s);
    assert_eq!(text("s0<=0 after 0;wait on s0;", &b.m), 0);
    // 27 over the whole text, wherever the name stands.
    for wrong in [
        "s1<=0 after 0;",
        "v1:='0';",
        "s0<=s1 after 0;",
        "s0<=0 after s1;",
        "s0<=(s1 delayed 0)after 0;",
        "v0:=v1;",
        "wait on s0,s31;",
        "wait on s1 until(0=0)for 1;",
        "wait until(s1=0);",
        "wait for v63;",
        "if v1 then null;else null;end if;",
        "while(0=1)loop v0:=v1;end loop;",
    ] {
        assert_eq!(text(wrong, &b.m), 27, "{wrong}");
        // After 26, before all others.
        assert_eq!(text(&format!("{wrong};"), &b.m), 26, "{wrong}");
        let many = "null;".repeat(201) + wrong;
        assert_eq!(text(&many, &b.m), 27, "{wrong}");
        let types = "v0:=1;".to_string() + wrong;
        assert_eq!(text(&types, &b.m), 27, "{wrong}");
    }
    // 4 before 5, 5 before 6, 6 before 7, 7 before 8.
    let long = format!("wait for {}1{};", "(-".repeat(64), ")".repeat(64));
    let types = "v0:=1;";
    let many = "null;".repeat(201);
    let mut m = b.m.clone();
    m.drivers.clear();
    let all = "s0<=0 after 0;".to_string() + &long + types;
    assert_eq!(text("s0<=0 after 0;", &m), 8);
    assert_eq!(text(&format!("s0<=0 after 0;{types}"), &m), 7);
    assert_eq!(text(&all, &m), 6);
    m.variables[0].start = 9;
    assert_eq!(text(&all, &m), 5);
    assert_eq!(text(&(all + &many), &m), 4);
    // Lengths.
    let bytes = given(&b.m);
    let of = |bytes: &[u8]| model(b"s0<=0 after 0;", bytes).err().unwrap_or(0);
    assert_eq!(bytes[..3], [1, 1, 1]);
    assert_eq!(of(&bytes), 0);
    assert_eq!(of(&bytes[..bytes.len() - 1]), 4);
    assert_eq!(of(&[&bytes[..], &[0]].concat()), 4);
    assert_eq!(of(&[&bytes[..], &[0; 12]].concat()), 4);
    assert_eq!(of(&bytes[..3]), 4);
    assert_eq!(of(&[]), 27);
    assert_eq!(model(b"null;", &[]).err(), Some(4));
    assert_eq!(model(b"null;", &[0, 0, 0]).err(), None);
}

#[test]
fn an_accepted_text_is_a_model() {
    let mut b = Builder::new();
    let (i, o) = (b.signal(LOGIC, 2), b.signal(LOGIC, 2));
    b.driver(0, o);
    let text = b"s1 <= (not s0) after 0;\nwait on s0;\n";
    let m = model(text, &given(&b.m)).expect("it is accepted");
    let (zero_at, read) = (2, b.read_signal(i));
    let not = b.unary(6, read);
    assert_eq!(b.integer(0), zero_at);
    b.process();
    b.schedule(o, not, zero_at);
    b.wait(1 << i, ABSENT, ABSENT);
    assert_eq!(m, b.m);
    assert_eq!(load(&encode(&m)), Ok(m));
    // The model that is as large as can be.
    let text = "v0:=((1+1)+1);".repeat(80) + &"null;".repeat(120);
    let m = model(text.as_bytes(), &given(&all_given())).expect("it is accepted");
    let blocks = encode(&m);
    assert_eq!(blocks.len(), 512 * (1 + 2 + 1 + 1 + 10 + 5));
    assert_eq!(load(&blocks), Ok(m));
}

#[test]
fn tokens_apart() {
    for right in [
        "null;",
        " null ; ",
        "\nnull\n;\n",
        "v0:=(not'1');",
        "v0:=('0'and'1');",
        "v0:=(v1 and(not v2));",
        "if(0=0)then null;else null;end if;",
        "v0:=(-1);",
        "v0:=(1<2);",
        "v0:=(1--1);",
    ] {
        let expected = if right.contains("--") { 26 } else { 0 };
        assert_eq!(
            read(right.as_bytes()).err().unwrap_or(0),
            expected,
            "{right}"
        );
    }
    for wrong in [
        "nullnull;",
        "v0:=(v1and v2);",
        "v0:=(v1 andv2);",
        "v0:=(1and 2);",
        "v0:=(s0delayed 1);",
        "v0:=(s0 delayed1);",
        "v0 : = 1;",
        "s0 < = 1 after 0;",
        "if v0 then null;else null;endif;",
        "waiton s0;",
        "v 0:=1;",
        "v0:=1 0;",
        "v0:=' 0';",
    ] {
        assert_eq!(number(wrong), 26, "{wrong}");
    }
}

/// Every short string of tokens, and every expression of a few: what is read, the place
/// where it stops and the one reading are those of the grammar's table.
#[test]
fn by_the_table() {
    let check = |text: &str| {
        let list = tokens(text.as_bytes());
        let plain: Vec<Token> = list.iter().map(|t| t.1).collect();
        let place = earley::place(&plain).map(|n| list[n].0);
        let ours = match parse(text.as_bytes()) {
            Err(Refused::At(p)) => Some(p.offset),
            _ => None,
        };
        assert_eq!(ours, place, "{text}");
        if plain.last() == Some(&Token::End) {
            assert_eq!(earley::readings(&plain), ours.is_none() as u64, "{text}");
        }
        ours.is_none()
    };
    let all = [
        "and", "or", "xor", "mod", "rem", "not", "delayed", "null", "after", "wait", "on", "until",
        "for", "if", "then", "else", "end", "while", "loop", "(", ")", ";", ",", "=", "<", "+",
        "-", "*", "/", ":=", "<=", "1", "32", "'0'", "s0", "v0", "x",
    ];
    fn each(words: &[&str], most: usize, text: &mut String, f: &mut dyn FnMut(&str)) {
        f(text);
        if most > 0 {
            for word in words {
                let length = text.len();
                *text += word;
                text.push(' ');
                each(words, most - 1, text, f);
                text.truncate(length);
            }
        }
    }
    let mut sentences = 0;
    each(&all, 3, &mut String::new(), &mut |text| {
        sentences += check(text) as usize;
    });
    // null; and wait;
    assert_eq!(sentences, 2);
    let words = ["1", "32", "s0", "v0", "(", ")", "not", "-", "delayed"];
    let mut sentences = 0;
    each(&words, 5, &mut String::new(), &mut |text| {
        sentences += check(&format!("v0 := {text};")) as usize;
    });
    // Four operands; 4 each with not, minus; 4 times 4 with minus between; one delayed.
    assert_eq!(sentences, 4 + 8 + 16 + 1);
    let words = ["on", "until", "for", "s0", ",", "v0"];
    let mut sentences = 0;
    each(&words, 6, &mut String::new(), &mut |text| {
        sentences += check(&format!("wait {text};")) as usize;
    });
    // Names of 0 to 3 signals; 9, 9, 5 and 1 with the other parts.
    assert_eq!(sentences, 9 + 9 + 5 + 1);
    let words = [
        "null;",
        "if v0 then",
        "else",
        "end if;",
        "while v0 loop",
        "end loop;",
    ];
    let mut sentences = 0;
    each(&words, 6, &mut String::new(), &mut |text| {
        sentences += check(text) as usize;
    });
    // Lists of 1 to 6 of these.
    assert_eq!(sentences, 1 + 1 + 2 + 4 + 9 + 21);
    // Levels.
    for levels in 14..20 {
        for form in ["w", "ie", "we"] {
            let form: String = form.chars().cycle().take(levels).collect();
            let text = nest(&form, "null;");
            let list: Vec<Token> = tokens(text.as_bytes()).iter().map(|t| t.1).collect();
            assert_eq!(earley::place(&list).is_none(), levels <= 16);
            assert_eq!(parse(text.as_bytes()).is_ok(), levels <= 16);
        }
    }
}

/// What was spelled is read again, however it is set.
#[test]
fn spelled_and_read() {
    let rng = &mut Rng::new(3);
    let bodies = (0..400).filter_map(|seed| case(seed).body);
    let mut read_again = 0;
    for body in bodies {
        for setting in [Setting::Close, Setting::Even, Setting::Free] {
            let text = set(rng, &pieces(&body), setting);
            if let Ok(parsed) = parse(&text) {
                assert!(same(&body, &parsed));
                assert_eq!(made(&body), made(&parsed));
                read_again += 1;
            }
        }
    }
    assert!(read_again > 600, "{read_again}");
}

#[test]
fn rooms() {
    let text = b"v0:=(1+2);null;";
    let mut whole = [[0; 36].to_vec(), [0; 24].to_vec()];
    let mut counts = [9; 3];
    let [nodes, statements] = &mut whole;
    read_into(text, nodes, statements, &mut counts);
    assert_eq!(counts, [0, 3, 2]);
    let expected = [
        [1, 0, 0, 0, 0, 0, 0, 0, 1, 0, 0, 0],
        [1, 0, 0, 0, 0, 0, 0, 0, 2, 0, 0, 0],
        [11, 0, 0, 0, 1, 0, 0, 0, 0, 0, 0, 0],
    ];
    assert_eq!(whole[0], expected.concat());
    let expected = [[1, 0, 0, 0, 2, 0, 0, 0, 0, 0, 0, 0], [0; 12]];
    assert_eq!(whole[1], expected.concat());
    for (nodes_len, statements_len) in [(0, 0), (11, 12), (12, 23), (35, 25), (40, 100)] {
        let (mut n, mut s) = (vec![77; nodes_len], vec![77; statements_len]);
        read_into(text, &mut n, &mut s, &mut counts);
        assert_eq!(counts, [0, 3, 2]);
        for (buffer, all) in [(&n, &whole[0]), (&s, &whole[1])] {
            let stored = buffer.len().min(all.len());
            assert_eq!(buffer[..stored], all[..stored]);
            assert!(buffer[stored..].iter().all(|&byte| byte == 77));
        }
        read_into(b"v0:=(1+2);null", &mut n, &mut s, &mut counts);
        assert_eq!(counts, [26, 0, 0]);
    }
}

/// The text's run and the records' from the start on, past each wait with nothing changed
/// but the place.
fn stops_of(text: &str, m: &Model, many: usize) -> Vec<Option<Stop>> {
    let m = model(text.as_bytes(), &given(m)).expect("it is accepted");
    let body = parse(text.as_bytes()).expect("it is a sentence");
    let program = Program::of(&body);
    let mut c = Config::first(&m);
    let mut rest = vec![];
    let mut list = vec![];
    for _ in 0..many {
        let stop = both(&program, &m, &mut c, rest.clone()).expect("both agree");
        list.push(stop);
        let Some(Stop::Wait(at, ..)) = stop else {
            break;
        };
        let waits = program.waits();
        let found = waits.into_iter().find(|w| w.0.number == at);
        rest = found.expect("it is one of the waits").1;
        ready_at(&mut c, (at + 1) % m.statements.len());
    }
    list
}

#[test]
fn runs() {
    let m = all_given();
    let wait = |at: usize| Some(Stop::Wait(at, 0, None));
    let fault = |at: usize, fault: u8, node: u16| Some(Stop::Fault(at, fault, node));
    assert_eq!(stops_of("wait;", &m, 3), [wait(0), wait(0), wait(0)]);
    assert_eq!(stops_of("null;wait;null;wait;", &m, 3), [1, 3, 1].map(wait));
    assert_eq!(stops_of("null;", &m, 3), [None]);
    assert_eq!(
        stops_of("while(0=0)loop null;end loop;wait;", &m, 3),
        [None]
    );
    assert_eq!(
        stops_of("while(0=1)loop null;end loop;wait;", &m, 1),
        [wait(4)]
    );
    let text = "if v2 then wait;else null;end if;v2:=(not v2);";
    assert_eq!(stops_of(text, &m, 3), [1, 1, 1].map(wait));
    let text = "if v2 then wait;else wait;end if;v2:=(not v2);";
    assert_eq!(stops_of(text, &m, 4), [1, 3, 1, 3].map(wait));
    let text = "v0:=0;while(v0<3)loop v0:=(v0+1);wait;end loop;wait for v0;";
    let last = Some(Stop::Wait(6, 0, Some(3)));
    let expected = [wait(3), wait(3), wait(3), last, wait(3)];
    assert_eq!(stops_of(text, &m, 5), expected);
    assert_eq!(
        stops_of("wait on s3,s1;wait until((s4 delayed 1)=s6);", &m, 2),
        [
            Some(Stop::Wait(0, 10, None)),
            Some(Stop::Wait(1, 1 << 4 | 1 << 6, None))
        ]
    );
    // Faults: the statement, the number and the node.
    let text = "v0:=2147483647;v0:=(1+(v0+1));wait;";
    assert_eq!(stops_of(text, &m, 1), [fault(1, 1, 4)]);
    assert_eq!(stops_of("wait for(-1);", &m, 1), [fault(0, 2, NO_NODE)]);
    assert_eq!(stops_of("s0<=1 after(-1);", &m, 1), [fault(0, 2, NO_NODE)]);
    assert_eq!(stops_of("s0<=(1/0)after(-1);", &m, 1), [fault(0, 4, 2)]);
    let text = "null;if((0 mod 0)=0)then wait;else wait;end if;";
    assert_eq!(stops_of(text, &m, 1), [fault(1, 4, 2)]);
    let text = "if(0=0)then while(1=(5 rem 0))loop wait;end loop;else wait;end if;";
    assert_eq!(stops_of(text, &m, 1), [fault(1, 4, 6)]);
    let text = "v0:=0;while(v0<9)loop s0<=v0 after v0;v0:=(v0+1);end loop;wait;";
    assert_eq!(stops_of(text, &m, 1), [fault(2, 3, NO_NODE)]);
    let text = text.replace("v0<9", "v0<8");
    assert_eq!(stops_of(&text, &m, 1), [wait(6)]);
    // The second operand is skipped where the first decides.
    let text = "if((0=1)and((1/0)=0))then wait;else wait;end if;";
    assert_eq!(stops_of(text, &m, 1), [wait(3)]);
    let text = "if((0=0)or((1/0)=0))then wait;else wait;end if;";
    assert_eq!(stops_of(text, &m, 1), [wait(1)]);
    let text = "if((0=0)xor((1/0)=0))then wait;else wait;end if;";
    assert_eq!(stops_of(text, &m, 1), [fault(0, 4, 5)]);
}

/// Records of another body are told.
#[test]
fn another_run_is_told() {
    let mut m = all_given();
    let body = parse(b"if v2 then wait;else wait;end if;").expect("it is a sentence");
    let text = b"if(not v2)then wait;else wait;end if;";
    m = model(text, &given(&m)).expect("it is accepted");
    let program = Program::of(&body);
    let told = both(&program, &m, &mut Config::first(&m), vec![]).unwrap_err();
    assert!(told.contains("its records Some(Wait(3"), "{told}");
    let body = parse(b"v0:=(v0+1);wait;").expect("it is a sentence");
    m = model(b"v0:=(v0+2);wait;", &given(&all_given())).expect("it is accepted");
    let program = Program::of(&body);
    let told = both(&program, &m, &mut Config::first(&m), vec![]).unwrap_err();
    assert!(told.contains("the text has"), "{told}");
}
