//! Makes models of bodies in text and the records that are given with them (document 02, item 12), and tells why one is refused: the
//! number, the place, and what is wrong there. The second kernel's reader makes them and knows the places; the proved `textbench`
//! tells the number alone.

use crate::{given, list};
use second_kernel::body::lexer::{tokens, Token, BYTES, LARGEST};
use second_kernel::body::parser::{parse, Place, Refused};
use second_kernel::body::records::{self, Made};
use second_kernel::body::tree::{LEVELS, OPERATORS};
use second_kernel::model::*;

/// What is wrong, and with which of the two files.
#[derive(Debug, PartialEq, Eq)]
pub enum Wrong {
    Text(String),
    Records(String),
}

/// The model's blocks.
pub fn blocks(text: &[u8], given: &[u8]) -> Result<Vec<u8>, Wrong> {
    records::model(text, given).map(|m| encode(&m)).map_err(|number| match wrong(text, given, number) {
        Wrong::Text(why) => Wrong::Text(format!("{why}; the kernel would refuse this text with {number}")),
        Wrong::Records(why) => Wrong::Records(format!("{why}; the kernel would refuse these records with {number}")),
    })
}

/// Why the number is this one.
fn wrong(text: &[u8], given: &[u8], number: u32) -> Wrong {
    if number == 26 {
        return Wrong::Text(no_sentence(text));
    }
    if number == 27 {
        return Wrong::Text(no_name(text, given));
    }
    // A sentence; what is wrong with the records alone comes first.
    let made = records::read(text).unwrap_or_default();
    match given::wrong(given, number) {
        Some(why) => Wrong::Records(why),
        None if number == 4 => Wrong::Text(too_many(text, &made)),
        None => Wrong::Text(wrong_statement(text, given, &made, number)),
    }
}

fn at(text: &[u8], offset: usize) -> String {
    let place = Place::of(text, offset);
    format!("line {}, column {}", place.line, place.column)
}

// 26.

fn no_sentence(text: &[u8]) -> String {
    let Err(Refused::At(place)) = parse(text) else {
        return format!("{} bytes, and a text has at most {BYTES}", text.len());
    };
    let due = due(text, place.offset);
    let said = match stands(text, place.offset) {
        None => "no sentence ends here".to_string(),
        Some(words) => format!("no sentence goes on with {words}{}", hint(text, place.offset, &due)),
    };
    let due = match &due[..] {
        [] => String::new(),
        [one] => format!("; {one} is due here"),
        [first @ .., last] => format!("; {} or {last} is due here", first.join(", ")),
    };
    format!("line {}, column {}: {said}{due}", place.line, place.column)
}

/// The letters and digits from here on, as far as they go.
fn run(rest: &[u8]) -> &[u8] {
    let length = rest.iter().take_while(|b| b.is_ascii_alphanumeric() || **b == b'_').count();
    &rest[..length]
}

/// The sign of two bytes or one, if one stands here.
fn sign(rest: &[u8]) -> &str {
    let two = [":=", "<=", "--"].into_iter().find(|sign| rest.starts_with(sign.as_bytes()));
    let one = || std::str::from_utf8(&rest[..1]).unwrap_or("");
    two.unwrap_or_else(one)
}

/// The character beyond ASCII that stands here, if one does.
fn letter(rest: &[u8]) -> Option<char> {
    let found = (2..=4).find_map(|length| std::str::from_utf8(rest.get(..length)?).ok());
    found.and_then(|found| found.chars().next()).filter(|c| !c.is_ascii() && !c.is_control())
}

/// What stands here: none at the text's end.
fn stands(text: &[u8], offset: usize) -> Option<String> {
    let rest = &text[offset..];
    let words = match rest {
        [] => return None,
        [b'\t', ..] => return Some("a tab".to_string()),
        [b'\r', ..] => return Some("a carriage return".to_string()),
        [b'\'', letter, b'\'', ..] if letter.is_ascii_graphic() => &rest[..3],
        [b, ..] if b.is_ascii_alphanumeric() => run(rest),
        [b, ..] if b.is_ascii_graphic() => sign(rest).as_bytes(),
        [b, ..] => match letter(rest) {
            Some(letter) => return Some(format!("`{letter}`")),
            None => return Some(format!("the byte {b}")),
        },
    };
    let words = String::from_utf8_lossy(words);
    Some(match words.char_indices().nth(40) {
        Some((end, _)) => format!("`{}..`", &words[..end]),
        None => format!("`{words}`"),
    })
}

/// What may help with that, behind a colon.
fn hint(text: &[u8], offset: usize, due: &[String]) -> String {
    let rest = &text[offset..];
    let word = std::str::from_utf8(run(rest)).unwrap_or("");
    let digits = |word: &str| !word.is_empty() && word.bytes().all(|b| b.is_ascii_digit());
    let is_due = |what: &str| due.iter().any(|d| d == what);
    let operation = match word {
        "not" => true,
        "delayed" => !is_due(OPERATOR),
        "" if sign(rest) == "-" => !is_due(OPERATOR),
        _ => OPERATORS.iter().any(|o| o.0 == word || o.0 == sign(rest)) && !is_due(OPERATOR) && !is_due(EXPRESSION),
    };
    let hint = match rest[0] {
        b'\t' | b'\r' => "blanks are spaces and line feeds".to_string(),
        b'\'' if tokens(rest)[0].1 == Token::Wrong => "a logic value is one of U X 0 1 Z W L H - between quotes".to_string(),
        b'-' if sign(rest) == "--" => "there are no comments".to_string(),
        _ if operation => "each operation has its brackets".to_string(),
        _ if (word == "if" || word == "while") && is_due(STATEMENT) => format!("{LEVELS} levels of `if` and `while` are open"),
        _ if word.is_empty() || tokens(rest)[0].1 != Token::Wrong => return String::new(),
        b'0' if digits(word) => "numbers have no leading zeros".to_string(),
        b'0'..=b'9' if digits(word) => format!("numbers go up to {LARGEST}"),
        b'0'..=b'9' => "a number and a word have a blank between".to_string(),
        _ if word.bytes().any(|b| b.is_ascii_uppercase()) => "all is lower case but the logic values".to_string(),
        b's' | b'v' if digits(&word[1..]) => "names are s0 to s31 and v0 to v63".to_string(),
        _ => "it is no word of the grammar, and names are s0 to s31 and v0 to v63".to_string(),
    };
    format!(": {hint}")
}

const STATEMENT: &str = "a statement";
const EXPRESSION: &str = "an expression";
const OPERATOR: &str = "an operator (and or xor = < + - * / mod rem)";

/// The words that go on with a sentence by themselves.
const WORDS: [&str; 17] =
    ["not", "-", "delayed", ":=", "<=", ")", ",", "after", "on", "until", "for", "then", "else", "end", "if", "loop", ";"];

/// What a sentence goes on with here: each is tried in the place of what stands there.
fn due(text: &[u8], offset: usize) -> Vec<String> {
    let blank = |b: &u8| *b == b' ' || *b == b'\n';
    let length = text[..offset].iter().rposition(|b| !blank(b)).map_or(0, |last| last + 1);
    let before = &text[..length];
    let fits = |word: &str| {
        let tried = [before, b" ", word.as_bytes()].concat();
        match parse(&tried) {
            Ok(_) => true,
            Err(Refused::At(place)) => place.offset > length + 1,
            Err(Refused::TooLong) => false,
        }
    };
    let (statement, operator) = (fits("null"), fits("and"));
    let mut list: Vec<String> = vec![];
    let mut add = |is: bool, what: &str| list.extend(is.then(|| what.to_string()));
    add(statement, STATEMENT);
    if !statement {
        add(fits("'0'"), EXPRESSION);
        add(fits("0") && !fits("'0'"), "a number from 0 to 31");
        add(fits("s0") && !fits("'0'"), "a signal");
    }
    add(operator, OPERATOR);
    for word in WORDS {
        let told = (word == "if" && statement) || (word == "-" && operator);
        add(!told && fits(word), &format!("`{word}`"));
    }
    add(offset < text.len() && parse(before).is_ok(), "the end");
    list
}

// 27.

fn no_name(text: &[u8], given: &[u8]) -> String {
    let [signals, variables, _] = given::counts(given);
    let unknown = |(offset, token): (usize, Token)| match token {
        Token::Signal(s) if s as usize >= signals => Some((offset, "signal", 's', s, signals)),
        Token::Variable(v) if v as usize >= variables => Some((offset, "variable", 'v', v, variables)),
        _ => None,
    };
    let found = tokens(text).into_iter().find_map(unknown);
    let (offset, what, letter, number, many) = found.expect("a name that is not there");
    let there = match many {
        0 => format!("the records have no {what}"),
        1 => format!("the records have one {what}, {letter}0"),
        _ => format!("the records have {many} {what}s, {letter}0 to {letter}{}", many - 1),
    };
    format!("{}: there is no {what} {letter}{number}: {there}", at(text, offset))
}

// 4 to 8: the place is a statement's.

/// Where each made statement stands, and the words there: up to the semicolon, `then` or `loop`.
fn statements(text: &[u8]) -> Vec<(usize, String)> {
    let list = tokens(text);
    let is = |n: usize, word: &str| matches!(list.get(n), Some((_, Token::Word(w))) if *w == word);
    let words = |from: usize| {
        let ends = |n: &usize| *n > from && [";", "then", "loop"].iter().any(|word| is(*n, word));
        let end = (from..list.len()).find(ends).map_or(text.len(), |n| list[n].0);
        let words = String::from_utf8_lossy(&text[list[from].0..end]).into_owned();
        (list[from].0, words.split_whitespace().collect::<Vec<_>>().join(" "))
    };
    let mut out = vec![];
    for n in 0..list.len() {
        let opened = |n: usize| is(n, "loop") && !(n > 0 && is(n - 1, "end"));
        let begins = n == 0 || opened(n - 1) || [";", "then", "else"].iter().any(|word| is(n - 1, word));
        match list[n].1 {
            Token::End => {}
            Token::Word("else") => out.push((list[n].0, "else".to_string())),
            // A loop's end goes back, and both ends make a null.
            Token::Word("end") => {
                let name = if is(n + 1, "loop") { "end loop" } else { "end if" };
                out.resize(out.len() + 1 + (name == "end loop") as usize, (list[n].0, name.to_string()));
            }
            _ if begins => out.push(words(n)),
            _ => {}
        }
    }
    out
}

/// How many nodes there are up to these statements' last.
fn nodes_of(list: &[StatementRecord]) -> usize {
    list.iter().flat_map(roots).max().map_or(0, |root| root as usize + 1)
}

fn too_many(text: &[u8], made: &Made) -> String {
    let (nodes, statements) = (made.nodes.len(), made.statements.len());
    let (what, many, most, first) = match nodes > given::NODES {
        true => {
            let all = &made.statements;
            let passes = |n: &usize| nodes_of(&all[*n..*n + 1]) > given::NODES;
            ("nodes", nodes, given::NODES, (0..all.len()).find(passes).unwrap_or(0))
        }
        false => ("statements", statements, given::STATEMENTS, given::STATEMENTS),
    };
    let place = self::statements(text).get(first).map_or(String::new(), |s| format!("{}: ", at(text, s.0)));
    format!("{place}more than {most} {what} up to here, {many} in all")
}

/// The first statement up to which the number is this one already. Jumps go to the first.
fn first_wrong(given: &[u8], made: &Made, number: u32) -> usize {
    let up_to = |n: &usize| {
        let mut statements = made.statements[..=*n].to_vec();
        for s in statements.iter_mut().filter(|s| s.kind == 3 || s.kind == 4) {
            s.a = 0;
        }
        let nodes = made.nodes[..nodes_of(&statements)].to_vec();
        given::number(given, &Made { nodes, statements }) == number
    };
    (0..made.statements.len()).find(up_to).unwrap_or(0)
}

fn wrong_statement(text: &[u8], given: &[u8], made: &Made, number: u32) -> String {
    let first = first_wrong(given, made, number);
    let s = &made.statements[first];
    let why = match number {
        6 => "an expression has more than 64 nodes".to_string(),
        7 => Types::of(given, made).told(s),
        _ => format!("the records have no driver for s{}", s.a),
    };
    let place = statements(text).get(first).map_or(String::new(), |(offset, words)| match number {
        // Such an expression is long.
        6 => format!("{}: ", at(text, *offset)),
        _ => format!("{}: {words}: ", at(text, *offset)),
    });
    format!("{place}{why}")
}

/// The types of nodes, for what is told of those that do not agree.
struct Types {
    signals: Vec<u8>,
    variables: Vec<u8>,
    model: Model,
}

fn name(ty: u8) -> &'static str {
    ["integer", "logic", "boolean"][ty as usize]
}

impl Types {
    fn of(given: &[u8], made: &Made) -> Types {
        let [signals, variables, _] = given::lists(given);
        let types = |list: Vec<Record>| list.iter().map(|r| r[0]).collect();
        let model = Model { nodes: made.nodes.clone(), ..Model::default() };
        Types { signals: types(signals), variables: types(variables), model }
    }

    /// A node's type; else what is wrong in its tree.
    fn node(&self, n: u16) -> Result<u8, String> {
        let d = &self.model.nodes[n as usize];
        let of = operands(d).into_iter().map(|o| self.node(o)).collect::<Result<Vec<u8>, String>>()?;
        let (ty, right, takes) = match d.kind {
            1 => return Ok(INTEGER),
            2 => return Ok(LOGIC),
            3 => return Ok(self.variables[d.a as usize]),
            4 | 5 => return Ok(self.signals[d.a as usize]),
            6 => (of[0], of[0] != INTEGER, "logic or boolean"),
            7..=9 => (of[0], of[0] != INTEGER && of[0] == of[1], "logic or boolean, both alike"),
            13 => (BOOLEAN, of[0] == of[1] && of[0] != BOOLEAN, "two integers or two logic values"),
            14 => (BOOLEAN, of == [INTEGER; 2], "two integers"),
            10 => (INTEGER, of == [INTEGER], "an integer"),
            _ => (INTEGER, of == [INTEGER; 2], "two integers"),
        };
        if right {
            return Ok(ty);
        }
        let operator = match d.kind {
            6 => "not",
            10 => "-",
            _ => OPERATORS.iter().find(|o| o.1 == d.kind).map_or("", |o| o.0),
        };
        let operands: Vec<&str> = of.iter().map(|&ty| name(ty)).collect();
        Err(format!("in {} `{operator}` takes {takes}, not {}", list::expression(&self.model, n), operands.join(" and ")))
    }

    /// The statement's own types: what each expression is for, and of which type it must be.
    fn told(&self, s: &StatementRecord) -> String {
        let due = |n: u16| match (s.kind, n == s.b) {
            (1, _) => (self.variables[s.a as usize], format!("v{} is {{}}, and the value", s.a)),
            (2, true) => (self.signals[s.a as usize], format!("s{} is {{}}, and the value", s.a)),
            (2, false) => (INTEGER, "the delay must be {}, and".to_string()),
            (3, _) | (5, true) => (BOOLEAN, "the condition must be {}, and".to_string()),
            _ => (INTEGER, "the time must be {}, and".to_string()),
        };
        let wrong = |n: u16| match self.node(n) {
            Err(why) => Some(why),
            Ok(ty) => {
                let (right, what) = due(n);
                (ty != right).then(|| format!("{} is {}", what.replace("{}", name(right)), name(ty)))
            }
        };
        let found = roots(s).into_iter().find_map(wrong);
        format!("types do not agree: {}", found.unwrap_or_default())
    }
}

#[cfg(test)]
mod tests {
    use super::*;
    use second_kernel::body::damage;
    use second_kernel::body::limits::{limits, nest, ones};

    const DECLARATIONS: &str = "\
signal a logic '0'
signal b integer 0
signal c logic '0'
variable n integer 0
variable l logic '0'
variable t boolean true
drives a, b
";

    fn made(text: &str) -> Result<Vec<u8>, Wrong> {
        blocks(text.as_bytes(), &given::declared(DECLARATIONS).expect("records"))
    }

    /// What is told of a text that is refused with this number.
    fn told(text: &str, number: u32) -> String {
        let end = format!("; the kernel would refuse this text with {number}");
        match made(text) {
            Err(Wrong::Text(why)) => why.strip_suffix(&end).unwrap_or_else(|| panic!("{text}: {why}")).to_string(),
            other => panic!("{text}: {other:?}"),
        }
    }

    #[test]
    fn a_body_and_its_blocks() {
        let text = "if (s0 = '1') then v0 := (v0 + 1); else null; end if;\nwait on s0;";
        let m = load(&made(text).expect("a sentence")).expect("an accepted model");
        let expected = "\
signal s0 logic '0'
signal s1 integer 0
signal s2 logic '0'
process p0
  variable v0 integer 0
  variable v1 logic '0'
  variable v2 boolean true
  -- drives s0
  -- drives s1
  unless (s0 = '1') goto l3
  v0 := (v0 + 1)
  goto l4
  l3:
  null
  l4:
  null
  wait on s0
";
        assert_eq!(list::model(&m), expected);
    }

    #[test]
    fn where_no_sentence_goes_on() {
        let operator = "an operator (and or xor = < + - * / mod rem) is due here";
        let brackets = "each operation has its brackets";
        let names = "names are s0 to s31 and v0 to v63";
        let word = "it is no word of the grammar, and names are s0 to s31 and v0 to v63";
        let logic = "a logic value is one of U X 0 1 Z W L H - between quotes";
        for (text, line, column, said) in [
            ("", 1, 1, "no sentence ends here; a statement is due here".to_string()),
            (" \n ", 2, 2, "no sentence ends here; a statement is due here".to_string()),
            ("null", 1, 5, "no sentence ends here; `;` is due here".to_string()),
            ("null;\nwait", 2, 5, "no sentence ends here; `on`, `until`, `for` or `;` is due here".to_string()),
            ("null;\n)", 2, 1, "no sentence goes on with `)`; a statement or the end is due here".to_string()),
            ("null;;", 1, 6, "no sentence goes on with `;`; a statement or the end is due here".to_string()),
            ("wait 5;", 1, 6, "no sentence goes on with `5`; `on`, `until`, `for` or `;` is due here".to_string()),
            ("wait on s0 s1;", 1, 12, "no sentence goes on with `s1`; `,`, `until`, `for` or `;` is due here".to_string()),
            ("wait on v0;", 1, 9, "no sentence goes on with `v0`; a signal is due here".to_string()),
            ("v0 <= 1;", 1, 4, "no sentence goes on with `<=`; `:=` is due here".to_string()),
            ("s0 := 1;", 1, 4, "no sentence goes on with `:=`; `<=` is due here".to_string()),
            ("s0 <= '1';", 1, 10, "no sentence goes on with `;`; `after` is due here".to_string()),
            ("v0 := v0 + 1;", 1, 10, format!("no sentence goes on with `+`: {brackets}; `;` is due here")),
            ("v0 := (1 + 2 mod 3);", 1, 14, format!("no sentence goes on with `mod`: {brackets}; `)` is due here")),
            ("v0 := -1;", 1, 7, format!("no sentence goes on with `-`: {brackets}; an expression is due here")),
            ("v0 := not v0;", 1, 7, format!("no sentence goes on with `not`: {brackets}; an expression is due here")),
            ("v0 := s1 delayed 1;", 1, 10, format!("no sentence goes on with `delayed`: {brackets}; `;` is due here")),
            ("v0 := (1 + + 2);", 1, 12, "no sentence goes on with `+`; an expression is due here".to_string()),
            ("v0 := ();", 1, 8, "no sentence goes on with `)`; an expression, `not` or `-` is due here".to_string()),
            ("v0 := (1);", 1, 9, format!("no sentence goes on with `)`; {operator}")),
            ("v0 := (1 > 2);", 1, 10, format!("no sentence goes on with `>`; {operator}")),
            ("v0 := (v0 delayed 1);", 1, 11, format!("no sentence goes on with `delayed`; {operator}")),
            ("v0 := (s1);", 1, 10, format!("no sentence goes on with `)`; {}", operator.replace(" is due", " or `delayed` is due"))),
            ("v0 := (s1 delayed 32);", 1, 19, "no sentence goes on with `32`; a number from 0 to 31 is due here".to_string()),
            ("v0 := 07;", 1, 7, "no sentence goes on with `07`: numbers have no leading zeros; an expression is due here".to_string()),
            (
                "v0 := 2147483648;",
                1,
                7,
                "no sentence goes on with `2147483648`: numbers go up to 2147483647; an expression is due here".to_string(),
            ),
            (
                "v0 := (1and 2);",
                1,
                8,
                "no sentence goes on with `1and`: a number and a word have a blank between; an expression, `not` or `-` is due here"
                    .to_string(),
            ),
            ("s32 <= 1 after 0;", 1, 1, format!("no sentence goes on with `s32`: {names}; a statement is due here")),
            ("v01 := 1;", 1, 1, format!("no sentence goes on with `v01`: {names}; a statement is due here")),
            ("sensor <= 1 after 0;", 1, 1, format!("no sentence goes on with `sensor`: {word}; a statement is due here")),
            ("v0 := 'u';", 1, 7, format!("no sentence goes on with `'u'`: {logic}; an expression is due here")),
            ("v0 := '1;", 1, 7, format!("no sentence goes on with `'`: {logic}; an expression is due here")),
            (
                "NULL;",
                1,
                1,
                "no sentence goes on with `NULL`: all is lower case but the logic values; a statement is due here".to_string(),
            ),
            (
                "null;\tnull;",
                1,
                6,
                "no sentence goes on with a tab: blanks are spaces and line feeds; a statement or the end is due here".to_string(),
            ),
            (
                "null;\r\nnull;",
                1,
                6,
                "no sentence goes on with a carriage return: blanks are spaces and line feeds; a statement or the end is due here"
                    .to_string(),
            ),
            (
                "null; -- nothing",
                1,
                7,
                "no sentence goes on with `--`: there are no comments; a statement or the end is due here".to_string(),
            ),
            ("null;\0", 1, 6, "no sentence goes on with the byte 0; a statement or the end is due here".to_string()),
            ("null; é", 1, 7, "no sentence goes on with `é`; a statement or the end is due here".to_string()),
            (
                "if (1 = 1) then null; end if;",
                1,
                23,
                "no sentence goes on with `end`; a statement or `else` is due here".to_string(),
            ),
            ("if (1 = 1) then\nelse null; end if;", 2, 1, "no sentence goes on with `else`; a statement is due here".to_string()),
            ("if (1 = 1)\n  null;", 2, 3, "no sentence goes on with `null`; `then` is due here".to_string()),
            ("while (1 = 1) loop\nend loop;", 2, 1, "no sentence goes on with `end`; a statement is due here".to_string()),
            ("while (1 = 1) loop null;", 1, 25, "no sentence ends here; a statement or `end` is due here".to_string()),
            ("while (1 = 1) loop null; end if;", 1, 30, "no sentence goes on with `if`; `loop` is due here".to_string()),
            ("if (1 = 1) then null; else null; end;", 1, 37, "no sentence goes on with `;`; `if` is due here".to_string()),
        ] {
            assert_eq!(told(text, 26), format!("line {line}, column {column}: {said}"), "{text}");
        }
        let deep = nest(&"w".repeat(17), "null;");
        let said = "no sentence goes on with `while`: 16 levels of `if` and `while` are open; a statement is due here";
        assert_eq!(told(&deep, 26), format!("line 1, column {}: {said}", 16 * "while(0=1)loop ".len() + 1));
        assert_eq!(
            told(&"a".repeat(41), 26),
            format!("line 1, column 1: no sentence goes on with `{}..`: {word}; a statement is due here", "a".repeat(40))
        );
        assert_eq!(told(&" ".repeat(65_536), 26), "65536 bytes, and a text has at most 65535");
        let full = format!("{})", "null;".repeat(13_106));
        assert_eq!(
            told(&full, 26),
            format!("line 1, column {}: no sentence goes on with `)`; a statement or the end is due here", full.len())
        );
    }

    #[test]
    fn names_that_are_not_there() {
        for (text, line, column, said) in [
            ("s3 <= 1 after 0;", 1, 1, "there is no signal s3: the records have 3 signals, s0 to s2"),
            ("null;\n  v3 := v9;", 2, 3, "there is no variable v3: the records have 3 variables, v0 to v2"),
            ("v0 := (v1 + v63);", 1, 13, "there is no variable v63: the records have 3 variables, v0 to v2"),
            ("wait on s2, s31, s4;", 1, 13, "there is no signal s31: the records have 3 signals, s0 to s2"),
            ("wait until ((s4 delayed 2) = s5);", 1, 14, "there is no signal s4: the records have 3 signals, s0 to s2"),
        ] {
            assert_eq!(told(text, 27), format!("line {line}, column {column}: {said}"), "{text}");
        }
        let few = given::declared("signal a logic '0'").expect("records");
        for (given, text, said) in [
            (&few[..], "wait on s1;", "line 1, column 9: there is no signal s1: the records have one signal, s0"),
            (&few, "v0 := 1;", "line 1, column 1: there is no variable v0: the records have no variable"),
            (&[], "wait on s0;", "line 1, column 9: there is no signal s0: the records have no signal"),
        ] {
            let said = format!("{said}; the kernel would refuse this text with 27");
            assert_eq!(blocks(text.as_bytes(), given), Err(Wrong::Text(said)), "{text}");
        }
    }

    #[test]
    fn too_many_nodes_or_statements() {
        let sums = "v0 := ((1 + 1) + 1);\n".repeat(80);
        assert!(made(&sums).is_ok());
        assert_eq!(told(&format!("{sums}wait for\n1;"), 4), "line 81, column 1: more than 400 nodes up to here, 401 in all");
        let more = format!("{sums}null; wait for (1 + 1); wait for 1;");
        assert_eq!(told(&more, 4), "line 81, column 7: more than 400 nodes up to here, 404 in all");
        let nulls = "null;\n".repeat(197);
        assert_eq!(told(&format!("{nulls} if t"), 26).split(';').next(), Some("line 198, column 5: no sentence goes on with `t`: it is no word of the grammar, and names are s0 to s31 and v0 to v63"));
        let branches = "if v2 then\nnull; else\nnull; end if;\n";
        assert_eq!(told(&format!("{nulls}{branches}"), 4), "line 200, column 1: more than 200 statements up to here, 202 in all");
        assert_eq!(told(&"null;\n".repeat(300), 4), "line 201, column 1: more than 200 statements up to here, 300 in all");
        assert!(made(&format!("{}{branches}", "null;\n".repeat(195))).is_ok());
    }

    #[test]
    fn statements_that_do_not_fit() {
        let long = |many| format!("null;\nif (0 < {}) then null; else wait; end if;", ones(many, true));
        assert!(made(&long(31)).is_ok());
        assert_eq!(told(&long(32), 6), "line 2, column 1: an expression has more than 64 nodes");
        for (text, place, said) in [
            ("v0 := s0;", "line 1, column 1: v0 := s0", "v0 is integer, and the value is logic"),
            (
                "null;\n s1 <= (1 =\n  1) after 0;",
                "line 2, column 2: s1 <= (1 = 1) after 0",
                "s1 is integer, and the value is boolean",
            ),
            ("s1 <= 1 after v2;", "line 1, column 1: s1 <= 1 after v2", "the delay must be integer, and is boolean"),
            ("if s0 then null; else null; end if;", "line 1, column 1: if s0", "the condition must be boolean, and is logic"),
            (
                "if v2 then null; else while v0 loop null; end loop; end if;",
                "line 1, column 23: while v0",
                "the condition must be boolean, and is integer",
            ),
            ("wait until s0 for 5;", "line 1, column 1: wait until s0 for 5", "the condition must be boolean, and is logic"),
            ("wait on s0 for s0;", "line 1, column 1: wait on s0 for s0", "the time must be integer, and is logic"),
            ("wait for '1';", "line 1, column 1: wait for '1'", "the time must be integer, and is logic"),
            ("v0 := (v0 + s0);", "line 1, column 1: v0 := (v0 + s0)", "in (v0 + s0) `+` takes two integers, not integer and logic"),
            (
                "v2 := (s0 < '1');",
                "line 1, column 1: v2 := (s0 < '1')",
                "in (s0 < '1') `<` takes two integers, not logic and logic",
            ),
            (
                "v2 := (v2 = v2);",
                "line 1, column 1: v2 := (v2 = v2)",
                "in (v2 = v2) `=` takes two integers or two logic values, not boolean and boolean",
            ),
            (
                "v2 := (not (v0 * 2));",
                "line 1, column 1: v2 := (not (v0 * 2))",
                "in (not (v0 * 2)) `not` takes logic or boolean, not integer",
            ),
            (
                "v2 := (v1 and v2);",
                "line 1, column 1: v2 := (v1 and v2)",
                "in (v1 and v2) `and` takes logic or boolean, both alike, not logic and boolean",
            ),
            ("v0 := (- v1);", "line 1, column 1: v0 := (- v1)", "in (- v1) `-` takes an integer, not logic"),
        ] {
            assert_eq!(told(text, 7), format!("{place}: types do not agree: {said}"), "{text}");
        }
        let text = "if (s2 = '1') then null; else\n  s2 <= '0' after 1; s2 <= '1' after 2;\nend if;";
        assert_eq!(told(text, 8), "line 2, column 3: s2 <= '0' after 1: the records have no driver for s2");
    }

    #[test]
    fn records_that_are_refused() {
        let right = given::declared(DECLARATIONS).expect("records");
        let changed = |byte: usize, value: u8| {
            let mut bytes = right.clone();
            bytes[byte] = value;
            bytes
        };
        for (given, number, said) in [
            (right[..20].to_vec(), 4, "cut: 20 bytes, and 3 signals, 3 variables and 2 drivers have 99"),
            (changed(3, 7), 5, "signal s0: its type is 7, not 0 integer or 1 logic"),
            (changed(88, 0), 8, "driver 1, counted from 0, is of s0 and follows one of s0: drivers rise by their signals"),
        ] {
            let said = format!("{said}; the kernel would refuse these records with {number}");
            assert_eq!(blocks(b"wait on s0;", &given), Err(Wrong::Records(said)));
            // 26 and 27 come first.
            assert!(matches!(blocks(b"wait on s0", &given), Err(Wrong::Text(why)) if why.ends_with(" 26")));
            assert!(matches!(blocks(b"wait on s3;", &given), Err(Wrong::Text(why)) if why.ends_with(" 27")));
        }
    }

    /// The line and column of a message.
    fn place(why: &str) -> Option<(usize, usize)> {
        let (line, rest) = why.strip_prefix("line ")?.split_once(", column ")?;
        Some((line.parse().ok()?, rest.split_once(':')?.0.parse().ok()?))
    }

    /// Each refusal is told with its number, and with a place in the text or of the records.
    fn checked(text: &[u8], given: &[u8], name: &str) -> u32 {
        let number = records::model(text, given).err().unwrap_or(0);
        let (why, in_text) = match blocks(text, given) {
            Ok(bytes) => {
                assert_eq!((number, judge(&bytes)), (0, 0), "{name}");
                return 0;
            }
            Err(Wrong::Text(why)) => (why, true),
            Err(Wrong::Records(why)) => (why, false),
        };
        assert!(why.ends_with(&format!(" with {number}")) && !why.contains('\n'), "{name}: {why}");
        if in_text && text.len() <= BYTES {
            let (line, column) = place(&why).unwrap_or_else(|| panic!("{name}: {why}"));
            let lines: Vec<&[u8]> = text.split(|&b| b == b'\n').collect();
            assert!(column <= lines[line - 1].len() + 1, "{name}: {why}");
            // Before the place there is a sentence's beginning, and not with what stands there.
            if number == 26 {
                let offset = lines[..line - 1].iter().map(|l| l.len() + 1).sum::<usize>() + column - 1;
                // In the place of the last bytes of the longest texts no word has room.
                assert!(why.contains("is due here") || offset + 8 > BYTES, "{name}: {why}");
                match parse(&text[..offset]) {
                    Err(Refused::At(place)) => assert_eq!(place.offset, offset, "{name}"),
                    before => assert!(before.is_ok(), "{name}"),
                }
            }
            if number == 7 {
                assert!(!why.contains("agree: ;"), "{name}: {why}");
            }
        } else {
            assert!([4, 5, 8, 26].contains(&number), "{name}: {why}");
        }
        number
    }

    #[test]
    fn random_texts_and_records() {
        let mut seen = std::collections::BTreeMap::new();
        for seed in 0..12_000 {
            let case = damage::case(seed);
            *seen.entry(checked(&case.text, &case.given, &format!("seed {seed}, {}", case.what))).or_insert(0) += 1;
        }
        for number in [0, 26, 27, 4, 5, 6, 7, 8] {
            assert!(seen.get(&number).is_some_and(|&many| many > 50), "{seen:?}");
        }
        assert_eq!(seen.len(), 8, "{seen:?}");
    }

    // Each made statement has its place, as many as are made.
    #[test]
    fn places_of_statements() {
        for seed in 0..3_000 {
            let case = damage::case(seed);
            if let Ok(made) = records::read(&case.text) {
                let found = statements(&case.text);
                assert_eq!(found.len(), made.statements.len(), "seed {seed}");
                assert!(found.windows(2).all(|pair| pair[0].0 <= pair[1].0), "seed {seed}");
                for (s, (_, words)) in made.statements.iter().zip(&found) {
                    let first: &[&str] = match s.kind {
                        0 => &["null", "end"],
                        1 => &["v"],
                        2 => &["s"],
                        3 => &["if", "while"],
                        4 => &["else", "end loop"],
                        _ => &["wait"],
                    };
                    assert!(first.iter().any(|word| words.starts_with(word)), "seed {seed}: {words}");
                }
            }
        }
    }

    #[test]
    fn at_the_limits() {
        for limit in limits() {
            assert_eq!(checked(&limit.text, &limit.given, &limit.name), limit.number, "{}", limit.name);
        }
    }
}
