//! Cases on both sides of each limit: the text, the given records, whether it is a
//! sentence, and the number of its model.

use super::records::given;
use crate::builder::Builder;
use crate::model::{Model, BOOLEAN, INTEGER, LOGIC};

/// As the item says it, whatever the reader takes.
pub const BYTES: usize = 65_535;

pub struct Limit {
    pub name: String,
    pub text: Vec<u8>,
    pub given: Vec<u8>,
    /// 26 or 0.
    pub sentence: u32,
    pub number: u32,
}

/// 32 signals, integers at even numbers and logic at odd ones, each driven, and 64
/// variables, in turn integer, logic and boolean.
pub fn all_given() -> Model {
    let mut b = Builder::new();
    for n in 0..32 {
        let s = b.signal([INTEGER, LOGIC][n % 2], 2);
        b.driver(0, s);
    }
    for n in 0..64 {
        b.variable([INTEGER, LOGIC, BOOLEAN][n % 3], 0, 1);
    }
    b.m
}

/// `if` and `while` in one another: by the letters of the form, the statement that they
/// hold in the first branch (`i`), in the second (`e`) or in the loop (`w`).
pub fn nest(form: &str, inner: &str) -> String {
    let mut text = inner.to_string();
    for letter in form.chars().rev() {
        text = match letter {
            'i' => format!("if(0=0)then {text}else null;end if;"),
            'e' => format!("if(0=0)then null;else {text}end if;"),
            _ => format!("while(0=1)loop {text}end loop;"),
        };
    }
    text
}

/// So many ones in a sum, the brackets to the left or to the right.
pub fn ones(many: usize, left: bool) -> String {
    match left {
        true => format!("{}1{}", "(".repeat(many - 1), "+1)".repeat(many - 1)),
        false => format!("{}1{}", "(1+".repeat(many - 1), ")".repeat(many - 1)),
    }
}

pub fn limits() -> Vec<Limit> {
    let records = given(&all_given());
    let mut list = vec![];
    let mut add = |name: String, text: String, sentence: u32, number: u32| {
        list.push(Limit {
            name,
            text: text.into_bytes(),
            given: records.clone(),
            sentence,
            number,
        })
    };
    // Levels.
    for form in ["i", "e", "w", "iw", "wi", "ew", "we", "ie", "iew", "wwie"] {
        for (levels, number) in [(15, 0), (16, 0), (17, 26), (18, 26)] {
            let form: String = form.chars().cycle().take(levels).collect();
            let text = nest(&form, "null;");
            add(format!("{levels} levels, {form}"), text, number, number);
        }
    }
    // A second statement behind the deepest, and the other branch as deep.
    let deepest = nest(&"w".repeat(16), "null;wait;");
    add("two at 16 levels".into(), deepest, 0, 0);
    let branch = nest(&"w".repeat(15), "null;");
    let both = format!("if(0=0)then {branch}else {branch}end if;");
    add("both branches to 16 levels".into(), both, 0, 0);
    let branch = nest(&"w".repeat(16), "null;");
    let second = format!("if(0=0)then null;else {branch}end if;");
    add("17 levels in the second branch".into(), second, 26, 26);
    let text = nest(&"w".repeat(16), "null;").repeat(2);
    add("16 levels, then 16 again".into(), text, 0, 0);
    // Nodes and statements.
    for left in [true, false] {
        for (many, number) in [(31, 0), (32, 0), (33, 6)] {
            let nodes = 2 * many - 1;
            let text = format!("v0:={};", ones(many, left));
            let way = if left { "left" } else { "right" };
            add(format!("a tree of {nodes} nodes, {way}"), text, 0, number);
        }
        let negated = |many: usize| format!("v0:=(-{});", ones(many, left));
        add("a tree of 64 nodes".into(), negated(32), 0, 0);
        add("a tree of 66 nodes".into(), negated(33), 0, 6);
    }
    let chain = |many: usize| format!("v0:={}1{};", "(-".repeat(many), ")".repeat(many));
    add("63 minus signs".into(), chain(63), 0, 0);
    add("64 minus signs".into(), chain(64), 0, 6);
    for (many, number) in [(80, 0), (81, 4)] {
        // Five nodes each.
        let text = "v0:=((1+1)+1);".repeat(many);
        add(format!("{} nodes", 5 * many), text, 0, number);
    }
    let text = "v0:=((1+1)+1);".repeat(80) + "v0:=1;";
    add("401 nodes".into(), text, 0, 4);
    let text = "s0<=(1+1)after(1+1);wait;".repeat(66) + "s0<=(1+1)after 1;";
    add("400 nodes of assignments".into(), text.clone(), 0, 0);
    let text = text.replace("after 1;", "after(- 1);");
    add("401 nodes of assignments".into(), text, 0, 4);
    for (many, number) in [(199, 0), (200, 0), (201, 4), (202, 4)] {
        let text = "null;".repeat(many);
        add(format!("{many} statements"), text, 0, number);
        // With `if`, which makes five, and `while`, which makes four.
        let text = nest("iw", "null;") + &"wait;".repeat(many - 8);
        add(format!("{many} statements, nested"), text, 0, number);
        let text = "wait;".repeat(many - 4) + &nest("w", "null;");
        add(format!("{many} statements, a loop last"), text, 0, number);
    }
    // Numbers and names.
    for (number, expected) in [("2147483647", 0), ("2147483648", 26), ("0", 0), ("00", 26)] {
        add(
            format!("the number {number}"),
            format!("v0:={number};"),
            expected,
            expected,
        );
        let text = format!("wait for(1+{number});");
        add(format!("{number} in a sum"), text, expected, expected);
    }
    for (name, expected) in [
        ("s0", 0),
        ("s30", 0),
        ("s32", 26),
        ("s00", 26),
        ("v0", 0),
        ("v63", 0),
        ("v64", 26),
        ("v063", 26),
    ] {
        let text = format!("wait for {name};");
        add(format!("the name {name}"), text, expected, expected);
    }
    add("s31 in `on`".into(), "wait on s31;".into(), 0, 0);
    for (k, expected) in [("0", 0), ("31", 0), ("32", 26), ("031", 26)] {
        let text = format!("v0:=(s0 delayed {k});");
        add(format!("delayed {k}"), text, expected, expected);
    }
    // All the names.
    let names: Vec<String> = (0..32).map(|n| format!("s{n}")).collect();
    let all = names.join(",");
    add(
        "all signals in `on`".into(),
        format!("wait on {all};"),
        0,
        0,
    );
    let twice = format!("wait on {all},{all},s0,s0;");
    add("all signals in `on` twice".into(), twice, 0, 0);
    // Bytes.
    for (length, number) in [(BYTES, 0), (BYTES + 1, 26), (2 * BYTES, 26)] {
        for blank in [" ", "\n"] {
            let blanks = blank.repeat(length - 5);
            let texts = [
                format!("null;{blanks}"),
                format!("{blanks}null;"),
                format!("null{blanks};"),
            ];
            for text in texts {
                add(format!("{length} bytes of {blank:?}"), text, number, number);
            }
        }
    }
    // As long as can be: nulls, lists of signals, brackets of each sort. They are sentences,
    // and no models.
    let full = |name: &str, head: &str, part: &str, middle: &str, close: &str, tail: &str| {
        let rest = BYTES - head.len() - middle.len() - tail.len();
        let many = rest / (part.len() + close.len());
        let text = format!(
            "{head}{}{middle}{}{tail}",
            part.repeat(many),
            close.repeat(many)
        );
        (format!("{name}, {many} deep"), text)
    };
    for (name, head, part, middle, close, tail, number) in [
        ("minus signs", "v0:=", "(-", "1", ")", ";", 4),
        ("not signs", "v1:=", "(not", "'1'", ")", ";", 4),
        ("sums to the left", "v0:=", "(", "1", "+1)", ";", 4),
        ("sums to the right", "v0:=", "(1+", "1", ")", ";", 4),
        (
            "delayed signals",
            "wait on s0 until",
            "((s0 delayed 0)=",
            "0",
            ")",
            ";",
            4,
        ),
        (
            "conditions",
            "while",
            "(0=",
            "0",
            ")",
            "loop null;end loop;",
            4,
        ),
        ("nulls", "", "null;", "", "", "", 4),
        ("waits", "wait;", "wait;", "", "", "", 4),
        ("signals in `on`", "wait on s0", ",s0", "", "", ";", 0),
        ("spaces in brackets", "v0:=", "( - ", "1", " )", ";", 4),
    ] {
        let (name, text) = full(name, head, part, middle, close, tail);
        add(name.clone(), text.clone(), 0, number);
        // Cut by one byte, or closed once too often, or once too little.
        let cut = text[..text.len() - 1].to_string();
        add(format!("{name}, cut"), cut, 26, 26);
        if !close.is_empty() {
            let more = text.replacen(part, close, 1);
            add(format!("{name}, one closed too early"), more, 26, 26);
        }
    }
    let open = "(".repeat(BYTES);
    add("65,535 opening brackets".into(), open, 26, 26);
    for (part, name) in [
        ("(", "opening"),
        ("(-", "minus"),
        ("(not", "not"),
        ("(1+", "sum"),
    ] {
        let text = "v0:=".to_string() + &part.repeat((BYTES - 4) / part.len());
        add(format!("brackets alone, {name}"), text, 26, 26);
    }
    let nested = "if(0=0)then ".repeat(5_000);
    add("5,000 levels opened".into(), nested, 26, 26);
    let closed = ")".repeat(BYTES);
    add("65,535 closing brackets".into(), closed, 26, 26);
    let digits = format!("v0:={};", "1".repeat(BYTES - 5));
    add("a number of 65,530 digits".into(), digits, 26, 26);
    add("a word of 65,535 letters".into(), "n".repeat(BYTES), 26, 26);
    list
}
