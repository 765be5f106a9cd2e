//! A text's tokens: maximal runs of small letters and digits (numbers, names, words), logic
//! values between quotes, and signs. Spaces and line feeds may stand around them.

use crate::values::LETTERS;

/// Most bytes of a text.
pub const BYTES: usize = 65_535;
/// The largest number.
pub const LARGEST: u32 = 2_147_483_647;

const WORDS: [&str; 19] = [
    "and", "or", "xor", "mod", "rem", "not", "delayed", "null", "after", "wait", "on", "until",
    "for", "if", "then", "else", "end", "while", "loop",
];
const TWO_BYTES: [&str; 2] = [":=", "<="];
const ONE_BYTE: [&str; 10] = ["(", ")", ";", ",", "=", "<", "+", "-", "*", "/"];

#[derive(Clone, Copy, Debug, PartialEq, Eq)]
pub enum Token {
    Number(u32),
    Logic(u8),
    Signal(u8),
    Variable(u8),
    /// A word or a sign as it is written.
    Word(&'static str),
    /// Bytes that are no token.
    Wrong,
    /// The text ends.
    End,
}

/// A number as it is written: no leading zeros, at most `most`.
fn number(digits: &[u8], most: u32) -> Option<u32> {
    if digits.is_empty() || !digits.iter().all(u8::is_ascii_digit) {
        return None;
    }
    if digits.len() > 10 || (digits[0] == b'0' && digits.len() > 1) {
        return None;
    }
    let add = |n: u64, digit: &u8| 10 * n + (digit - b'0') as u64;
    let n = digits.iter().fold(0, add);
    u32::try_from(n).ok().filter(|&n| n <= most)
}

fn run(bytes: &[u8]) -> Token {
    let name = |most: u32| number(&bytes[1..], most).map(|n| n as u8);
    let found = match bytes[0] {
        b'0'..=b'9' => number(bytes, LARGEST).map(Token::Number),
        b's' => name(31).map(Token::Signal),
        b'v' => name(63).map(Token::Variable),
        _ => written(bytes, &WORDS),
    };
    found.unwrap_or(Token::Wrong)
}

fn written(bytes: &[u8], list: &[&'static str]) -> Option<Token> {
    let found = list.iter().find(|word| word.as_bytes() == bytes);
    found.map(|word| Token::Word(word))
}

fn of_run(byte: u8) -> bool {
    byte.is_ascii_lowercase() || byte.is_ascii_digit()
}

/// The token that begins here, and its length.
fn token(rest: &[u8]) -> (Token, usize) {
    if of_run(rest[0]) {
        let length = rest.iter().take_while(|&&byte| of_run(byte)).count();
        return (run(&rest[..length]), length);
    }
    if rest[0] == b'\'' {
        let code = match rest {
            [_, letter, b'\'', ..] => LETTERS.iter().position(|l| l == letter),
            _ => None,
        };
        return (code.map_or(Token::Wrong, |c| Token::Logic(c as u8)), 3);
    }
    let two = rest.get(..2).and_then(|sign| written(sign, &TWO_BYTES));
    match two {
        Some(sign) => (sign, 2),
        None => (written(&rest[..1], &ONE_BYTE).unwrap_or(Token::Wrong), 1),
    }
}

/// The tokens with the places at which they begin, up to the text's end or the first bytes
/// that are none.
pub fn tokens(text: &[u8]) -> Vec<(usize, Token)> {
    let mut list = vec![];
    let mut at = 0;
    while at < text.len() {
        if text[at] == b' ' || text[at] == b'\n' {
            at += 1;
            continue;
        }
        let (token, length) = token(&text[at..]);
        list.push((at, token));
        if token == Token::Wrong {
            return list;
        }
        at += length;
    }
    list.push((text.len(), Token::End));
    list
}

#[cfg(test)]
mod tests {
    use super::*;
    use Token::*;

    fn all(text: &str) -> Vec<Token> {
        tokens(text.as_bytes()).into_iter().map(|t| t.1).collect()
    }

    #[test]
    fn runs() {
        assert_eq!(all(""), [End]);
        assert_eq!(all(" \n \n"), [End]);
        assert_eq!(all("0"), [Number(0), End]);
        assert_eq!(all("10 2147483647"), [Number(10), Number(LARGEST), End]);
        assert_eq!(all("s0s1"), [Wrong]);
        assert_eq!(all("s0 s31\nv0 v63")[..2], [Signal(0), Signal(31)]);
        assert_eq!(all("s0 s31\nv0 v63")[2..], [Variable(0), Variable(63), End]);
        for wrong in [
            "00",
            "01",
            "2147483648",
            "4294967296",
            "18446744073709551616",
            "1a",
            "1and",
            "s",
            "v",
            "s32",
            "v64",
            "s00",
            "s01",
            "v03",
            "s1a",
            "sa",
            "s4294967296",
            "variabl",
            "nul",
            "nulls",
            "null0",
            "endif",
            "delayedd",
            "a",
            "t0",
        ] {
            assert_eq!(all(wrong), [Wrong], "{wrong}");
            assert_eq!(all(&format!("(null {wrong}"))[2..], [Wrong], "{wrong}");
        }
    }

    #[test]
    fn signs_and_values() {
        let text = "'U''X''0''1''Z''W''L''H''-'";
        let expected: Vec<Token> = (0..9).map(Logic).chain([End]).collect();
        assert_eq!(all(text), expected);
        assert_eq!(
            all("<==:=<"),
            [Word("<="), Word("="), Word(":="), Word("<"), End]
        );
        assert_eq!(
            all("(),;+-*/").iter().filter(|&&t| t != End).count(),
            8,
            "each is a token"
        );
        for wrong in [
            "\t", "\r", ":", "'", "''", "'0", "'u'", "'2'", "'0 '", "' '", "\"", "A", "S0", "_",
            ".", ">", "\0", "\u{b}", "é", "'''",
        ] {
            assert_eq!(all(wrong), [Wrong], "{wrong:?}");
            assert_eq!(all(&format!("1;{wrong}"))[2..], [Wrong], "{wrong:?}");
        }
        // Every byte alone.
        for byte in 0..=255u8 {
            let found = tokens(&[byte])[0].1;
            let right = match byte {
                b' ' | b'\n' => found == End,
                b'0'..=b'9' => found == Number((byte - b'0') as u32),
                _ if b"(),;=<+-*/".contains(&byte) => matches!(found, Word(_)),
                _ => found == Wrong,
            };
            assert!(right, "{byte}: {found:?}");
        }
    }

    #[test]
    fn places() {
        let found: Vec<usize> = tokens(b" v0:= \n('0'and s1)")
            .into_iter()
            .map(|t| t.0)
            .collect();
        assert_eq!(found, [1, 3, 7, 8, 11, 15, 17, 18]);
    }
}
