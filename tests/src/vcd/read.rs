//! A reader of value change dumps, by the rules of IEEE 1364 for four states: words with
//! white space between them; declarations, `$enddefinitions`, then times and changes.
//! A value shorter than its variable is extended on the left, by 0 where its first digit
//! is 0 or 1, by x or z where it is that; a variable has the value of its last change at
//! or before a time. Text outside this is refused, and so are reals, an identifier that
//! is not declared, a time that does not rise, and a value wider than its variable.

use std::collections::BTreeMap;
use std::str::SplitAsciiWhitespace;

#[derive(Debug)]
pub struct Variable {
    /// The scopes that it is in, the outermost first.
    pub scope: Vec<String>,
    pub kind: String,
    pub width: usize,
    pub identifier: String,
    pub name: String,
}

/// The changes of an identifier, rising in time: lower-case digits, the highest first.
struct Wave {
    width: usize,
    changes: Vec<(u64, String)>,
}

/// A dump that was read.
pub struct Waves {
    /// Femtoseconds of a unit of time.
    pub unit: u64,
    pub variables: Vec<Variable>,
    /// The times that it names.
    pub times: Vec<u64>,
    waves: BTreeMap<String, Wave>,
}

impl Waves {
    /// The value at a time; none before the first change.
    pub fn at(&self, variable: &Variable, time: u64) -> Option<&String> {
        let changes = &self.waves[&variable.identifier].changes;
        let until = changes.partition_point(|c| c.0 <= time);
        changes[..until].last().map(|c| &c.1)
    }

    /// The one variable of this name.
    pub fn named(&self, name: &str) -> Result<&Variable, String> {
        let mut found = self.variables.iter().filter(|v| v.name == name);
        match (found.next(), found.next()) {
            (Some(variable), None) => Ok(variable),
            (None, _) => Err(format!("no variable {name}")),
            _ => Err(format!("two variables {name}")),
        }
    }
}

const SCOPES: [&str; 5] = ["begin", "fork", "function", "module", "task"];
const KINDS: &str = "event integer parameter reg supply0 supply1 time tri tri0 tri1 triand trior \
                     trireg wand wire wor";
/// Units of time, each a thousand of the next.
const UNITS: [&str; 6] = ["s", "ms", "us", "ns", "ps", "fs"];
const DUMPS: [&str; 4] = ["$dumpall", "$dumpoff", "$dumpon", "$dumpvars"];

/// Reads a whole dump.
pub fn read(text: &str) -> Result<Waves, String> {
    if let Some(c) = text
        .chars()
        .find(|c| !c.is_ascii_graphic() && !" \t\n".contains(*c))
    {
        return Err(format!("the character {c:?}"));
    }
    let mut reader = Reader {
        words: text.split_ascii_whitespace(),
        scope: vec![],
        unit: None,
        variables: vec![],
        times: vec![],
        waves: BTreeMap::new(),
    };
    reader.declarations()?;
    reader.changes()?;
    let Reader {
        unit,
        variables,
        times,
        waves,
        ..
    } = reader;
    let unit = unit.ok_or("no $timescale")?;
    Ok(Waves {
        unit,
        variables,
        times,
        waves,
    })
}

struct Reader<'t> {
    words: SplitAsciiWhitespace<'t>,
    scope: Vec<String>,
    unit: Option<u64>,
    variables: Vec<Variable>,
    times: Vec<u64>,
    waves: BTreeMap<String, Wave>,
}

impl<'t> Reader<'t> {
    fn word(&mut self, what: &str) -> Result<&'t str, String> {
        self.words
            .next()
            .ok_or(format!("the text ends before {what}"))
    }

    /// The words up to $end.
    fn command(&mut self, keyword: &str) -> Result<Vec<&'t str>, String> {
        let mut words = vec![];
        loop {
            match self.word("$end")? {
                "$end" => return Ok(words),
                word if word.starts_with('$') && keyword != "$comment" && keyword != "$var" => {
                    return Err(format!("{word} within {keyword}"))
                }
                word => words.push(word),
            }
        }
    }

    fn declarations(&mut self) -> Result<(), String> {
        loop {
            let keyword = self.word("$enddefinitions")?;
            let words = match keyword {
                "$comment" | "$date" | "$version" | "$timescale" | "$scope" | "$upscope"
                | "$var" | "$enddefinitions" => self.command(keyword)?,
                _ => return Err(format!("{keyword} in place of a declaration")),
            };
            match (keyword, &words[..]) {
                ("$comment" | "$date" | "$version", _) => {}
                ("$timescale", words) if self.unit.is_none() => {
                    let words = words.join(" ");
                    self.unit = Some(unit(&words).ok_or(format!("$timescale {words}"))?);
                }
                ("$scope", [kind, name]) if SCOPES.contains(kind) => {
                    self.scope.push(name.to_string());
                }
                ("$upscope", []) if !self.scope.is_empty() => _ = self.scope.pop(),
                ("$var", [kind, width, identifier, name, select @ ..])
                    if KINDS.split(' ').any(|k| k == *kind) && is_select(select) =>
                {
                    self.variable(kind, width, identifier, name)?;
                }
                ("$enddefinitions", []) if self.scope.is_empty() => return Ok(()),
                _ => return Err(format!("{keyword} {} $end", words.join(" "))),
            }
        }
    }

    fn variable(
        &mut self,
        kind: &str,
        width: &str,
        identifier: &str,
        name: &str,
    ) -> Result<(), String> {
        let width = number(width)
            .filter(|&n| n > 0)
            .ok_or(format!("width {width}"))? as usize;
        let wave = self.waves.entry(identifier.to_string());
        let wave = wave.or_insert(Wave {
            width,
            changes: vec![],
        });
        if wave.width != width {
            return Err(format!("{identifier} of two widths"));
        }
        self.variables.push(Variable {
            scope: self.scope.clone(),
            kind: kind.to_string(),
            width,
            identifier: identifier.to_string(),
            name: name.to_string(),
        });
        Ok(())
    }

    fn changes(&mut self) -> Result<(), String> {
        let mut dumping = false;
        while let Some(word) = self.words.next() {
            match word.split_at(1) {
                ("#", time) => {
                    let time = number(time).ok_or(format!("time {word}"))?;
                    if dumping || self.times.last().is_some_and(|&last| last >= time) {
                        return Err(format!("time {word} after {:?}", self.times.last()));
                    }
                    self.times.push(time);
                }
                ("b" | "B", digits) => {
                    let identifier = self.word("an identifier")?;
                    self.change(digits, identifier)?;
                }
                (digit @ ("0" | "1" | "x" | "X" | "z" | "Z"), identifier) => {
                    if self.waves.get(identifier).is_some_and(|w| w.width != 1) {
                        return Err(format!("{word} for a vector"));
                    }
                    self.change(digit, identifier)?;
                }
                _ if word == "$comment" => _ = self.command(word)?,
                _ if word == "$end" && dumping => dumping = false,
                _ if DUMPS.contains(&word) && !dumping => dumping = true,
                _ => return Err(format!("{word} in place of a change")),
            }
        }
        match dumping {
            true => Err("the text ends before $end".into()),
            false => Ok(()),
        }
    }

    fn change(&mut self, digits: &str, identifier: &str) -> Result<(), String> {
        let time = *self.times.last().ok_or("a change before the first time")?;
        let wave = self.waves.get_mut(identifier);
        let wave = wave.ok_or(format!("{identifier} is not declared"))?;
        let digits = digits.to_ascii_lowercase();
        let first = digits.chars().next().ok_or("a value without a digit")?;
        if !digits.chars().all(|d| "01xz".contains(d)) || digits.len() > wave.width {
            return Err(format!("the value {digits} of {identifier}"));
        }
        let fill = if first == '1' { '0' } else { first };
        let mut value = fill.to_string().repeat(wave.width - digits.len());
        value += &digits;
        wave.changes.push((time, value));
        Ok(())
    }
}

/// Nothing, or the bits that a variable is of its name.
fn is_select(words: &[&str]) -> bool {
    let text = words.concat();
    text.is_empty() || text.starts_with('[') && text.ends_with(']')
}

/// A number in base ten.
fn number(text: &str) -> Option<u64> {
    let digits = text.chars().all(|c| c.is_ascii_digit());
    text.parse().ok().filter(|_| digits)
}

/// The femtoseconds of 1, 10 or 100 of a unit.
fn unit(text: &str) -> Option<u64> {
    let (many, name) = text.split_at(text.find(|c: char| !c.is_ascii_digit())?);
    let at = UNITS.iter().position(|u| *u == name.trim_start())?;
    let many = number(many).filter(|n| [1, 10, 100].contains(n))?;
    Some(many * 1_000u64.pow(5 - at as u32))
}

#[cfg(test)]
mod tests {
    use super::*;

    /// A dump of a vector of four and a scalar, with these changes.
    fn with(changes: &str) -> String {
        let header = "$timescale 1 ns $end $scope module m $end $var wire 4 ! v $end \
                      $var wire 1 $ s $end $upscope $end $enddefinitions $end\n";
        format!("{header}{changes}")
    }

    fn value(changes: &str, name: &str, time: u64) -> Option<String> {
        let waves = read(&with(changes)).unwrap();
        let variable = waves.named(name).unwrap();
        waves.at(variable, time).cloned()
    }

    #[test]
    fn the_last_change_at_or_before() {
        let changes = "#0 b1 ! 0$ #5 x$ #7 b10 ! #1000000000000 z$";
        for (time, vector, scalar) in [
            (0, "0001", "0"),
            (4, "0001", "0"),
            (5, "0001", "x"),
            (6, "0001", "x"),
            (7, "0010", "x"),
            (999_999_999_999, "0010", "x"),
            (1_000_000_000_000, "0010", "z"),
            (u64::MAX, "0010", "z"),
        ] {
            assert_eq!(value(changes, "v", time).as_deref(), Some(vector), "{time}");
            assert_eq!(value(changes, "s", time).as_deref(), Some(scalar), "{time}");
        }
        // Before its first change a variable has no value.
        assert_eq!(value("#0 0$ #3 b1 !", "v", 2), None);
    }

    #[test]
    fn values_are_extended_on_the_left() {
        for (digits, whole) in [
            ("0", "0000"),
            ("1", "0001"),
            ("101", "0101"),
            ("x", "xxxx"),
            ("z1", "zzz1"),
            ("X0", "xxx0"),
            ("0x", "000x"),
            ("1Z", "001z"),
            ("1111", "1111"),
        ] {
            let changes = format!("#0 b{digits} !");
            assert_eq!(value(&changes, "v", 0).as_deref(), Some(whole), "{digits}");
        }
        assert_eq!(value("#0 X$", "s", 0).as_deref(), Some("x"));
        assert_eq!(value("#0 B1 $", "s", 0).as_deref(), Some("1"));
    }

    #[test]
    fn what_else_a_dump_may_hold() {
        let text = "$date Monday $end $version\n\tsome tool\n$end $comment $var is no $end\n\
                    $timescale 10ps $end $scope module a $end $scope task b $end\n\
                    $var integer 2 !! n [1:0] $end $upscope $end $upscope $end\n\
                    $enddefinitions $end #0 $dumpvars\tb1 !! $end $comment b0 !! $end #9";
        let waves = read(text).unwrap();
        assert_eq!((waves.unit, &waves.times[..]), (10_000, &[0, 9][..]));
        let variable = waves.named("n").unwrap();
        assert_eq!(variable.scope, ["a", "b"]);
        assert_eq!((variable.kind.as_str(), variable.width), ("integer", 2));
        assert_eq!(waves.at(variable, 9).unwrap(), "01");
    }

    #[test]
    fn what_is_refused() {
        for (changes, words) in [
            ("0$", "a change before the first time"),
            ("#0 0%", "% is not declared"),
            ("#0 0", " is not declared"),
            ("#0 b1 $!", "$! is not declared"),
            ("#0 0$ #0 1$", "time #0 after Some(0)"),
            ("#5 0$ #4 1$", "time #4 after Some(5)"),
            ("#-1", "time #-1"),
            ("#+1", "time #+1"),
            ("#", "time #"),
            ("#18446744073709551616", "time #18446744073709551616"),
            ("#0 b11111 !", "the value 11111 of !"),
            ("#0 b10 $", "the value 10 of $"),
            ("#0 b12 !", "the value 12 of !"),
            ("#0 b !", "a value without a digit"),
            ("#0 b1", "the text ends before an identifier"),
            ("#0 1!", "1! for a vector"),
            ("#0 U$", "U$ in place of a change"),
            ("#0 r1.5 !", "r1.5 in place of a change"),
            ("#0 -1 !", "-1 in place of a change"),
            ("#0 $end", "$end in place of a change"),
            ("#0 $var wire 1 % t $end", "$var in place of a change"),
            ("#0 $dumpvars 0$", "the text ends before $end"),
            ("#0 $dumpvars #1 $end", "time #1 after Some(0)"),
            ("#0 0\u{a7}", "the character '\u{a7}'"),
            ("#0 0$\0", "the character '\\0'"),
        ] {
            let message = read(&with(changes)).err().unwrap_or_default();
            assert_eq!(message, words, "{changes:?}");
        }
    }

    #[test]
    fn declarations_that_are_refused() {
        let right = with("#0 b0 ! 0$ ");
        for (part, other) in [
            ("1 ns", ""),
            ("1 ns", "2 ns"),
            ("1 ns", "1 0ns"),
            ("1 ns", "1 minute"),
            ("$timescale 1 ns $end", ""),
            (
                "$timescale 1 ns $end",
                "$timescale 1 ns $timescale 1 ns $end",
            ),
            (
                "$timescale 1 ns $end",
                "$timescale 1 ns $end $timescale 1 ns $end",
            ),
            ("$scope module m $end", ""),
            ("module m", "module"),
            ("module m", "wire m"),
            ("$upscope $end", ""),
            ("$upscope $end", "$upscope m $end"),
            ("wire 4", "wide 4"),
            ("wire 4", "wire 0"),
            ("wire 4", "wire -4"),
            (" v $end", " $end"),
            (" v $end", " v w $end"),
            ("wire 1 $", "wire 1 !"),
            ("$enddefinitions $end", ""),
            ("$enddefinitions $end", "$enddefinitions"),
            ("$enddefinitions $end", "#0 $enddefinitions $end"),
        ] {
            assert_eq!(right.matches(part).count(), 1, "{part}");
            let text = right.replace(part, other);
            assert!(read(&right).is_ok() && read(&text).is_err(), "{text}");
        }
        // Where the text is cut, too.
        let header = right.find("#0").unwrap();
        for end in 0..header - 1 {
            assert!(read(&right[..end]).is_err(), "{}", &right[..end]);
        }
    }
}
