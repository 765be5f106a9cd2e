//! Value change dumps of IEEE 1364, four-state: the second kernel's own (`write`), a
//! reader of the standard's rules (`read`), and what a dump must give when it is read.
//! Writer and reader have no code in common.

pub mod read;
pub mod write;

use crate::model::{Model, INTEGER};
use read::Waves;
use write::Row;

/// No dump is longer: a header of at most 849 bytes and, as two orders in a row are never
/// both time steps, 2,049 times of at most 1,174.
pub const MOST: usize = 849 + 2_049 * 1_174;

/// The dump of a run: with the feature `dumps` the proved kernel's, else the second
/// kernel's. Err tells the number of a refused one.
pub fn dump(model: &[u8], orders: &[u8]) -> Result<String, String> {
    #[cfg(feature = "dumps")]
    let write = crate::proved::dump;
    #[cfg(not(feature = "dumps"))]
    let write = write::write;
    let mut out = vec![0; MOST];
    let (number, length) = write(model, orders, &mut out);
    out.truncate(length);
    match number {
        0 => String::from_utf8(out).map_err(|e| format!("the dump is no text: {e}")),
        _ => Err(format!("the run is refused with {number}")),
    }
}

/// What each of the nine values is read as, in code order: U X 0 1 Z W L H -.
pub const FOUR_STATES: &[u8; 9] = b"xx01zx01x";

/// A signal's value as it must be read.
fn mapped(ty: u8, value: i32) -> String {
    match ty {
        INTEGER => {
            let bit = |n: u32| if value >> n & 1 == 1 { '1' } else { '0' };
            (0..32).rev().map(bit).collect()
        }
        _ => (FOUR_STATES[value as usize] as char).to_string(),
    }
}

/// Err where a dump that was read does not have the model's signals, or not each one's
/// settled value at each time of the run.
pub fn read_back(waves: &Waves, m: &Model, run: &[Row]) -> Result<(), String> {
    if waves.unit != 1_000_000 {
        return Err(format!("a unit of {} fs, not of 1 ns", waves.unit));
    }
    if waves.variables.len() != m.signals.len() {
        let (read, many) = (waves.variables.len(), m.signals.len());
        return Err(format!("{read} variables of {many} signals"));
    }
    for (n, (variable, signal)) in waves.variables.iter().zip(&m.signals).enumerate() {
        let width = if signal.ty == INTEGER { 32 } else { 1 };
        let found = (&variable.scope[..], variable.kind.as_str(), variable.width);
        if found != (&["model".to_string()], "wire", width) || variable.name != format!("s{n}") {
            return Err(format!("signal {n} is declared as {variable:?}"));
        }
        for (time, row) in run {
            let (read, settled) = (waves.at(variable, *time), mapped(signal.ty, row[n]));
            if read != Some(&settled) {
                return Err(format!(
                    "signal {n} at time {time}: read {read:?}, settled {settled}"
                ));
            }
        }
    }
    Ok(())
}

/// Err where two dumps that were read, of other names or times, part: at one of these
/// times, each taken so many times as the second's units, in one of these variables.
pub fn alike(
    ours: &Waves,
    theirs: &Waves,
    (times, factor): (&[u64], u64),
    names: impl Iterator<Item = String>,
) -> Result<(), String> {
    for name in names {
        let (a, b) = (ours.named(&name)?, theirs.named(&name)?);
        for &time in times {
            let (a, b) = (ours.at(a, time), theirs.at(b, factor * time));
            if a.is_none() || a != b {
                return Err(format!("{name} at time {time}: {a:?} and {b:?}"));
            }
        }
    }
    Ok(())
}

#[cfg(test)]
mod tests {
    use super::*;
    use crate::cases::{inverter, inverter_orders};
    use read::read;
    use write::{print, settled};

    #[test]
    fn what_does_not_read_back_is_told() {
        let (b, orders) = (inverter(), inverter_orders());
        let (text, run) = (print(&b.encode(), &orders), settled(&b.m, &orders));
        let told = |text: &str| match read(text) {
            Ok(waves) => read_back(&waves, &b.m, &run).err().unwrap_or_default(),
            Err(message) => message,
        };
        assert_eq!(told(&text), "");
        for (part, other, words) in [
            ("1 ns", "10 ns", "a unit of 10000000 fs"),
            ("module model", "module top", "signal 0 is declared as"),
            ("wire 1 !", "reg 1 !", "signal 0 is declared as"),
            ("wire 1 !", "wire 32 !", "0! for a vector"),
            (" s1 ", " s2 ", "signal 1 is declared as"),
            ("$var wire 1 \" s1 $end\n", "", "\" is not declared"),
            ("#0\n0!", "#0\nz!", "signal 0 at time 0: read Some(\"z\")"),
            ("#1\n1!", "#1\n0!", "signal 0 at time 1: read Some(\"0\")"),
            ("#1\n", "#2\n", "signal 0 at time 1: read Some(\"0\")"),
            ("#0\n0!\n", "#0\n", "signal 0 at time 0: read None"),
        ] {
            let message = told(&text.replacen(part, other, 1));
            assert!(message.starts_with(words), "{part}: {message}");
        }
    }

    #[test]
    fn where_two_dumps_part_is_told() {
        let (b, orders) = (inverter(), inverter_orders());
        let text = print(&b.encode(), &orders);
        let ours = read(&text).unwrap();
        let told = |theirs: &str| {
            let names = ["s0", "s1"].into_iter().map(String::from);
            alike(&ours, &read(theirs).unwrap(), (&[0, 1], 1_000), names)
        };
        let scaled = text.replace("#1\n", "#1000\n").replace(" \" ", " % ");
        let scaled = scaled.replace("1\"", "1%").replace("0\"", "0%");
        assert_eq!(told(&scaled), Ok(()));
        let late = scaled.replace("#1000", "#1001");
        let message = told(&late).unwrap_err();
        assert_eq!(message, "s0 at time 1: Some(\"1\") and Some(\"0\")");
        let message = told(&scaled.replace(" s1 ", " t1 ")).unwrap_err();
        assert_eq!(message, "no variable s1");
        let message = told(&scaled.replace(" s1 ", " s0 ")).unwrap_err();
        assert_eq!(message, "two variables s0");
    }
}
