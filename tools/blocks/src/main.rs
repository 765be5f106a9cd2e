//! Turns model texts into blocks and order texts into orders, lists both as text, makes blocks of a body in text and its records,
//! explains nodes, tells of loops without delay, and moves stored orders over. The grammar stands in the head of `text.rs`.

mod body;
mod explain;
mod given;
mod list;
mod loops;
mod moves;
mod table;
mod text;

use second_kernel::model::{self, Model};
use second_kernel::numbers;
use std::fs;
use std::process::ExitCode;

const USAGE: &str = "\
usage: blocks make TEXT MODEL      a model text into blocks
       blocks list MODEL           blocks as a model text
       blocks records TEXT RECORDS a text of declarations into the records that go with a body in text
       blocks body TEXT RECORDS MODEL
                                   a body in text, with its records, into blocks; where it is refused, the number and the place;
                                   RECORDS may be a text of declarations here
       blocks explain MODEL NODE   the expression of a node, and the statements that use it
       blocks loops MODEL          a closed chain of processes that lead to each other without delay, or `none` and the bound on
                                   delta steps; MODEL may be a model text here
       blocks orders TEXT ORDERS   an order text into orders
       blocks show ORDERS          orders as an order text
       blocks move MODEL ORDERS NEW
                                   stored orders with order 2, withdrawn, into those of now: each 2 becomes the delta step (6)
                                   or the time step (7) that gives its old answer
TEXT, RECORDS, MODEL, ORDERS and NEW are file names, NODE is a node's number; what is shown goes to standard output. NEW may be
ORDERS.";

fn read(name: &str) -> Result<Vec<u8>, String> {
    fs::read(name).map_err(|e| format!("{name}: {e}"))
}

fn read_text(name: &str) -> Result<String, String> {
    String::from_utf8(read(name)?).map_err(|_| format!("{name}: not a text"))
}

fn refused(number: u32) -> String {
    format!("the kernel refuses this model with {number}")
}

fn refused_model(name: &str, number: u32) -> String {
    format!("{name}: {}", refused(number))
}

/// The accepted model of a file.
fn read_model(name: &str) -> Result<Model, String> {
    model::load(&read(name)?).map_err(|n| refused_model(name, n))
}

/// Tells what is odd about a file, if anything is, on standard error.
fn warn(name: &str, warning: Option<String>) {
    if let Some(warning) = warning {
        eprintln!("{name}: {warning}");
    }
}

fn write(name: &str, bytes: &[u8]) -> Result<(), String> {
    fs::write(name, bytes).map_err(|e| format!("{name}: {e}"))
}

fn run(words: &[&str]) -> Result<(), String> {
    match words {
        ["make", from, to] => {
            let text = read_text(from)?;
            let bytes = text::model(&text).map_err(|e| format!("{from}: {e}"))?;
            match model::judge(&bytes) {
                0 => write(to, &bytes),
                n => Err(format!("{from}: {}", text::refusal(&text, n))),
            }
        }
        ["list", from] => {
            print!("{}", list::model(&read_model(from)?));
            Ok(())
        }
        ["records", from, to] => {
            let records = given::declared(&read_text(from)?).map_err(|e| format!("{from}: {e}"))?;
            write(to, &records)
        }
        ["body", from, records, to] => {
            let text = read(from)?;
            let given = given::read(&read(records)?).map_err(|e| format!("{records}: {e}"))?;
            let blocks = body::blocks(&text, &given).map_err(|wrong| match wrong {
                body::Wrong::Text(e) => format!("{from}: {e}"),
                body::Wrong::Records(e) => format!("{records}: {e}"),
            })?;
            write(to, &blocks)
        }
        ["explain", from, node] => {
            print!("{}", explain::node(&read_model(from)?, node).map_err(|e| format!("node {node}: {e}"))?);
            Ok(())
        }
        ["loops", from] => {
            let library = loops::LIBRARY.ok_or(loops::NO_LIBRARY)?;
            print!("{}", loops::told(library, &read(from)?).map_err(|e| format!("{from}: {e}"))?);
            Ok(())
        }
        ["orders", from, to] => {
            let text = read_text(from)?;
            let orders = text::orders(&text).map_err(|e| format!("{from}: {e}"))?;
            warn(from, text::warning(&text));
            write(to, &orders)
        }
        ["show", from] => {
            print!("{}", list::orders(&read(from)?));
            Ok(())
        }
        ["move", model, from, to] => {
            let library = moves::LIBRARY.ok_or(moves::NO_LIBRARY)?;
            let before = read(from)?;
            let after = moves::moved(library, &read(model)?, &before).map_err(|number| match number {
                numbers::ORDERS => format!("{from}: {}", moves::wrong_length(&before)),
                _ => refused_model(model, number),
            })?;
            warn(from, moves::warning(&before));
            write(to, &after)?;
            println!("{from}: {}", moves::told(&before, &after));
            Ok(())
        }
        _ => Err(USAGE.to_string()),
    }
}

fn main() -> ExitCode {
    let words: Vec<String> = std::env::args().skip(1).collect();
    let words: Vec<&str> = words.iter().map(String::as_str).collect();
    if words == ["--help"] {
        println!("{USAGE}");
        return ExitCode::SUCCESS;
    }
    match run(&words) {
        Ok(()) => ExitCode::SUCCESS,
        Err(message) => {
            eprintln!("{message}");
            ExitCode::FAILURE
        }
    }
}

#[cfg(test)]
mod tests {
    use super::*;
    use second_kernel::cases;
    use second_kernel::folder::Folder;
    use second_kernel::values::STANDARD;

    /// The inverter's orders of before: settle 10, advance three times, settle 10, advance twice, read 1.
    #[rustfmt::skip]
    const BEFORE: [u8; 32] = [3, 0, 10, 0,  2, 0, 0, 0,  2, 0, 0, 0,  2, 0, 0, 0,  3, 0, 10, 0,  2, 0, 0, 0,  2, 0, 0, 0,  4, 1, 0, 0];

    /// Moves these orders over by files in a folder of their own. NEW is ORDERS, or has its own name and some bytes before. What `run`
    /// says, and what NEW has then.
    fn move_files(model: &[u8], orders: &[u8], same: bool) -> (Result<(), String>, Vec<u8>) {
        let folder = Folder::new().expect("a folder");
        let name = |file: &str| folder.0.join(file).display().to_string();
        let new = if same { "orders" } else { "new" };
        for (file, bytes) in [("new", &[9; 3][..]), ("model", model), ("orders", orders)] {
            folder.put(file, bytes).expect("a file");
        }
        let said = run(&["move", &name("model"), &name("orders"), &name(new)]);
        let said = said.map_err(|e| e.replace(&name(""), ""));
        (said, read(&name(new)).expect("a file"))
    }

    /// What `run` says of this command with a file `from` of these bytes, and what the file `to` has then, if it is there.
    fn run_on(command: &str, bytes: &[u8]) -> (Result<(), String>, Option<Vec<u8>>) {
        let folder = Folder::new().expect("a folder");
        let name = |file: &str| folder.0.join(file).display().to_string();
        folder.put("from", bytes).expect("a file");
        let (from, to) = (name("from"), name("to"));
        let said = match command {
            "make" | "records" => run(&[command, &from, &to]),
            _ => run(&[command, &from]),
        };
        (said.map_err(|e| e.replace(&name(""), "")), read(&to).ok())
    }

    /// The inverter with a table of its own, the standard's.
    fn with_table() -> Model {
        let mut b = cases::inverter();
        b.table(&STANDARD);
        b.m
    }

    #[test]
    fn a_refused_table_is_told_and_no_model_is_written() {
        let m = with_table();
        let (said, written) = run_on("make", list::model(&m).as_bytes());
        assert_eq!((said, written.map(|blocks| model::judge(&blocks))), (Ok(()), Some(0)));
        let mut asymmetric = m.clone();
        asymmetric.rows[2][3] = 2;
        let mut neither = asymmetric.clone();
        neither.rows[8][8] = 3;
        let pair = "from: line 6: the table is not symmetric: row 0, column 1 has 0, and row 1, column 0 has X; \
                    the kernel would refuse this model with 24";
        let mut triple = m.clone();
        triple.rows[8][8] = 3;
        let triple_told = "from: line 7: the table is not associative: 1 with - is X, and that with - is X; but - with - is 1, \
                           and 1 with that is 1; the kernel would refuse this model with 25";
        for (refused, told) in [(asymmetric, pair), (neither, pair), (triple, triple_told)] {
            assert_eq!(run_on("make", list::model(&refused).as_bytes()), (Err(told.to_string()), None));
        }
    }

    #[test]
    fn a_refused_table_is_not_listed() {
        let m = with_table();
        assert_eq!(run_on("list", &model::encode(&m)), (Ok(()), None));
        let changed = |change: fn(&mut Model)| {
            let mut m = m.clone();
            change(&mut m);
            model::encode(&m)
        };
        for (blocks, number) in [
            (changed(|m| m.rows.truncate(8)), 4),
            (changed(|m| m.rows.truncate(1)), 4),
            (changed(|m| m.rows.push([0; 9])), 4),
            (changed(|m| m.rows[3][8] = 9), 5),
            (changed(|m| m.rows[8][0] = 255), 5),
            (changed(|m| m.rows[2][3] = 2), 24),
            (changed(|m| m.rows[8][8] = 3), 25),
        ] {
            let error = format!("from: the kernel refuses this model with {number}");
            assert_eq!(run_on("list", &blocks), (Err(error), None));
        }
    }

    /// What `run` says of a body with these records, and what MODEL has then, some bytes before.
    fn body_files(text: &[u8], records: &[u8]) -> (Result<(), String>, Vec<u8>) {
        let folder = Folder::new().expect("a folder");
        let name = |file: &str| folder.0.join(file).display().to_string();
        for (file, bytes) in [("text", text), ("records", records), ("model", &[9; 3])] {
            folder.put(file, bytes).expect("a file");
        }
        let said = run(&["body", &name("text"), &name("records"), &name("model")]);
        (said.map_err(|e| e.replace(&name(""), "")), read(&name("model")).expect("a file"))
    }

    #[test]
    fn bodies_make_models() {
        let declarations = b"signal line logic '0'\nvariable count integer 0\n";
        let (said, records) = run_on("records", declarations);
        assert_eq!(said, Ok(()));
        let records = records.expect("records");
        assert_eq!(records.len(), 27);
        let text = b"wait until (s0 = '1');\nv0 := (v0 + 1);";
        let (said, blocks) = body_files(text, &records);
        assert_eq!((said, model::judge(&blocks)), (Ok(()), 0));
        assert_eq!(body_files(text, declarations), (Ok(()), blocks));
    }

    #[test]
    fn a_refused_body_names_the_file_and_writes_nothing() {
        let declarations = &b"signal line logic '0'\nvariable count integer 0\n"[..];
        let records = run_on("records", declarations).1.expect("records");
        for (text, records, error) in [
            (
                &b"wait\n  4;"[..],
                &records[..],
                "text: line 2, column 3: no sentence goes on with `4`; `on`, `until`, `for` or `;` is due here; \
                 the kernel would refuse this text with 26",
            ),
            (
                b"wait on s1;",
                declarations,
                "text: line 1, column 9: there is no signal s1: the records have one signal, s0; \
                 the kernel would refuse this text with 27",
            ),
            (
                b"wait on s0;",
                &records[..26],
                "records: cut: 26 bytes, and 1 signal, 1 variable and 0 drivers have 27; the kernel would refuse these records with 4",
            ),
            (
                b"s0 <= '1' after 0;",
                &records,
                "text: line 1, column 1: s0 <= '1' after 0: the records have no driver for s0; \
                 the kernel would refuse this text with 8",
            ),
            (b"wait;", b"signal s1 logic '0'", "records: line 1: `s1` is s0 in the body: a name of this form must be the body's own"),
            (b"wait;", b"\xff", "records: neither records nor a text of declarations"),
        ] {
            assert_eq!(body_files(text, records), (Err(error.to_string()), vec![9; 3]));
        }
        assert_eq!(
            run_on("records", b"signal"),
            (Err("from: line 1: something is missing at the end of the line".to_string()), None)
        );
        assert_eq!(run_on("records", b"\xff"), (Err("from: not a text".to_string()), None));
    }

    #[cfg(not(feature = "library"))]
    #[test]
    fn without_the_library_nothing_moves() {
        let (said, new) = move_files(&cases::inverter().encode(), &BEFORE, true);
        assert_eq!(said, Err(moves::NO_LIBRARY.to_string()));
        assert_eq!(new, BEFORE);
    }

    #[cfg(not(feature = "library"))]
    #[test]
    fn without_the_library_no_loops_are_told() {
        for file in [&cases::inverter().encode()[..], b"process p\nwait\n", b"no text"] {
            assert_eq!(run_on("loops", file), (Err(loops::NO_LIBRARY.to_string()), None));
        }
    }

    #[cfg(feature = "library")]
    mod with_the_library {
        use super::*;

        #[test]
        fn loops_are_told_of_texts_and_of_blocks() {
            let blocks = cases::inverter().encode();
            for file in [&blocks[..], list::model(&cases::inverter().m).as_bytes()] {
                assert_eq!(run_on("loops", file), (Ok(()), None));
            }
            for (file, error) in [
                (&blocks[..511], "from: the kernel refuses this model with 1"),
                (b"process p\nwait until 1\n", "from: the kernel would refuse this model with 7"),
                (b"process p\nwait off\n", "from: line 2: `off` is one too many"),
                (b"\xff", "from: neither a model text nor blocks"),
            ] {
                assert_eq!(run_on("loops", file), (Err(error.to_string()), None));
            }
            assert!(run(&["loops", "no such file"]).is_err_and(|e| e.starts_with("no such file: ")));
        }

        #[test]
        fn the_inverters_orders_move() {
            let mut expected = BEFORE;
            for (order, kind) in [(1, 6), (2, 7), (3, 6), (5, 6), (6, 7)] {
                expected[4 * order] = kind;
            }
            let model = cases::inverter().encode();
            for same in [false, true] {
                assert_eq!(move_files(&model, &BEFORE, same), (Ok(()), expected.to_vec()));
                assert_eq!(move_files(&model, &expected, same), (Ok(()), expected.to_vec()));
                assert_eq!(move_files(&model, &[], same), (Ok(()), vec![]));
            }
        }

        // While moving, an order 6 is one of before, which gave 11 and did nothing: so the delta step is still to be done.
        #[test]
        fn orders_of_now_stay_and_are_not_played() {
            let orders = [3, 0, 10, 0, 6, 0, 0, 0, 2, 0, 0, 0, 2, 0, 0, 0];
            let expected = vec![3, 0, 10, 0, 6, 0, 0, 0, 6, 0, 0, 0, 7, 0, 0, 0];
            assert_eq!(move_files(&cases::inverter().encode(), &orders, false), (Ok(()), expected));
        }

        #[test]
        fn a_refused_move_names_the_file_and_writes_nothing() {
            let model = cases::inverter().encode();
            let mut broken = model.clone();
            broken[4] ^= 1;
            let many = BEFORE.repeat(513);
            for (blocks, orders, error) in [
                (&model[..511], &BEFORE[..], "model: the kernel refuses this model with 1"),
                (&broken, &BEFORE, "model: the kernel refuses this model with 2"),
                (&broken, &BEFORE[..31], "model: the kernel refuses this model with 2"),
                (
                    &model,
                    &BEFORE[..31],
                    "orders: the kernel refuses these orders with 9: 31 bytes are no whole orders of 4 bytes each",
                ),
                (&model, &many, "orders: the kernel refuses these orders with 9: 4104 orders, and a list has at most 4096"),
            ] {
                assert_eq!(move_files(blocks, orders, false), (Err(error.to_string()), vec![9; 3]));
                assert_eq!(move_files(blocks, orders, true), (Err(error.to_string()), orders.to_vec()));
            }
        }
    }
}
