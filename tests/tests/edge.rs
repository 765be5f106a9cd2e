//! The second kernel's programs pass `edge`; with something wrong around one, it does
//! not.

use second_kernel::edge::{examine, sessions, Bench, Findings, Group, DUMP, LOOP, PLAY};
use std::process::Command;

const PLAYBENCH: &str = env!("CARGO_BIN_EXE_playbench");
const DUMPBENCH: &str = env!("CARGO_BIN_EXE_dumpbench");
const LOOPBENCH: &str = env!("CARGO_BIN_EXE_loopbench");

/// What is found about a shell script that runs `playbench` as "$0", on the
/// lengths and every fortieth of the other sessions.
fn found(script: &str) -> Findings {
    found_on(&PLAY, PLAYBENCH, script, 40)
}

/// The same of `dumpbench`.
fn found_of_dumps(script: &str) -> Findings {
    found_on(&DUMP, DUMPBENCH, script, 40)
}

/// The same of `loopbench`.
fn found_of_loops(script: &str) -> Findings {
    found_on(&LOOP, LOOPBENCH, script, 30)
}

/// The same of either on one of so many of the other sessions.
fn found_on(bench: &'static Bench, path: &str, script: &str, every: usize) -> Findings {
    let mut groups: Vec<Group> = sessions(bench);
    let lengths = if bench.plays() { 2 } else { 1 };
    for (_, list) in &mut groups[lengths..] {
        let mut n = 0;
        list.retain(|_| {
            n += 1;
            n % every == 1
        });
    }
    let program = || {
        let mut sh = Command::new("sh");
        sh.args(["-c", script, path]);
        sh
    };
    examine(bench, &program, &groups).expect("the program can be run")
}

/// Whether something is wrong with a run whose name has these words.
fn wrong(found: &Findings, words: &str) -> bool {
    found.wrong.iter().any(|w| w.contains(words))
}

#[test]
fn the_second_kernels_programs_pass() {
    for (bench, path, shown) in [
        (&PLAY, PLAYBENCH, ["with a node", "of a negative value"]),
        (&DUMP, DUMPBENCH, ["a time left out", "that is never left"]),
        (&LOOP, LOOPBENCH, ["of one process", "a process above 9"]),
    ] {
        let examined = examine(bench, &|| Command::new(path), &sessions(bench));
        let mut found = examined.expect("the program can be run");
        assert!(found.wrong.is_empty(), "{:?}", found.wrong);
        assert_eq!(found.require(), Ok(()));
        // Without what its texts are to show it would not do.
        found.shown = Default::default();
        let message = found.require().unwrap_err();
        for what in shown {
            assert!(message.contains(what), "{message}");
        }
    }
}

#[test]
fn too_few_sessions_are_an_error() {
    assert!(found("exec \"$0\"").require().is_err());
}

#[test]
fn rooms_too_small_are_found() {
    let script =
        "head -c 32768 model >m && mv m model; head -c 16384 orders >o && mv o orders; exec \"$0\"";
    for found in [found(script), found_of_dumps(script)] {
        assert!(wrong(&found, "64 blocks and 512 bytes more of blocks"));
        assert!(wrong(&found, "64 blocks and 700 bytes more of zeros"));
        assert!(wrong(&found, "16388 bytes of orders"));
        assert!(wrong(&found, "1048576 bytes of orders"));
    }
    // Room for a megabyte of dump.
    let found = found_of_dumps("\"$0\" | head -c 1048576");
    assert!(wrong(&found, "pipes, the longest dump"));
    assert!(!wrong(&found, "pipes, the inverter"));
}

#[test]
fn wrong_dumps_are_found() {
    for (script, words) in [
        // A line end, a unit, another refusal, 21 for the longest, a time without a change.
        ("\"$0\" | sed 's/$/\\r/'", "64 blocks: line 1"),
        ("\"$0\" | sed 's/1 ns/1 ps/'", "64 blocks: line 1"),
        ("\"$0\" | sed 's/^9$/21/'", "1 bytes of orders"),
        (
            "\"$0\" >d; if [ $(wc -c <d) -gt 99999 ]; then echo 21; else cat d; fi",
            "pipes, the longest dump",
        ),
        ("\"$0\"; echo '#9999999999999'", "64 blocks: line"),
        ("\"$0\" | sed 's/^z/x/'", "random sessions"),
        ("\"$0\" | sed 's/^b0 /b /'", "random sessions"),
    ] {
        let found = found_of_dumps(script);
        assert!(wrong(&found, words), "{script}");
    }
}

#[test]
fn wrong_chains_are_found() {
    for (script, words) in [
        // Other words, a line end, a chain without its word, its last process or the others,
        // two digits cut to one, `none` for a refused model and for a chain of one.
        ("\"$0\" | sed 's/none/no/'", "64 blocks: line 1"),
        ("\"$0\" | sed 's/$/ /'", "64 blocks: line 1"),
        ("\"$0\" | tr -d '\\n'", "64 blocks: line 1"),
        ("\"$0\" | sed 's/chain //'", "pipes, a chain of 16"),
        ("\"$0\" | sed 's/ 1$//'", "pipes, a chain of 16"),
        ("\"$0\" | sed 's/ 1\\([0-9]\\)/ \\1/'", "random sessions"),
        (
            "\"$0\" | sed 's/^\\(chain [0-9]*\\).*/\\1/'",
            "random sessions",
        ),
        ("\"$0\" | sed 's/^[0-9]*$/none/'", "damaged models"),
        ("\"$0\" | sed 's/^chain [0-9]*$/none/'", "random sessions"),
        ("\"$0\" | sed 's/^chain/chain:/'", "random sessions"),
        // A file that it does not need.
        (
            "[ -f orders ] || echo none; exec \"$0\"",
            "64 blocks: line 2",
        ),
    ] {
        let found = found_of_loops(script);
        assert!(wrong(&found, words), "{script}: {:?}", found.wrong);
    }
    let cut = found_of_loops("head -c 32768 model >m && mv m model; exec \"$0\"");
    assert!(wrong(&cut, "64 blocks and 512 bytes more of blocks"));
    assert!(!wrong(&cut, "64 blocks, each total at its limit"));
    let silent = found_of_loops("exec \"$0\" 2>/dev/null");
    assert!(wrong(&silent, "no file `model`"));
    assert!(wrong(&silent, "a write that fails, a chain of 16"));
    assert_eq!(silent.wrong.len(), 6);
}

#[test]
fn one_number_for_every_refusal_is_found() {
    let found = found("\"$0\" | sed 's/^[0-9]*$/1/'");
    let refused = |w: &&String| w.contains(r#"line 1 is "1\n", the second kernel's "2\n""#);
    assert!(found.wrong.iter().any(|w| refused(&w)));
    assert!(wrong(&found, "16385 bytes of orders"));
    assert!(!wrong(&found, "64 blocks and 512 bytes more of blocks"));
}

#[test]
fn a_lost_line_is_found() {
    let found = found("\"$0\" | head -n 4095");
    assert!(wrong(&found, "the orders' length: 16384 bytes of orders"));
    assert!(!wrong(&found, "the orders' length: 16380 bytes of orders"));
}

#[test]
fn a_lost_node_is_found() {
    // One random session in sixteen has a node in a line.
    let without_node = found_on(
        &PLAY,
        PLAYBENCH,
        r#""$0" | sed 's/ [0-9]* \([0-9]*\)$/ 0 \1/'"#,
        10,
    );
    assert!(wrong(&without_node, "bench cases"));
    assert!(wrong(&without_node, "random sessions"));
    assert!(!wrong(&without_node, "the orders' length"));
    let five_columns = found(r#""$0" | sed 's/ [0-9]* \([0-9]*\)$/ \1/'"#);
    assert!(wrong(
        &five_columns,
        "the orders' length: 4 bytes of orders"
    ));
}

#[test]
fn silence_on_failures_is_found() {
    let script = "exec \"$0\" 2>/dev/null";
    for found in [found(script), found_of_dumps(script)] {
        assert!(wrong(&found, "no file `model`"));
        assert!(wrong(&found, "a folder in place of file `orders`"));
        assert!(wrong(&found, "a write that fails, a refused session"));
        assert!(wrong(&found, "a write that fails, the inverter"));
        assert_eq!(found.wrong.len(), 8);
    }
}

#[test]
fn idle_talk_is_found() {
    let found = found("echo playing >&2; exec \"$0\"");
    assert!(wrong(&found, "64 blocks: standard error has `playing`"));
}

#[test]
fn reading_a_part_is_found() {
    let found = found("dd if=model of=m bs=32768 count=1 2>/dev/null; mv m model; exec \"$0\"");
    assert!(wrong(&found, "pipes, the inverter"));
    assert!(!wrong(&found, "64 blocks, each total at its limit"));
}
