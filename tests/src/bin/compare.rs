//! Holds this kernel against the proved one:
//! `compare models N SEED`, `compare sessions N SEED`, `compare schedules N SEED`, `compare moves N SEED`,
//! `compare dumps N SEED`, `compare loops N SEED`, `compare bodies N SEED`, `compare texts N SEED`, `compare limits`. Case i has the seed SEED + i, so
//! `compare sessions 1 S` repeats seed S. Sessions and schedules are compared with the feature `session`, dumps with the feature
//! `dumps`, stored lists moved over with the feature `moves`, checks for loops with the feature `loops`, bodies in text and whole
//! models of them with the feature `bodies`, which ask for libraries that have them.

#[cfg(feature = "bodies")]
use second_kernel::proved_bodies;
#[cfg(feature = "loops")]
use second_kernel::proved_loops;
#[cfg(feature = "moves")]
use second_kernel::proved_moves;
use second_kernel::{end, proved, tally};

#[cfg(feature = "session")]
const SESSION: Option<tally::Session> = Some(&proved::session);
#[cfg(not(feature = "session"))]
const SESSION: Option<tally::Session> = None;

#[cfg(feature = "dumps")]
const DUMP: Option<tally::Dump> = Some(&proved::dump);
#[cfg(not(feature = "dumps"))]
const DUMP: Option<tally::Dump> = None;

#[cfg(feature = "moves")]
const MOVE: Option<tally::Move> = Some(&proved_moves::move_over);
#[cfg(not(feature = "moves"))]
const MOVE: Option<tally::Move> = None;

#[cfg(feature = "loops")]
const CHECK: Option<tally::Check> = Some(&proved_loops::check);
#[cfg(not(feature = "loops"))]
const CHECK: Option<tally::Check> = None;

#[cfg(feature = "bodies")]
const READ: Option<tally::Read> = Some(&proved_bodies::read);
#[cfg(not(feature = "bodies"))]
const READ: Option<tally::Read> = None;

#[cfg(feature = "bodies")]
const MAKE: Option<tally::Make> = Some(&proved_bodies::make);
#[cfg(not(feature = "bodies"))]
const MAKE: Option<tally::Make> = None;

fn main() -> std::process::ExitCode {
    let other = tally::Other {
        judge: Some(&proved::judge),
        session: SESSION,
        dump: DUMP,
        move_over: MOVE,
        check: CHECK,
        read: READ,
        make: MAKE,
    };
    end("compare", tally::run("compare", other))
}
