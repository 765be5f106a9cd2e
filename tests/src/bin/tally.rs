//! What the generated cases come to in this kernel alone:
//! `tally models N SEED`, `tally sessions N SEED`, `tally schedules N SEED`, `tally moves N SEED`,
//! `tally dumps N SEED`, `tally loops N SEED`, `tally bodies N SEED`, `tally limits`.

use second_kernel::{end, tally};

fn main() -> std::process::ExitCode {
    end("tally", tally::run("tally", tally::Other::default()))
}
