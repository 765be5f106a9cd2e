//! Writes the run of the files `model` and `orders` of the working directory
//! as a value change dump.

fn main() -> std::process::ExitCode {
    second_kernel::print_files("dumpbench", second_kernel::vcd::write::print)
}
