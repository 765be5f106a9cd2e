//! Plays the files `model` and `orders` of the working directory and prints
//! a line per answer.

fn main() -> std::process::ExitCode {
    second_kernel::print_files("playbench", second_kernel::session::print)
}
