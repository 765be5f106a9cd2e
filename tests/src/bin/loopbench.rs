//! Prints the closed chain of the file `model` of the working directory: its loop without
//! delay, or `none`.

fn main() -> std::process::ExitCode {
    second_kernel::print_model("loopbench", second_kernel::loops::print)
}
