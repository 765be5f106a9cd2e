//! Makes the files `text` and `records` of the working directory into the file `model`, and
//! prints 0 or the number of the refusal.

fn main() -> std::process::ExitCode {
    second_kernel::make_model("textbench")
}
