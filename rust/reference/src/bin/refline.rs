//! The line program: frames on standard input, answers on standard output.

use std::io;
use std::process::ExitCode;

fn main() -> ExitCode {
    match reference::answer_lines(io::stdin().lock(), io::stdout().lock()) {
        Ok(()) => ExitCode::SUCCESS,
        Err(error) => {
            eprintln!("refline: {error}");
            ExitCode::FAILURE
        }
    }
}
