//! Plays a file of calls from standard input and prints the answers.

use std::io::{self, ErrorKind};
use std::process::ExitCode;

use second::play::play;

/// Plays standard input; an output that nobody reads any more ends it quietly.
fn main() -> ExitCode {
    match play(io::stdin().lock(), io::stdout().lock()) {
        Ok(()) => ExitCode::SUCCESS,
        Err(error) if error.kind() == ErrorKind::BrokenPipe => ExitCode::SUCCESS,
        Err(error) => {
            eprintln!("second: {error}");
            ExitCode::FAILURE
        }
    }
}
