//! Reads `job.chn` from the working folder and a script from standard input,
//! and prints the answers.

use std::io::{self, ErrorKind, Read, Write};
use std::process::ExitCode;

fn main() -> ExitCode {
    match run() {
        Ok(()) => ExitCode::SUCCESS,
        Err(error) => {
            eprintln!("ratemap: {error}");
            ExitCode::FAILURE
        }
    }
}

fn run() -> io::Result<()> {
    let chain_file = read_chain_file()?;
    let mut script = vec![];
    io::stdin().lock().read_to_end(&mut script)?;
    io::stdout().write_all(&reference::program::run(&chain_file, &script))
}

/// No file at all is the same as an empty one.
fn read_chain_file() -> io::Result<Vec<u8>> {
    match std::fs::read("job.chn") {
        Err(error) if error.kind() == ErrorKind::NotFound => Ok(vec![]),
        other => other,
    }
}
