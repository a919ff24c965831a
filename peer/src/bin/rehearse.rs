//! Plays the script on standard input and prints its answers.

use std::io::{self, Read, Write};
use std::process::ExitCode;

fn main() -> ExitCode {
    match play() {
        Ok(()) => ExitCode::SUCCESS,
        Err(error) => {
            eprintln!("rehearse: {error}");
            ExitCode::FAILURE
        }
    }
}

fn play() -> io::Result<()> {
    let mut script = Vec::new();
    io::stdin().lock().read_to_end(&mut script)?;
    let mut output = io::stdout().lock();
    output.write_all(&peer::script::rehearse(&script))?;
    output.flush()
}
