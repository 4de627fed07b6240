//! The program `sheet`. What it prints and how it fails; the work is in the library.
use std::io::{self, Write};
use std::process::ExitCode;

use sheet::command;
use sheet::output::interrupt;

fn main() -> ExitCode {
    match run() {
        Ok(()) => ExitCode::SUCCESS,
        Err(sentence) => {
            if let Some(sentence) = sentence {
                // Where nobody hears it the exit status still says that it failed.
                let _ = writeln!(io::stderr(), "sheet: {sentence}");
            }
            ExitCode::FAILURE
        }
    }
}

/// What is said where the proofs suppose something else of floats than the processor does.
const FLOATS: &str = "floats are not computed as the searches need it: something that was loaded into this program has set the \
                      processor to take small numbers for 0, or to round otherwise than to nearest";

/// Fails with a sentence, or without one where nobody wants it.
fn run() -> Result<(), Option<String>> {
    if !haul::keeps_binary32() {
        return Err(Some(FLOATS.to_owned()));
    }
    interrupt::watch().map_err(|error| Some(format!("interrupts can't be watched for: {error}")))?;
    let said = command::run(std::env::args_os().skip(1)).map_err(Some)?;
    said.print().map_err(|error| said.unprinted(&error))
}
