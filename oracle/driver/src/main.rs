//! `oracle [--build unchanged|counted]`: reads a grid file from standard input, writes what `haul` must write.
use std::io::{self, Read, Write};
use std::process::ExitCode;

use oracle::{Build, answer_file};

const USAGE: &str = "usage: oracle [--build unchanged|counted] <INPUT >OUTPUT";

fn main() -> ExitCode {
    let words: Vec<String> = std::env::args().skip(1).collect();
    let words: Vec<&str> = words.iter().map(String::as_str).collect();
    let build = match words[..] {
        [] | ["--build", "unchanged"] => Build::Unchanged,
        ["--build", "counted"] => Build::Counted,
        _ => {
            eprintln!("{USAGE}");
            return ExitCode::from(2);
        }
    };
    let mut input = Vec::new();
    let answered =
        io::stdin().read_to_end(&mut input).and_then(|_| io::stdout().write_all(&answer_file(&input, build)));
    match answered {
        Ok(()) => ExitCode::SUCCESS,
        Err(error) => {
            eprintln!("oracle: {error}");
            ExitCode::FAILURE
        }
    }
}
