//! `haul-cases`: as `cases compare`, with one name more, `haul_answer`, the port's program as a call in this process.
//! So millions of grid files, damaged ones among them, go through the port and the oracle in minutes.
use std::process::ExitCode;

use cases::compare::Side;
use cases::options::{Options, run_compare};

const USAGE: &str = "\
haul-cases FIRST SECOND [--search N] [--cases N] [--seed N] [--damaged]
    FIRST and SECOND are `haul_answer`, or what `cases compare` takes. Without --seed it takes one from the clock, and
    prints it.
";

fn side(name: &str) -> Side {
    match name {
        "haul_answer" => Side::Files(library::exports::answer_file),
        other => Side::named(other),
    }
}

fn main() -> ExitCode {
    let mut words: Vec<String> = std::env::args().skip(1).collect();
    if !words.iter().any(|word| word == "--seed") {
        let now = std::time::SystemTime::now().duration_since(std::time::UNIX_EPOCH).expect("it is past 1970");
        println!("--seed {}", now.as_secs());
        words.extend(["--seed".into(), now.as_secs().to_string()]);
    }
    let words: Vec<&str> = words.iter().map(String::as_str).collect();
    let [first, second, options @ ..] = &words[..] else {
        eprint!("{USAGE}");
        return ExitCode::from(2);
    };
    match Options::read(options).and_then(|options| run_compare([first, second], side, &options)) {
        Ok(()) => ExitCode::SUCCESS,
        Err(what) => {
            eprintln!("{what}");
            ExitCode::FAILURE
        }
    }
}
