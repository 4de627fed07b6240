//! The port's searches beside the Rust of docs/src, on the same seeded grids: times, or instructions for a take. For the
//! gate, our instructions for a take beside stored ones. `bench/run` builds and starts this.

mod clock;
mod gate;
mod goals;
mod instructions;
mod plan;
mod plans;
mod report;
mod served;
mod sides;
mod times;

use std::env;
use std::process::ExitCode;

use instructions::Side;
use plan::Plan;
use plans::{COUNTED, FULL, SMALL, Scale};
use times::Way;

const USAGE: &str = "bench [--instructions | --small] [--only WORDS], or bench --gate [--store]";

/// What was asked for.
struct Asked {
    instructions: bool,
    scale: Scale,
    only: String,
}

fn main() -> ExitCode {
    let words: Vec<String> = env::args().skip(1).collect();
    let done = match words.iter().map(String::as_str).collect::<Vec<_>>()[..] {
        ["call", side, name] => call(side, name),
        ["serve", name] => plans::named(name).and_then(|plan| served::serve(&plan)),
        ["--gate"] => gate::hold(),
        ["--gate", "--store"] => gate::store(),
        _ => asked(&words).and_then(|asked| compare(&asked)),
    };
    match done {
        Ok(()) => ExitCode::SUCCESS,
        Err(why) => {
            eprintln!("bench: {why}");
            ExitCode::FAILURE
        }
    }
}

/// Reads the command line.
fn asked(words: &[String]) -> Result<Asked, String> {
    let mut asked = Asked { instructions: false, scale: FULL, only: String::new() };
    let mut words = words.iter();
    while let Some(word) = words.next() {
        match word.as_str() {
            "--instructions" => (asked.instructions, asked.scale) = (true, COUNTED),
            "--small" => asked.scale = SMALL,
            "--only" => asked.only = words.next().ok_or(USAGE)?.clone(),
            _ => return Err(USAGE.into()),
        }
    }
    Ok(asked)
}

/// Measures each grid in turn, and prints the tables once all agreed.
fn compare(asked: &Asked) -> Result<(), String> {
    let plans: Vec<Plan> =
        plans::plans(&asked.scale).into_iter().filter(|plan| plan.name().contains(&asked.only)).collect();
    if plans.is_empty() {
        return Err(format!("no grid's name has {:?}", asked.only));
    }
    if asked.instructions {
        let ratio = |row: &instructions::Counted| row.lent as f64 / row.rust as f64;
        let counted = each(&plans, instructions::count, ratio)?;
        report::heading();
        report::instructions(&counted);
    } else {
        let ratio = |row: &times::Timed| row.ratio(Way::Lent, Way::RUST);
        let timed = each(&plans, |plan| times::time(plan, asked.scale.time), ratio)?;
        report::heading();
        report::times(&timed);
    }
    Ok(())
}

/// Measures each grid in turn, and tells on standard error how far it is.
fn each<T>(
    plans: &[Plan],
    measure: impl Fn(&Plan) -> Result<T, String>,
    ratio: impl Fn(&T) -> f64,
) -> Result<Vec<T>, String> {
    let told = |plan: &Plan| {
        let measured = measure(plan).map_err(|why| format!("{}: {why}", plan.name()))?;
        eprintln!("{}: {:.2} of the Rust's", plan.name(), ratio(&measured));
        Ok(measured)
    };
    plans.iter().map(told).collect()
}

/// One call of one side, for callgrind to count.
fn call(side: &str, name: &str) -> Result<(), String> {
    let side = Side::ALL.into_iter().find(|known| known.word() == side).ok_or(USAGE)?;
    instructions::one_call(&plans::named(name)?, side);
    Ok(())
}
