//! `cases`: compares two programs on generated cases, and keeps the stored answers. `cases help` says how.
use std::path::Path;
use std::process::ExitCode;

use case::{Search, draw, gridfile, plain};
use cases::compare::Side;
use cases::generate::generate;
use cases::options::{Options, number, read_search, run_compare};
use cases::stored::{self, Failure};
use cases::{readings, theorems};
use oracle::{Build, Reading, answer};

/// The status of `verify` where an answer differs.
const DIFFERS: u8 = 3;

const USAGE: &str = "\
cases compare FIRST SECOND [--search N] [--cases N] [--seed N] [--large | --damaged]
    Feeds both the same cases of each search (or of one) and stops at the first difference. FIRST and SECOND are
    `unchanged` or `counted`, the oracle's builds, or a program that reads a grid file from standard input: its path,
    and words behind it. A program has ten seconds for a file, ends with status 0 and writes nothing to standard error.
    --large: grids of 10,000 cells, which go to the oracle's builds only.
    --damaged: damaged files only; counts what each kind of damage came to.
cases show SEARCH INDEX [--seed N] [--large]
    Draws one of these cases with the oracle's answer, and prints it in the plain form and as a grid file.
cases store FOLDER
    Writes the fixed list of the oracle's answers, search-1.txt to search-8.txt.
cases verify FOLDER
    Asks the oracle again for every stored case. The status is 3 where an answer differs, 1 where they can't be read or
    a search has fewer than `store` writes.
cases theorems REPOSITORY FOLDER COUNT
    Writes COUNT of the small stored cases of each search as statements about the rules of crates/rules, a file of antt
    for each search. `oracle/computed` has the checker compute them.
cases readings [--plain]
    For each search the smallest case on which document 01's reading of nodata and the repository's give different
    grids. --plain: in the plain form, with document 01's answer.
";

fn main() -> ExitCode {
    let words: Vec<String> = std::env::args().skip(1).collect();
    let words: Vec<&str> = words.iter().map(String::as_str).collect();
    let done = match words[..] {
        ["compare", first, second, ref options @ ..] => {
            Options::read(options).and_then(|options| run_compare([first, second], Side::named, &options))
        }
        ["show", search, index, ref options @ ..] => {
            Options::read(options).and_then(|options| show(search, index, &options))
        }
        ["store", folder] => stored::store(Path::new(folder)),
        ["verify", folder] => match stored::verify(Path::new(folder)) {
            Ok(count) => {
                println!("{count} stored answers hold");
                Ok(())
            }
            Err(Failure::Unread(what)) => Err(what),
            Err(Failure::Differs(what)) => {
                eprintln!("{what}");
                return ExitCode::from(DIFFERS);
            }
        },
        ["theorems", top, folder, count] => number(count)
            .and_then(|count| theorems::write(Path::new(top), Path::new(folder), count as usize))
            .map(|counts| println!("cases of each search: {counts:?}")),
        ["readings"] => run_readings(false),
        ["readings", "--plain"] => run_readings(true),
        ["help"] => {
            print!("{USAGE}");
            Ok(())
        }
        _ => {
            eprint!("{USAGE}");
            return ExitCode::from(2);
        }
    };
    match done {
        Ok(()) => ExitCode::SUCCESS,
        Err(what) => {
            eprintln!("{what}");
            ExitCode::FAILURE
        }
    }
}

fn show(search: &str, index: &str, options: &Options) -> Result<(), String> {
    let case = generate(read_search(search)?, options.sizes, options.seed, number(index)?);
    let answer = answer(&case, Build::Unchanged, Reading::Document);
    print!("{}\n{}\n{}", draw::case(&case), draw::answer(&case, &answer), plain::write(&case, &answer));
    if let Some(file) = gridfile::write(&case) {
        println!("\ngrid file {}", file.iter().map(|byte| format!(" {byte:02x}")).collect::<String>());
    }
    Ok(())
}

fn run_readings(plainly: bool) -> Result<(), String> {
    for search in Search::ALL {
        match readings::smallest(search) {
            None => println!("# search {}: no difference among the cases of one and two cells", search.number()),
            Some(found) if plainly => print!("{}", plain::write(&found.case, &found.document)),
            Some(found) => {
                let [document, repository] =
                    [&found.document, &found.repository].map(|answer| draw::answer(&found.case, answer));
                println!("{}document 01: {document}repository: {repository}", draw::case(&found.case));
            }
        }
    }
    Ok(())
}
