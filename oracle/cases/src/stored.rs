//! The stored answers: a fixed list of the oracle's answers, for tests that have no Rust at hand.
use std::fs;
use std::path::{Path, PathBuf};

use case::{Answer, Case, Search, draw, plain};
use oracle::{Build, Reading, answer};

use crate::generate::{Sizes, beside, generate};

const SEED: u64 = 1;
const CASES: u64 = 400;

/// Those of search 7 in which adjacent cells count. They come first, since `theorems` takes its cases from the front.
const BESIDE: usize = 12;

/// Writes `search-N.txt` for each search.
pub fn store(folder: &Path) -> Result<(), String> {
    for search in Search::ALL {
        let number = search.number();
        let first = first_cases(search);
        let count = first.len() as u64 + CASES;
        let mut text = format!(
            "# The oracle's answers for search {number}, {}: {count} cases of seed {SEED}.\n# Made by `cases store`.\n",
            search.name()
        );
        for case in first.into_iter().chain((0..CASES).map(|index| generate(search, Sizes::Stored, SEED, index))) {
            text += &plain::write(&case, &answer(&case, Build::Unchanged, Reading::Document));
        }
        let path = path_of(folder, search);
        fs::write(&path, text).map_err(|error| format!("{}: {error}", path.display()))?;
    }
    Ok(())
}

fn first_cases(search: Search) -> Vec<Case> {
    if search != Search::SumWithinTravelDistance {
        return Vec::new();
    }
    (0..).map(|index| beside(SEED, index)).filter(adjacent_cells_count).take(BESIDE).collect()
}

/// Whether the answer is another one without adjacent cells.
fn adjacent_cells_count(case: &Case) -> bool {
    let without = Case { adjacent: false, ..case.clone() };
    let answers = [case, &without].map(|case| answer(case, Build::Unchanged, Reading::Document));
    answers[0] != answers[1]
}

/// Why stored answers do not hold.
#[derive(Debug)]
pub enum Failure {
    /// The oracle answers another thing than was stored.
    Differs(String),
    /// They can't be read, or are not all there: nothing is known of the oracle.
    Unread(String),
}

/// Asks the oracle's two builds again for each stored case of a folder's .txt files; how many there were. Each search
/// has at least as many in its own file as `store` writes.
pub fn verify(folder: &Path) -> Result<usize, Failure> {
    let stored = read(folder).map_err(Failure::Unread)?;
    let mut count = 0;
    for (path, cases) in stored {
        for (case, stored) in &cases {
            for build in [Build::Unchanged, Build::Counted] {
                let now = answer(case, build, Reading::Document);
                if let Some(what) = draw::difference(case, stored, &now) {
                    let drawn = draw::case(case);
                    return Err(Failure::Differs(format!(
                        "{}: the stored answer and the oracle's differ in {what}\n\n{drawn}",
                        path.display()
                    )));
                }
            }
        }
        count += cases.len();
    }
    Ok(count)
}

/// The stored cases of each file.
fn read(folder: &Path) -> Result<Vec<(PathBuf, Vec<(Case, Answer)>)>, String> {
    let entries = fs::read_dir(folder).map_err(|error| format!("{}: {error}", folder.display()))?;
    let mut paths: Vec<_> = entries.filter_map(|entry| Some(entry.ok()?.path())).collect();
    paths.retain(|path| path.extension().is_some_and(|extension| extension == "txt"));
    paths.sort();
    let mut stored = Vec::new();
    for path in paths {
        let text = fs::read_to_string(&path).map_err(|error| format!("{}: {error}", path.display()))?;
        let cases = plain::read(&text).map_err(|line| format!("{}: line {line} is not in the form", path.display()))?;
        stored.push((path, cases));
    }
    for search in Search::ALL {
        let path = path_of(folder, search);
        let cases = stored.iter().filter(|(found, _)| *found == path).flat_map(|(_, cases)| cases);
        let count = cases.filter(|(case, _)| case.search == search).count();
        if (count as u64) < CASES {
            return Err(format!("{} has {count} answers of its search, not {CASES}", path.display()));
        }
    }
    Ok(stored)
}

/// The file of a search's stored answers.
fn path_of(folder: &Path, search: Search) -> PathBuf {
    folder.join(format!("search-{}.txt", search.number()))
}
