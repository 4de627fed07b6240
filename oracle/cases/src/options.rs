//! The options of the commands that compare, and the comparison that they ask for.
use std::collections::BTreeMap;

use case::Search;

use crate::compare::{Seen, Side, Statuses, add, compare, compare_damaged};
use crate::generate::Sizes;

/// Which cases a command is about.
pub struct Options {
    pub search: Option<Search>,
    pub cases: u64,
    pub seed: u64,
    pub sizes: Sizes,
    /// Damaged files only.
    pub damaged: bool,
}

impl Options {
    pub fn read(mut words: &[&str]) -> Result<Options, String> {
        let mut options = Options { search: None, cases: 1000, seed: 1, sizes: Sizes::File, damaged: false };
        loop {
            words = match words {
                [] => return Ok(options),
                ["--large", rest @ ..] => {
                    options.sizes = Sizes::Large;
                    rest
                }
                ["--damaged", rest @ ..] => {
                    options.damaged = true;
                    rest
                }
                ["--search", word, rest @ ..] => {
                    options.search = Some(read_search(word)?);
                    rest
                }
                ["--cases", word, rest @ ..] => {
                    options.cases = number(word)?;
                    rest
                }
                ["--seed", word, rest @ ..] => {
                    options.seed = number(word)?;
                    rest
                }
                [word, ..] => return Err(format!("`{word}` is no option, or lacks its number; see `cases help`")),
            };
        }
    }
}

pub fn number(word: &str) -> Result<u64, String> {
    word.parse().map_err(|_| format!("`{word}` is no number"))
}

pub fn read_search(word: &str) -> Result<Search, String> {
    word.parse().ok().and_then(Search::from_number).ok_or_else(|| format!("`{word}` is no search: they are 1 to 8"))
}

/// Compares the two sides that these names stand for, a line for each search, then, of damaged files, one for each
/// kind of damage.
pub fn run_compare(names: [&str; 2], side: fn(&str) -> Side, options: &Options) -> Result<(), String> {
    let sides = names.map(side);
    let (mut kinds, mut all) = (BTreeMap::new(), Statuses::new());
    for search in Search::ALL {
        if options.search.is_none_or(|only| only == search) {
            let seen = if options.damaged {
                compare_damaged(&sides, search, options.seed, options.cases)?
            } else {
                compare(&sides, search, options.sizes, options.seed, options.cases)?
            };
            println!("search {}: {} and {} agree: {}", search.number(), names[0], names[1], summary(&seen));
            add(&mut all, &seen.all());
            for (&kind, statuses) in &seen.kinds {
                add(kinds.entry(kind).or_default(), statuses);
            }
        }
    }
    if options.damaged {
        kinds.iter().for_each(|(kind, statuses)| println!("{kind}: {}", counts(statuses)));
    }
    println!("together: {}", counts(&all));
    Ok(())
}

fn counts(statuses: &Statuses) -> String {
    let word = |(status, count): (&u8, &u64)| match status {
        0 => format!("{count} accepted"),
        number => format!("{count} refused by {number}"),
    };
    statuses.iter().map(word).collect::<Vec<_>>().join(", ")
}

fn summary(seen: &Seen) -> String {
    let mut parts = vec![format!("{} files ({} damaged), {} calls", seen.files, seen.damaged, seen.calls)];
    if seen.not_fed > 0 {
        parts.push(format!("{} NOT FED, as no grid file holds them", seen.not_fed));
    }
    parts.extend([counts(&seen.all()), format!("{} takes", seen.takes)]);
    parts.join(", ")
}
