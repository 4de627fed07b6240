//! The plain text in which cases are stored with their answers. Nothing in it depends on the grid file. A case is six
//! to nine lines of words: the search with its flags, the two numbers, each of its grids in the order of the file's
//! tags, and the answer. Sizes, bytes, indices and takes are decimal, floats are eight hex digits of their bits.
//!
//! ```text
//! search 2 diagonals 1 adjacent 0
//! cell_size 41200000 limit 00000000
//! targets 2 2 4 1 0 0 0
//! obstacles 2 2 4 0 1 1 0
//! accepted 2 4 00000000 7f800000 7f800000 41624630
//! ```
//!
//! A grid is its rows, its columns, the number of its cells, and its cells. An answer is `accepted`, the takes, the
//! number of cells and the cells, or `refused` and the number, with ` index ` and the index where there is one.
use std::fmt::{Display, Write};
use std::str::SplitWhitespace;

use crate::{Answer, Case, Diagonals, Grid, Search};

pub fn write(case: &Case, answer: &Answer) -> String {
    let mut text = String::new();
    let diagonals = (case.diagonals == Diagonals::Exclude) as u8;
    line(
        &mut text,
        format_args!("search {} diagonals {diagonals} adjacent {}", case.search.number(), case.adjacent as u8),
    );
    line(&mut text, format_args!("cell_size {:08x} limit {:08x}", case.cell_size.to_bits(), case.limit.to_bits()));
    for (name, grid) in [("targets", &case.targets), ("obstacles", &case.obstacles)] {
        if let Some(grid) = grid {
            line(&mut text, format_args!("{name} {}", cells(grid, |cell| cell.to_string())));
        }
    }
    for (name, grid) in [("times", &case.times), ("values", &case.values)] {
        if let Some(grid) = grid {
            line(&mut text, format_args!("{name} {}", cells(grid, |cell| format!("{:08x}", cell.to_bits()))));
        }
    }
    match answer {
        Answer::Refused { number, index: None } => line(&mut text, format_args!("refused {number}")),
        Answer::Refused { number, index: Some(index) } => {
            line(&mut text, format_args!("refused {number} index {index}"))
        }
        Answer::Accepted { takes, grid } => {
            let grid: String = grid.iter().map(|cell| format!(" {cell:08x}")).collect();
            line(&mut text, format_args!("accepted {takes} {}{grid}", grid.len() / 9));
        }
    }
    text
}

fn line(text: &mut String, words: impl Display) {
    writeln!(text, "{words}").expect("a string can be written to");
}

fn cells<T>(grid: &Grid<T>, word: impl Fn(&T) -> String) -> String {
    let size = [grid.rows.to_string(), grid.cols.to_string(), grid.cells.len().to_string()];
    size.into_iter().chain(grid.cells.iter().map(word)).collect::<Vec<_>>().join(" ")
}

/// All cases of a text, or the number of the line that is not in the form.
pub fn read(text: &str) -> Result<Vec<(Case, Answer)>, usize> {
    let mut lines = text.lines().enumerate().filter(|(_, line)| !line.starts_with('#'));
    let mut cases = Vec::new();
    while let Some((at, first)) = lines.next() {
        let mut case = flags(first).ok_or(at + 1)?;
        let mut next = |read: &mut dyn FnMut(&mut SplitWhitespace) -> Option<()>| {
            let (at, line) = lines.next().ok_or(at + 1)?;
            let mut words = line.split_whitespace();
            read(&mut words).filter(|()| words.next().is_none()).ok_or(at + 1)
        };
        next(&mut |words| numbers(words, &mut case))?;
        let search = case.search;
        if search.has_targets() {
            next(&mut |words| grid("targets", words, byte).map(|grid| case.targets = Some(grid)))?;
        }
        if search.has_obstacles() {
            next(&mut |words| grid("obstacles", words, byte).map(|grid| case.obstacles = Some(grid)))?;
        }
        if search.has_times() {
            next(&mut |words| grid("times", words, float).map(|grid| case.times = Some(grid)))?;
        }
        if search.has_values() {
            next(&mut |words| grid("values", words, float).map(|grid| case.values = Some(grid)))?;
        }
        let mut answered = None;
        next(&mut |words| answer(words).map(|answer| answered = Some(answer)))?;
        cases.extend(answered.map(|answer| (case, answer)));
    }
    Ok(cases)
}

fn flags(line: &str) -> Option<Case> {
    let words: Vec<&str> = line.split_whitespace().collect();
    let ["search", number, "diagonals", diagonals @ ("0" | "1"), "adjacent", adjacent @ ("0" | "1")] = words[..] else {
        return None;
    };
    let mut case = Case::new(Search::from_number(number.parse().ok()?)?);
    case.diagonals = if diagonals == "1" { Diagonals::Exclude } else { Diagonals::Include };
    case.adjacent = adjacent == "1";
    Some(case)
}

fn numbers(words: &mut SplitWhitespace, case: &mut Case) -> Option<()> {
    case.cell_size = words.next().filter(|&word| word == "cell_size").and_then(|_| words.next()).and_then(float)?;
    case.limit = words.next().filter(|&word| word == "limit").and_then(|_| words.next()).and_then(float)?;
    Some(())
}

fn grid<T>(name: &str, words: &mut SplitWhitespace, cell: impl Fn(&str) -> Option<T>) -> Option<Grid<T>> {
    words.next().filter(|&word| word == name)?;
    let rows = words.next()?.parse().ok()?;
    let cols = words.next()?.parse().ok()?;
    let len: usize = words.next()?.parse().ok()?;
    let cells = (0..len).map(|_| words.next().and_then(&cell)).collect::<Option<_>>()?;
    Some(Grid { rows, cols, cells })
}

fn answer(words: &mut SplitWhitespace) -> Option<Answer> {
    match words.next()? {
        "refused" => {
            let number = words.next()?.parse().ok()?;
            let index = match words.next() {
                None => None,
                Some("index") => Some(words.next()?.parse().ok()?),
                Some(_) => return None,
            };
            Some(Answer::Refused { number, index })
        }
        "accepted" => {
            let takes = words.next()?.parse().ok()?;
            let len: usize = words.next()?.parse().ok()?;
            let grid = (0..len).map(|_| words.next().and_then(bits)).collect::<Option<_>>()?;
            Some(Answer::Accepted { takes, grid })
        }
        _ => None,
    }
}

fn byte(word: &str) -> Option<u8> {
    word.parse().ok()
}

fn bits(word: &str) -> Option<u32> {
    if word.len() == 8 { u32::from_str_radix(word, 16).ok() } else { None }
}

fn float(word: &str) -> Option<f32> {
    bits(word).map(f32::from_bits)
}
