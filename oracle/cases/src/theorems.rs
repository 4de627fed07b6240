//! Stored answers as statements about the rules of crates/rules, for the checker to compute: one file of antt for each
//! search.
use std::fmt::Write;
use std::fs;
use std::path::Path;

use case::{Answer, Case, Diagonals, Grid, Search, plain};

/// Larger grids are left to the runs: the checker computes over lists.
const CELLS_MAX: usize = 36;

/// Cases in one statement: the checker allows each statement so many steps.
const STATEMENT_MAX: usize = 20;

/// Writes `Search1.antt` to `Search8.antt` with the first `count` stored cases of each search that are small enough; how
/// many there are of each. `top` is the repository.
pub fn write(top: &Path, folder: &Path, count: usize) -> Result<Vec<usize>, String> {
    let named = |path: &Path, error: std::io::Error| format!("{}: {error}", path.display());
    let mut counts = Vec::new();
    for search in Search::ALL {
        let number = search.number();
        let path = top.join(format!("crates/replay/data/search-{number}.txt"));
        let text = fs::read_to_string(&path).map_err(|error| named(&path, error))?;
        let cases = plain::read(&text).map_err(|line| format!("{}: line {line} is not in the form", path.display()))?;
        let small = cases.iter().filter(|(case, _)| case.grids().iter().all(|&(_, _, len)| len <= CELLS_MAX));
        let entries: Vec<String> = small.take(count).map(|(case, answer)| entry(case, answer)).collect();
        counts.push(entries.len());
        let path = folder.join(format!("Search{number}.antt"));
        fs::write(&path, file(&entries)).map_err(|error| named(&path, error))?;
    }
    Ok(counts)
}

fn file(entries: &[String]) -> String {
    let statements = entries.chunks(STATEMENT_MAX).enumerate().map(|(at, entries)| {
        let entries = entries.join(" ∷\n    ");
        format!(
            "
unfoldable pub stored_{at} : List Entry
unfolding f
stored_{at} =
    {entries} ∷ []

pub stored_answers_{at} : all_heard stored_{at} ≡ all_said stored_{at}
unfolding stored_{at} rules_computing
stored_answers_{at} = refl
"
        )
    });
    let statements: String = statements.collect();
    format!("{HEADER}{statements}")
}

const HEADER: &str = "\
use mathlib.Core.Bool.{true, false}
use mathlib.Core.List.{List, [], ◌∷◌}
use mathlib.Core.Path.{◌≡◌, refl}
use Prim.Native.Nat.{ℕ}
use lib.IntN.{pos, negsuc}
use lib.Ieee.{Float, binary32, of_bits}
use Rattle.rules.specs.declared.BarrierDiagonals.TheVariants.{Include, Exclude}
use Rattle.rules.specs.Sizes.{number, number_at}
use Rattle.rules.specs.Distances.{outcome_1, outcome_2, outcome_3}
use Rattle.rules.specs.Values.{outcome_4, outcome_5, outcome_6}
use Rattle.rules.specs.Sums.{outcome_7, outcome_8}
use Rattle.rules.specs.Computing.{rules_computing}
use Rattle.rules.proofs.Grids.{takes_and_answer, refusal, Entry, all_heard, all_said, lent}

f : ℕ → Float
f b = of_bits binary32 b
";

fn entry(case: &Case, answer: &Answer) -> String {
    let number = case.search.number();
    let mut words = vec![format!("outcome_{number}")];
    words.extend(case.targets.as_ref().map(|targets| grid(targets, |cell| cell.to_string())));
    words.extend(case.obstacles.as_ref().map(|obstacles| grid(obstacles, |cell| cell.to_string())));
    words.extend(case.times.as_ref().map(|times| grid(times, |cell| float(cell.to_bits()))));
    words.extend(case.values.as_ref().map(|values| grid(values, |cell| float(cell.to_bits()))));
    let limit = float(case.limit.to_bits());
    if case.search.has_cell_size() {
        words.push(format!("(record {{ cell_size = {}; limit = {limit} }})", float(case.cell_size.to_bits())));
    } else if case.search.has_limit() {
        words.push(limit);
    }
    if case.search.has_diagonals() {
        words.push(if case.diagonals == Diagonals::Exclude { "Exclude" } else { "Include" }.into());
    }
    if case.search.has_adjacent() {
        words.push(case.adjacent.to_string());
    }
    let (rows, cols) = case.size();
    words.push(format!("(lent {} {})", rows.max(0) as u64 * cols.max(0) as u64, work_buffers(case.search)));
    format!("({}, {})", words.join(" "), said(answer))
}

/// How many work buffers of n a search has beside the queue.
fn work_buffers(search: Search) -> usize {
    match search.number() {
        1..=3 => 1,
        4..=6 => 2,
        7 => 4,
        _ => 3,
    }
}

fn said(answer: &Answer) -> String {
    match answer {
        Answer::Refused { number, index: None } => format!("refusal (number {number})"),
        Answer::Refused { number, index: Some(index) } => format!("refusal (number_at {number} {index})"),
        Answer::Accepted { takes, grid } => format!("takes_and_answer {takes} ({})", list(grid, |&bits| float(bits))),
    }
}

fn grid<T>(grid: &Grid<T>, cell: impl Fn(&T) -> String) -> String {
    let [rows, cols] = [grid.rows, grid.cols].map(integer);
    format!("(record {{ size = record {{ rows = {rows}; cols = {cols} }}; cells = {} }})", list(&grid.cells, cell))
}

fn list<T>(cells: &[T], cell: impl Fn(&T) -> String) -> String {
    cells.iter().fold(String::new(), |mut text, each| {
        write!(text, "{} ∷ ", cell(each)).expect("a string can be written to");
        text
    }) + "[]"
}

fn integer(number: i32) -> String {
    if number < 0 { format!("negsuc {}", -1 - i64::from(number)) } else { format!("pos {number}") }
}

fn float(bits: u32) -> String {
    format!("(f {bits:#x})")
}
