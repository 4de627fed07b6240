//! A case and its answers, drawn for people: each grid row by row, and where two answers differ.
use std::fmt::Write;

use crate::{Answer, Case, Diagonals, Grid};

/// Grids above this many cells are named by their size alone.
const DRAWN_MAX: usize = 1024;

pub fn case(case: &Case) -> String {
    let search = case.search;
    let mut text = format!("search {}, {}", search.number(), search.name());
    if search.has_diagonals() {
        text += if case.diagonals == Diagonals::Exclude { ", Exclude" } else { ", Include" };
    }
    if search.has_adjacent() {
        text += if case.adjacent { ", adjacent" } else { ", not adjacent" };
    }
    if search.has_cell_size() {
        text += &format!(", cell size {}", number(case.cell_size));
    }
    if search.has_limit() {
        text += &format!(", limit {}", number(case.limit));
    }
    text.push('\n');
    for (name, grid) in [("targets", &case.targets), ("obstacles", &case.obstacles)] {
        if let Some(grid) = grid {
            text += &drawn(name, grid, |cell| cell.to_string());
        }
    }
    for (name, grid) in [("times", &case.times), ("values", &case.values)] {
        if let Some(grid) = grid {
            text += &drawn(name, grid, |&cell| number(cell));
        }
    }
    text
}

pub fn answer(case: &Case, answer: &Answer) -> String {
    match answer {
        Answer::Refused { number, index: None } => format!("refused by {number}\n"),
        Answer::Refused { number, index: Some(index) } => format!("refused by {number}, index {index}\n"),
        Answer::Accepted { takes, grid } => {
            let (rows, cols) = case.size();
            let grid = Grid { rows, cols, cells: grid.clone() };
            format!("takes {takes}\n{}", drawn("answer", &grid, |&bits| number(f32::from_bits(bits))))
        }
    }
}

/// What differs first between two answers, in the order in which a program writes its fields.
pub fn difference(case: &Case, ours: &Answer, theirs: &Answer) -> Option<String> {
    use Answer::{Accepted, Refused};
    match (ours, theirs) {
        (Refused { number: a, index: i }, Refused { number: b, index: j }) => {
            if a != b {
                Some(format!("status: {a} against {b}"))
            } else if i != j {
                Some(format!("index: {} against {}", index(i), index(j)))
            } else {
                None
            }
        }
        (Refused { number, .. }, Accepted { .. }) => Some(format!("status: {number} against 0")),
        (Accepted { .. }, Refused { number, .. }) => Some(format!("status: 0 against {number}")),
        (Accepted { takes: a, grid: x }, Accepted { takes: b, grid: y }) => {
            if a != b {
                Some(format!("takes: {a} against {b}"))
            } else if x.len() != y.len() {
                Some(format!("cells in the answer: {} against {}", x.len(), y.len()))
            } else {
                let at = (0..x.len()).find(|&at| x[at] != y[at])?;
                let cols = case.size().1.max(1) as usize;
                let [a, b] = [x[at], y[at]].map(|bits| format!("{} (bits {bits:08x})", number(f32::from_bits(bits))));
                Some(format!("answer at row {}, column {} (index {at}): {a} against {b}", at / cols, at % cols))
            }
        }
    }
}

fn index(index: &Option<u32>) -> String {
    index.map_or("none".into(), |index| index.to_string())
}

/// A float so that it can be told from any other: a NaN and a zero with their sign, a NaN with its payload.
fn number(value: f32) -> String {
    if value.is_nan() { format!("NaN:{:08x}", value.to_bits()) } else { format!("{value:?}") }
}

fn drawn<T>(name: &str, grid: &Grid<T>, word: impl Fn(&T) -> String) -> String {
    let Grid { rows, cols, cells } = grid;
    let mut text = format!("{name}, {rows} by {cols}");
    let n = i64::from(*rows) * i64::from(*cols);
    if n != cells.len() as i64 {
        write!(text, ", with {} cells", cells.len()).expect("a string can be written to");
    }
    if cells.len() > DRAWN_MAX {
        return text + " (too large to draw)\n";
    }
    text.push('\n');
    let words: Vec<String> = cells.iter().map(word).collect();
    let width = words.iter().map(String::len).max().unwrap_or(0);
    for row in words.chunks((*cols).max(1) as usize) {
        for word in row {
            write!(text, "  {word:>width$}").expect("a string can be written to");
        }
        text.push('\n');
    }
    text
}
