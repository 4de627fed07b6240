//! Where the two readings of nodata give different grids: for each search the first such case among all of one and of
//! two cells with small numbers, fewest cells first.
use case::{Answer, Case, Grid, Search};
use oracle::{Build, Reading, answer};

const BYTES: [u8; 3] = [1, 0, 255];
const FLOATS: [f32; 4] = [1.0, 0.0, 2.0, f32::NAN];
const LIMITS: [f32; 2] = [9.0, f32::INFINITY];

pub struct Difference {
    pub case: Case,
    pub document: Answer,
    pub repository: Answer,
}

pub fn smallest(search: Search) -> Option<Difference> {
    (1..=2).flat_map(|cols| cases(search, cols)).find_map(|case| {
        let [document, repository] =
            [Reading::Document, Reading::Repository].map(|reading| answer(&case, Build::Unchanged, reading));
        (grid(&document) != grid(&repository)).then_some(Difference { case, document, repository })
    })
}

/// What the Rust itself gives: takes are the driver's count.
fn grid(answer: &Answer) -> Option<&[u32]> {
    match answer {
        Answer::Accepted { grid, .. } => Some(grid),
        Answer::Refused { .. } => None,
    }
}

/// Every case of one row with this many columns.
fn cases(search: Search, cols: u32) -> impl Iterator<Item = Case> {
    let bytes = BYTES.len().pow(cols);
    let floats = FLOATS.len().pow(cols);
    let kinds = [bytes, bytes, floats, floats, LIMITS.len(), 2];
    let used = [
        search.has_targets(),
        search.has_obstacles(),
        search.has_times(),
        search.has_values(),
        search.has_limit(),
        search.has_adjacent(),
    ];
    let counts: Vec<usize> = (0..6).map(|at| if used[at] { kinds[at] } else { 1 }).collect();
    (0..counts.iter().product()).map(move |number: usize| {
        let mut rest = number;
        let mut next = |count: usize| {
            let digit = rest % count;
            rest /= count;
            digit
        };
        let mut case = Case::new(search);
        case.adjacent = next(counts[5]) == 1;
        let limit = LIMITS[next(counts[4])];
        let [values, times, obstacles, targets] = [3, 2, 1, 0].map(|at| next(counts[at]));
        case.targets = used[0].then(|| numbered(&BYTES, targets, cols));
        case.obstacles = used[1].then(|| numbered(&BYTES, obstacles, cols));
        case.times = used[2].then(|| numbered(&FLOATS, times, cols));
        case.values = used[3].then(|| numbered(&FLOATS, values, cols));
        case.limit = if used[4] { limit } else { 0.0 };
        case.cell_size = if search.has_cell_size() { 1.0 } else { 0.0 };
        case
    })
}

/// The grid whose cells are a number's digits.
fn numbered<T: Copy>(digits: &[T], number: usize, cols: u32) -> Grid<T> {
    let cells = (0..cols).map(|at| digits[number / digits.len().pow(at) % digits.len()]).collect();
    Grid { rows: 1, cols: cols as i32, cells }
}
