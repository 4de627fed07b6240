//! A case: the inputs of one search, and what it answers. Three forms of it: document 01's grid file (`gridfile`), the
//! plain text in which answers are stored (`plain`), and a drawing for people (`draw`).

pub mod draw;
pub mod gridfile;
pub mod plain;

pub use search::Search;

#[derive(Clone, Copy, Debug, PartialEq, Eq)]
pub enum Diagonals {
    Include,
    Exclude,
}

/// A size, and cells in row-major order. Their number may differ from rows times columns: that is refusal 3.
#[derive(Clone, Debug)]
pub struct Grid<T> {
    pub rows: i32,
    pub cols: i32,
    pub cells: Vec<T>,
}

/// One search's inputs. The grids, flags and numbers that it does not have are `None`, `Include`, `false` and zero.
#[derive(Clone, Debug)]
pub struct Case {
    pub search: Search,
    pub diagonals: Diagonals,
    pub adjacent: bool,
    pub cell_size: f32,
    pub limit: f32,
    /// The mask in search 7.
    pub targets: Option<Grid<u8>>,
    pub obstacles: Option<Grid<u8>>,
    pub times: Option<Grid<f32>>,
    /// The amounts in search 8.
    pub values: Option<Grid<f32>>,
}

impl Case {
    pub fn new(search: Search) -> Case {
        Case {
            search,
            diagonals: Diagonals::Include,
            adjacent: false,
            cell_size: 0.0,
            limit: 0.0,
            targets: None,
            obstacles: None,
            times: None,
            values: None,
        }
    }

    /// Each input grid's rows, columns and number of cells, in the order of the file's tags.
    pub fn grids(&self) -> Vec<(i32, i32, usize)> {
        let bytes = [&self.targets, &self.obstacles].map(|grid| grid.as_ref().map(size_and_len));
        let floats = [&self.times, &self.values].map(|grid| grid.as_ref().map(size_and_len));
        bytes.into_iter().chain(floats).flatten().collect()
    }

    /// Rows and columns of the first input grid.
    pub fn size(&self) -> (i32, i32) {
        let (rows, cols, _) = self.grids()[0];
        (rows, cols)
    }
}

fn size_and_len<T>(grid: &Grid<T>) -> (i32, i32, usize) {
    (grid.rows, grid.cols, grid.cells.len())
}

/// What a search answers: a refusal's number with its index where it has one, or the takes and the answer grid.
#[derive(Clone, Debug, PartialEq, Eq)]
pub enum Answer {
    Refused { number: u8, index: Option<u32> },
    Accepted { takes: u64, grid: Vec<u32> },
}

pub const ONE_NAN: u32 = 0x7FC0_0000;

/// A float's bits, each NaN as the one NaN.
pub fn bits_with_one_nan(value: f32) -> u32 {
    if value.is_nan() { ONE_NAN } else { value.to_bits() }
}
