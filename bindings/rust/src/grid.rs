//! What goes into a search and what comes out.

/// A grid of the caller's: its size, and its cells in row-major order. That they fit is judged by the search.
#[derive(Debug)]
pub struct Grid<'a, T> {
    pub rows: i32,
    pub columns: i32,
    pub cells: &'a [T],
}

impl<'a, T> Grid<'a, T> {
    pub fn new(rows: i32, columns: i32, cells: &'a [T]) -> Grid<'a, T> {
        Grid { rows, columns, cells }
    }
}

// Derived, these would ask the same of T, and a view copies no cell.
impl<T> Clone for Grid<'_, T> {
    fn clone(&self) -> Self {
        *self
    }
}

impl<T> Copy for Grid<'_, T> {}

/// Whether a machine may go between two ditch cells that meet at a corner.
#[derive(Clone, Copy, Debug, PartialEq, Eq)]
pub enum BarrierDiagonals {
    /// It may.
    Include,
    /// A diagonal step is barred where both cells beside it are obstacles.
    Exclude,
}

/// What a search answers.
#[derive(Clone, Debug, PartialEq)]
pub struct Sheet {
    pub rows: i32,
    pub columns: i32,
    /// In row-major order.
    pub cells: Vec<f32>,
    /// How many cells were taken from the queue: the work that the search was.
    pub takes: u64,
}
