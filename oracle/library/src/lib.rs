//! The port's searches as the oracle's cases have them: a case goes in, the answer comes out.
//!
//! `exports` calls the C exports with slices of its own and holds what they leave there to document 01. `safe` goes
//! through the functions that a Rust program uses.

pub mod exports;
pub mod safe;

use case::{Answer, Case, draw};
use haul::Grid;

/// The answer to a case, which both ways to the port must give.
pub fn answer(case: &Case) -> Answer {
    let answer = exports::answer(case);
    if let Some(what) = draw::difference(case, &answer, &safe::answer(case)) {
        panic!("the export and the safe function differ in {what}\n{}", draw::case(case));
    }
    answer
}

/// One of a case's grids as the crate takes it.
fn view<T>(grid: &Option<case::Grid<T>>) -> Grid<'_, T> {
    let grid = grid.as_ref().expect("a case has its search's grids");
    Grid::new(grid.rows, grid.cols, &grid.cells)
}
