//! Document 01's table of refusals, row by row, for a row of cells with a mask cell in the first or nothing reached.
use case::{Case, Search};

/// How long the answer, distances, marks, listed, adjacent, added and the queue are.
pub type Lengths = [usize; 7];

/// Which of these a search has.
pub fn had(search: Search) -> [bool; 7] {
    let number = search.number();
    [true, number >= 4, true, number == 7, number == 7, number == 8, true]
}

/// Lengths for n cells, 0 for what the search does not have.
pub fn right_lengths(search: Search, n: usize) -> Lengths {
    let mut lengths = had(search).map(|had| if had { n } else { 0 });
    lengths[6] = n + 1;
    lengths
}

/// The lowest number whose row applies, and the index that is told with it.
pub fn refusal(case: &Case, lengths: &Lengths) -> Option<(u32, Option<u32>)> {
    let search = case.search.number();
    let sizes: Vec<[i64; 2]> = case.grids().iter().map(|&(rows, cols, _)| [rows.into(), cols.into()]).collect();
    let out_of_bounds =
        |[rows, cols]: &[i64; 2]| *rows < 0 || *rows > 32_767 || *cols < 0 || *cols > 32_767 || rows * cols > 1_048_576;
    let n = sizes[0][0] * sizes[0][1];
    let lent = had(case.search).into_iter().zip(lengths).filter(|(had, _)| *had).map(|(_, &length)| length);
    let wrong_lent = lent.zip(wanted(case.search, n)).any(|(length, wanted)| length as i64 != wanted);
    let wrong_grid = case.grids().iter().any(|&(.., length)| length as i64 != n);
    let below_0 = case.times.as_ref().and_then(|times| times.cells.iter().position(|&time| time < 0.0));
    let table = [
        (1, sizes.iter().any(out_of_bounds), None),
        (2, sizes.iter().any(|size| *size != sizes[0]), None),
        (3, wrong_lent || wrong_grid, None),
        (4, search <= 2 && !(case.cell_size > 0.0 && case.cell_size < f32::INFINITY), None),
        (5, matches!(search, 1 | 3 | 6 | 7 | 8) && case.limit.is_nan() || search >= 7 && case.limit <= 0.0, None),
        (6, below_0.is_some(), below_0.map(|index| index as u32)),
        (7, search == 7 && over_budget(case), Some(0)),
    ];
    table.into_iter().find(|&(_, applies, _)| applies).map(|(number, _, index)| (number, index))
}

/// The lengths that the slices of a search must have for n cells, in their order.
fn wanted(search: Search, n: i64) -> impl Iterator<Item = i64> {
    let count = had(search).into_iter().filter(|had| *had).count();
    (1..=count).map(move |at| if at == count { n + 1 } else { n })
}

/// Whether a cell to the right of the first lies above the budget: half the step times the sum of both times, from cell
/// to cell, as far as there is data and the distance is below infinity.
fn over_budget(case: &Case) -> bool {
    let (Some(mask), Some(times)) = (&case.targets, &case.times) else { return false };
    if mask.cells.first() != Some(&1) {
        return false;
    }
    let mut distance = 0.0;
    for pair in times.cells.windows(2) {
        distance += 0.5 * (pair[0] + pair[1]);
        let entered = distance < f32::INFINITY;
        if !entered || distance > case.limit {
            return entered;
        }
    }
    false
}
