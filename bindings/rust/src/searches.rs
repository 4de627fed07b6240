//! The searches, with all that they need allocated for the caller.
use std::hint::black_box;

use crate::workspace::cells_of;
use crate::{BarrierDiagonals, Grid, Refusal, Sheet, Workspace, raw};

/// Search 1: how far each cell is from the nearest target over open ground, at most `limit`.
///
/// A target is a byte that is neither 0 nor 255. A step to the side is 1, a diagonal one the root of 2. Cells whose
/// target is nodata are not entered and hold NaN. `limit` counts in steps ([`f32::INFINITY`] for none), and every cell
/// is multiplied by `cell_size` at the end, those at the limit too.
pub fn distances_up_to(targets: Grid<u8>, cell_size: f32, limit: f32) -> Result<Sheet, Refusal> {
    sheet(targets, |workspace, answer| workspace.distances_up_to(targets, cell_size, limit, answer))
}

/// Search 2: how far each cell is from the nearest target around obstacles, infinity where there is no way.
///
/// An obstacle is a byte that is not 0: nodata is one too. Obstacles are not entered, yet a target on one is started
/// from. Steps and scaling are those of search 1.
pub fn distance_with_obstacles(
    targets: Grid<u8>,
    obstacles: Grid<u8>,
    cell_size: f32,
    diagonals: BarrierDiagonals,
) -> Result<Sheet, Refusal> {
    sheet(targets, |workspace, answer| {
        workspace.distance_with_obstacles(targets, obstacles, cell_size, diagonals, answer)
    })
}

/// Search 3: how long the way from each cell to the nearest target takes over the terrain, at most `limit`.
///
/// A step costs its length times the mean of both cells' times. Where target or time is nodata, a cell is neither
/// started from nor entered, and holds NaN.
pub fn travel_distances_up_to(targets: Grid<u8>, times: Grid<f32>, limit: f32) -> Result<Sheet, Refusal> {
    sheet(targets, |workspace, answer| workspace.travel_distances_up_to(targets, times, limit, answer))
}

/// Search 4: the value at the target that is nearest to each cell over open ground, 0 where there is no target.
///
/// A target whose value is nodata passes NaN on.
pub fn value_at_closest_target(targets: Grid<u8>, values: Grid<f32>) -> Result<Sheet, Refusal> {
    sheet(targets, |workspace, answer| workspace.value_at_closest_target(targets, values, answer))
}

/// Search 5: the value at the target that is nearest to each cell by travel time, 0 where none is reached.
///
/// A step costs its length times the time of the cell that is entered, which is the one farther from the target, as a way
/// is counted from the target outward. Here a target is a byte that is not 0: 255 is one too. Where the value is nodata,
/// a cell is neither started from nor entered, and holds NaN.
pub fn value_at_closest_travel_target(
    targets: Grid<u8>,
    times: Grid<f32>,
    values: Grid<f32>,
) -> Result<Sheet, Refusal> {
    sheet(targets, |workspace, answer| workspace.value_at_closest_travel_target(targets, times, values, answer))
}

/// Search 6: as search 5, for cells whose travel time is below `limit`; the others hold 0. A target holds its own value
/// under any limit.
pub fn value_at_closest_less_than_travel_target(
    targets: Grid<u8>,
    times: Grid<f32>,
    values: Grid<f32>,
    limit: f32,
) -> Result<Sheet, Refusal> {
    sheet(targets, |workspace, answer| {
        workspace.value_at_closest_less_than_travel_target(targets, times, values, limit, answer)
    })
}

/// Search 7: for each mask cell the sum of the values of all cells that can be reached from it; other cells hold 0.
///
/// Steps cost as in search 3. `limit` is a budget: a cell that is reached only above it is a [`Refusal::OverBudget`],
/// which names the mask cell. With `include_adjacent`, a cell above, below, left or right of a reached cell that is
/// itself not reached is added too, once for each mask cell; with an infinite budget none is.
pub fn sum_within_travel_distance(
    mask: Grid<u8>,
    times: Grid<f32>,
    values: Grid<f32>,
    limit: f32,
    include_adjacent: bool,
) -> Result<Sheet, Refusal> {
    sheet(mask, |workspace, answer| {
        workspace.sum_within_travel_distance(mask, times, values, limit, include_adjacent, answer)
    })
}

/// Search 8: for each cell the sum of the amounts whose travel time to it is within the budget `limit`.
///
/// From 16,777,216 on budget + 1 may round to the budget, and an amount at exactly the budget is then not counted.
/// Steps cost as in search 5, but a nodata time counts as the largest f32 divided by 4. An amount on a cell with nodata
/// time goes nowhere.
pub fn sum_targets_within_travel_distance(times: Grid<f32>, amounts: Grid<f32>, limit: f32) -> Result<Sheet, Refusal> {
    sheet(times, |workspace, answer| workspace.sum_targets_within_travel_distance(times, amounts, limit, answer))
}

/// The search's sheet, of the size of its first grid.
fn sheet<T>(
    first: Grid<T>,
    search: impl FnOnce(&mut Workspace, &mut [f32]) -> Result<u64, Refusal>,
) -> Result<Sheet, Refusal> {
    let mut cells = vec![0.0; cells_of(first)];
    let takes = search(&mut Workspace::new(), &mut cells)?;
    Ok(Sheet { rows: first.rows, columns: first.columns, cells, takes })
}

/// The answer file to a grid file, as the program `haul` writes it; refusals are answers too.
pub fn answer_file(input: &[u8]) -> Vec<u8> {
    let mut output = vec![0; raw::ANSWER_MAX];
    let length = raw::answer(input, &mut output) as usize;
    output.truncate(length);
    output
}

/// Whether floats are what the proofs suppose, in the thread that asks: rounded to nearest even, and small ones not taken for 0.
///
/// A program that C code with `-ffast-math` was linked into may have set the processor otherwise. The searches then give
/// other answers, so who can't rule it out asks once.
pub fn keeps_binary32() -> bool {
    let least_above_0 = f32::from_bits(1);
    raw::keeps_binary32(black_box(1.0), black_box(least_above_0)) == 1
}
