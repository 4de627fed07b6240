//! What a search may last: from what others lasted, or from a few of its own starts.
use std::time::{Duration, Instant};

use haul::raw::CELLS_MAX;
use haul::{Grid, Refusal};
use search::Search;

/// A sample has at most one in so many of the amounts, so that it costs little beside the search.
const SAMPLED_OF: usize = 64;
/// A sample that lasts as long is measured well enough.
const SAMPLE: Duration = Duration::from_millis(200);

/// What searches 1 to 6 last on most ground, in proportion to the cells; none for searches 7 and 8, which depend on
/// their starts. Searches 4 to 6 are run twice, to see where a value came.
pub fn of_cells(search: Search, cells: usize) -> Option<Duration> {
    let milliseconds = match search {
        // docs/BENCHMARKS.md, square grids, "ours, allocating": the longest row of the search, for 1024 by 1024 cells.
        Search::DistancesUpTo => 21,
        Search::DistanceWithObstacles => 55,
        Search::ValueAtClosestTarget => 2 * 38,
        // docs/WORST_CASE.md, the row "drawn", for 1024 by 1024 cells. Smaller grids last less than in proportion.
        Search::TravelDistancesUpTo => 2_600,
        Search::ValueAtClosestTravelTarget => 2 * 3_000,
        Search::ValueAtClosestLessThanTravelTarget => 2 * 2_160,
        Search::SumWithinTravelDistance | Search::SumTargetsWithinTravelDistance => return None,
    };
    Some(Duration::from_millis(milliseconds).mul_f64(cells as f64 / CELLS_MAX as f64))
}

/// The amounts that search 8 starts from: one that is 0 or nodata, or on a cell whose time is nodata, goes nowhere.
pub fn amounts_that_count(times: Grid<f32>, amounts: Grid<f32>) -> Vec<usize> {
    let cells = times.cells.iter().zip(amounts.cells).enumerate();
    cells
        .filter(|(_, (time, amount))| **amount != 0.0 && !amount.is_nan() && !time.is_nan())
        .map(|(at, _)| at)
        .collect()
}

/// What search 8 may last: so many amounts count, and a sample of them, spread over the grid, shows what one costs.
/// None where they are too few for a sample. A call that is refused is so with any amounts.
pub fn of_amounts(times: Grid<f32>, amounts: Grid<f32>, limit: f32) -> Result<Option<Duration>, Refusal> {
    let counted = amounts_that_count(times, amounts);
    let mut sampled = vec![0.0; amounts.cells.len()];
    let mut time = |size: usize| {
        sampled.fill(0.0);
        for cell in spread(&counted, size) {
            sampled[cell] = amounts.cells[cell];
        }
        let start = Instant::now();
        let sampled = Grid::new(amounts.rows, amounts.columns, &sampled);
        haul::sum_targets_within_travel_distance(times, sampled, limit).map(|_| start.elapsed())
    };
    let without = time(0)?;
    let (mut size, mut lasted) = (1, Duration::ZERO);
    while lasted < SAMPLE && 2 * size <= counted.len() / SAMPLED_OF {
        size *= 2;
        lasted = time(size)?.saturating_sub(without);
    }
    Ok((size > 1).then(|| lasted.mul_f64(counted.len() as f64 / size as f64)))
}

/// So many of these cells, evenly spread.
fn spread(cells: &[usize], size: usize) -> impl Iterator<Item = usize> {
    (0..size).map(move |number| cells[(2 * number + 1) * cells.len() / (2 * size)])
}
