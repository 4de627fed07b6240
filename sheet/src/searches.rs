//! A case through the library, and which cells it reached.
pub mod batches;
pub mod estimates;
pub mod progress;
pub mod telling;

use std::time::{Duration, Instant};

use haul::{Grid, Refusal, Sheet};
use search::{Role, Search};

use crate::grids::Case;
use progress::Steps;

/// A search that was run.
#[derive(Debug)]
pub struct Run {
    pub sheet: Sheet,
    /// What the search alone took.
    pub time: Duration,
    /// For each cell whether the sheet says something about it; in search 7 it does about the mask cells.
    pub told: Vec<bool>,
    /// How many cells were reached: those that are told of, and in search 7 those within reach of any mask cell.
    pub reached: usize,
}

/// Runs the case's search, and says on a terminal how far it is.
pub fn run(case: &Case) -> Result<Run, Refusal> {
    progress::tell(&format!("search {}", case.search.number()), |steps| run_telling(case, steps))
}

/// Runs the case's search, and tells its steps to who hears them.
pub fn run_telling(case: &Case, steps: &Steps) -> Result<Run, Refusal> {
    if steps.are_heard() {
        telling::before(case, steps)?;
    }
    let start = Instant::now();
    let sheet = search(case, steps)?;
    let time = start.elapsed();
    if steps.are_heard() {
        telling::after(case, time, steps);
    }
    let told = told(case, &sheet)?;
    let reached = if case.search == Search::SumWithinTravelDistance {
        reached_from_mask(case)?
    } else {
        told.iter().filter(|told| **told).count()
    };
    Ok(Run { sheet, time, told, reached })
}

fn search(case: &Case, steps: &Steps) -> Result<Sheet, Refusal> {
    let targets = || case.bytes(Role::Targets);
    let times = || case.floats(Role::Times);
    let values = || case.floats(Role::Values);
    match case.search {
        Search::DistancesUpTo => haul::distances_up_to(targets(), case.cell_size(), case.limit),
        Search::DistanceWithObstacles => {
            haul::distance_with_obstacles(targets(), case.bytes(Role::Obstacles), case.cell_size(), case.diagonals)
        }
        Search::TravelDistancesUpTo => haul::travel_distances_up_to(targets(), times(), case.limit),
        Search::ValueAtClosestTarget
        | Search::ValueAtClosestTravelTarget
        | Search::ValueAtClosestLessThanTravelTarget => value_at_closest(case, values()),
        Search::SumWithinTravelDistance if steps.are_heard() => sum_in_batches(case, steps),
        Search::SumWithinTravelDistance => {
            haul::sum_within_travel_distance(case.bytes(Role::Mask), times(), values(), case.limit, case.adjacent)
        }
        Search::SumTargetsWithinTravelDistance => {
            haul::sum_targets_within_travel_distance(times(), case.floats(Role::Amounts), case.limit)
        }
    }
}

/// Search 7, telling how many mask cells are done.
fn sum_in_batches(case: &Case, steps: &Steps) -> Result<Sheet, Refusal> {
    let (mask, times, values) = (case.bytes(Role::Mask), case.floats(Role::Times), case.floats(Role::Values));
    let start = Instant::now();
    let done = |done, all| telling::mask_cells(done, all, start.elapsed(), steps);
    batches::sum_within_travel_distance(mask, times, values, case.limit, case.adjacent, done)
}

/// Searches 4, 5 and 6 with these values.
fn value_at_closest(case: &Case, values: Grid<f32>) -> Result<Sheet, Refusal> {
    let targets = case.bytes(Role::Targets);
    match case.search {
        Search::ValueAtClosestTarget => haul::value_at_closest_target(targets, values),
        Search::ValueAtClosestTravelTarget => {
            haul::value_at_closest_travel_target(targets, case.floats(Role::Times), values)
        }
        _ => haul::value_at_closest_less_than_travel_target(targets, case.floats(Role::Times), values, case.limit),
    }
}

/// For each cell whether the sheet says something about it.
fn told(case: &Case, sheet: &Sheet) -> Result<Vec<bool>, Refusal> {
    let below = |end: f32| sheet.cells.iter().map(|cell| *cell < end).collect::<Vec<bool>>();
    Ok(match case.search {
        Search::DistancesUpTo => with_targets(case, sheet, below(case.limit * case.cell_size())),
        Search::DistanceWithObstacles => below(f32::INFINITY),
        Search::TravelDistancesUpTo => with_targets(case, sheet, below(case.limit)),
        Search::ValueAtClosestTarget
        | Search::ValueAtClosestTravelTarget
        | Search::ValueAtClosestLessThanTravelTarget => value_came(case)?,
        Search::SumWithinTravelDistance => {
            case.bytes(Role::Mask).cells.iter().map(|byte| case.search.starts_at(*byte)).collect()
        }
        Search::SumTargetsWithinTravelDistance => sheet.cells.iter().map(|sum| *sum != 0.0).collect(),
    })
}

/// A target is reached whatever the limit is, unless the sheet has nodata there.
fn with_targets(case: &Case, sheet: &Sheet, mut told: Vec<bool>) -> Vec<bool> {
    for ((told, byte), cell) in told.iter_mut().zip(case.bytes(Role::Targets).cells).zip(&sheet.cells) {
        *told |= case.search.starts_at(*byte) && !cell.is_nan();
    }
    told
}

/// The cells that a value came to. A cell that holds 0 may have been given a 0 or nothing, so the search is run with
/// the value 1 wherever there is one, which shows it.
fn value_came(case: &Case) -> Result<Vec<bool>, Refusal> {
    let values = case.floats(Role::Values);
    let bars = case.search.starts_at_nodata();
    let ones: Vec<f32> = values.cells.iter().map(|value| if bars && value.is_nan() { f32::NAN } else { 1.0 }).collect();
    let sheet = value_at_closest(case, Grid::new(values.rows, values.columns, &ones))?;
    Ok(sheet.cells.iter().map(|cell| *cell == 1.0).collect())
}

/// How many cells search 7 reached from any mask cell: its steps are those of search 3, but a cell whose mask is nodata
/// may be entered, and a mask cell whose time is nodata reaches itself.
fn reached_from_mask(case: &Case) -> Result<usize, Refusal> {
    let mask = case.bytes(Role::Mask);
    let starts: Vec<u8> = mask.cells.iter().map(|byte| u8::from(case.search.starts_at(*byte))).collect();
    let times = case.floats(Role::Times);
    let sheet = haul::travel_distances_up_to(Grid::new(mask.rows, mask.columns, &starts), times, f32::INFINITY)?;
    let reached = sheet.cells.iter().zip(&starts).filter(|(cell, start)| **cell < f32::INFINITY || **start == 1);
    Ok(reached.count())
}
