//! A case through the crate's safe functions.
use case::{Answer, Case, Diagonals, Search, Search::*};
use haul::{BarrierDiagonals, Refusal, Sheet};

use crate::view;

pub fn answer(case: &Case) -> Answer {
    match sheet(case) {
        Ok(sheet) => {
            assert_eq!((sheet.rows, sheet.columns), case.size());
            Answer::Accepted { takes: sheet.takes, grid: sheet.cells.iter().map(|cell| cell.to_bits()).collect() }
        }
        Err(refusal) => {
            let number = refusal.number().try_into().expect("refusals are 1 to 7");
            Answer::Refused { number, index: index(case, refusal) }
        }
    }
}

/// The case's safe function as it is.
pub fn sheet(case: &Case) -> Result<Sheet, Refusal> {
    let (targets, obstacles) = (|| view(&case.targets), || view(&case.obstacles));
    let (times, values) = (|| view(&case.times), || view(&case.values));
    let limit = case.limit;
    match case.search {
        DistancesUpTo => haul::distances_up_to(targets(), case.cell_size, limit),
        DistanceWithObstacles => {
            let diagonals = match case.diagonals {
                Diagonals::Include => BarrierDiagonals::Include,
                Diagonals::Exclude => BarrierDiagonals::Exclude,
            };
            haul::distance_with_obstacles(targets(), obstacles(), case.cell_size, diagonals)
        }
        TravelDistancesUpTo => haul::travel_distances_up_to(targets(), times(), limit),
        ValueAtClosestTarget => haul::value_at_closest_target(targets(), values()),
        ValueAtClosestTravelTarget => haul::value_at_closest_travel_target(targets(), times(), values()),
        ValueAtClosestLessThanTravelTarget => {
            haul::value_at_closest_less_than_travel_target(targets(), times(), values(), limit)
        }
        SumWithinTravelDistance => haul::sum_within_travel_distance(targets(), times(), values(), limit, case.adjacent),
        SumTargetsWithinTravelDistance => haul::sum_targets_within_travel_distance(times(), values(), limit),
    }
}

/// The index that a refusal has, whose row and column must be the index's.
fn index(case: &Case, refusal: Refusal) -> Option<u32> {
    let place = match refusal {
        Refusal::NegativeTime(place) | Refusal::OverBudget(place) => place,
        _ => return None,
    };
    let (rows, columns) = case.size();
    assert!(
        (place.row as i32) < rows && (place.column as i32) < columns,
        "{place} is in no grid of {rows} by {columns}"
    );
    assert_eq!(place.row * columns as u32 + place.column, place.index);
    assert!(case.search == Search::SumWithinTravelDistance || refusal.number() == 6, "7 is search 7's alone");
    Some(place.index)
}
