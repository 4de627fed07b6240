//! The library's refusals as sentences about the files that were given.
use haul::{Place, Refusal};
use search::Role;

use crate::grids::Case;
use crate::numbers::shortest;

/// Why there is no sheet, with the file, the row and the column that it is about.
pub fn sentence(refusal: Refusal, case: &Case) -> String {
    let first = case.first().path.display();
    match refusal {
        Refusal::BadCellSize => {
            format!("the cell size {} of {first} is not a finite number above 0", case.first().place.cell_size)
        }
        Refusal::BadLimit if case.limit.is_nan() => "--limit nan is no limit".to_owned(),
        Refusal::BadLimit => format!("--limit {} is a budget here and must be above 0", shortest(case.limit)),
        Refusal::NegativeTime(place) => format!("time below 0 at {}", at(place, Role::Times, case)),
        Refusal::OverBudget(place) => format!(
            "the budget of {} is too small: a cell is reached only above it from the mask cell at {}",
            shortest(case.limit),
            at(place, Role::Mask, case)
        ),
        // Sizes and lengths were looked at when the files were read; the words are the library's.
        other => format!("{first}: {other}"),
    }
}

/// The place as a planner counts, from 1, in the file with this role.
fn at(place: Place, role: Role, case: &Case) -> String {
    let file = case.layer(role).map_or(String::new(), |layer| format!(" of {}", layer.path.display()));
    format!("row {}, column {}{file}", place.row + 1, place.column + 1)
}
