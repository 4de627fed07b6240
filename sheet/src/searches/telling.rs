//! What a search tells of itself while it lasts.
use std::time::Duration;

use haul::Refusal;
use search::{Role, Search};

use crate::grids::Case;
use crate::numbers::thousands;
use crate::searches::progress::{Step, Steps};
use crate::searches::{batches, estimates};

/// What is told once an estimate of a search's own has passed.
const LONGER: &str = "longer than estimated";

/// Tells what a search may last. Search 7 tells that with each batch; search 8 tries a few amounts for it, and is
/// refused for them as for all.
pub fn before(case: &Case, steps: &Steps) -> Result<(), Refusal> {
    match case.search {
        Search::SumWithinTravelDistance => {
            let all = batches::mask_cells(case.bytes(Role::Mask)).len();
            steps.say(Step { what: of_mask_cells(0, all), left: None, passed: "" });
        }
        Search::SumTargetsWithinTravelDistance => {
            let (times, amounts) = (case.floats(Role::Times), case.floats(Role::Amounts));
            let count = estimates::amounts_that_count(times, amounts).len();
            let what = format!("{} amounts", thousands(count as u64));
            steps.say(Step { what: what.clone(), left: None, passed: "" });
            let left = estimates::of_amounts(times, amounts, case.limit)?;
            steps.say(Step { what, left, passed: LONGER });
        }
        search => {
            let left = estimates::of_cells(search, case.first().cells.len());
            steps.say(Step { what: String::new(), left, passed: "this ground takes longer than most" });
        }
    }
    Ok(())
}

/// Tells how many mask cells of search 7 are done, at least one, after this time. Each of the rest may last as long as
/// one of them did, and so may the run that follows.
pub fn mask_cells(done: usize, all: usize, time: Duration, steps: &Steps) {
    let left = time.mul_f64((all - done + 1) as f64 / done as f64);
    steps.say(Step { what: of_mask_cells(done, all), left: Some(left), passed: LONGER });
}

/// How far search 7 is, in words.
fn of_mask_cells(done: usize, all: usize) -> String {
    format!("{} of {} mask cells", thousands(done as u64), thousands(all as u64))
}

/// Tells of the run that follows a search, which lasted so long: searches 4 to 6 are run again, search 7 is followed by
/// a search from all mask cells at once.
pub fn after(case: &Case, time: Duration, steps: &Steps) {
    let (what, left) = match case.search {
        Search::ValueAtClosestTarget
        | Search::ValueAtClosestTravelTarget
        | Search::ValueAtClosestLessThanTravelTarget => ("once more, to see where a value came", time),
        Search::SumWithinTravelDistance => {
            let all = batches::mask_cells(case.bytes(Role::Mask)).len();
            ("all mask cells, counting what they reach", time.div_f64(all.max(1) as f64))
        }
        _ => return,
    };
    steps.say(Step { what: what.to_owned(), left: Some(left), passed: LONGER });
}
