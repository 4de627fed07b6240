//! Document 01's refusals 1 to 6, in its order.
use case::{Answer, Case};

use crate::{Reading, Text, text_alone};

const SIDE_MAX: i32 = 32_767;
const CELLS_MAX: i64 = 1_048_576;

/// The lowest refusal that applies before the search runs.
pub fn refusal(case: &Case) -> Option<Answer> {
    let refused = |number| Some(Answer::Refused { number, index: None });
    let grids = case.grids();
    let (rows, cols) = case.size();
    if !grids.iter().all(|&(rows, cols, _)| within_bounds(rows, cols)) {
        refused(1)
    } else if grids.iter().any(|&(r, c, _)| (r, c) != (rows, cols)) {
        refused(2)
    } else if grids.iter().any(|&(_, _, len)| len as i64 != i64::from(rows) * i64::from(cols)) {
        refused(3)
    } else if case.search.has_cell_size() && !(case.cell_size.is_finite() && case.cell_size > 0.0) {
        refused(4)
    } else if case.search.has_limit() && (case.limit.is_nan() || case.search.has_budget() && case.limit <= 0.0) {
        refused(5)
    } else {
        let index = case.times.as_ref()?.cells.iter().position(|&time| time < 0.0)?;
        Some(Answer::Refused { number: 6, index: Some(index as u32) })
    }
}

fn within_bounds(rows: i32, cols: i32) -> bool {
    let side = 0..=SIDE_MAX;
    side.contains(&rows) && side.contains(&cols) && i64::from(rows) * i64::from(cols) <= CELLS_MAX
}

/// Where the Rust has a refusal of its own, it must refuse too: 2, a budget that is not above 0, and 6 in searches 7
/// and 8. The grids that it is asked with have their sizes' number of cells.
pub fn hold_to_the_text(case: &Case, refused: &Answer) {
    let Answer::Refused { number, .. } = refused else { return };
    let its_own = match number {
        2 => case.grids().iter().all(|&(rows, cols, len)| len as i64 == i64::from(rows) * i64::from(cols)),
        5 => case.search.has_budget() && case.limit <= 0.0,
        6 => case.search.has_budget(),
        _ => false,
    };
    if its_own {
        let text = text_alone(case, Reading::Document);
        assert_eq!(text, Text::Refuses, "document 01 refuses by {number}");
    }
}
