//! Search 7 with its mask cells in batches, so that it can be said how many are done.
use std::time::{Duration, Instant};

use haul::{Grid, Refusal, Sheet, Workspace};
use search::Search;

/// What a batch is to last.
const BATCH: Duration = Duration::from_millis(200);
/// A batch has at most so many times the cells of the one before, as mask cells may cost more than those before them.
const GROWTH_MAX: usize = 4;

/// The mask cells, in row order.
pub fn mask_cells(mask: Grid<u8>) -> Vec<usize> {
    let starts = |at: &usize| Search::SumWithinTravelDistance.starts_at(mask.cells[*at]);
    (0..mask.cells.len()).filter(starts).collect()
}

/// Search 7, with the bits of one call. Each mask cell is searched from by itself, and other cells hold 0, so a batch's
/// sums are those of the whole. Batches come in row order, so the first to be refused for its budget has the mask cell
/// that one call would name; all other refusals are those of the first batch. `done` hears how many are done of all.
pub fn sum_within_travel_distance(
    mask: Grid<u8>,
    times: Grid<f32>,
    values: Grid<f32>,
    limit: f32,
    include_adjacent: bool,
    mut done: impl FnMut(usize, usize),
) -> Result<Sheet, Refusal> {
    let starts = mask_cells(mask);
    let mut workspace = Workspace::new();
    let mut asked = mask.cells.to_vec();
    starts.iter().for_each(|cell| asked[*cell] = 0);
    let mut answer = vec![0.0; asked.len()];
    let mut sheet = Sheet { rows: mask.rows, columns: mask.columns, cells: answer.clone(), takes: 0 };
    let (mut rest, mut size) = (&starts[..], 1);
    // Where there is no mask cell one batch of none finds what is to be refused.
    loop {
        let start = Instant::now();
        let (batch, after) = rest.split_at(size.min(rest.len()));
        batch.iter().for_each(|cell| asked[*cell] = mask.cells[*cell]);
        let asked_now = Grid::new(mask.rows, mask.columns, &asked);
        let takes =
            workspace.sum_within_travel_distance(asked_now, times, values, limit, include_adjacent, &mut answer)?;
        sheet.takes = sheet.takes.saturating_add(takes);
        for cell in batch {
            sheet.cells[*cell] = answer[*cell];
            asked[*cell] = 0;
        }
        if after.is_empty() {
            return Ok(sheet);
        }
        rest = after;
        size = next_size(batch.len(), start.elapsed());
        done(starts.len() - rest.len(), starts.len());
    }
}

/// So many cells as last as long as a batch should, if they cost what the last ones did.
fn next_size(last: usize, lasted: Duration) -> usize {
    let fits = last as f64 * BATCH.as_secs_f64() / lasted.as_secs_f64().max(1e-6);
    (fits as usize).clamp(1, last * GROWTH_MAX)
}
