//! The oracle: the Rust of docs/src, asked in document 01's terms.
//!
//! `answer` judges a case by document 01's refusals and hands it to the Rust if none applies. The answer grid comes
//! from the text as it stands; the takes come from the build that counts them, whose grid must be the same.
//!
//! Two readings of nodata in f32 grids can be asked for. Document 01 says that any NaN is nodata. In the repository
//! `index_has_data` compares with NaN by `!=`, which is true of every value, so that a NaN cell has data.

mod refusals;

pub use refusals::refusal;
pub use unchanged::searches::Rasters;

use std::panic::{AssertUnwindSafe, catch_unwind, resume_unwind};
use std::sync::Once;

use case::{Answer, Case, Search, bits_with_one_nan, gridfile};

// The same two files for either build: they are the driver's half of a crate that is there twice.
#[allow(clippy::duplicate_mod)]
#[path = "text"]
mod unchanged {
    use geo as text;

    pub mod pixel;
    pub mod searches;
}

#[allow(clippy::duplicate_mod)]
#[path = "text"]
mod counted {
    use geo_counted as text;

    pub mod pixel;
    pub mod searches;
}

/// The two builds of the text.
#[derive(Clone, Copy, Debug, PartialEq, Eq)]
pub enum Build {
    /// The grid of the text as it stands, with the takes of the other build.
    Unchanged,
    /// The build with one line added, which counts takes.
    Counted,
}

/// What counts as nodata in an f32 grid.
#[derive(Clone, Copy, Debug, PartialEq, Eq)]
pub enum Reading {
    /// Any NaN, as document 01 says.
    Document,
    /// Nothing for `cell_is_nodata`, any NaN for `is_nodata` and `value`, as the repository's code says.
    Repository,
}

/// An answer of the text, whose type differs from search to search.
pub trait Cells {
    fn cells(&self) -> &[f32];
}

/// What search 7's `assert!` panics with.
const OVER_BUDGET: &str = "assertion failed: distance_to_target[cell] <= max_travel_time";

/// What the program `haul` must write for these bytes.
pub fn answer_file(input: &[u8], build: Build) -> Vec<u8> {
    let answered = match gridfile::read(input) {
        Ok(case) => answer(&case, build, Reading::Document),
        Err(gridfile::NotAFile) => Answer::Refused { number: 8, index: None },
    };
    gridfile::write_answer(&answered)
}

/// The answer to a case of any size that document 01 allows.
pub fn answer(case: &Case, build: Build, reading: Reading) -> Answer {
    if let Some(refused) = refusal(case) {
        refusals::hold_to_the_text(case, &refused);
        return refused;
    }
    let Some((grid, takes)) = counted_run(case, reading) else { return refusal_7(case, reading) };
    let grid = match build {
        Build::Counted => grid,
        Build::Unchanged => match text_alone(case, reading) {
            Text::Gives(grid) => grid,
            other => panic!("the counted build gives a grid, the unchanged one {other:?}"),
        },
    };
    Answer::Accepted { takes, grid: grid.into_iter().map(bits_with_one_nan).collect() }
}

/// What the text gives with none of document 01's refusals before it. The grids must have their sizes' number of cells.
pub fn text_alone(case: &Case, reading: Reading) -> Text {
    match asserted(|| unchanged::searches::run(case, reading)) {
        None => Text::Panics,
        Some(Err(_)) => Text::Refuses,
        Some(Ok(grid)) => Text::Gives(grid),
    }
}

/// What a call of the text came to.
#[derive(Clone, Debug, PartialEq)]
pub enum Text {
    Gives(Vec<f32>),
    /// An `Err`.
    Refuses,
    /// Search 7's `assert!`.
    Panics,
}

fn counted_run(case: &Case, reading: Reading) -> Option<(Vec<f32>, u64)> {
    geo_counted::takes::counted();
    let grid = asserted(|| counted::searches::run(case, reading))?.expect("the text refuses only what was refused");
    Some((grid, geo_counted::takes::counted()))
}

/// Search 7's `assert!` names no cell: each mask cell is run alone, in row order, until one fails.
fn refusal_7(case: &Case, reading: Reading) -> Answer {
    let mask = case.targets.as_ref().filter(|_| case.search == Search::SumWithinTravelDistance);
    let mask = &mask.expect("search 7 alone fails its assert").cells;
    let fails = |&index: &usize| {
        let mut alone = case.clone();
        let cells = &mut alone.targets.as_mut().expect("the mask is there").cells;
        cells.fill(0);
        cells[index] = mask[index];
        text_alone(&alone, reading) == Text::Panics
    };
    let index = (0..mask.len()).filter(|&index| mask[index] != 0 && mask[index] != 255).find(fails);
    let index = index.expect("a mask cell fails alone where it fails among others");
    Answer::Refused { number: 7, index: Some(index.try_into().expect("an index of at most 1,048,576 cells")) }
}

/// The result of a call, or `None` where it fails search 7's `assert!`, which is then not printed. Any other panic goes
/// on.
fn asserted<T>(call: impl FnOnce() -> T) -> Option<T> {
    static HOOK: Once = Once::new();
    HOOK.call_once(|| {
        let print = std::panic::take_hook();
        std::panic::set_hook(Box::new(move |panic| {
            if panic.payload().downcast_ref() != Some(&OVER_BUDGET) {
                print(panic);
            }
        }));
    });
    match catch_unwind(AssertUnwindSafe(call)) {
        Ok(result) => Some(result),
        Err(payload) if payload.downcast_ref() == Some(&OVER_BUDGET) => None,
        Err(payload) => resume_unwind(payload),
    }
}
