//! Which colour a number of the sheet has.
use search::Search;

use crate::grids::Case;
use crate::picture::canvas::Colour;
use crate::picture::classes;
use crate::picture::ramp;
use crate::searches::Run;

/// Sums may overflow, and values may be infinite: these have no place on the ramp.
pub const INFINITE: Colour = [176, 36, 112];

/// The colours of the numbers that a sheet tells, infinities apart.
#[derive(Debug, PartialEq)]
pub enum Key {
    /// There are none.
    Nothing,
    /// There is one alone, or they are few identifiers.
    Classes(Vec<f32>),
    Ramp(Range),
}

/// The least and the greatest of them.
#[derive(Clone, Copy, Debug, PartialEq)]
pub struct Range {
    pub least: f32,
    pub greatest: f32,
}

impl Key {
    /// The key to a sheet.
    pub fn of(case: &Case, run: &Run) -> Key {
        let told = || run.sheet.cells.iter().zip(&run.told).filter(|(_, told)| **told).map(|(cell, _)| *cell);
        let finite = || told().filter(|number| number.is_finite());
        let are_identifiers = has_identifiers(case.search)
            && told().all(|number| number.is_nan() || (number.is_finite() && number.fract() == 0.0));
        match classes::different(finite()) {
            Some(found) if found.is_empty() => Key::Nothing,
            Some(found) if found.len() == 1 || are_identifiers => Key::Classes(found),
            _ => Key::Ramp(Range::of(finite())),
        }
    }

    /// The colour of a number that the sheet tells.
    pub fn colour(&self, number: f32) -> Colour {
        match self {
            Key::Classes(classes) if number.is_finite() => classes::colour(classes, number),
            Key::Ramp(range) if number.is_finite() => ramp::colour(range.part(number)),
            _ => INFINITE,
        }
    }
}

/// Searches 4 to 6, whose values may be the numbers of landings.
fn has_identifiers(search: Search) -> bool {
    matches!(
        search,
        Search::ValueAtClosestTarget | Search::ValueAtClosestTravelTarget | Search::ValueAtClosestLessThanTravelTarget
    )
}

impl Range {
    /// The range of these numbers.
    fn of(numbers: impl Iterator<Item = f32>) -> Range {
        let empty = Range { least: f32::INFINITY, greatest: f32::NEG_INFINITY };
        numbers
            .fold(empty, |range, number| Range { least: range.least.min(number), greatest: range.greatest.max(number) })
    }

    /// How far apart the two are.
    pub fn span(&self) -> f64 {
        f64::from(self.greatest) - f64::from(self.least)
    }

    /// Where a number lies between the least (0) and the greatest (1).
    pub fn part(&self, number: f32) -> f32 {
        ((f64::from(number) - f64::from(self.least)) / self.span()) as f32
    }
}
