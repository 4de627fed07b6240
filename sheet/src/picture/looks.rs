//! What each dot of the map shows.
use search::{Role, Search};

use crate::grids::{Case, Cells};
use crate::picture::canvas::{Area, BLACK, Canvas, Colour, GREY, WHITE};
use crate::picture::key::Key;
use crate::picture::view::View;
use crate::searches::Run;

/// Ground that search 7 was not asked about.
const PALE: Colour = [226, 226, 226];
/// Every so many pixels nodata has a slanting line.
const HATCH: usize = 4;

/// How a dot is drawn.
#[derive(Clone, Copy, Debug, PartialEq)]
pub enum Look {
    NotChosen,
    Nodata,
    Unreached,
    /// The sheet tells this number.
    Told(f32),
    Obstacle,
}

/// The look of each dot. Where cells share one, an obstacle shows before all else, so that no ditch vanishes; then the
/// greatest number, so that nothing that the sheet tells vanishes and no way looks shorter than it is.
pub fn of_dots(case: &Case, run: &Run, view: &View) -> Vec<Look> {
    let mut looks = vec![Look::NotChosen; view.dots()];
    for cell in 0..run.sheet.cells.len() {
        let dot = view.dot_of(cell);
        looks[dot] = looks[dot].or(of_cell(case, run, cell));
    }
    looks
}

/// The look of one cell.
pub fn of_cell(case: &Case, run: &Run, cell: usize) -> Look {
    let number = run.sheet.cells[cell];
    if is_obstacle(case, cell) {
        Look::Obstacle
    } else if case.search == Search::SumWithinTravelDistance && !run.told[cell] {
        Look::NotChosen
    } else if number.is_nan() {
        Look::Nodata
    } else if run.told[cell] {
        Look::Told(number)
    } else {
        Look::Unreached
    }
}

/// An obstacle is any byte but 0: nodata is one too.
fn is_obstacle(case: &Case, cell: usize) -> bool {
    match case.layer(Role::Obstacles).map(|layer| &layer.cells) {
        Some(Cells::Bytes(obstacles)) => obstacles[cell] != 0,
        _ => false,
    }
}

impl Look {
    /// The one of two that shows.
    fn or(self, other: Look) -> Look {
        match (self, other) {
            (Look::Told(one), Look::Told(other)) => Look::Told(one.max(other)),
            _ if self.rank() >= other.rank() => self,
            _ => other,
        }
    }

    /// Of two looks the one with the higher rank shows.
    fn rank(self) -> u8 {
        match self {
            Look::NotChosen => 0,
            Look::Nodata => 1,
            Look::Unreached => 2,
            Look::Told(_) => 3,
            Look::Obstacle => 4,
        }
    }

    /// Fills a rectangle with it.
    pub fn draw(self, canvas: &mut Canvas, area: Area, key: &Key) {
        match self {
            Look::NotChosen => canvas.fill(area, PALE),
            Look::Nodata => canvas.fill_with(area, |x, y| if (x + y) % HATCH == 0 { GREY } else { WHITE }),
            Look::Unreached => canvas.fill(area, WHITE),
            Look::Told(number) => canvas.fill(area, key.colour(number)),
            Look::Obstacle => canvas.fill(area, BLACK),
        }
    }
}
