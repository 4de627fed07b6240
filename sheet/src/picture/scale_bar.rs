//! The scale bar below the map: a round length of the ground, and its name.
use crate::grids::Case;
use crate::picture::canvas::{Area, BLACK, Canvas};
use crate::picture::letters;
use crate::picture::round;
use crate::picture::view::View;

/// The bar is about this part of the map's width, but on a small map about so many pixels, where it has them.
const PART: f64 = 0.25;
const SMALL: f64 = 60.0;
/// Its line, and the ends that stand up from it.
const LINE: usize = 2;
const END: usize = 8;
const GAP: usize = 8;
pub const HEIGHT: usize = letters::LINE;

/// A bar of so many pixels, and what it says.
#[derive(Debug, PartialEq)]
pub struct ScaleBar {
    pub pixels: usize,
    pub label: String,
}

impl ScaleBar {
    /// The bar for a map; none where the cell size is no length. The searches for times, values and sums do not look at
    /// it, so it may be anything there.
    pub fn new(case: &Case, view: &View) -> Option<ScaleBar> {
        let cell_size = f64::from(case.cell_size());
        if !(cell_size > 0.0 && cell_size.is_finite()) {
            return None;
        }
        let pixel = cell_size / view.across.pixels_of_cell();
        let width = view.map().width as f64;
        let most = cell_size * view.across.cells as f64;
        let wanted = ((width * PART).max(SMALL.min(width)) * pixel).min(most);
        let length = round::nearest(wanted, most);
        let only = if view.down.shared == view.across.shared { "" } else { " across" };
        let label = format!("{} {}{only}", round::written(length), case.length_unit());
        Some(ScaleBar { pixels: (length / pixel).round() as usize, label })
    }

    /// The pixels that the bar and its label take.
    pub fn width(&self) -> usize {
        self.pixels + GAP + letters::width(&self.label)
    }

    /// Draws it with its corner at this pixel.
    pub fn draw(&self, canvas: &mut Canvas, x: usize, y: usize) {
        let bottom = y + letters::MIDDLE + END / 2;
        canvas.fill(Area { x, y: bottom - LINE, width: self.pixels, height: LINE }, BLACK);
        for end in [x, (x + self.pixels).saturating_sub(LINE)] {
            canvas.fill(Area { x: end, y: bottom - END, width: LINE, height: END }, BLACK);
        }
        canvas.text(x + self.pixels + GAP, y, &self.label);
    }
}
