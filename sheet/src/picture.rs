//! The picture of a sheet: a title, the map, a legend beside it and a scale bar below.
pub mod canvas;
pub mod classes;
pub mod key;
pub mod legend;
pub mod letters;
pub mod looks;
pub mod marks;
pub mod ramp;
pub mod round;
pub mod scale_bar;
pub mod view;

use haul::BarrierDiagonals;

use crate::grids::Case;
use crate::searches::Run;
use canvas::Canvas;
use key::Key;
use legend::Legend;
use looks::Look;
use scale_bar::ScaleBar;
use view::View;

/// Between two parts of the picture, and around all of them.
const GAP: usize = 16;

/// Draws the sheet as a PNG file.
pub fn draw(case: &Case, run: &Run) -> Result<Vec<u8>, String> {
    let [rows, columns] = [run.sheet.rows, run.sheet.columns].map(|side| usize::try_from(side).unwrap_or(0));
    if rows == 0 || columns == 0 {
        return Err("a grid without cells has no picture".to_owned());
    }
    let view = View::new(GAP, GAP + letters::LINE + GAP, rows, columns);
    let key = Key::of(case, run);
    let looks = looks::of_dots(case, run, &view);
    let legend = Legend::new(case, &view, &looks, &key);
    put_together(case, &view, &looks, &legend, &key).png()
}

/// All parts on one canvas that is as large as they need.
fn put_together(case: &Case, view: &View, looks: &[Look], legend: &Legend, key: &Key) -> Canvas {
    let title = title(case);
    let bar = ScaleBar::new(case, view);
    let map = view.map();
    let legend_x = map.x + map.width.max(bar.as_ref().map_or(0, ScaleBar::width)) + GAP;
    let bar_y = map.y + map.height + GAP / 2;
    let width = (legend_x + legend.width()).max(GAP + letters::width(&title)) + GAP;
    let height = (bar_y + bar.as_ref().map_or(0, |_| scale_bar::HEIGHT)).max(map.y + legend.height()) + GAP;

    let mut canvas = Canvas::new(width, height);
    canvas.text(GAP, GAP, &title);
    for (dot, look) in looks.iter().enumerate() {
        look.draw(&mut canvas, view.area(dot), key);
    }
    canvas.frame(map);
    marks::draw(&mut canvas, view, case, looks, key);
    legend.draw(&mut canvas, legend_x, map.y);
    if let Some(bar) = bar {
        bar.draw(&mut canvas, map.x, bar_y);
    }
    canvas
}

/// The command's name, and with obstacles whether a machine can go between two that meet at a corner.
fn title(case: &Case) -> String {
    let diagonals = match case.diagonals {
        _ if !case.search.has_diagonals() => "",
        BarrierDiagonals::Include => ", diagonals include",
        BarrierDiagonals::Exclude => ", diagonals exclude",
    };
    format!("{}{diagonals}", case.name)
}
