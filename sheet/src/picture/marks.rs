//! Marks: targets as diamonds, and the chosen cells of search 7 as squares in their own colours.
use search::Role;

use crate::grids::{Case, Cells};
use crate::picture::canvas::{Area, BLACK, Canvas, Colour, WHITE};
use crate::picture::key::Key;
use crate::picture::looks::Look;
use crate::picture::view::View;

/// A mark's width: a few must be seen on a large map, and many must not cover it.
const DIAMOND_MOST: usize = 15;
const DIAMOND_LEAST: usize = 3;
const SQUARE_MOST: usize = 11;
/// All marks together may cover this part of the map, one pixel in so many.
const COVERED: usize = 20;

/// The marks of targets.
#[derive(Clone, Copy, Debug, PartialEq)]
pub enum Targets {
    None,
    /// Diamonds of this width.
    Marked(usize),
    /// Diamonds would cover the map.
    TooMany,
}

/// Draws the marks that the search has, over dots of these looks.
pub fn draw(canvas: &mut Canvas, view: &View, case: &Case, looks: &[Look], key: &Key) {
    let dots: Vec<usize> = starts(case).into_iter().map(|cell| view.dot_of(cell)).collect();
    if case.first().role == Role::Mask {
        draw_squares(canvas, view, &dots, looks, key);
    } else {
        let areas = dots.iter().map(|dot| view.area(*dot));
        match targets(view, case) {
            Targets::Marked(width) => draw_diamonds(canvas, areas, width),
            Targets::None | Targets::TooMany => {}
        }
    }
}

/// The cells that the search starts at: targets or mask cells. Search 8 has none, as amounts may be everywhere.
fn starts(case: &Case) -> Vec<usize> {
    match &case.first().cells {
        Cells::Bytes(cells) => (0..cells.len()).filter(|cell| case.search.starts_at(cells[*cell])).collect(),
        Cells::Floats(_) => Vec::new(),
    }
}

/// How the targets are marked.
pub fn targets(view: &View, case: &Case) -> Targets {
    if case.first().role == Role::Mask {
        return Targets::None;
    }
    let count = starts(case).len();
    // Half of a large cell can be covered, as its colour is still seen.
    let half = (view.across.pixels.min(view.down.pixels) / 2) | 1;
    match width(view, count, DIAMOND_MOST) {
        _ if count == 0 => Targets::None,
        0 => Targets::TooMany,
        width => Targets::Marked(width.max(half).clamp(DIAMOND_LEAST, DIAMOND_MOST)),
    }
}

/// The width of each of so many marks, an odd number; 0 where not even a pixel each has room.
fn width(view: &View, count: usize, most: usize) -> usize {
    let map = view.map();
    let room = map.width * map.height / (COVERED * count.max(1));
    let width = room.isqrt().min(most);
    width.saturating_sub(1 - width % 2)
}

/// Squares in the colours of their sums, with a black edge, where they are larger than their dots. Edges come first and
/// the dots themselves last, so that none is hidden under its neighbour's square.
fn draw_squares(canvas: &mut Canvas, view: &View, dots: &[usize], looks: &[Look], key: &Key) {
    let width = width(view, dots.len(), SQUARE_MOST);
    let are_seen = view.across.pixels.min(view.down.pixels) + 2 >= width;
    if are_seen {
        return;
    }
    let square = |dot: usize| view.area(dot).square(width).moved_into(view.map());
    for dot in dots {
        canvas.fill(square(*dot), BLACK);
    }
    for dot in dots {
        looks[*dot].draw(canvas, square(*dot).narrower(1), key);
    }
    for dot in dots {
        looks[*dot].draw(canvas, view.area(*dot), key);
    }
}

/// White diamonds with a black edge around the middles of rectangles, told apart by their shape as well. All edges come
/// first, so that targets in a row are a white line and no black one, which would look like a ditch.
pub fn draw_diamonds(canvas: &mut Canvas, around: impl Iterator<Item = Area> + Clone, width: usize) {
    let reach = width / 2;
    for area in around.clone() {
        fill_diamond(canvas, area, reach, BLACK);
    }
    for area in around {
        fill_diamond(canvas, area, reach.saturating_sub(2), WHITE);
    }
}

/// Fills a diamond around the middle of a rectangle.
fn fill_diamond(canvas: &mut Canvas, around: Area, reach: usize, colour: Colour) {
    let (x, y) = (around.x + around.width / 2, around.y + around.height / 2);
    for down in 0..=2 * reach {
        for right in 0..=2 * reach {
            if down.abs_diff(reach) + right.abs_diff(reach) <= reach {
                canvas.set((x + right).wrapping_sub(reach), (y + down).wrapping_sub(reach), colour);
            }
        }
    }
}
