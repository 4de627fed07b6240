//! How a grid's cells lie on the map.
//!
//! The map is made of dots. A dot is a cell drawn with one or more pixels, or on the side of a very long grid a pixel
//! that several cells share. Only the long side is drawn so: the short one has at most 291 cells then, and would be a
//! thread if it shrank along.
use crate::picture::canvas::Area;

/// Small grids are drawn with cells of several pixels, so that the longer side has about so many.
const MAP_SIDE: usize = 640;
const CELL_MOST: usize = 32;
/// The most pixels of a side. With legend, title and margins a picture stays within 4,000.
const SIDE_MOST: usize = 3600;
/// The short side of a very long grid has about so many pixels.
const SHORT_SIDE: usize = 64;

/// One side of the map.
#[derive(Clone, Copy, Debug, PartialEq)]
pub struct Side {
    pub cells: usize,
    /// The cells that share a dot.
    pub shared: usize,
    /// The pixels of a dot.
    pub pixels: usize,
}

/// The map's two sides, and the pixel at which it begins.
#[derive(Clone, Copy, Debug, PartialEq)]
pub struct View {
    pub x: usize,
    pub y: usize,
    pub across: Side,
    pub down: Side,
}

impl Side {
    /// A side of this many cells, where the longer side has `longest`.
    fn new(cells: usize, longest: usize) -> Side {
        let pixels = match longest {
            _ if longest <= SIDE_MOST => (MAP_SIDE / longest).clamp(1, CELL_MOST),
            _ if cells == longest => 1,
            _ => (SHORT_SIDE / cells).clamp(1, CELL_MOST),
        };
        Side { cells, shared: cells.div_ceil(SIDE_MOST), pixels }
    }

    /// How many dots it has.
    fn dots(self) -> usize {
        self.cells.div_ceil(self.shared)
    }

    /// How many pixels a cell has along this side.
    pub fn pixels_of_cell(self) -> f64 {
        self.pixels as f64 / self.shared as f64
    }
}

impl View {
    /// A grid of at least one cell, drawn from this pixel on.
    pub fn new(x: usize, y: usize, rows: usize, columns: usize) -> View {
        let longest = rows.max(columns);
        View { x, y, across: Side::new(columns, longest), down: Side::new(rows, longest) }
    }

    /// The pixels of the map.
    pub fn map(&self) -> Area {
        let [width, height] = [self.across, self.down].map(|side| side.dots() * side.pixels);
        Area { x: self.x, y: self.y, width, height }
    }

    /// How many dots the map has.
    pub fn dots(&self) -> usize {
        self.across.dots() * self.down.dots()
    }

    /// The dot that a cell is drawn by.
    pub fn dot_of(&self, cell: usize) -> usize {
        let (row, column) = (cell / self.across.cells, cell % self.across.cells);
        row / self.down.shared * self.across.dots() + column / self.across.shared
    }

    /// The pixels of a dot.
    pub fn area(&self, dot: usize) -> Area {
        let (down, right) = (dot / self.across.dots(), dot % self.across.dots());
        let (width, height) = (self.across.pixels, self.down.pixels);
        Area { x: self.x + right * width, y: self.y + down * height, width, height }
    }
}
