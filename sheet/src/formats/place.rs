//! Where a grid lies: its size, its cells' edge, its corner and its coordinate system, whichever file it came from.
use std::collections::BTreeMap;
use std::path::PathBuf;

use haul::{Grid, Refusal};

use crate::formats::geokeys::GeoTags;

/// Two grids lie on each other if all their corners do, up to so much of a cell: programs write coordinates with more or
/// fewer digits.
const CORNERS_AGREE: f64 = 0.01;
/// A cell whose width and height differ by less than this part is square: some programs write both with rounded digits.
const SQUARE: f64 = 1e-5;
/// A difference of less than this part comes from doubles, and is not worth a word.
const NOISE: f64 = 1e-12;

/// Where a grid lies.
#[derive(Clone, Debug)]
pub struct Place {
    pub rows: i32,
    pub columns: i32,
    pub cell_size: f64,
    /// The west edge and the south edge, where the file says them.
    pub corner: Option<(f64, f64)>,
    pub source: Source,
}

/// What the file says beyond that, and in which words, so that a sheet in the same format can say the same.
#[derive(Clone, Debug)]
pub enum Source {
    /// The lines of an ESRI ASCII grid's header, by their keyword in small letters, and the .prj beside it.
    Ascii { lines: BTreeMap<String, String>, projection: Option<Projection> },
    /// The tags of a GeoTIFF that say where it lies.
    Tiff(GeoTags),
}

/// A coordinate system that stands in a file beside the grid.
#[derive(Clone, Debug)]
pub struct Projection {
    pub path: PathBuf,
    pub text: Vec<u8>,
}

/// What lengths on the map are counted in.
#[derive(Clone, Copy, Debug, PartialEq, Eq)]
pub enum Unit {
    Metres,
    Feet,
    Degrees,
}

impl Unit {
    /// The unit as it stands behind a number.
    pub fn short(self) -> &'static str {
        match self {
            Unit::Metres => "m",
            Unit::Feet => "ft",
            Unit::Degrees => "degrees",
        }
    }
}

impl Place {
    /// Metres where the file says nothing else.
    pub fn unit(&self) -> Unit {
        match &self.source {
            Source::Ascii { projection: Some(projection), .. } => projection.unit(),
            Source::Ascii { projection: None, .. } => Unit::Metres,
            Source::Tiff(tags) => tags.unit(),
        }
    }

    /// The coordinate system's name, where it is known.
    pub fn coordinate_system(&self) -> Option<String> {
        match &self.source {
            Source::Ascii { .. } => None,
            Source::Tiff(tags) => tags.code().map(|code| format!("EPSG:{code}")),
        }
    }

    /// All corners are within a hundredth of a cell. A file without corners says nothing about where its grid lies.
    pub fn lies_on(&self, other: &Place) -> bool {
        let near = |difference: f64| difference.abs() <= CORNERS_AGREE * self.cell_size.abs();
        let side = f64::from(self.rows.max(self.columns));
        let corners = match (self.corner, other.corner) {
            (Some(one), Some(other)) => near(one.0 - other.0) && near(one.1 - other.1),
            _ => true,
        };
        corners && near((self.cell_size - other.cell_size) * side)
    }
}

impl Projection {
    /// The unit of well-known text: its last, which is that of lengths where there is a projection.
    fn unit(&self) -> Unit {
        let text = String::from_utf8_lossy(&self.text).to_ascii_lowercase();
        let projected = text.trim_start().starts_with("projc");
        let last = text.rsplit("unit[\"").next().unwrap_or_default();
        match (projected, last.contains("foot") || last.starts_with("us survey")) {
            _ if text.trim_start().starts_with("geogc") => Unit::Degrees,
            (true, true) => Unit::Feet,
            _ => Unit::Metres,
        }
    }
}

/// The edge of a cell that is so wide and so high, where that is one number; the width, if they differ by rounding alone.
pub fn square_edge(width: f64, height: f64) -> Option<f64> {
    if differ_by_less(width, height, SQUARE) { Some(width) } else { None }
}

/// Whether width and height of a cell are one number, but for what doubles do to it.
pub fn is_one_number(width: f64, height: f64) -> bool {
    differ_by_less(width, height, NOISE)
}

fn differ_by_less(width: f64, height: f64, part: f64) -> bool {
    width == height || (width - height).abs() < part * width.abs()
}

/// The sentence for cells that are not square, about the file that a planner would mend.
pub fn not_square(width: f64, height: f64, file: impl std::fmt::Display) -> String {
    format!(
        "has cells that are {width} wide and {height} high, and the searches are for square cells; \
         `gdalwarp -r near -tr {width} {width} {file} square.tif` makes them square"
    )
}

/// The library's judgement on a size: it refuses one that is out of bounds before it looks at the cells, of which there
/// are none here.
pub fn judge_size(rows: i32, columns: i32) -> Result<(), String> {
    match haul::distances_up_to(Grid::new(rows, columns, &[]), 1.0, 0.0) {
        Err(refusal @ Refusal::SizeOutOfBounds) => Err(format!("says {rows} rows and {columns} columns: {refusal}")),
        _ => Ok(()),
    }
}
