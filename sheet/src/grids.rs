//! A search's grids, read from their files and held to each other.
use std::fs;
use std::path::{Path, PathBuf};

use haul::{BarrierDiagonals, Grid};
use search::{BYTE_NODATA, Role, Search};

use crate::formats::cells::Cell;
use crate::formats::place::Place;
use crate::formats::{asc, geotiff};
use crate::options::{Asked, Limit};

/// The inputs of one search.
#[derive(Debug)]
pub struct Case {
    /// The name by which the search was asked for.
    pub name: &'static str,
    pub search: Search,
    pub limit: f32,
    pub diagonals: BarrierDiagonals,
    pub adjacent: bool,
    pub layers: Vec<Layer>,
}

/// One of its grids.
#[derive(Debug)]
pub struct Layer {
    pub role: Role,
    pub path: PathBuf,
    pub place: Place,
    pub cells: Cells,
}

#[derive(Debug)]
pub enum Cells {
    Bytes(Vec<u8>),
    Floats(Vec<f32>),
}

impl Cells {
    pub fn len(&self) -> usize {
        match self {
            Cells::Bytes(cells) => cells.len(),
            Cells::Floats(cells) => cells.len(),
        }
    }

    pub fn is_empty(&self) -> bool {
        self.len() == 0
    }

    /// How many cells are nodata.
    pub fn count_nodata(&self) -> usize {
        match self {
            Cells::Bytes(cells) => cells.iter().filter(|cell| **cell == BYTE_NODATA).count(),
            Cells::Floats(cells) => cells.iter().filter(|cell| cell.is_nan()).count(),
        }
    }

    fn pass_nodata_as_0(&mut self) {
        match self {
            Cells::Bytes(cells) => cells.iter_mut().filter(|cell| **cell == BYTE_NODATA).for_each(|cell| *cell = 0),
            Cells::Floats(cells) => cells.iter_mut().filter(|cell| cell.is_nan()).for_each(|cell| *cell = 0.0),
        }
    }
}

impl Case {
    /// Reads the grids that are asked for.
    pub fn read(asked: &Asked) -> Result<Case, String> {
        let mut layers = Vec::new();
        for (role, path) in &asked.grids {
            layers.push(Layer::read(*role, path, asked.unreached.number())?);
        }
        for layer in &layers[1..] {
            agree(&layers[0], layer)?;
        }
        for layer in &mut layers {
            if asked.is_nodata_0(layer.role) {
                layer.cells.pass_nodata_as_0();
            }
        }
        let limit = limit_in_cells(asked.limit, &layers[0])?;
        Ok(Case {
            name: asked.name,
            search: asked.search,
            limit,
            diagonals: asked.diagonals,
            adjacent: asked.adjacent,
            layers,
        })
    }

    pub fn layer(&self, role: Role) -> Option<&Layer> {
        self.layers.iter().find(|layer| layer.role == role)
    }

    /// The first grid, which lends the sheet its place and its cell size.
    pub fn first(&self) -> &Layer {
        &self.layers[0]
    }

    pub fn cell_size(&self) -> f32 {
        self.first().place.cell_size as f32
    }

    /// The unit of the cell size and of distances.
    pub fn length_unit(&self) -> &'static str {
        self.first().place.unit().short()
    }

    /// The grid of bytes with this role, which the search has.
    pub fn bytes(&self, role: Role) -> Grid<'_, u8> {
        match self.layer(role) {
            Some(Layer { place, cells: Cells::Bytes(cells), .. }) => Grid::new(place.rows, place.columns, cells),
            _ => panic!("{} has no bytes in {}", role.name(), self.search.name()),
        }
    }

    /// The grid of floats with this role, which the search has.
    pub fn floats(&self, role: Role) -> Grid<'_, f32> {
        match self.layer(role) {
            Some(Layer { place, cells: Cells::Floats(cells), .. }) => Grid::new(place.rows, place.columns, cells),
            _ => panic!("{} has no floats in {}", role.name(), self.search.name()),
        }
    }
}

impl Layer {
    fn read(role: Role, path: &Path, unreached: Option<f32>) -> Result<Layer, String> {
        let (place, cells) = if role.is_bytes() {
            let (place, cells) = read_grid(path, unreached)?;
            (place, Cells::Bytes(cells))
        } else {
            let (place, cells) = read_grid(path, unreached)?;
            (place, Cells::Floats(cells))
        };
        Ok(Layer { role, path: path.to_owned(), place, cells })
    }
}

/// Reads a grid, whichever of the formats its bytes are in.
pub fn read_grid<T: Cell>(path: &Path, unreached: Option<f32>) -> Result<(Place, Vec<T>), String> {
    let bytes = fs::read(path).map_err(|error| format!("{} can't be read: {error}", path.display()))?;
    if geotiff::is_tiff(&bytes) { geotiff::read(path, &bytes, unreached) } else { asc::read(path, &bytes, unreached) }
}

/// The limit as the library takes it. One in metres is divided by the cell size, as doubles, and rounded to a float.
fn limit_in_cells(limit: Limit, first: &Layer) -> Result<f32, String> {
    let place = &first.place;
    match limit {
        Limit::Number(limit) => Ok(limit),
        Limit::Metres(_) if place.unit() != crate::formats::place::Unit::Metres => Err(format!(
            "--limit-metres is for grids in metres, and {} is in {}",
            first.path.display(),
            place.unit().short()
        )),
        Limit::Metres(metres) => Ok((metres / place.cell_size) as f32),
    }
}

/// Two grids of one search have the same size, lie on each other and have one coordinate system.
fn agree(first: &Layer, other: &Layer) -> Result<(), String> {
    let (a, b) = (&first.place, &other.place);
    let files = format!("{} and {}", first.path.display(), other.path.display());
    let size = |place: &Place| format!("{} rows and {} columns", place.rows, place.columns);
    if (a.rows, a.columns) != (b.rows, b.columns) {
        return Err(format!("{} has {}, but {} has {}", first.path.display(), size(a), other.path.display(), size(b)));
    }
    if let (Some(one), Some(other)) = (a.coordinate_system(), b.coordinate_system())
        && one != other
    {
        return Err(format!("{files} have two coordinate systems: {one} against {other}"));
    }
    if a.lies_on(b) {
        return Ok(());
    }
    let place = |place: &Place| match place.corner {
        Some((west, south)) => format!("corner {west} {south} and cell size {}", place.cell_size),
        None => format!("cell size {}", place.cell_size),
    };
    Err(format!("{files} do not lie on each other: {} against {}", place(a), place(b)))
}
