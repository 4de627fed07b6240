//! The numbers that stand in a sheet for what is no number: nodata, and cells that can't be reached.
use crate::formats::asc::rows;
use crate::formats::place::Place;
use crate::numbers::{read_float, shortest};

/// How a cell that can't be reached is written.
#[derive(Clone, Copy, Debug, Default, PartialEq)]
pub enum Unreached {
    /// As nodata is, which every program takes for no value.
    #[default]
    Nodata,
    /// As `inf`, which this tool reads back, and most others misread.
    Infinity,
    /// As this number.
    Number(f32),
}

impl Unreached {
    /// What `--unreached` says.
    pub fn read(word: &str) -> Result<Unreached, String> {
        match (word, read_float(word)) {
            ("nodata", _) => Ok(Unreached::Nodata),
            (_, Some(number)) if number == f32::INFINITY => Ok(Unreached::Infinity),
            (_, Some(number)) if number.is_finite() => Ok(Unreached::Number(number)),
            _ => Err(format!("--unreached is `nodata`, `inf` or a number that a float holds, not {word}")),
        }
    }

    /// The number that is infinity when a grid is read.
    pub fn number(self) -> Option<f32> {
        if let Unreached::Number(number) = self { Some(number) } else { None }
    }
}

/// Numbers for nodata, of which the first that no cell holds is taken.
const NODATA: [f32; 8] = [-9999.0, -99_999.0, -999_999.0, -9_999_999.0, -1e9, -1e12, -1e20, -1e38];

/// What stands for what in one sheet.
#[derive(Clone, Debug)]
pub struct StandIns {
    pub nodata: f32,
    unreached: Unreached,
}

impl StandIns {
    /// The stand-ins for a sheet of these cells. The number for cells that can't be reached must be no cell's.
    pub fn of(place: &Place, cells: &[f32], unreached: Unreached) -> Result<StandIns, String> {
        if let Some(number) = unreached.number()
            && let Some((row, column)) = find(place, cells, number)
        {
            return Err(format!(
                "--unreached {} is what the cell at row {row}, column {column} of the sheet holds; another number is \
                 needed to keep them apart",
                shortest(number)
            ));
        }
        let free = |number: &f32| Some(*number) != unreached.number() && !cells.contains(number);
        let nodata = NODATA
            .into_iter()
            .find(free)
            .ok_or_else(|| format!("the sheet's cells hold {NODATA:?}, so no number is left for nodata"))?;
        Ok(StandIns { nodata, unreached })
    }

    /// What is written for a cell. Minus infinity, which a limit can bring, is written as nodata, save where infinity is
    /// written as it is.
    pub fn number_for(&self, cell: f32) -> f32 {
        match (self.unreached, cell) {
            (Unreached::Infinity, cell) if cell.is_infinite() => cell,
            (Unreached::Number(number), f32::INFINITY) => number,
            (_, cell) if cell.is_finite() => cell,
            _ => self.nodata,
        }
    }
}

/// Where a number stands first in a sheet, counted from 1.
fn find(place: &Place, cells: &[f32], number: f32) -> Option<(usize, usize)> {
    let at = |row: &[f32]| row.iter().position(|cell| *cell == number);
    let (row, column) = rows(cells, place.columns).enumerate().find_map(|(row, cells)| Some((row, at(cells)?)))?;
    Some((row + 1, column + 1))
}
