//! Why a search gives no sheet.
use std::fmt;

/// A cell that a refusal names, counted from 0.
#[derive(Clone, Copy, Debug, PartialEq, Eq)]
pub struct Place {
    /// In row-major order.
    pub index: u32,
    pub row: u32,
    pub column: u32,
}

impl fmt::Display for Place {
    fn fmt(&self, text: &mut fmt::Formatter) -> fmt::Result {
        write!(text, "row {}, column {}", self.row, self.column)
    }
}

/// Why a search gives no sheet. Where several apply it is the first in this order.
#[derive(Clone, Copy, Debug, PartialEq, Eq)]
#[non_exhaustive]
pub enum Refusal {
    SizeOutOfBounds,
    SizesDiffer,
    WrongLength,
    BadCellSize,
    BadLimit,
    NegativeTime(Place),
    OverBudget(Place),
}

impl Refusal {
    /// The refusal with this number, and the cell that it names in a grid of so many columns; none for 0.
    pub(crate) fn told(number: u32, index: u32, columns: i32) -> Option<Refusal> {
        let place = || {
            let columns = columns.unsigned_abs();
            Place { index, row: index / columns, column: index % columns }
        };
        Some(match number {
            0 => return None,
            1 => Refusal::SizeOutOfBounds,
            2 => Refusal::SizesDiffer,
            3 => Refusal::WrongLength,
            4 => Refusal::BadCellSize,
            5 => Refusal::BadLimit,
            6 => Refusal::NegativeTime(place()),
            7 => Refusal::OverBudget(place()),
            _ => panic!("libhaul_c.a refuses by number {number}, which is not known here: it is of another version"),
        })
    }

    /// The refusal's number, as `include/haul.h` and the program have it.
    pub fn number(self) -> u32 {
        match self {
            Refusal::SizeOutOfBounds => 1,
            Refusal::SizesDiffer => 2,
            Refusal::WrongLength => 3,
            Refusal::BadCellSize => 4,
            Refusal::BadLimit => 5,
            Refusal::NegativeTime(_) => 6,
            Refusal::OverBudget(_) => 7,
        }
    }
}

impl fmt::Display for Refusal {
    fn fmt(&self, text: &mut fmt::Formatter) -> fmt::Result {
        match self {
            Refusal::SizeOutOfBounds => text.write_str(
                "a grid's size is out of bounds: 0 to 32,767 rows, 0 to 32,767 columns, at most 1,048,576 cells",
            ),
            Refusal::SizesDiffer => text.write_str("two grids differ in rows or columns"),
            Refusal::WrongLength => {
                text.write_str("a grid or the answer has more or fewer cells than its rows and columns make")
            }
            Refusal::BadCellSize => text.write_str("the cell size is not a finite number above 0"),
            Refusal::BadLimit => text.write_str("the limit is NaN, or it is a budget and not above 0"),
            Refusal::NegativeTime(place) => write!(text, "the time at {place} is below 0"),
            Refusal::OverBudget(place) => {
                write!(text, "from the mask cell at {place} a cell is reached whose travel time is above the budget")
            }
        }
    }
}

impl std::error::Error for Refusal {}
