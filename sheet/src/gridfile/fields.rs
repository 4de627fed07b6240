//! The fields of document 01's grid files and answer files: a one-byte tag, a two-byte length, the content. Numbers are
//! little-endian, floats go as their bits.
use haul::BarrierDiagonals;
use search::Role;

use crate::grids::{Case, Cells, Layer};

pub const FLAGS: u8 = 0x01;
pub const SIZE: u8 = 0x02;
pub const NUMBERS: u8 = 0x03;
pub const STATUS: u8 = 0x10;
pub const INDEX: u8 = 0x11;
pub const TAKES: u8 = 0x12;
pub const GRID: u8 = 0x13;

/// The most cells of a grid file.
const CELLS_MAX: usize = 1024;
/// A nodata float in a file: the one NaN that answers have too.
const ONE_NAN: u32 = 0x7FC0_0000;

pub fn tag(role: Role) -> u8 {
    match role {
        Role::Targets | Role::Mask => 0x04,
        Role::Obstacles => 0x05,
        Role::Times => 0x06,
        Role::Values | Role::Amounts => 0x07,
    }
}

/// The case as a grid file for `haul`.
pub fn pack(case: &Case) -> Result<Vec<u8>, String> {
    let Layer { path, place, cells, .. } = case.first();
    if cells.len() > CELLS_MAX {
        return Err(format!("{} has {} cells, and a grid file holds at most {CELLS_MAX}", path.display(), cells.len()));
    }
    let [rows, columns] = [place.rows, place.columns].map(|side| u16::try_from(side).expect("a side is in bounds"));
    let flags = [case.search.number(), u8::from(case.diagonals == BarrierDiagonals::Exclude), u8::from(case.adjacent)];
    let cell_size = if case.search.has_cell_size() { case.cell_size() } else { 0.0 };

    let mut file = Vec::new();
    push(&mut file, FLAGS, &flags);
    push(&mut file, SIZE, &[rows.to_le_bytes(), columns.to_le_bytes()].concat());
    push(&mut file, NUMBERS, &[cell_size.to_le_bytes(), case.limit.to_le_bytes()].concat());
    for layer in &case.layers {
        push(&mut file, tag(layer.role), &content(&layer.cells));
    }
    Ok(file)
}

fn content(cells: &Cells) -> Vec<u8> {
    let bits = |cell: &f32| if cell.is_nan() { ONE_NAN } else { cell.to_bits() };
    match cells {
        Cells::Bytes(cells) => cells.clone(),
        Cells::Floats(cells) => cells.iter().flat_map(|cell| bits(cell).to_le_bytes()).collect(),
    }
}

fn push(file: &mut Vec<u8>, tag: u8, content: &[u8]) {
    let length = u16::try_from(content.len()).expect("1,024 cells fit a field");
    file.push(tag);
    file.extend(length.to_le_bytes());
    file.extend(content);
}

/// A field of a file.
pub struct Field<'a> {
    pub tag: u8,
    pub content: &'a [u8],
}

impl Field<'_> {
    /// The content as floats; bytes that are left over at the end are none.
    pub fn floats(&self) -> Vec<f32> {
        let (words, _) = self.content.as_chunks();
        words.iter().map(|word| f32::from_le_bytes(*word)).collect()
    }

    pub fn exactly<const LENGTH: usize>(&self) -> Option<[u8; LENGTH]> {
        self.content.try_into().ok()
    }
}

/// The fields of a file, and after the last whole one what is wrong with the rest.
pub fn split(mut rest: &[u8]) -> (Vec<Field<'_>>, Option<String>) {
    let whole = rest.len();
    let mut fields = Vec::new();
    while let [tag, low, high, after @ ..] = rest {
        let length = usize::from(u16::from_le_bytes([*low, *high]));
        let Some((content, after)) = after.split_at_checked(length) else { break };
        fields.push(Field { tag: *tag, content });
        rest = after;
    }
    let at = whole - rest.len();
    (fields, if rest.is_empty() { None } else { Some(format!("the field at byte {at} is cut")) })
}
