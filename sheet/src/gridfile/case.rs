//! Grid files and answer files in words, so that neither is a black box.
use std::fmt::Write;

use haul::Refusal;
use search::{BYTE_NODATA, Role, Search};

use crate::formats::asc::rows;
use crate::gridfile::fields::{self, FLAGS, Field, GRID, INDEX, NUMBERS, SIZE, STATUS, TAKES};
use crate::numbers::{shortest, thousands};

/// The rows and columns of a grid file, which an answer file does not repeat.
pub type Size = (u16, u16);

/// The file in words, whichever of the two it is. `size` is that of the grid file that an answer file is for.
pub fn print(bytes: &[u8], size: Option<Size>) -> Result<String, String> {
    let (fields, cut) = fields::split(bytes);
    let mut text = match fields.first().map(|field| field.tag) {
        Some(FLAGS) => print_grid_file(&fields),
        Some(STATUS) => print_answer(&fields, size),
        Some(tag) => {
            return Err(format!("begins with tag {tag:02x}: a grid file does with 01, an answer file with 10"));
        }
        None => return Err("has no field, so it is neither a grid file nor an answer file".to_owned()),
    };
    if let Some(cut) = &cut {
        writeln!(text, "and then {cut}").expect("text takes all");
    }
    if fields[0].tag == STATUS {
        let (whole, form) = form_of_answer(&fields, size);
        if cut.is_some() || !whole {
            writeln!(text, "this is no whole answer: {form}").expect("text takes all");
        }
    }
    if fields[0].tag == FLAGS && status(&haul::answer_file(bytes)) == Some(8) {
        text += "haul refuses this file by 8: it does not keep the file form\n";
    }
    Ok(text)
}

/// The size that a grid file says.
pub fn size_of(grid_file: &[u8]) -> Option<Size> {
    let (fields, _) = fields::split(grid_file);
    let size = fields.iter().find(|field| field.tag == SIZE)?;
    let [r0, r1, c0, c1] = size.exactly()?;
    Some((u16::from_le_bytes([r0, r1]), u16::from_le_bytes([c0, c1])))
}

/// The status of an answer file.
fn status(answer_file: &[u8]) -> Option<u8> {
    let (fields, _) = fields::split(answer_file);
    let [status] = fields.first().filter(|field| field.tag == STATUS)?.exactly()?;
    Some(status)
}

fn print_grid_file(fields: &[Field]) -> String {
    let search = fields[0].content.first().copied().and_then(Search::from_number);
    let columns = fields.iter().find(|field| field.tag == SIZE).and_then(Field::exactly).map(columns_of);
    fields.iter().map(|field| print_input(field, search, columns)).collect()
}

fn columns_of([_, _, low, high]: [u8; 4]) -> u16 {
    u16::from_le_bytes([low, high])
}

/// One field of a grid file; where its content is not of its form, its bytes.
fn print_input(field: &Field, search: Option<Search>, columns: Option<u16>) -> String {
    let role = search.and_then(|search| search.roles().iter().find(|role| fields::tag(**role) == field.tag).copied());
    let words = match (field.tag, role) {
        (FLAGS, _) => field.exactly().map(|flags| print_flags(flags, search)),
        (SIZE, _) => field.exactly().map(|[r0, r1, c0, c1]| {
            format!("{} rows, {} columns\n", u16::from_le_bytes([r0, r1]), u16::from_le_bytes([c0, c1]))
        }),
        (NUMBERS, _) => field.exactly().map(|numbers| print_numbers(numbers, search)),
        (_, Some(role)) => Some(print_grid(role.name(), &cells_in_words(field, role), columns)),
        _ => None,
    };
    words.unwrap_or_else(|| print_bytes(field))
}

fn print_flags([number, diagonals, adjacent]: [u8; 3], search: Option<Search>) -> String {
    let name = search.map_or("which is none", Search::name);
    let mut text = format!("grid file for search {number}, {name}");
    match (diagonals, search.is_some_and(Search::has_diagonals)) {
        (0, true) => text += ", diagonals include",
        (1, true) => text += ", diagonals exclude",
        (0, false) => {}
        (other, _) => text += &format!(", diagonals {other}"),
    }
    match (adjacent, search.is_some_and(Search::has_adjacent)) {
        (1, true) => text += ", with adjacent cells",
        (0, _) => {}
        (other, _) => text += &format!(", adjacent {other}"),
    }
    text + "\n"
}

/// The cell size and the limit, those that the search has or that are not zero bytes.
fn print_numbers([c0, c1, c2, c3, l0, l1, l2, l3]: [u8; 8], search: Option<Search>) -> String {
    let numbers = [
        ("cell size", [c0, c1, c2, c3], search.is_some_and(Search::has_cell_size)),
        ("limit", [l0, l1, l2, l3], search.is_some_and(Search::has_limit)),
    ];
    let said = numbers.into_iter().filter(|(_, bytes, has)| *has || *bytes != [0; 4]);
    said.map(|(name, bytes, _)| format!("{name} {}\n", shortest(f32::from_le_bytes(bytes)))).collect()
}

fn cells_in_words(field: &Field, role: Role) -> Vec<String> {
    if role.is_bytes() {
        field
            .content
            .iter()
            .map(|byte| if *byte == BYTE_NODATA { "nodata".to_owned() } else { byte.to_string() })
            .collect()
    } else {
        floats_in_words(field)
    }
}

fn floats_in_words(field: &Field) -> Vec<String> {
    field.floats().iter().map(|cell| if cell.is_nan() { "nodata".to_owned() } else { shortest(*cell) }).collect()
}

/// A grid's cells row by row, under its name; in one row where the columns are not known.
fn print_grid(name: &str, cells: &[String], columns: Option<u16>) -> String {
    let width = cells.iter().map(String::len).max().unwrap_or(0);
    let columns = columns.map_or(i32::MAX, i32::from);
    let mut text = format!("{name}\n");
    for row in rows(cells, columns) {
        for cell in row {
            text += &format!(" {cell:>width$}");
        }
        text += "\n";
    }
    text
}

fn print_bytes(field: &Field) -> String {
    let bytes: Vec<String> = field.content.iter().map(|byte| format!("{byte:02x}")).collect();
    format!("field {:02x} of {} bytes: {}\n", field.tag, field.content.len(), bytes.join(" "))
}

fn print_answer(fields: &[Field], size: Option<Size>) -> String {
    fields.iter().map(|field| print_output(field, size)).collect()
}

/// Whether the fields are those of a whole answer, and which these are. `haul` has no way to say that it could not write all
/// of its answer, so its reader has to look.
fn form_of_answer(fields: &[Field], size: Option<Size>) -> (bool, &'static str) {
    let lengths: Vec<(u8, usize)> = fields.iter().map(|field| (field.tag, field.content.len())).collect();
    let holds_grid = |length: usize| match size {
        Some((rows, columns)) => length == 4 * usize::from(rows) * usize::from(columns),
        None => length.is_multiple_of(4),
    };
    match fields[0].exactly() {
        Some([0]) => (
            matches!(lengths[..], [_, (TAKES, 8), (GRID, length)] if holds_grid(length)),
            "after status 0 come field 12 of 8 bytes and field 13 of 4 bytes a cell",
        ),
        Some([6 | 7]) => (matches!(lengths[..], [_, (INDEX, 4)]), "after status 6 or 7 comes field 11 of 4 bytes"),
        Some([_]) => (lengths.len() == 1, "after any status but 0, 6 and 7 comes nothing"),
        None => (false, "the status, field 10, has 1 byte"),
    }
}

/// One field of an answer file; where its content is not of its form, its bytes.
fn print_output(field: &Field, size: Option<Size>) -> String {
    let words = match field.tag {
        STATUS => field.exactly().map(|[status]| print_status(status)),
        INDEX => field.exactly().map(|index| print_index(u32::from_le_bytes(index), size)),
        TAKES => field.exactly().map(|takes| format!("takes {}\n", thousands(u64::from_le_bytes(takes)))),
        GRID => Some(print_grid("answer", &floats_in_words(field), size.map(|(_, columns)| columns))),
        _ => None,
    };
    words.unwrap_or_else(|| print_bytes(field))
}

fn print_status(status: u8) -> String {
    let refusal = match status {
        0 => return "answer file: accepted\n".to_owned(),
        1 => Refusal::SizeOutOfBounds.to_string(),
        2 => Refusal::SizesDiffer.to_string(),
        3 => Refusal::WrongLength.to_string(),
        4 => Refusal::BadCellSize.to_string(),
        5 => Refusal::BadLimit.to_string(),
        6 => "a time is below 0".to_owned(),
        7 => "a cell is reached only above the budget from a mask cell".to_owned(),
        8 => "the bytes are no grid file".to_owned(),
        _ => "a number that document 01 does not have".to_owned(),
    };
    format!("answer file: refused by {status}: {refusal}\n")
}

fn print_index(index: u32, size: Option<Size>) -> String {
    match size {
        Some((_, columns)) if columns > 0 => {
            let columns = u32::from(columns);
            format!("at row {}, column {}\n", index / columns + 1, index % columns + 1)
        }
        _ => format!("at cell {index}, counted from 0\n"),
    }
}
