//! ESRI ASCII grids, as GDAL, QGIS, GRASS (`r.out.gdal`) and ArcGIS write them.
//!
//! The header has a line for each of `ncols`, `nrows`, `cellsize` (or `dx` and `dy`, which must be alike) and, where
//! they are given, `xllcorner` or `xllcenter`, `yllcorner` or `yllcenter` and `NODATA_value`, in any order and in large
//! or small letters. Without `NODATA_value` it is -9999, as the format's makers say. Then each row is one line: a line
//! with more or fewer values than `ncols` is an error, since values that run on would hide a lost one.
use std::collections::BTreeMap;
use std::fs;
use std::path::Path;

use crate::formats::cells::{Cell, Marks};
use crate::formats::foreign;
use crate::formats::place::{Place, Projection, Source, is_one_number, judge_size, not_square, square_edge};
use crate::formats::stand_ins::StandIns;
use crate::numbers::{push_float, with_point};

const KEYWORDS: [&str; 10] =
    ["ncols", "nrows", "xllcorner", "xllcenter", "yllcorner", "yllcenter", "cellsize", "dx", "dy", "nodata_value"];
/// The header lines that a sheet keeps from its first grid as they are, in this order.
const KEPT: [&str; 7] = ["xllcorner", "xllcenter", "yllcorner", "yllcenter", "cellsize", "dx", "dy"];
/// Nodata where a header does not say it.
const NODATA: f64 = -9999.0;

/// A header's lines, by their keyword in small letters.
type Lines = BTreeMap<String, String>;

/// Reads a grid from a file's bytes: where it lies, and its cells in row-major order. `unreached` is the number that
/// stands for infinity, where there is one.
pub fn read<T: Cell>(path: &Path, bytes: &[u8], unreached: Option<f32>) -> Result<(Place, Vec<T>), String> {
    let file = path.display();
    let text = str::from_utf8(bytes).map_err(|_| foreign::no_text(path, bytes))?;
    let text = text.trim_start_matches('\u{feff}');
    let mut lines = text.lines().filter(|line| !line.trim().is_empty()).peekable();
    if let Some(other) = lines.peek().and_then(|line| foreign::grid_of_another_kind(line)) {
        return Err(format!("{file} {other}"));
    }
    let (place, nodata) = read_header(path, &mut lines).map_err(|wrong| format!("the header of {file} {wrong}"))?;
    let marks = Marks::new(nodata, unreached);
    let mut cells = Vec::with_capacity(usize::try_from(place.rows).unwrap_or(0) * columns(&place));
    for row in 1..=place.rows {
        // Rows of no cells are blank lines, which were passed over.
        let line = if place.columns == 0 { "" } else { lines.next().unwrap_or_default() };
        read_row(line, row, columns(&place), marks, &mut cells).map_err(|wrong| format!("{wrong} of {file}"))?;
    }
    match lines.next() {
        None => Ok((place, cells)),
        Some(line) if foreign::is_comment(line) => Err(format!("{file} has a comment below its cells, `{line}`")),
        Some(_) => Err(format!("{file} has more rows than the {} of its header", place.rows)),
    }
}

fn columns(place: &Place) -> usize {
    usize::try_from(place.columns).unwrap_or(0)
}

/// Adds a row's cells, or says what is wrong and at which row and column.
fn read_row<T: Cell>(line: &str, row: i32, columns: usize, marks: Marks, cells: &mut Vec<T>) -> Result<(), String> {
    if foreign::is_comment(line) {
        return Err(format!("`{}` is a comment, which a grid can't have, in row {row}", line.trim()));
    }
    let mut count = 0;
    for text in line.split_ascii_whitespace() {
        count += 1;
        let wrong = |what| format!("`{text}` {what} at row {row}, column {count}");
        cells.push(T::from_text(text, marks).map_err(wrong)?);
    }
    if count == columns { Ok(()) } else { Err(format!("{count} values where the header says {columns} in row {row}")) }
}

/// Takes the header's lines off, up to the first that begins with no keyword: where the grid lies, and its nodata.
fn read_header<'a>(
    path: &Path,
    lines: &mut std::iter::Peekable<impl Iterator<Item = &'a str>>,
) -> Result<(Place, f64), String> {
    let mut found = Lines::new();
    while let Some(line) = lines.peek() {
        if foreign::is_comment(line) {
            return Err(format!("has a comment, `{}`, which an ESRI ASCII grid can't have", line.trim()));
        }
        let Some((keyword, value)) = header_line(line) else { break };
        if found.insert(keyword.clone(), value?).is_some() {
            return Err(format!("has {keyword} twice"));
        }
        lines.next();
    }
    let (rows, columns) = (side(&found, "nrows")?, side(&found, "ncols")?);
    judge_size(rows, columns)?;
    let cell_size = cell_size(&found, path)?;
    let nodata = number(&found, "nodata_value")?.unwrap_or(NODATA);
    let west = edge(&found, "xllcorner", "xllcenter", cell_size)?;
    let south = edge(&found, "yllcorner", "yllcenter", cell_size)?;
    let source = Source::Ascii { lines: found, projection: projection_beside(path) };
    Ok((Place { rows, columns, cell_size, corner: west.zip(south), source }, nodata))
}

/// A line's keyword in small letters, and its value; none for a line of cells.
fn header_line(line: &str) -> Option<(String, Result<String, String>)> {
    let words: Vec<&str> = line.split_whitespace().collect();
    let keyword = words.first()?.to_ascii_lowercase();
    if !KEYWORDS.contains(&keyword.as_str()) {
        return None;
    }
    let value = match words[1..] {
        [value] => Ok(value.to_owned()),
        _ => Err(format!("has {keyword} with {} values, not one", words.len() - 1)),
    };
    Some((keyword, value))
}

fn side(lines: &Lines, keyword: &str) -> Result<i32, String> {
    let text = lines.get(keyword).ok_or_else(|| format!("lacks {keyword}"))?;
    text.parse().map_err(|_| format!("has {keyword} {text}, which is no whole number that a side could have"))
}

fn number(lines: &Lines, keyword: &str) -> Result<Option<f64>, String> {
    let Some(text) = lines.get(keyword) else { return Ok(None) };
    text.parse().map(Some).map_err(|_| format!("has {keyword} {text}, which is no number"))
}

fn edge(lines: &Lines, corner: &str, center: &str, cell_size: f64) -> Result<Option<f64>, String> {
    let (corner, center) = (number(lines, corner)?, number(lines, center)?);
    Ok(corner.or_else(|| center.map(|middle| middle - cell_size / 2.0)))
}

fn cell_size(lines: &Lines, path: &Path) -> Result<f64, String> {
    let [square, dx, dy] = ["cellsize", "dx", "dy"].map(|keyword| number(lines, keyword));
    match (square?, dx?, dy?) {
        (Some(edge), None, None) => Ok(edge),
        (None, Some(dx), Some(dy)) => square_edge(dx, dy).ok_or_else(|| not_square(dx, dy, path.display())),
        (None, None, None) => Err("lacks cellsize".to_owned()),
        _ => Err("has neither cellsize alone nor dx and dy".to_owned()),
    }
}

/// Width and height of the cells, where the header has both and they are not the same number.
pub fn width_and_height(lines: &Lines) -> Option<(&str, &str)> {
    let (dx, dy) = (lines.get("dx")?, lines.get("dy")?);
    if is_one_number(dx.parse().ok()?, dy.parse().ok()?) { None } else { Some((dx, dy)) }
}

/// The coordinate system in the .prj of the same name, as GDAL and ArcGIS write it.
fn projection_beside(path: &Path) -> Option<Projection> {
    ["prj", "PRJ"].iter().find_map(|ending| {
        let path = path.with_extension(ending);
        fs::read(&path).ok().map(|text| Projection { path, text })
    })
}

/// A sheet as an ESRI ASCII grid that lies where `place` does. The first value has a decimal point: by it GDAL and others
/// see that the grid is of floats, and a grid that looks like whole numbers would lose what is behind the point.
pub fn write(place: &Place, cells: &[f32], stand_ins: &StandIns) -> String {
    let mut text = format!("ncols {}\nnrows {}\n", place.columns, place.rows);
    for (keyword, value) in place_lines(place) {
        text += &format!("{keyword} {value}\n");
    }
    text += &format!("NODATA_value {}\n", stand_ins.nodata);
    for (row, at) in rows(cells, place.columns).zip(0..) {
        for (cell, column) in row.iter().zip(0..) {
            let number = stand_ins.number_for(*cell);
            match (at, column) {
                (0, 0) => text += &with_point(number),
                (_, 0) => push_float(&mut text, number),
                _ => {
                    text.push(' ');
                    push_float(&mut text, number);
                }
            }
        }
        text.push('\n');
    }
    text
}

/// The lines that say where a sheet lies: those of the first grid as they are, or those that say the same.
fn place_lines(place: &Place) -> Vec<(&str, String)> {
    match (&place.source, place.corner) {
        (Source::Ascii { lines, .. }, _) => {
            KEPT.iter().filter_map(|keyword| Some((*keyword, lines.get(*keyword)?.clone()))).collect()
        }
        (Source::Tiff(_), Some((west, south))) => vec![
            ("xllcorner", west.to_string()),
            ("yllcorner", south.to_string()),
            ("cellsize", place.cell_size.to_string()),
        ],
        (Source::Tiff(_), None) => vec![("cellsize", place.cell_size.to_string())],
    }
}

/// The cells row by row; none where rows have no cells.
pub fn rows<T>(cells: &[T], columns: i32) -> std::slice::Chunks<'_, T> {
    cells.chunks(usize::try_from(columns).unwrap_or(0).max(1))
}
