//! Grids of other kinds that a planner may hand over, recognised by how they begin, so that the sentence can name them.
use std::path::Path;

/// What a text grid's first line says it is, if it is no ESRI ASCII grid, in words that follow the file's name.
pub fn grid_of_another_kind(first: &str) -> Option<String> {
    let first = first.trim();
    let kind = match first.to_ascii_lowercase() {
        line if ["north:", "south:", "east:", "west:", "rows:", "cols:"].iter().any(|key| line.starts_with(key)) => {
            "GRASS ASCII grid"
        }
        line if line.starts_with("dsaa") => "Surfer ASCII grid",
        line if line.starts_with("version") || line.starts_with("{") => "grid of another program",
        line if line.starts_with("<?xml") || line.starts_with("<!doctype") => "file of markup",
        _ if is_comment(first) => return Some(format!("begins with a comment, `{first}`, which a grid can't have")),
        _ => return None,
    };
    Some(format!("is a {kind} and no ESRI ASCII grid; {}", MEND))
}

/// The call that makes an ESRI ASCII grid of whatever GDAL can read.
const MEND: &str = "`gdal_translate -of AAIGrid IN OUT.asc` makes one of what GDAL can read";

/// Why bytes are no text.
pub fn no_text(path: &Path, bytes: &[u8]) -> String {
    let file = path.display();
    let kind = match bytes {
        [b'D', b'S', b'B', b'B', ..] | [b'D', b'S', b'R', b'B', ..] => "a binary Surfer grid",
        [0x89, b'P', b'N', b'G', ..] => "a PNG picture",
        [b'P', b'K', 3, 4, ..] | [0x1f, 0x8b, ..] => "a packed file",
        _ => return format!("{file} is no text, so no ESRI ASCII grid, and no GeoTIFF"),
    };
    format!("{file} is {kind}, and neither an ESRI ASCII grid nor a GeoTIFF; {MEND}")
}

/// Whether a line is a comment as programs write them.
pub fn is_comment(line: &str) -> bool {
    let line = line.trim_start();
    ["#", "//", ";", "!", "/*"].iter().any(|sign| line.starts_with(sign))
}
