//! Letters: a small font of pixels, drawn at twice its size with its steps rounded off.
use std::collections::BTreeMap;
use std::sync::LazyLock;

/// Letters, digits and a few signs: each the sign on a line of its own, then its eight rows of five pixels.
const FONT: &str = include_str!("font.txt");
const ROWS: usize = 8;
const COLUMNS: usize = 5;
/// The pixels between two letters, and those of a blank.
const BETWEEN: usize = 2;
const BLANK: usize = 6;
/// The height of a line, and the middle of its digits below its top.
pub const LINE: usize = 2 * ROWS;
pub const MIDDLE: usize = 7;

static GLYPHS: LazyLock<BTreeMap<char, Glyph>> = LazyLock::new(read_font);

/// A letter as it is drawn: its width, and its pixels right of and below its corner.
struct Glyph {
    width: usize,
    pixels: Vec<(usize, usize)>,
}

/// The pixels of a text, right of and below its corner; a sign that the font lacks is left blank.
pub fn pixels(text: &str) -> Vec<(usize, usize)> {
    let mut pixels = Vec::new();
    let mut x = 0;
    for sign in text.chars() {
        if let Some(glyph) = GLYPHS.get(&sign) {
            pixels.extend(glyph.pixels.iter().map(|(right, down)| (x + right, *down)));
        }
        x += advance(sign);
    }
    pixels
}

/// How wide a text is.
pub fn width(text: &str) -> usize {
    text.chars().map(advance).sum::<usize>().saturating_sub(BETWEEN)
}

/// From a sign to the next.
fn advance(sign: char) -> usize {
    GLYPHS.get(&sign).map_or(BLANK, |glyph| glyph.width) + BETWEEN
}

/// The letters of the font file.
fn read_font() -> BTreeMap<char, Glyph> {
    let lines: Vec<&str> = FONT.lines().collect();
    let signs = lines.chunks(1 + ROWS).filter_map(|lines| Some((lines[0].chars().next()?, &lines[1..])));
    signs.map(|(sign, rows)| (sign, Glyph::new(sign, rows))).collect()
}

impl Glyph {
    /// A letter takes the columns that it has ink in; a digit takes all, so that numbers stand below each other.
    fn new(sign: char, rows: &[&str]) -> Glyph {
        let ink = |column: isize, row: isize| {
            let bytes = usize::try_from(row).ok().and_then(|row| rows.get(row)).map(|row| row.as_bytes());
            usize::try_from(column).ok().and_then(|column| bytes?.get(column)) == Some(&b'#')
        };
        let inked: Vec<usize> =
            (0..COLUMNS).filter(|column| rows.iter().any(|row| row.as_bytes()[*column] == b'#')).collect();
        let (first, last) = match (inked.first(), inked.last()) {
            (Some(first), Some(last)) if !sign.is_ascii_digit() => (*first, *last),
            _ => (0, COLUMNS - 1),
        };
        let all = (0..2 * ROWS).flat_map(|down| (2 * first..2 * (last + 1)).map(move |right| (right, down)));
        let pixels = all.filter(|(right, down)| rounded(&ink, *right, *down));
        Glyph { width: 2 * (last + 1 - first), pixels: pixels.map(|(right, down)| (right - 2 * first, down)).collect() }
    }
}

/// Whether there is ink at a quarter of a pixel: where the pixel has some, or where two pixels with ink meet at the
/// corner that the quarter lies in, so that steps become slants.
fn rounded(ink: &impl Fn(isize, isize) -> bool, right: usize, down: usize) -> bool {
    let (column, row) = ((right / 2) as isize, (down / 2) as isize);
    let toward = |half: usize| if half.is_multiple_of(2) { -1 } else { 1 };
    let (beside, above) = (column + toward(right), row + toward(down));
    ink(column, row) || (ink(beside, row) && ink(column, above) && !ink(beside, above))
}
