//! Writes the made-up stand of examples/: `stand FOLDER`. It is drawn from a seed by whole numbers alone, so that every
//! machine writes the same bytes.
use std::path::Path;

const ROWS: usize = 60;
const COLUMNS: usize = 80;
const SEED: u64 = 20_261_115;
const NODATA: &str = "-9999";

/// Two landings by the road, with their numbers.
const LANDINGS: [(usize, usize, u32); 2] = [(30, 6, 1), (6, 22, 2)];
/// Ditches that go down a row and aside a column with each cell, so that their cells meet at corners only: the first
/// cell, then runs of cells to the right (true) or left.
const STREAM: (usize, usize, [(usize, bool); 4]) = (0, 30, [(22, true), (8, false), (16, true), (13, false)]);
const BOG_EDGE: (usize, usize, [(usize, bool); 1]) = (40, 0, [(19, true)]);
/// Where the stream runs through a culvert that a machine can cross.
const CULVERT: [usize; 2] = [50, 51];
/// A straight ditch: its row, its first column, the column after its last.
const DRAIN: (usize, usize, usize) = (14, 56, 74);
/// A pond: its middle, and the square of its radius.
const POND: (usize, usize, usize) = (20, 20, 36);
const ROAD_COLUMN: usize = 6;

/// SplitMix64.
struct Random(u64);

impl Random {
    fn below(&mut self, end: u64) -> u64 {
        self.0 = self.0.wrapping_add(0x9E37_79B9_7F4A_7C15);
        let z = (self.0 ^ (self.0 >> 30)).wrapping_mul(0xBF58_476D_1CE4_E5B9);
        let z = (z ^ (z >> 27)).wrapping_mul(0x94D0_49BB_1331_11EB);
        (z ^ (z >> 31)) % end
    }
}

fn main() {
    let folder = std::env::args_os().nth(1).expect("a folder is wanted: stand FOLDER");
    write_stand(Path::new(&folder));
}

/// Writes the stand's four grids into a folder.
pub fn write_stand(folder: &Path) {
    let mut random = Random(SEED);
    let rough = rough_ground(&mut random);
    write(folder, "landings.asc", landing);
    let ditches = ditches();
    write(folder, "ditches.asc", |row, column| u8::from(ditches.contains(&(row, column))).to_string());
    write(folder, "times.asc", |row, column| time(&rough, row, column));
    let volumes: Vec<String> = (0..ROWS * COLUMNS).map(|_| volume(&mut random)).collect();
    write(folder, "volumes.asc", |row, column| volumes[row * COLUMNS + column].clone());
}

fn write(folder: &Path, name: &str, cell: impl Fn(usize, usize) -> String) {
    let mut text = format!("ncols {COLUMNS}\nnrows {ROWS}\nxllcorner 3550000\nyllcorner 5710000\ncellsize 10\n");
    text += &format!("NODATA_value {NODATA}\n");
    for row in 0..ROWS {
        let cells: Vec<String> = (0..COLUMNS).map(|column| cell(row, column)).collect();
        text += &(cells.join(" ") + "\n");
    }
    std::fs::write(folder.join(name), text).expect("the folder can be written to");
}

fn landing(row: usize, column: usize) -> String {
    let here = LANDINGS.iter().find(|(at_row, at_column, _)| (*at_row, *at_column) == (row, column));
    here.map_or(0, |(.., number)| *number).to_string()
}

fn ditches() -> Vec<(usize, usize)> {
    let mut cells = ditch(STREAM.0, STREAM.1, &STREAM.2);
    cells.retain(|(row, _)| !CULVERT.contains(row));
    cells.extend(ditch(BOG_EDGE.0, BOG_EDGE.1, &BOG_EDGE.2));
    cells.extend((DRAIN.1..DRAIN.2).map(|column| (DRAIN.0, column)));
    cells
}

fn ditch(row: usize, column: usize, runs: &[(usize, bool)]) -> Vec<(usize, usize)> {
    let mut cells = vec![(row, column)];
    let steps = runs.iter().flat_map(|(cells, right)| std::iter::repeat_n(*right, *cells));
    for right in steps {
        let (row, column) = cells[cells.len() - 1];
        cells.push((row + 1, if right { column + 1 } else { column - 1 }));
    }
    cells
}

/// Roughness from 0 to 100 at the corners of squares of ten cells.
fn rough_ground(random: &mut Random) -> Vec<Vec<u64>> {
    (0..=ROWS / 10).map(|_| (0..=COLUMNS / 10).map(|_| random.below(101)).collect()).collect()
}

/// Minutes to cross a cell, in hundredths: little on the road, more on rough ground, nodata in the pond.
fn time(rough: &[Vec<u64>], row: usize, column: usize) -> String {
    if row.abs_diff(POND.0).pow(2) + column.abs_diff(POND.1).pow(2) <= POND.2 {
        return NODATA.to_owned();
    }
    let hundredths = if column == ROAD_COLUMN { 20 } else { 40 + 2 * between(rough, row, column) };
    format!("{}.{:02}", hundredths / 100, hundredths % 100)
}

/// The roughness between the four corners around a cell, by how near each is.
fn between(rough: &[Vec<u64>], row: usize, column: usize) -> u64 {
    let (above, left) = (row / 10, column / 10);
    let (down, right) = ((row % 10) as u64, (column % 10) as u64);
    let along = |corners: &[u64]| corners[left] * (10 - right) + corners[left + 1] * right;
    (along(&rough[above]) * (10 - down) + along(&rough[above + 1]) * down) / 100
}

/// Cubic metres of timber: a pile of 2 to 12 in one of twelve cells.
fn volume(random: &mut Random) -> String {
    if random.below(12) == 0 { (2 + random.below(11)).to_string() } else { "0".to_owned() }
}
