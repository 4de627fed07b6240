//! How far is each cell from the landing, if a machine can't go between two ditch cells that meet at a corner?
use haul::{BarrierDiagonals, Grid, Refusal, distance_with_obstacles};

const ROWS: i32 = 3;
const COLUMNS: i32 = 4;

#[rustfmt::skip]
const LANDINGS: [u8; 12] = [
    1, 0, 0, 0,
    0, 0, 0, 0,
    0, 0, 0, 0,
];

#[rustfmt::skip]
const DITCHES: [u8; 12] = [
    0, 0, 1, 0,
    0, 1, 0, 0,
    0, 0, 0, 0,
];

fn main() -> Result<(), Refusal> {
    let landings = Grid::new(ROWS, COLUMNS, &LANDINGS);
    let ditches = Grid::new(ROWS, COLUMNS, &DITCHES);
    let sheet = distance_with_obstacles(landings, ditches, 10.0, BarrierDiagonals::Exclude)?;
    for row in sheet.cells.chunks(COLUMNS as usize) {
        let cells: Vec<String> = row.iter().map(|metres| format!("{metres:6.1}")).collect();
        println!("{}", cells.concat());
    }
    println!("{} takes", sheet.takes);
    Ok(())
}
