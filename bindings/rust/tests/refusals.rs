//! Each refusal as a caller meets it, with its number and its message.
use haul::*;

/// The call is refused by this number, in these words.
fn refused(sheet: Result<Sheet, Refusal>, number: u32, message: &str) {
    let refusal = sheet.expect_err("the call is refused");
    assert_eq!((refusal.number(), refusal.to_string().as_str()), (number, message));
}

#[test]
fn sizes() {
    let message = "a grid's size is out of bounds: 0 to 32,767 rows, 0 to 32,767 columns, at most 1,048,576 cells";
    for (rows, columns) in [(-1, 1), (1, -1), (32_768, 1), (1025, 1024), (i32::MIN, i32::MIN), (i32::MAX, i32::MAX)] {
        refused(distances_up_to(Grid::new(rows, columns, &[1]), 1.0, 9.0), 1, message);
    }
    let (lying, upright) = (Grid::new(2, 3, &[0; 6]), Grid::new(3, 2, &[0; 6]));
    let sheet = distance_with_obstacles(lying, upright, 1.0, BarrierDiagonals::Include);
    refused(sheet, 2, "two grids differ in rows or columns");
}

#[test]
fn lengths() {
    let message = "a grid or the answer has more or fewer cells than its rows and columns make";
    refused(distances_up_to(Grid::new(1, 2, &[1]), 1.0, 9.0), 3, message);
    refused(distances_up_to(Grid::new(1, 2, &[1, 0, 0]), 1.0, 9.0), 3, message);
    let more_than_any_grid = vec![0; raw::CELLS_MAX + 1];
    refused(distances_up_to(Grid::new(1024, 1024, &more_than_any_grid), 1.0, 9.0), 3, message);
    let (targets, values) = (Grid::new(1, 2, &[1, 0]), Grid::new(1, 2, &[1.0]));
    refused(value_at_closest_target(targets, values), 3, message);
}

#[test]
fn numbers() {
    let cell = Grid::new(1, 1, &[1]);
    for cell_size in [0.0, -1.0, f32::INFINITY, f32::NAN] {
        refused(distances_up_to(cell, cell_size, 9.0), 4, "the cell size is not a finite number above 0");
    }
    let message = "the limit is NaN, or it is a budget and not above 0";
    refused(distances_up_to(cell, 1.0, f32::NAN), 5, message);
    let ground = Grid::new(1, 1, &[1.0]);
    refused(sum_within_travel_distance(cell, ground, ground, 0.0, false), 5, message);
    refused(sum_targets_within_travel_distance(ground, ground, -1.0), 5, message);
}

/// Rows and columns of the cell that a refusal names, on a grid that is not square.
#[test]
fn places() {
    let targets = Grid::new(2, 3, &[0, 0, 0, 0, 0, 1]);
    let times = [1.0, 1.0, -0.0, f32::NAN, -2.0, -3.0];
    let sheet = travel_distances_up_to(targets, Grid::new(2, 3, &times), f32::INFINITY);
    assert_eq!(sheet, Err(Refusal::NegativeTime(Place { index: 4, row: 1, column: 1 })));
    refused(sheet, 6, "the time at row 1, column 1 is below 0");

    let ground = Grid::new(2, 3, &[1.0; 6]);
    let sheet = sum_within_travel_distance(targets, ground, ground, 2.0, false);
    assert_eq!(sheet, Err(Refusal::OverBudget(Place { index: 5, row: 1, column: 2 })));
    let message = "from the mask cell at row 1, column 2 a cell is reached whose travel time is above the budget";
    refused(sheet, 7, message);
}
