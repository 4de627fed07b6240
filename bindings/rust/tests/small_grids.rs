//! Document 01's small grids A to M, as they stand there, through the functions that allocate.
use haul::*;

const NAN: f32 = f32::NAN;
const INF: f32 = f32::INFINITY;

fn row<T>(cells: &[T]) -> Grid<'_, T> {
    Grid::new(1, cells.len() as i32, cells)
}

fn square<T>(cells: &[T; 4]) -> Grid<'_, T> {
    Grid::new(2, 2, cells)
}

/// The sheet has these cells.
fn holds(sheet: Result<Sheet, Refusal>, cells: &[f32]) -> Sheet {
    let sheet = sheet.unwrap_or_else(|refusal| panic!("refused: {refusal}"));
    assert_eq!(sheet.cells, cells);
    assert_eq!(sheet.cells.len() as i32, sheet.rows * sheet.columns);
    sheet
}

#[test]
fn a_and_b_plain() {
    let plain = |limit| distances_up_to(row(&[1, 0, 0]), 1.0, limit);
    assert_eq!(holds(plain(INF), &[0.0, 1.0, 2.0]).takes, 3);
    assert_eq!(holds(plain(2.0), &[0.0, 1.0, 2.0]).takes, 2);
}

#[test]
fn c_no_way_between_two_corners() {
    let exclude = BarrierDiagonals::Exclude;
    let sheet = distance_with_obstacles(square(&[1, 0, 0, 0]), square(&[0, 1, 1, 0]), 1.0, exclude);
    assert_eq!(holds(sheet, &[0.0, INF, INF, INF]).takes, 1);
}

#[test]
fn d_a_target_on_an_obstacle_starts() {
    let both = row(&[1, 0, 0]);
    holds(distance_with_obstacles(both, both, 1.0, BarrierDiagonals::Include), &[0.0, 1.0, 2.0]);
    holds(distance_with_obstacles(both, both, 1.0, BarrierDiagonals::Exclude), &[0.0, 1.0, 2.0]);
}

#[test]
fn e_half_the_step_times_both_times() {
    holds(travel_distances_up_to(row(&[1, 0]), row(&[2.0, 4.0]), INF), &[0.0, 3.0]);
}

#[test]
fn f_and_g_255_starts_in_5_and_not_in_4() {
    let (targets, values) = (row(&[255, 0]), row(&[7.0, 9.0]));
    holds(value_at_closest_travel_target(targets, row(&[2.0, 4.0]), values), &[7.0, 7.0]);
    assert_eq!(holds(value_at_closest_target(targets, values), &[0.0, 0.0]).takes, 0);
}

#[test]
fn h_the_limit_is_exclusive() {
    let (targets, times, values) = (row(&[1, 0]), row(&[2.0, 4.0]), row(&[7.0, 9.0]));
    holds(value_at_closest_less_than_travel_target(targets, times, values, 4.0), &[7.0, 0.0]);
    holds(value_at_closest_less_than_travel_target(targets, times, values, 4.5), &[7.0, 7.0]);
}

#[test]
fn i_and_j_sums_from_a_mask_cell() {
    let (mask, values) = (row(&[1, 0]), row(&[7.0, 9.0]));
    let times = row(&[2.0, 4.0]);
    holds(sum_within_travel_distance(mask, times, values, 3.0, false), &[16.0, 0.0]);
    let refused = sum_within_travel_distance(mask, times, values, 2.5, false);
    assert_eq!(refused, Err(Refusal::OverBudget(Place { index: 0, row: 0, column: 0 })));
    let times = row(&[2.0, NAN]);
    holds(sum_within_travel_distance(mask, times, values, 3.0, true), &[16.0, 0.0]);
    holds(sum_within_travel_distance(mask, times, values, INF, true), &[7.0, 0.0]);
}

#[test]
fn k_to_m_amounts() {
    let sums = |times: [f32; 2], limit| sum_targets_within_travel_distance(row(&times), row(&[5.0, 0.0]), limit);
    holds(sums([2.0, 4.0], 4.0), &[5.0, 5.0]);
    assert_eq!(holds(sums([2.0, 4.0], 3.5), &[5.0, 0.0]).takes, 2);
    assert_eq!(holds(sums([2.0, 4.0], 3.0), &[5.0, 0.0]).takes, 1);
    holds(sums([0.0, 16_777_216.0], 16_777_216.0), &[5.0, 0.0]);
    assert_eq!(holds(sums([NAN, 4.0], 9.0), &[0.0, 0.0]).takes, 0);
}
