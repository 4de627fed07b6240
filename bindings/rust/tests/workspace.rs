//! A workspace that is kept: no call sees what another left, and a refusal leaves the answer as the library promises.
use haul::*;

const NOTHING_YET: f32 = -7.0;

/// A call in the workspace gives what the function gives that allocates.
macro_rules! as_fresh {
    ($workspace:ident.$search:ident($($argument:expr),+)) => {
        let fresh = $search($($argument),+).expect("accepted");
        let answer = &mut vec![NOTHING_YET; fresh.cells.len()];
        assert_eq!($workspace.$search($($argument,)+ answer), Ok(fresh.takes));
        assert_eq!(*answer, fresh.cells);
    };
}

#[test]
fn one_workspace_for_grids_of_any_size_and_any_search() {
    let mut workspace = Workspace::new();
    for side in [5, 1, 3, 0, 7, 2] {
        let n = (side * side) as usize;
        let targets: Vec<u8> = (0..n).map(|at| u8::from(at == n / 2)).collect();
        let ditches: Vec<u8> = (0..n).map(|at| u8::from(at % 4 == 1)).collect();
        let ground: Vec<f32> = (0..n).map(|at| (1 + at % 3) as f32).collect();
        let values: Vec<f32> = (0..n).map(|at| at as f32 - 2.0).collect();
        let [targets, ditches] = [&targets, &ditches].map(|cells| Grid::new(side, side, cells));
        let [ground, values] = [&ground, &values].map(|cells| Grid::new(side, side, cells));
        as_fresh!(workspace.distances_up_to(targets, 2.0, 9.0));
        as_fresh!(workspace.distance_with_obstacles(targets, ditches, 2.0, BarrierDiagonals::Exclude));
        as_fresh!(workspace.travel_distances_up_to(targets, ground, 4.0));
        as_fresh!(workspace.value_at_closest_target(targets, values));
        as_fresh!(workspace.value_at_closest_travel_target(targets, ground, values));
        as_fresh!(workspace.value_at_closest_less_than_travel_target(targets, ground, values, 4.0));
        as_fresh!(workspace.sum_within_travel_distance(targets, ground, values, 99.0, true));
        as_fresh!(workspace.sum_targets_within_travel_distance(ground, values, 3.0));
    }
}

#[test]
fn an_answer_of_the_wrong_length_is_refused_and_left_as_it_was() {
    let targets = Grid::new(1, 2, &[1, 0]);
    for length in [0, 1, 3] {
        let answer = &mut vec![NOTHING_YET; length];
        let refused = Workspace::new().distances_up_to(targets, 1.0, 9.0, answer);
        assert_eq!(refused, Err(Refusal::WrongLength));
        assert!(answer.iter().all(|&cell| cell == NOTHING_YET));
    }
}

#[test]
fn over_budget_leaves_the_answer_all_nan() {
    let (mask, ground) = (Grid::new(1, 3, &[1, 0, 0]), Grid::new(1, 3, &[1.0; 3]));
    let mut workspace = Workspace::new();
    let answer = &mut [NOTHING_YET; 3];
    let refused = workspace.sum_within_travel_distance(mask, ground, ground, 1.0, false, answer);
    assert_eq!(refused.map_err(Refusal::number), Err(7));
    assert_eq!(answer.map(f32::to_bits), [0x7FC0_0000; 3]);
    assert_eq!(workspace.sum_within_travel_distance(mask, ground, ground, 2.0, false, answer), Ok(3));
    assert_eq!(*answer, [3.0, 0.0, 0.0]);
}
