//! The true distances of a case, by trying every step until nothing changes. They serve to place limits exactly at and
//! beside a distance, and judge nothing.
use case::{Case, Search};

use crate::random::Random;

/// The distances above 0 of the cells that are reached: from all targets, or in searches 7 and 8 from one start.
pub fn distances(case: &Case, random: &mut Random) -> Vec<f32> {
    let (rows, cols) = case.size();
    let n = (rows * cols) as usize;
    let starts = starts(case);
    if starts.is_empty() || n > 1_024 {
        return Vec::new();
    }
    let mut distance = vec![f32::INFINITY; n];
    if case.search.has_budget() {
        distance[random.pick(&starts)] = 0.0;
    } else {
        starts.iter().for_each(|&start| distance[start] = 0.0);
    }
    while pass(case, &mut distance) {}
    distance.retain(|&distance| distance > 0.0 && distance.is_finite());
    distance
}

fn starts(case: &Case) -> Vec<usize> {
    let amounts = case.values.as_ref().filter(|_| case.search == Search::SumTargetsWithinTravelDistance);
    match (amounts, &case.targets) {
        (Some(amounts), _) => (0..amounts.cells.len()).filter(|&at| amounts.cells[at].abs() > 0.0).collect(),
        (None, Some(targets)) => (0..targets.cells.len()).filter(|&at| targets.cells[at] != 0).collect(),
        (None, None) => Vec::new(),
    }
}

/// One step from each cell to each of its neighbours; whether a distance fell.
fn pass(case: &Case, distance: &mut [f32]) -> bool {
    let (rows, cols) = case.size();
    let mut fell = false;
    for from in 0..distance.len() as i32 {
        let (row, col) = (from / cols, from % cols);
        for r in (row - 1).max(0)..(row + 2).min(rows) {
            for c in (col - 1).max(0)..(col + 2).min(cols) {
                let step = if r == row || c == col { 1.0 } else { std::f32::consts::SQRT_2 };
                let to = (r * cols + c) as usize;
                let new = distance[from as usize] + cost(case, step, from as usize, to);
                if distance[to] > new {
                    distance[to] = new;
                    fell = true;
                }
            }
        }
    }
    fell
}

fn cost(case: &Case, step: f32, from: usize, to: usize) -> f32 {
    let time = |at: usize| case.times.as_ref().map_or(1.0, |times| times.cells[at]);
    match case.search {
        Search::TravelDistancesUpTo | Search::SumWithinTravelDistance => step / 2.0 * (time(from) + time(to)),
        _ => step * time(to),
    }
}
