//! The grids of a run: the same kinds, as large as what is measured allows.
use std::time::Duration;

use case::{Diagonals, Search, Search::*};

use crate::plan::{LARGE_BUDGET, Plan, Table};

/// The most cells of a narrow grid for search 7: from one mask cell it takes over three seconds on 32,767 by 32.
const MASK_CELLS_MAX: usize = 100_000;

/// How far the walls are apart that leave the ground in pieces.
const WALLS: [i32; 2] = [8, 32];

/// How large the grids are.
#[derive(Debug)]
pub struct Scale {
    square: i32,
    /// The side, and the mask cells or amounts, of the grids that are flooded from each of them.
    flooded: (i32, usize),
    narrow: [(i32, i32); 2],
    growth: &'static [i32],
    /// A grid gets more than nine rounds until so much time is spent on it.
    pub time: Duration,
}

pub const FULL: Scale = Scale {
    square: 1024,
    flooded: (64, 100),
    narrow: [(30_000, 2), (32_767, 32)],
    growth: &[64, 128, 256, 512, 1024],
    time: Duration::from_millis(500),
};

/// What callgrind runs in a few seconds a grid.
pub const COUNTED: Scale =
    Scale { square: 256, flooded: (64, 10), narrow: [(30_000, 2), (2048, 32)], growth: &[], time: Duration::ZERO };

pub const SMALL: Scale =
    Scale { square: 32, flooded: (16, 4), narrow: [(64, 2), (64, 8)], growth: &[8, 16], time: Duration::ZERO };

/// All grids of a scale.
pub fn plans(scale: &Scale) -> Vec<Plan> {
    [square(scale), pieces(scale), flooded(scale), narrow(scale), growth(scale)].concat()
}

/// The grid of this name, of any scale: a started process makes its grid anew.
pub fn named(name: &str) -> Result<Plan, String> {
    let mut all = [FULL, COUNTED, SMALL].iter().flat_map(plans).chain(gated());
    all.find(|plan| plan.name() == name).ok_or_else(|| format!("no grid is named {name:?}"))
}

/// Small grids for the gate: each search once, and again where another way of it has other instructions.
pub fn gated() -> Vec<Plan> {
    let on = |side, starts| move |search| Plan::new(Table::Square, search, (side, side), starts);
    let wide = on(64, 4);
    let searches = Search::ALL.into_iter().filter(|search| !search.has_budget()).map(wide);
    let mut plans: Vec<Plan> = searches.flat_map(|plan| with_both_diagonals(plan, 20)).collect();
    plans.extend(with_and_without_adjacent(Plan { nodata: 5, ..on(24, 4)(SumWithinTravelDistance) }));
    plans.push(Plan { walls: Some(8), ..on(64, 16)(SumWithinTravelDistance) });
    plans.push(Plan { limit: LARGE_BUDGET, ..on(24, 4)(SumTargetsWithinTravelDistance) });
    plans.push(on(64, 16)(SumTargetsWithinTravelDistance));
    plans.extend([DistancesUpTo, TravelDistancesUpTo].map(|search| Plan::new(Table::Narrow, search, (1000, 2), 4)));
    plans
}

impl Scale {
    /// As densely as so many starts lie in 1024 by 1024 cells.
    fn share(&self, starts: usize) -> usize {
        (starts * (self.square * self.square) as usize / (1024 * 1024)).max(1)
    }
}

/// Searches 1 to 6 from one target, from a hundred and from ten thousand in 1024 by 1024 cells, and as densely in fewer;
/// search 8 from a thousand amounts with a small budget.
fn square(scale: &Scale) -> Vec<Plan> {
    let size = (scale.square, scale.square);
    let mut counts = vec![1, scale.share(100), scale.share(10_000)];
    counts.dedup();
    let of = |search| counts.iter().map(|&starts| Plan::new(Table::Square, search, size, starts)).collect::<Vec<_>>();
    let past = |obstacles, diagonals| {
        let plans = of(DistanceWithObstacles).into_iter();
        plans.map(|plan| Plan { obstacles, diagonals, ..plan }).collect::<Vec<_>>()
    };
    let mut plans = of(DistancesUpTo);
    for obstacles in [5, 20, 40] {
        plans.extend(past(obstacles, Diagonals::Include));
        plans.extend(past(obstacles, Diagonals::Exclude));
    }
    for search in
        [TravelDistancesUpTo, ValueAtClosestTarget, ValueAtClosestTravelTarget, ValueAtClosestLessThanTravelTarget]
    {
        plans.extend(of(search));
    }
    plans.push(Plan::new(Table::Square, SumTargetsWithinTravelDistance, size, scale.share(1000)));
    plans
}

/// Search 7 where walls leave each mask cell a small piece of the ground.
fn pieces(scale: &Scale) -> Vec<Plan> {
    let size = (scale.square, scale.square);
    let open = Plan::new(Table::Square, SumWithinTravelDistance, size, scale.share(1000));
    WALLS.into_iter().flat_map(|every| with_and_without_adjacent(Plan { walls: Some(every), ..open.clone() })).collect()
}

/// Searches 7 and 8 where each mask cell or amount reaches nearly every cell.
fn flooded(scale: &Scale) -> Vec<Plan> {
    let (side, starts) = scale.flooded;
    let of = |search| Plan::new(Table::Square, search, (side, side), starts);
    let mut plans = with_and_without_adjacent(Plan { nodata: 5, ..of(SumWithinTravelDistance) });
    plans.push(Plan { limit: LARGE_BUDGET, ..of(SumTargetsWithinTravelDistance) });
    plans
}

/// A grid of search 7 as it is, and with the cells beside those reached.
fn with_and_without_adjacent(plan: Plan) -> Vec<Plan> {
    [false, true].map(|adjacent| Plan { adjacent, ..plan.clone() }).to_vec()
}

/// All searches on long grids, all cells of which are at an edge or nearly so.
fn narrow(scale: &Scale) -> Vec<Plan> {
    let starts = |search| if search == SumWithinTravelDistance { 1 } else { 20 };
    let mut plans = vec![];
    for size in scale.narrow {
        for search in Search::ALL {
            let plan = Plan::new(Table::Narrow, search, size, starts(search));
            if search != SumWithinTravelDistance || plan.cells() <= MASK_CELLS_MAX {
                plans.extend(with_both_diagonals(plan, 5));
            }
        }
    }
    plans
}

/// A grid with both choices of diagonals and so many obstacles, where the search has them.
fn with_both_diagonals(plan: Plan, obstacles: usize) -> Vec<Plan> {
    if !plan.search.has_diagonals() {
        return vec![plan];
    }
    [Diagonals::Include, Diagonals::Exclude].map(|diagonals| Plan { obstacles, diagonals, ..plan.clone() }).to_vec()
}

/// Searches 1 and 3 on squares from small to large, one target in 4,096 cells.
fn growth(scale: &Scale) -> Vec<Plan> {
    let on = |search, side: i32| Plan::new(Table::Growth, search, (side, side), (side as usize).pow(2).div_ceil(4096));
    [DistancesUpTo, TravelDistancesUpTo]
        .into_iter()
        .flat_map(|search| scale.growth.iter().map(move |&side| on(search, side)))
        .collect()
}

#[cfg(test)]
mod tests {
    use super::*;

    /// A grid is found by its name in a started process.
    #[test]
    fn each_grid_has_a_name_of_its_own() {
        for grids in [plans(&FULL), plans(&COUNTED), plans(&SMALL), gated()] {
            let names: Vec<String> = grids.iter().map(Plan::name).collect();
            for (at, name) in names.iter().enumerate() {
                assert!(!names[..at].contains(name), "{name}");
            }
        }
    }

    #[test]
    fn a_name_makes_the_same_grid() {
        for plan in plans(&SMALL) {
            let found = named(&plan.name()).expect("it is there");
            assert_eq!(format!("{:?}", found.case()), format!("{:?}", plan.case()));
        }
    }

    #[test]
    fn each_grid_has_its_starts() {
        for plan in plans(&SMALL) {
            let case = plan.case();
            let targets = case.targets.iter().flat_map(|grid| &grid.cells).filter(|&&target| target != 0).count();
            let amounts = case.values.iter().flat_map(|grid| &grid.cells).filter(|&&amount| amount != 0.0).count();
            let starts = if plan.search.has_targets() { targets } else { amounts };
            assert_eq!(starts, plan.starts, "{}", plan.name());
        }
    }

    /// Each piece between walls 8 apart has 7 by 7 cells, and no way leads out of it.
    #[test]
    fn walls_leave_the_ground_in_pieces() {
        let plan = pieces(&SMALL).swap_remove(0);
        let times = plan.case().times.expect("search 7 has times");
        let open = times.cells.iter().filter(|time| !time.is_nan()).count();
        assert_eq!(open, (plan.cells() / 64) * 49);
    }
}
