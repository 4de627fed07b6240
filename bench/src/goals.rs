//! The goals: the most that our processor time, with buffers lent ready, may be of the Rust's.
use case::Search::*;

use crate::plan::{Plan, Table};
use crate::served::Memory::{self, Cold, Warm};
use crate::sides::Units;
use crate::times::Way;

/// Grids that have the same goals.
#[derive(Debug, PartialEq)]
pub struct Group {
    pub name: &'static str,
    /// What both Rusts find: warm where they were so in the runs that the goals were set by.
    pub memory: Memory,
    /// Against the Rust as cargo builds it.
    pub cargo: f64,
    /// Against the Rust in one codegen unit.
    pub one_unit: Option<f64>,
}

impl Group {
    /// A build of the Rust with the group's memory.
    pub fn rust(&self, units: Units) -> Way {
        Way::Rust(units, self.memory)
    }
}

pub const GROUPS: [Group; 9] = [
    Group { name: "1", memory: Cold, cargo: 0.42, one_unit: Some(1.0) },
    Group { name: "1, one cell in a hundred a target", memory: Cold, cargo: 0.55, one_unit: Some(1.0) },
    Group { name: "2", memory: Cold, cargo: 0.36, one_unit: Some(1.0) },
    Group { name: "3, 4 and 5", memory: Cold, cargo: 0.4, one_unit: Some(1.0) },
    Group { name: "6", memory: Cold, cargo: 0.55, one_unit: Some(1.0) },
    Group { name: "7, everything reached", memory: Cold, cargo: 0.5, one_unit: Some(1.0) },
    Group { name: "7, ground in pieces, beside the warm Rust", memory: Warm, cargo: 1.0, one_unit: Some(1.3) },
    Group { name: "8, until it clears only what it touches", memory: Cold, cargo: 1.0, one_unit: None },
    Group { name: "narrow, beside the warm Rust", memory: Warm, cargo: 1.0, one_unit: None },
];

/// The group of a grid.
pub fn group(plan: &Plan) -> &'static Group {
    let at = match (plan.table, plan.search) {
        (Table::Narrow, _) => 8,
        (_, DistancesUpTo) => usize::from(plan.starts * 200 > plan.cells()),
        (_, DistanceWithObstacles) => 2,
        (_, TravelDistancesUpTo | ValueAtClosestTarget | ValueAtClosestTravelTarget) => 3,
        (_, ValueAtClosestLessThanTravelTarget) => 4,
        (_, SumWithinTravelDistance) => 5 + usize::from(plan.walls.is_some()),
        (_, SumTargetsWithinTravelDistance) => 7,
    };
    &GROUPS[at]
}
