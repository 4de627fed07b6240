//! A grid: what it is made of, its name, and its cells from a fixed seed.
use case::{Case, Diagonals, Grid, Search, Search::*};
use cases::random::Random;

const SEED: u64 = 9;

/// Times are drawn from here.
const TIMES: (f32, f32) = (1.0, 10.0);
const LIMIT_6: f32 = 100.0;
/// No way on any of the grids takes so long.
pub const LARGE_BUDGET: f32 = 1e7;
const SMALL_BUDGET: f32 = 20.0;
const CELL_SIZE: f32 = 10.0;

/// Which of the report's tables a grid belongs to.
#[derive(Clone, Copy, Debug, PartialEq, Eq)]
pub enum Table {
    Square,
    Narrow,
    Growth,
}

/// What a grid is made of.
#[derive(Clone, Debug)]
pub struct Plan {
    pub table: Table,
    pub search: Search,
    pub rows: i32,
    pub cols: i32,
    /// Targets, mask cells or amounts.
    pub starts: usize,
    /// Of a hundred cells, in search 2.
    pub obstacles: usize,
    pub diagonals: Diagonals,
    pub adjacent: bool,
    /// Of a hundred times. Without any, search 7 would have no adjacent cell to add.
    pub nodata: usize,
    /// Every so many rows and columns the times are nodata, so that the ground is in pieces.
    pub walls: Option<i32>,
    pub limit: f32,
}

impl Plan {
    /// A grid with the search's limit and nothing in the way.
    pub fn new(table: Table, search: Search, (rows, cols): (i32, i32), starts: usize) -> Plan {
        let limit = match search {
            DistancesUpTo | TravelDistancesUpTo => f32::INFINITY,
            ValueAtClosestLessThanTravelTarget => LIMIT_6,
            SumWithinTravelDistance => LARGE_BUDGET,
            SumTargetsWithinTravelDistance => SMALL_BUDGET,
            DistanceWithObstacles | ValueAtClosestTarget | ValueAtClosestTravelTarget => 0.0,
        };
        Plan {
            table,
            search,
            rows,
            cols,
            starts,
            obstacles: 0,
            diagonals: Diagonals::Include,
            adjacent: false,
            nodata: 0,
            walls: None,
            limit,
        }
    }

    /// How many cells it has.
    pub fn cells(&self) -> usize {
        self.rows as usize * self.cols as usize
    }

    /// All that the grid is made of, so that no two grids have one name.
    pub fn name(&self) -> String {
        let starts = match (self.search, self.starts) {
            (SumWithinTravelDistance, 1) => "mask cell",
            (SumWithinTravelDistance, _) => "mask cells",
            (SumTargetsWithinTravelDistance, 1) => "amount",
            (SumTargetsWithinTravelDistance, _) => "amounts",
            (_, 1) => "target",
            _ => "targets",
        };
        let mut name = format!("{}, {} by {}, {} {starts}", self.search.number(), self.rows, self.cols, self.starts);
        if self.search.has_obstacles() {
            name += &format!(", {} % obstacles, {:?}", self.obstacles, self.diagonals);
        }
        if self.nodata > 0 {
            name += &format!(", {} % nodata", self.nodata);
        }
        if let Some(every) = self.walls {
            name += &format!(", walls every {every} cells");
        }
        if self.search.has_limit() && self.limit.is_finite() {
            let limit = if self.search.has_budget() { "budget" } else { "limit" };
            name += &format!(", {limit} {}", self.limit);
        }
        if self.search.has_adjacent() {
            name += if self.adjacent { ", adjacent" } else { ", not adjacent" };
        }
        name
    }

    /// The grid itself. Starts are on open ground, so that each leads somewhere.
    pub fn case(&self) -> Case {
        let random = &mut Random::new(SEED, self.search.number().into());
        let mut case = Case::new(self.search);
        case.diagonals = self.diagonals;
        case.adjacent = self.adjacent;
        case.limit = self.limit;
        if self.search.has_cell_size() {
            case.cell_size = CELL_SIZE;
        }
        let obstacles = self.drawn(|| random.chance(self.obstacles).into());
        let mut times = self.drawn(|| if random.chance(self.nodata) { f32::NAN } else { between(random, TIMES) });
        self.build_walls(&mut times);
        let mut starts = self.drawn(|| 0u8);
        let mut left = self.starts;
        while left > 0 {
            let at = random.below(self.cells());
            if starts.cells[at] == 0 && obstacles.cells[at] == 0 && !times.cells[at].is_nan() {
                starts.cells[at] = 1;
                left -= 1;
            }
        }
        if self.search.has_values() {
            let mut values = self.drawn(|| between(random, (1.0, 1000.0)));
            if !self.search.has_targets() {
                values.cells.iter_mut().zip(&starts.cells).for_each(|(amount, &start)| *amount *= f32::from(start));
            }
            case.values = Some(values);
        }
        case.targets = self.search.has_targets().then_some(starts);
        case.obstacles = self.search.has_obstacles().then_some(obstacles);
        case.times = self.search.has_times().then_some(times);
        case
    }

    /// Makes the times of every so many rows and columns nodata.
    fn build_walls(&self, times: &mut Grid<f32>) {
        let Some(every) = self.walls else { return };
        let indices = (0..self.rows).flat_map(|row| (0..self.cols).map(move |col| (row, col)));
        for (time, (row, col)) in times.cells.iter_mut().zip(indices) {
            if row % every == 0 || col % every == 0 {
                *time = f32::NAN;
            }
        }
    }

    /// A grid of cells drawn one by one in row order.
    fn drawn<T>(&self, cell: impl FnMut() -> T) -> Grid<T> {
        Grid { rows: self.rows, cols: self.cols, cells: std::iter::repeat_with(cell).take(self.cells()).collect() }
    }
}

/// A number from low to below high, in a million steps.
fn between(random: &mut Random, (low, high): (f32, f32)) -> f32 {
    const PARTS: usize = 1 << 20;
    low + (high - low) * random.below(PARTS) as f32 / PARTS as f32
}
