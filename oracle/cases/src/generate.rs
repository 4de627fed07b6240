//! Cases for each search: what is drawn, and how often it is broken.
use case::{Case, Diagonals, Grid, Search};

use crate::nearest::distances;
use crate::random::Random;
use crate::values;

/// How large the grids are.
#[derive(Clone, Copy, Debug, PartialEq, Eq)]
pub enum Sizes {
    /// Every size from 1 by 1 to 6 by 6 in turn, now and then an empty one, each fourth case larger, to 1,024 cells.
    File,
    /// As above, each fourth case only to 12 by 12, each hundredth 32 by 32: for the list that is stored.
    Stored,
    /// 10,000 cells.
    Large,
}

/// In searches 7 and 8 each start is a search of its own, so that larger grids get fewer.
const CELLS_TIMES_STARTS: usize = 20_000;

/// The case with this index of this seed's list.
pub fn generate(search: Search, sizes: Sizes, seed: u64, index: u64) -> Case {
    let random = &mut Random::new(seed ^ u64::from(search.number()) << 56, index);
    let (rows, cols) = size(random, sizes, index as usize);
    let mut case = Case::new(search);
    if random.chance(20) {
        keen(random, &mut case, rows, cols);
    } else {
        any(random, &mut case, rows, cols);
    }
    spoil(random, &mut case);
    case
}

/// Grids of any kind.
fn any(random: &mut Random, case: &mut Case, rows: usize, cols: usize) {
    let search = case.search;
    let n = rows * cols;
    let starts = if n <= 36 { n } else { CELLS_TIMES_STARTS / n };
    if search.has_targets() {
        let mut cells = values::targets(random, n);
        if search == Search::SumWithinTravelDistance {
            values::thin_out(random, &mut cells, 0, starts);
        }
        case.targets = Some(grid(rows, cols, cells));
    }
    if search.has_obstacles() {
        case.obstacles = Some(grid(rows, cols, values::obstacles(random, rows, cols)));
        case.diagonals = random.pick(&[Diagonals::Include, Diagonals::Exclude]);
    }
    if search.has_times() {
        case.times = Some(grid(rows, cols, values::times(random, n)));
    }
    if search.has_values() {
        let mut cells = values::values(random, n);
        if search == Search::SumTargetsWithinTravelDistance {
            let most = random.below(starts + 1);
            values::thin_out(random, &mut cells, 0.0, most);
        }
        case.values = Some(grid(rows, cols, cells));
    }
    case.adjacent = search.has_adjacent() && random.chance(50);
    if search.has_cell_size() {
        case.cell_size = values::cell_size(random);
    }
    if search.has_limit() {
        let distances = distances(case, random);
        case.limit = values::limit(random, &distances);
    }
}

/// One start, times with all their digits and a limit exactly at the distance of the farthest cell, on whose way most
/// was rounded: the grids that tell one rounding from another.
fn keen(random: &mut Random, case: &mut Case, rows: usize, cols: usize) {
    let search = case.search;
    let n = rows * cols;
    let start = random.below(n.max(1));
    let alone = |at: usize| at == start;
    case.targets = search.has_targets().then(|| grid(rows, cols, (0..n).map(|at| alone(at) as u8).collect()));
    case.obstacles = search.has_obstacles().then(|| grid(rows, cols, vec![0; n]));
    case.times = search.has_times().then(|| grid(rows, cols, (0..n).map(|_| values::all_digits(random)).collect()));
    let amounts = search == Search::SumTargetsWithinTravelDistance;
    let value = |at: usize| if amounts && !alone(at) { 0.0 } else { (1 + at) as f32 };
    case.values = search.has_values().then(|| grid(rows, cols, (0..n).map(value).collect()));
    case.cell_size = if search.has_cell_size() { 1.0 } else { 0.0 };
    if search.has_limit() {
        let distances = distances(case, random);
        case.limit = distances.into_iter().reduce(f32::max).unwrap_or(1.0);
    }
}

/// A case of search 7 with adjacent cells, to 4 by 4: most times are nodata, so that there is much beside what is reached,
/// the budget is above every distance, and the values beside are so large that the ones before them are lost or not, so that
/// another order of adding them tells.
pub fn beside(seed: u64, index: u64) -> Case {
    let random = &mut Random::new(seed ^ 7 << 40, index);
    let (rows, cols) = (1 + index as usize % 4, 1 + index as usize / 4 % 4);
    let n = rows * cols;
    let mut case = Case::new(Search::SumWithinTravelDistance);
    case.targets = Some(grid(rows, cols, (0..n).map(|_| random.chance(30) as u8).collect()));
    let time = |random: &mut Random| if random.chance(60) { values::any_nan(random) } else { random.below(10) as f32 };
    let times: Vec<f32> = (0..n).map(|_| time(random)).collect();
    let beside = [16_777_216.0, -16_777_216.0];
    let values = times.iter().map(|time| if time.is_nan() { random.pick(&beside) } else { 1.0 }).collect();
    case.times = Some(grid(rows, cols, times));
    case.values = Some(grid(rows, cols, values));
    case.adjacent = true;
    case.limit = 1000.0;
    case
}

fn size(random: &mut Random, sizes: Sizes, index: usize) -> (usize, usize) {
    let small = index / 4 * 3 + index % 4;
    let to_6_by_6 = (1 + small % 6, 1 + small / 6 % 6);
    match sizes {
        Sizes::Large => random.pick(&[(100, 100), (1, 10_000), (10_000, 1), (50, 200), (2, 5_000)]),
        _ if random.chance(5) => random.pick(&[(0, 0), (0, 1), (1, 0), (0, to_6_by_6.1), (to_6_by_6.0, 0)]),
        _ if index % 4 != 3 => to_6_by_6,
        Sizes::Stored if index % 100 == 99 => (32, 32),
        Sizes::Stored => (1 + random.below(12), 1 + random.below(12)),
        Sizes::File if random.chance(4) => random.pick(&[(1, 1024), (1024, 1), (2, 512), (341, 3)]),
        Sizes::File => (1 + random.below(32), 1 + random.below(32)),
    }
}

fn grid<T>(rows: usize, cols: usize, cells: Vec<T>) -> Grid<T> {
    Grid { rows: rows as i32, cols: cols as i32, cells }
}

/// Now and then a case is broken, so that each refusal comes up, also two at once.
fn spoil(random: &mut Random, case: &mut Case) {
    if random.chance(6)
        && let Some(times) = case.times.as_mut().filter(|times| !times.cells.is_empty())
    {
        for _ in 0..1 + random.below(2) {
            let at = random.below(times.cells.len());
            times.cells[at] = values::below_zero(random);
        }
    }
    let which = random.below(case.grids().len());
    if random.chance(4) {
        let more = random.chance(50);
        with_grid(case, which, Lengthen { more });
    }
    if random.chance(3) {
        let side = random.pick(&[-1, i32::MIN, 32_767, 32_768, 65_535, i32::MAX]);
        let swap = random.chance(50);
        for each in 0..case.grids().len() {
            let (rows, cols) = if random.chance(95) { (0, side) } else { (1, side) };
            with_grid(case, each, Resize { rows, cols, swap });
        }
    }
    if random.chance(3) {
        let (rows, cols, _) = case.grids()[which];
        let swap = random.chance(60);
        let rows = if swap { rows } else { rows.saturating_add(1) };
        with_grid(case, which, Resize { rows, cols, swap });
    }
}

struct Lengthen {
    more: bool,
}

struct Resize {
    rows: i32,
    cols: i32,
    swap: bool,
}

trait Change {
    fn change<T: Copy + Default>(self, grid: &mut Grid<T>);
}

impl Change for Lengthen {
    /// One cell more or fewer than the size says.
    fn change<T: Copy + Default>(self, grid: &mut Grid<T>) {
        if self.more || grid.cells.pop().is_none() {
            grid.cells.push(T::default());
        }
    }
}

impl Change for Resize {
    fn change<T: Copy + Default>(self, grid: &mut Grid<T>) {
        (grid.rows, grid.cols) = if self.swap { (self.cols, self.rows) } else { (self.rows, self.cols) };
        if i64::from(grid.rows) * i64::from(grid.cols) == 0 {
            grid.cells.clear();
        }
    }
}

/// The change on the grid with this number, in the order of the file's tags.
fn with_grid(case: &mut Case, which: usize, change: impl Change) {
    let bytes = case.targets.is_some() as usize + case.obstacles.is_some() as usize;
    if which < bytes {
        let grids = [&mut case.targets, &mut case.obstacles];
        change.change(grids.into_iter().flatten().nth(which).expect("the grid is there"));
    } else {
        let grids = [&mut case.times, &mut case.values];
        change.change(grids.into_iter().flatten().nth(which - bytes).expect("the grid is there"));
    }
}
