//! The takes counted once more, by the queue rules as document 01 has them. Both of the oracle's builds have their takes
//! from one count, so that comparing the builds does not try it; nothing of the text is used here.
use std::collections::VecDeque;

use case::{Answer, Case, Diagonals, Search};
use cases::generate::{Sizes, generate};
use oracle::{Build, Reading, answer};

const DIAGONAL: f32 = f32::from_bits(0x3FB5_04F3);

/// Row and column offset of each neighbour in the order in which it is tried, and the step's length.
const STEPS: [(i32, i32, f32); 8] = [
    (0, 1, 1.0),
    (0, -1, 1.0),
    (1, 0, 1.0),
    (-1, 0, 1.0),
    (1, 1, DIAGONAL),
    (-1, 1, DIAGONAL),
    (1, -1, DIAGONAL),
    (-1, -1, DIAGONAL),
];

/// A case's grids, read cell by cell.
struct Ground<'a> {
    case: &'a Case,
    rows: i32,
    cols: i32,
}

impl Ground<'_> {
    fn cells(&self) -> usize {
        (self.rows * self.cols) as usize
    }

    fn target(&self, cell: usize) -> u8 {
        self.case.targets.as_ref().unwrap().cells[cell]
    }

    fn time(&self, cell: usize) -> f32 {
        self.case.times.as_ref().unwrap().cells[cell]
    }

    fn value(&self, cell: usize) -> f32 {
        self.case.values.as_ref().unwrap().cells[cell]
    }

    /// Neither 0 nor 255.
    fn is_target(&self, cell: usize) -> bool {
        self.target(cell) != 0 && self.target(cell) != 255
    }

    fn is_obstacle(&self, cell: usize) -> bool {
        self.case.obstacles.as_ref().is_some_and(|obstacles| obstacles.cells[cell] != 0)
    }

    /// Whether the cells beside a diagonal step are both obstacles, and that bars the way.
    fn is_shut(&self, from: usize, down: i32, right: i32) -> bool {
        let beside = |down: i32, right: i32| self.is_obstacle((from as i32 + down * self.cols + right) as usize);
        let diagonal = down != 0 && right != 0;
        diagonal && self.case.diagonals == Diagonals::Exclude && beside(down, 0) && beside(0, right)
    }

    /// The new distance of the cell that is entered.
    fn relaxed(&self, d: f32, step: f32, from: usize, to: usize) -> f32 {
        match self.case.search.number() {
            1 | 2 | 4 => d + step,
            3 | 7 => d + (step / 2.0) * (self.time(from) + self.time(to)),
            8 if self.time(to).is_nan() => d + step * (f32::MAX / 4.0),
            _ => d + step * self.time(to),
        }
    }

    /// How many cells are taken from a queue that these begin, where other cells begin with these distances. A NaN is
    /// greater than nothing, so that a cell with one is never entered.
    fn takes(&self, starts: &[usize], mut distances: Vec<f32>) -> u64 {
        let mut queue = VecDeque::new();
        for start in starts {
            distances[*start] = 0.0;
            queue.push_back(*start);
        }
        let mut takes = 0;
        while let Some(cell) = queue.pop_front() {
            takes += 1;
            let (row, column) = (cell as i32 / self.cols, cell as i32 % self.cols);
            for (down, right, step) in STEPS {
                let (row, column) = (row + down, column + right);
                if !(0..self.rows).contains(&row) || !(0..self.cols).contains(&column) {
                    continue;
                }
                let next = (row * self.cols + column) as usize;
                let new = self.relaxed(distances[cell], step, cell, next);
                if self.is_obstacle(next) || self.is_shut(cell, down, right) {
                    continue;
                }
                if distances[next] > new {
                    distances[next] = new;
                    if !queue.contains(&next) {
                        queue.push_back(next);
                    }
                }
            }
        }
        takes
    }

    /// One search from all cells that are started from; a cell that is barred begins with NaN, others with the cap.
    fn from_all(&self, starts: impl Fn(usize) -> bool, barred: impl Fn(usize) -> bool, cap: f32) -> u64 {
        let distances = (0..self.cells()).map(|cell| if barred(cell) { f32::NAN } else { cap }).collect();
        let starts: Vec<usize> = (0..self.cells()).filter(|cell| starts(*cell) && !barred(*cell)).collect();
        self.takes(&starts, distances)
    }

    /// A search from each of these cells alone, unless its time is nodata.
    fn from_each(&self, starts: impl Fn(usize) -> bool, cap: f32) -> u64 {
        let starts = (0..self.cells()).filter(|cell| starts(*cell) && !self.time(*cell).is_nan());
        starts.map(|start| self.takes(&[start], vec![cap; self.cells()])).sum()
    }
}

/// The takes of a case that is accepted.
fn takes(case: &Case) -> u64 {
    let (rows, cols) = case.size();
    let ground = &Ground { case, rows, cols };
    let is_target = |cell| ground.is_target(cell);
    let is_nonzero = |cell| ground.target(cell) != 0;
    let no_value = |cell| ground.value(cell).is_nan();
    match case.search.number() {
        1 => ground.from_all(is_target, |cell| ground.target(cell) == 255, case.limit),
        2 => ground.from_all(is_target, |_| false, f32::INFINITY),
        3 => ground.from_all(is_target, |cell| ground.target(cell) == 255 || ground.time(cell).is_nan(), case.limit),
        4 => ground.from_all(is_target, |_| false, ground.cells() as f32 + 1.0),
        5 => ground.from_all(is_nonzero, no_value, f32::INFINITY),
        6 => ground.from_all(is_nonzero, no_value, case.limit),
        7 => ground.from_each(is_target, f32::INFINITY),
        _ => ground.from_each(|cell| !no_value(cell) && ground.value(cell) != 0.0, case.limit + 1.0),
    }
}

#[test]
fn both_builds_have_the_takes_of_the_queue_rules() {
    let mut more_than_cells = 0;
    for search in Search::ALL {
        let mut accepted = 0;
        for index in 0..1_000 {
            let case = generate(search, Sizes::Stored, 23, index);
            for build in [Build::Unchanged, Build::Counted] {
                if let Answer::Accepted { takes: told, .. } = answer(&case, build, Reading::Document) {
                    assert_eq!(told, takes(&case), "search {}, seed 23, index {index}", search.number());
                    accepted += 1;
                    more_than_cells += u64::from(told > case.grids()[0].2 as u64);
                }
            }
        }
        assert!(accepted > 600, "search {}: only {accepted} of 2,000", search.number());
    }
    assert!(more_than_cells > 600, "only {more_than_cells}");
}
