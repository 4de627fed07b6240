//! Work buffers that are kept between calls.
use crate::raw::{self, CELLS_MAX, Lent};
use crate::{BarrierDiagonals, Grid, Refusal};

/// Work buffers for searches of any kind and size. They grow with the largest grid, and no call sees what another left.
///
/// Each search is a method with the name and the arguments of the crate's function, which says what it answers. The
/// caller lends a slice for the answer, one place a cell, and is given the takes. A refused call leaves that slice as
/// it was, save that [`Refusal::OverBudget`] leaves it all NaN.
#[derive(Clone, Debug, Default)]
pub struct Workspace {
    distances: Vec<f32>,
    marks: Vec<u8>,
    listed: Vec<u32>,
    adjacent: Vec<u32>,
    added: Vec<u8>,
    queue: Vec<u32>,
}

impl Workspace {
    pub fn new() -> Workspace {
        Workspace::default()
    }

    /// See [`distances_up_to`](crate::distances_up_to).
    pub fn distances_up_to(
        &mut self,
        targets: Grid<u8>,
        cell_size: f32,
        limit: f32,
        answer: &mut [f32],
    ) -> Result<u64, Refusal> {
        self.search(targets, answer, |lent, takes, index| {
            raw::distances_up_to(targets, cell_size, limit, lent, takes, index)
        })
    }

    /// See [`distance_with_obstacles`](crate::distance_with_obstacles).
    pub fn distance_with_obstacles(
        &mut self,
        targets: Grid<u8>,
        obstacles: Grid<u8>,
        cell_size: f32,
        diagonals: BarrierDiagonals,
        answer: &mut [f32],
    ) -> Result<u64, Refusal> {
        let exclude = u32::from(diagonals == BarrierDiagonals::Exclude);
        self.search(targets, answer, |lent, takes, index| {
            raw::distance_with_obstacles(targets, obstacles, cell_size, exclude, lent, takes, index)
        })
    }

    /// See [`travel_distances_up_to`](crate::travel_distances_up_to).
    pub fn travel_distances_up_to(
        &mut self,
        targets: Grid<u8>,
        times: Grid<f32>,
        limit: f32,
        answer: &mut [f32],
    ) -> Result<u64, Refusal> {
        self.search(targets, answer, |lent, takes, index| {
            raw::travel_distances_up_to(targets, times, limit, lent, takes, index)
        })
    }

    /// See [`value_at_closest_target`](crate::value_at_closest_target).
    pub fn value_at_closest_target(
        &mut self,
        targets: Grid<u8>,
        values: Grid<f32>,
        answer: &mut [f32],
    ) -> Result<u64, Refusal> {
        self.search(targets, answer, |lent, takes, index| {
            raw::value_at_closest_target(targets, values, lent, takes, index)
        })
    }

    /// See [`value_at_closest_travel_target`](crate::value_at_closest_travel_target).
    pub fn value_at_closest_travel_target(
        &mut self,
        targets: Grid<u8>,
        times: Grid<f32>,
        values: Grid<f32>,
        answer: &mut [f32],
    ) -> Result<u64, Refusal> {
        self.search(targets, answer, |lent, takes, index| {
            raw::value_at_closest_travel_target(targets, times, values, lent, takes, index)
        })
    }

    /// See [`value_at_closest_less_than_travel_target`](crate::value_at_closest_less_than_travel_target).
    pub fn value_at_closest_less_than_travel_target(
        &mut self,
        targets: Grid<u8>,
        times: Grid<f32>,
        values: Grid<f32>,
        limit: f32,
        answer: &mut [f32],
    ) -> Result<u64, Refusal> {
        self.search(targets, answer, |lent, takes, index| {
            raw::value_at_closest_less_than_travel_target(targets, times, values, limit, lent, takes, index)
        })
    }

    /// See [`sum_within_travel_distance`](crate::sum_within_travel_distance).
    pub fn sum_within_travel_distance(
        &mut self,
        mask: Grid<u8>,
        times: Grid<f32>,
        values: Grid<f32>,
        limit: f32,
        include_adjacent: bool,
        answer: &mut [f32],
    ) -> Result<u64, Refusal> {
        self.search(mask, answer, |lent, takes, index| {
            raw::sum_within_travel_distance(mask, times, values, limit, include_adjacent.into(), lent, takes, index)
        })
    }

    /// See [`sum_targets_within_travel_distance`](crate::sum_targets_within_travel_distance).
    pub fn sum_targets_within_travel_distance(
        &mut self,
        times: Grid<f32>,
        amounts: Grid<f32>,
        limit: f32,
        answer: &mut [f32],
    ) -> Result<u64, Refusal> {
        self.search(times, answer, |lent, takes, index| {
            raw::sum_targets_within_travel_distance(times, amounts, limit, lent, takes, index)
        })
    }

    /// A raw call with these buffers, and what it told in words. `first` is the search's first grid.
    fn search<T>(
        &mut self,
        first: Grid<T>,
        answer: &mut [f32],
        call: impl FnOnce(Lent, &mut u64, &mut u32) -> u32,
    ) -> Result<u64, Refusal> {
        let (mut takes, mut index) = (0, 0);
        let number = call(self.lent(cells_of(first), answer), &mut takes, &mut index);
        Refusal::told(number, index, first.columns).map_or(Ok(takes), Err)
    }

    fn lent<'a>(&'a mut self, n: usize, answer: &'a mut [f32]) -> Lent<'a> {
        Lent {
            answer,
            distances: at_least(&mut self.distances, n),
            marks: at_least(&mut self.marks, n),
            listed: at_least(&mut self.listed, n),
            adjacent: at_least(&mut self.adjacent, n),
            added: at_least(&mut self.added, n),
            queue: at_least(&mut self.queue, n + 1),
        }
    }
}

/// The number of cells that buffers are made for: the first grid's, as it is. Where that is not rows times columns, or
/// is above the bound, the call is refused whatever the buffers' lengths are.
pub(crate) fn cells_of<T>(first: Grid<T>) -> usize {
    first.cells.len().min(CELLS_MAX)
}

/// The buffer's first `n` places. A buffer that grows is made anew from zeroed memory: pages of it that no search
/// touches are then never written.
fn at_least<T: Clone + Default>(buffer: &mut Vec<T>, n: usize) -> &mut [T] {
    if buffer.len() < n {
        *buffer = vec![T::default(); n];
    }
    &mut buffer[..n]
}
