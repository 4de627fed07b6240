//! Extraction sheets for forwarders, the machines that carry timber out of a forest: from grids of landings, ditches,
//! terrain times and timber volumes, how far each cell is from a landing, what is at the nearest one, and how much wood
//! is within reach. The searches are proved in Rattle; this crate links their archive, `libhaul_c.a`.
//!
//! A function for each search allocates what it needs and gives a [`Sheet`]. Who calls often keeps a [`Workspace`],
//! whose methods have the same names, and lends the slice for the answer.
//!
//! ```
//! use haul::{BarrierDiagonals, Grid, Refusal, distance_with_obstacles};
//!
//! // A landing in the corner, and two ditch cells that meet at a corner between it and the rest.
//! let landings = Grid::new(2, 2, &[1, 0, 0, 0]);
//! let ditches = Grid::new(2, 2, &[0, 1, 1, 0]);
//!
//! let between = distance_with_obstacles(landings, ditches, 10.0, BarrierDiagonals::Include)?;
//! assert_eq!(between.cells[3], 14.142136);
//!
//! let around = distance_with_obstacles(landings, ditches, 10.0, BarrierDiagonals::Exclude)?;
//! assert_eq!(around.cells[3], f32::INFINITY);
//!
//! let refused = distance_with_obstacles(landings, ditches, 0.0, BarrierDiagonals::Exclude);
//! assert_eq!(refused, Err(Refusal::BadCellSize));
//! # Ok::<(), Refusal>(())
//! ```
//!
//! Grids are in row-major order, with 0 to 32,767 rows and columns each and at most 1,048,576 cells. In a grid of bytes
//! 255 is nodata, in a grid of floats any NaN. An answer's NaN has the bits 0x7FC00000. Two sheets from the same inputs
//! are equal bit for bit.

mod grid;
pub mod raw;
mod refusal;
mod searches;
mod workspace;

pub use grid::{BarrierDiagonals, Grid, Sheet};
pub use refusal::{Place, Refusal};
pub use searches::{
    answer_file, distance_with_obstacles, distances_up_to, keeps_binary32, sum_targets_within_travel_distance,
    sum_within_travel_distance, travel_distances_up_to, value_at_closest_less_than_travel_target,
    value_at_closest_target, value_at_closest_travel_target,
};
pub use workspace::Workspace;
