//! From a planner's grids, ESRI ASCII (.asc) or GeoTIFF, to an extraction sheet and its picture, by the proved searches of
//! the crate `haul`. This tool is not proved itself: it reads, asks, draws and writes.
//!
//! Whatever goes wrong is a sentence that names the file and, where there is one, the row and the column, counted from 1.

pub mod command;
pub mod formats;
pub mod gridfile;
pub mod grids;
pub mod help;
pub mod notes;
pub mod numbers;
pub mod options;
pub mod output;
pub mod picture;
pub mod refusals;
pub mod report;
pub mod searches;
