//! The raster distance module of docs/src, each file compiled as it stands, and a shim for what it leans on and does
//! not have: the element types, the operators on arrays, the georeference and its size, aligned vectors and casts.
//!
//! Three packages compile this file. `geo` is the text itself. `geo-counted` takes the queue's file with one line added,
//! so that `takes` knows how many cells were taken from the queue. `geo-one-unit` is the text in one codegen unit, for the
//! benchmark.
#![allow(dead_code, unused_imports)]

// The text says `inf::allocate`, `inf::cast` and `log::warn!`.
extern crate self as inf;
extern crate self as log;

pub mod allocate;
pub mod arraynum;
pub mod arrayops;
pub mod cast;
pub mod georeference;
pub mod takes;

mod densearrayiterators;
mod densearrayops;
mod densearrayutil;
mod error;

#[rustfmt::skip]
#[path = "../../../docs/src/crates/geo/src/array.rs"]
pub mod array;
#[rustfmt::skip]
#[path = "../../../docs/src/crates/geo/src/cell.rs"]
pub mod cell;
#[rustfmt::skip]
#[path = "../../../docs/src/crates/geo/src/densearray.rs"]
pub mod densearray;
#[rustfmt::skip]
#[path = "../../../docs/src/crates/geo/src/nodata.rs"]
pub mod nodata;
#[rustfmt::skip]
#[path = "../../../docs/src/crates/geo/src/rastermetadata.rs"]
pub mod rastermetadata;

pub mod raster;

pub use array::{Array, ArrayCopy, ArrayMetadata, Columns, Rows};
pub use arraynum::{ArrayDataType, ArrayNum};
pub use cell::Cell;
pub use densearray::DenseArray;
pub use error::{Error, Result};
pub use georeference::{GeoReference, RasterScale, RasterSize};
pub use nodata::Nodata;

/// The text warns in a function that no search calls.
#[macro_export]
macro_rules! warn {
    ($($text:tt)*) => {};
}
