//! Rasters: arrays with a georeference.
use crate::{DenseArray, GeoReference};

pub mod algo;

pub type DenseRaster<T> = DenseArray<T, GeoReference>;
