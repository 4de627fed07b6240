//! The searches, from docs/src.
use crate::Array;

#[rustfmt::skip]
#[path = "../../../../docs/src/crates/geo/src/raster/algo/distance.rs"]
pub mod distance;
#[rustfmt::skip]
#[path = "../../../../docs/src/crates/geo/src/raster/algo/nodata.rs"]
pub mod nodata;

#[cfg(not(counted))]
#[rustfmt::skip]
#[path = "../../../../docs/src/crates/geo/src/raster/algo/clusterutils.rs"]
pub mod clusterutils;
#[cfg(counted)]
pub mod clusterutils {
    include!(concat!(env!("OUT_DIR"), "/clusterutils.rs"));
}

pub fn assert_dimensions(a: &impl Array, b: &impl Array) {
    assert_eq!(a.size(), b.size());
}
