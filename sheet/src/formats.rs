//! The files that grids are read from and sheets are written to: ESRI ASCII grids and GeoTIFFs.
pub mod asc;
pub mod cells;
pub mod chunks;
pub mod foreign;
pub mod geokeys;
pub mod geotiff;
pub mod geotiff_sheet;
pub mod place;
pub mod sheet_file;
pub mod stand_ins;
