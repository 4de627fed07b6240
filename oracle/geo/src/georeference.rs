//! What the searches read of a georeference: the raster's size and the cell's edge length.
use std::fmt;

use crate::ArrayDataType;
use crate::array::{ArrayMetadata, Columns, Rows};

#[derive(Clone, Copy, Debug, Default, PartialEq, Eq)]
pub struct RasterSize {
    pub rows: Rows,
    pub cols: Columns,
}

impl RasterSize {
    pub const fn with_rows_cols(rows: Rows, cols: Columns) -> Self {
        RasterSize { rows, cols }
    }

    pub fn cell_count(&self) -> usize {
        self.rows * self.cols
    }
}

impl fmt::Display for RasterSize {
    fn fmt(&self, f: &mut fmt::Formatter<'_>) -> fmt::Result {
        write!(f, "{} by {}", self.rows, self.cols)
    }
}

#[derive(Clone, Copy, Debug, PartialEq)]
pub struct RasterScale {
    pub scale: f64,
    pub offset: f64,
}

#[derive(Clone, Debug, PartialEq)]
pub struct GeoReference {
    size: RasterSize,
    nodata: Option<f64>,
    cell_size: f64,
    scale: Option<RasterScale>,
}

impl GeoReference {
    pub fn without_spatial_reference(size: RasterSize, nodata: Option<f64>) -> Self {
        GeoReference { size, nodata, cell_size: 0.0, scale: None }
    }

    pub fn set_square_cell_size_north_up(&mut self, cell_size: f64) {
        self.cell_size = cell_size;
    }

    pub fn cell_size_x(&self) -> f64 {
        self.cell_size
    }

    pub fn size(&self) -> RasterSize {
        self.size
    }

    pub fn nodata(&self) -> Option<f64> {
        self.nodata
    }

    pub fn scale(&self) -> Option<RasterScale> {
        self.scale
    }

    pub fn set_scale(&mut self, scale: Option<RasterScale>) {
        self.scale = scale;
    }
}

impl ArrayMetadata for GeoReference {
    fn size(&self) -> RasterSize {
        self.size
    }

    fn nodata(&self) -> Option<f64> {
        self.nodata
    }

    fn geo_reference(&self) -> GeoReference {
        self.clone()
    }

    fn sized(size: RasterSize, dtype: ArrayDataType) -> Self {
        GeoReference::without_spatial_reference(size, Some(dtype.default_nodata_value()))
    }

    fn sized_with_nodata(size: RasterSize, nodata: Option<f64>) -> Self {
        GeoReference::without_spatial_reference(size, nodata)
    }

    fn with_geo_reference(georef: GeoReference) -> Self {
        georef
    }

    fn with_scale(self, scale: RasterScale) -> Self {
        GeoReference { scale: Some(scale), ..self }
    }
}
