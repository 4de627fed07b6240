//! The tags by which a GeoTIFF says where it lies: pixel scale, tie point, and the keys of its coordinate system.
use crate::formats::place::{Unit, is_one_number};

/// Georeferencing tags as they stood in the file, so that a sheet can carry them on.
#[derive(Clone, Debug, Default, PartialEq)]
pub struct GeoTags {
    /// Cell width, cell height, and a third number that rasters do not use.
    pub pixel_scale: Vec<f64>,
    /// Column, row and height in the raster, then the coordinates of that point.
    pub tie_points: Vec<f64>,
    /// The four by four matrix that some writers have in place of the two.
    pub transformation: Vec<f64>,
    pub directory: Vec<u16>,
    pub doubles: Vec<f64>,
    pub ascii: String,
}

/// Width and height of a cell, and the west and north edge.
#[derive(Clone, Copy, Debug, PartialEq)]
pub struct Lie {
    pub width: f64,
    pub height: f64,
    pub west: f64,
    pub north: f64,
}

const MODEL_TYPE: u16 = 1024;
const RASTER_TYPE: u16 = 1025;
const GEOGRAPHIC_TYPE: u16 = 2048;
const PROJECTED_TYPE: u16 = 3072;
const LINEAR_UNITS: u16 = 3076;

const MODEL_GEOGRAPHIC: u16 = 2;
const PIXEL_IS_POINT: u16 = 2;
/// EPSG's codes of the foot, the US survey foot and their relatives.
const FEET: std::ops::RangeInclusive<u16> = 9002..=9006;
/// A code for what has none.
const USER_DEFINED: u16 = 32_767;

impl GeoTags {
    /// Tags for a grid that came from another format: a plain raster with square cells. It has no key, since one alone
    /// would be taken for a coordinate system without a name.
    pub fn plain(cell_size: f64, west: f64, north: f64) -> GeoTags {
        GeoTags {
            pixel_scale: vec![cell_size, cell_size, 0.0],
            tie_points: vec![0.0, 0.0, 0.0, west, north, 0.0],
            ..GeoTags::default()
        }
    }

    /// Where the raster lies, or the sentence that says why it can't be used. `file` is for the call that mends it.
    pub fn lie(&self, file: &str) -> Result<Lie, String> {
        let lie = match (&self.transformation[..], &self.pixel_scale[..], &self.tie_points[..]) {
            (m, ..) if m.len() == 16 => {
                if m[1] != 0.0 || m[4] != 0.0 {
                    return Err(format!(
                        "is rotated, and the searches are for grids with north up; `gdalwarp -r near {file} north-up.tif` \
                         turns it"
                    ));
                }
                Lie { width: m[0], height: -m[5], west: m[3], north: m[7] }
            }
            (_, [width, height, ..], [column, row, _, x, y, _]) => {
                Lie { width: *width, height: *height, west: x - column * width, north: y + row * height }
            }
            (_, _, points) if points.len() > 6 => {
                return Err(format!(
                    "lies by control points and has no cell size; `gdalwarp -r near {file} north-up.tif` gives it one"
                ));
            }
            _ => {
                return Err(format!(
                    "does not say where it lies nor how large its cells are; \
                     `gdal_translate -a_ullr WEST NORTH EAST SOUTH {file} placed.tif` says it"
                ));
            }
        };
        if lie.height < 0.0 || lie.width < 0.0 {
            return Err(format!(
                "has its first row in the south, and the searches are for grids with north up; \
                 `gdalwarp -r near {file} north-up.tif` turns it"
            ));
        }
        Ok(if self.key(RASTER_TYPE) == Some(PIXEL_IS_POINT) { lie.by_its_middle() } else { lie })
    }

    /// Width and height of the cells, where they are not the same number.
    pub fn width_and_height(&self) -> Option<(f64, f64)> {
        let lie = self.lie("").ok()?;
        if is_one_number(lie.width, lie.height) { None } else { Some((lie.width, lie.height)) }
    }

    /// The code of the coordinate system, where it has one.
    pub fn code(&self) -> Option<u16> {
        let code = self.key(PROJECTED_TYPE).or_else(|| self.key(GEOGRAPHIC_TYPE))?;
        if code == USER_DEFINED { None } else { Some(code) }
    }

    pub fn unit(&self) -> Unit {
        match (self.key(MODEL_TYPE), self.key(LINEAR_UNITS)) {
            (Some(MODEL_GEOGRAPHIC), _) => Unit::Degrees,
            (_, Some(unit)) if FEET.contains(&unit) => Unit::Feet,
            _ => Unit::Metres,
        }
    }

    /// A key's short value: keys are rows of four numbers after the first, and a value that stands in its row has
    /// location 0.
    fn key(&self, wanted: u16) -> Option<u16> {
        let (rows, _) = self.directory.as_chunks::<4>();
        rows.iter().skip(1).find(|[key, location, ..]| *key == wanted && *location == 0).map(|[.., value]| *value)
    }
}

impl Lie {
    /// The edges where the file's point is a cell's middle.
    fn by_its_middle(self) -> Lie {
        Lie { west: self.west - self.width / 2.0, north: self.north + self.height / 2.0, ..self }
    }
}
