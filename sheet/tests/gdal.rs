//! What GDAL reads in the sheets is what was meant, cell by cell.
mod common;
use std::fs;
use std::path::Path;

use common::gdal::{gdal, nodata, read};
use common::{folder, grid, noted};

/// What GDAL reads in a sheet: none where it sees nodata, or the number.
fn meant(folder: &Path, file: &str) -> Vec<Option<f32>> {
    let nodata = nodata(folder, file).unwrap();
    read(folder, file).into_iter().map(|cell| if cell == nodata { None } else { Some(cell) }).collect()
}

/// The sheet of one search in both formats, as GDAL reads it.
fn both(folder: &Path, search: &str, expected: &[Option<f32>]) {
    for name in ["out.asc", "out.tif"] {
        noted(folder, &format!("{search} --out {name}"));
        assert_eq!(meant(folder, name), expected, "{search} as {name}");
    }
}

const DITCHED: &str = "distance --targets landings.asc --obstacles ditches.asc --diagonals exclude";

#[test]
fn unreached_at_the_first_place() {
    let folder = folder("gdal-first");
    grid(&folder, "landings.asc", "0 0 1 0");
    grid(&folder, "ditches.asc", "0 1 0 0");
    both(&folder, DITCHED, &[None, None, Some(0.0), Some(1.0)]);
}

#[test]
fn without_any_decimal_point() {
    let folder = folder("gdal-whole");
    grid(&folder, "landings.asc", "1 0 0");
    grid(&folder, "ditches.asc", "0 1 0");
    both(&folder, DITCHED, &[Some(0.0), None, None]);
    grid(&folder, "ditches.asc", "0 0 0");
    both(&folder, DITCHED, &[Some(0.0), Some(1.0), Some(2.0)]);
}

#[test]
fn all_unreached() {
    let folder = folder("gdal-all");
    grid(&folder, "landings.asc", "0 0 | 0 0");
    grid(&folder, "ditches.asc", "0 1 | 0 0");
    both(&folder, DITCHED, &[None; 4]);
}

#[test]
fn one_cell() {
    let folder = folder("gdal-one");
    grid(&folder, "ditches.asc", "0");
    grid(&folder, "landings.asc", "1");
    both(&folder, DITCHED, &[Some(0.0)]);
    grid(&folder, "landings.asc", "0");
    both(&folder, DITCHED, &[None]);
}

/// A first value with an exponent, a value that looks like nodata, and values that a float only just holds.
#[test]
fn odd_values() {
    let folder = folder("gdal-odd");
    grid(&folder, "landings.asc", "1 1 1 1 1");
    fs::write(
        folder.join("values.asc"),
        "ncols 5\nnrows 1\nxllcorner 0\nyllcorner 0\ncellsize 1\nNODATA_value -1\n1e20 -9999 1e-45 7.03853069e-26 -1\n",
    )
    .unwrap();
    let lost = f32::from_bits(0x15AE_43FD);
    let expected = [Some(1e20), Some(-9999.0), Some(f32::from_bits(1)), Some(lost), None];
    both(&folder, "value_at_closest_target --targets landings.asc --values values.asc", &expected);
}

/// Nodata and unreached cells are one to every reader unless a number keeps them apart.
#[test]
fn both_kinds() {
    let folder = folder("gdal-both");
    grid(&folder, "landings.asc", "1 0 -9999 0");
    both(&folder, "distance --targets landings.asc", &[Some(0.0), Some(1.0), None, None]);
    both(&folder, "distance --targets landings.asc --unreached 1e6", &[Some(0.0), Some(1.0), None, Some(1e6)]);
}

/// Every stored sheet of the example is to GDAL what it is to this tool, and the same from a GeoTIFF.
#[test]
fn the_example_sheets() {
    let folder = folder("gdal-examples");
    let sheets = Path::new(env!("CARGO_MANIFEST_DIR")).join("../examples/sheets");
    for name in ["include", "exclude", "travel", "landing", "timber"] {
        let file = format!("{name}.asc");
        fs::copy(sheets.join(&file), folder.join(&file)).unwrap();
        let (_, ours) = sheet::grids::read_grid::<f32>(&folder.join(&file), None).unwrap();
        let ours: Vec<Option<f32>> =
            ours.into_iter().map(|cell| if cell.is_nan() { None } else { Some(cell) }).collect();
        assert!(meant(&folder, &file) == ours, "{name} differs to GDAL");
        gdal(&folder, &format!("gdal_translate -q {file} {name}.tif"));
        assert!(meant(&folder, &format!("{name}.tif")) == ours, "{name} differs as a GeoTIFF");
    }
}
