//! GeoTIFF in and out, held to GDAL.
mod common;
use std::fs;
use std::path::{Path, PathBuf};

use common::gdal::{gdal, nodata, read};
use common::{cells, failure, folder, grid, grid_of_cell_size, noted, said};

/// A grid of seeded whole numbers from 1 to the most.
fn seeded(folder: &Path, name: &str, rows: usize, columns: usize, most: u64) {
    let mut seed = 7u64;
    let mut next = || {
        seed = seed.wrapping_mul(6_364_136_223_846_793_005).wrapping_add(1_442_695_040_888_963_407);
        (1 + (seed >> 33) % most).to_string()
    };
    let rows: Vec<String> = (0..rows).map(|_| (0..columns).map(|_| next()).collect::<Vec<_>>().join(" ")).collect();
    grid_of_cell_size(folder, name, "10", &rows.join("|"));
}

/// The values of a raster through the tool: each cell is its own landing, so that the sheet is the values.
fn through(folder: &Path, values: &str) -> Vec<f32> {
    noted(folder, &format!("value_at_closest_target --targets ones.asc --values {values} --out out.tif"));
    read(folder, "out.tif")
}

fn ones(folder: &Path, rows: usize, columns: usize) {
    grid_of_cell_size(folder, "ones.asc", "10", &vec![vec!["1"; columns].join(" "); rows].join("|"));
}

/// The kinds of samples that are read here.
const KINDS: [&str; 7] = ["Byte", "UInt16", "Int16", "UInt32", "Int32", "Float32", "Float64"];

/// A raster of a kind, packed by GDAL, is to the tool what it is to GDAL.
fn packed(folder: &Path, kind: &str, packing: &str) {
    let options = packing.split(' ').map(|option| format!("-co {option} ")).collect::<String>();
    gdal(folder, &format!("gdal_translate -q -ot {kind} {options}in.asc in.tif"));
    gdal(folder, "gdal_translate -q -ot Float32 in.tif as_float.tif");
    assert!(through(folder, "in.tif") == read(folder, "as_float.tif"), "{kind} {packing}");
}

/// Each way in which GDAL packs a raster, and each kind of sample in some of them. 64 by 48 cells in tiles of 16 is what
/// the library for TIFF misplaces.
#[test]
fn packings_by_gdal() {
    let folder = folder("tiff-packing");
    ones(&folder, 48, 64);
    seeded(&folder, "in.asc", 48, 64, 250);
    for (kind, at) in KINDS.into_iter().zip(0..) {
        for (packing, turn) in packings(kind).into_iter().zip(0..) {
            if (at + turn) % 4 == 0 {
                packed(&folder, kind, packing);
            }
        }
    }
}

/// Every kind in every packing, in two sizes, which takes a minute: `cargo test --release -- --ignored`.
#[test]
#[ignore = "takes a minute"]
fn all_packings_by_gdal() {
    let folder = folder("tiff-packings");
    for (rows, columns) in [(48, 64), (23, 37)] {
        ones(&folder, rows, columns);
        seeded(&folder, "in.asc", rows, columns, 250);
        for kind in KINDS {
            packings(kind).into_iter().for_each(|packing| packed(&folder, kind, packing));
        }
    }
}

/// Ways of packing that differ in what has to be undone.
fn packings(kind: &str) -> Vec<&'static str> {
    let mut all = vec![
        "COMPRESS=NONE",
        "COMPRESS=NONE ENDIANNESS=BIG",
        "COMPRESS=LZW",
        "COMPRESS=PACKBITS TILED=YES BLOCKXSIZE=16 BLOCKYSIZE=16",
        "COMPRESS=DEFLATE TILED=YES BLOCKXSIZE=16 BLOCKYSIZE=16",
        "COMPRESS=DEFLATE PREDICTOR=2 BIGTIFF=YES",
        "COMPRESS=LZW PREDICTOR=2 ENDIANNESS=BIG",
        "COMPRESS=LZW PREDICTOR=2 TILED=YES BLOCKXSIZE=32 BLOCKYSIZE=16",
    ];
    if kind.starts_with("Float") {
        all.push("COMPRESS=DEFLATE PREDICTOR=3");
        all.push("COMPRESS=LZW PREDICTOR=3 TILED=YES BLOCKXSIZE=16 BLOCKYSIZE=16");
    }
    all
}

fn placed(folder: &Path) {
    fs::write(
        folder.join("landings.asc"),
        "ncols 4\nnrows 2\nxllcorner 550000.5\nyllcorner 5710000.25\ncellsize 12.5\nNODATA_value -9999\n\
         1 0 0 -9999\n0 0 0 0\n",
    )
    .unwrap();
    gdal(folder, "gdal_translate -q -a_srs EPSG:25833 landings.asc landings.tif");
}

/// The lines of gdalinfo that say where a raster lies.
fn lie(folder: &Path, file: &str) -> Vec<String> {
    let said = gdal(folder, &format!("gdalinfo -proj4 {file}"));
    let wanted = ["Origin", "Pixel Size", "+proj", "Upper Left", "Lower Right", "Size is"];
    let lines = said.lines().filter(|line| wanted.iter().any(|start| line.contains(start)));
    // What a .prj in ESRI's words adds to the projection is a shift of nothing.
    lines.map(|line| line.replace("+towgs84=0,0,0,0,0,0,0 ", "")).collect()
}

#[test]
fn the_place_is_carried_on() {
    let folder = folder("tiff-place");
    placed(&folder);
    said(&folder, "distance --targets landings.tif --out out.tif");
    assert_eq!(lie(&folder, "out.tif"), lie(&folder, "landings.tif"));
    assert!(lie(&folder, "out.tif").iter().any(|line| line.contains("+proj=utm +zone=33")));
    assert_eq!(nodata(&folder, "out.tif"), Some(-9999.0));
    assert_eq!(read(&folder, "out.tif"), [0.0, 12.5, 25.0, -9999.0, 12.5, 17.67767, 30.177671, 42.67767]);

    // By a matrix in place of scale and tie point, and by a cell's middle.
    gdal(&folder, "gdal_translate -q -co PROFILE=GeoTIFF -mo AREA_OR_POINT=Point landings.tif point.tif");
    said(&folder, "distance --targets point.tif --out out.tif");
    assert_eq!(lie(&folder, "out.tif"), lie(&folder, "landings.tif"));
    said(&folder, "distance --targets point.tif --obstacles landings.tif --diagonals include --out out.tif");
}

/// From one format to the other.
#[test]
fn between_the_formats() {
    let folder = folder("tiff-formats");
    placed(&folder);
    said(&folder, "distance --targets landings.asc --out direct.asc");
    let (_, notes) = noted(&folder, "distance --targets landings.tif --out out.asc");
    assert_eq!(notes, ["landings.tif is in EPSG:25833, which an .asc can't say; a sheet named .tif does"]);
    assert_eq!(cells(&folder, "out.asc"), cells(&folder, "direct.asc"));
    assert_eq!(lie(&folder, "out.asc"), lie(&folder, "landings.asc"));
    said(&folder, "distance --targets landings.asc --out out.tif");
    assert_eq!(lie(&folder, "out.tif"), lie(&folder, "landings.asc"));
    assert!(!gdal(&folder, "gdalinfo out.tif").contains("Coordinate System"));
    // Mixed inputs lie on each other.
    said(&folder, "distance --targets landings.asc --obstacles landings.tif --diagonals include --out out.asc");
}

/// A .prj beside an .asc is copied beside the sheet.
#[test]
fn a_coordinate_system_beside() {
    let folder = folder("tiff-prj");
    placed(&folder);
    gdal(&folder, "gdal_translate -q -of AAIGrid landings.tif with.asc");
    let projection = fs::read(folder.join("with.prj")).unwrap();
    said(&folder, "distance --targets with.asc --out out.asc");
    assert_eq!(fs::read(folder.join("out.prj")).unwrap(), projection);
    assert_eq!(lie(&folder, "out.asc"), lie(&folder, "with.asc"));
    let (_, notes) = noted(&folder, "distance --targets with.asc --out out.tif");
    assert_eq!(
        notes,
        ["the sheet does not say the coordinate system of with.prj; \
          `gdal_translate -a_srs with.prj out.tif placed.tif` puts it in"]
    );
    gdal(&folder, "gdal_translate -q -a_srs with.prj out.tif placed.tif");
    assert_eq!(lie(&folder, "placed.tif"), lie(&folder, "landings.tif"));
    // Without one beside the grids, an older one beside the sheet is told of.
    let (_, notes) = noted(&folder, "distance --targets landings.asc --out out.asc");
    assert_eq!(notes, ["out.prj is of an older sheet: these grids say no coordinate system"]);
}

/// Runs the call that a sentence names, and sees that its outcome is taken.
fn mended(folder: &Path, sentence: &str, file: &str) {
    let call = sentence.split('`').nth(1).unwrap_or_else(|| panic!("no call in: {sentence}"));
    let call = call.replace("WEST NORTH EAST SOUTH", "0 40 60 0");
    gdal(folder, &call.replacen(' ', " -q ", 1));
    let made = call.split(' ').next_back().unwrap();
    assert!(call.contains(file), "{sentence}");
    noted(folder, &format!("value_at_closest_target --targets {made} --values {made} --out mended.tif"));
}

#[test]
fn what_is_not_taken_can_be_mended() {
    let folder = folder("tiff-mended");
    seeded(&folder, "in.asc", 4, 6, 200);
    let refused = |call: &str, file: &str, start: &str| {
        gdal(&folder, call);
        let sentence = failure(&folder, &format!("distance --targets {file} --out out.tif"));
        assert!(sentence.starts_with(&format!("{file} {start}")), "{sentence}");
        mended(&folder, &sentence, file);
    };
    refused("gdal_translate -q -b 1 -b 1 -b 1 in.asc bands.tif", "bands.tif", "has 3 bands");
    refused("gdal_translate -q -b 1 -b 1 in.asc two.tif", "two.tif", "has 2 bands");
    refused(
        "gdal_translate -q -ot Byte -co NBITS=1 -scale 0 200 0 1 in.asc bit.tif",
        "bit.tif",
        "is of samples of 1 bits",
    );
    refused("gdal_translate -q -ot Byte -co COMPRESS=JPEG in.asc jpeg.tif", "jpeg.tif", "is compressed by method 7");
    refused("gdal_translate -q -ot Byte -co COMPRESS=ZSTD in.asc zstd.tif", "zstd.tif", "is no TIFF file that");
    refused("gdal_translate -q -a_ullr 0 0 60 40 in.asc south.tif", "south.tif", "has its first row in the south");
    refused("gdal_translate -q -a_scale 2 -a_offset 1 in.asc scaled.tif", "scaled.tif", "has a scale or an offset");
    refused(
        "gdal_translate -q -gcp 0 0 0 0 -gcp 6 0 60 5 -gcp 0 4 5 -40 in.asc points.tif",
        "points.tif",
        "lies by control points",
    );
    refused("gdal_translate -q -co PROFILE=BASELINE in.asc nowhere.tif", "nowhere.tif", "does not say where it lies");
    refused(
        "gdal_translate -q -a_ullr 0 40 60 20 in.asc oblong.tif",
        "oblong.tif",
        "has cells that are 10 wide and 5 high",
    );
    refused("gdal_translate -q -ot UInt16 -co NBITS=12 in.asc twelve.tif", "twelve.tif", "is ");
    refused("gdal_translate -q -ot Float32 -co NBITS=16 in.asc half.tif", "half.tif", "is of samples of 16 bits");
    refused("gdal_translate -q -ot Byte -co PHOTOMETRIC=MINISWHITE in.asc white.tif", "white.tif", "holds colours");
    refused("gdal_translate -q -ot CFloat32 in.asc complex.tif", "complex.tif", "is ");
    refused(
        "gdal_translate -q -ot Byte --config GDAL_TIFF_INTERNAL_MASK YES -mask 1 in.asc masked.tif",
        "masked.tif",
        "has a mask",
    );
}

/// A rotated raster, which no option of gdal_translate makes.
#[test]
fn rotated() {
    let folder = folder("tiff-rotated");
    seeded(&folder, "in.asc", 4, 6, 200);
    let vrt = "<VRTDataset rasterXSize=\"6\" rasterYSize=\"4\"><GeoTransform>0, 10, 1, 40, 1, -10</GeoTransform>\
               <VRTRasterBand dataType=\"Byte\" band=\"1\"><SimpleSource>\
               <SourceFilename relativeToVRT=\"1\">in.asc</SourceFilename></SimpleSource></VRTRasterBand></VRTDataset>";
    fs::write(folder.join("rotated.vrt"), vrt).unwrap();
    gdal(&folder, "gdal_translate -q rotated.vrt rotated.tif");
    let sentence = failure(&folder, "distance --targets rotated.tif --out out.tif");
    assert!(sentence.starts_with("rotated.tif is rotated"), "{sentence}");
    mended(&folder, &sentence, "rotated.tif");
}

/// Numbers that a float does not hold exactly, and those of any type that it does.
#[test]
fn exactness() {
    let folder = folder("tiff-exact");
    ones(&folder, 1, 3);
    let value = "value_at_closest_target --targets ones.asc --values values.tif --out out.tif";
    let write = |cells: &str, kind: &str| {
        grid_of_cell_size(&folder, "values.asc", "10", cells);
        gdal(&folder, &format!("gdal_translate -q -oo DATATYPE=Float64 -ot {kind} values.asc values.tif"));
    };
    write("16777217 1 2", "Int32");
    let sentence = failure(&folder, value);
    assert_eq!(
        sentence,
        "16777217 is no number that a float holds exactly at row 1, column 1 of values.tif; \
         `gdal_translate -ot Float32 values.tif mended.tif` rounds it"
    );
    write("1 0.1 2", "Float64");
    assert!(failure(&folder, value).starts_with("0.1 is no number that a float holds exactly at row 1, column 2"));
    gdal(&folder, "gdal_translate -q -ot Float32 values.tif mended.tif");
    assert_eq!(through(&folder, "mended.tif"), [1.0, 0.1, 2.0]);
    write("1 0.5 -9999", "Float64");
    assert_eq!(through(&folder, "values.tif"), [1.0, 0.5, -9999.0]);
    assert_eq!(nodata(&folder, "out.tif"), Some(-9999.0));
    // Landings are whole numbers of any size; what lies between is refused.
    write("0 0.5 1", "Float32");
    assert_eq!(
        failure(&folder, "distance --targets values.tif --out out.tif"),
        "0.5 is neither a whole number nor the nodata value at row 1, column 2 of values.tif; \
         `gdal_translate -ot Int32 values.tif mended.tif` rounds it"
    );
}

/// Nodata by the tag, by NaN, and by a number that no float holds.
#[test]
fn nodata_in() {
    let folder = folder("tiff-nodata");
    grid(&folder, "landings.asc", "1 0 0 0");
    for (kind, number) in
        [("Byte", "255"), ("Int16", "-32768"), ("Float32", "nan"), ("Float64", "-1.7976931348623157e308")]
    {
        let text =
            format!("ncols 4\nnrows 1\nxllcorner 0\nyllcorner 0\ncellsize 1\nNODATA_value {number}\n1 1 {number} 1\n");
        fs::write(folder.join("times.asc"), text).unwrap();
        gdal(&folder, &format!("gdal_translate -q -oo DATATYPE=Float64 -ot {kind} times.asc times.tif"));
        said(&folder, "travel_distance --targets landings.asc --times times.tif --out out.asc");
        assert_eq!(cells(&folder, "out.asc"), "0 1 -9999 -9999", "{kind} {number}");
        said(&folder, "distance --targets times.tif --unreached inf --out out.tif");
    }
}

/// gdal_rasterize's own output: Float64, nodata wherever nothing was burnt.
#[test]
fn rasterized() {
    let folder = folder("tiff-rasterized");
    let points = "{\"type\":\"FeatureCollection\",\"features\":[{\"type\":\"Feature\",\"properties\":{\"id\":4711},\
                  \"geometry\":{\"type\":\"Point\",\"coordinates\":[15,5]}}]}";
    fs::write(folder.join("landings.geojson"), points).unwrap();
    gdal(
        &folder,
        "gdal_rasterize -q -a id -a_nodata -1 -init -1 -tr 10 10 -te 0 0 40 10 -a_srs EPSG:25833 landings.geojson landings.tif",
    );
    let (_, notes) = noted(&folder, "distance --targets landings.tif --out out.tif");
    assert!(notes[0].starts_with("3 of 4 cells of landings.tif are nodata: closed ground"), "{notes:?}");
    said(&folder, "distance --targets landings.tif --nodata-as-0 targets --out out.tif");
    assert_eq!(read(&folder, "out.tif"), [10.0, 0.0, 10.0, 20.0]);
}

#[test]
fn units_and_coordinate_systems() {
    let folder = folder("tiff-units");
    placed(&folder);
    gdal(&folder, "gdal_translate -q -a_srs EPSG:4326 -a_ullr 10 51 10.04 50.98 landings.asc degrees.tif");
    let (_, notes) = noted(&folder, "distance --targets degrees.tif --out out.tif");
    assert_eq!(
        notes,
        [
            "degrees.tif is in degrees, and so are the distances; `gdalwarp -r near -t_srs EPSG:CODE` brings it into metres"
        ]
    );
    assert_eq!(
        failure(&folder, "distance --targets degrees.tif --limit-metres 100 --out out.tif"),
        "--limit-metres is for grids in metres, and degrees.tif is in degrees"
    );
    gdal(&folder, "gdal_translate -q -a_srs EPSG:25832 landings.tif other.tif");
    assert_eq!(
        failure(&folder, "distance --targets landings.tif --obstacles other.tif --diagonals include --out out.tif"),
        "landings.tif and other.tif have two coordinate systems: EPSG:25833 against EPSG:25832"
    );
}

/// Every beginning of a file, and files with one byte changed: a sentence or a sheet, never a panic.
#[test]
fn damaged() {
    let folder = folder("tiff-damaged");
    placed(&folder);
    gdal(&folder, "gdal_translate -q -co COMPRESS=LZW landings.tif whole.tif");
    let whole = fs::read(folder.join("whole.tif")).unwrap();
    let path: PathBuf = folder.join("damaged.tif");
    let read = |bytes: &[u8]| sheet::formats::geotiff::read::<f32>(&path, bytes, None);
    assert!(read(&whole).is_ok());
    let last = (0..whole.len()).filter(|end| read(&whole[..*end]).is_ok()).count();
    assert!(last < whole.len() / 2, "{last} of {} beginnings are taken for a whole file", whole.len());
    for at in 0..whole.len() {
        for byte in [0, 1, 0x7F, 0x80, 0xFF] {
            let mut bytes = whole.clone();
            bytes[at] = byte;
            let _ = read(&bytes);
        }
    }
    fs::write(&path, &whole[..whole.len() / 2]).unwrap();
    let sentence = failure(&folder, "distance --targets damaged.tif --out out.tif");
    assert!(sentence.starts_with("damaged.tif is "), "{sentence}");
}

#[test]
fn no_cells() {
    let folder = folder("tiff-empty");
    fs::write(folder.join("landings.asc"), "ncols 0\nnrows 0\ncellsize 10\n").unwrap();
    assert_eq!(
        failure(&folder, "distance --targets landings.asc --out out.tif"),
        "a GeoTIFF has at least one cell; a grid without cells can be written as .asc"
    );
}

/// Nothing goes beside a pipe or a device.
#[test]
fn a_coordinate_system_beside_nothing() {
    let folder = folder("tiff-prj-nothing");
    placed(&folder);
    gdal(&folder, "gdal_translate -q -of AAIGrid landings.tif with.asc");
    said(&folder, "distance --targets with.asc --out /dev/null");
    assert!(!Path::new("/dev/null.prj").exists());
    // The grid's own .prj is not written over.
    said(&folder, "distance --targets with.asc --out with.txt");
    assert!(folder.join("with.txt").exists() && folder.join("with.prj").exists());
}
