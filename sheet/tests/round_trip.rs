//! What is written comes back bit for bit.
mod common;
use std::fs::{self, File};

use common::{folder, grid, noted, said};
use sheet::formats::asc;
use sheet::formats::stand_ins::{StandIns, Unreached};
use sheet::grids::read_grid;
use sheet::numbers::{read_float, shortest, with_point};

/// SplitMix64: the same bits on every machine.
struct Random(u64);

impl Random {
    fn bits(&mut self) -> u64 {
        self.0 = self.0.wrapping_add(0x9E37_79B9_7F4A_7C15);
        let z = (self.0 ^ (self.0 >> 30)).wrapping_mul(0xBF58_476D_1CE4_E5B9);
        let z = (z ^ (z >> 27)).wrapping_mul(0x94D0_49BB_1331_11EB);
        z ^ (z >> 31)
    }
}

/// Floats of all kinds: the special ones, then random bits.
fn floats(count: usize) -> Vec<f32> {
    let special = [0, 0x8000_0000, 1, 0x8000_0001, 0x007F_FFFF, 0x0080_0000, 0x3FB5_04F3, 0x7F7F_FFFF, 0x7F80_0000]
        .into_iter()
        .chain([0xFF80_0000, 0x7FC0_0000, 0x4B80_0000, 0x3DCC_CCCD, 0x4E6E_6B28]);
    let mut random = Random(7);
    special.chain(std::iter::repeat_with(|| random.bits() as u32)).map(f32::from_bits).take(count).collect()
}

/// The digits of a float bring it back, read as a float or as a double that is rounded then, as other programs do.
fn comes_back(float: f32) {
    for text in [shortest(float), with_point(float)] {
        assert_eq!(read_float(&text).map(f32::to_bits), Some(float.to_bits()), "{text}");
        assert_eq!((text.parse::<f64>().unwrap() as f32).to_bits(), float.to_bits(), "{text} as a double");
    }
}

#[test]
fn the_shortest_digits_bring_a_float_back() {
    floats(1_000_000).into_iter().filter(|float| !float.is_nan()).for_each(comes_back);
    // Its shortest digits, 7.038531e-26, do not as a double.
    comes_back(f32::from_bits(0x15AE_43FD));
    comes_back(f32::from_bits(0x95AE_43FD));
}

/// All floats, which takes minutes: `cargo test --release -- --ignored`.
#[test]
#[ignore = "takes minutes"]
fn the_shortest_digits_bring_all_floats_back() {
    (0..0x7F80_0000).map(f32::from_bits).for_each(comes_back);
}

#[test]
fn a_number_is_written_as_people_write_it() {
    let written = [
        (10.0, "10", "10.0"),
        (14.142136, "14.142136", "14.142136"),
        (0.5, "0.5", "0.5"),
        (-0.0, "-0", "-0.0"),
        (1e9, "1000000000", "1000000000.0"),
        (1e20, "1e20", "1.0e20"),
        (9.313226e-10, "9.313226e-10", "9.313226e-10"),
        (-9999.0, "-9999", "-9999.0"),
    ];
    for (float, text, first) in written {
        assert_eq!((shortest(float).as_str(), with_point(float).as_str()), (text, first));
    }
    assert_eq!(shortest(f32::INFINITY), "inf");
    assert_eq!(shortest(f32::NEG_INFINITY), "-inf");
}

/// A sheet of all kinds of floats, written and read as a grid.
#[test]
fn a_sheet_comes_back() {
    let folder = folder("round-trip");
    let header = "ncols 100\nnrows 50\nxllcorner 3550000.125\nyllcenter -12.5\ncellsize 2.5\nNODATA_value 0\n";
    let row = vec!["1"; 100].join(" ") + "\n";
    let path = folder.join("grid.asc");
    fs::write(&path, header.to_owned() + &row.repeat(50)).unwrap();
    let (place, _) = read_grid::<f32>(&path, None).unwrap();

    let cells = floats(5000);
    let stand_ins = StandIns::of(&place, &cells, Unreached::Infinity).unwrap();
    fs::write(&path, asc::write(&place, &cells, &stand_ins)).unwrap();
    let (back, back_cells) = read_grid::<f32>(&path, None).unwrap();
    let bits = |cells: &[f32]| -> Vec<Option<u32>> {
        cells.iter().map(|cell| if cell.is_nan() { None } else { Some(cell.to_bits()) }).collect()
    };
    assert_eq!(bits(&back_cells), bits(&cells));
    assert_eq!((back.rows, back.columns, back.cell_size), (50, 100, 2.5));
    assert_eq!(back.corner, place.corner);
    assert_eq!(place.corner, Some((3550000.125, -13.75)));
}

/// A number that is -9999 stays a number: nodata is then another.
#[test]
fn a_cell_that_holds_minus_9999() {
    let folder = folder("minus-9999");
    grid(&folder, "landings.asc", "1 0 0");
    fs::write(folder.join("values.asc"), "ncols 3\nnrows 1\ncellsize 1\nNODATA_value -1\n-9999 0 -1\n").unwrap();
    fs::write(folder.join("times.asc"), "ncols 3\nnrows 1\ncellsize 1\nNODATA_value -1\n1 1 1\n").unwrap();
    let search = "value_at_closest_travel_target --targets landings.asc --times times.asc --values values.asc";
    let said = said(&folder, &format!("{search} --out out.asc"));
    assert!(said.ends_with("\n1 cells are nodata: -99999 in the sheet\n"), "{said}");
    assert!(fs::read_to_string(folder.join("out.asc")).unwrap().contains("NODATA_value -99999\n"));
    let (_, back) = read_grid::<f32>(&folder.join("out.asc"), None).unwrap();
    assert_eq!(back[..2], [-9999.0, -9999.0]);
    assert!(back[2].is_nan());
}

/// The largest grids that the library takes, and those of no cells, which have no picture.
#[test]
fn sizes_to_the_bounds() {
    for (rows, columns) in [(1024, 1024), (32_767, 32), (32, 32_767), (0, 5), (5, 0)] {
        let folder = folder(&format!("bounds-{rows}-{columns}"));
        let row = vec!["1"; columns].join(" ") + "\n";
        let text = format!("ncols {columns}\nnrows {rows}\ncellsize 10\n{}", row.repeat(rows));
        fs::write(folder.join("landings.asc"), text).unwrap();
        let picture = if rows * columns == 0 { "" } else { " --picture out.png" };
        let (said, _) = noted(&folder, &format!("distance --targets landings.asc --out out.asc{picture}"));
        let zeros = vec!["0"; columns].join(" ") + "\n";
        let expected = format!("ncols {columns}\nnrows {rows}\ncellsize 10\nNODATA_value -9999\n");
        let expected = if columns == 0 { expected } else { expected + &zeros.repeat(rows).replacen('0', "0.0", 1) };
        assert!(fs::read_to_string(folder.join("out.asc")).unwrap() == expected, "{rows} by {columns}: {said}");
        if !picture.is_empty() {
            let reader = png::Decoder::new(File::open(folder.join("out.png")).unwrap()).read_info().unwrap();
            assert!(reader.info().width.max(reader.info().height) <= 4000, "{rows} by {columns}");
        }
    }
}
