//! Files that are no good, and the sentence that each gets.
mod common;
use std::fs;
use std::path::Path;

use common::{failure, folder, grid, grid_of_cell_size, said};

const HEADER: &str = "ncols 3\nnrows 2\nxllcorner 0\nyllcorner 0\ncellsize 10\nNODATA_value -9999\n";
const DISTANCE: &str = "distance --targets landings.asc --out out.asc";

/// What the tool says to these bytes as landings.
fn landings(name: &str, bytes: impl AsRef<[u8]>) -> String {
    let folder = folder(&format!("bad-{name}"));
    fs::write(folder.join("landings.asc"), bytes).unwrap();
    let sentence = failure(&folder, DISTANCE);
    assert!(!folder.join("out.asc").exists());
    sentence
}

/// What the tool says to these cells as landings, below a good header.
fn cells(name: &str, cells: &str) -> String {
    landings(name, format!("{HEADER}{cells}"))
}

#[test]
fn rows() {
    assert_eq!(cells("short", "1 0 0\n0 0\n"), "2 values where the header says 3 in row 2 of landings.asc");
    assert_eq!(cells("long", "1 0 0 0\n0 0 0\n"), "4 values where the header says 3 in row 1 of landings.asc");
    assert_eq!(cells("few", "1 0 0\n"), "0 values where the header says 3 in row 2 of landings.asc");
    assert_eq!(cells("many", "1 0 0\n0 0 0\n0 0 0\n"), "landings.asc has more rows than the 2 of its header");
    assert_eq!(cells("one-a-line", "1\n0\n0\n0\n0\n0\n"), "1 values where the header says 3 in row 1 of landings.asc");
}

#[test]
fn bytes() {
    let wrong = "is neither a whole number nor the nodata value at row 2, column 3 of landings.asc";
    for word in ["1.5", "nan", "inf", "-inf", "1e999", "254.0000001", "-0.5"] {
        assert_eq!(cells("byte", &format!("1 0 0\n0 0 {word}\n")), format!("`{word}` {wrong}"));
    }
    assert_eq!(cells("text", "1 0 0\n0 0 x\n"), "`x` is no number at row 2, column 3 of landings.asc");
    assert_eq!(cells("comma", "1 0 0\n0 0,5 0\n"), "`0,5` is no number at row 2, column 2 of landings.asc");
}

#[test]
fn floats() {
    let folder = folder("bad-floats");
    grid(&folder, "landings.asc", "1 0");
    let said_to = |times: &str| {
        grid(&folder, "times.asc", times);
        failure(&folder, "travel_distance --targets landings.asc --times times.asc --out out.asc")
    };
    assert_eq!(said_to("1 x"), "`x` is no number that a float holds at row 1, column 2 of times.asc");
    assert_eq!(said_to("1e39 1"), "`1e39` is no number that a float holds at row 1, column 1 of times.asc");
    assert_eq!(said_to("1 nan"), "`nan` is neither a number nor the nodata value at row 1, column 2 of times.asc");
    assert_eq!(said_to("1 -inf"), "time below 0 at row 1, column 2 of times.asc");
}

#[test]
fn headers() {
    assert_eq!(landings("empty", ""), "the header of landings.asc lacks nrows");
    assert_eq!(landings("cells-alone", "1 0 0\n"), "the header of landings.asc lacks nrows");
    let without = |line: &str| HEADER.replace(line, "") + "1 0 0\n0 0 0\n";
    assert_eq!(landings("ncols", without("ncols 3\n")), "the header of landings.asc lacks ncols");
    assert_eq!(landings("cellsize", without("cellsize 10\n")), "the header of landings.asc lacks cellsize");
    let with = |line: &str, other: &str| HEADER.replace(line, other) + "1 0 0\n0 0 0\n";
    assert_eq!(
        landings("twice", with("nrows 2\n", "nrows 2\nNROWS 2\n")),
        "the header of landings.asc has nrows twice"
    );
    assert_eq!(
        landings("two", with("nrows 2\n", "nrows 2 2\n")),
        "the header of landings.asc has nrows with 2 values, not one"
    );
    assert_eq!(
        landings("rows", with("nrows 2\n", "nrows two\n")),
        "the header of landings.asc has nrows two, which is no whole number that a side could have"
    );
    assert_eq!(
        landings("nodata", with("-9999", "none")),
        "the header of landings.asc has nodata_value none, which is no number"
    );
    assert_eq!(
        landings("not-square", with("cellsize 10\n", "dx 10\ndy 20\n")),
        "the header of landings.asc has cells that are 10 wide and 20 high, and the searches are for square cells; \
         `gdalwarp -r near -tr 10 10 landings.asc square.tif` makes them square"
    );
    assert_eq!(
        landings("half-square", with("cellsize 10\n", "dx 10\n")),
        "the header of landings.asc has neither cellsize alone nor dx and dy"
    );
    assert_eq!(
        landings("unknown", with("cellsize 10\n", "cellsize 10\nprojection 3\n")),
        "`projection` is no number at row 1, column 1 of landings.asc"
    );
    assert_eq!(landings("binary", b"\xff\xfe\x00"), "landings.asc is no text, so no ESRI ASCII grid, and no GeoTIFF");
}

/// Out of the library's bounds. The cells are not there to be read, so it is the header that is judged.
#[test]
fn too_large() {
    let bounds = "a grid's size is out of bounds: 0 to 32,767 rows, 0 to 32,767 columns, at most 1,048,576 cells";
    for (rows, columns) in [("1025", "1024"), ("32768", "1"), ("1", "32768"), ("-1", "1"), ("2147483647", "2147483647")]
    {
        let sentence = landings("large", format!("ncols {columns}\nnrows {rows}\ncellsize 10\n"));
        assert_eq!(sentence, format!("the header of landings.asc says {rows} rows and {columns} columns: {bounds}"));
    }
    assert_eq!(
        landings("larger", "ncols 2147483648\nnrows 1\ncellsize 10\n"),
        "the header of landings.asc has ncols 2147483648, which is no whole number that a side could have"
    );
}

#[test]
fn cell_sizes() {
    for size in ["0", "-10", "nan", "inf", "1e99"] {
        let folder = folder("bad-cell-size");
        grid_of_cell_size(&folder, "landings.asc", size, "1 0 0");
        let sentence = failure(&folder, DISTANCE);
        let start = "the cell size ";
        let end = " of landings.asc is not a finite number above 0";
        assert!(sentence.starts_with(start) && sentence.ends_with(end), "{size}: {sentence}");
    }
}

#[test]
fn limits() {
    let folder = folder("bad-limits");
    grid(&folder, "landings.asc", "1 0");
    grid(&folder, "times.asc", "1 1");
    let distances = |limit: &str| failure(&folder, &format!("{DISTANCE} --limit {limit}"));
    assert_eq!(distances("nan"), "--limit nan is no limit");
    assert_eq!(distances("far"), "--limit far is no number that a float holds; `inf` is for none");
    assert_eq!(distances("1e99"), "--limit 1e99 is no number that a float holds; `inf` is for none");
    for limit in ["0", "-0", "-3.5"] {
        let sums = "sum_targets_within_travel_distance --times times.asc --amounts times.asc --out out.asc";
        let sentence = failure(&folder, &format!("{sums} --limit={limit}"));
        assert_eq!(sentence, format!("--limit {limit} is a budget here and must be above 0"));
    }
}

#[test]
fn negative_times() {
    let folder = folder("bad-negative");
    let zeros = vec!["0"; 20].join(" ");
    grid(&folder, "landings.asc", &[&zeros; 4].map(|row| row.as_str()).join("|"));
    let mut times = vec![vec!["1"; 20]; 4];
    (times[2][16], times[3][0]) = ("-0.5", "-1");
    let times: Vec<String> = times.iter().map(|row| row.join(" ")).collect();
    grid(&folder, "times.asc", &times.join("|"));
    for search in [
        "travel_distance --targets landings.asc",
        "value_at_closest_travel_target --values landings.asc --targets landings.asc",
        "value_at_closest_less_than_travel_target --limit 2 --values landings.asc --targets landings.asc",
        "sum_within_travel_distance --limit 2 --values landings.asc --mask landings.asc",
        "sum_targets_within_travel_distance --limit 2 --amounts landings.asc",
    ] {
        let sentence = failure(&folder, &format!("{search} --times times.asc --out out.asc"));
        assert_eq!(sentence, "time below 0 at row 3, column 17 of times.asc");
    }
}

/// What the tool says to landings with the good header and ditches with another.
fn ditches(folder: &Path, header: &str, cells: &str) -> std::process::Output {
    fs::write(folder.join("landings.asc"), format!("{HEADER}1 0 0\n0 0 0\n")).unwrap();
    fs::write(folder.join("ditches.asc"), format!("{header}{cells}")).unwrap();
    common::sheet(folder, &format!("{DISTANCE} --obstacles ditches.asc --diagonals exclude"))
}

#[test]
fn grids_that_differ() {
    let folder = folder("bad-differ");
    let sentence = |header: &str, cells: &str| {
        let output = ditches(&folder, header, cells);
        assert_eq!(output.status.code(), Some(1), "accepted: {header}");
        String::from_utf8(output.stderr).unwrap()
    };
    assert_eq!(
        sentence(&HEADER.replace("ncols 3", "ncols 2").replace("nrows 2", "nrows 3"), "0 0\n0 0\n0 0\n"),
        "sheet: landings.asc has 2 rows and 3 columns, but ditches.asc has 3 rows and 2 columns\n"
    );
    assert_eq!(
        sentence(&HEADER.replace("xllcorner 0", "xllcorner 5"), "0 0 0\n0 0 0\n"),
        "sheet: landings.asc and ditches.asc do not lie on each other: \
         corner 0 0 and cell size 10 against corner 5 0 and cell size 10\n"
    );
    assert_eq!(
        sentence(&HEADER.replace("cellsize 10", "cellsize 10.5"), "0 0 0\n0 0 0\n"),
        "sheet: landings.asc and ditches.asc do not lie on each other: \
         corner 0 0 and cell size 10 against corner 0 0 and cell size 10.5\n"
    );
}

/// Headers as other programs write them, which all lie where the good one does.
#[test]
fn headers_that_agree() {
    let folder = folder("good-headers");
    for header in [
        "NCOLS 3\r\nNROWS 2\r\nXLLCORNER 0.000\r\nYLLCORNER 0.000\r\nCELLSIZE 10.000\r\nNODATA_VALUE 255\r\n",
        "nrows        2\nncols        3\nxllcenter    5\nyllcenter    5\ndx           10\ndy           10.0\n",
        "\u{feff}cellsize 10\nncols 3\nnrows 2\n\n",
        "ncols 3\nnrows 2\nxllcorner 0.00001\nyllcorner -0.00001\ncellsize 10.0000001\nNODATA_value nan\n",
    ] {
        let output = ditches(&folder, header, " 0 0 1.0 \n\n 0 1 0\n\n");
        assert!(output.status.success(), "{header}: {}", String::from_utf8_lossy(&output.stderr));
        assert_eq!(common::cells(&folder, "out.asc"), "0 10 -9999 | 10 -9999 -9999");
    }
}

/// Nodata that has other digits than the header's, and nodata that no float holds.
#[test]
fn nodata_of_floats() {
    let folder = folder("nodata-floats");
    grid(&folder, "landings.asc", "1 0 0");
    for (header, nodata) in [
        ("-3.4028234663852886e+38", "-3.4028235e+38"),
        ("-1.7976931348623157e+308", "-1.7976931348623157e+308"),
        ("nan", "-nan"),
        ("-32768", "-32768.000"),
    ] {
        let text = format!("ncols 3\nnrows 1\ncellsize 1\nNODATA_value {header}\n1 {nodata} 0\n");
        fs::write(folder.join("times.asc"), text).unwrap();
        said(&folder, "travel_distance --targets landings.asc --times times.asc --out out.asc");
        assert_eq!(common::cells(&folder, "out.asc"), "0 -9999 -9999", "{header}");
    }
}

/// Each program's own value for nodata, and the format's where none is said.
#[test]
fn nodata_values() {
    let folder = folder("nodata-values");
    for (header, nodata) in [
        ("", "-9999"),
        ("NODATA_value -9999\n", "-9999.0"),
        ("NODATA_value 255\n", "255"),
        ("NODATA_value nan\n", "nan"),
    ] {
        let text = format!("ncols 3\nnrows 1\ncellsize 10\n{header}1 {nodata} 0\n");
        fs::write(folder.join("landings.asc"), text).unwrap();
        said(&folder, DISTANCE);
        assert_eq!(common::cells(&folder, "out.asc"), "0 -9999 -9999", "{header}");
    }
}

#[test]
fn files_that_are_not_there() {
    let folder = folder("bad-absent");
    let sentence = failure(&folder, DISTANCE);
    assert!(sentence.starts_with("landings.asc can't be read: "), "{sentence}");
}

/// Grids of other programs, and comments, are named.
#[test]
fn grids_of_other_programs() {
    let grass = "north: 40\nsouth: 0\neast: 60\nwest: 0\nrows: 2\ncols: 3\nnull: *\n1 0 0\n0 0 0\n";
    let mend = "`gdal_translate -of AAIGrid IN OUT.asc` makes one of what GDAL can read";
    assert_eq!(landings("grass", grass), format!("landings.asc is a GRASS ASCII grid and no ESRI ASCII grid; {mend}"));
    assert_eq!(
        landings("surfer", "DSAA\n3 2\n0 60\n0 40\n0 1\n1 0 0\n0 0 0\n"),
        format!("landings.asc is a Surfer ASCII grid and no ESRI ASCII grid; {mend}")
    );
    assert_eq!(
        landings("surfer-binary", b"DSBB\x03\x00\x02\x00\xff\xff\xff\xff"),
        format!("landings.asc is a binary Surfer grid, and neither an ESRI ASCII grid nor a GeoTIFF; {mend}")
    );
    assert_eq!(
        landings("comment-first", format!("# made by hand\n{HEADER}1 0 0\n0 0 0\n")),
        "landings.asc begins with a comment, `# made by hand`, which a grid can't have"
    );
    assert_eq!(
        landings("comment-header", HEADER.replace("nrows", "// rows\nnrows") + "1 0 0\n0 0 0\n"),
        "the header of landings.asc has a comment, `// rows`, which an ESRI ASCII grid can't have"
    );
    assert_eq!(
        cells("comment-cells", "1 0 0\n; the second row\n0 0 0\n"),
        "`; the second row` is a comment, which a grid can't have, in row 2 of landings.asc"
    );
    assert_eq!(cells("comment-end", "1 0 0\n0 0 0\n# end\n"), "landings.asc has a comment below its cells, `# end`");
}
