//! What a planner gets wrong, and is told.
mod common;
use std::fs;

use common::{cells, failure, folder, grid, grid_of_cell_size, noted, said};

/// As gdal_rasterize leaves it: nodata wherever nothing was burnt.
#[test]
fn mostly_nodata() {
    let folder = folder("notes-nodata");
    grid(&folder, "landings.asc", "1 -9999 -9999 -9999");
    grid(&folder, "ditches.asc", "-9999 -9999 1 -9999");
    let (_, notes) = noted(&folder, "distance --targets landings.asc --out out.asc");
    assert_eq!(
        notes,
        ["3 of 4 cells of landings.asc are nodata: closed ground, which is never entered and is nodata in the sheet; \
          --nodata-as-0 targets takes it as 0"]
    );
    let with_ditches = "distance --targets landings.asc --obstacles ditches.asc --diagonals exclude --out out.asc";
    let (_, notes) = noted(&folder, with_ditches);
    assert_eq!(
        notes,
        [
            "3 of 4 cells of ditches.asc are nodata: each of them counts as a ditch; --nodata-as-0 obstacles takes it as 0"
        ]
    );
    assert_eq!(cells(&folder, "out.asc"), "0 -9999 -9999 -9999");
    said(&folder, &format!("{with_ditches} --nodata-as-0 obstacles"));
    assert_eq!(cells(&folder, "out.asc"), "0 1 -9999 -9999");
    said(&folder, "distance --targets landings.asc --nodata-as-0 targets --out out.asc");
    assert_eq!(cells(&folder, "out.asc"), "0 1 2 3");

    // Half is not most.
    grid(&folder, "landings.asc", "1 0 -9999 -9999");
    said(&folder, "distance --targets landings.asc --out out.asc");
}

#[test]
fn mostly_nodata_in_the_other_roles() {
    let folder = folder("notes-roles");
    grid(&folder, "landings.asc", "1 -9999 -9999");
    grid(&folder, "times.asc", "1 -9999 -9999");
    grid(&folder, "values.asc", "5 -9999 -9999");
    let times = "2 of 3 cells of times.asc are nodata: they can't be entered";
    let values = "2 of 3 cells of values.asc are nodata: closed ground, which is never entered; \
                  --nodata-as-0 values takes it as 0";
    let targets = "2 of 3 cells of landings.asc are nodata: each of them counts as a landing; \
                   --nodata-as-0 targets takes it as 0";
    let crossing = "2 of 3 cells of times.asc are nodata: only a budget of more than a quarter of the largest float \
                    leads across them";
    let travel = "value_at_closest_travel_target --targets landings.asc --times times.asc --values values.asc";
    let cases: [(&str, &[&str]); 5] = [
        ("value_at_closest_target --targets landings.asc --values values.asc", &[]),
        (travel, &[times, values]),
        (&format!("{travel} --nodata-starts"), &[targets, times, values]),
        ("sum_within_travel_distance --mask landings.asc --times times.asc --values values.asc --limit 9", &[times]),
        ("sum_targets_within_travel_distance --times times.asc --amounts values.asc --limit 9", &[crossing]),
    ];
    for (search, expected) in cases {
        let (_, notes) = noted(&folder, &format!("{search} --out out.asc"));
        assert_eq!(notes, expected, "{search}");
    }
    let (_, notes) = noted(&folder, &format!("{travel} --nodata-as-0 values --out out.asc"));
    assert_eq!(notes, [times]);
}

#[test]
fn nodata_as_0_of_what() {
    let folder = folder("notes-as-0");
    grid(&folder, "a.asc", "1 0");
    let said_to = |words: &str| failure(&folder, &format!("{words} --out out.asc"));
    assert_eq!(
        said_to("travel_distance --targets a.asc --times a.asc --nodata-as-0 times"),
        "--nodata-as-0 is not for times: what can't be entered would cost nothing"
    );
    assert_eq!(
        said_to("distance --targets a.asc --nodata-as-0 obstacles"),
        "distance takes no --obstacles, so --nodata-as-0 obstacles says nothing"
    );
    assert_eq!(
        said_to("distance --targets a.asc --nodata-as-0 a.asc"),
        "--nodata-as-0 wants the name of a grid, such as `obstacles`, not a.asc"
    );
    assert_eq!(
        said_to(
            "value_at_closest_travel_target --targets a.asc --times a.asc --values a.asc --nodata-starts \
             --nodata-as-0 targets"
        ),
        "--nodata-starts and --nodata-as-0 targets contradict each other"
    );
}

#[test]
fn nothing_to_start_from() {
    let folder = folder("notes-nothing");
    grid(&folder, "zeros.asc", "0 0 0");
    let notes = |words: &str| noted(&folder, &format!("{words} --out out.asc")).1;
    assert_eq!(notes("distance --targets zeros.asc"), ["zeros.asc has no landing, so nothing is reached"]);
    assert_eq!(
        notes("sum_within_travel_distance --mask zeros.asc --times zeros.asc --values zeros.asc --limit 1"),
        ["zeros.asc has no chosen cell, so every cell of the sheet is 0"]
    );
    assert_eq!(
        notes("sum_targets_within_travel_distance --times zeros.asc --amounts zeros.asc --limit 1"),
        ["zeros.asc has no amount, so every cell of the sheet is 0"]
    );
}

/// Identifiers above 254 and below 0 are landings, chosen cells and ditches as others are; 255 is nodata only where the
/// file says so.
#[test]
fn identifiers() {
    let folder = folder("notes-identifiers");
    grid(&folder, "zeros.asc", "0 0 0 0 0 0");
    for number in ["255", "256", "4711", "-3", "2147483648", "254.0", "1e99"] {
        grid(&folder, "landings.asc", &format!("0 0 {number} 0 0 0"));
        said(&folder, "distance --targets landings.asc --out out.asc");
        assert_eq!(cells(&folder, "out.asc"), "2 1 0 1 2 3", "{number}");
        grid(&folder, "start.asc", "1 0 0 0 0 0");
        said(&folder, "distance --targets start.asc --obstacles landings.asc --diagonals include --out out.asc");
        assert_eq!(cells(&folder, "out.asc"), "0 1 -9999 -9999 -9999 -9999", "{number}");
        said(
            &folder,
            "sum_within_travel_distance --mask landings.asc --times start.asc --values start.asc --limit 9 --out out.asc",
        );
        assert_eq!(cells(&folder, "out.asc"), "0 0 1 0 0 0", "{number}");
    }
    fs::write(folder.join("landings.asc"), "ncols 3\nnrows 1\ncellsize 1\nNODATA_value 255\n1 255 0\n").unwrap();
    said(&folder, "distance --targets landings.asc --out out.asc");
    assert_eq!(cells(&folder, "out.asc"), "0 -9999 -9999");
}

/// A number for nothing that the file does not say to be nodata.
#[test]
fn mostly_landings() {
    let folder = folder("notes-landings");
    grid(&folder, "landings.asc", &["1 0 255 255 255 255 255 255 255 255"; 3].join("|"));
    let (_, notes) = noted(&folder, "distance --targets landings.asc --out out.asc");
    assert_eq!(notes, ["27 of 30 cells of landings.asc are landings"]);
}

#[test]
fn limits() {
    let folder = folder("notes-limits");
    grid_of_cell_size(&folder, "landings.asc", "3", "1 0 0 0 0");
    let (_, notes) = noted(&folder, "distance --targets landings.asc --limit-metres 10 --out out.asc");
    assert_eq!(notes, ["a limit of 10 m is 3.3333333 cells of 3 m, as a float; what is not nearer holds 10 m"]);
    assert_eq!(cells(&folder, "out.asc"), "0 3 6 9 10");
    let (_, notes) = noted(&folder, "distances_up_to --targets landings.asc --limit-metres 6 --out out.asc");
    assert_eq!(notes, ["a limit of 6 m is 2 cells of 3 m, as a float; what is not nearer holds 6 m"]);
    assert_eq!(cells(&folder, "out.asc"), "0 3 6 6 6");

    let (_, notes) = noted(&folder, "distance --targets landings.asc --limit=-2 --out out.asc");
    assert_eq!(
        notes,
        ["nothing is nearer than a limit of -2: only landings are reached, and every other cell holds the limit"]
    );
    assert_eq!(cells(&folder, "out.asc"), "0 -6 -6 -6 -6");
    grid(&folder, "times.asc", "1 1 1 1 1");
    let (_, notes) = noted(
        &folder,
        "value_at_closest_less_than_travel_target --targets times.asc --times times.asc --values times.asc --limit 0 \
         --out out.asc",
    );
    assert_eq!(notes, ["nothing is nearer than a limit of 0: only landings are reached, and every other cell holds 0"]);

    let said_to = |words: &str| failure(&folder, &format!("{words} --out out.asc"));
    assert_eq!(said_to("distance --targets landings.asc --limit 3 --limit-metres 3"), "--limit is given twice");
    assert_eq!(said_to("distance --targets landings.asc --limit-metres far"), "--limit-metres far is no length");
    assert_eq!(said_to("distance --targets landings.asc --limit-metres inf"), "--limit-metres inf is no length");
    assert_eq!(
        said_to("travel_distance --targets landings.asc --times times.asc --limit-metres 3"),
        "travel_distance takes no --limit-metres"
    );
}

/// Width and height that differ in the last digits alone.
#[test]
fn rounded_cells() {
    let folder = folder("notes-rounded");
    let grid = |dx: &str, dy: &str| {
        let text = format!("ncols 3\nnrows 1\nxllcorner 0\nyllcorner 0\ndx {dx}\ndy {dy}\n1 0 0\n");
        fs::write(folder.join("landings.asc"), text).unwrap();
    };
    grid("10.00000001", "9.99999999");
    let (_, notes) = noted(&folder, "distance --targets landings.asc --out out.asc");
    assert_eq!(
        notes,
        [
            "landings.asc has cells that are 10.00000001 wide and 9.99999999 high, which is taken as 10.00000001 both ways"
        ]
    );
    grid("10", "10.0");
    said(&folder, "distance --targets landings.asc --out out.asc");
    grid("10", "10.001");
    assert_eq!(
        failure(&folder, "distance --targets landings.asc --out out.asc"),
        "the header of landings.asc has cells that are 10 wide and 10.001 high, and the searches are for square cells; \
         `gdalwarp -r near -tr 10 10 landings.asc square.tif` makes them square"
    );
}
