//! How cells that can't be reached are written, and read back with the same options.
mod common;
use common::{cells, failure, folder, grid, noted, said};
use sheet::grids::read_grid;

const DISTANCE: &str = "distance --targets landings.asc --out out.asc";

#[test]
fn as_nodata() {
    let folder = folder("unreached-nodata");
    grid(&folder, "landings.asc", "1 0 -9999 0 0");
    let report = said(&folder, DISTANCE);
    assert_eq!(cells(&folder, "out.asc"), "0 1 -9999 -9999 -9999");
    assert!(
        report.ends_with(
            " 2 of 5 cells reached\n2 cells can't be reached: nodata, -9999, in the sheet\n\
             1 cells are nodata: -9999 in the sheet, as well; --unreached NUMBER keeps them apart\n"
        ),
        "{report}"
    );
    assert_eq!(said(&folder, &format!("{DISTANCE} --unreached nodata")).lines().count(), 3);
    assert_eq!(cells(&folder, "out.asc"), "0 1 -9999 -9999 -9999");
}

#[test]
fn as_infinity() {
    let folder = folder("unreached-inf");
    grid(&folder, "landings.asc", "1 0 -9999 0 0");
    let report = said(&folder, &format!("{DISTANCE} --unreached inf"));
    assert_eq!(cells(&folder, "out.asc"), "0 1 -9999 inf inf");
    assert!(
        report.contains("\n2 cells can't be reached: `inf` in the sheet\n1 cells are nodata: -9999 in the sheet\n")
    );
    let (_, back) = read_grid::<f32>(&folder.join("out.asc"), None).unwrap();
    assert_eq!(back[3..], [f32::INFINITY; 2]);
    assert!(back[2].is_nan());
}

/// A number keeps them apart, and is infinity again where the sheet is read with the same option.
#[test]
fn as_a_number() {
    let folder = folder("unreached-number");
    grid(&folder, "landings.asc", "1 0 -9999 0 0");
    let report = said(&folder, &format!("{DISTANCE} --unreached 99999"));
    assert_eq!(cells(&folder, "out.asc"), "0 1 -9999 99999 99999");
    assert!(
        report.contains("\n2 cells can't be reached: 99999 in the sheet\n1 cells are nodata: -9999 in the sheet\n")
    );
    let (_, back) = read_grid::<f32>(&folder.join("out.asc"), Some(99999.0)).unwrap();
    assert_eq!(back[3..], [f32::INFINITY; 2]);

    // As times they cost infinity, and are nodata no more than they were: with the number they are entered by no one,
    // without it they are ground that costs a lot.
    grid(&folder, "landings.asc", "0 1 0 0 0");
    let travel = "travel_distance --targets landings.asc --times out.asc --out back.asc";
    said(&folder, &format!("{travel} --unreached 99999"));
    assert_eq!(cells(&folder, "back.asc"), "0.5 0 -9999 99999 99999");

    assert_eq!(
        failure(&folder, &format!("{DISTANCE} --unreached 1")),
        "--unreached 1 is what the cell at row 1, column 1 of the sheet holds; another number is needed to keep them apart"
    );
    // Nodata is then another number.
    grid(&folder, "landings.asc", "1 -9999 0");
    said(&folder, &format!("{DISTANCE} --unreached -9999"));
    assert_eq!(cells(&folder, "out.asc"), "0 -99999 -9999");
    for word in ["nan", "-inf", "far", "1e99"] {
        assert_eq!(
            failure(&folder, &format!("{DISTANCE} --unreached={word}")),
            format!("--unreached is `nodata`, `inf` or a number that a float holds, not {word}")
        );
    }
}

/// A limit of minus infinity and values that are infinite.
#[test]
fn infinities_that_were_given() {
    let folder = folder("unreached-given");
    grid(&folder, "landings.asc", "1 0 0");
    let (report, notes) = noted(&folder, &format!("{DISTANCE} --limit=-inf"));
    assert_eq!(cells(&folder, "out.asc"), "0 -9999 -9999");
    assert!(report.ends_with("\n2 cells hold minus infinity: nodata, -9999, in the sheet\n"), "{report}");
    assert_eq!(
        notes,
        ["nothing is nearer than a limit of -inf: only landings are reached, and every other cell holds the limit"]
    );
    noted(&folder, &format!("{DISTANCE} --limit=-inf --unreached inf"));
    assert_eq!(cells(&folder, "out.asc"), "0 -inf -inf");

    grid(&folder, "values.asc", "inf 0 0");
    let value = "value_at_closest_target --targets landings.asc --values values.asc --out out.asc";
    let report = said(&folder, value);
    assert_eq!(cells(&folder, "out.asc"), "-9999 -9999 -9999");
    assert!(report.ends_with("\n3 cells hold infinity: nodata, -9999, in the sheet\n"), "{report}");
}
