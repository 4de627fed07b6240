//! Document 01's small grids through the tool, so that each search is called as its name says.
mod common;
use common::{cells, failure, folder, grid, grid_of_cell_size, noted};

/// Grids by the options that name their files.
type Grids<'a> = &'a [(&'a str, &'a str)];

/// Writes the grids, each named by its option, runs the search and compares the sheet and the takes, where they are told.
fn check(name: &str, search: &str, grids: Grids, expected: &str, takes: Option<u64>) {
    let folder = folder(&format!("small-{name}"));
    let words = words(&folder, search, grids);
    let (said, _) = noted(&folder, &format!("{words} --unreached inf"));
    assert_eq!(cells(&folder, "out.asc"), expected, "{name}");
    if let Some(takes) = takes {
        assert!(said.contains(&format!(": {takes} takes in ")), "{name}: {said}");
    }
}

fn words(folder: &std::path::Path, search: &str, grids: Grids) -> String {
    let mut words = search.to_owned();
    for (option, cells) in grids {
        grid(folder, &format!("{option}.asc"), cells);
        words += &format!(" --{option} {option}.asc");
    }
    words + " --out out.asc"
}

#[test]
fn distances() {
    check("a", "distance", &[("targets", "1 0 0")], "0 1 2", Some(3));
    check("a-capped", "distances_up_to --limit inf", &[("targets", "1 0 0")], "0 1 2", Some(3));
    check("b", "distances_up_to --limit 2", &[("targets", "1 0 0")], "0 1 2", Some(2));
    check("b-hyphens", "distances-up-to --limit=2", &[("targets", "1 0 0")], "0 1 2", Some(2));
    check("b-short", "distance --limit 1.5", &[("targets", "1 0 0")], "0 1 1.5", Some(2));
    check("nodata", "distance", &[("targets", "1 -9999 0")], "0 -9999 inf", Some(1));
}

#[test]
fn distances_with_obstacles() {
    let c = [("targets", "1 0 | 0 0"), ("obstacles", "0 1 | 1 0")];
    check("c", "distance --diagonals exclude", &c, "0 inf | inf inf", Some(1));
    check("c-include", "distance --diagonals include", &c, "0 inf | inf 1.4142135", Some(2));
    check("c-named", "distance_with_obstacles --diagonals exclude", &c, "0 inf | inf inf", Some(1));
    let d = [("targets", "1 0 0"), ("obstacles", "1 0 0")];
    check("d", "distance_with_obstacles --diagonals exclude", &d, "0 1 2", None);
    let nodata = [("targets", "1 0 0"), ("obstacles", "0 -9999 0")];
    check("nodata-ditch", "distance --diagonals include", &nodata, "0 inf inf", Some(1));
}

#[test]
fn travel_distances() {
    let e = [("targets", "1 0"), ("times", "2 4")];
    check("e", "travel_distance", &e, "0 3", Some(2));
    check("e-capped", "travel_distances_up_to --limit 2.5", &e, "0 2.5", Some(1));
    check("e-nodata", "travel_distance", &[("targets", "1 0 0"), ("times", "2 -9999 4")], "0 -9999 inf", Some(1));
}

/// Case F is with nodata among the targets, which starts only if that is asked for.
#[test]
fn values_at_closest_targets() {
    let f = [("targets", "-9999 0"), ("times", "2 4"), ("values", "7 9")];
    check("f", "value_at_closest_travel_target --nodata-starts", &f, "7 7", Some(2));
    check("f-as-0", "value_at_closest_travel_target", &f, "0 0", Some(0));
    check("f-6", "value_at_closest_less_than_travel_target --limit 9 --nodata-starts", &f, "7 7", Some(2));
    check("f-6-as-0", "value_at_closest_less_than_travel_target --limit 9", &f, "0 0", Some(0));
    let g = [("targets", "-9999 0"), ("values", "7 9")];
    check("g", "value_at_closest_target", &g, "0 0", Some(0));
    check("g-target", "value_at_closest_target", &[("targets", "1 0"), ("values", "7 9")], "7 7", Some(2));
    let h = [("targets", "1 0"), ("times", "2 4"), ("values", "7 9")];
    check("h", "value_at_closest_less_than_travel_target --limit 4", &h, "7 0", None);
    check("h-more", "value_at_closest_less_than_travel_target --limit 4.5", &h, "7 7", None);
}

#[test]
fn sums() {
    let i = [("mask", "1 0"), ("times", "2 4"), ("values", "7 9")];
    check("i", "sum_within_travel_distance --limit 3", &i, "16 0", None);
    let j = [("mask", "1 0"), ("times", "2 -9999"), ("values", "7 9")];
    check("j", "sum_within_travel_distance --adjacent --limit 3", &j, "16 0", None);
    check("j-alone", "sum_within_travel_distance --limit 3", &j, "7 0", None);
    check("j-infinite", "sum_within_travel_distance --adjacent --limit inf", &j, "7 0", None);
    let k = [("times", "2 4"), ("amounts", "5 0")];
    check("k", "sum_targets_within_travel_distance --limit 4", &k, "5 5", None);
    check("k-3.5", "sum_targets_within_travel_distance --limit 3.5", &k, "5 0", Some(2));
    check("k-3", "sum_targets_within_travel_distance --limit 3", &k, "5 0", Some(1));
    let l = [("times", "0 16777216"), ("amounts", "5 0")];
    check("l", "sum_targets_within_travel_distance --limit 16777216", &l, "5 0", None);
    let m = [("times", "-9999 4"), ("amounts", "5 0")];
    check("m", "sum_targets_within_travel_distance --limit 9", &m, "0 0", Some(0));
}

#[test]
fn over_budget() {
    let folder = folder("small-over-budget");
    let i = [("mask", "1 0"), ("times", "2 4"), ("values", "7 9")];
    let sentence = failure(&folder, &words(&folder, "sum_within_travel_distance --limit 2.5", &i));
    assert_eq!(
        sentence,
        "the budget of 2.5 is too small: a cell is reached only above it from the mask cell at row 1, column 1 of mask.asc"
    );
}

/// How many cells are reached, where the sheet alone does not show it.
#[test]
fn reached() {
    let cases: [(&str, Grids, &str); 13] = [
        ("distance --limit 2", &[("targets", "1 0 0")], "2 of 3"),
        ("distance --limit 0", &[("targets", "1 0 0")], "1 of 3"),
        ("distance --diagonals exclude", &[("targets", "1 0 | 0 0"), ("obstacles", "0 1 | 1 0")], "1 of 4"),
        ("distance", &[("targets", "1 0 -9999")], "2 of 3"),
        ("distance --limit 0", &[("targets", "1 0 -9999")], "1 of 3"),
        ("travel_distance", &[("targets", "1 0 0"), ("times", "2 -9999 4")], "1 of 3"),
        ("travel_distance", &[("targets", "1 0 1 -9999"), ("times", "2 4 -9999 4")], "2 of 4"),
        ("value_at_closest_target", &[("targets", "1 0 0"), ("values", "0 9 9")], "3 of 3"),
        ("value_at_closest_target", &[("targets", "1 0 0"), ("values", "-9999 9 9")], "3 of 3"),
        (
            "value_at_closest_travel_target",
            &[("targets", "1 0 0 0"), ("times", "1 1 1 1"), ("values", "0 9 -9999 9")],
            "2 of 4",
        ),
        (
            "sum_within_travel_distance --limit 9",
            &[("mask", "1 -9999 0 0"), ("times", "1 1 -9999 1"), ("values", "1 1 1 1")],
            "2 of 4",
        ),
        (
            "sum_within_travel_distance --limit 9",
            &[("mask", "1 0 1 0"), ("times", "1 1 -9999 1"), ("values", "1 1 1 1")],
            "3 of 4",
        ),
        ("sum_targets_within_travel_distance --limit 1", &[("times", "1 1 1"), ("amounts", "5 0 0")], "2 of 3"),
    ];
    for (at, (search, grids, expected)) in cases.into_iter().enumerate() {
        let folder = folder(&format!("reached-{at}"));
        let (said, _) = noted(&folder, &words(&folder, search, grids));
        assert!(said.contains(&format!(", {expected} cells reached\n")), "{search}: {said}");
    }
}

/// The limit of search 1 counts in cells. What is not nearer holds it in metres and is not reached, whether cells are
/// longer than a metre or shorter.
#[test]
fn a_limit_in_cells_of_another_size() {
    for (cell_size, sheet) in [("10", "0 10 20 20 20"), ("0.25", "0 0.25 0.5 0.5 0.5")] {
        let folder = folder(&format!("limit-in-cells-of-{cell_size}"));
        grid_of_cell_size(&folder, "landings.asc", cell_size, "1 0 0 0 0");
        let (said, _) = noted(&folder, "distance --targets landings.asc --limit 2 --out out.asc");
        assert_eq!(cells(&folder, "out.asc"), sheet);
        assert!(said.contains(", 2 of 5 cells reached\n"), "{cell_size}: {said}");
    }
}
