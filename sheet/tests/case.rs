//! Grid files packed, answered by the program `haul`, and printed.
mod common;
use std::fs;
use std::io::Write;
use std::path::Path;
use std::process::{Command, Stdio};

use common::{cells, failure, folder, grid, grid_of_cell_size, noted, said};

/// Document 01's whole case.
const WHOLE_CASE: &str = "01 03 00 02 00 00 02 04 00 02 00 02 00 03 08 00 00 00 20 41 00 00 00 00 04 04 00 01 00 00 00 \
                          05 04 00 00 01 01 00";
const WHOLE_ANSWER: &str = "10 01 00 00 12 08 00 02 00 00 00 00 00 00 00 13 10 00 00 00 00 00 00 00 80 7F 00 00 80 7F \
                            30 46 62 41";

fn bytes(hex: &str) -> Vec<u8> {
    hex.split_whitespace().map(|byte| u8::from_str_radix(byte, 16).unwrap()).collect()
}

/// The program's answer to a grid file.
fn haul(file: &Path) -> Vec<u8> {
    let program = Path::new(env!("CARGO_MANIFEST_DIR")).join("../target/bin/haul");
    assert!(program.exists(), "{} is not there: run `.ci/archive haul`", program.display());
    let mut child =
        Command::new(program).stdin(Stdio::piped()).stdout(Stdio::piped()).spawn().expect("the program runs");
    child.stdin.take().unwrap().write_all(&fs::read(file).unwrap()).unwrap();
    child.wait_with_output().unwrap().stdout
}

#[test]
fn the_whole_case() {
    let folder = folder("case-whole");
    grid_of_cell_size(&folder, "landings.asc", "10", "1 0 | 0 0");
    grid_of_cell_size(&folder, "ditches.asc", "10", "0 1 | 1 0");
    let options = "distance --targets landings.asc --obstacles ditches.asc --diagonals include";
    assert_eq!(said(&folder, &format!("case pack {options} --out case.grid")), "case.grid: 38 bytes for distance\n");
    assert_eq!(fs::read(folder.join("case.grid")).unwrap(), bytes(WHOLE_CASE));
    assert_eq!(
        said(&folder, "case print case.grid"),
        "grid file for search 2, distance_with_obstacles, diagonals include\n2 rows, 2 columns\ncell size 10\n\
         targets\n 1 0\n 0 0\nobstacles\n 0 1\n 1 0\n"
    );

    let answer = haul(&folder.join("case.grid"));
    assert_eq!(answer, bytes(WHOLE_ANSWER));
    fs::write(folder.join("answer.grid"), answer).unwrap();
    assert_eq!(
        said(&folder, "case print answer.grid --of case.grid"),
        "answer file: accepted\ntakes 2\nanswer\n         0       inf\n       inf 14.142136\n"
    );
    assert_eq!(
        said(&folder, "case print answer.grid"),
        "answer file: accepted\ntakes 2\nanswer\n         0       inf       inf 14.142136\n"
    );
}

/// Every search: the program's answer to the packed grids is what the tool writes, nodata and all.
#[test]
fn the_program_answers_as_the_tool_does() {
    let folder = folder("case-all");
    grid(&folder, "a.asc", "1 0 -9999 | 0 2 0");
    grid(&folder, "b.asc", "0 1 0 | 0 0 -9999");
    grid(&folder, "times.asc", "1 2.5 -9999 | 0.1 inf 3");
    grid(&folder, "values.asc", "7 0 -9999 | 0.3 -2 1e30");
    for search in [
        "distance --targets a.asc",
        "distances_up_to --targets a.asc --limit 1.2",
        "distance --targets a.asc --obstacles b.asc --diagonals include",
        "distance --targets a.asc --obstacles b.asc --diagonals exclude",
        "travel_distance --targets a.asc --times times.asc",
        "value_at_closest_target --targets a.asc --values values.asc",
        "value_at_closest_travel_target --targets a.asc --times times.asc --values values.asc",
        "value_at_closest_travel_target --targets a.asc --times times.asc --values values.asc --nodata-starts",
        "value_at_closest_less_than_travel_target --targets a.asc --times times.asc --values values.asc --limit 2",
        "sum_within_travel_distance --mask a.asc --times times.asc --values values.asc --limit inf",
        "sum_within_travel_distance --mask a.asc --times times.asc --values values.asc --limit inf --adjacent",
        "sum_targets_within_travel_distance --times times.asc --amounts values.asc --limit 4",
    ] {
        let (told, _) = noted(&folder, &format!("{search} --unreached inf --out out.asc"));
        noted(&folder, &format!("case pack {search} --out case.grid"));
        fs::write(folder.join("answer.grid"), haul(&folder.join("case.grid"))).unwrap();
        let printed = said(&folder, "case print answer.grid --of case.grid");

        let (head, grid) = printed.split_once("answer\n").expect("the answer has a grid");
        let takes = head.lines().last().and_then(|line| line.strip_prefix("takes ")).expect("the answer has takes");
        assert!(told.contains(&format!(": {takes} takes in ")), "{search}: {told} against {takes}");
        let rows: Vec<String> = grid.lines().map(|row| row.split_whitespace().collect::<Vec<_>>().join(" ")).collect();
        assert_eq!(rows.join(" | ").replace("nodata", "-9999"), cells(&folder, "out.asc"), "{search}");
    }
}

#[test]
fn refusals_are_printed() {
    let folder = folder("case-refusals");
    grid(&folder, "mask.asc", "0 0 | 1 0");
    grid(&folder, "times.asc", "1 2 | 3 -4");
    let search = "sum_within_travel_distance --mask mask.asc --times times.asc --values mask.asc";
    let pack = |limit: &str| {
        said(&folder, &format!("case pack {search} --limit {limit} --out case.grid"));
        fs::write(folder.join("answer.grid"), haul(&folder.join("case.grid"))).unwrap();
        said(&folder, "case print answer.grid --of case.grid")
    };
    assert_eq!(pack("9"), "answer file: refused by 6: a time is below 0\nat row 2, column 2\n");
    assert_eq!(pack("0"), "answer file: refused by 5: the limit is NaN, or it is a budget and not above 0\n");
    grid(&folder, "times.asc", "1 2 | 3 4");
    let over = "answer file: refused by 7: a cell is reached only above the budget from a mask cell\n";
    assert_eq!(pack("1"), format!("{over}at row 2, column 1\n"));
    assert_eq!(said(&folder, "case print answer.grid"), format!("{over}at cell 2, counted from 0\n"));
}

/// A file that does not keep the form is printed as far as it goes.
#[test]
fn damaged_files() {
    let folder = folder("case-damaged");
    let print = |file: &[u8]| {
        fs::write(folder.join("case.grid"), file).unwrap();
        said(&folder, "case print case.grid")
    };
    let refused = "haul refuses this file by 8: it does not keep the file form\n";
    let whole = bytes(WHOLE_CASE);
    let cut = print(&whole[..36]);
    assert!(cut.ends_with(&format!("targets\n 1 0\n 0 0\nand then the field at byte 31 is cut\n{refused}")), "{cut}");

    let mut no_search = whole.clone();
    no_search[3] = 9;
    let printed = print(&no_search);
    assert!(printed.starts_with("grid file for search 9, which is none\n2 rows, 2 columns\n"), "{printed}");
    assert!(printed.ends_with(&format!("field 05 of 4 bytes: 00 01 01 00\n{refused}")), "{printed}");

    let mut flags = whole;
    flags[4] = 2;
    assert!(print(&flags).starts_with("grid file for search 2, distance_with_obstacles, diagonals 2\n"));

    fs::write(folder.join("case.grid"), b"ncols 3").unwrap();
    assert_eq!(
        failure(&folder, "case print case.grid"),
        "case.grid has no field, so it is neither a grid file nor an answer file"
    );
    fs::write(folder.join("case.grid"), [0x20, 0, 0]).unwrap();
    assert_eq!(
        failure(&folder, "case print case.grid"),
        "case.grid begins with tag 20: a grid file does with 01, an answer file with 10"
    );
}

/// Where the program could not write all of its answer, what is left is told from a whole one, wherever it ends.
#[test]
fn cut_answers() {
    let folder = folder("case-cut");
    fs::write(folder.join("case.grid"), bytes(WHOLE_CASE)).unwrap();
    let file = folder.join("answer.grid");
    let print = |answer: &[u8], of: &str| {
        fs::write(&file, answer).unwrap();
        said(&folder, &format!("case print answer.grid{of}"))
    };
    let accepted = "this is no whole answer: after status 0 come field 12 of 8 bytes and field 13 of 4 bytes a cell\n";
    let whole = bytes(WHOLE_ANSWER);
    for length in 0..4 {
        fs::write(&file, &whole[..length]).unwrap();
        assert!(failure(&folder, "case print answer.grid").contains(" has no field, "), "{length} bytes");
    }
    for length in 4..whole.len() {
        let printed = print(&whole[..length], "");
        assert!(printed.starts_with("answer file: accepted\n") && printed.ends_with(accepted), "{length}: {printed}");
    }
    assert_eq!(print(&whole[..4], ""), format!("answer file: accepted\n{accepted}"));
    let cut = print(&whole[..30], "");
    assert_eq!(cut, format!("answer file: accepted\ntakes 2\nand then the field at byte 15 is cut\n{accepted}"));

    let with_index = "this is no whole answer: after status 6 or 7 comes field 11 of 4 bytes\n";
    let alone = "this is no whole answer: after any status but 0, 6 and 7 comes nothing\n";
    assert!(print(&bytes("10 01 00 06"), "").ends_with(with_index));
    assert!(print(&bytes("10 01 00 07 11 03 00 01 00 00"), "").ends_with(with_index));
    assert!(print(&bytes("10 01 00 08 11 04 00 01 00 00 00"), "").ends_with(alone));
    assert!(print(&bytes("10 00 00"), "").ends_with("this is no whole answer: the status, field 10, has 1 byte\n"));
    for answer in ["10 01 00 05", "10 01 00 08", "10 01 00 06 11 04 00 01 00 00 00"] {
        assert!(!print(&bytes(answer), "").contains("no whole answer"), "{answer}");
    }
    // Three cells are an answer, though not to this grid file of four.
    let mut three = whole[..whole.len() - 4].to_vec();
    three[16] = 12;
    assert!(!print(&three, "").contains("no whole answer"));
    assert!(print(&three, " --of case.grid").ends_with(accepted));
}

#[test]
fn grids_that_no_file_holds() {
    let folder = folder("case-large");
    grid(&folder, "landings.asc", &vec!["0"; 1025].join(" "));
    let sentence = failure(&folder, "case pack distance --targets landings.asc --out case.grid");
    assert_eq!(sentence, "landings.asc has 1025 cells, and a grid file holds at most 1024");
    assert!(!folder.join("case.grid").exists());
    grid(&folder, "landings.asc", &vec!["0"; 1024].join(" "));
    noted(&folder, "case pack distance --targets landings.asc --out case.grid");
    assert_eq!(haul(&folder.join("case.grid"))[..4], [0x10, 1, 0, 0]);
}
