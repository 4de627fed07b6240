//! Nothing is written over a good file when something fails.
mod common;
use std::fs;
use std::path::Path;

use common::{failure, folder, grid, said};

const OLD: &str = "an older sheet";

fn stand(name: &str) -> common::Folder {
    let folder = folder(name);
    grid(&folder, "landings.asc", "1 0 0");
    fs::write(folder.join("out.asc"), OLD).unwrap();
    folder
}

/// The older sheet is as it was, and no other file was left.
fn untouched(folder: &Path, files: &[&str]) {
    assert_eq!(fs::read_to_string(folder.join("out.asc")).unwrap(), OLD);
    let mut found: Vec<String> =
        fs::read_dir(folder).unwrap().map(|entry| entry.unwrap().file_name().into_string().unwrap()).collect();
    found.sort();
    assert_eq!(found, files);
}

#[test]
fn a_picture_that_cannot_be_written() {
    let folder = stand("output-picture");
    let words = "distance --targets landings.asc --out out.asc --picture";
    let sentence = failure(&folder, &format!("{words} absent/out.png"));
    assert!(sentence.starts_with("absent/out.png can't be written: "), "{sentence}");
    untouched(&folder, &["landings.asc", "out.asc"]);

    fs::create_dir(folder.join("taken.png")).unwrap();
    let sentence = failure(&folder, &format!("{words} taken.png"));
    assert!(sentence.starts_with("taken.png can't be written: "), "{sentence}");
    untouched(&folder, &["landings.asc", "out.asc", "taken.png"]);
}

#[test]
fn a_grid_that_is_refused() {
    let folder = stand("output-refused");
    grid(&folder, "landings.asc", "1 0 0.5");
    failure(&folder, "distance --targets landings.asc --out out.asc");
    untouched(&folder, &["landings.asc", "out.asc"]);
}

#[test]
fn a_grid_without_cells_has_no_picture() {
    let folder = stand("output-empty");
    fs::write(folder.join("landings.asc"), "ncols 0\nnrows 0\ncellsize 10\n").unwrap();
    let sentence = failure(&folder, "distance --targets landings.asc --out out.asc --picture out.png");
    assert_eq!(sentence, "a grid without cells has no picture");
    untouched(&folder, &["landings.asc", "out.asc"]);
}

#[test]
fn outputs_that_would_be_lost() {
    let folder = stand("output-same");
    let sentence = failure(&folder, "distance --targets landings.asc --out ./landings.asc");
    assert_eq!(sentence, "./landings.asc is the file of --targets, and is not written over");
    let sentence = failure(&folder, "distance --targets landings.asc --out out.asc --picture ./out.asc");
    assert_eq!(sentence, "--out out.asc and --picture ./out.asc are the same file");
    let sentence = failure(&folder, "distance --targets landings.asc --out out.asc --picture out.asc");
    assert_eq!(sentence, "--out and --picture are both out.asc");
    let sentence = failure(&folder, "distance --targets landings.asc");
    assert_eq!(sentence, "--out or --picture must say where the sheet goes");
    untouched(&folder, &["landings.asc", "out.asc"]);
}

#[test]
fn an_older_sheet_is_replaced_when_all_is_well() {
    let folder = stand("output-replaced");
    said(&folder, "distance --targets landings.asc --out out.asc --picture out.png");
    assert_eq!(common::cells(&folder, "out.asc"), "0 1 2");
    assert!(folder.join("out.png").exists());
    assert_eq!(fs::read_dir(&folder).unwrap().count(), 3);
}
