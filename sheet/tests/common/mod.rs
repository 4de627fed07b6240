//! A folder of its own for each test, grids in it, and the tool run there.
#![allow(dead_code)]
pub mod gdal;

use std::fs;
use std::ops::Deref;
use std::path::{Path, PathBuf};
use std::process::{Command, Output};

/// A folder of its own for the test of this name, empty at first. It goes with the test that passes: `rt ci` takes no links
/// below the top folder, and some tests make links.
pub fn folder(name: &str) -> Folder {
    let folder = Path::new(env!("CARGO_TARGET_TMPDIR")).join(name);
    let _ = fs::remove_dir_all(&folder);
    fs::create_dir_all(&folder).unwrap();
    Folder(folder)
}

pub struct Folder(PathBuf);

impl Deref for Folder {
    type Target = Path;

    fn deref(&self) -> &Path {
        &self.0
    }
}

impl AsRef<Path> for Folder {
    fn as_ref(&self) -> &Path {
        self
    }
}

impl Drop for Folder {
    fn drop(&mut self) {
        if !std::thread::panicking() {
            fs::remove_dir_all(&self.0).unwrap();
        }
    }
}

/// The tool, run in a folder with words that are parted by blanks.
pub fn sheet(folder: &Path, words: &str) -> Output {
    Command::new(env!("CARGO_BIN_EXE_sheet")).args(words.split_whitespace()).current_dir(folder).output().unwrap()
}

/// What the tool prints when all is well and nothing has to be noted.
pub fn said(folder: &Path, words: &str) -> String {
    let (said, notes) = noted(folder, words);
    assert_eq!(notes, Vec::<String>::new(), "`sheet {words}` notes something");
    said
}

/// What the tool prints when all is well, and its notes.
pub fn noted(folder: &Path, words: &str) -> (String, Vec<String>) {
    let output = sheet(folder, words);
    let complaint = String::from_utf8(output.stderr).unwrap();
    assert!(output.status.success(), "`sheet {words}` fails: {complaint}");
    let note = |line: &str| line.strip_prefix("sheet: note: ").expect("a note").to_owned();
    (String::from_utf8(output.stdout).unwrap(), complaint.lines().map(note).collect())
}

/// The sentence that the tool fails with, whatever it noted before.
pub fn failure(folder: &Path, words: &str) -> String {
    let output = sheet(folder, words);
    assert_eq!(output.status.code(), Some(1), "`sheet {words}` does not fail");
    assert_eq!(output.stdout, b"", "`sheet {words}` prints beside its failure");
    let complaint = String::from_utf8(output.stderr).unwrap();
    let complaint: String =
        complaint.split_inclusive('\n').skip_while(|line| line.starts_with("sheet: note: ")).collect();
    let sentence = complaint.strip_prefix("sheet: ").and_then(|rest| rest.strip_suffix('\n'));
    let sentence = sentence.unwrap_or_else(|| panic!("not a sentence: {complaint:?}"));
    assert!(!sentence.contains('\n'), "more than a sentence: {sentence}");
    sentence.to_owned()
}

/// A grid whose rows are parted by |, with cell size 1.
pub fn grid(folder: &Path, name: &str, cells: &str) {
    grid_of_cell_size(folder, name, "1", cells);
}

pub fn grid_of_cell_size(folder: &Path, name: &str, cell_size: &str, cells: &str) {
    let rows: Vec<&str> = cells.split('|').map(str::trim).collect();
    let columns = rows[0].split_whitespace().count();
    let header = format!("ncols {columns}\nnrows {}\nxllcorner 0\nyllcorner 0\ncellsize {cell_size}\n", rows.len());
    fs::write(folder.join(name), header + "NODATA_value -9999\n" + &rows.join("\n") + "\n").unwrap();
}

/// The cells of a sheet, rows parted by |, as they stand in the file, save that the point of the first is left out where
/// only a 0 follows.
pub fn cells(folder: &Path, name: &str) -> String {
    let text = fs::read_to_string(folder.join(name)).unwrap();
    let is_header = |line: &&str| line.starts_with(char::is_alphabetic) && !line.starts_with("inf");
    let rows: Vec<&str> = text.lines().skip_while(is_header).collect();
    let cells = rows.join(" | ");
    let (first, rest) = cells.split_at(cells.find(' ').unwrap_or(cells.len()));
    first.strip_suffix(".0").unwrap_or(first).replace(".0e", "e") + rest
}
