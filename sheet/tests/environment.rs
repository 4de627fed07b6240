//! Something that is loaded into the tool and changes how floats are computed is told of, and no sheet is made.
mod common;
use std::fs;
use std::process::Command;

use common::{folder, grid};

#[test]
fn floats_that_are_not_kept() {
    let folder = folder("environment");
    grid(&folder, "landings.asc", "1 0");
    // A library that is linked with -Ofast sets the processor as it is loaded.
    fs::write(folder.join("fast.c"), "int fast;\n").unwrap();
    let made = Command::new("cc")
        .args(["-Ofast", "-shared", "-fPIC", "fast.c", "-o", "fast.so"])
        .current_dir(&folder)
        .status();
    assert!(made.unwrap().success());
    let sheet = |preloaded: &str| {
        let mut command = Command::new(env!("CARGO_BIN_EXE_sheet"));
        command.args("distance --targets landings.asc --out out.asc".split(' ')).current_dir(&folder);
        command.env("LD_PRELOAD", preloaded).output().unwrap()
    };
    let output = sheet("./fast.so");
    let complaint = String::from_utf8(output.stderr).unwrap();
    assert_eq!(output.status.code(), Some(1), "{complaint}");
    assert!(complaint.starts_with("sheet: floats are not computed as the searches need it: "), "{complaint}");
    assert!(!folder.join("out.asc").exists());
    assert!(sheet("").status.success());
}
