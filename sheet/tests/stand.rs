//! The made-up stand of examples/: its grids, its stored sheets, its pictures.
mod common;
#[path = "common/picture.rs"]
mod picture;
use std::fs;
use std::path::{Path, PathBuf};

use common::{folder, said};
use picture::{BLACK, Picture, WHITE};
use sheet::grids::read_grid;
use sheet::picture::ramp;

#[allow(dead_code)]
#[path = "../examples/stand.rs"]
mod generator;

fn examples(name: &str) -> PathBuf {
    Path::new(env!("CARGO_MANIFEST_DIR")).join("../examples").join(name)
}

/// The calls of examples/make.
const SHEETS: [(&str, &str); 5] = [
    ("include", "distance --targets landings.asc --obstacles ditches.asc --diagonals include"),
    ("exclude", "distance --targets landings.asc --obstacles ditches.asc --diagonals exclude"),
    ("travel", "travel_distance --targets landings.asc --times times.asc"),
    ("landing", "value_at_closest_travel_target --targets landings.asc --times times.asc --values landings.asc"),
    ("timber", "sum_targets_within_travel_distance --times times.asc --amounts volumes.asc --limit 8"),
];

/// The sheets, made anew in a folder beside copies of the stand's grids.
fn make(name: &str) -> common::Folder {
    let folder = folder(name);
    generator::write_stand(&folder);
    for (sheet, search) in SHEETS {
        said(&folder, &format!("{search} --out {sheet}.asc --picture {sheet}.png"));
    }
    folder
}

#[test]
fn the_stored_stand_is_the_generators() {
    let folder = folder("stand-grids");
    generator::write_stand(&folder);
    for name in ["landings.asc", "ditches.asc", "times.asc", "volumes.asc"] {
        let made = fs::read_to_string(folder.join(name)).unwrap();
        assert!(made == fs::read_to_string(examples("stand").join(name)).unwrap(), "{name} differs");
    }
}

#[test]
fn the_stored_sheets_hold() {
    let folder = make("stand-sheets");
    for (name, _) in SHEETS {
        let file = format!("{name}.asc");
        let made = fs::read_to_string(folder.join(&file)).unwrap();
        assert!(made == fs::read_to_string(examples("sheets").join(&file)).unwrap(), "{file} differs");

        let [made, stored] =
            [folder.to_path_buf(), examples("sheets")].map(|folder| Picture::read(&folder.join(format!("{name}.png"))));
        assert_eq!((made.width, made.height), (stored.width, stored.height), "{name}.png");
        assert!(made.pixels == stored.pixels, "{name}.png differs");
    }
}

/// examples/make is what these tests run.
#[test]
fn the_script_makes_these_sheets() {
    let script = fs::read_to_string(examples("make")).unwrap().replace("\\\n    ", "").replace("$stand/", "");
    for (name, search) in SHEETS {
        assert!(script.contains(&format!("\nsheet_of {name} {search}\n")), "{name}");
    }
    assert_eq!(script.matches("\nsheet_of ").count(), SHEETS.len());
}

/// Cells of the stand are so many pixels wide.
const EDGE: usize = 8;

#[test]
fn what_the_pictures_show() {
    let folder = make("stand-pictures");
    let [include, exclude] = ["include", "exclude"].map(|name| Picture::read(&folder.join(format!("{name}.png"))));
    for (picture, diagonals) in [(&include, "include"), (&exclude, "exclude")] {
        assert_eq!(picture.find(&format!("distance, diagonals {diagonals}")), [(16, 16)]);
        assert_eq!(picture.cell(0, 30, EDGE), BLACK, "a ditch");
        assert_eq!(picture.cell(14, 60, EDGE), BLACK, "a ditch");
        assert_eq!(picture.map(6 * EDGE + 4, 30 * EDGE + 4), WHITE, "the middle of a landing's mark");
        for words in ["distance in m", "obstacle", "target", "0", "200", "200 m"] {
            assert!(picture.says(words), "{words}");
        }
    }
    // Behind the ditch in the corner: reached between two of its cells, or not at all.
    assert_eq!(exclude.cell(58, 2, EDGE), WHITE);
    assert_ne!(include.cell(58, 2, EDGE), WHITE);
    assert!(exclude.says("not reached") && !include.says("not reached"));

    let (_, sheet) = read_grid::<f32>(&folder.join("exclude.asc"), None).unwrap();
    let greatest = sheet.iter().copied().filter(|cell| cell.is_finite()).fold(0.0, f32::max);
    for (row, column) in [(0, 0), (20, 70), (59, 79), (40, 30)] {
        assert_eq!(
            exclude.cell(row, column, EDGE),
            ramp::colour(sheet[row * 80 + column] / greatest),
            "{row} {column}"
        );
    }
    // The ends of the ramp stand left of the least number and of the greatest.
    for (words, part) in [("0", 0.0), ("1,226", 1.0)] {
        let (x, y) = exclude.find(words)[0];
        assert_eq!(exclude.at(x - 24, y + 7), ramp::colour(part), "{words}");
    }
}

/// Each landing's ground has the colour of its number, which is in the legend.
#[test]
fn the_landings_are_classes() {
    let folder = make("stand-classes");
    let picture = Picture::read(&folder.join("landing.png"));
    let [first, second] = ["1", "2"].map(|number| picture.sample(number));
    assert_eq!([picture.cell(30, 4, EDGE), picture.cell(6, 24, EDGE)], [first, second]);
    assert_ne!(first, second);
    assert!(picture.says("value") && picture.says("target"));
}

/// Read as greys the ramp still tells more from less, and it keeps off the black of ditches and the white of unreached
/// cells.
#[test]
fn the_ramp_grows_lighter() {
    let lightness: Vec<f32> = (0..=100).map(|part| ramp::lightness(ramp::colour(part as f32 / 100.0))).collect();
    assert!(lightness.windows(2).all(|pair| pair[0] < pair[1]));
    assert!(lightness[0] > 60.0 && lightness[100] < 215.0, "{} to {}", lightness[0], lightness[100]);
}
