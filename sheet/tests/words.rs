//! The words of the command line, and the help.
mod common;
use common::{failure, folder, grid, said};

const SEARCHES: [(&str, &str); 10] = [
    ("distance", "--targets GRID [--obstacles GRID] --diagonals include|exclude [--limit N] [--limit-metres N]"),
    ("distances_up_to", "--targets GRID --limit N [--limit-metres N]"),
    ("distance_with_obstacles", "--targets GRID --obstacles GRID --diagonals include|exclude"),
    ("travel_distance", "--targets GRID --times GRID [--limit N]"),
    ("travel_distances_up_to", "--targets GRID --times GRID --limit N"),
    ("value_at_closest_target", "--targets GRID --values GRID"),
    ("value_at_closest_travel_target", "--targets GRID --times GRID --values GRID [--nodata-starts]"),
    (
        "value_at_closest_less_than_travel_target",
        "--targets GRID --times GRID --values GRID --limit N [--nodata-starts]",
    ),
    ("sum_within_travel_distance", "--mask GRID --times GRID --values GRID --limit N [--adjacent]"),
    ("sum_targets_within_travel_distance", "--times GRID --amounts GRID --limit N"),
];

/// The options that a help text lists, in order, without the two for the output.
fn options(help: &str) -> String {
    let lines = help.lines().filter_map(|line| line.strip_prefix("  ").filter(|line| line.starts_with(['-', '['])));
    let options = lines.map(|line| line.split("  ").next().unwrap());
    let of_all = ["[--nodata-as-0 NAME]", "[--unreached WORD]", "--out SHEET", "--picture SHEET.png"];
    let listed: Vec<&str> = options.filter(|option| !option.starts_with("--unreached ")).collect();
    let (own, rest) = listed.split_at(listed.len() - of_all.len());
    assert_eq!(rest, of_all);
    own.join(" ")
}

#[test]
fn help() {
    let folder = folder("help");
    let top = said(&folder, "--help");
    for (name, expected) in SEARCHES {
        let sentence = top.split(&format!("\n  {name}\n      ")).nth(1).and_then(|rest| rest.lines().next());
        let sentence = sentence.unwrap_or_else(|| panic!("{name} is not in the help"));
        let help = said(&folder, &format!("{name} --help"));
        assert!(help.starts_with(&format!("sheet {name}: {sentence}\n")), "{help}");
        assert_eq!(options(&help), expected, "{name}");
    }
    assert!(said(&folder, "value_at_closest_travel_target -h").contains("a planner's nodata is no landing"));
    assert!(said(&folder, "case --help").contains("sheet case print FILE"));
}

#[test]
fn words_that_are_not_understood() {
    let folder = folder("words");
    grid(&folder, "a.asc", "1 0");
    let cases = [
        ("", "a search is wanted; `sheet --help` lists them"),
        ("distanc", "`distanc` is no search; `sheet --help` lists them"),
        ("distance", "distance wants --targets"),
        ("distances_up_to --targets a.asc", "distances_up_to wants --limit"),
        ("distance --targets a.asc --times a.asc", "distance takes no --times"),
        ("distance --targets a.asc --targets a.asc", "--targets is given twice"),
        ("distance --targets a.asc --out b --out c", "--out is given twice"),
        ("distance --targets a.asc --diagonals exclude", "distance takes no --diagonals without obstacles"),
        ("distance --targets a.asc --obstacles a.asc --diagonals no", "--diagonals is `include` or `exclude`, not no"),
        (
            "distance --targets a.asc --obstacles a.asc --diagonals include --limit 3",
            "distance takes no --limit with obstacles",
        ),
        (
            "distance --targets a.asc --obstacles a.asc",
            "distance with obstacles wants --diagonals: `exclude` if a machine can't go between two obstacles that \
             meet at a corner, `include` if it can",
        ),
        ("value_at_closest_target --targets a.asc --nodata-starts", "value_at_closest_target takes no --nodata-starts"),
        ("travel_distance --targets a.asc --times a.asc --adjacent", "travel_distance takes no --adjacent"),
        ("distance --colour red", "invalid option '--colour'"),
        ("distance a.asc", "unexpected argument \"a.asc\""),
        ("distance --targets", "missing argument for option '--targets'"),
        ("case", "`sheet case` wants `pack` or `print`; `sheet case --help` says more"),
        ("case print", "`sheet case print` wants a file"),
        ("case pack distance --targets a.asc", "--out must say where the grid file goes"),
        ("case pack distance --targets a.asc --out b --picture c", "a grid file has no picture"),
    ];
    for (words, sentence) in cases {
        assert_eq!(failure(&folder, words), sentence, "`sheet {words}`");
    }
}

/// Each help stands alone: it leans on no other search's, and says what is in the files.
#[test]
fn each_help_stands_alone() {
    let folder = folder("help-alone");
    for (name, _) in SEARCHES {
        let help = said(&folder, &format!("{name} --help"));
        assert!(!help.to_lowercase().contains("the same"), "{help}");
        for word in ["--unreached NUMBER", "--unreached inf", "GeoTIFF", ".prj"] {
            assert!(help.contains(word), "{name} does not say {word}");
        }
        let pack = said(&folder, &format!("case pack {name} --help"));
        assert!(pack.starts_with(&format!("sheet case pack {name}: ")), "{pack}");
        assert!(pack.contains("--out CASE.grid") && !pack.contains("--picture"), "{pack}");
    }
    for (words, start) in [
        ("--version", "sheet 0."),
        ("-V", "sheet 0."),
        ("case pack --help", "sheet case: "),
        ("case --help", "sheet case: "),
    ] {
        assert!(said(&folder, words).starts_with(start), "{words}");
    }
}
