//! What `--help` says. Each help stands alone: what the search answers, its options, its files.
use search::{Role, Search};

use crate::options::{COMMANDS, Command};

const TOP: &str = "\
sheet: from a planner's grids to an extraction sheet and its picture.

    sheet SEARCH OPTIONS --out SHEET.asc --picture SHEET.png
    sheet SEARCH --help
    sheet case pack SEARCH OPTIONS --out CASE.grid
    sheet case print FILE [--of CASE.grid]
    sheet --version

";

const FILES: &str = "\
Files
  Grids are ESRI ASCII grids (.asc) or GeoTIFFs (.tif) of one band with north up and square cells, all of one size and
  lying on each other. The cell size is the first grid's. The sheet is a GeoTIFF where its name ends in .tif or .tiff,
  else an ESRI ASCII grid. It lies where the first grid does: a GeoTIFF carries the coordinate system on, and for .asc a
  .prj beside the first grid is copied beside the sheet. Floats have the shortest digits that bring them back bit for
  bit. Nothing is written unless all is well, and then all files at once. `-` is standard output.

Cells that can't be reached
  --unreached nodata     (the default) as nodata: every program takes them for no value. Where a sheet also has nodata of
                         its own, the report says how many of each there are.
  --unreached NUMBER     as a number that no cell holds, so that both stay apart, here and elsewhere. A grid of floats
                         that is read with this option has infinity where it holds the number.
  --unreached inf        as `inf`. This tool reads it back, QGIS and GDAL do not: GDAL takes it for 3.4e38 in an .asc that
                         has a decimal point, and opens none that begins with it. In a GeoTIFF it is infinity.
";

const EXAMPLE: &str = "
Example
  sheet distance --targets landings.asc --obstacles ditches.asc --diagonals exclude --out sheet.asc --picture sheet.png
";

/// The sentence of the field for a command.
fn sentence(command: &Command) -> &'static str {
    match command.name {
        "distance" => {
            "How far is each cell from the nearest landing? Over open ground, or, given --obstacles, around the ditches."
        }
        "distances_up_to" => "How far is each cell from the nearest landing over open ground, up to a limit?",
        "distance_with_obstacles" => "How far is each cell from the nearest landing, if a machine can't cross a ditch?",
        "travel_distance" => "How long does a machine take from each cell to the landing that is quickest to reach?",
        "travel_distances_up_to" => {
            "How long does a machine take from each cell to the landing that is quickest to reach, up to a limit of time?"
        }
        "value_at_closest_target" => {
            "What is the value, such as a price or a number, at the landing nearest to each cell?"
        }
        "value_at_closest_travel_target" => {
            "What is the value at the landing that is quickest to reach from each cell?"
        }
        "value_at_closest_less_than_travel_target" => {
            "What is the value at the landing that is quickest to reach, for cells that are nearer in time than a limit?"
        }
        "sum_within_travel_distance" => "How much timber can be reached from each of the chosen cells?",
        "sum_targets_within_travel_distance" => "How much timber is within a budget of time of each cell?",
        other => unreachable!("{other} is no command"),
    }
}

/// What an option's grid is.
fn grid_help(search: Search, role: Role) -> &'static str {
    match (search, role) {
        (Search::DistancesUpTo | Search::TravelDistancesUpTo, Role::Targets) => {
            "landings: whole numbers, a landing is not 0; nodata is closed ground"
        }
        (_, Role::Targets) => "landings: whole numbers, a landing is not 0; nodata is none",
        (_, Role::Mask) => "the chosen cells: whole numbers, a chosen one is not 0; nodata is none",
        (_, Role::Obstacles) => "ditches: whole numbers, a ditch is not 0, and nodata is one too",
        (Search::SumTargetsWithinTravelDistance, Role::Times) => {
            "time to cross each cell, not below 0; nodata is as long as a quarter of the largest float"
        }
        (_, Role::Times) => "time to cross each cell, not below 0; nodata can't be entered",
        (Search::ValueAtClosestTravelTarget | Search::ValueAtClosestLessThanTravelTarget, Role::Values) => {
            "the value at each cell; nodata can't be entered"
        }
        (Search::SumWithinTravelDistance, Role::Values) => "the timber at each cell; nodata adds nothing",
        (_, Role::Values) => "the value at each cell",
        (_, Role::Amounts) => "the amount at each cell, 0 or nodata for none",
    }
}

fn limit_help(search: Search) -> [&'static str; 2] {
    const BELOW_0: &str = "With a limit of 0 or below it nothing is nearer: only landings are reached";
    match search {
        Search::DistancesUpTo => ["in cells: cells that are not nearer hold the limit times the cell size", BELOW_0],
        Search::TravelDistancesUpTo => ["in the unit of the times: cells that are not nearer hold it", BELOW_0],
        Search::ValueAtClosestLessThanTravelTarget => [
            "in the unit of the times: cells that are not nearer hold 0, save landings, which hold their own value",
            BELOW_0,
        ],
        Search::SumWithinTravelDistance => {
            ["the budget of time, above 0. All that can be reached must lie within it, else there is no sheet", ""]
        }
        _ => ["the budget of time, above 0", ""],
    }
}

/// The help of the tool: each search in a sentence.
pub fn top() -> String {
    let mut text = TOP.to_owned() + "Searches\n";
    for command in &COMMANDS {
        text += &format!("  {}\n      {}\n", command.name, sentence(command));
    }
    text + "  Names may be written with hyphens. `sheet SEARCH --help` lists a search's options.\n\n" + FILES + EXAMPLE
}

/// What `--version` says.
pub fn version() -> String {
    format!("sheet {}\n", env!("CARGO_PKG_VERSION"))
}

/// The help of one search.
pub fn of_search(command: &Command) -> String {
    let mut text = format!("sheet {}: {}\n\n{}", command.name, sentence(command), options(command));
    option(&mut text, "[--unreached WORD]", "how cells that can't be reached are written, see below");
    option(&mut text, "--out SHEET", "where the sheet goes");
    option(&mut text, "--picture SHEET.png", "where its picture goes; one of the two must be given");
    text + "\n" + FILES
}

/// The help of `sheet case pack` for one search.
pub fn of_pack(command: &Command) -> String {
    let mut text = format!("sheet case pack {}: a grid file for `haul`. {}\n\n", command.name, sentence(command));
    text += &options(command);
    option(&mut text, "[--unreached NUMBER]", "a grid of floats has infinity where it holds this number");
    option(&mut text, "--out CASE.grid", "where the grid file goes; it holds at most 1,024 cells");
    text
}

/// The options that a search takes, whatever is made of its grids.
fn options(command: &Command) -> String {
    let search = command.search;
    let mut text = String::new();
    for role in search.roles() {
        option(&mut text, &format!("--{} GRID", role.name()), grid_help(search, *role));
    }
    let with_obstacles = command.name == "distance";
    if with_obstacles {
        option(&mut text, "[--obstacles GRID]", grid_help(Search::DistanceWithObstacles, Role::Obstacles));
    }
    if search.has_diagonals() || with_obstacles {
        option(
            &mut text,
            "--diagonals include|exclude",
            "with obstacles: can a machine go between two that meet at a corner?",
        );
        option(&mut text, "", "`include`: it can. `exclude`: it can't. It must be said, as a route depends on it");
    }
    if search.has_limit() {
        limit_options(&mut text, command);
    }
    if search.has_adjacent() {
        option(&mut text, "[--adjacent]", "adds the cells above, below, left and right of the reached ones too");
    }
    if search.starts_at_nodata() {
        option(
            &mut text,
            "[--nodata-starts]",
            "nodata among the landings counts as a landing. In this search the library",
        );
        option(&mut text, "", "starts there, as the Rust that it is ported from does; without this option");
        option(&mut text, "", "nodata is passed as 0, since a planner's nodata is no landing");
    }
    option(&mut text, "[--nodata-as-0 NAME]", "takes nodata as 0 in one of the grids above, but not in the times:");
    option(&mut text, "", "gdal_rasterize leaves nodata wherever nothing was burnt. May be given for several");
    text
}

fn limit_options(text: &mut String, command: &Command) {
    let name = if command.limit_may_be_left_out { "[--limit N]" } else { "--limit N" };
    let [meaning, more] = limit_help(command.search);
    option(text, name, meaning);
    if !more.is_empty() {
        option(text, "", more);
    }
    if command.search == Search::DistancesUpTo {
        option(
            text,
            "[--limit-metres N]",
            "the limit in metres: it is divided by the cell size and rounded to a float,",
        );
        option(text, "", "which is said");
    }
}

fn option(text: &mut String, words: &str, meaning: &str) {
    *text += &format!("  {words:<28} {meaning}\n");
}

/// The help of `sheet case`.
pub const CASE: &str = "\
sheet case: grid files for the program `haul`, and its answers, in words.

  sheet case pack SEARCH OPTIONS --out CASE.grid
      packs grids of at most 1,024 cells; the options are those of the search, `sheet case pack SEARCH --help` lists them
  sheet case print FILE [--of CASE.grid]
      prints a grid file or an answer file; an answer file has no rows and columns of its own, --of takes them from
      the grid file that it answers
";
