//! What a picture shows, and what its legend says.
mod common;
#[path = "common/picture.rs"]
mod picture;
use std::path::Path;

use common::{folder, grid, grid_of_cell_size, noted};
use picture::{BLACK, Colour, GREY, PALE, Picture, WHITE};
use sheet::picture::{classes, ramp};

/// Grids by the options that name their files.
type Grids<'a> = &'a [(&'a str, &'a str)];

/// Grids of few cells are drawn with cells of so many pixels.
const EDGE: usize = 32;

/// Writes the grids, each named by its option, and makes the picture of a search.
fn drawn(name: &str, search: &str, grids: Grids) -> Picture {
    let folder = folder(&format!("pictures-{name}"));
    let mut words = search.to_owned();
    for (option, cells) in grids {
        grid(&folder, &format!("{option}.asc"), cells);
        words += &format!(" --{option} {option}.asc");
    }
    make(&folder, &words)
}

/// The picture that the tool makes in this folder.
fn make(folder: &Path, words: &str) -> Picture {
    noted(folder, &format!("{words} --picture out.png"));
    Picture::read(&folder.join("out.png"))
}

/// The sums are 8, 2 and 3. The last mask cell has no time: it reaches itself alone, and was chosen all the same. Nodata
/// in the mask is not chosen, nor is other ground without times.
#[test]
fn search_7_shows_its_sums() {
    let grids = [
        ("mask", "1 0 -9999 | 0 0 0 | 1 0 1"),
        ("times", "1 1 1 | -9999 -9999 -9999 | 1 -9999 -9999"),
        ("values", "1 7 0 | 9 9 9 | 2 9 3"),
    ];
    let picture = drawn("sums", "sum_within_travel_distance --limit 9", &grids);
    let part = |sum: f32| ramp::colour((sum - 2.0) / 6.0);
    // In the middle of the cells too: no mark hides a sum.
    for inside in [0, EDGE / 2, EDGE - 1] {
        let cell = |row: usize, column: usize| picture.map(column * EDGE + inside, row * EDGE + inside);
        assert_eq!([cell(0, 0), cell(2, 0), cell(2, 2)], [8.0, 2.0, 3.0].map(part));
        for (row, column) in [(0, 1), (0, 2), (1, 0), (1, 1), (2, 1)] {
            assert_eq!(cell(row, column), PALE, "{row} {column}");
        }
    }
    assert_eq!(picture.sample("not chosen"), PALE);
    for (words, is_said) in
        [("sum of the values", true), ("8", true), ("target", false), ("nodata", false), ("not reached", false)]
    {
        assert_eq!(picture.says(words), is_said, "{words}");
    }
}

/// A grid of one row with these cells, all others being 0.
fn row(columns: usize, cells: &[(usize, &str)], others: &str) -> String {
    let cell = |column| cells.iter().find(|(at, _)| *at == column).map_or(others, |(_, cell)| *cell);
    (0..columns).map(cell).collect::<Vec<_>>().join(" ")
}

/// On a map of one pixel a cell the mask cells are squares of eleven pixels with an edge, also at the map's corner; two
/// that are neighbours keep their own pixels.
#[test]
fn few_mask_cells_are_seen_on_a_large_map() {
    let blank = row(700, &[], "0");
    let rows = |special: &[(usize, String)], blank: &str| {
        let row = |at| special.iter().find(|(row, _)| *row == at).map_or(blank.to_owned(), |(_, row)| row.clone());
        (0..100).map(row).collect::<Vec<_>>().join("|")
    };
    let mask = rows(&[(0, row(700, &[(0, "1")], "0")), (50, row(700, &[(300, "1"), (301, "1")], "0"))], &blank);
    let without_times = row(700, &[], "-9999");
    let times = rows(&[(50, row(700, &[(300, "1")], "-9999"))], &without_times);
    let values = rows(&[(0, row(700, &[(0, "8")], "0")), (50, row(700, &[(300, "2"), (301, "4")], "0"))], &blank);
    let grids = [("mask", mask.as_str()), ("times", &times), ("values", &values)];
    let picture = drawn("few", "sum_within_travel_distance --limit 9", &grids);
    let sums = [(0, 0), (300, 50), (301, 50)].map(|(x, y)| picture.map(x, y));
    assert!(sums[0] != sums[1] && sums[1] != sums[2] && !sums.contains(&PALE), "{sums:?}");
    for (x, y, colour) in [(4, 4, sums[0]), (9, 9, sums[0]), (296, 46, sums[1]), (305, 54, sums[2])] {
        assert_eq!(picture.map(x, y), colour, "{x} {y}");
    }
    for (x, y, colour) in [(10, 5, BLACK), (5, 10, BLACK), (295, 50, BLACK), (306, 50, BLACK), (11, 5, PALE)] {
        assert_eq!(picture.map(x, y), colour, "{x} {y}");
    }
}

/// Many mask cells are drawn as they are, and hide no ground that was not chosen.
#[test]
fn many_mask_cells_hide_nothing() {
    let [odd, even] = ["1 0 ".repeat(400), "0 1 ".repeat(400)];
    let both = format!("{odd}|{even}");
    let blank = |cell: &str| format!("{0}|{0}", format!("{cell} ").repeat(800));
    let grids = [("mask", both.as_str()), ("times", &blank("-9999")), ("values", &blank("1"))];
    let picture = drawn("many", "sum_within_travel_distance --limit 9", &grids);
    for column in 0..800 {
        assert_eq!(picture.map(column, 0) == PALE, column % 2 == 1, "{column}");
    }
}

/// A colour that the ramp has beside its ends.
fn is_between(colour: Colour) -> bool {
    (1..100).any(|part| ramp::colour(part as f32 / 100.0) == colour)
}

/// One value has one entry in the legend, in each kind of search.
#[test]
fn one_value_has_one_entry() {
    let cases: [(&str, Grids, &str); 6] = [
        ("distance --limit 0", &[("targets", "1 0 1")], "0"),
        ("travel_distance --limit 0.5", &[("targets", "1 0"), ("times", "5 5")], "0"),
        ("value_at_closest_target", &[("targets", "1 0 1"), ("values", "5 0 5")], "5"),
        ("value_at_closest_target", &[("targets", "1 0 1"), ("values", "2.5 0 2.5")], "2.5"),
        ("sum_within_travel_distance --limit 9", &[("mask", "1 1"), ("times", "1 1"), ("values", "3 4")], "7"),
        ("sum_targets_within_travel_distance --limit 9", &[("times", "1 1"), ("amounts", "5 6")], "11"),
    ];
    for (at, (search, grids, value)) in cases.into_iter().enumerate() {
        let picture = drawn(&format!("one-{at}"), search, grids);
        assert_eq!(picture.find(value).len(), 1, "{search}");
        assert_eq!(picture.sample(value), picture.cell(0, 0, EDGE), "{search}");
        assert!(!picture.pixels.iter().any(|pixel| is_between(*pixel)), "{search} has a ramp");
    }
}

/// Searches 4 to 6 with these values, each at a target of its own.
fn values(name: &str, search: &str, values: &[&str]) -> Picture {
    let [targets, times] = ["1 ", "1 "].map(|cell| cell.repeat(values.len()));
    let values = values.join(" ");
    let mut grids = vec![("targets", targets.as_str()), ("times", &times), ("values", &values)];
    if search == "value_at_closest_target" {
        grids.remove(1);
    }
    drawn(name, search, &grids)
}

#[test]
fn identifiers_are_classes() {
    let numbers: Vec<String> = (0..13).map(|number| (7 * number + 101).to_string()).collect();
    let numbers: Vec<&str> = numbers.iter().map(String::as_str).collect();
    let searches = [
        "value_at_closest_target",
        "value_at_closest_travel_target",
        "value_at_closest_less_than_travel_target --limit 9",
    ];
    for (at, search) in searches.into_iter().enumerate() {
        let picture = values(&format!("classes-{at}"), search, &numbers[..12]);
        for (column, number) in numbers[..12].iter().enumerate() {
            assert_eq!(picture.sample(number), classes::COLOURS[column], "{number}");
            assert_eq!(picture.cell(0, column, EDGE), classes::COLOURS[column], "{number}");
        }
        assert!(picture.says("value"));
    }
    let ramps = [
        ("thirteen", values("thirteen", searches[0], &numbers)),
        ("a half", values("half", searches[0], &["1", "2.5", "9"])),
        ("distances", drawn("whole", "distance", &[("targets", "1 0 0")])),
    ];
    for (name, picture) in ramps {
        let last = picture.pixels.iter().filter(|pixel| **pixel == ramp::colour(1.0)).count();
        assert!(picture.cell(0, 0, EDGE) == ramp::colour(0.0) && last >= EDGE * EDGE / 2, "{name}");
        assert!(picture.pixels.iter().any(|pixel| is_between(*pixel)), "{name}");
    }
}

/// A nodata value that came to a cell is nodata, and an infinite one has a colour of its own.
#[test]
fn values_that_are_no_numbers() {
    let picture = values("nodata-value", "value_at_closest_target", &["3", "-9999", "4"]);
    assert_eq!([picture.sample("3"), picture.sample("4")], [classes::COLOURS[0], classes::COLOURS[1]]);
    assert!(picture.says("nodata"));
    let picture = drawn(
        "infinite",
        "sum_targets_within_travel_distance --limit 9",
        &[("times", "1 1 -9999 1"), ("amounts", "3e38 3e38 0 5")],
    );
    assert_eq!(picture.sample("infinite"), picture.cell(0, 0, EDGE));
    assert_eq!(picture.sample("5"), picture.cell(0, 3, EDGE));
}

/// Targets in a row are a white line with black edges, not a black line, which would look like a ditch. Where they are
/// nearly everywhere, marks would hide the map.
#[test]
fn a_road_of_targets() {
    let road = vec!["1"; 700].join(" ");
    let ground = vec!["0"; 700].join(" ");
    let rows: Vec<&str> = (0..40).map(|row| if row == 20 { road.as_str() } else { &ground }).collect();
    let picture = drawn("road", "distance", &[("targets", &rows.join("|"))]);
    assert!((0..700).all(|column| picture.map(column, 20) == WHITE));
    assert!((0..700).all(|column| picture.map(column, 19) == BLACK && picture.map(column, 21) == BLACK));
    assert_ne!(picture.map(300, 22), BLACK);

    let picture = drawn("all-targets", "distance", &[("targets", &vec![road; 40].join("|"))]);
    assert_eq!(picture.map(300, 20), picture.sample("0"));
    assert!(picture.says("targets not marked"));
}

/// An obstacle is any byte but 0, so nodata is one.
#[test]
fn nodata_is_an_obstacle() {
    let grids = [("targets", "1 0 0 0"), ("obstacles", "0 -9999 0 7")];
    let picture = drawn("obstacles", "distance --diagonals include", &grids);
    let row: Vec<Colour> = (0..4).map(|column| picture.cell(0, column, EDGE)).collect();
    assert_eq!([row[1], row[2], row[3]], [BLACK, WHITE, BLACK]);
    assert_eq!([picture.sample("obstacle"), picture.sample("not reached")], [BLACK, WHITE]);
    assert!(!picture.says("nodata"));
}

/// Cells that hold the limit are drawn as not reached, also where cells are not a metre long.
#[test]
fn the_limit_is_drawn_as_not_reached() {
    for cell_size in ["10", "0.25"] {
        let folder = folder(&format!("pictures-limit-{cell_size}"));
        grid_of_cell_size(&folder, "landings.asc", cell_size, "1 0 0 0");
        let picture = make(&folder, "distance --targets landings.asc --limit 2");
        let row: Vec<Colour> = (1..4).map(|column| picture.cell(0, column, EDGE)).collect();
        assert_eq!(row, [ramp::colour(1.0), WHITE, WHITE], "{cell_size}");
    }
}

/// Ground with nodata is hatched, and is in the legend.
#[test]
fn nodata_is_hatched() {
    let picture = drawn("hatched", "distance", &[("targets", "1 -9999 0")]);
    let hatched: Vec<Colour> = (0..EDGE).map(|right| picture.map(EDGE + right, 5)).collect();
    assert_eq!(hatched.iter().filter(|pixel| **pixel == GREY).count(), EDGE / 4);
    assert!(picture.says("nodata") && picture.says("not reached"));
}

/// What the numbers are, and in which unit.
#[test]
fn captions() {
    let (targets, times, values) = (("targets", "1 0 0"), ("times", "1 1 1"), ("values", "1 2 3"));
    let obstacles = ("obstacles", "0 0 0");
    let cases: [(&str, Grids, &[&str]); 8] = [
        ("distance", &[targets], &["distance in m"]),
        ("distance --diagonals exclude", &[targets, obstacles], &["distance in m"]),
        ("travel_distance", &[targets, times], &["travel time in the", "unit of the times"]),
        ("value_at_closest_target", &[targets, values], &["value"]),
        ("value_at_closest_travel_target", &[targets, times, values], &["value"]),
        ("value_at_closest_less_than_travel_target --limit 9", &[targets, times, values], &["value"]),
        ("sum_within_travel_distance --limit 9", &[("mask", "1 0 0"), times, values], &["sum of the values"]),
        ("sum_targets_within_travel_distance --limit 1", &[times, ("amounts", "1 2 3")], &["sum of the amounts"]),
    ];
    for (at, (search, grids, captions)) in cases.into_iter().enumerate() {
        let picture = drawn(&format!("caption-{at}"), search, grids);
        for caption in captions {
            assert!(picture.says(caption), "{search}");
        }
        let name = search.split(' ').next().unwrap();
        let title = if at == 1 { "distance, diagonals exclude" } else { name };
        assert_eq!(picture.find(title)[0], (16, 16), "{search}");
    }
}
