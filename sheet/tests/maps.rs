//! How maps are laid out: their size, the scale bar, very long grids; and the colours of classes.
mod common;
#[path = "common/picture.rs"]
mod picture;
use std::fs;
use std::path::Path;

use common::{folder, grid_of_cell_size, said};
use picture::{BLACK, Colour, MAP, MARGIN, Picture, WHITE};
use sheet::grids::read_grid;
use sheet::picture::{classes, letters, ramp};

/// A grid of 0s but for these cells, by row and column.
fn grid_with(folder: &Path, name: &str, rows: usize, columns: usize, cells: &[(usize, usize, &str)]) {
    let blank = vec!["0"; columns];
    let mut lines = vec![blank.join(" "); rows];
    for row in cells.iter().map(|(row, ..)| *row) {
        let mut line = blank.clone();
        cells.iter().filter(|(at, ..)| *at == row).for_each(|(_, column, cell)| line[*column] = cell);
        lines[row] = line.join(" ");
    }
    let header = format!("ncols {columns}\nnrows {rows}\nxllcorner 0\nyllcorner 0\ncellsize 10\nNODATA_value -9999\n");
    fs::write(folder.join(name), header + &lines.join("\n") + "\n").unwrap();
}

/// The picture of distances from `targets.asc`, and the sheet.
fn distances(folder: &Path, words: &str) -> (Picture, Vec<f32>) {
    said(folder, &format!("distance --targets targets.asc {words} --out out.asc --picture out.png"));
    let (_, sheet) = read_grid::<f32>(&folder.join("out.asc"), None).unwrap();
    (Picture::read(&folder.join("out.png")), sheet)
}

/// The black pixels at this height from the map's west edge on.
fn run_of_black(picture: &Picture, y: usize) -> usize {
    (MAP.0..picture.width).take_while(|x| picture.at(*x, y) == BLACK).count()
}

/// The length of the bar is what its label says, in pixels of the map.
#[test]
fn scale_bars() {
    let cases = [
        (80, "10", "200 m", 160),
        (60, "10", "200 m", 200),
        (3, "1", "2 m", 64),
        (1, "1", "1 m", 32),
        (1, "7", "5 m", 23),
        (40, "0.02", "0.2 m", 160),
        (40, "1234", "10,000 m", 130),
        (2, "3e-8", "5e-8 m", 53),
        (700, "0.5", "100 m", 200),
    ];
    for (columns, cell_size, label, pixels) in cases {
        let folder = folder(&format!("maps-bar-{columns}-{cell_size}"));
        grid_of_cell_size(&folder, "targets.asc", cell_size, &("1".to_owned() + &" 0".repeat(columns - 1)));
        let (picture, _) = distances(&folder, "");
        let [(x, y)] = picture.find(label)[..] else { panic!("{label} for {columns} cells of {cell_size}") };
        assert_eq!(run_of_black(&picture, y + 10), pixels, "{label} for {columns} cells of {cell_size}");
        assert_eq!(x, MAP.0 + pixels + 8, "{label}");
    }
}

/// Searches 3 to 8 take any cell size, and some are no lengths.
#[test]
fn cell_sizes_without_a_bar() {
    let folder = folder("maps-no-bar");
    for (cell_size, has_bar) in [("0", false), ("-3", false), ("1e39", false), ("3", true)] {
        for name in ["targets.asc", "times.asc"] {
            grid_of_cell_size(&folder, name, cell_size, "1 1 1 1 1 | 1 1 1 1 1");
        }
        said(&folder, "travel_distance --targets targets.asc --times times.asc --picture out.png");
        let picture = Picture::read(&folder.join("out.png"));
        assert_eq!(picture.says("5 m"), has_bar, "{cell_size}");
        let below = MAP.1 + 2 * 32 + 1..picture.height;
        let is_blank =
            below.flat_map(|y| (MAP.0..MAP.0 + 5 * 32).map(move |x| (x, y))).all(|(x, y)| picture.at(x, y) == WHITE);
        assert_eq!(is_blank, !has_bar, "{cell_size}");
    }
}

/// Between the title, the map with its bar, and the legend there are white bands, whatever the map's shape is.
#[test]
fn parts_do_not_overlap() {
    for (rows, columns) in [(1, 1), (1, 40), (40, 1), (3, 3), (60, 80), (2, 900), (900, 2)] {
        let folder = folder(&format!("maps-parts-{rows}-{columns}"));
        grid_with(&folder, "targets.asc", rows, columns, &[(rows / 2, columns / 2, "1")]);
        grid_with(&folder, "values.asc", rows, columns, &[(rows / 2, columns / 2, "12345")]);
        said(&folder, "value_at_closest_target --targets targets.asc --values values.asc --picture out.png");
        let picture = Picture::read(&folder.join("out.png"));
        let is_white = |x: usize, y: usize| picture.at(x, y) == WHITE;
        let shape = format!("{rows} by {columns}");
        let title = MARGIN + letters::LINE;
        assert!((title..title + 8).all(|y| (0..picture.width).all(|x| is_white(x, y))), "below the title, {shape}");
        let (legend, first) = picture.find("value")[0];
        assert!(
            (legend - 8..legend).all(|x| (title..picture.height).all(|y| is_white(x, y))),
            "before the legend, {shape}"
        );
        assert_eq!(first, MAP.1, "the legend begins where the map does, {shape}");
        for words in ["value_at_closest_target", "12345", "target"] {
            assert!(picture.says(words), "{words}, {shape}");
        }
        let edges = [MARGIN - 8, picture.width - 4];
        assert!(edges.iter().all(|x| (0..picture.height).all(|y| is_white(*x, y))), "the margins, {shape}");
    }
}

/// On 1,024 by 1,024 each cell is one pixel.
#[test]
fn a_large_map_has_one_pixel_a_cell() {
    let folder = folder("maps-large");
    grid_with(&folder, "targets.asc", 1024, 1024, &[(500, 10, "1")]);
    let ditch: Vec<(usize, usize, &str)> = (0..1000).map(|row| (row, 600, "1")).collect();
    grid_with(&folder, "obstacles.asc", 1024, 1024, &ditch);
    let (picture, sheet) = distances(&folder, "--obstacles obstacles.asc --diagonals exclude");
    let greatest = sheet.iter().copied().filter(|cell| cell.is_finite()).fold(0.0, f32::max);
    for (row, column) in [(0, 0), (0, 599), (0, 601), (999, 599), (1023, 1023), (700, 300)] {
        assert_eq!(picture.map(column, row), ramp::colour(sheet[1024 * row + column] / greatest), "{row} {column}");
    }
    assert!((0..1000).all(|row| picture.map(600, row) == BLACK));
    assert_ne!(picture.map(600, 1000), BLACK);
    assert_eq!([picture.at(MAP.0 - 1, 100), picture.at(MAP.0 + 1024, 100)], [picture::GREY; 2]);
}

const LONG: usize = 32_767;
const SHORT: usize = 32;
/// On a very long grid so many cells share a pixel, and the short side has so many pixels a cell.
const SHARED: usize = 10;
const THICK: usize = 2;

/// A very long grid, its long side across or down: a target at the third cell, a ditch of one cell's width at the
/// 20,005th with a gap, and a single obstacle.
fn long_map(name: &str, is_wide: bool) -> (Picture, Vec<f32>) {
    let folder = folder(name);
    let (rows, columns) = if is_wide { (SHORT, LONG) } else { (LONG, SHORT) };
    let turn = |along: usize, aside: usize| if is_wide { (aside, along, "1") } else { (along, aside, "1") };
    let mut obstacles: Vec<_> = (0..SHORT).filter(|aside| *aside != 9).map(|aside| turn(20_005, aside)).collect();
    obstacles.push(turn(7_777, 31));
    grid_with(&folder, "targets.asc", rows, columns, &[turn(3, 16)]);
    grid_with(&folder, "obstacles.asc", rows, columns, &obstacles);
    distances(&folder, "--obstacles obstacles.asc --diagonals exclude")
}

/// A picture of a very long grid stays within 4,000 pixels. No ditch and no obstacle vanishes; a pixel without one shows
/// the greatest distance of its cells.
#[test]
fn very_long_grids() {
    for is_wide in [true, false] {
        let (picture, sheet) = long_map(if is_wide { "maps-wide" } else { "maps-tall" }, is_wide);
        assert!(picture.width.max(picture.height) <= 4000, "{} by {}", picture.width, picture.height);
        assert!(picture.width.min(picture.height) <= 500, "{} by {}", picture.width, picture.height);
        let at = |along: usize, aside: usize| {
            let (along, aside) = (along / SHARED, aside * THICK);
            if is_wide { picture.map(along, aside) } else { picture.map(aside, along) }
        };
        assert!((0..SHORT).all(|aside| (at(20_005, aside) == BLACK) == (aside != 9)), "the ditch and its gap");
        assert_eq!(at(7_777, 31), BLACK, "a single obstacle");
        assert_eq!(at(3, 16), WHITE, "the middle of the target's mark");

        let distance =
            |along: usize, aside: usize| sheet[if is_wide { aside * LONG + along } else { along * SHORT + aside }];
        let greatest = sheet.iter().copied().filter(|cell| cell.is_finite()).fold(0.0, f32::max);
        for (along, aside) in [(500, 0), (12_340, 31), (20_010, 9), (32_750, 16)] {
            let most = (along..along + SHARED).map(|along| distance(along, aside)).fold(0.0, f32::max);
            assert_eq!(at(along, aside), ramp::colour(most / greatest), "{along} {aside}");
        }
        let side = if is_wide { "across" } else { "down" };
        assert!(picture.says(&format!("10 cells a pixel, {side}")));
        assert!(picture.says(if is_wide { "100,000 m across" } else { "200 m across" }));
    }
}

/// Where cells share a pixel the greatest number shows, also one beside cells that were not reached.
#[test]
fn a_pixel_shows_the_greatest_sum() {
    let folder = folder("maps-greatest");
    let amounts: Vec<_> = (0..SHARED).map(|at| (0, 12_340 + at, if at == 3 { "9" } else { "5" })).collect();
    grid_with(&folder, "amounts.asc", 1, LONG, &[&amounts[..], &[(0, 20_001, "5")]].concat());
    grid_of_cell_size(&folder, "times.asc", "10", &vec!["1"; LONG].join(" "));
    said(
        &folder,
        "sum_targets_within_travel_distance --times times.asc --amounts amounts.asc --limit 0.5 --picture out.png",
    );
    let picture = Picture::read(&folder.join("out.png"));
    let pixels = [1234, 2000, 1500].map(|right| picture.map(right, 5));
    assert_eq!(pixels, [ramp::colour(1.0), ramp::colour(0.0), WHITE]);
}

/// Names, numbers and units can be written, and no two signs look alike, but for the 0 and the capital O.
#[test]
fn the_font_has_the_signs() {
    let signs = "123456789abcdefghijklmnopqrstuvwxyzABCDEFGHIJKLMNOPQRSTUVWXYZ.,-+_()/:'=%\u{b0}\u{b2}";
    let drawn: Vec<_> = signs.chars().map(|sign| letters::pixels(&sign.to_string())).collect();
    for (at, pixels) in drawn.iter().enumerate() {
        assert!(!pixels.is_empty() && !drawn[..at].contains(pixels), "{:?}", signs.chars().nth(at));
    }
    assert!(!letters::pixels("0").is_empty());
}

/// What colour-blind eyes see, in linear light (Machado, Oliveira and Fernandes, 2009): all colours, without red, without
/// green, without blue.
const EYES: [[[f32; 3]; 3]; 4] = [
    [[1.0, 0.0, 0.0], [0.0, 1.0, 0.0], [0.0, 0.0, 1.0]],
    [[0.152286, 1.052583, -0.204868], [0.114503, 0.786281, 0.099216], [-0.003882, -0.048116, 1.051998]],
    [[0.367322, 0.860646, -0.227968], [0.280085, 0.672501, 0.047413], [-0.011820, 0.042940, 0.968881]],
    [[1.255528, -0.076749, -0.178779], [-0.078411, 0.930809, 0.147602], [0.004733, 0.691367, 0.303900]],
];

/// A matrix times a column.
fn times(matrix: [[f32; 3]; 3], column: [f32; 3]) -> [f32; 3] {
    matrix.map(|row| row.iter().zip(column).map(|(factor, part)| factor * part).sum())
}

/// A colour as an eye sees it, in CIELAB, where distances are those that people see.
fn seen(colour: Colour, eye: [[f32; 3]; 3]) -> [f32; 3] {
    let linear = colour.map(|part| f32::from(part) / 255.0);
    let linear = linear.map(|part| if part <= 0.04045 { part / 12.92 } else { ((part + 0.055) / 1.055).powf(2.4) });
    let light = times(eye, linear).map(|part| part.clamp(0.0, 1.0));
    let [x, y, z] = times([[0.4339, 0.3762, 0.1899], [0.2126, 0.7152, 0.0722], [0.0177, 0.1095, 0.8728]], light);
    let [x, y, z] = [x, y, z].map(|part| if part > 0.008856 { part.cbrt() } else { 7.787 * part + 16.0 / 116.0 });
    [116.0 * y - 16.0, 500.0 * (x - y), 200.0 * (y - z)]
}

/// Every two classes differ to every eye by seven times what can just be seen (2.3), and so do they from black and white.
#[test]
fn the_classes_are_told_apart() {
    let mut colours = classes::COLOURS.to_vec();
    colours.extend([BLACK, WHITE]);
    for eye in EYES {
        for (at, one) in colours.iter().enumerate() {
            for other in &colours[..at] {
                let [a, b] = [*one, *other].map(|colour| seen(colour, eye));
                let apart = a.iter().zip(b).map(|(a, b)| (a - b).powi(2)).sum::<f32>().sqrt();
                assert!(apart > 16.0, "{one:?} and {other:?}: {apart}");
            }
        }
    }
}
