//! `worst`: families of grids on which a search takes cells again and again, on growing sides, as lines of a table.
mod climb;
mod grounds;

use std::fs;
use std::process::ExitCode;

use cases::options::{number, read_search};
use climb::{climbed, stretched, tiled};
use grounds::{FAMILIES, Ground};
use haul::{BarrierDiagonals, Grid};

const USAGE: &str = "\
worst [--family NAME] [--search N] [--seconds N]
    Runs each family of grids (or one, by the beginning of its name) through a search, or through 3 and 5, on sides of
    16, 32, 64 and so on to 1024, as long as the next run, should its takes grow as they did, lasts no longer than these
    seconds (10); they are of the processor. No search has a limit. In searches 1 and 2 cells of a time above 6 are
    barred, as nodata and as obstacles, and diagonals between obstacles are included; searches 7 and 8 have a start in
    every cell. `climbed` is a family too: the worst grid of 6 by 6 that is found, tiled and stretched.
";

const CLIMBED_SIDE: usize = 6;
const BARRED_ABOVE: f32 = 6.0;

struct Options {
    family: String,
    searches: Vec<u8>,
    seconds: u64,
}

fn options(mut words: &[&str]) -> Result<Options, String> {
    let mut options = Options { family: String::new(), searches: vec![3, 5], seconds: 10 };
    loop {
        words = match words {
            [] => return Ok(options),
            ["--family", name, rest @ ..] => {
                options.family = name.to_string();
                rest
            }
            ["--search", word, rest @ ..] => {
                options.searches = vec![read_search(word)?.number()];
                rest
            }
            ["--seconds", word, rest @ ..] => {
                options.seconds = number(word)?;
                rest
            }
            _ => return Err(USAGE.into()),
        };
    }
}

fn main() -> ExitCode {
    let words: Vec<String> = std::env::args().skip(1).collect();
    let words: Vec<&str> = words.iter().map(String::as_str).collect();
    match options(&words) {
        Ok(options) => {
            run(&options);
            ExitCode::SUCCESS
        }
        Err(what) => {
            eprint!("{what}");
            ExitCode::from(2)
        }
    }
}

fn run(options: &Options) {
    println!("| family | search | side | cells | open | takes | takes per cell | takes / square | seconds |");
    println!("|---|---|---|---|---|---|---|---|---|");
    for &search in &options.searches {
        for (name, family) in FAMILIES.iter().filter(|(name, _)| name.starts_with(&options.family)) {
            grow(name, search, options.seconds, family);
        }
        if "climbed".starts_with(&options.family) {
            let small = climbed(CLIMBED_SIDE, |ground| takes(search, ground));
            timed("climbed", search, &small);
            grow("climbed, tiled", search, options.seconds, |side| tiled(&small, side));
            grow("climbed, stretched", search, options.seconds, |side| stretched(&small, side));
        }
    }
}

/// Runs a family on growing sides, until the next run would last longer than this, should the takes grow as they did.
fn grow(name: &str, search: u8, most: u64, family: impl Fn(usize) -> Ground) {
    let mut before = f64::INFINITY;
    for side in (4..=10).map(|power| 1 << power) {
        let (takes, seconds) = timed(name, search, &family(side));
        if seconds * takes / before > most as f64 {
            break;
        }
        before = takes;
    }
}

/// The takes on a ground and the seconds that they last, which are also printed as a line of the table.
fn timed(name: &str, search: u8, ground: &Ground) -> (f64, f64) {
    let begun = processor_seconds();
    let takes = takes(search, ground) as f64;
    let seconds = processor_seconds() - begun;
    let cells = ground.times.len();
    let open = ground.times.iter().filter(|&&time| enters(search, time)).count();
    let starts = if search >= 7 { open } else { 1 };
    let per_cell = takes / cells as f64;
    let share = takes / (open * open * starts) as f64;
    let side = ground.side;
    println!("| {name} | {search} | {side} | {cells} | {open} | {takes} | {per_cell:.1} | {share:.5} | {seconds:.3} |");
    (takes, seconds)
}

/// How long this thread had a processor, which other programs on the machine do not lengthen much.
fn processor_seconds() -> f64 {
    let told = fs::read_to_string("/proc/thread-self/schedstat").expect("Linux tells a thread's time");
    let nanoseconds =
        told.split(' ').next().and_then(|word| word.parse::<f64>().ok()).expect("the first word is nanoseconds");
    nanoseconds / 1e9
}

/// Whether the search may enter a cell of this time. Search 4 is told nothing of it; search 8 crosses nodata too.
fn enters(search: u8, time: f32) -> bool {
    match search {
        1 | 2 => time <= BARRED_ABOVE,
        4 | 8 => true,
        _ => !time.is_nan(),
    }
}

/// How many cells the search takes on the ground, through the library.
fn takes(search: u8, ground: &Ground) -> u64 {
    let (side, cells) = (ground.side as i32, ground.times.len());
    let barred: Vec<u8> = ground.times.iter().map(|&time| u8::from(!enters(search, time))).collect();
    let mut targets = if search == 1 { barred.iter().map(|byte| 255 * byte).collect() } else { vec![0; cells] };
    ground.targets.iter().for_each(|&at| targets[at] = 1);
    let (ones, mask) = (vec![1.0; cells], vec![1; cells]);
    let times = Grid::new(side, side, &ground.times);
    let values = Grid::new(side, side, &ones);
    let targets = Grid::new(side, side, &targets);
    let obstacles = Grid::new(side, side, &barred);
    let mask = Grid::new(side, side, &mask);
    let no_limit = f32::INFINITY;
    let sheet = match search {
        1 => haul::distances_up_to(targets, 1.0, no_limit),
        2 => haul::distance_with_obstacles(targets, obstacles, 1.0, BarrierDiagonals::Include),
        3 => haul::travel_distances_up_to(targets, times, no_limit),
        4 => haul::value_at_closest_target(targets, values),
        5 => haul::value_at_closest_travel_target(targets, times, values),
        6 => haul::value_at_closest_less_than_travel_target(targets, times, values, no_limit),
        7 => haul::sum_within_travel_distance(mask, times, values, no_limit, false),
        _ => haul::sum_targets_within_travel_distance(times, values, no_limit),
    };
    sheet.expect("the ground is refused for nothing").takes
}
