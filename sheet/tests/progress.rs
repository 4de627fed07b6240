//! Long searches say how far they are, on a terminal and nowhere else, and answer what they answer without.
mod common;
use std::ffi::OsString;
use std::fs;
use std::path::Path;
use std::process::{Command, Output, Stdio};
use std::thread;
use std::time::Duration;

use common::{cells, folder, grid, sheet};
use haul::{Grid, Refusal, Sheet};
use sheet::grids::Case;
use sheet::options;
use sheet::searches::progress::{Pace, Step, ticking};
use sheet::searches::{self, Run};
use sheet::searches::{batches, estimates};

/// Everything is said at once.
const AT_ONCE: Pace = Pace { first: Duration::ZERO, then: Duration::from_millis(1) };

/// SplitMix64.
struct Random(u64);

impl Random {
    fn below(&mut self, end: u64) -> u64 {
        self.0 = self.0.wrapping_add(0x9E37_79B9_7F4A_7C15);
        let z = (self.0 ^ (self.0 >> 30)).wrapping_mul(0xBF58_476D_1CE4_E5B9);
        let z = (z ^ (z >> 27)).wrapping_mul(0x94D0_49BB_1331_11EB);
        (z ^ (z >> 31)) % end
    }
}

/// The grids of a search 7: a mask with nodata, times with nodata and so low that all is reached, values with nodata.
struct Mask {
    rows: i32,
    columns: i32,
    mask: Vec<u8>,
    times: Vec<f32>,
    values: Vec<f32>,
}

impl Mask {
    fn drawn(seed: u64, rows: i32, columns: i32) -> Mask {
        let mut random = Random(seed);
        let cells = (rows * columns) as usize;
        let mut floats = |end: u64| -> Vec<f32> {
            let float = |drawn: u64| if drawn.is_multiple_of(9) { f32::NAN } else { drawn as f32 / 7.0 };
            (0..cells).map(|_| float(random.below(end))).collect()
        };
        let (times, values) = (floats(50), floats(1000));
        let mask = (0..cells).map(|_| [0, 1, 1, 7, 255][random.below(5) as usize]).collect();
        Mask { rows, columns, mask, times, values }
    }

    /// The answer in batches and in one call.
    fn both(&self, limit: f32, adjacent: bool) -> [Result<Sheet, Refusal>; 2] {
        let mask = Grid::new(self.rows, self.columns, &self.mask);
        let [times, values] = [&self.times, &self.values].map(|cells| Grid::new(self.rows, self.columns, cells));
        let mut before = 0;
        let done = |done, all| {
            assert!(before < done && done < all, "{before} {done} {all}");
            before = done;
        };
        [
            batches::sum_within_travel_distance(mask, times, values, limit, adjacent, done),
            haul::sum_within_travel_distance(mask, times, values, limit, adjacent),
        ]
    }
}

fn bits(cells: &[f32]) -> Vec<u32> {
    cells.iter().map(|cell| cell.to_bits()).collect()
}

#[test]
fn batches_have_the_bits_of_one_call() {
    for seed in 0..60 {
        let drawn = Mask::drawn(seed, 1 + (seed % 11) as i32, 1 + (seed % 7 * 3) as i32);
        for (limit, adjacent) in [(1e6, false), (1e6, true), (f32::INFINITY, true)] {
            let [in_batches, at_once] = drawn.both(limit, adjacent).map(|sheet| sheet.expect("all is within reach"));
            assert_eq!(in_batches.takes, at_once.takes, "{seed}");
            assert_eq!(bits(&in_batches.cells), bits(&at_once.cells), "{seed}");
        }
    }
}

#[test]
fn batches_are_refused_as_one_call_is() {
    let mut over = 0;
    for seed in 0..60 {
        let mut drawn = Mask::drawn(seed, 9, 8);
        let [in_batches, at_once] = drawn.both(20.0, false);
        assert_eq!(in_batches.as_ref().err(), at_once.as_ref().err(), "{seed}");
        over += i32::from(matches!(at_once, Err(Refusal::OverBudget(place)) if place.index > 4));

        drawn.times[40] = -1.0;
        drawn.mask[..8].fill(0);
        for limit in [20.0, 0.0, f32::NAN] {
            let [in_batches, at_once] = drawn.both(limit, false);
            assert_eq!(in_batches.expect_err("a time is below 0"), at_once.expect_err("a time is below 0"));
        }
        drawn.mask.fill(0);
        let [in_batches, at_once] = drawn.both(20.0, true);
        assert_eq!(in_batches.expect_err("no mask cell"), at_once.expect_err("no mask cell"));
    }
    assert!(over > 0, "no refusal came in a later batch");
    let [in_batches, at_once] = Mask::drawn(1, 0, 5).both(1.0, true);
    assert_eq!(in_batches, at_once);
}

/// The case that a command asks for.
fn case(folder: &Path, words: &str) -> Case {
    let mut words = words.split_whitespace();
    let command = options::find_command(words.next().unwrap()).unwrap();
    let words: Vec<OsString> = words.map(|word| absolute(folder, word)).collect();
    let asked = options::read(command, words.into_iter()).unwrap().unwrap();
    Case::read(&asked).unwrap()
}

fn absolute(folder: &Path, word: &str) -> OsString {
    if word.ends_with(".asc") { folder.join(word).into() } else { word.into() }
}

/// Each search with its steps told: the same answer, and its number is said.
#[test]
fn all_searches_answer_the_same() {
    let folder = folder("progress-all");
    grid(&folder, "a.asc", "1 0 -9999 | 0 2 0");
    grid(&folder, "b.asc", "0 1 0 | 0 0 -9999");
    grid(&folder, "t.asc", "1 2.5 -9999 | 0.1 3 3");
    grid(&folder, "v.asc", "7 0 -9999 | 0.3 -2 1e30");
    for (number, words) in [
        (1, "distance --targets a.asc"),
        (2, "distance --targets a.asc --obstacles b.asc --diagonals exclude"),
        (3, "travel_distance --targets a.asc --times t.asc"),
        (4, "value_at_closest_target --targets a.asc --values v.asc"),
        (5, "value_at_closest_travel_target --targets a.asc --times t.asc --values v.asc"),
        (6, "value_at_closest_less_than_travel_target --targets a.asc --times t.asc --values v.asc --limit 2"),
        (7, "sum_within_travel_distance --mask a.asc --times t.asc --values v.asc --limit 90 --adjacent"),
        (8, "sum_targets_within_travel_distance --times t.asc --amounts v.asc --limit 4"),
    ] {
        let case = case(&folder, words);
        let mut said = Vec::new();
        let telling = ticking(&format!("search {number}"), &mut said, AT_ONCE, |steps| {
            let run = searches::run_telling(&case, steps);
            thread::sleep(Duration::from_millis(20));
            run
        });
        let [telling, quiet] = [telling, searches::run(&case)].map(Result::unwrap);
        let facts = |run: &Run| (bits(&run.sheet.cells), run.sheet.takes, run.told.clone(), run.reached);
        assert_eq!(facts(&telling), facts(&quiet), "{words}");
        let said = String::from_utf8(said).unwrap();
        assert!(said.starts_with(&format!("\rsearch {number}: 0 s")), "{said:?}");
        assert!(said.ends_with(" \r"), "the line is not cleared: {said:?}");
        assert_eq!(said.contains(", 0 of 2 mask cells"), number == 7, "{said:?}");
        assert_eq!(said.contains(", once more, to see where a value came"), matches!(number, 4..=6), "{said:?}");
        assert_eq!(said.contains(", 4 amounts"), number == 8, "{said:?}");
    }
}

/// What stands on the line, one after the other.
fn lines(said: &[u8]) -> Vec<String> {
    let said = str::from_utf8(said).unwrap();
    let mut lines: Vec<String> = said.split('\r').map(|line| line.trim_end().to_owned()).collect();
    lines.dedup();
    lines
}

#[test]
fn what_is_said_while_time_passes() {
    let mut said = Vec::new();
    let pace = Pace { first: Duration::from_millis(200), then: Duration::from_millis(10) };
    let answer = ticking("search 3", &mut said, pace, |steps| {
        assert!(steps.are_heard());
        steps.say(Step { what: "not seen".to_owned(), left: None, passed: "" });
        let left = Some(Duration::from_millis(600));
        steps.say(Step { what: String::new(), left, passed: "this ground takes longer than most" });
        thread::sleep(Duration::from_millis(900));
        steps.say(Step { what: "5 of 6".to_owned(), left: Some(Duration::from_secs(7322)), passed: "" });
        thread::sleep(Duration::from_millis(100));
        steps.say(Step { what: "6 of 6".to_owned(), left: None, passed: "" });
        thread::sleep(Duration::from_millis(100));
        7
    });
    assert_eq!(answer, 7);
    let mut after_the_time: Vec<String> = Vec::new();
    for line in lines(&said) {
        let time_and_rest = line.strip_prefix("search 3: ").and_then(|rest| rest.split_once(" s"));
        after_the_time.push(time_and_rest.map_or(line.clone(), |(_, rest)| rest.to_owned()));
    }
    after_the_time.dedup();
    assert_eq!(
        after_the_time,
        [
            "",
            ", about 1 s left",
            ", this ground takes longer than most",
            ", 5 of 6, about 2 h 2 min left",
            ", 6 of 6",
            ""
        ]
    );

    let mut said = Vec::new();
    ticking("search 1", &mut said, pace, |_| ());
    assert_eq!(said, b"", "what is done at once is not spoken of");
}

#[test]
fn what_amounts_may_last() {
    let (rows, columns) = (40, 40);
    let times = vec![1.0; 1600];
    let mut amounts = vec![5.0; 1600];
    let of = |amounts: &[f32], limit| {
        estimates::of_amounts(Grid::new(rows, columns, &times), Grid::new(rows, columns, amounts), limit)
    };
    assert!(of(&amounts, 1e6).unwrap().expect("they are enough for a sample") > Duration::from_millis(1));
    assert_eq!(of(&amounts, 0.0), Err(Refusal::BadLimit));
    amounts[100..].fill(0.0);
    assert_eq!(of(&amounts, 1e6), Ok(None));
    amounts.fill(f32::NAN);
    assert_eq!(of(&amounts, 1e6), Ok(None));
}

/// A line of a shell in a terminal, in which $SHEET is the tool.
fn in_a_terminal(folder: &Path, line: &str) -> Output {
    let line = line.replace("$SHEET", env!("CARGO_BIN_EXE_sheet"));
    let mut script = Command::new("script");
    script.args(["-qec", &line, "/dev/null"]).current_dir(folder).stdin(Stdio::null());
    script.output().expect("`script` of Debian's bsdutils is there")
}

/// Even ground of so many cells to a side.
fn even(name: &str, side: usize) -> common::Folder {
    let folder = folder(name);
    grid(&folder, "ones.asc", &vec![vec!["1"; side].join(" "); side].join("|"));
    folder
}

/// Every cell reaches every other: the sum is their number.
fn holds_in_all_cells(folder: &Path, value: usize, side: usize) {
    let expected = vec![vec![value.to_string(); side].join(" "); side].join(" | ");
    assert!(cells(folder, "out.asc") == expected);
}

const SIDE: usize = 100;
const SUMS: [(&str, &str); 2] = [
    (
        "search 7: 1 s, ",
        "sum_within_travel_distance --mask ones.asc --times ones.asc --values ones.asc --limit 1000 --out out.asc",
    ),
    (
        "search 8: 1 s, 10,000 amounts",
        "sum_targets_within_travel_distance --times ones.asc --amounts ones.asc --limit 1000 --out out.asc",
    ),
];

#[test]
fn sums_on_a_terminal() {
    for (number, (says, words)) in SUMS.into_iter().enumerate() {
        let folder = even(&format!("progress-terminal-{number}"), SIDE);
        let output = in_a_terminal(&folder, &format!("$SHEET {words}"));
        assert!(output.status.success(), "{output:?}");
        let lines = lines(&output.stdout);
        assert!(lines.iter().any(|line| line.starts_with(says)), "{lines:?}");
        assert!(lines.iter().any(|line| line.contains(", about ") && line.ends_with(" s left")), "{lines:?}");
        let report = lines.iter().rev().find(|line| !line.trim().is_empty()).unwrap();
        assert!(report.ends_with("10,000 of 10,000 cells reached"), "{lines:?}");
        holds_in_all_cells(&folder, SIDE * SIDE, SIDE);
        assert_eq!(fs::read_dir(&folder).unwrap().count(), 2);
    }
}

#[test]
fn nothing_is_said_elsewhere() {
    let folder = even("progress-quiet", SIDE);
    let output = sheet(&folder, SUMS[0].1);
    assert_eq!(output.stderr, b"");
    holds_in_all_cells(&folder, SIDE * SIDE, SIDE);

    // Standard output is a terminal here, standard error is none.
    let output = in_a_terminal(&folder, &format!("$SHEET {} 2>complaints", SUMS[1].1));
    assert!(output.status.success());
    assert_eq!(fs::read(folder.join("complaints")).unwrap(), b"");
    assert_eq!(lines(&output.stdout).len(), 2, "{output:?}");
    holds_in_all_cells(&folder, SIDE * SIDE, SIDE);
}

/// Ground that is drawn at random keeps the queue busy for seconds, and the search is run a second time.
#[test]
fn a_search_that_is_run_twice() {
    const SIDE: usize = 1024;
    let folder = folder("progress-twice");
    let mut random = Random(5);
    let mut rows = |cell: &mut dyn FnMut(u64) -> String| -> String {
        let row = |_| (0..SIDE).map(|_| cell(random.below(1000))).collect::<Vec<_>>().join(" ");
        (0..SIDE).map(row).collect::<Vec<_>>().join("|")
    };
    grid(&folder, "times.asc", &rows(&mut |drawn| format!("{}", drawn as f32 / 100.0)));
    let mut first = Some("1");
    grid(&folder, "landing.asc", &rows(&mut |_| first.take().unwrap_or("0").to_owned()));

    let words = "value_at_closest_travel_target --targets landing.asc --times times.asc --values landing.asc";
    let output = in_a_terminal(&folder, &format!("$SHEET {words} --out out.asc"));
    assert!(output.status.success(), "{output:?}");
    let lines = lines(&output.stdout);
    assert!(lines[1].starts_with("search 5: "), "{lines:?}");
    assert!(lines.iter().any(|line| line.contains(" s, once more, to see where a value came, about ")), "{lines:?}");
    holds_in_all_cells(&folder, 1, SIDE);
}
