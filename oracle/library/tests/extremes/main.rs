//! The exports at the extremes: sizes, lengths and numbers at the ends of their types, alone and several at once. The
//! refusal is the lowest row of document 01's table that applies (`model`), and nothing is written, in a lent slice or
//! beside it (`lent`).
mod lent;
mod model;

use case::{Case, Grid, Search};
use haul::raw;
use lent::judged;
use model::{Lengths, had, right_lengths};
use oracle::Build;

const SIDES: [i32; 16] =
    [i32::MIN, i32::MIN + 1, -32_768, -1, 0, 1, 2, 4, 32, 1024, 1025, 32_767, 32_768, 65_535, 65_536, i32::MAX];

/// Both zeros, both infinities, NaNs, subnormals and the largest floats of both signs.
const NUMBERS: [f32; 15] = [
    0.0,
    -0.0,
    1.0,
    -1.0,
    f32::INFINITY,
    f32::NEG_INFINITY,
    f32::NAN,
    f32::from_bits(0xFFC0_0000),
    f32::from_bits(0x7F80_0001),
    f32::from_bits(1),
    f32::from_bits(0x8000_0001),
    f32::from_bits(0x007F_FFFF),
    f32::MIN_POSITIVE,
    f32::MAX,
    f32::MIN,
];

/// A call that is accepted: all grids of this size and this many cells, a start in the first, ground of time 1.
fn sound(search: Search, (rows, cols): (i32, i32), cells: usize) -> Case {
    let bytes = |first: u8| Grid { rows, cols, cells: (0..cells).map(|at| if at == 0 { first } else { 0 }).collect() };
    let times = || Grid { rows, cols, cells: vec![1.0; cells] };
    let values = || Grid { rows, cols, cells: bytes(1).cells.into_iter().map(f32::from).collect() };
    Case {
        targets: search.has_targets().then(|| bytes(1)),
        obstacles: search.has_obstacles().then(|| bytes(0)),
        times: search.has_times().then(times),
        values: search.has_values().then(values),
        cell_size: 1.0,
        limit: f32::INFINITY,
        ..Case::new(search)
    }
}

/// The case with the numbers and the first time all refused.
fn spoiled(mut case: Case) -> Case {
    (case.cell_size, case.limit) = (f32::NAN, f32::NAN);
    case.times.iter_mut().flat_map(|times| times.cells.first_mut()).for_each(|time| *time = -1.0);
    case
}

/// The case with its grid of this number, in the order of the file's tags, at another size.
fn resized(mut case: Case, which: usize, (rows, cols): (i32, i32)) -> Case {
    let bytes =
        [&mut case.targets, &mut case.obstacles].into_iter().flatten().map(|grid| (&mut grid.rows, &mut grid.cols));
    let floats = [&mut case.times, &mut case.values].into_iter().flatten().map(|grid| (&mut grid.rows, &mut grid.cols));
    if let Some((its_rows, its_cols)) = bytes.chain(floats).nth(which) {
        (*its_rows, *its_cols) = (rows, cols);
    }
    case
}

/// The case with its grid of this number at another number of cells.
fn relengthened(mut case: Case, which: usize, length: usize) -> Case {
    let bytes = [&mut case.targets, &mut case.obstacles].into_iter().flatten().count();
    if which < bytes {
        let grids = [&mut case.targets, &mut case.obstacles].into_iter().flatten();
        grids.skip(which).take(1).for_each(|grid| grid.cells.resize(length, 0));
    } else {
        let grids = [&mut case.times, &mut case.values].into_iter().flatten();
        grids.skip(which - bytes).take(1).for_each(|grid| grid.cells.resize(length, 1.0));
    }
    case
}

fn pairs<T: Copy>(items: &[T]) -> impl Iterator<Item = (T, T)> {
    items.iter().flat_map(move |&first| items.iter().map(move |&second| (first, second)))
}

/// The numbers of cells that the slices have for a size: none, four, what the size asks for if that is little, and what
/// a product of 32 bits would make of it.
fn cell_counts((rows, cols): (i32, i32)) -> Vec<usize> {
    let wrapped = usize::try_from(rows.wrapping_mul(cols)).unwrap_or(0);
    let mut counts = vec![0, 4];
    counts.extend((wrapped <= 4_096).then_some(wrapped));
    counts
}

#[test]
fn sizes_of_all_grids() {
    let mut seen = [0; 8];
    for search in Search::ALL {
        for size in pairs(&SIDES) {
            for cells in cell_counts(size) {
                for case in [sound(search, size, cells), spoiled(sound(search, size, cells))] {
                    seen[judged(&case, &right_lengths(search, cells)) as usize] += 1;
                }
            }
        }
    }
    assert!([0, 1, 3, 4, 5, 6].iter().all(|&status: &usize| seen[status] > 0), "{seen:?}");
}

#[test]
fn the_size_of_one_grid() {
    let mut seen = [0; 8];
    for search in Search::ALL {
        for size in pairs(&SIDES) {
            let case = sound(search, (2, 2), 4);
            for which in 0..case.grids().len() {
                let case = spoiled(resized(case.clone(), which, size));
                seen[judged(&case, &right_lengths(search, 4)) as usize] += 1;
            }
        }
    }
    assert!(seen[1] > 0 && seen[2] > 0 && seen[3] > 0, "{seen:?}");
}

/// Lengths beside the right one; 0 is a slice without a place.
fn wrong_lengths(right: usize) -> [usize; 4] {
    [0, right.saturating_sub(1), right + 1, 2 * right + 1]
}

/// The lengths with each slice that the search has in turn at each wrong length.
fn one_wrong(search: Search, right: &Lengths) -> Vec<Lengths> {
    let had = had(search);
    let with = |at: usize, length: usize| {
        let mut lengths = *right;
        lengths[at] = length;
        lengths
    };
    let slices = (0..right.len()).filter(|&at| had[at]);
    slices.flat_map(|at| wrong_lengths(right[at]).map(|length| with(at, length))).collect()
}

#[test]
fn the_length_of_each_slice() {
    let mut seen = [0; 8];
    for search in Search::ALL {
        for cells in [0, 1, 4] {
            let sound = sound(search, (1, cells as i32), cells);
            let right = right_lengths(search, cells);
            for case in [sound.clone(), spoiled(sound)] {
                for length in wrong_lengths(cells) {
                    for which in 0..case.grids().len() {
                        seen[judged(&relengthened(case.clone(), which, length), &right) as usize] += 1;
                    }
                }
                for lengths in one_wrong(search, &right) {
                    seen[judged(&case, &lengths) as usize] += 1;
                }
            }
        }
    }
    assert!(seen[0] > 0 && seen[3] > 1_000, "{seen:?}");
}

#[test]
fn cell_size_and_limit() {
    let mut seen = [0; 8];
    for search in Search::ALL {
        for (cell_size, limit) in pairs(&NUMBERS) {
            for first_time in [1.0, -1.0] {
                let mut case = Case { cell_size, limit, ..sound(search, (1, 2), 2) };
                case.times.iter_mut().for_each(|times| times.cells[0] = first_time);
                seen[judged(&case, &right_lengths(search, 2)) as usize] += 1;
            }
        }
    }
    assert!([0, 4, 5, 6, 7].iter().all(|&status: &usize| seen[status] > 0), "{seen:?}");
}

#[test]
fn times_and_values() {
    let mut seen = [0; 8];
    for search in Search::ALL {
        for (first, second) in pairs(&NUMBERS) {
            for limit in [f32::from_bits(1), 0.75, 1.0, f32::MAX, f32::INFINITY] {
                let mut case = Case { limit, ..sound(search, (1, 2), 2) };
                case.times.iter_mut().for_each(|times| times.cells = vec![first, second]);
                seen[judged(&case, &right_lengths(search, 2)) as usize] += 1;
                let mut case = Case { limit, ..sound(search, (1, 2), 2) };
                case.values.iter_mut().for_each(|values| values.cells = vec![first, second]);
                seen[judged(&case, &right_lengths(search, 2)) as usize] += 1;
            }
        }
    }
    assert!([0, 6, 7].iter().all(|&status: &usize| seen[status] > 0), "{seen:?}");
}

/// `haul_answer` writes the answer to the front of an output of this length and nothing else; where the output is shorter
/// than the longest answer it writes nothing, and tells 0.
fn answers(input: &[u8], answer: &[u8], length: usize) {
    const DIRT: u8 = 0xA5;
    let mut output = vec![DIRT; 16 + length + 16];
    let written = if length < raw::ANSWER_MAX { &[] } else { answer };
    assert_eq!(raw::answer(input, &mut output[16..16 + length]) as usize, written.len());
    assert_eq!(&output[16..16 + written.len()], written);
    let rest = output[..16].iter().chain(&output[16 + written.len()..]);
    assert!(rest.into_iter().all(|&byte| byte == DIRT), "an input of {} bytes, {length} for it", input.len());
}

/// No input, and long ones, that are no files.
#[test]
fn no_files() {
    for input in [0, 1, 12_321, 12_322, 70_000, 1 << 20].map(|length| vec![1; length]) {
        for length in [0, 1, 3, raw::ANSWER_MAX - 1, raw::ANSWER_MAX, raw::ANSWER_MAX + 1, 100_000] {
            answers(&input, &[0x10, 1, 0, 8], length);
        }
    }
}

/// A file with a short answer, for which there is every length from none to more than enough.
#[test]
fn a_file() {
    let input = include_bytes!("../../../whole-case.grid");
    let answer = oracle::answer_file(input, Build::Unchanged);
    assert_eq!(answer.len(), 34);
    (0..raw::ANSWER_MAX + 100).for_each(|length| answers(input, &answer, length));
}
