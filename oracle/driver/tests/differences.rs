//! docs/DIFFERENCES.md, entry by entry: what the Rust does there, run.
use case::{Answer, Case, Grid, ONE_NAN, Search};
use oracle::{Build, Reading, Text, answer, text_alone};

const NAN: f32 = f32::NAN;
const INF: f32 = f32::INFINITY;

fn row<T: Copy>(cells: &[T]) -> Option<Grid<T>> {
    Some(Grid { rows: 1, cols: cells.len() as i32, cells: cells.to_vec() })
}

fn case(search: u8) -> Case {
    Case::new(Search::from_number(search).expect("1 to 8"))
}

/// The bits of what the Rust gives, under either reading of nodata.
fn rust(case: &Case, reading: Reading) -> Vec<u32> {
    match text_alone(case, reading) {
        Text::Gives(grid) => grid.into_iter().map(f32::to_bits).collect(),
        other => panic!("{other:?}"),
    }
}

fn bits(cells: &[f32]) -> Vec<u32> {
    cells.iter().map(|cell| cell.to_bits()).collect()
}

fn refused_by(case: &Case) -> (u8, Option<u32>) {
    match answer(case, Build::Unchanged, Reading::Document) {
        Answer::Refused { number, index } => (number, index),
        Answer::Accepted { .. } => (0, None),
    }
}

#[test]
fn nan_is_data_in_the_repository() {
    let nan_time = Case { targets: row(&[1]), times: row(&[NAN]), limit: 9.0, ..case(3) };
    let nan_value = |search| Case { targets: row(&[0]), times: row(&[1.0]), values: row(&[NAN]), ..case(search) };
    let sums = Case { targets: row(&[1]), limit: 9.0, ..nan_value(7) };
    let amounts = Case { times: row(&[1.0]), values: row(&[NAN]), limit: 9.0, ..case(8) };
    for (case, document, repository) in [
        (nan_time, NAN, 0.0),
        (nan_value(5), NAN, 0.0),
        (Case { limit: 9.0, ..nan_value(6) }, NAN, 0.0),
        (sums, 0.0, NAN),
        (amounts, 0.0, NAN),
    ] {
        assert_eq!(rust(&case, Reading::Document), bits(&[document]), "{case:?}");
        assert_eq!(rust(&case, Reading::Repository), bits(&[repository]), "{case:?}");
    }
}

#[test]
fn refusal_1_sizes() {
    let n = 1025 * 1024;
    let mut cells = vec![0; n];
    cells[0] = 1;
    let targets = Some(Grid { rows: 1025, cols: 1024, cells });
    let large = Case { targets, cell_size: 1.0, limit: 0.5, ..case(1) };
    assert_eq!(refused_by(&large), (1, None));
    assert_eq!(rust(&large, Reading::Document).len(), n);
}

#[test]
fn refusal_4_cell_sizes() {
    for (cell_size, rust_gives) in [(0.0, 0.0), (-1.0, -0.0)] {
        let plain = Case { targets: row(&[1]), cell_size, limit: INF, ..case(1) };
        assert_eq!(refused_by(&plain), (4, None));
        assert_eq!(rust(&plain, Reading::Document), bits(&[rust_gives]));
    }
    for cell_size in [NAN, INF, -INF] {
        let plain = Case { targets: row(&[1]), cell_size, limit: INF, ..case(1) };
        assert_eq!(refused_by(&plain), (4, None));
        let [cell] = rust(&plain, Reading::Document)[..] else { panic!("one cell") };
        assert!(f32::from_bits(cell).is_nan(), "0 times {cell_size}");
    }
}

#[test]
fn refusal_5_a_limit_that_is_nan() {
    let plain = Case { targets: row(&[1, 0]), cell_size: 1.0, limit: NAN, ..case(1) };
    let travel = Case { targets: row(&[1, 0]), times: row(&[1.0, 1.0]), limit: NAN, ..case(3) };
    let values = Case { values: row(&[7.0, 9.0]), ..Case { search: case(6).search, ..travel.clone() } };
    let sums = Case { search: case(7).search, ..values.clone() };
    let amounts = Case { times: row(&[1.0]), values: row(&[5.0]), limit: NAN, ..case(8) };
    assert_eq!(rust(&plain, Reading::Document), bits(&[0.0, NAN]));
    assert_eq!(rust(&travel, Reading::Document), bits(&[0.0, NAN]));
    assert_eq!(rust(&values, Reading::Document), bits(&[7.0, 0.0]));
    assert_eq!(text_alone(&sums, Reading::Document), Text::Panics);
    assert_eq!(rust(&amounts, Reading::Document), bits(&[0.0]));
    for case in [plain, travel, values, sums, amounts] {
        assert_eq!(refused_by(&case), (5, None));
    }
}

#[test]
fn refusal_6_times_below_0_in_3_5_and_6() {
    let travel = Case { targets: row(&[1, 0]), times: row(&[1.0, -3.0]), limit: INF, ..case(3) };
    assert_eq!(refused_by(&travel), (6, Some(1)));
    let goes_round_until_it_is_absorbed = bits(&[-16_777_216.0, -16_777_216.0]);
    assert_eq!(rust(&travel, Reading::Document), goes_round_until_it_is_absorbed);
    for (search, limit) in [(5, 0.0), (6, 9.0)] {
        let targets = row(&[1, 0]);
        let values = Case { targets, times: row(&[1.0, -1.0]), values: row(&[7.0, 9.0]), limit, ..case(search) };
        assert_eq!(refused_by(&values), (6, Some(1)));
        assert_eq!(rust(&values, Reading::Document), bits(&[7.0, 7.0]));
    }
}

#[test]
fn refusal_7_is_a_panic() {
    let sums = Case { targets: row(&[1, 0]), times: row(&[2.0, 4.0]), values: row(&[7.0, 9.0]), limit: 2.5, ..case(7) };
    assert_eq!(text_alone(&sums, Reading::Document), Text::Panics);
    assert_eq!(refused_by(&sums), (7, Some(0)));
}

#[test]
fn nan_bits() {
    let odd = f32::from_bits(0xFF80_0001 | 0x0040_0000);
    let carried = Case { targets: row(&[1]), values: row(&[odd]), ..case(4) };
    assert_eq!(rust(&carried, Reading::Repository), bits(&[odd]));
    let cancelled =
        Case { targets: row(&[1, 0]), times: row(&[1.0, 1.0]), values: row(&[INF, -INF]), limit: 9.0, ..case(7) };
    let [sum, _] = rust(&cancelled, Reading::Document)[..] else { panic!("two cells") };
    assert!(f32::from_bits(sum).is_nan());
    if cfg!(target_arch = "x86_64") {
        assert_eq!(sum, 0xFFC0_0000);
    }
    for case in [carried, cancelled] {
        let Answer::Accepted { grid, .. } = answer(&case, Build::Unchanged, Reading::Document) else {
            panic!("accepted")
        };
        assert_eq!(grid[0], ONE_NAN);
    }
}
