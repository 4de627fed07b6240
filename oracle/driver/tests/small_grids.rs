//! Document 01's small grids A to M, as they stand there, and what they leave out, by either build.
use case::{Answer, Case, Diagonals, Grid, Search, bits_with_one_nan};
use oracle::{Build, Reading, answer};

const NAN: f32 = f32::NAN;
const INF: f32 = f32::INFINITY;

fn row<T: Copy>(cells: &[T]) -> Option<Grid<T>> {
    Some(Grid { rows: 1, cols: cells.len() as i32, cells: cells.to_vec() })
}

fn square<T: Copy>(cells: [T; 4]) -> Option<Grid<T>> {
    Some(Grid { rows: 2, cols: 2, cells: cells.to_vec() })
}

fn case(search: u8) -> Case {
    Case::new(Search::from_number(search).expect("1 to 8"))
}

/// The answer of both builds has these cells and, where document 01 says them, these takes.
fn holds(case: &Case, cells: &[f32], document_takes: Option<u64>) {
    for build in [Build::Unchanged, Build::Counted] {
        let Answer::Accepted { takes, grid } = answer(case, build, Reading::Document) else {
            panic!("refused: {case:?}")
        };
        assert_eq!(grid, cells.iter().map(|&cell| bits_with_one_nan(cell)).collect::<Vec<_>>(), "{case:?}");
        assert_eq!(takes, document_takes.unwrap_or(takes), "{case:?}");
    }
}

#[test]
fn a_and_b_plain() {
    let plain = |limit| Case { targets: row(&[1, 0, 0]), cell_size: 1.0, limit, ..case(1) };
    holds(&plain(INF), &[0.0, 1.0, 2.0], Some(3));
    holds(&plain(2.0), &[0.0, 1.0, 2.0], Some(2));
}

#[test]
fn c_no_way_between_two_corners() {
    let grids = Case { targets: square([1, 0, 0, 0]), obstacles: square([0, 1, 1, 0]), cell_size: 1.0, ..case(2) };
    holds(&Case { diagonals: Diagonals::Exclude, ..grids }, &[0.0, INF, INF, INF], Some(1));
}

#[test]
fn d_a_target_on_an_obstacle_starts() {
    let both = Case { targets: row(&[1, 0, 0]), obstacles: row(&[1, 0, 0]), cell_size: 1.0, ..case(2) };
    holds(&both, &[0.0, 1.0, 2.0], None);
}

#[test]
fn e_half_the_step_times_both_times() {
    holds(&Case { targets: row(&[1, 0]), times: row(&[2.0, 4.0]), limit: INF, ..case(3) }, &[0.0, 3.0], None);
}

#[test]
fn f_and_g_255_starts_in_5_and_not_in_4() {
    let grids = |search| Case { targets: row(&[255, 0]), values: row(&[7.0, 9.0]), ..case(search) };
    holds(&Case { times: row(&[2.0, 4.0]), ..grids(5) }, &[7.0, 7.0], None);
    holds(&grids(4), &[0.0, 0.0], Some(0));
}

#[test]
fn h_the_limit_is_exclusive() {
    let grids =
        |limit| Case { targets: row(&[1, 0]), times: row(&[2.0, 4.0]), values: row(&[7.0, 9.0]), limit, ..case(6) };
    holds(&grids(4.0), &[7.0, 0.0], None);
    holds(&grids(4.5), &[7.0, 7.0], None);
}

#[test]
fn i_and_j_sums_from_a_mask_cell() {
    let grids = |time, adjacent, limit| Case {
        targets: row(&[1, 0]),
        times: row(&[2.0, time]),
        values: row(&[7.0, 9.0]),
        adjacent,
        limit,
        ..case(7)
    };
    holds(&grids(4.0, false, 3.0), &[16.0, 0.0], None);
    for build in [Build::Unchanged, Build::Counted] {
        let refused = answer(&grids(4.0, false, 2.5), build, Reading::Document);
        assert_eq!(refused, Answer::Refused { number: 7, index: Some(0) });
    }
    holds(&grids(NAN, true, 3.0), &[16.0, 0.0], None);
    holds(&grids(NAN, true, INF), &[7.0, 0.0], None);
}

#[test]
fn k_to_m_amounts() {
    let grids = |times: [f32; 2], limit| Case { times: row(&times), values: row(&[5.0, 0.0]), limit, ..case(8) };
    holds(&grids([2.0, 4.0], 4.0), &[5.0, 5.0], None);
    holds(&grids([2.0, 4.0], 3.5), &[5.0, 0.0], Some(2));
    holds(&grids([2.0, 4.0], 3.0), &[5.0, 0.0], Some(1));
    holds(&grids([0.0, 16_777_216.0], 16_777_216.0), &[5.0, 0.0], None);
    holds(&grids([NAN, 4.0], 9.0), &[0.0, 0.0], Some(0));
}

// What document 01's grids don't show, as crates/rules computes it in `more-grids`.

#[test]
fn nodata_on_the_way() {
    let gap = Case { targets: row(&[1, 0, 0]), times: row(&[2.0, NAN, 4.0]), limit: INF, ..case(3) };
    holds(&gap, &[0.0, NAN, INF], Some(1));
    holds(&Case { targets: row(&[1, 0]), values: row(&[NAN, 9.0]), ..case(4) }, &[NAN, NAN], Some(2));
    let (times, values) = (row(&[NAN, 4.0, 1.0]), row(&[7.0, 9.0, NAN]));
    holds(&Case { targets: row(&[1, 0, 0]), times, values, ..case(5) }, &[7.0, 7.0, NAN], Some(2));
}

#[test]
fn a_mask_cell_with_nodata_time_is_listed_alone() {
    let grids = |adjacent| Case {
        targets: row(&[1, 0]),
        times: row(&[NAN, 4.0]),
        values: row(&[7.0, 9.0]),
        adjacent,
        limit: 3.0,
        ..case(7)
    };
    holds(&grids(false), &[7.0, 0.0], Some(0));
    holds(&grids(true), &[16.0, 0.0], Some(0));
}

#[test]
fn amounts_are_added_in_row_order() {
    let amounts = row(&[16_777_216.0, 1.0, -16_777_216.0]);
    holds(&Case { times: row(&[0.0; 3]), values: amounts, limit: 1.0, ..case(8) }, &[0.0; 3], Some(9));
}

#[test]
fn with_no_cells_the_answer_is_empty() {
    let wide = Some(Grid { rows: 0, cols: 3, cells: vec![] });
    holds(&Case { targets: wide, cell_size: 1.0, limit: INF, ..case(1) }, &[], Some(0));
    let grids = Case { targets: row(&[]), times: row(&[]), values: row(&[]), adjacent: true, limit: 3.0, ..case(7) };
    holds(&grids, &[], Some(0));
    let tall = || Some(Grid { rows: 3, cols: 0, cells: vec![] });
    holds(&Case { times: tall(), values: tall(), limit: 3.0, ..case(8) }, &[], Some(0));
}
