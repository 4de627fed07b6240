//! What the library promises of single slices and cells: lengths, the one NaN, and what refusal 7 leaves.
use case::{Answer, Case, Grid, ONE_NAN, Search};
use library::answer;
use library::exports::{Lent, answer_in};

const INF: f32 = f32::INFINITY;

fn row<T: Copy>(cells: &[T]) -> Option<Grid<T>> {
    Some(Grid { rows: 1, cols: cells.len() as i32, cells: cells.to_vec() })
}

fn case(search: u8) -> Case {
    Case::new(Search::from_number(search).expect("1 to 8"))
}

/// A call of the search that is accepted: one row, a start in its first cell, ground of time 1.
fn accepted(search: Search, cells: usize) -> Case {
    let first = |at: usize| u8::from(at == 0);
    let bytes: Vec<u8> = (0..cells).map(first).collect();
    let amounts: Vec<f32> = (0..cells).map(|at| first(at).into()).collect();
    Case {
        targets: search.has_targets().then(|| row(&bytes)).flatten(),
        obstacles: search.has_obstacles().then(|| row(&vec![0; cells])).flatten(),
        times: search.has_times().then(|| row(&vec![1.0; cells])).flatten(),
        values: search.has_values().then(|| row(&amounts)).flatten(),
        cell_size: if search.has_cell_size() { 1.0 } else { 0.0 },
        limit: if search.has_limit() { 9.0 } else { 0.0 },
        ..Case::new(search)
    }
}

/// A lent slice of the wrong length is refusal 3, whichever it is, before cell size, limit and times are judged.
#[test]
fn each_slice_that_is_too_short_or_too_long() {
    /// A lent slice's length, and the slice with one place more or fewer.
    type Change = fn(&mut Lent, bool) -> usize;
    macro_rules! change {
        ($slice:ident) => {
            |lent, more| {
                let length = lent.$slice.len();
                lent.$slice.resize(if more { length + 1 } else { length.saturating_sub(1) }, Default::default());
                length
            }
        };
    }
    let changes: [Change; 7] = [
        change!(answer),
        change!(distances),
        change!(marks),
        change!(listed),
        change!(adjacent),
        change!(added),
        change!(queue),
    ];
    for search in Search::ALL {
        let mut case = accepted(search, 4);
        let mut lent = Lent::new(search, 4);
        assert!(matches!(answer_in(&case, &mut lent), Answer::Accepted { .. }), "search {}", search.number());
        (case.cell_size, case.limit) = (0.0, f32::NAN);
        case.times.iter_mut().for_each(|times| times.cells[0] = -1.0);
        let mut had = 0;
        for (which, change) in changes.iter().enumerate() {
            for more in [false, true] {
                let mut lent = Lent::new(search, 4);
                if change(&mut lent, more) == 0 {
                    continue;
                }
                had += 1;
                let refused = Answer::Refused { number: 3, index: None };
                assert_eq!(answer_in(&case, &mut lent), refused, "search {}, slice {which}", search.number());
            }
        }
        assert_eq!(had / 2, [3, 3, 3, 4, 4, 4, 6, 5][search as usize], "slices that search {} has", search.number());
    }
}

/// With no cells the lengths are judged all the same: the queue has one place.
#[test]
fn no_cells() {
    for search in Search::ALL {
        let case = accepted(search, 0);
        assert_eq!(answer(&case), Answer::Accepted { takes: 0, grid: vec![] }, "search {}", search.number());
        let mut lent = Lent::new(search, 0);
        lent.queue.clear();
        let refused = Answer::Refused { number: 3, index: None };
        assert_eq!(answer_in(&case, &mut lent), refused, "search {}", search.number());
    }
}

/// NaNs with sign and payload set: in an answer each is the one NaN.
#[test]
fn every_nan_is_the_one_nan() {
    let times = || row(&[1.0, 1.0]);
    for bits in [0x7FC0_0000_u32, 0xFFC0_0000, 0x7F80_0001, 0xFF80_0001, 0x7FFF_FFFF, 0xFFFF_FFFF, 0x7FC0_1234] {
        let nan = f32::from_bits(bits);
        let targets = || row(&[1, 0]);
        let carried = Case { targets: targets(), values: row(&[nan, 1.0]), ..case(4) };
        assert_eq!(answer(&carried), Answer::Accepted { takes: 2, grid: vec![ONE_NAN, ONE_NAN] }, "{bits:08x}");
        let untimed = Case { targets: targets(), times: row(&[1.0, nan]), limit: 9.0, ..case(3) };
        assert_eq!(answer(&untimed), Answer::Accepted { takes: 1, grid: vec![0, ONE_NAN] }, "{bits:08x}");
        for search in [5, 6] {
            let limit = if search == 6 { 9.0 } else { 0.0 };
            let barred = Case { targets: targets(), times: times(), values: row(&[0.0, nan]), limit, ..case(search) };
            assert_eq!(answer(&barred), Answer::Accepted { takes: 1, grid: vec![0, ONE_NAN] }, "{bits:08x}");
        }
    }
    let plain = Case { targets: row(&[1, 255]), cell_size: 1.0, limit: 9.0, ..case(1) };
    assert_eq!(answer(&plain), Answer::Accepted { takes: 1, grid: vec![0, ONE_NAN] });
    // A sum of both infinities is a NaN with its sign set on some machines.
    let opposite = || row(&[INF, -INF]);
    let listed = Case { targets: row(&[1, 0]), times: times(), values: opposite(), limit: 9.0, ..case(7) };
    assert_eq!(answer(&listed), Answer::Accepted { takes: 2, grid: vec![ONE_NAN, 0] });
    let gained = Case { times: times(), values: opposite(), limit: 9.0, ..case(8) };
    assert_eq!(answer(&gained), Answer::Accepted { takes: 4, grid: vec![ONE_NAN, ONE_NAN] });
}

/// Refusal 7 names the first mask cell whose reach is above the budget, after others were answered; `answer_in` sees to
/// the slices.
#[test]
fn refusal_7_after_other_mask_cells() {
    let (near, barred, far) = (1.0, f32::NAN, 50.0);
    let times = row(&[near, near, barred, near, barred, far, far, barred, far, far]);
    let mask = row(&[1, 0, 0, 1, 0, 0, 2, 1, 1, 1]);
    for adjacent in [false, true] {
        let case = Case {
            targets: mask.clone(),
            times: times.clone(),
            values: times.clone(),
            limit: 9.0,
            adjacent,
            ..case(7)
        };
        assert_eq!(answer(&case), Answer::Refused { number: 7, index: Some(6) });
    }
}
