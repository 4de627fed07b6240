//! Grids up to the full size, 1024 by 1024 cells, beside the oracle: every bit of the answer, the takes, the index.
use case::{Answer, Case, Diagonals, Grid, Search};
use cases::random::Random;
use library::answer;
use oracle::{Build, Reading};

/// The largest square, the longest grids that the bounds allow either way, and some in between.
const SIZES: [(i32, i32); 6] = [(1024, 1024), (32_767, 32), (32, 32_767), (1, 32_767), (317, 911), (640, 480)];

/// Fields of terrain are this wide, with a line of nodata times between them, so that search 7 ends at their edge.
const FIELD: usize = 16;

/// One start in so many cells: each start of searches 7 and 8 is a search of its own.
fn rarity(search: Search) -> usize {
    if search.has_budget() { 50_021 } else { 1009 }
}

/// A stand with landings, ditches in one cell of seven, and terrain times that are nodata between the fields.
fn stand(search: Search, rows: i32, cols: i32) -> Case {
    let random = &mut Random::new(u64::from(search.number()), (rows * cols) as u64);
    let n = (rows * cols) as usize;
    let between = |at: usize| (at / cols as usize) % (FIELD + 1) == FIELD || at % cols as usize % (FIELD + 1) == FIELD;
    let start = |at: usize| at % rarity(search) == 5;
    let bytes = |byte: &mut dyn FnMut(usize) -> u8| Some(Grid { rows, cols, cells: (0..n).map(byte).collect() });
    let floats = |float: &mut dyn FnMut(usize) -> f32| Some(Grid { rows, cols, cells: (0..n).map(float).collect() });
    let mut case = Case::new(search);
    if search.has_targets() {
        case.targets = bytes(&mut |at| if start(at) { 1 } else { 0 });
    }
    if search.has_obstacles() {
        case.obstacles = bytes(&mut |_| random.chance(14).into());
        case.diagonals = Diagonals::Exclude;
    }
    if search.has_times() {
        case.times = floats(&mut |at| if between(at) { f32::NAN } else { 1.0 + random.below(1 << 20) as f32 / 1e6 });
    }
    if search == Search::SumTargetsWithinTravelDistance {
        case.values = floats(&mut |at| if start(at) { 1.0 + at as f32 / 3.0 } else { 0.0 });
    } else if search.has_values() {
        case.values = floats(&mut |at| at as f32 / 3.0);
    }
    case.cell_size = if search.has_cell_size() { 10.0 } else { 0.0 };
    case.limit = match search {
        Search::SumWithinTravelDistance => 1_000.0,
        Search::SumTargetsWithinTravelDistance => 12.0,
        _ if search.has_limit() => 40.0,
        _ => 0.0,
    };
    case.adjacent = search.has_adjacent();
    case
}

/// The port gives the oracle's answer, which is returned.
fn agrees(case: &Case) -> Answer {
    let expected = oracle::answer(case, Build::Unchanged, Reading::Document);
    let (rows, cols) = case.size();
    assert!(answer(case) == expected, "search {} on {rows} by {cols}", case.search.number());
    expected
}

fn takes(answer: Answer) -> u64 {
    let Answer::Accepted { takes, .. } = answer else { panic!("refused: {answer:?}") };
    takes
}

#[test]
fn stands_of_every_search() {
    for search in Search::ALL {
        for (rows, cols) in SIZES {
            assert!(takes(agrees(&stand(search, rows, cols))) > 10, "search {} on {rows} by {cols}", search.number());
        }
    }
}

/// One start in a corner, no limit and all the ground open: the longest ways, whose sums are rounded most often, and in
/// search 7 a list of every cell.
#[test]
fn one_start_and_open_ground() {
    for search in Search::ALL {
        let mut case = stand(search, 1024, 1024);
        if search == Search::SumTargetsWithinTravelDistance {
            case.values.iter_mut().for_each(|amounts| alone(&mut amounts.cells, 1.0));
        }
        case.targets.iter_mut().for_each(|targets| alone(&mut targets.cells, 1));
        case.times.iter_mut().flat_map(|times| &mut times.cells).for_each(|time| *time = time.max(1.0));
        case.limit = if search.has_limit() { f32::INFINITY } else { 0.0 };
        assert!(takes(agrees(&case)) > 500_000, "search {}", search.number());
    }
}

fn alone<T: Copy + Default>(cells: &mut [T], start: T) {
    cells.fill(T::default());
    cells[0] = start;
}

/// Refusals 6 and 7 far into the grid, with the index that they name.
#[test]
fn refusals_with_an_index() {
    for search in Search::ALL.into_iter().filter(|search| search.has_times()) {
        let mut case = stand(search, 1024, 1024);
        let times = case.times.as_mut().expect("these searches have times");
        (times.cells[1_000_003], times.cells[1_040_000]) = (-1.0, f32::NEG_INFINITY);
        assert_eq!(agrees(&case), Answer::Refused { number: 6, index: Some(1_000_003) });
    }
    let mut case = stand(Search::SumWithinTravelDistance, 1024, 1024);
    let slow = case.times.iter_mut().flat_map(|times| &mut times.cells[700_000..]);
    slow.for_each(|time| *time *= 100.0);
    let Answer::Refused { number: 7, index: Some(index) } = agrees(&case) else { panic!("refusal 7 is given") };
    assert!(index > 690_000 && index as usize % rarity(case.search) == 5, "{index}");
}

/// One more row or column than the bounds allow.
#[test]
fn just_above_the_bounds() {
    for search in Search::ALL {
        for (rows, cols) in [(1025, 1024), (1024, 1025), (32_768, 1), (1, 32_768), (32_767, 33)] {
            assert_eq!(agrees(&stand(search, rows, cols)), Answer::Refused { number: 1, index: None });
        }
    }
}
