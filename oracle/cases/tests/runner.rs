//! The generator reaches what it should, and the runner sees a difference where there is one.
use std::collections::BTreeSet;

use case::{Answer, Case, Grid, Search, draw, plain};
use cases::compare::{Side, compare};
use cases::generate::{Sizes, generate};
use cases::readings;
use oracle::{Build, Reading, answer};

const SIDES: [Side; 2] = [Side::Oracle(Build::Unchanged), Side::Oracle(Build::Counted)];

/// The refusals that document 01 gives each search, 0 for accepted.
fn possible(search: Search) -> BTreeSet<u8> {
    let mut statuses = BTreeSet::from([0, 1, 3, 8]);
    statuses.extend((search != Search::DistancesUpTo).then_some(2));
    statuses.extend(search.has_cell_size().then_some(4));
    statuses.extend(search.has_limit().then_some(5));
    statuses.extend(search.has_times().then_some(6));
    statuses.extend((search == Search::SumWithinTravelDistance).then_some(7));
    statuses
}

#[test]
fn the_builds_agree_and_every_status_comes_up() {
    for search in Search::ALL {
        let seen = compare(&SIDES, search, Sizes::File, 7, 2_000).unwrap_or_else(|what| panic!("{what}"));
        let missed: Vec<_> = possible(search).into_iter().filter(|status| !seen.all().contains_key(status)).collect();
        assert!(missed.is_empty(), "search {} never gave {missed:?}", search.number());
        assert_eq!(seen.files + seen.calls, 2_000);
    }
}

#[test]
fn the_builds_agree_on_large_grids() {
    for search in Search::ALL {
        let seen = compare(&SIDES, search, Sizes::Large, 7, 20).unwrap_or_else(|what| panic!("{what}"));
        assert!(seen.statuses[&0] > 0 && seen.takes > 1_000, "search {}", search.number());
    }
}

#[test]
fn a_program_that_answers_something_else_is_seen() {
    let sides = [Side::Oracle(Build::Unchanged), Side::named("/bin/cat")];
    let what = compare(&sides, Search::DistancesUpTo, Sizes::File, 1, 10).err().expect("cat is no search");
    assert!(what.starts_with("search 1, seed 1, index 0\n"), "{what}");
}

#[test]
fn a_difference_is_named_by_its_field_and_place() {
    let case = generate(Search::DistancesUpTo, Sizes::Stored, 3, 99);
    let grid = vec![0; 1024];
    let accepted = |takes, grid| Answer::Accepted { takes, grid };
    let refused = |number, index| Answer::Refused { number, index };
    let named = |a, b| draw::difference(&case, &a, &b).expect("they differ");
    assert_eq!(named(accepted(1, grid.clone()), accepted(2, grid.clone())), "takes: 1 against 2");
    assert_eq!(named(accepted(1, grid.clone()), refused(5, None)), "status: 0 against 5");
    assert_eq!(named(refused(6, Some(1)), refused(6, Some(2))), "index: 1 against 2");
    let mut other = grid.clone();
    other[65] = 0x3F80_0000;
    assert_eq!(
        named(accepted(1, grid.clone()), accepted(1, other)),
        "answer at row 2, column 1 (index 65): 0.0 (bits 00000000) against 1.0 (bits 3f800000)"
    );
    assert_eq!(draw::difference(&case, &accepted(1, grid.clone()), &accepted(1, grid)), None);
}

#[test]
fn the_plain_form_keeps_every_bit() {
    for search in Search::ALL {
        for index in 0..300 {
            let case = generate(search, Sizes::Stored, 2, index);
            let text = plain::write(&case, &answer(&case, Build::Unchanged, Reading::Document));
            let again = plain::read(&text).expect("it is in the form");
            assert_eq!(again.iter().map(|(case, answer)| plain::write(case, answer)).collect::<Vec<_>>(), [text]);
        }
    }
}

#[test]
fn a_line_out_of_form_is_named() {
    let case = generate(Search::TravelDistancesUpTo, Sizes::Stored, 2, 8);
    let text = plain::write(&case, &answer(&case, Build::Unchanged, Reading::Document));
    assert_eq!(plain::read(&text.replace("times", "time")).unwrap_err(), 4);
    assert_eq!(plain::read(&format!("# a comment\n{text}{text}more\n")).unwrap_err(), 12);
    assert_eq!(plain::read(&text.replace("limit", "limit 0")).unwrap_err(), 2);
}

#[test]
fn limits_stand_at_true_distances() {
    let at_a_distance = |index: &u64| {
        let case = generate(Search::DistancesUpTo, Sizes::Stored, 1, *index);
        let exact = Case { limit: f32::INFINITY, cell_size: 1.0, ..case.clone() };
        let answer = answer(&exact, Build::Unchanged, Reading::Document);
        let Answer::Accepted { grid, .. } = answer else { return false };
        case.limit > 1.0 && case.limit < 100.0 && grid.contains(&case.limit.to_bits())
    };
    let count = (0..400).filter(at_a_distance).count();
    assert!(count >= 20, "only {count} of 400");
}

#[test]
fn the_readings_of_nodata_differ_in_3_5_6_7_and_8() {
    let differ: Vec<u8> =
        Search::ALL.into_iter().filter(|&search| readings::smallest(search).is_some()).map(Search::number).collect();
    assert_eq!(differ, [3, 5, 6, 7, 8]);
}

#[test]
fn grids_of_the_full_size_are_answered() {
    for (rows, cols) in [(1024, 1024), (32_767, 32)] {
        let n = (rows * cols) as usize;
        let mut cells = vec![0; n];
        cells[n - 1] = 1;
        let targets = Some(Grid { rows, cols, cells });
        let case = Case { targets, cell_size: 1.0, limit: f32::INFINITY, ..Case::new(Search::DistancesUpTo) };
        let Answer::Accepted { takes, grid } = answer(&case, Build::Unchanged, Reading::Document) else {
            panic!("{rows} by {cols} is refused")
        };
        assert!(takes >= n as u64 && grid[n - 1] == 0 && grid[0] > (rows as f32).to_bits());
    }
    for (rows, cols) in [(1025, 1024), (32_768, 1), (-1, 1)] {
        let case = Case { targets: Some(Grid { rows, cols, cells: vec![] }), ..Case::new(Search::DistancesUpTo) };
        let refused = answer(&case, Build::Unchanged, Reading::Document);
        assert_eq!(refused, Answer::Refused { number: 1, index: None });
    }
}
