//! Damaged files reach what they should, and a wrong reader of them is seen.
use std::collections::BTreeSet;

use case::{Search, gridfile};
use cases::compare::{Side, compare_damaged};
use cases::damage::damaged;
use cases::generate::{Sizes, generate};
use oracle::{Build, answer_file};

const ORACLE: Side = Side::Oracle(Build::Counted);

/// Every refusal that a file can come to; a file has one size, so that two grids of different sizes are not among them.
#[test]
fn every_status_comes_up() {
    for search in Search::ALL {
        let seen = compare_damaged(&[ORACLE, ORACLE], search, 1, 2_000).unwrap_or_else(|what| panic!("{what}")).all();
        let mut statuses = BTreeSet::from([0, 1, 3, 8]);
        statuses.extend(search.has_cell_size().then_some(4));
        statuses.extend(search.has_limit().then_some(5));
        statuses.extend(search.has_times().then_some(6));
        statuses.extend((search == Search::SumWithinTravelDistance).then_some(7));
        let missed: Vec<_> = statuses.iter().filter(|status| !seen.contains_key(status)).collect();
        assert!(missed.is_empty(), "search {} never gave {missed:?}", search.number());
        assert!(seen[&8] < 1_700, "search {}: {seen:?}", search.number());
    }
}

#[test]
fn no_damaged_file_is_the_sound_one() {
    let search = Search::TravelDistancesUpTo;
    for index in 0..2_000 {
        let sound = gridfile::write(&generate(search, Sizes::File, 1, index));
        assert_ne!(Some(damaged(search, 1, index).1), sound, "index {index}");
    }
}

/// A reader that lets up to eight bytes stand behind the last field.
fn lets_bytes_follow(input: &[u8]) -> Result<Vec<u8>, String> {
    let mut fronts = (0..=8).map(|left_out| &input[..input.len().saturating_sub(left_out)]);
    let front = fronts.find(|front| gridfile::read(front).is_ok()).unwrap_or(input);
    Ok(answer_file(front, Build::Counted))
}

#[test]
fn a_reader_that_lets_bytes_follow_is_seen() {
    let sides = [ORACLE, Side::Files(lets_bytes_follow)];
    let what = compare_damaged(&sides, Search::DistancesUpTo, 1, 1_000).err().expect("bytes may not follow");
    let least = what.lines().find_map(|line| line.strip_prefix("least")).expect("the least file is told");
    assert!(least.split_whitespace().count() < 60, "{what}");
}

#[test]
fn what_is_wrong_with_a_call_is_told_with_its_file() {
    let sides = [ORACLE, Side::Files(|_| Err("it writes beside its answer".into()))];
    let what = compare_damaged(&sides, Search::DistancesUpTo, 1, 1).err().expect("the call is wrong");
    assert!(what.contains("input") && what.contains("it writes beside its answer"), "{what}");
}
