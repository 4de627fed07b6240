//! The port beside the oracle: the same generated cases, every bit.
use case::Search;
use cases::compare::{Seen, Side, compare};
use cases::generate::Sizes;
use library::answer;
use oracle::Build;

fn compared(search: Search, sizes: Sizes, count: u64) -> Seen {
    let sides = [Side::Oracle(Build::Unchanged), Side::Library(answer)];
    compare(&sides, search, sizes, 11, count).unwrap_or_else(|what| panic!("{what}"))
}

#[test]
fn the_port_agrees_with_the_oracle() {
    for search in Search::ALL {
        let seen = compared(search, Sizes::File, 20_000).statuses;
        assert!(seen[&0] > 7_000, "search {}: {seen:?}", search.number());
        let refusals = [
            (1, true),
            (2, search != Search::DistancesUpTo),
            (3, true),
            (4, search.has_cell_size()),
            (5, search.has_limit()),
            (6, search.has_times()),
            (7, search == Search::SumWithinTravelDistance),
        ];
        for (number, given) in refusals {
            assert_eq!(seen.contains_key(&number), given, "search {}, refusal {number}", search.number());
        }
    }
}

#[test]
fn the_port_agrees_with_the_oracle_on_grids_of_10_000_cells() {
    for search in Search::ALL {
        let seen = compared(search, Sizes::Large, 100);
        assert!(seen.calls > 50, "search {}", search.number());
    }
}
