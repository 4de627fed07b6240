//! Flags of the exports: 0 says one thing, any other number the other.
use haul::Grid;
use haul::raw::{self, Lent};

/// The answer to an accepted call on four cells.
fn answered(call: impl FnOnce(Lent, &mut u64, &mut u32) -> u32) -> [f32; 4] {
    let mut answer = [-7.0; 4];
    let lent = Lent {
        answer: &mut answer,
        distances: &mut [0.0; 4],
        marks: &mut [0; 4],
        listed: &mut [0; 4],
        adjacent: &mut [0; 4],
        added: &mut [0; 4],
        queue: &mut [0; 5],
    };
    assert_eq!(call(lent, &mut 0, &mut 0), 0);
    answer
}

#[test]
fn diagonals() {
    let (targets, obstacles) = (Grid::new(2, 2, &[1, 0, 0, 0]), Grid::new(2, 2, &[0, 1, 1, 0]));
    let corner = |flag| {
        answered(|lent, takes, index| raw::distance_with_obstacles(targets, obstacles, 1.0, flag, lent, takes, index))
            [3]
    };
    assert_eq!(corner(0).to_bits(), 0x3FB5_04F3);
    for flag in [1, 2, 0x100, 0x8000_0000, u32::MAX] {
        assert_eq!(corner(flag), f32::INFINITY, "flag {flag}");
    }
}

#[test]
fn adjacent() {
    let mask = Grid::new(1, 4, &[1, 0, 0, 0]);
    let (times, values) = (Grid::new(1, 4, &[1.0, f32::NAN, 1.0, 1.0]), Grid::new(1, 4, &[7.0, 9.0, 11.0, 13.0]));
    let sum = |flag| {
        answered(|lent, takes, index| {
            raw::sum_within_travel_distance(mask, times, values, 3.0, flag, lent, takes, index)
        })[0]
    };
    assert_eq!(sum(0), 7.0);
    for flag in [1, 2, 0x100, 0x8000_0000, u32::MAX] {
        assert_eq!(sum(flag), 16.0, "flag {flag}");
    }
}
