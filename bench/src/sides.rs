//! One call of a side, and what it answered.
use case::{Answer, Case, bits_with_one_nan};
use haul::Sheet;
use library::exports::{self, Lent};
use library::safe;
use oracle::{Build, Cells, Reading};

/// What is compared: the takes, and a hash of the answer in which each NaN is the one NaN.
#[derive(Clone, Copy, Debug, PartialEq, Eq)]
pub struct Outcome {
    pub takes: u64,
    pub hash: u64,
}

/// What the counting build of the Rust answers.
pub fn expected(case: &Case) -> Outcome {
    match oracle::answer(case, Build::Counted, Reading::Repository) {
        Answer::Accepted { takes, grid } => Outcome { takes, hash: hash(grid) },
        refused => panic!("a grid of the benchmark is refused: {refused:?}"),
    }
}

/// The two builds of the Rust that are measured. Neither knows its takes.
#[derive(Clone, Copy, Debug, PartialEq, Eq)]
pub enum Units {
    /// As cargo builds it.
    Sixteen,
    One,
}

/// A grid's rasters for either build.
pub struct Rusts<'a> {
    sixteen: called::Rasters<'a>,
    one: called_one_unit::Rasters<'a>,
}

impl Rusts<'_> {
    /// The rasters, made apart from the calls.
    pub fn of(case: &Case) -> Rusts<'_> {
        Rusts { sixteen: called::Rasters::of(case), one: called_one_unit::Rasters::of(case) }
    }

    /// The Rust. Its rasters are there; all that it allocates itself is a part of the call.
    #[inline(never)]
    pub fn rust_call(&self, units: Units) -> Box<dyn Cells + '_> {
        match units {
            Units::Sixteen => called::search(&self.sixteen),
            Units::One => called_one_unit::search(&self.one),
        }
    }
}

/// Ours with all slices lent. Gives the takes.
#[inline(never)]
pub fn lent_call(case: &Case, lent: &mut Lent) -> u64 {
    let (mut takes, mut index) = (0, 0);
    let status = exports::call(case, lent.as_raw(), &mut takes, &mut index);
    assert_eq!(status, 0, "a grid of the benchmark is refused");
    takes
}

/// Ours by the crate's function, which allocates the answer and the work buffers.
pub fn allocating_call(case: &Case) -> Sheet {
    safe::sheet(case).expect("no grid of the benchmark is refused")
}

/// The hash of an answer.
pub fn hash_of(answer: &[f32]) -> u64 {
    hash(answer.iter().map(|&cell| bits_with_one_nan(cell)))
}

/// FNV-1a, a cell at a time.
fn hash(cells: impl IntoIterator<Item = u32>) -> u64 {
    cells.into_iter().fold(0xCBF2_9CE4_8422_2325, |hash, bits| (hash ^ u64::from(bits)).wrapping_mul(0x0100_0000_01B3))
}

#[cfg(test)]
mod tests {
    use super::*;

    #[test]
    fn one_bit_in_one_cell_is_another_hash() {
        let answer = [0.0, 1.5, f32::INFINITY, f32::NAN];
        let other_nan = f32::from_bits(0xFFC0_0001);
        assert_eq!(hash_of(&answer), hash_of(&[0.0, 1.5, f32::INFINITY, other_nan]));
        assert_ne!(hash_of(&answer), hash_of(&[-0.0, 1.5, f32::INFINITY, f32::NAN]));
        assert_ne!(hash_of(&answer), hash_of(&[1.5, 0.0, f32::INFINITY, f32::NAN]));
        assert_ne!(hash_of(&answer), hash_of(&answer[..3]));
    }
}
