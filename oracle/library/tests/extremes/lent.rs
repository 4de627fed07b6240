//! Slices that are lent with a stretch on either side that no call may touch.
use case::{Case, ONE_NAN, draw};
use haul::raw;
use library::exports::call;

use crate::model::{Lengths, refusal};

const BESIDE: usize = 16;
const NOT_WRITTEN: (u64, u32) = (u64::MAX, u32::MAX);

/// What a slice is made of, by its bits.
trait Item: Copy {
    const DIRT: Self;

    fn bits(self) -> u32;
}

impl Item for u8 {
    const DIRT: u8 = 0xA5;

    fn bits(self) -> u32 {
        self.into()
    }
}

impl Item for u32 {
    const DIRT: u32 = 0xA5A5_A5A5;

    fn bits(self) -> u32 {
        self
    }
}

impl Item for f32 {
    const DIRT: f32 = f32::from_bits(u32::DIRT);

    fn bits(self) -> u32 {
        self.to_bits()
    }
}

struct Slice<T>(Vec<T>);

impl<T: Item> Slice<T> {
    fn new(length: usize) -> Slice<T> {
        Slice(vec![T::DIRT; BESIDE + length + BESIDE])
    }

    fn lent(&mut self) -> &mut [T] {
        let end = self.0.len() - BESIDE;
        &mut self.0[BESIDE..end]
    }

    /// Every bit of the slice, where what is beside it is as it was.
    fn bits(&mut self) -> Vec<u32> {
        let end = self.0.len() - BESIDE;
        let beside = self.0[..BESIDE].iter().chain(&self.0[end..]);
        assert!(beside.into_iter().all(|item| item.bits() == T::DIRT.bits()), "a call writes beside a slice");
        self.lent().iter().map(|item| item.bits()).collect()
    }

    fn is_dirt(&mut self) -> bool {
        self.bits().iter().all(|&bits| bits == T::DIRT.bits())
    }

    fn holds(&mut self, what: u32) -> bool {
        self.bits().iter().all(|&bits| bits == what)
    }
}

/// Every bit of the input grids.
fn inputs(case: &Case) -> Vec<u32> {
    let bytes = [&case.targets, &case.obstacles].into_iter().flatten().flat_map(|grid| &grid.cells);
    let floats = [&case.times, &case.values].into_iter().flatten().flat_map(|grid| &grid.cells);
    bytes.map(|cell| cell.bits()).chain(floats.map(|cell| cell.bits())).collect()
}

/// Calls the search with slices of these lengths, holds the status to the model and the slices to the status, and gives
/// the status.
pub fn judged(case: &Case, lengths: &Lengths) -> u32 {
    let [answer, distances, marks, listed, adjacent, added, queue] = *lengths;
    let mut answer = Slice::<f32>::new(answer);
    let mut distances = Slice::<f32>::new(distances);
    let mut marks = Slice::<u8>::new(marks);
    let (mut listed, mut adjacent) = (Slice::<u32>::new(listed), Slice::<u32>::new(adjacent));
    let mut added = Slice::<u8>::new(added);
    let mut queue = Slice::<u32>::new(queue);
    let before = inputs(case);
    let (mut takes, mut index) = NOT_WRITTEN;
    let lent = raw::Lent {
        answer: answer.lent(),
        distances: distances.lent(),
        marks: marks.lent(),
        listed: listed.lent(),
        adjacent: adjacent.lent(),
        added: added.lent(),
        queue: queue.lent(),
    };
    let status = call(case, lent, &mut takes, &mut index);

    let told = || format!("status {status}, slices of {lengths:?}, {}", draw::case(case));
    let (number, place) = refusal(case, lengths).unwrap_or((0, None));
    assert_eq!(status, number, "{}", told());
    assert_eq!(index, place.unwrap_or(NOT_WRITTEN.1), "{}", told());
    assert_eq!(takes == NOT_WRITTEN.0, status != 0, "{}", told());
    assert_eq!(inputs(case), before, "{}", told());
    if matches!(status, 0 | 7) {
        assert!(status == 0 || answer.holds(ONE_NAN), "{}", told());
        let floats_and_marks = distances.holds(0) && marks.holds(0) && added.holds(0);
        let words = listed.holds(0) && adjacent.holds(0) && queue.holds(0);
        assert!(floats_and_marks && words, "{}", told());
    } else {
        let floats_and_marks = answer.is_dirt() && distances.is_dirt() && marks.is_dirt() && added.is_dirt();
        assert!(floats_and_marks && listed.is_dirt() && adjacent.is_dirt() && queue.is_dirt(), "{}", told());
    }
    status
}
