//! A case through the C exports, in slices that are full of dirt before the call.
use case::{Answer, Case, Diagonals, ONE_NAN, Search, Search::*, draw};
use haul::raw;

use crate::view;

/// What the lent slices hold before a call: nothing may depend on it.
const DIRT: u8 = 0xA5;
const DIRTY_WORD: u32 = u32::from_le_bytes([DIRT; 4]);

/// What takes and index hold before a call, and which no call writes.
const NOT_WRITTEN: (u64, u32) = (u64::MAX, u32::MAX);

/// The slices that a call is lent beside its inputs. Work buffers that the search does not have are empty.
#[derive(Clone, Debug)]
pub struct Lent {
    pub answer: Vec<f32>,
    pub distances: Vec<f32>,
    pub marks: Vec<u8>,
    pub listed: Vec<u32>,
    pub adjacent: Vec<u32>,
    pub added: Vec<u8>,
    pub queue: Vec<u32>,
}

impl Lent {
    /// Slices of the lengths that the search on n cells asks for, full of dirt.
    pub fn new(search: Search, n: usize) -> Lent {
        let float = f32::from_bits(DIRTY_WORD);
        let if_had = |has: bool| if has { n } else { 0 };
        Lent {
            answer: vec![float; n],
            distances: vec![float; if_had(search.number() >= 4)],
            marks: vec![DIRT; n],
            listed: vec![DIRTY_WORD; if_had(search == SumWithinTravelDistance)],
            adjacent: vec![DIRTY_WORD; if_had(search == SumWithinTravelDistance)],
            added: vec![DIRT; if_had(search == SumTargetsWithinTravelDistance)],
            queue: vec![DIRTY_WORD; n + 1],
        }
    }

    pub fn as_raw(&mut self) -> raw::Lent<'_> {
        let Lent { answer, distances, marks, listed, adjacent, added, queue } = self;
        raw::Lent { answer, distances, marks, listed, adjacent, added, queue }
    }

    /// Every bit of the answer, then of the work buffers.
    fn bits(&self) -> (Vec<u32>, Vec<u32>) {
        let floats = |floats: &[f32]| floats.iter().map(|float| float.to_bits()).collect::<Vec<_>>();
        let bytes = |bytes: &[u8]| bytes.iter().map(|&byte| byte.into()).collect();
        let Lent { answer, distances, marks, listed, adjacent, added, queue } = self;
        let buffers = [floats(distances), bytes(marks), listed.clone(), adjacent.clone(), bytes(added), queue.clone()];
        (floats(answer), buffers.concat())
    }
}

/// The answer file to a grid file, through the export `haul_answer`. The output stands between two stretches of dirt.
/// Whatever the call changes besides the answer's own bytes is told.
pub fn answer_file(input: &[u8]) -> Result<Vec<u8>, String> {
    const BESIDE: usize = 64;
    let lent = input.to_vec();
    let mut output = [DIRT; BESIDE + raw::ANSWER_MAX + BESIDE];
    let length = raw::answer(&lent, &mut output[BESIDE..BESIDE + raw::ANSWER_MAX]) as usize;
    if length > raw::ANSWER_MAX {
        return Err(format!("haul_answer tells a length of {length}"));
    }
    let (before, rest) = output.split_at(BESIDE);
    let (answer, behind) = rest.split_at(length);
    if before.iter().chain(behind).any(|&byte| byte != DIRT) {
        return Err("haul_answer writes beside its answer".into());
    }
    if lent != input {
        return Err("haul_answer changes its input".into());
    }
    Ok(answer.to_vec())
}

/// The answer to a case, with slices of the right lengths.
pub fn answer(case: &Case) -> Answer {
    let (rows, cols) = case.size();
    let n = i64::from(rows) * i64::from(cols);
    let within = (0..=raw::CELLS_MAX as i64).contains(&n);
    answer_in(case, &mut Lent::new(case.search, if within { n as usize } else { 0 }))
}

/// The answer to a case, in these slices. What the call leaves in them is held to document 01: after acceptance and
/// after refusal 7 every work buffer is all zero, after refusal 7 the answer is the one NaN throughout, and any other
/// refusal changes nothing. Takes are written on acceptance only, the index with refusals 6 and 7 only.
pub fn answer_in(case: &Case, lent: &mut Lent) -> Answer {
    let before = lent.bits();
    let (mut takes, mut index) = NOT_WRITTEN;
    let number = call(case, lent.as_raw(), &mut takes, &mut index);
    let holds = |fact: bool, promise: &str| assert!(fact, "{promise}; status {number}, {}", draw::case(case));
    let (grid, buffers) = lent.bits();
    if matches!(number, 0 | 7) {
        holds(buffers.iter().all(|&bits| bits == 0), "every work buffer is all zero");
    } else {
        holds((&grid, &buffers) == (&before.0, &before.1), "a refused call changes no slice");
    }
    if number == 7 {
        holds(grid.iter().all(|&bits| bits == ONE_NAN), "refusal 7 leaves the one NaN in each cell");
    }
    holds((takes == NOT_WRITTEN.0) == (number != 0), "takes are written on acceptance only");
    holds((index == NOT_WRITTEN.1) != matches!(number, 6 | 7), "the index is written by refusals 6 and 7 only");
    if number == 0 {
        Answer::Accepted { takes, grid }
    } else {
        let number = number.try_into().expect("refusals are 1 to 7");
        Answer::Refused { number, index: Some(index).filter(|&index| index != NOT_WRITTEN.1) }
    }
}

/// The export of the case's search, called with these slices: gives the status, 0 or the refusal's number.
pub fn call(case: &Case, lent: raw::Lent, takes: &mut u64, index: &mut u32) -> u32 {
    let (targets, obstacles) = (|| view(&case.targets), || view(&case.obstacles));
    let (times, values) = (|| view(&case.times), || view(&case.values));
    let limit = case.limit;
    match case.search {
        DistancesUpTo => raw::distances_up_to(targets(), case.cell_size, limit, lent, takes, index),
        DistanceWithObstacles => {
            let exclude = (case.diagonals == Diagonals::Exclude).into();
            raw::distance_with_obstacles(targets(), obstacles(), case.cell_size, exclude, lent, takes, index)
        }
        TravelDistancesUpTo => raw::travel_distances_up_to(targets(), times(), limit, lent, takes, index),
        ValueAtClosestTarget => raw::value_at_closest_target(targets(), values(), lent, takes, index),
        ValueAtClosestTravelTarget => {
            raw::value_at_closest_travel_target(targets(), times(), values(), lent, takes, index)
        }
        ValueAtClosestLessThanTravelTarget => {
            raw::value_at_closest_less_than_travel_target(targets(), times(), values(), limit, lent, takes, index)
        }
        SumWithinTravelDistance => {
            let adjacent = case.adjacent.into();
            raw::sum_within_travel_distance(targets(), times(), values(), limit, adjacent, lent, takes, index)
        }
        SumTargetsWithinTravelDistance => {
            raw::sum_targets_within_travel_distance(times(), values(), limit, lent, takes, index)
        }
    }
}
