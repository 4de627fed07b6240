//! Damage that knows nothing of fields, save where two files are spliced.
use case::{Search, gridfile};

use super::field::{bytes_of, fields_of, gap, some, some_bytes};
use crate::generate::{Sizes, generate};
use crate::random::Random;

pub fn flip_bit(random: &mut Random, file: &mut Vec<u8>) {
    let bit = 1 << random.below(8);
    some(random, file).into_iter().for_each(|byte| *byte ^= bit);
}

pub fn change_byte(random: &mut Random, file: &mut Vec<u8>) {
    let value = random.bits() as u8;
    some(random, file).into_iter().for_each(|byte| *byte = value);
}

pub fn swap_bytes(random: &mut Random, file: &mut Vec<u8>) {
    let len = file.len().max(1);
    let (a, b) = (random.below(len), random.below(len));
    if !file.is_empty() {
        file.swap(a, b);
    }
}

pub fn put_in_bytes(random: &mut Random, file: &mut Vec<u8>) {
    let at = gap(random, file);
    let count = 1 + random.below(4);
    file.splice(at..at, some_bytes(random, count));
}

pub fn leave_out_bytes(random: &mut Random, file: &mut Vec<u8>) {
    let from = gap(random, file);
    let to = file.len().min(from + 1 + random.below(4));
    file.drain(from..to);
}

pub fn cut(random: &mut Random, file: &mut Vec<u8>) {
    file.truncate(gap(random, file));
}

pub fn cut_near_its_end(random: &mut Random, file: &mut Vec<u8>) {
    file.truncate(file.len().saturating_sub(1 + random.below(8)));
}

pub fn add_bytes(random: &mut Random, file: &mut Vec<u8>) {
    let count = 1 + random.below(8);
    file.extend(some_bytes(random, count));
}

/// Enough for any reader's array, and now and then for a pipe too.
pub fn add_thousands(random: &mut Random, file: &mut Vec<u8>) {
    let count = random.pick(&[5_000, 12_000, 12_400, 70_000]);
    let byte = random.bits() as u8;
    file.extend(std::iter::repeat_n(byte, count));
}

pub fn add_its_end(random: &mut Random, file: &mut Vec<u8>) {
    file.extend_from_within(gap(random, file)..);
}

/// This file up to one of its fields or bytes, another's from one of its own on.
pub fn splice(random: &mut Random, file: &mut Vec<u8>) {
    let another = generate(random.pick(&Search::ALL), Sizes::Stored, random.bits(), 4 * random.below(1000) as u64);
    let another = gridfile::write(&another).unwrap_or_default();
    if random.chance(50) {
        let (mut ours, theirs) = (fields_of(file), fields_of(&another));
        ours.truncate(gap(random, &ours));
        ours.extend_from_slice(&theirs[gap(random, &theirs)..]);
        *file = bytes_of(&ours);
    } else {
        file.truncate(gap(random, file));
        file.extend_from_slice(&another[gap(random, &another)..]);
    }
}
