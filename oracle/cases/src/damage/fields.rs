//! Damage to whole fields, their tags, their lengths and what they say.
use super::field::*;
use crate::random::Random;

const TAGS: [u8; 14] = [0, 1, 2, 3, 4, 5, 6, 7, 8, 0x10, 0x11, 0x12, 0x13, 0xFF];

const SIDES: [u16; 14] = [0, 1, 2, 3, 31, 32, 33, 256, 1023, 1024, 1025, 32_767, 32_768, 65_535];

/// Floats at the ends of what a search tells apart, as bits: zeros, ones, subnormals, infinities and NaNs of both signs.
const NUMBERS_BITS: [u32; 18] = [
    0x0000_0000,
    0x8000_0000,
    0x3F80_0000,
    0xBF80_0000,
    0x0000_0001,
    0x8000_0001,
    0x007F_FFFF,
    0x0080_0000,
    0x4B80_0000,
    0x7E7F_FFFF,
    0x7F7F_FFFF,
    0xFF7F_FFFF,
    0x7F80_0000,
    0xFF80_0000,
    0x7FC0_0000,
    0xFFC0_0000,
    0x7F80_0001,
    0xFFFF_FFFF,
];

pub fn repeat_field(random: &mut Random, fields: &mut Vec<Field>) {
    if let Some(field) = some(random, fields).cloned() {
        fields.insert(gap(random, fields), field);
    }
}

pub fn move_field(random: &mut Random, fields: &mut Vec<Field>) {
    let from = random.below(fields.len().max(1));
    if from < fields.len() {
        let field = fields.remove(from);
        fields.insert(gap(random, fields), field);
    }
}

pub fn leave_out_field(random: &mut Random, fields: &mut Vec<Field>) {
    let at = random.below(fields.len().max(1));
    if at < fields.len() {
        fields.remove(at);
    }
}

pub fn put_in_field(random: &mut Random, fields: &mut Vec<Field>) {
    let count = random.below(9);
    let field = Field::new(random.pick(&TAGS), some_bytes(random, count));
    fields.insert(gap(random, fields), field);
}

pub fn swap_tags(random: &mut Random, fields: &mut Vec<Field>) {
    let len = fields.len().max(1);
    let (a, b) = (random.below(len), random.below(len));
    if !fields.is_empty() {
        (fields[a].tag, fields[b].tag) = (fields[b].tag, fields[a].tag);
    }
}

pub fn change_tag(random: &mut Random, fields: &mut Vec<Field>) {
    let tag = random.pick(&TAGS);
    some(random, fields).into_iter().for_each(|field| field.tag = tag);
}

pub fn change_length(random: &mut Random, fields: &mut Vec<Field>) {
    let huge = random.pick(&LENGTHS) as u16;
    let by = random.pick(&[1, 2, 4, 256]);
    let kind = random.below(3);
    if let Some(field) = some(random, fields) {
        field.length = match kind {
            0 => huge,
            1 => field.length.wrapping_add(by),
            _ => field.length.wrapping_sub(by),
        };
    }
}

pub fn change_content_length(random: &mut Random, fields: &mut Vec<Field>) {
    let other = random.pick(&LENGTHS);
    let by = random.pick(&[1, 2, 4, 8]);
    let kind = random.below(3);
    let filler = random.pick(&[0, 1, 0x3F]);
    if let Some(field) = some(random, fields) {
        let length = match kind {
            0 => other,
            1 => field.content.len() + by,
            _ => field.content.len().saturating_sub(by),
        };
        field.content.resize(length, filler);
        *field = Field::new(field.tag, std::mem::take(&mut field.content));
    }
}

/// Writes into the field with this tag where there is one, as far as the content goes.
fn write_at(fields: &mut [Field], tag: u8, at: usize, bytes: &[u8]) {
    if let Some(field) = fields.iter_mut().find(|field| field.tag == tag) {
        field.content.iter_mut().skip(at).zip(bytes).for_each(|(old, new)| *old = *new);
    }
}

pub fn change_search(random: &mut Random, fields: &mut Vec<Field>) {
    write_at(fields, FLAGS, 0, &[random.pick(&[0, 1, 2, 3, 4, 5, 6, 7, 8, 9, 0x80, 0xFF])]);
}

pub fn change_flag(random: &mut Random, fields: &mut Vec<Field>) {
    write_at(fields, FLAGS, 1 + random.below(2), &[random.pick(&[0, 1, 2, 0x80, 0xFF])]);
}

pub fn change_side(random: &mut Random, fields: &mut Vec<Field>) {
    write_at(fields, SIZE, 2 * random.below(2), &random.pick(&SIDES).to_le_bytes());
}

pub fn swap_sides(_: &mut Random, fields: &mut Vec<Field>) {
    if let Some(field) = fields.iter_mut().find(|field| field.tag == SIZE && field.content.len() == 4) {
        field.content.rotate_left(2);
    }
}

/// Sides of which one is 0, and grids without cells.
pub fn empty_grids(random: &mut Random, fields: &mut Vec<Field>) {
    let sides = [0, random.pick(&SIDES)];
    let first = random.below(2);
    write_at(fields, SIZE, 0, &sides[first].to_le_bytes());
    write_at(fields, SIZE, 2, &sides[1 - first].to_le_bytes());
    for field in fields.iter_mut().filter(|field| field.tag >= FIRST_GRID) {
        *field = Field::new(field.tag, vec![]);
    }
}

pub fn change_number(random: &mut Random, fields: &mut Vec<Field>) {
    write_at(fields, NUMBERS, 4 * random.below(2), &random.pick(&NUMBERS_BITS).to_le_bytes());
}

pub fn draw_numbers(random: &mut Random, fields: &mut Vec<Field>) {
    write_at(fields, NUMBERS, 0, &some_bytes(random, 8));
}

/// Four bytes of a grid: one time, value or amount, or four targets or obstacles.
pub fn change_cell(random: &mut Random, fields: &mut Vec<Field>) {
    let bits = random.pick(&NUMBERS_BITS);
    let grids = fields.iter().filter(|field| field.tag >= FIRST_GRID).map(|field| (field.tag, field.content.len() / 4));
    let grids: Vec<_> = grids.filter(|&(_, words)| words > 0).collect();
    if !grids.is_empty() {
        let (tag, words) = random.pick(&grids);
        write_at(fields, tag, 4 * random.below(words), &bits.to_le_bytes());
    }
}

/// Half of the floats that come out are below 0.
pub fn draw_grid(random: &mut Random, fields: &mut Vec<Field>) {
    let mut grids: Vec<_> = fields.iter_mut().filter(|field| field.tag >= FIRST_GRID).collect();
    if let Some(field) = some(random, &mut grids) {
        field.content = some_bytes(random, field.content.len());
    }
}

/// Two grids change places under their tags, so that targets are read as obstacles, times as values.
pub fn swap_contents(random: &mut Random, fields: &mut Vec<Field>) {
    let mut grids: Vec<_> = fields.iter_mut().filter(|field| field.tag >= FIRST_GRID).collect();
    let at = random.below(grids.len().max(1));
    if let Some([one, other]) = grids.get_mut(at..at + 2) {
        std::mem::swap(&mut one.content, &mut other.content);
        std::mem::swap(&mut one.length, &mut other.length);
    }
}
