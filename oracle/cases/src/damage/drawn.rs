//! Files that are made of nothing.
use super::field::*;
use crate::random::Random;

pub fn any_bytes(random: &mut Random, file: &mut Vec<u8>) {
    let most = random.pick(&[4, 40, 400, 4_000]);
    let count = random.below(most);
    *file = some_bytes(random, count);
}

/// Fields 01, 02 and 03 of some search with sides of a few cells.
fn head(random: &mut Random) -> Vec<Field> {
    let search = 1 + random.below(8) as u8;
    let flags = vec![search, u8::from(search == 2 && random.chance(50)), u8::from(search == 7 && random.chance(50))];
    let sides = vec![random.below(5) as u8, 0, random.below(5) as u8, 0];
    let cell_size = if search <= 2 { 1.0_f32 } else { 0.0 };
    let limit = if matches!(search, 2 | 4 | 5) { 0.0 } else { random.below(20) as f32 };
    let numbers = [cell_size.to_le_bytes(), limit.to_le_bytes()].concat();
    vec![Field::new(FLAGS, flags), Field::new(SIZE, sides), Field::new(NUMBERS, numbers)]
}

pub fn any_bytes_behind_a_head(random: &mut Random, file: &mut Vec<u8>) {
    *file = bytes_of(&head(random));
    let count = random.below(100);
    file.extend(some_bytes(random, count));
}

/// Grid fields of any number and length, each length mostly the one that its size asks for.
pub fn any_fields_behind_a_head(random: &mut Random, file: &mut Vec<u8>) {
    let mut fields = head(random);
    let cells = usize::from(fields[1].content[0]) * usize::from(fields[1].content[2]);
    for tag in FIRST_GRID..FIRST_GRID + 4 {
        if random.chance(60) {
            let length = if tag < 0x06 { cells } else { 4 * cells };
            let length = if random.chance(90) { length } else { random.pick(&LENGTHS) };
            fields.push(Field::new(tag, some_bytes(random, length)));
        }
    }
    *file = bytes_of(&fields);
}
