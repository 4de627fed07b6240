//! Grid files with something wrong in them. Each kind of damage is a small function, on the file's bytes or on its
//! fields; a file may still be a sound one afterwards, which says something else.
// All kinds of damage have one of two types, so that they can stand in a table.
#[allow(clippy::ptr_arg)]
mod bytes;
mod drawn;
mod field;
#[allow(clippy::ptr_arg)]
mod fields;

use case::{Search, gridfile};

use crate::generate::{Sizes, generate};
use crate::random::Random;
use field::{Field, bytes_of, fields_of};

/// What a kind of damage works on.
enum On {
    Bytes(fn(&mut Random, &mut Vec<u8>)),
    Fields(fn(&mut Random, &mut Vec<Field>)),
}

use On::*;

/// The kinds of damage, by the names under which they are counted.
const KINDS: [(&str, On); 32] = [
    ("bit flipped", Bytes(bytes::flip_bit)),
    ("byte changed", Bytes(bytes::change_byte)),
    ("bytes swapped", Bytes(bytes::swap_bytes)),
    ("bytes put in", Bytes(bytes::put_in_bytes)),
    ("bytes left out", Bytes(bytes::leave_out_bytes)),
    ("cut", Bytes(bytes::cut)),
    ("cut near its end", Bytes(bytes::cut_near_its_end)),
    ("bytes behind it", Bytes(bytes::add_bytes)),
    ("thousands of bytes behind it", Bytes(bytes::add_thousands)),
    ("its end again", Bytes(bytes::add_its_end)),
    ("spliced with another", Bytes(bytes::splice)),
    ("any bytes", Bytes(drawn::any_bytes)),
    ("any bytes behind a head", Bytes(drawn::any_bytes_behind_a_head)),
    ("any fields behind a head", Bytes(drawn::any_fields_behind_a_head)),
    ("field repeated", Fields(fields::repeat_field)),
    ("field moved", Fields(fields::move_field)),
    ("field left out", Fields(fields::leave_out_field)),
    ("field put in", Fields(fields::put_in_field)),
    ("tags swapped", Fields(fields::swap_tags)),
    ("tag changed", Fields(fields::change_tag)),
    ("length that is not the content's", Fields(fields::change_length)),
    ("content of another length", Fields(fields::change_content_length)),
    ("search changed", Fields(fields::change_search)),
    ("flag changed", Fields(fields::change_flag)),
    ("rows or columns changed", Fields(fields::change_side)),
    ("rows and columns swapped", Fields(fields::swap_sides)),
    ("no cells, sides changed", Fields(fields::empty_grids)),
    ("cell size or limit changed", Fields(fields::change_number)),
    ("cell size and limit drawn", Fields(fields::draw_numbers)),
    ("cell changed", Fields(fields::change_cell)),
    ("grid drawn", Fields(fields::draw_grid)),
    ("contents of grids swapped", Fields(fields::swap_contents)),
];

/// How a file is counted that more than one kind was done to.
pub const SEVERAL: &str = "several of these";

/// The damaged file with this index of this seed's list, and how it was damaged. It differs from the sound file that it
/// was made of; where no grid file holds the case, it was made of one that is drawn.
pub fn damaged(search: Search, seed: u64, index: u64) -> (&'static str, Vec<u8>) {
    let random = &mut Random::new(!seed ^ u64::from(search.number()) << 56, index);
    let sound = gridfile::write(&generate(search, Sizes::File, seed, index)).unwrap_or_else(|| {
        let mut file = vec![];
        drawn::any_fields_behind_a_head(random, &mut file);
        file
    });
    let mut file = sound.clone();
    let mut name = damage(random, &mut file);
    while file == sound {
        name = damage(random, &mut file);
    }
    if random.chance(25) {
        let mut again = file.clone();
        for _ in 0..1 + random.below(3) {
            damage(random, &mut again);
        }
        if again != sound {
            (name, file) = (SEVERAL, again);
        }
    }
    (name, file)
}

/// Does one kind of damage to a file, or now and then nothing, and names it.
pub fn damage(random: &mut Random, file: &mut Vec<u8>) -> &'static str {
    let (name, on) = &KINDS[random.below(KINDS.len())];
    match on {
        Bytes(change) => change(random, file),
        Fields(change) => {
            let mut fields = fields_of(file);
            change(random, &mut fields);
            *file = bytes_of(&fields);
        }
    }
    name
}
