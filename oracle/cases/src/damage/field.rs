//! A file's fields as damage sees them.
use crate::random::Random;

pub const FLAGS: u8 = 0x01;
pub const SIZE: u8 = 0x02;
pub const NUMBERS: u8 = 0x03;
pub const FIRST_GRID: u8 = 0x04;

/// Lengths of content at the ends of what a file may have, in bytes.
pub const LENGTHS: [usize; 16] = [0, 1, 3, 4, 8, 255, 256, 1023, 1024, 1025, 4092, 4096, 4097, 4100, 32_768, 65_535];

/// A field as it is written: its length need not be its content's.
#[derive(Clone)]
pub struct Field {
    pub tag: u8,
    pub length: u16,
    pub content: Vec<u8>,
}

/// The fields that the bytes hold, the last one cut where they are cut. One or two bytes behind them are lost.
pub fn fields_of(mut bytes: &[u8]) -> Vec<Field> {
    let mut fields = vec![];
    while let [tag, low, high, rest @ ..] = bytes {
        let length = u16::from_le_bytes([*low, *high]);
        let (content, rest) = rest.split_at(rest.len().min(length.into()));
        fields.push(Field { tag: *tag, length, content: content.to_vec() });
        bytes = rest;
    }
    fields
}

pub fn bytes_of(fields: &[Field]) -> Vec<u8> {
    let bytes = |field: &Field| [&[field.tag], &field.length.to_le_bytes()[..], &field.content].concat();
    fields.iter().flat_map(bytes).collect()
}

impl Field {
    /// A field whose length is its content's, as far as a length can say it.
    pub fn new(tag: u8, content: Vec<u8>) -> Field {
        let length = content.len().try_into().unwrap_or(u16::MAX);
        Field { tag, length, content }
    }
}

pub fn some<'a, T>(random: &mut Random, items: &'a mut [T]) -> Option<&'a mut T> {
    let at = random.below(items.len().max(1));
    items.get_mut(at)
}

/// A place in front of an item or behind the last.
pub fn gap<T>(random: &mut Random, items: &[T]) -> usize {
    random.below(items.len() + 1)
}

pub fn some_bytes(random: &mut Random, count: usize) -> Vec<u8> {
    (0..count).map(|_| random.bits() as u8).collect()
}
