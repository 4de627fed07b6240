//! Classes: whole numbers that stand for something, such as the number of a landing, with a colour each.
//!
//! The first seven colours are those of Okabe and Ito, which colour-blind people tell apart; the other five were sought
//! so that all twelve stay apart in each kind of colour blindness. They keep off black, white and the pale grey of ground
//! that was not asked about.
use crate::picture::canvas::Colour;

pub const COLOURS: [Colour; 12] = [
    [0, 114, 178],
    [230, 159, 0],
    [0, 158, 115],
    [240, 228, 66],
    [204, 121, 167],
    [213, 94, 0],
    [86, 180, 233],
    [128, 0, 224],
    [64, 64, 32],
    [160, 224, 128],
    [96, 32, 96],
    [0, 64, 160],
];

/// The different numbers in ascending order, unless there are more than there are colours.
pub fn different(numbers: impl Iterator<Item = f32>) -> Option<Vec<f32>> {
    let mut found: Vec<f32> = Vec::new();
    for number in numbers {
        // A 0 and a -0 are one class.
        if let Err(place) = found.binary_search_by(|other| (other + 0.0).total_cmp(&(number + 0.0))) {
            found.insert(place, number);
        }
        if found.len() > COLOURS.len() {
            return None;
        }
    }
    Some(found)
}

/// The colour of one of these classes.
pub fn colour(classes: &[f32], number: f32) -> Colour {
    let place = classes.iter().position(|class| *class == number);
    COLOURS[place.unwrap_or(0)]
}
