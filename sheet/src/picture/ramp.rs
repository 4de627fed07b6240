//! The colours of the distances: from blue for the least to yellow for the greatest.
//!
//! Blue and yellow are told apart by nearly all colour-blind people, and the ramp grows lighter all the way, so that it
//! can be read, and printed, as greys. Its ends keep off black and white, which mark obstacles and unreached cells.
use crate::picture::canvas::Colour;

const ANCHORS: [Colour; 5] = [[28, 78, 160], [74, 112, 164], [126, 146, 150], [186, 178, 112], [242, 212, 64]];

/// The colour at this part of the ramp, from 0 to 1.
pub fn colour(part: f32) -> Colour {
    let at = part.clamp(0.0, 1.0) * (ANCHORS.len() - 1) as f32;
    let below = (at as usize).min(ANCHORS.len() - 2);
    let above_share = at - below as f32;
    std::array::from_fn(|channel| {
        let [low, high] = [below, below + 1].map(|anchor| f32::from(ANCHORS[anchor][channel]));
        (low + (high - low) * above_share).round() as u8
    })
}

/// How light a colour is to the eye, from 0 to 255 (the luma of ITU-R BT.709).
pub fn lightness([red, green, blue]: Colour) -> f32 {
    0.2126 * f32::from(red) + 0.7152 * f32::from(green) + 0.0722 * f32::from(blue)
}
