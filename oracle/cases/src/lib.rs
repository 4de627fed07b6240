//! Seeded cases for the eight searches, two programs compared on them, and the stored answers.

pub mod compare;
pub mod damage;
pub mod generate;
pub mod options;
pub mod program;
pub mod random;
pub mod readings;
pub mod stored;
pub mod theorems;

mod nearest;
mod values;
