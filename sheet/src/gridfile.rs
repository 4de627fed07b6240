//! Document 01's grid files and answer files: their fields, and both in words.
pub mod case;
pub mod fields;
