//! The Rust of docs/src for rasters of u8 and f32.
//!
//! The text is generic, and its code is made where it is called with types: in this crate. Two packages compile this
//! file. `called` has cargo's release profile, with 16 codegen units; `called-one-unit` and the text under it have one.

use oracle::{Cells, Reading};

// The driver's half, for the text that this package is built over. Of it `Rasters` is used, of f32 only.
#[allow(dead_code)]
#[path = "../../driver/src/text"]
mod driver {
    use geo as text;

    pub mod pixel;
    pub mod searches;
}

/// A case with its grids as the text's rasters.
pub type Rasters<'a> = driver::searches::Rasters<'a, f32>;

/// A call of the text. It is not generic, so that all of it is compiled here.
#[inline(never)]
pub fn search<'a>(rasters: &'a Rasters) -> Box<dyn Cells + 'a> {
    rasters.search().expect("the text refuses no case that document 01 accepts")
}
