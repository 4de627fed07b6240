//! A file's numbers as the cells that the searches take: bytes for landings, chosen cells and ditches, floats for the rest.
use search::BYTE_NODATA;

use crate::numbers::read_float;

/// What stands for nodata in a file, and what stands for infinity.
#[derive(Clone, Copy, Debug)]
pub struct Marks {
    nodata: f64,
    /// The number that `--unreached` names: infinity in a grid of floats.
    unreached: Option<f32>,
}

/// What is wrong with a cell, in words that follow its number.
pub type Wrong = &'static str;

const NO_NUMBER: Wrong = "is no number";
const NO_FLOAT: Wrong = "is no number that a float holds";
const NO_WHOLE: Wrong = "is neither a whole number nor the nodata value";
const NOT_EXACT: Wrong = "is no number that a float holds exactly";

impl Marks {
    pub fn new(nodata: f64, unreached: Option<f32>) -> Marks {
        Marks { nodata, unreached }
    }

    /// Whether a number stands for nodata. It need only be the same as a float, since programs write nodata with more
    /// or fewer digits; some write one that no float holds.
    fn is_nodata(self, number: f64) -> bool {
        let [float, nodata] = [number, self.nodata].map(|number| number as f32);
        number == self.nodata || (float == nodata && float.is_finite()) || (number.is_nan() && self.nodata.is_nan())
    }

    fn with_infinity(self, number: f32) -> f32 {
        if Some(number) == self.unreached { f32::INFINITY } else { number }
    }
}

/// A kind of cell, made from text or from a number.
pub trait Cell: Sized {
    /// GDAL's type whose numbers all are such cells.
    const GDAL_TYPE: &str;

    fn from_text(text: &str, marks: Marks) -> Result<Self, Wrong>;
    fn from_number(number: f64, marks: Marks) -> Result<Self, Wrong>;
}

/// Any nonzero whole number is a landing, a chosen cell or a ditch; those that are no byte with data become 1, as the
/// searches ask only whether it is 0.
impl Cell for u8 {
    const GDAL_TYPE: &str = "Int32";

    fn from_text(text: &str, marks: Marks) -> Result<u8, Wrong> {
        let number: f64 = text.parse().map_err(|_| NO_NUMBER)?;
        if number.is_nan() && !marks.is_nodata(number) {
            return Err(NO_WHOLE);
        }
        u8::from_number(number, marks)
    }

    fn from_number(number: f64, marks: Marks) -> Result<u8, Wrong> {
        if number.is_nan() || marks.is_nodata(number) {
            return Ok(BYTE_NODATA);
        }
        if number.fract() != 0.0 || number.is_infinite() {
            return Err(NO_WHOLE);
        }
        // The cast keeps every number from 0 to 254, and what it changes is then seen to differ.
        let byte = number as u8;
        Ok(if f64::from(byte) == number && byte != BYTE_NODATA { byte } else { 1 })
    }
}

impl Cell for f32 {
    const GDAL_TYPE: &str = "Float32";

    fn from_text(text: &str, marks: Marks) -> Result<f32, Wrong> {
        let number = read_float(text);
        // Most cells are finite floats that are not near the nodata value; only the others are read again as doubles.
        let plain = number.is_some_and(|number| number.is_finite() && number != marks.nodata as f32);
        if !plain && text.parse().is_ok_and(|number| marks.is_nodata(number)) {
            return Ok(f32::NAN);
        }
        match number {
            None => Err(NO_FLOAT),
            Some(number) if number.is_nan() => Err("is neither a number nor the nodata value"),
            Some(number) => Ok(marks.with_infinity(number)),
        }
    }

    fn from_number(number: f64, marks: Marks) -> Result<f32, Wrong> {
        if number.is_nan() || marks.is_nodata(number) {
            return Ok(f32::NAN);
        }
        let float = number as f32;
        if f64::from(float) == number { Ok(marks.with_infinity(float)) } else { Err(NOT_EXACT) }
    }
}
