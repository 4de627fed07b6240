//! The element types of arrays.
use std::fmt::Debug;
use std::ops::{Add, AddAssign, Div, DivAssign, Mul, MulAssign, Sub, SubAssign};

use approx::AbsDiffEq;
use num::{Bounded, NumCast, Zero};

use crate::Nodata;

#[derive(Clone, Copy, Debug, PartialEq, Eq)]
pub enum ArrayDataType {
    Uint8,
    Float32,
}

impl ArrayDataType {
    pub fn default_nodata_value(self) -> f64 {
        match self {
            ArrayDataType::Uint8 => u8::NODATA.into(),
            ArrayDataType::Float32 => f64::NAN,
        }
    }
}

pub trait ArrayNum:
    Nodata
    + NumCast
    + Bounded
    + Zero
    + Debug
    + AbsDiffEq<Epsilon = Self>
    + Add<Output = Self>
    + Sub<Output = Self>
    + Mul<Output = Self>
    + Div<Output = Self>
    + AddAssign
    + SubAssign
    + MulAssign
    + DivAssign
    + 'static
{
    const TYPE: ArrayDataType;
}

impl ArrayNum for u8 {
    const TYPE: ArrayDataType = ArrayDataType::Uint8;
}

impl ArrayNum for f32 {
    const TYPE: ArrayDataType = ArrayDataType::Float32;
}
