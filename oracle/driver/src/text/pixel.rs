//! An f32 of which any NaN is nodata: a NaN equals itself, so that the text's comparison with its nodata value finds it.
use std::ops::{Add, AddAssign, Div, DivAssign, Mul, MulAssign, Sub, SubAssign};

use approx::AbsDiffEq;
use num::{Bounded, NumCast, ToPrimitive, Zero};

use super::text::{ArrayDataType, ArrayNum, Nodata};

#[derive(Clone, Copy, Debug)]
pub struct NanIsNodata(f32);

impl From<f32> for NanIsNodata {
    fn from(value: f32) -> Self {
        NanIsNodata(value)
    }
}

impl PartialEq for NanIsNodata {
    fn eq(&self, other: &Self) -> bool {
        self.0 == other.0 || (self.0.is_nan() && other.0.is_nan())
    }
}

impl PartialOrd for NanIsNodata {
    fn partial_cmp(&self, other: &Self) -> Option<std::cmp::Ordering> {
        self.0.partial_cmp(&other.0)
    }
}

impl Nodata for NanIsNodata {
    const NODATA: Self = NanIsNodata(f32::NAN);

    fn has_nan() -> bool {
        true
    }

    fn is_nan(self) -> bool {
        self.0.is_nan()
    }
}

impl ArrayNum for NanIsNodata {
    const TYPE: ArrayDataType = ArrayDataType::Float32;
}

impl ToPrimitive for NanIsNodata {
    fn to_i64(&self) -> Option<i64> {
        self.0.to_i64()
    }

    fn to_u64(&self) -> Option<u64> {
        self.0.to_u64()
    }

    fn to_f32(&self) -> Option<f32> {
        Some(self.0)
    }

    fn to_f64(&self) -> Option<f64> {
        self.0.to_f64()
    }
}

impl NumCast for NanIsNodata {
    fn from<T: ToPrimitive>(value: T) -> Option<Self> {
        value.to_f32().map(NanIsNodata)
    }
}

impl Bounded for NanIsNodata {
    fn min_value() -> Self {
        NanIsNodata(f32::MIN)
    }

    fn max_value() -> Self {
        NanIsNodata(f32::MAX)
    }
}

impl Zero for NanIsNodata {
    fn zero() -> Self {
        NanIsNodata(0.0)
    }

    fn is_zero(&self) -> bool {
        self.0 == 0.0
    }
}

impl AbsDiffEq for NanIsNodata {
    type Epsilon = Self;

    fn default_epsilon() -> Self {
        NanIsNodata(f32::EPSILON)
    }

    fn abs_diff_eq(&self, other: &Self, epsilon: Self) -> bool {
        self.0.abs_diff_eq(&other.0, epsilon.0)
    }
}

macro_rules! operator {
    ($Op:ident, $op:ident, $OpAssign:ident, $op_assign:ident) => {
        impl $Op for NanIsNodata {
            type Output = Self;

            fn $op(self, other: Self) -> Self {
                NanIsNodata(self.0.$op(other.0))
            }
        }

        impl $OpAssign for NanIsNodata {
            fn $op_assign(&mut self, other: Self) {
                self.0.$op_assign(other.0);
            }
        }
    };
}

operator!(Add, add, AddAssign, add_assign);
operator!(Sub, sub, SubAssign, sub_assign);
operator!(Mul, mul, MulAssign, mul_assign);
operator!(Div, div, DivAssign, div_assign);
