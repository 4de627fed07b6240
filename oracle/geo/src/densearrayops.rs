//! The operators that the text asks of an array. The searches use one of them, `*=` by a number, whose body the text
//! lacks: each cell with data is multiplied, a nodata cell stays.
use std::ops::{Add, AddAssign, Div, DivAssign, Mul, MulAssign, Sub, SubAssign};

use crate::arrayops::{AddAssignInclusive, AddInclusive, SubAssignInclusive, SubInclusive};
use crate::{ArrayMetadata, ArrayNum, DenseArray};

fn both<T: ArrayNum>(a: T, b: T, op: impl Fn(T, T) -> T) -> T {
    if a.is_nodata() || b.is_nodata() { T::NODATA } else { op(a, b) }
}

macro_rules! operator {
    ($Op:ident, $op:ident, $OpAssign:ident, $op_assign:ident) => {
        impl<T: ArrayNum, M: ArrayMetadata> $Op<T> for DenseArray<T, M> {
            type Output = Self;

            fn $op(self, number: T) -> Self {
                self.unary_mut(|a| both(a, number, T::$op))
            }
        }

        impl<T: ArrayNum, M: ArrayMetadata> $Op for DenseArray<T, M> {
            type Output = Self;

            fn $op(self, other: Self) -> Self {
                self.binary_mut(&other, |a, b| both(a, b, T::$op))
            }
        }

        impl<T: ArrayNum, M: ArrayMetadata> $OpAssign<T> for DenseArray<T, M> {
            fn $op_assign(&mut self, number: T) {
                self.unary_inplace(|a| *a = both(*a, number, T::$op));
            }
        }

        impl<T: ArrayNum, M: ArrayMetadata> $OpAssign for DenseArray<T, M> {
            fn $op_assign(&mut self, other: Self) {
                self.binary_inplace(&other, |a, b| *a = both(*a, b, T::$op));
            }
        }

        impl<T: ArrayNum, M: ArrayMetadata> $OpAssign<&DenseArray<T, M>> for DenseArray<T, M> {
            fn $op_assign(&mut self, other: &Self) {
                self.binary_inplace(other, |a, b| *a = both(*a, b, T::$op));
            }
        }
    };
}

operator!(Add, add, AddAssign, add_assign);
operator!(Sub, sub, SubAssign, sub_assign);
operator!(Mul, mul, MulAssign, mul_assign);
operator!(Div, div, DivAssign, div_assign);

impl<T: ArrayNum, M: ArrayMetadata> AddInclusive for DenseArray<T, M> {
    type Output = Self;
}

impl<T: ArrayNum, M: ArrayMetadata> SubInclusive for DenseArray<T, M> {
    type Output = Self;
}

impl<T: ArrayNum, M: ArrayMetadata> AddAssignInclusive for DenseArray<T, M> {}

impl<T: ArrayNum, M: ArrayMetadata> SubAssignInclusive for DenseArray<T, M> {}

impl<T: ArrayNum, M: ArrayMetadata> AddAssignInclusive<&DenseArray<T, M>> for DenseArray<T, M> {}

impl<T: ArrayNum, M: ArrayMetadata> SubAssignInclusive<&DenseArray<T, M>> for DenseArray<T, M> {}
