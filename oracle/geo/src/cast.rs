//! A number at another type, where there is one and it fits.
use num::NumCast;

pub fn option<T: NumCast>(value: Option<impl NumCast>) -> Option<T> {
    value.and_then(NumCast::from)
}
