//! The text's aligned vectors, here plain ones.

pub type AlignedVec<T> = Vec<T>;

pub fn new_aligned_vec<T>() -> AlignedVec<T> {
    Vec::new()
}

pub fn aligned_vec_with_capacity<T>(capacity: usize) -> AlignedVec<T> {
    Vec::with_capacity(capacity)
}

pub fn aligned_vec_from_iter<T>(values: impl Iterator<Item = T>) -> AlignedVec<T> {
    values.collect()
}

pub fn aligned_vec_filled_with<T: Clone>(value: T, len: usize) -> AlignedVec<T> {
    vec![value; len]
}
