//! The text's iterators over an array, by their names. No search walks one.
use std::marker::PhantomData;

use crate::array::RasterWindow;
use crate::{Array, ArrayMetadata, ArrayNum, DenseArray};

/// Each cell, `None` where it is nodata.
pub struct DenserRasterIterator<'a, T: ArrayNum, M: ArrayMetadata> {
    cells: std::slice::Iter<'a, T>,
    array: PhantomData<&'a DenseArray<T, M>>,
}

impl<'a, T: ArrayNum, M: ArrayMetadata> DenserRasterIterator<'a, T, M> {
    pub fn new(array: &'a DenseArray<T, M>) -> Self {
        Self { cells: array.iter(), array: PhantomData }
    }
}

impl<T: ArrayNum, M: ArrayMetadata> Iterator for DenserRasterIterator<'_, T, M> {
    type Item = Option<T>;

    fn next(&mut self) -> Option<Self::Item> {
        self.cells.next().map(|&cell| (!cell.is_nodata()).then_some(cell))
    }
}

/// Each cell with data.
pub struct DenserRasterValueIterator<'a, T: ArrayNum, M: ArrayMetadata>(DenserRasterIterator<'a, T, M>);

impl<'a, T: ArrayNum, M: ArrayMetadata> DenserRasterValueIterator<'a, T, M> {
    pub fn new(array: &'a DenseArray<T, M>) -> Self {
        Self(DenserRasterIterator::new(array))
    }
}

impl<T: ArrayNum, M: ArrayMetadata> Iterator for DenserRasterValueIterator<'_, T, M> {
    type Item = T;

    fn next(&mut self) -> Option<T> {
        self.0.by_ref().flatten().next()
    }
}

/// A window's cells: not carried over, as no search has a window.
pub struct DenserRasterWindowIterator<'a, T>(PhantomData<&'a T>);

impl<'a, T: ArrayNum> DenserRasterWindowIterator<'a, T> {
    pub fn new<M: ArrayMetadata>(_: &'a DenseArray<T, M>, _: RasterWindow) -> Self {
        unimplemented!("windows are no part of the searches")
    }
}

impl<T> Iterator for DenserRasterWindowIterator<'_, T> {
    type Item = T;

    fn next(&mut self) -> Option<T> {
        None
    }
}

pub struct DenserRasterWindowIteratorMut<'a, T>(PhantomData<&'a mut T>);

impl<'a, T: ArrayNum> DenserRasterWindowIteratorMut<'a, T> {
    pub fn new<M: ArrayMetadata>(_: &'a mut DenseArray<T, M>, _: RasterWindow) -> Self {
        unimplemented!("windows are no part of the searches")
    }
}

impl<'a, T> Iterator for DenserRasterWindowIteratorMut<'a, T> {
    type Item = &'a mut T;

    fn next(&mut self) -> Option<&'a mut T> {
        None
    }
}
