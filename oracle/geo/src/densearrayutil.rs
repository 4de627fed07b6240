//! A foreign nodata value to and from the text's own: no search uses either.
use crate::Nodata;

pub fn init_nodata<T: Nodata>(cells: &mut [T], nodata: Option<T>) {
    if let Some(nodata) = nodata {
        cells.iter_mut().for_each(|cell| cell.init_nodata(nodata));
    }
}

pub fn restore_nodata<T: Nodata>(cells: &mut [T], nodata: Option<T>) {
    if let Some(nodata) = nodata {
        cells.iter_mut().for_each(|cell| cell.restore_nodata(nodata));
    }
}
