//! The sheet as a file, in the format that its name says, and its coordinate system beside it.
use std::path::Path;

use crate::formats::place::{Place, Projection, Source};
use crate::formats::stand_ins::StandIns;
use crate::formats::{asc, geotiff, geotiff_sheet};
use crate::output::outlets::Outlet;
use crate::output::{self, Written};

/// The files that a sheet is: the sheet itself, and for an .asc the .prj that the first grid has beside it.
pub fn of(path: &Path, place: &Place, cells: &[f32], stand_ins: &StandIns) -> Result<Vec<Written>, String> {
    if geotiff::is_tiff_name(path) {
        return Ok(vec![Written { path: path.to_owned(), bytes: geotiff_sheet::write(place, cells, stand_ins)? }]);
    }
    let mut files = vec![Written { path: path.to_owned(), bytes: asc::write(place, cells, stand_ins).into_bytes() }];
    if let Source::Ascii { projection: Some(projection), .. } = &place.source
        && goes_beside(path, projection)?
    {
        files.push(Written { path: path.with_extension("prj"), bytes: projection.text.clone() });
    }
    Ok(files)
}

/// Whether a .prj goes beside the sheet: a pipe has nothing beside it, and the first grid's own is not written over.
fn goes_beside(path: &Path, projection: &Projection) -> Result<bool, String> {
    let beside = path.with_extension("prj");
    let find = |path: &Path| Outlet::find(path).map_err(|error| output::cannot(path, error));
    Ok(matches!(find(path)?, Outlet::File { .. }) && !find(&beside)?.is_input(&projection.path))
}
