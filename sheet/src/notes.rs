//! What a planner should know before trusting a sheet: what was taken as what, and what looks like a slip.
use std::path::Path;

use search::{Role, Search};

use crate::formats::place::{Source, Unit};
use crate::formats::{asc, geotiff};
use crate::grids::{Case, Cells, Layer};
use crate::numbers::{shortest, thousands};
use crate::options::{Asked, Limit};

/// The notes on a case, before it is run.
pub fn on(case: &Case, asked: &Asked) -> Vec<String> {
    let mut notes: Vec<String> = case.layers.iter().filter_map(|layer| mostly_nodata(case, layer)).collect();
    notes.extend(nothing_to_start_from(case));
    notes.extend(mostly_landings(case));
    notes.extend(case.layers.iter().filter_map(rounded_cells));
    notes.extend(limit_in_cells(case, asked));
    notes.extend(limit_below_0(case));
    notes.extend(degrees(case));
    notes.extend(asked.out.as_ref().and_then(|out| coordinate_system_left_out(case, out)));
    notes
}

/// Most of a grid is nodata where that bars the way: often nothing was burnt there, and 0 was meant.
fn mostly_nodata(case: &Case, layer: &Layer) -> Option<String> {
    let (nodata, all) = (layer.cells.count_nodata(), layer.cells.len());
    let meaning = nodata_meaning(case.search, layer.role)?;
    if 2 * nodata <= all {
        return None;
    }
    let instead = match layer.role {
        Role::Times => String::new(),
        role => format!("; --nodata-as-0 {} takes it as 0", role.name()),
    };
    let [nodata, all] = [nodata, all].map(|count| thousands(count as u64));
    Some(format!("{nodata} of {all} cells of {} are nodata: {meaning}{instead}", layer.path.display()))
}

/// What nodata in a grid does, where it does more than say that nothing is there.
fn nodata_meaning(search: Search, role: Role) -> Option<&'static str> {
    match (search, role) {
        (Search::DistancesUpTo | Search::TravelDistancesUpTo, Role::Targets) => {
            Some("closed ground, which is never entered and is nodata in the sheet")
        }
        (_, Role::Targets) if search.starts_at_nodata() => Some("each of them counts as a landing"),
        (_, Role::Obstacles) => Some("each of them counts as a ditch"),
        (Search::SumTargetsWithinTravelDistance, Role::Times) => {
            Some("only a budget of more than a quarter of the largest float leads across them")
        }
        (_, Role::Times) => Some("they can't be entered"),
        (_, Role::Values) if search.starts_at_nodata() => Some("closed ground, which is never entered"),
        _ => None,
    }
}

/// The grid from which a search starts, and how many cells start.
fn starts(case: &Case) -> Option<(&Layer, usize)> {
    let starting = |layer: &&Layer| matches!(layer.role, Role::Targets | Role::Mask | Role::Amounts);
    let layer = case.layers.iter().find(starting)?;
    let starts = match &layer.cells {
        Cells::Bytes(cells) => cells.iter().filter(|byte| case.search.starts_at(**byte)).count(),
        Cells::Floats(cells) => cells.iter().filter(|amount| !amount.is_nan() && **amount != 0.0).count(),
    };
    Some((layer, starts))
}

/// Most of the landings' grid is landings: often a number for nothing was not said to be nodata.
fn mostly_landings(case: &Case) -> Option<String> {
    let (layer, starts) = starts(case)?;
    let all = layer.cells.len();
    // A few cells are a trial, and searches 7 and 8 may well start from everywhere.
    if layer.role != Role::Targets || all < 20 || 2 * starts <= all {
        return None;
    }
    let [starts, all] = [starts, all].map(|count| thousands(count as u64));
    Some(format!("{starts} of {all} cells of {} are landings", layer.path.display()))
}

/// Without a landing, a chosen cell or an amount a sheet says nothing.
fn nothing_to_start_from(case: &Case) -> Option<String> {
    let (layer, starts) = starts(case)?;
    let (what, then) = match layer.role {
        Role::Targets => ("landing", "nothing is reached"),
        Role::Mask => ("chosen cell", "every cell of the sheet is 0"),
        _ => ("amount", "every cell of the sheet is 0"),
    };
    if starts > 0 { None } else { Some(format!("{} has no {what}, so {then}", layer.path.display())) }
}

/// Width and height that differ by rounding are one cell size.
fn rounded_cells(layer: &Layer) -> Option<String> {
    let (width, height) = match &layer.place.source {
        Source::Ascii { lines, .. } => asc::width_and_height(lines).map(|(dx, dy)| (dx.to_owned(), dy.to_owned()))?,
        Source::Tiff(tags) => tags.width_and_height().map(|(width, height)| (width.to_string(), height.to_string()))?,
    };
    Some(format!(
        "{} has cells that are {width} wide and {height} high, which is taken as {} both ways",
        layer.path.display(),
        layer.place.cell_size
    ))
}

/// A limit in metres as the library was given it, which is rounded.
fn limit_in_cells(case: &Case, asked: &Asked) -> Option<String> {
    let Limit::Metres(metres) = asked.limit else { return None };
    Some(format!(
        "a limit of {metres} m is {} cells of {} m, as a float; what is not nearer holds {} m",
        shortest(case.limit),
        case.first().place.cell_size,
        shortest(case.limit * case.cell_size())
    ))
}

/// A limit below 0 is accepted, and no cell is nearer than it.
fn limit_below_0(case: &Case) -> Option<String> {
    if !case.search.has_limit() || case.search.has_budget() || !(case.limit <= 0.0) {
        return None;
    }
    let others = match case.search {
        Search::ValueAtClosestLessThanTravelTarget => "every other cell holds 0",
        _ => "every other cell holds the limit",
    };
    Some(format!("nothing is nearer than a limit of {}: only landings are reached, and {others}", shortest(case.limit)))
}

/// Distances over cells that are counted in degrees are no lengths.
fn degrees(case: &Case) -> Option<String> {
    if !case.search.has_cell_size() || case.first().place.unit() != Unit::Degrees {
        return None;
    }
    Some(format!(
        "{} is in degrees, and so are the distances; `gdalwarp -r near -t_srs EPSG:CODE` brings it into metres",
        case.first().path.display()
    ))
}

/// A coordinate system that the sheet's format can't carry, or one beside the sheet that is not its own.
fn coordinate_system_left_out(case: &Case, out: &Path) -> Option<String> {
    let first = case.first();
    let beside = out.with_extension("prj");
    match (&first.place.source, geotiff::is_tiff_name(out)) {
        (Source::Tiff(_), false) => first.place.coordinate_system().map(|system| {
            format!("{} is in {system}, which an .asc can't say; a sheet named .tif does", first.path.display())
        }),
        (Source::Ascii { projection: Some(projection), .. }, true) => Some(format!(
            "the sheet does not say the coordinate system of {0}; `gdal_translate -a_srs {0} {1} placed.tif` puts it in",
            projection.path.display(),
            out.display()
        )),
        (Source::Ascii { projection: None, .. }, false) if beside.exists() => {
            Some(format!("{} is of an older sheet: these grids say no coordinate system", beside.display()))
        }
        _ => None,
    }
}
