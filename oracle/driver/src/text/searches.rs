//! A case through the text's own functions.
use case::{Case, Diagonals, Grid, Search};

use super::pixel::NanIsNodata;
use super::text::raster::DenseRaster;
use super::text::raster::algo::distance::{self, BarrierDiagonals};
use super::text::{Array, ArrayNum, Columns, GeoReference, RasterSize, Result, Rows};
use crate::{Cells, Reading};

/// The answer grid of a case whose grids have their sizes' number of cells.
pub fn run(case: &Case, reading: Reading) -> Result<Vec<f32>> {
    match reading {
        Reading::Document => run_with::<NanIsNodata>(case),
        Reading::Repository => run_with::<f32>(case),
    }
}

fn run_with<Pixel: ArrayNum>(case: &Case) -> Result<Vec<f32>>
where
    f32: Into<Pixel>,
{
    Rasters::<Pixel>::of(case).search().map(|answer| answer.cells().to_vec())
}

/// A case with its grids as the text's rasters. They are made apart from the call, so that a call can be timed alone.
pub struct Rasters<'a, Pixel: ArrayNum> {
    case: &'a Case,
    targets: Option<DenseRaster<u8>>,
    obstacles: Option<DenseRaster<u8>>,
    times: Option<DenseRaster<Pixel>>,
    values: Option<DenseRaster<Pixel>>,
}

impl<Pixel: ArrayNum> Rasters<'_, Pixel>
where
    f32: Into<Pixel>,
{
    /// The rasters of a case whose grids have their sizes' number of cells.
    pub fn of(case: &Case) -> Rasters<'_, Pixel> {
        Rasters {
            case,
            targets: raster(&case.targets, case.cell_size, |&cell| cell),
            obstacles: raster(&case.obstacles, case.cell_size, |&cell| cell),
            times: raster(&case.times, case.cell_size, |&cell| cell.into()),
            values: raster(&case.values, case.cell_size, |&cell| cell.into()),
        }
    }

    /// The text's answer.
    pub fn search(&self) -> Result<Box<dyn Cells + '_>> {
        let (targets, obstacles) = (|| had(&self.targets), || had(&self.obstacles));
        let (times, values) = (|| had(&self.times), || had(&self.values));
        let limit = self.case.limit;
        match self.case.search {
            Search::DistancesUpTo if limit == f32::INFINITY => Ok(boxed(distance::distance(targets()))),
            Search::DistancesUpTo => Ok(boxed(distance::distances_up_to(targets(), limit))),
            Search::DistanceWithObstacles => {
                let diagonals = match self.case.diagonals {
                    Diagonals::Include => BarrierDiagonals::Include,
                    Diagonals::Exclude => BarrierDiagonals::Exclude,
                };
                distance::distance_with_obstacles(targets(), obstacles(), diagonals).map(boxed)
            }
            Search::TravelDistancesUpTo if limit == f32::INFINITY => {
                distance::travel_distance(targets(), times()).map(boxed)
            }
            Search::TravelDistancesUpTo => distance::travel_distances_up_to(targets(), times(), limit).map(boxed),
            Search::ValueAtClosestTarget => distance::value_at_closest_target(targets(), values()).map(boxed),
            Search::ValueAtClosestTravelTarget => {
                distance::value_at_closest_travel_target(targets(), times(), values()).map(boxed)
            }
            Search::ValueAtClosestLessThanTravelTarget => {
                distance::value_at_closest_less_than_travel_target(targets(), times(), limit, values()).map(boxed)
            }
            Search::SumWithinTravelDistance => {
                let adjacent = self.case.adjacent;
                distance::sum_within_travel_distance(targets(), times(), values(), limit, adjacent).map(boxed)
            }
            Search::SumTargetsWithinTravelDistance => {
                distance::sum_targets_within_travel_distance(values(), times(), limit).map(boxed)
            }
        }
    }
}

fn raster<T, Pixel: ArrayNum>(
    grid: &Option<Grid<T>>,
    cell_size: f32,
    pixel: impl Fn(&T) -> Pixel,
) -> Option<DenseRaster<Pixel>> {
    let grid = grid.as_ref()?;
    let size = RasterSize::with_rows_cols(Rows(grid.rows), Columns(grid.cols));
    let mut reference = GeoReference::without_spatial_reference(size, None);
    reference.set_square_cell_size_north_up(cell_size.into());
    let raster = DenseRaster::new(reference, grid.cells.iter().map(pixel).collect());
    Some(raster.expect("a grid has its size's number of cells"))
}

fn had<T>(raster: &Option<T>) -> &T {
    raster.as_ref().expect("a case has its search's grids")
}

/// A raster that the text answered with.
struct Answered<A>(A);

impl<A: Array<Pixel = f32>> Cells for Answered<A> {
    fn cells(&self) -> &[f32] {
        self.0.as_slice()
    }
}

fn boxed<'a>(answer: impl Array<Pixel = f32> + 'a) -> Box<dyn Cells + 'a> {
    Box::new(Answered(answer))
}
