//! A sheet as a GeoTIFF.
use std::io::Cursor;

use tiff::TiffError;
use tiff::encoder::TiffEncoder;
use tiff::encoder::colortype::Gray32Float;
use tiff::encoder::compression::Deflate;
use tiff::tags::Tag;

use crate::formats::geokeys::GeoTags;
use crate::formats::place::{Place, Source};
use crate::formats::stand_ins::StandIns;
use crate::numbers::shortest;

/// A sheet as a GeoTIFF of floats, packed by DEFLATE, that lies where `place` does.
pub fn write(place: &Place, cells: &[f32], stand_ins: &StandIns) -> Result<Vec<u8>, String> {
    let [columns, rows] = [place.columns, place.rows].map(|side| u32::try_from(side).unwrap_or(0));
    if columns == 0 || rows == 0 {
        return Err("a GeoTIFF has at least one cell; a grid without cells can be written as .asc".to_owned());
    }
    let numbers: Vec<f32> = cells.iter().map(|cell| stand_ins.number_for(*cell)).collect();
    let mut bytes = Cursor::new(Vec::new());
    encode(&mut bytes, (columns, rows), &numbers, &tags_of(place), &shortest(stand_ins.nodata))
        .map_err(|error| format!("the GeoTIFF can't be made: {error}"))?;
    Ok(bytes.into_inner())
}

/// The first grid's tags, or, where it came from another format, tags that say where it lies.
fn tags_of(place: &Place) -> GeoTags {
    match (&place.source, place.corner) {
        (Source::Tiff(tags), _) => tags.clone(),
        (_, corner) => {
            let (west, south) = corner.unwrap_or((0.0, 0.0));
            GeoTags::plain(place.cell_size, west, south + f64::from(place.rows) * place.cell_size)
        }
    }
}

fn encode(
    bytes: &mut Cursor<Vec<u8>>,
    (columns, rows): (u32, u32),
    numbers: &[f32],
    tags: &GeoTags,
    nodata: &str,
) -> Result<(), TiffError> {
    let mut tiff = TiffEncoder::new(bytes)?;
    let mut image = tiff.new_image_with_compression::<Gray32Float, Deflate>(columns, rows, Deflate::default())?;
    let directory = image.encoder();
    let doubles = [
        (Tag::ModelPixelScaleTag, &tags.pixel_scale),
        (Tag::ModelTiepointTag, &tags.tie_points),
        (Tag::ModelTransformationTag, &tags.transformation),
        (Tag::GeoDoubleParamsTag, &tags.doubles),
    ];
    for (tag, numbers) in doubles.into_iter().filter(|(_, numbers)| !numbers.is_empty()) {
        directory.write_tag(tag, numbers.as_slice())?;
    }
    if !tags.directory.is_empty() {
        directory.write_tag(Tag::GeoKeyDirectoryTag, tags.directory.as_slice())?;
    }
    if !tags.ascii.is_empty() {
        directory.write_tag(Tag::GeoAsciiParamsTag, tags.ascii.as_str())?;
    }
    directory.write_tag(Tag::GdalNodata, nodata)?;
    image.write_data(numbers)
}
