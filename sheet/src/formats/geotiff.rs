//! GeoTIFF files of one band with north up: bytes, whole numbers and floats are read. `geotiff_sheet` writes them.
use std::io::Cursor;
use std::path::Path;

use tiff::TiffError;
use tiff::TiffUnsupportedError::UnsupportedSampleDepth;
use tiff::decoder::Decoder;
use tiff::tags::Tag;

use crate::formats::cells::{Cell, Marks};
use crate::formats::chunks::Packing;
use crate::formats::geokeys::GeoTags;
use crate::formats::place::{Place, Source, judge_size, not_square, square_edge};

/// GDAL's own description of a raster, in markup.
const GDAL_METADATA: Tag = Tag::Unknown(42_112);
/// Grey values with 0 as black: numbers, not colours.
const BLACK_IS_ZERO: u16 = 1;
const PALETTE: u16 = 3;
/// The bit of a directory that is a mask for another one.
const MASK_DIRECTORY: u32 = 4;

type File<'a> = Decoder<Cursor<&'a [u8]>>;

/// Whether bytes begin as a TIFF file does, small or big, of either byte order.
pub fn is_tiff(bytes: &[u8]) -> bool {
    [b"II*\0", b"MM\0*", b"II+\0", b"MM\0+"].iter().any(|start| bytes.starts_with(*start))
}

/// Whether a file of this name is written as a GeoTIFF.
pub fn is_tiff_name(path: &Path) -> bool {
    path.extension().is_some_and(|ending| ending.eq_ignore_ascii_case("tif") || ending.eq_ignore_ascii_case("tiff"))
}

/// Reads a grid from a file's bytes: where it lies, and its cells in row-major order.
pub fn read<T: Cell>(path: &Path, bytes: &[u8], unreached: Option<f32>) -> Result<(Place, Vec<T>), String> {
    let file = path.display().to_string();
    let raster = Raster::open(bytes, &file).map_err(|wrong| format!("{file} {wrong}"))?;
    let marks = Marks::new(raster.nodata.unwrap_or(f64::NAN), unreached);
    let numbers =
        raster.numbers(bytes).ok_or_else(|| format!("{file} is cut or damaged: its cells can't be unpacked"))?;
    let columns = raster.columns;
    let mut cells = Vec::with_capacity(numbers.len());
    for (number, at) in numbers.into_iter().zip(0..) {
        let cell = T::from_number(number, marks).map_err(|wrong| {
            let place = format!("at row {}, column {} of {file}", at / columns + 1, at % columns + 1);
            format!("{number} {wrong} {place}; `gdal_translate -ot {} {file} mended.tif` rounds it", T::GDAL_TYPE)
        })?;
        cells.push(cell);
    }
    Ok((raster.place, cells))
}

/// What a file says about its raster, all but the cells.
struct Raster {
    place: Place,
    columns: usize,
    nodata: Option<f64>,
    packing: Packing,
    offsets: Vec<u64>,
    lengths: Vec<u64>,
}

impl Raster {
    fn open(bytes: &[u8], file: &str) -> Result<Raster, String> {
        let mut tiff = Decoder::new(Cursor::new(bytes)).map_err(|error| cannot_open(error, file))?;
        let (columns, rows) = tiff.dimensions().map_err(|error| cannot_open(error, file))?;
        let [columns, rows] = [columns, rows].map(|side| i32::try_from(side).unwrap_or(i32::MAX));
        judge_size(rows, columns)?;
        refuse_what_is_no_plain_raster(&mut tiff, file)?;
        let packing = packing(&mut tiff, columns, rows, bytes.starts_with(b"MM"));
        if let Some((kind, mend)) = packing.cannot() {
            return Err(format!("is {kind}; `gdal_translate {mend} {file} plain.tif` makes a plain one"));
        }
        let tags = geo_tags(&mut tiff);
        let lie = tags.lie(file)?;
        let cell_size = square_edge(lie.width, lie.height).ok_or_else(|| not_square(lie.width, lie.height, file))?;
        let corner = Some((lie.west, lie.north - f64::from(rows) * lie.height));
        let nodata = nodata(&mut tiff)?;
        let (offsets, lengths) = chunk_places(&mut tiff, file)?;
        refuse_masks(tiff, file)?;
        let place = Place { rows, columns, cell_size, corner, source: Source::Tiff(tags) };
        Ok(Raster { columns: place.columns as usize, place, nodata, packing, offsets, lengths })
    }

    /// All samples, in row-major order; none where the file is cut.
    fn numbers(&self, bytes: &[u8]) -> Option<Vec<f64>> {
        let (columns, rows) = (self.columns, self.place.rows as usize);
        let (width, height) = self.packing.chunk;
        let across = columns.div_ceil(width);
        let mut numbers = vec![0.0; columns * rows];
        if self.offsets.len() < across * rows.div_ceil(height) {
            return None;
        }
        for chunk in 0..across * rows.div_ceil(height) {
            let (left, top) = (chunk % across * width, chunk / across * height);
            let start = usize::try_from(self.offsets[chunk]).ok()?;
            let end = start.checked_add(usize::try_from(*self.lengths.get(chunk)?).ok()?)?;
            // A tile has all of its rows, a strip those that are left.
            let inside = height.min(rows - top);
            let samples = self.packing.unpack(bytes.get(start..end)?, inside)?;
            for (line, row) in samples.chunks_exact(width).zip(top..) {
                let kept = width.min(columns - left);
                numbers[row * columns + left..][..kept].copy_from_slice(&line[..kept]);
            }
        }
        Some(numbers)
    }
}

/// Why a file can't be opened, in words that follow its name.
fn cannot_open(error: TiffError, file: &str) -> String {
    match error {
        TiffError::UnsupportedError(UnsupportedSampleDepth(bands)) => several_bands(bands.into(), file),
        error => format!(
            "is no TIFF file that can be read here ({}); `gdal_translate -co COMPRESS=DEFLATE {file} plain.tif` makes \
             a plain one of it, if GDAL can read it",
            error.to_string().replace('`', "'")
        ),
    }
}

fn several_bands(bands: u64, file: &str) -> String {
    format!("has {bands} bands, and a grid has one; `gdal_translate -b 1 {file} band.tif` takes the first")
}

/// The first number of a tag, or what the format says where it is not there.
fn number(tiff: &mut File, tag: Tag, otherwise: u64) -> u64 {
    let found = tiff.find_tag_unsigned_vec(tag).ok().flatten();
    found.and_then(|numbers: Vec<u64>| numbers.first().copied()).unwrap_or(otherwise)
}

/// Colours, several bands, and numbers that are to be scaled first are no grid of numbers.
fn refuse_what_is_no_plain_raster(tiff: &mut File, file: &str) -> Result<(), String> {
    let bands = number(tiff, Tag::SamplesPerPixel, 1);
    if bands != 1 {
        return Err(several_bands(bands, file));
    }
    let colours = number(tiff, Tag::PhotometricInterpretation, 1);
    if colours != u64::from(BLACK_IS_ZERO) && colours != u64::from(PALETTE) {
        return Err(format!(
            "holds colours of kind {colours} and no numbers; `gdal_translate -of AAIGrid {file} numbers.asc` gives its numbers"
        ));
    }
    let description = tiff.get_tag_ascii_string(GDAL_METADATA).unwrap_or_default();
    if ["scale", "offset"].iter().any(|role| description.contains(&format!("role=\"{role}\""))) {
        return Err(format!(
            "has a scale or an offset for its numbers; `gdal_translate -unscale -ot Float32 {file} unscaled.tif` applies them"
        ));
    }
    Ok(())
}

/// A mask beside the raster says where it has data, which its numbers alone do not.
fn refuse_masks(mut tiff: File, file: &str) -> Result<(), String> {
    while tiff.more_images() && tiff.next_image().is_ok() {
        let kind = tiff.find_tag_unsigned(Tag::NewSubfileType).ok().flatten().unwrap_or(0u32);
        if kind & MASK_DIRECTORY != 0 {
            return Err(format!(
                "has a mask that says where it has data; `gdalwarp -dstnodata -9999 -ot Float32 {file} unmasked.tif` \
                 turns it into nodata"
            ));
        }
    }
    Ok(())
}

fn packing(tiff: &mut File, columns: i32, rows: i32, big_endian: bool) -> Packing {
    let short = |number: u64| u16::try_from(number).unwrap_or(0);
    let side = |number: u64| usize::try_from(number).unwrap_or(usize::MAX);
    let [columns, rows] = [columns, rows].map(|side| usize::try_from(side).unwrap_or(0));
    let chunk = match number(tiff, Tag::TileWidth, 0) {
        0 => (columns.max(1), side(number(tiff, Tag::RowsPerStrip, u64::MAX)).clamp(1, rows.max(1))),
        width => (side(width), side(number(tiff, Tag::TileLength, 0))),
    };
    Packing {
        compression: short(number(tiff, Tag::Compression, 1)),
        predictor: short(number(tiff, Tag::Predictor, 1)),
        bits: short(number(tiff, Tag::BitsPerSample, 1)),
        format: short(number(tiff, Tag::SampleFormat, 1)),
        big_endian,
        chunk,
    }
}

fn geo_tags(tiff: &mut File) -> GeoTags {
    GeoTags {
        pixel_scale: tiff.get_tag_f64_vec(Tag::ModelPixelScaleTag).unwrap_or_default(),
        tie_points: tiff.get_tag_f64_vec(Tag::ModelTiepointTag).unwrap_or_default(),
        transformation: tiff.get_tag_f64_vec(Tag::ModelTransformationTag).unwrap_or_default(),
        directory: tiff.get_tag_u16_vec(Tag::GeoKeyDirectoryTag).unwrap_or_default(),
        doubles: tiff.get_tag_f64_vec(Tag::GeoDoubleParamsTag).unwrap_or_default(),
        ascii: tiff.get_tag_ascii_string(Tag::GeoAsciiParamsTag).unwrap_or_default(),
    }
}

/// The number that stands for nodata, where the file names one.
fn nodata(tiff: &mut File) -> Result<Option<f64>, String> {
    let Ok(text) = tiff.get_tag_ascii_string(Tag::GdalNodata) else { return Ok(None) };
    let text = text.trim_matches(['\0', ' ']);
    text.parse().map(Some).map_err(|_| format!("has the nodata value `{text}`, which is no number"))
}

/// Where the chunks stand in the file, and how long each is.
fn chunk_places(tiff: &mut File, file: &str) -> Result<(Vec<u64>, Vec<u64>), String> {
    let tiled = number(tiff, Tag::TileWidth, 0) != 0;
    let tags = if tiled { [Tag::TileOffsets, Tag::TileByteCounts] } else { [Tag::StripOffsets, Tag::StripByteCounts] };
    let [offsets, lengths] = tags.map(|tag| tiff.get_tag_u64_vec(tag).unwrap_or_default());
    if lengths.contains(&0) {
        return Err(format!(
            "leaves out parts in which nothing is; `gdal_translate -co SPARSE_OK=FALSE {file} whole.tif` fills them"
        ));
    }
    Ok((offsets, lengths))
}
