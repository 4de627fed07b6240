//! The strips and tiles of a TIFF file, unpacked. Debian's tiff 0.7.3 misplaces the cells of a tiled file whose sides are
//! multiples of the tile's, without a word, so only its tags are used, and this file does the rest.
use std::io::Read;

use flate2::read::ZlibDecoder;
use weezl::BitOrder;

/// How the chunks of a file are packed and what their samples are.
#[derive(Clone, Debug)]
pub struct Packing {
    pub compression: u16,
    pub predictor: u16,
    pub bits: u16,
    pub format: u16,
    pub big_endian: bool,
    /// Columns and rows of a chunk. Tiles have all of them, the last strip those that are left.
    pub chunk: (usize, usize),
}

/// A chunk with more cells than this is none: the file is damaged.
const CHUNK_MOST: usize = 1 << 26;

const STORED: u16 = 1;
const LZW: u16 = 5;
const DEFLATE: u16 = 8;
const OLD_DEFLATE: u16 = 32_946;
const PACK_BITS: u16 = 32_773;

const NO_PREDICTOR: u16 = 1;
const HORIZONTAL: u16 = 2;
const FLOATING_POINT: u16 = 3;

const UNSIGNED: u16 = 1;
const SIGNED: u16 = 2;
const FLOAT: u16 = 3;

impl Packing {
    /// What can't be unpacked here, in words that follow "is", and the options of `gdal_translate` that mend it.
    pub fn cannot(&self) -> Option<(String, &'static str)> {
        const REPACKED: &str = "-co COMPRESS=DEFLATE";
        let cells = self.chunk.0.saturating_mul(self.chunk.1);
        let packed = [STORED, LZW, DEFLATE, OLD_DEFLATE, PACK_BITS].contains(&self.compression);
        let predicted = match self.predictor {
            NO_PREDICTOR | HORIZONTAL => true,
            FLOATING_POINT => self.format == FLOAT,
            _ => false,
        };
        if !(1..=CHUNK_MOST).contains(&cells) {
            Some((format!("in parts of {} by {} cells", self.chunk.1, self.chunk.0), REPACKED))
        } else if !packed {
            Some((format!("compressed by method {}", self.compression), REPACKED))
        } else if !self.has_samples() {
            let wider = match (self.format, self.bits) {
                (UNSIGNED, 1..=7) => "-co NBITS=8",
                (UNSIGNED, 9..=15) => "-co NBITS=16",
                (UNSIGNED, 17..=31) => "-co NBITS=32",
                _ => "-ot Float32",
            };
            Some((format!("of samples of {} bits and format {}", self.bits, self.format), wider))
        } else if !predicted {
            Some((format!("packed with predictor {}", self.predictor), REPACKED))
        } else {
            None
        }
    }

    /// Whether the samples are numbers of whole bytes.
    fn has_samples(&self) -> bool {
        match self.format {
            UNSIGNED | SIGNED => [8, 16, 32, 64].contains(&self.bits),
            FLOAT => [32, 64].contains(&self.bits),
            _ => false,
        }
    }

    fn sample_bytes(&self) -> usize {
        usize::from(self.bits / 8)
    }

    /// The samples of a chunk with so many rows.
    pub fn unpack(&self, packed: &[u8], rows: usize) -> Option<Vec<f64>> {
        let row_bytes = self.chunk.0.checked_mul(self.sample_bytes())?;
        let mut bytes = self.decompress(packed, row_bytes.checked_mul(rows)?)?;
        for row in bytes.chunks_exact_mut(row_bytes) {
            self.undo_predictor(row);
        }
        Some(bytes.chunks_exact(self.sample_bytes()).map(|sample| self.number(sample)).collect())
    }

    /// So many bytes of what was packed; none where there are fewer.
    fn decompress(&self, packed: &[u8], wanted: usize) -> Option<Vec<u8>> {
        let mut bytes = Vec::with_capacity(wanted);
        match self.compression {
            DEFLATE | OLD_DEFLATE => {
                ZlibDecoder::new(packed).take(wanted as u64).read_to_end(&mut bytes).ok()?;
            }
            LZW => decompress_lzw(packed, wanted, &mut bytes),
            PACK_BITS => unpack_bits(packed, wanted, &mut bytes),
            _ => bytes.extend_from_slice(packed.get(..wanted)?),
        }
        if bytes.len() == wanted { Some(bytes) } else { None }
    }

    /// A row's samples from their differences.
    fn undo_predictor(&self, row: &mut [u8]) {
        match self.predictor {
            HORIZONTAL => self.add_up(row),
            FLOATING_POINT => {
                for at in 1..row.len() {
                    row[at] = row[at].wrapping_add(row[at - 1]);
                }
                // The most significant bytes of all samples stand first, whatever the file's byte order is.
                let samples = row.len() / self.sample_bytes();
                let planes = row.to_vec();
                for (sample, bytes) in row.chunks_exact_mut(self.sample_bytes()).enumerate() {
                    for (plane, byte) in bytes.iter_mut().enumerate() {
                        *byte = planes[plane * samples + sample];
                    }
                    if !self.big_endian {
                        bytes.reverse();
                    }
                }
            }
            _ => {}
        }
    }

    /// Each sample is what was written plus the one before it, as whole numbers that wrap.
    fn add_up(&self, row: &mut [u8]) {
        let mut before = 0u64;
        for sample in row.chunks_exact_mut(self.sample_bytes()) {
            let sum = self.whole(sample).wrapping_add(before);
            let bytes = if self.big_endian { sum.to_be_bytes() } else { sum.to_le_bytes() };
            let used = if self.big_endian { &bytes[8 - sample.len()..] } else { &bytes[..sample.len()] };
            sample.copy_from_slice(used);
            before = sum;
        }
    }

    /// The bytes of a sample as a whole number.
    fn whole(&self, sample: &[u8]) -> u64 {
        let join = |number: u64, byte: &u8| number << 8 | u64::from(*byte);
        if self.big_endian { sample.iter().fold(0, join) } else { sample.iter().rev().fold(0, join) }
    }

    /// The sample's number. A 64-bit whole number above 2^53 is rounded, which is far from any that a float holds
    /// exactly, and from any that a cell may have.
    fn number(&self, sample: &[u8]) -> f64 {
        let bits = self.whole(sample);
        match (self.format, self.bits) {
            (FLOAT, 32) => f64::from(f32::from_bits(bits as u32)),
            (FLOAT, _) => f64::from_bits(bits),
            (SIGNED, 8) => f64::from(bits as u8 as i8),
            (SIGNED, 16) => f64::from(bits as u16 as i16),
            (SIGNED, 32) => f64::from(bits as u32 as i32),
            (SIGNED, _) => bits as i64 as f64,
            _ => bits as f64,
        }
    }
}

/// TIFF's LZW. What follows the wanted bytes may be anything, so that an error behind them is none.
fn decompress_lzw(mut packed: &[u8], wanted: usize, bytes: &mut Vec<u8>) {
    let mut decoder = weezl::decode::Decoder::with_tiff_size_switch(BitOrder::Msb, 8);
    let mut done = 0;
    bytes.resize(wanted, 0);
    while done < wanted {
        let result = decoder.decode_bytes(packed, &mut bytes[done..]);
        done += result.consumed_out;
        packed = &packed[result.consumed_in..];
        if result.status.is_err() || (result.consumed_in == 0 && result.consumed_out == 0) {
            break;
        }
    }
    bytes.truncate(done);
}

/// Macintosh PackBits: a count and that many bytes, or a negative count and one byte to repeat.
fn unpack_bits(mut packed: &[u8], wanted: usize, bytes: &mut Vec<u8>) {
    while bytes.len() < wanted {
        match packed {
            [count, rest @ ..] if *count < 128 => {
                let literal = &rest[..rest.len().min(usize::from(*count) + 1)];
                bytes.extend_from_slice(literal);
                packed = &rest[literal.len()..];
            }
            [128, rest @ ..] => packed = rest,
            [count, byte, rest @ ..] => {
                bytes.extend(std::iter::repeat_n(*byte, 257 - usize::from(*count)));
                packed = rest;
            }
            _ => return,
        }
    }
    bytes.truncate(wanted);
}
