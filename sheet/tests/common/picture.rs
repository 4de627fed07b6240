//! A picture that the tool wrote: its pixels, its map and the words on it.
#![allow(dead_code)]
use std::fs::File;
use std::path::Path;

use sheet::picture::letters;

pub type Colour = [u8; 3];

pub const BLACK: Colour = [0, 0, 0];
pub const WHITE: Colour = [255, 255, 255];
pub const GREY: Colour = [150, 150, 150];
/// Ground that search 7 was not asked about.
pub const PALE: Colour = [226, 226, 226];
/// Around all parts of a picture.
pub const MARGIN: usize = 16;
/// The pixel at which each map begins.
pub const MAP: (usize, usize) = (16, 48);
/// Words have at least so many white pixels before and after them.
const AROUND_WORDS: usize = 6;

pub struct Picture {
    pub width: usize,
    pub height: usize,
    pub pixels: Vec<Colour>,
}

impl Picture {
    pub fn read(path: &Path) -> Picture {
        let mut reader = png::Decoder::new(File::open(path).unwrap()).read_info().unwrap();
        let mut bytes = vec![0; reader.output_buffer_size()];
        let frame = reader.next_frame(&mut bytes).unwrap();
        assert_eq!((frame.color_type, frame.bit_depth), (png::ColorType::Rgb, png::BitDepth::Eight));
        let (pixels, []) = bytes.as_chunks() else { panic!("a pixel has three bytes") };
        Picture { width: frame.width as usize, height: frame.height as usize, pixels: pixels.to_vec() }
    }

    /// The pixel at this place; white outside.
    pub fn at(&self, x: usize, y: usize) -> Colour {
        if x < self.width && y < self.height { self.pixels[y * self.width + x] } else { WHITE }
    }

    /// The pixel of the map, so far right and down from its corner.
    pub fn map(&self, right: usize, down: usize) -> Colour {
        self.at(MAP.0 + right, MAP.1 + down)
    }

    /// The first pixel of a cell, counted from 0, whose edge has so many pixels: marks leave it free.
    pub fn cell(&self, row: usize, column: usize, edge: usize) -> Colour {
        self.map(column * edge, row * edge)
    }

    /// Where these words stand alone.
    pub fn find(&self, words: &str) -> Vec<(usize, usize)> {
        let ink = letters::pixels(words);
        let width = letters::width(words);
        let is_ink = |x: usize, y: usize| self.at(x, y) == BLACK;
        let stands = |x: usize, y: usize| {
            ink.iter().all(|(right, down)| is_ink(x + right, y + down)) && {
                let columns = x.saturating_sub(AROUND_WORDS)..x + width + AROUND_WORDS;
                let found = columns.flat_map(|x| (y..y + letters::LINE).map(move |y| (x, y)));
                found.filter(|(x, y)| is_ink(*x, *y)).count() == ink.len()
            }
        };
        let all = (0..self.height).flat_map(|y| (0..self.width).map(move |x| (x, y)));
        all.filter(|(x, y)| stands(*x, *y)).collect()
    }

    pub fn says(&self, words: &str) -> bool {
        !self.find(words).is_empty()
    }

    /// The sample before words of the legend.
    pub fn sample(&self, words: &str) -> Colour {
        let (x, y) = self.find(words)[0];
        self.at(x - 16, y + 7)
    }
}
