//! Pixels to draw on.
use crate::picture::letters;

pub type Colour = [u8; 3];

pub const BLACK: Colour = [0, 0, 0];
pub const WHITE: Colour = [255, 255, 255];
/// The lines around the map and the samples.
pub const GREY: Colour = [150, 150, 150];

/// What is drawn on.
pub struct Canvas {
    pub width: usize,
    pub height: usize,
    pixels: Vec<Colour>,
}

/// A rectangle of pixels.
#[derive(Clone, Copy, Debug, PartialEq)]
pub struct Area {
    pub x: usize,
    pub y: usize,
    pub width: usize,
    pub height: usize,
}

impl Canvas {
    /// A white canvas.
    pub fn new(width: usize, height: usize) -> Canvas {
        Canvas { width, height, pixels: vec![WHITE; width * height] }
    }

    /// Sets a pixel; outside of the canvas there is none to set.
    pub fn set(&mut self, x: usize, y: usize, colour: Colour) {
        if x < self.width && y < self.height {
            self.pixels[y * self.width + x] = colour;
        }
    }

    /// Fills a rectangle, with a colour for each of its pixels.
    pub fn fill_with(&mut self, area: Area, colour: impl Fn(usize, usize) -> Colour) {
        for y in area.y..area.y + area.height {
            for x in area.x..area.x + area.width {
                self.set(x, y, colour(x, y));
            }
        }
    }

    /// Fills a rectangle.
    pub fn fill(&mut self, area: Area, colour: Colour) {
        self.fill_with(area, |_, _| colour);
    }

    /// Draws a grey line around a rectangle, outside of it.
    pub fn frame(&mut self, inside: Area) {
        let Area { x, y, width, height } = inside.wider(1);
        let (right, bottom) = (x + width - 1, y + height - 1);
        for line in [Area { x, y, width, height: 1 }, Area { x, y: bottom, width, height: 1 }] {
            self.fill(line, GREY);
        }
        for line in [Area { x, y, width: 1, height }, Area { x: right, y, width: 1, height }] {
            self.fill(line, GREY);
        }
    }

    /// Writes in black.
    pub fn text(&mut self, x: usize, y: usize, text: &str) {
        for (right, down) in letters::pixels(text) {
            self.set(x + right, y + down, BLACK);
        }
    }

    /// The canvas as a PNG file.
    pub fn png(&self) -> Result<Vec<u8>, String> {
        let side = |pixels: usize| u32::try_from(pixels).map_err(|_| "the picture would be too large".to_owned());
        let mut file = Vec::new();
        let mut encoder = png::Encoder::new(&mut file, side(self.width)?, side(self.height)?);
        encoder.set_color(png::ColorType::Rgb);
        encoder.set_depth(png::BitDepth::Eight);
        let mut writer = encoder.write_header().map_err(|error| error.to_string())?;
        writer.write_image_data(self.pixels.as_flattened()).map_err(|error| error.to_string())?;
        writer.finish().map_err(|error| error.to_string())?;
        Ok(file)
    }
}

impl Area {
    /// The rectangle with so many pixels more on each of its sides.
    pub fn wider(self, by: usize) -> Area {
        let [x, y] = [self.x, self.y].map(|start| start.saturating_sub(by));
        Area { x, y, width: self.x + self.width + by - x, height: self.y + self.height + by - y }
    }

    /// The square of this width around the middle of a rectangle.
    pub fn square(self, across: usize) -> Area {
        let x = (self.x + self.width / 2).saturating_sub(across / 2);
        let y = (self.y + self.height / 2).saturating_sub(across / 2);
        Area { x, y, width: across, height: across }
    }

    /// The rectangle with so many pixels fewer on each of its sides.
    pub fn narrower(self, by: usize) -> Area {
        let [width, height] = [self.width, self.height].map(|side| side.saturating_sub(2 * by));
        Area { x: self.x + by, y: self.y + by, width, height }
    }

    /// The rectangle moved by as little as puts it into another, along a side where it fits.
    pub fn moved_into(self, other: Area) -> Area {
        let x = moved(self.x, self.width, other.x, other.width);
        let y = moved(self.y, self.height, other.y, other.height);
        Area { x, y, ..self }
    }
}

/// Where one side begins when it is moved into another that begins at `from`.
fn moved(start: usize, length: usize, from: usize, room: usize) -> usize {
    if length > room { start } else { start.clamp(from, from + room - length) }
}
