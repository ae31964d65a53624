//! The plain records that go in and out of the oracle.

use crate::random::Random;

/// Sixteen (dx, dy) pairs.
pub type Ring = [(i32, i32); 16];

/// The paper's ring at `scale` times 5 pixels: a quarter, and the same three
/// more times, each turned by a right angle.
pub fn paper_ring(scale: i32) -> Ring {
    let quarter = [(0, -5), (2, -5), (3, -3), (5, -2)];
    let mut ring = [(0, 0); 16];
    for k in 0..16 {
        let (mut dx, mut dy) = quarter[k % 4];
        for _ in 0..k / 4 {
            (dx, dy) = (-dy, dx);
        }
        ring[k] = (scale * dx, scale * dy);
    }
    ring
}

/// How a deep image's words come from bytes (W-212): of a pixel by its byte and
/// its place, so that the padding may change; padding is any word.
#[derive(Clone, Copy, Debug, PartialEq, Eq)]
pub struct Deepened {
    pub mix: u64,
    pub kind: Words,
}

/// What the words are.
#[derive(Clone, Copy, Debug, PartialEq, Eq)]
pub enum Words {
    /// The bytes themselves.
    Bytes,
    /// Sixteen times the byte and a number below 16; 255 is 4095.
    Full,
    /// The same, and here and there a sample above 4095.
    Above,
}

impl Deepened {
    /// The word of the byte in column x of row y; `inside`: it is no padding.
    pub fn word(self, byte: u8, x: u64, y: u64, inside: bool) -> u16 {
        let mixed = Random::of(self.mix ^ (y << 20 | x), "deep").word();
        let full = match byte {
            255 => 4095,
            _ => u16::from(byte) << 4 | (mixed & 15) as u16,
        };
        match self.kind {
            _ if !inside => u16::from(byte) << 8 | (mixed & 255) as u16,
            Words::Bytes => u16::from(byte),
            Words::Above if mixed >> 8 & 63 == 0 => [4096, 4097, 8191, 65535][(mixed & 3) as usize],
            _ => full,
        }
    }
}

/// An image as it is handed in: nothing is checked yet. The pitch is how far a
/// row begins from the one before it. Where it is deep its words are lent.
#[derive(Clone, Debug)]
pub struct Image {
    pub width: u64,
    pub height: u64,
    pub pitch: u64,
    pub bytes: Vec<u8>,
    pub deep: Option<Deepened>,
}

impl Image {
    /// Rows without padding.
    pub fn new(width: usize, height: usize, bytes: Vec<u8>) -> Self {
        Image {
            width: width as u64,
            height: height as u64,
            pitch: width as u64,
            bytes,
            deep: None,
        }
    }
}

/// The same, lent.
#[derive(Clone, Copy, Debug)]
pub struct View<'a> {
    pub width: u64,
    pub height: u64,
    pub pitch: u64,
    pub bytes: &'a [u8],
    pub deep: Option<Deepened>,
}

impl<'a> View<'a> {
    /// Rows without padding.
    pub fn new(width: usize, height: usize, bytes: &'a [u8]) -> Self {
        View {
            width: width as u64,
            height: height as u64,
            pitch: width as u64,
            bytes,
            deep: None,
        }
    }

    /// The sample at a place counted from the first one.
    pub fn sample(&self, place: usize) -> u16 {
        let byte = self.bytes[place];
        let pitch = self.pitch.max(1);
        let (x, y) = (place as u64 % pitch, place as u64 / pitch);
        match self.deep {
            None => u16::from(byte),
            Some(deep) => deep.word(byte, x, y, x < self.width),
        }
    }

    /// All samples.
    pub fn samples(&self) -> Vec<u16> {
        (0..self.bytes.len()).map(|k| self.sample(k)).collect()
    }
}

impl<'a> From<&'a Image> for View<'a> {
    fn from(image: &'a Image) -> Self {
        View {
            width: image.width,
            height: image.height,
            pitch: image.pitch,
            bytes: &image.bytes,
            deep: image.deep,
        }
    }
}

/// The refiner's settings.
#[derive(Clone, Copy, Debug, PartialEq)]
pub struct Settings {
    pub radius: i32,
    pub det_margin: f32,
    pub max_offset: f32,
    pub min_abs_det: f32,
}

impl Default for Settings {
    fn default() -> Self {
        Settings {
            radius: 2,
            det_margin: 1e-3,
            max_offset: 1.5,
            min_abs_det: 1e-4,
        }
    }
}

/// One seed's answer. Status 0 to 7, or a refusal number from 10 up with
/// nothing else set.
#[derive(Clone, Copy, Debug, Default)]
pub struct Refined {
    pub status: u32,
    pub x: f32,
    pub y: f32,
    pub score: f32,
    pub converged: bool,
    pub covariance: Option<[f32; 3]>,
}

/// x, y and strength, three floats a corner.
pub type Triple = [f32; 3];

/// A region of the image, as handed in.
#[derive(Clone, Copy, Debug)]
pub struct Region {
    pub x0: u64,
    pub y0: u64,
    pub x1: u64,
    pub y1: u64,
}

/// The settings of the peak scan.
#[derive(Clone, Copy, Debug)]
pub struct PeakSettings {
    pub threshold: f32,
    pub ring_radius: i32,
    pub window_radius: i32,
    pub refiner_radius: i32,
    pub min_cluster_size: u32,
}

/// A saddle as `solve` gives it.
#[derive(Clone, Copy, Debug)]
pub struct Saddle {
    pub u: [f32; 2],
    pub quad: [f32; 3],
    pub det: f32,
}

/// The fit operator: five coefficients a sample, nine overlaps, and the
/// inverse of the normal matrix that they come from.
#[derive(Clone, Debug)]
pub struct Operator {
    pub columns: Vec<[f32; 5]>,
    pub overlap: [[[f32; 5]; 5]; 9],
    pub inverse: [[f64; 6]; 6],
}

/// An operator that is lent, of any content: five numbers a sample of radius 7, of
/// which a radius uses the first, and nine overlaps of 5 by 5.
#[derive(Clone, Debug)]
pub struct LentOperator {
    pub columns: [f32; 1125],
    pub overlap: [f32; 225],
}

impl LentOperator {
    /// The five numbers of each sample of a radius, and the overlaps.
    pub fn rows(&self, radius: i32) -> (Vec<[f32; 5]>, [[[f32; 5]; 5]; 9]) {
        let side = (2 * radius + 1) as usize;
        let rows = self.columns.as_chunks().0[..side * side].to_vec();
        let at = |k: usize, i: usize| core::array::from_fn(|j| self.overlap[25 * k + 5 * i + j]);
        let overlap = core::array::from_fn(|k| core::array::from_fn(|i| at(k, i)));
        (rows, overlap)
    }
}

/// What the mirror of the steps counts. Tries are the candidates tried; far
/// ones have a base that leaves 32 bits; reach is the greatest offset of one.
#[derive(Clone, Copy, Debug, Default)]
pub struct Run {
    pub tries: u32,
    pub steps: u32,
    pub newtons: u32,
    pub far: u32,
    pub fits: usize,
    pub stuck: bool,
    pub fresh_slope: bool,
    pub reach: f32,
}

/// W-206: a board of squares with a predicted place for each inner corner, two
/// floats a place by row, as it is handed in.
#[derive(Clone, Copy, Debug)]
pub struct Board<'a> {
    pub rows: u64,
    pub columns: u64,
    pub places: &'a [f32],
    pub limit: f32,
}

/// W-202: a graymap that was read. Its pixels are the file from `start` on.
#[derive(Clone, Copy, Debug, PartialEq, Eq)]
pub struct Graymap {
    pub width: usize,
    pub height: usize,
    pub maximum: u16,
    pub start: usize,
}

/// W-214: what a salvage writes: the bytes of the kept records, and the number
/// and the fault of each other one.
#[derive(Clone, Debug, Default, PartialEq, Eq)]
pub struct Salvaged {
    pub kept: Vec<u8>,
    pub dropped: Vec<[u16; 2]>,
}

/// W-211: a lent list with room for 4,096 records, how many of them are corners,
/// and the counts beside it.
#[derive(Clone, Debug)]
pub struct Covered {
    pub list: Vec<Triple>,
    pub count: u64,
    pub counts: [u16; 65],
}

/// What is asked of them: the summary afresh, or one corner more, another or less.
#[derive(Clone, Copy, Debug)]
pub enum Asked {
    Afresh,
    Add(Triple),
    Replace(u64, Triple),
    Drop(u64),
}
