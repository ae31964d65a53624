//! Proved chessboard corners: the ChESS response, its peaks, the saddle-point
//! refiner, the merge, the tie of corners to the squares of a board, the reader
//! of graymaps, the salvage of damaged corner files, the coverage of an image,
//! and how each sample of a tile moves the response, behind slices and `Result`.
//!
//! Every call takes any numbers and any contents of its slices, and ends. A
//! refusal has its name and number from docs/RULES.md and writes nothing. Which
//! elements of a slice a call leaves as they were is said in
//! `include/chess_corners.h`; units, defaults and rings in docs/USING.md.

use std::fmt;

/// The exported functions as they are; `include/chess_corners.h` says what each
/// takes and writes, and what must hold of a pointer.
pub mod raw {
    extern "C" {
        pub fn chess_corners_response(
            img: *const u8,
            img_len: usize,
            width: usize,
            height: usize,
            pitch: usize,
            ring: *const i32,
            radius: usize,
            x0: usize,
            y0: usize,
            x1: usize,
            y1: usize,
            out: *mut f32,
            out_len: usize,
            out_width: *mut usize,
            out_height: *mut usize,
        ) -> u32;
        pub fn chess_corners_peaks(
            response: *const f32,
            response_len: usize,
            width: usize,
            height: usize,
            ring_radius: usize,
            window_radius: usize,
            refine_radius: usize,
            threshold: f32,
            min_cluster_size: u32,
            out: *mut f32,
            out_len: usize,
            count: *mut usize,
        ) -> u32;
        pub fn chess_corners_fit_operator(
            radius: usize,
            columns: *mut f32,
            overlap: *mut f32,
        ) -> u32;
        pub fn chess_corners_refine(
            img: *const u8,
            img_len: usize,
            width: usize,
            height: usize,
            pitch: usize,
            radius: usize,
            det_margin: f32,
            max_offset: f32,
            min_abs_det: f32,
            x: f32,
            y: f32,
            wanted: u32,
            place: *mut f32,
            state: *mut u32,
            covariance: *mut f32,
        ) -> u32;
        pub fn chess_corners_refine_with(
            img: *const u8,
            img_len: usize,
            width: usize,
            height: usize,
            pitch: usize,
            radius: usize,
            det_margin: f32,
            max_offset: f32,
            min_abs_det: f32,
            x: f32,
            y: f32,
            wanted: u32,
            columns: *const f32,
            overlap: *const f32,
            place: *mut f32,
            state: *mut u32,
            covariance: *mut f32,
        ) -> u32;
        pub fn chess_corners_old_number(number: u32) -> u32;
        pub fn chess_corners_refine_list(
            img: *const u8,
            img_len: usize,
            width: usize,
            height: usize,
            pitch: usize,
            radius: usize,
            det_margin: f32,
            max_offset: f32,
            min_abs_det: f32,
            corners: *const f32,
            corners_len: usize,
            out: *mut f32,
            out_len: usize,
            count: *mut usize,
        ) -> u32;
        pub fn chess_corners_refine_list_fallback(
            img: *const u8,
            img_len: usize,
            width: usize,
            height: usize,
            pitch: usize,
            radius: usize,
            det_margin: f32,
            max_offset: f32,
            min_abs_det: f32,
            second_radius: usize,
            second_det_margin: f32,
            second_max_offset: f32,
            second_min_abs_det: f32,
            corners: *const f32,
            corners_len: usize,
            out: *mut f32,
            out_len: usize,
            passes: *mut u8,
            passes_len: usize,
            count: *mut usize,
        ) -> u32;
        pub fn chess_corners_refine_list_fallback_with(
            img: *const u8,
            img_len: usize,
            width: usize,
            height: usize,
            pitch: usize,
            radius: usize,
            det_margin: f32,
            max_offset: f32,
            min_abs_det: f32,
            second_radius: usize,
            second_det_margin: f32,
            second_max_offset: f32,
            second_min_abs_det: f32,
            columns: *const f32,
            second_columns: *const f32,
            corners: *const f32,
            corners_len: usize,
            out: *mut f32,
            out_len: usize,
            passes: *mut u8,
            passes_len: usize,
            count: *mut usize,
        ) -> u32;
        pub fn chess_corners_merge(
            corners: *mut f32,
            corners_len: usize,
            radius: f32,
            heads: *mut u16,
            heads_len: usize,
            links: *mut u16,
            links_len: usize,
            count: *mut usize,
        ) -> u32;
        pub fn chess_corners_merge_heads(
            corners: *const f32,
            corners_len: usize,
            radius: f32,
            heads: *mut usize,
        ) -> u32;
        pub fn chess_corners_tie(
            rows: usize,
            columns: usize,
            places: *const f32,
            places_len: usize,
            limit: f32,
            corners: *const f32,
            corners_len: usize,
            answers: *mut u16,
            answers_len: usize,
            place: *mut usize,
        ) -> u32;
        pub fn chess_corners_graymap(
            file: *const u8,
            file_len: usize,
            width: *mut usize,
            height: *mut usize,
            maximum: *mut usize,
            start: *mut usize,
            pixel: *mut usize,
        ) -> u32;
        pub fn chess_corners_salvage(
            file: *const u8,
            file_len: usize,
            width: usize,
            height: usize,
            out: *mut u8,
            out_len: usize,
            faults: *mut u16,
            faults_len: usize,
            kept: *mut usize,
            dropped: *mut usize,
        ) -> u32;
        pub fn chess_corners_coverage(
            width: usize,
            height: usize,
            list: *const f32,
            count: usize,
            counts: *mut u16,
        ) -> u32;
        pub fn chess_corners_coverage_add(
            width: usize,
            height: usize,
            list: *mut f32,
            count: *mut usize,
            counts: *mut u16,
            x: f32,
            y: f32,
            strength: f32,
        ) -> u32;
        pub fn chess_corners_coverage_replace(
            width: usize,
            height: usize,
            list: *mut f32,
            count: usize,
            counts: *mut u16,
            number: usize,
            x: f32,
            y: f32,
            strength: f32,
        ) -> u32;
        pub fn chess_corners_coverage_drop(
            width: usize,
            height: usize,
            list: *mut f32,
            count: *mut usize,
            counts: *mut u16,
            number: usize,
        ) -> u32;
        pub fn chess_corners_gradient(
            tile: *const u8,
            tile_len: usize,
            side: usize,
            ring: *const i32,
            x: usize,
            y: usize,
            scale_x: f32,
            scale_y: f32,
            grid: *mut f32,
            grid_len: usize,
        ) -> u32;
        pub fn chess_corners_response_u16(
            img: *const u16,
            img_len: usize,
            width: usize,
            height: usize,
            pitch: usize,
            ring: *const i32,
            radius: usize,
            x0: usize,
            y0: usize,
            x1: usize,
            y1: usize,
            out: *mut f32,
            out_len: usize,
            out_width: *mut usize,
            out_height: *mut usize,
        ) -> u32;
        pub fn chess_corners_refine_u16(
            img: *const u16,
            img_len: usize,
            width: usize,
            height: usize,
            pitch: usize,
            radius: usize,
            det_margin: f32,
            max_offset: f32,
            min_abs_det: f32,
            x: f32,
            y: f32,
            wanted: u32,
            place: *mut f32,
            state: *mut u32,
            covariance: *mut f32,
        ) -> u32;
        pub fn chess_corners_refine_with_u16(
            img: *const u16,
            img_len: usize,
            width: usize,
            height: usize,
            pitch: usize,
            radius: usize,
            det_margin: f32,
            max_offset: f32,
            min_abs_det: f32,
            x: f32,
            y: f32,
            wanted: u32,
            columns: *const f32,
            overlap: *const f32,
            place: *mut f32,
            state: *mut u32,
            covariance: *mut f32,
        ) -> u32;
        pub fn chess_corners_refine_list_u16(
            img: *const u16,
            img_len: usize,
            width: usize,
            height: usize,
            pitch: usize,
            radius: usize,
            det_margin: f32,
            max_offset: f32,
            min_abs_det: f32,
            corners: *const f32,
            corners_len: usize,
            out: *mut f32,
            out_len: usize,
            count: *mut usize,
        ) -> u32;
        pub fn chess_corners_refine_list_fallback_u16(
            img: *const u16,
            img_len: usize,
            width: usize,
            height: usize,
            pitch: usize,
            radius: usize,
            det_margin: f32,
            max_offset: f32,
            min_abs_det: f32,
            second_radius: usize,
            second_det_margin: f32,
            second_max_offset: f32,
            second_min_abs_det: f32,
            corners: *const f32,
            corners_len: usize,
            out: *mut f32,
            out_len: usize,
            passes: *mut u8,
            passes_len: usize,
            count: *mut usize,
        ) -> u32;
        pub fn chess_corners_refine_list_fallback_with_u16(
            img: *const u16,
            img_len: usize,
            width: usize,
            height: usize,
            pitch: usize,
            radius: usize,
            det_margin: f32,
            max_offset: f32,
            min_abs_det: f32,
            second_radius: usize,
            second_det_margin: f32,
            second_max_offset: f32,
            second_min_abs_det: f32,
            columns: *const f32,
            second_columns: *const f32,
            corners: *const f32,
            corners_len: usize,
            out: *mut f32,
            out_len: usize,
            passes: *mut u8,
            passes_len: usize,
            count: *mut usize,
        ) -> u32;
        pub fn chess_corners_graymap_u16(
            file: *const u8,
            file_len: usize,
            out: *mut u16,
            out_len: usize,
            width: *mut usize,
            height: *mut usize,
            maximum: *mut usize,
            start: *mut usize,
            pixel: *mut usize,
        ) -> u32;
    }
}

/// Why a call was refused, by the names of docs/RULES.md.
#[derive(Clone, Copy, Debug, PartialEq, Eq)]
pub enum Refusal {
    /// No fit operator: radius 0.
    IllConditioned,
    BadImage,
    BadRadius,
    BadLimit,
    BadRing,
    EmptyRoi,
    BadOut,
    TooMany,
    GridTooBig,
    BadScratch,
    BadLength,
    NoMagic,
    BadHeader,
    BadGraymapSize,
    TooShort,
    AboveMaximum,
    LeftOver,
    BadSample,
    BadBuffer,
    BadBoard,
    BadPlaces,
    BadList,
    NoCorner,
    UsedTwice,
    NoSuchCorner,
    /// A number that this crate has no name for, as an archive that is newer
    /// than it may give. Nothing was written.
    Other(u32),
}

/// Every case that has a name.
const NAMED: [Refusal; 25] = [
    Refusal::IllConditioned,
    Refusal::BadImage,
    Refusal::BadRadius,
    Refusal::BadLimit,
    Refusal::BadRing,
    Refusal::EmptyRoi,
    Refusal::BadOut,
    Refusal::TooMany,
    Refusal::GridTooBig,
    Refusal::BadScratch,
    Refusal::BadLength,
    Refusal::NoMagic,
    Refusal::BadHeader,
    Refusal::BadGraymapSize,
    Refusal::TooShort,
    Refusal::AboveMaximum,
    Refusal::LeftOver,
    Refusal::BadSample,
    Refusal::BadBuffer,
    Refusal::BadBoard,
    Refusal::BadPlaces,
    Refusal::BadList,
    Refusal::NoCorner,
    Refusal::UsedTwice,
    Refusal::NoSuchCorner,
];

impl Refusal {
    /// The number that the call returned.
    pub fn number(self) -> u32 {
        match self {
            Refusal::IllConditioned => 3,
            Refusal::BadImage => 10,
            Refusal::BadRadius => 11,
            Refusal::BadLimit => 12,
            Refusal::BadRing => 13,
            Refusal::EmptyRoi => 14,
            Refusal::BadOut => 15,
            Refusal::TooMany => 16,
            Refusal::GridTooBig => 17,
            Refusal::BadScratch => 18,
            Refusal::BadLength => 19,
            Refusal::NoMagic => 20,
            Refusal::BadHeader => 21,
            Refusal::BadGraymapSize => 22,
            Refusal::TooShort => 23,
            Refusal::AboveMaximum => 24,
            Refusal::LeftOver => 25,
            Refusal::BadSample => 26,
            Refusal::BadBuffer => 27,
            Refusal::BadBoard => 30,
            Refusal::BadPlaces => 31,
            Refusal::BadList => 32,
            Refusal::NoCorner => 33,
            Refusal::UsedTwice => 34,
            Refusal::NoSuchCorner => 35,
            Refusal::Other(number) => number,
        }
    }

    fn of(number: u32) -> Refusal {
        NAMED
            .into_iter()
            .find(|named| named.number() == number)
            .unwrap_or(Refusal::Other(number))
    }
}

impl fmt::Display for Refusal {
    fn fmt(&self, f: &mut fmt::Formatter<'_>) -> fmt::Result {
        match self {
            Refusal::Other(number) => write!(f, "Other ({number})"),
            _ => write!(f, "{self:?} ({})", self.number()),
        }
    }
}

impl std::error::Error for Refusal {}

fn done<T>(number: u32, answer: T) -> Result<T, Refusal> {
    if number == 0 {
        Ok(answer)
    } else {
        Err(Refusal::of(number))
    }
}

/// Bytes, row after row, with a width and a height; nothing is tested here. Each
/// row begins `pitch` bytes after the one before it, and no answer depends on
/// what stands behind its `width` bytes.
#[derive(Clone, Copy, Debug)]
pub struct Image<'a> {
    /// pitch times height of them.
    pub bytes: &'a [u8],
    pub width: usize,
    pub height: usize,
    /// From the width up to 8192.
    pub pitch: usize,
}

impl<'a> Image<'a> {
    /// Rows without padding.
    pub fn new(bytes: &'a [u8], width: usize, height: usize) -> Image<'a> {
        Image {
            bytes,
            width,
            height,
            pitch: width,
        }
    }
}

/// The same of twelve-bit samples, one a word, each at most 4095; the pitch counts
/// samples.
#[derive(Clone, Copy, Debug)]
pub struct DeepImage<'a> {
    /// pitch times height of them.
    pub words: &'a [u16],
    pub width: usize,
    pub height: usize,
    /// From the width up to 8192.
    pub pitch: usize,
}

impl<'a> DeepImage<'a> {
    /// Rows without padding.
    pub fn new(words: &'a [u16], width: usize, height: usize) -> DeepImage<'a> {
        DeepImage {
            words,
            width,
            height,
            pitch: width,
        }
    }
}

/// An image of either depth: every call that takes an image takes both.
#[derive(Clone, Copy, Debug)]
pub enum AnyImage<'a> {
    Bytes(Image<'a>),
    Words(DeepImage<'a>),
}

impl<'a> From<Image<'a>> for AnyImage<'a> {
    fn from(image: Image<'a>) -> AnyImage<'a> {
        AnyImage::Bytes(image)
    }
}

impl<'a> From<DeepImage<'a>> for AnyImage<'a> {
    fn from(image: DeepImage<'a>) -> AnyImage<'a> {
        AnyImage::Words(image)
    }
}

/// The call of the image's depth: its samples and sizes, and then the rest.
macro_rules! by_depth {
    ($image:expr, $bytes:ident, $words:ident, $($rest:expr),* $(,)?) => {
        match $image {
            AnyImage::Bytes(i) => raw::$bytes(
                i.bytes.as_ptr(), i.bytes.len(), i.width, i.height, i.pitch, $($rest),*
            ),
            AnyImage::Words(i) => raw::$words(
                i.words.as_ptr(), i.words.len(), i.width, i.height, i.pitch, $($rest),*
            ),
        }
    };
}

/// From (x0, y0) up to but without (x1, y1).
#[derive(Clone, Copy, Debug)]
pub struct Roi {
    pub x0: usize,
    pub y0: usize,
    pub x1: usize,
    pub y1: usize,
}

/// The refiner's settings.
#[derive(Clone, Copy, Debug)]
pub struct SaddlePointConfig {
    pub radius: usize,
    pub det_margin: f32,
    pub max_offset: f32,
    pub min_abs_det: f32,
}

impl Default for SaddlePointConfig {
    /// The Rust's.
    fn default() -> Self {
        SaddlePointConfig {
            radius: 2,
            det_margin: 1e-3,
            max_offset: 1.5,
            min_abs_det: 1e-4,
        }
    }
}

/// The peak scan's settings.
#[derive(Clone, Copy, Debug)]
pub struct PeakSettings {
    pub ring_radius: usize,
    pub window_radius: usize,
    pub refine_radius: usize,
    pub threshold: f32,
    pub min_cluster_size: u32,
}

impl Default for PeakSettings {
    /// The Rust's, with the ring of radius 5 and the refiner's own radius.
    fn default() -> Self {
        PeakSettings {
            ring_radius: 5,
            window_radius: 2,
            refine_radius: 2,
            threshold: 0.0,
            min_cluster_size: 2,
        }
    }
}

/// An accepted seed.
#[derive(Clone, Copy, Debug)]
pub struct Estimate {
    pub x: f32,
    pub y: f32,
    pub score: f32,
    pub converged: bool,
    pub tries: u32,
    /// xx, xy and yy for unit noise.
    pub covariance: Option<[f32; 3]>,
}

/// What became of a seed. The seed's own place is the caller's; the score of one
/// that is not accepted is the determinant of the first fit.
#[derive(Clone, Copy, Debug)]
pub enum Refined {
    Accepted(Estimate),
    Rejected {
        score: f32,
    },
    OutOfBounds,
    /// No fit operator: radius 0.
    IllConditioned,
    /// x or y of the seed is NaN or infinite.
    BadSeed,
    /// The determinant is above -det_margin: no saddle, or a faint one.
    AboveMargin {
        score: f32,
    },
    /// The determinant's magnitude is below min_abs_det.
    TooSmall {
        score: f32,
    },
    /// The place of the saddle is not finite.
    NotFinite {
        score: f32,
    },
}

impl Refined {
    /// The number that the call returned.
    pub fn number(&self) -> u32 {
        match self {
            Refined::Accepted(_) => 0,
            Refined::Rejected { .. } => 1,
            Refined::OutOfBounds => 2,
            Refined::IllConditioned => 3,
            Refined::BadSeed => 4,
            Refined::AboveMargin { .. } => 5,
            Refined::TooSmall { .. } => 6,
            Refined::NotFinite { .. } => 7,
        }
    }
}

/// The number for a reader that knows one for every refused fit: 5, 6 and 7 are
/// 3, every other is itself.
pub fn old_number(number: u32) -> u32 {
    // SAFETY: a number goes in and a number comes out.
    unsafe { raw::chess_corners_old_number(number) }
}

/// A board of rows by columns of squares; nothing is tested here.
#[derive(Clone, Copy, Debug)]
pub struct Board<'a> {
    pub rows: usize,
    pub columns: usize,
    /// x and y predicted for each inner corner, by row.
    pub places: &'a [f32],
}

/// Why corners were not tied to a board.
#[derive(Clone, Copy, Debug, PartialEq, Eq)]
pub struct Untied {
    pub refusal: Refusal,
    /// The number of the first place at fault, by row from 0: there with
    /// `NoCorner` and `UsedTwice` alone.
    pub place: Option<usize>,
}

impl fmt::Display for Untied {
    fn fmt(&self, f: &mut fmt::Formatter<'_>) -> fmt::Result {
        match self.place {
            Some(place) => write!(f, "{} at place {place}", self.refusal),
            None => self.refusal.fmt(f),
        }
    }
}

impl std::error::Error for Untied {}

/// A graymap that was read.
#[derive(Clone, Copy, Debug, PartialEq, Eq)]
pub struct Graymap<'a> {
    pub width: usize,
    pub height: usize,
    /// 1 to 255; no sample is above it.
    pub maximum: u8,
    /// width times height bytes, row after row: the end of the file itself.
    pub pixels: &'a [u8],
}

impl<'a> Graymap<'a> {
    pub fn image(&self) -> Image<'a> {
        Image::new(self.pixels, self.width, self.height)
    }
}

/// A graymap of two bytes a sample that was read; its samples are where they
/// were asked to go.
#[derive(Clone, Copy, Debug, PartialEq, Eq)]
pub struct DeepGraymap {
    pub width: usize,
    pub height: usize,
    /// 256 to 4095; no sample is above it.
    pub maximum: u16,
}

/// Why a graymap was not read.
#[derive(Clone, Copy, Debug, PartialEq, Eq)]
pub struct Unread {
    pub refusal: Refusal,
    /// The number of the first pixel above the maximum, by row from 0: there
    /// with `AboveMaximum` alone.
    pub pixel: Option<usize>,
}

impl fmt::Display for Unread {
    fn fmt(&self, f: &mut fmt::Formatter<'_>) -> fmt::Result {
        match self.pixel {
            Some(pixel) => write!(f, "{} at pixel {pixel}", self.refusal),
            None => self.refusal.fmt(f),
        }
    }
}

impl std::error::Error for Unread {}

/// A corner file that was salvaged.
#[derive(Clone, Copy, Debug, PartialEq, Eq)]
pub struct Salvaged {
    /// Records at the front of `out`, twelve bytes each.
    pub kept: usize,
    /// Pairs at the front of `faults`.
    pub dropped: usize,
}

/// The operator of a radius, for many seeds.
#[derive(Clone, Debug)]
pub struct Operator {
    radius: usize,
    columns: Box<[f32; 1125]>,
    overlap: Box<[f32; 225]>,
}

impl Operator {
    pub fn new(radius: usize) -> Result<Operator, Refusal> {
        let mut made = Operator {
            radius,
            columns: Box::new([0.0; 1125]),
            overlap: Box::new([0.0; 225]),
        };
        // SAFETY: both arrays are live and apart.
        let number = unsafe {
            raw::chess_corners_fit_operator(
                radius,
                made.columns.as_mut_ptr(),
                made.overlap.as_mut_ptr(),
            )
        };
        done(number, made)
    }
}

/// The rings of radius 5 and 10, clockwise from the top.
pub const RING5: [(i32, i32); 16] = ring(1);
pub const RING10: [(i32, i32); 16] = ring(2);

/// The paper's ring at `scale` times 5 pixels: a quarter, and the same three more times, each turned by a right angle.
const fn ring(scale: i32) -> [(i32, i32); 16] {
    let mut quarter = [(0, -5), (2, -5), (3, -3), (5, -2)];
    let mut all = [(0, 0); 16];
    let mut k = 0;
    while k < 16 {
        let (dx, dy) = quarter[k % 4];
        all[k] = (scale * dx, scale * dy);
        quarter[k % 4] = (-dy, dx);
        k += 1;
    }
    all
}

/// A ring as the library takes it, dx and dy of each pair.
fn flat(ring: &[(i32, i32); 16]) -> [i32; 32] {
    core::array::from_fn(|k| {
        if k % 2 == 0 {
            ring[k / 2].0
        } else {
            ring[k / 2].1
        }
    })
}

/// The response of a region, clamped to the image: its width and height.
pub fn response<'a>(
    image: impl Into<AnyImage<'a>>,
    ring: &[(i32, i32); 16],
    radius: usize,
    roi: Roi,
    out: &mut [f32],
) -> Result<(usize, usize), Refusal> {
    let ring = flat(ring);
    let (mut width, mut height) = (0, 0);
    // SAFETY: each pointer and length come from one live slice or reference,
    // and Rust's borrows keep apart what is written.
    let number = unsafe {
        by_depth!(
            image.into(),
            chess_corners_response,
            chess_corners_response_u16,
            ring.as_ptr(),
            radius,
            roi.x0,
            roi.y0,
            roi.x1,
            roi.y1,
            out.as_mut_ptr(),
            out.len(),
            &mut width,
            &mut height,
        )
    };
    done(number, (width, height))
}

/// The peaks of a response, x, y and value of each: how many. Of equal
/// neighbours the first by row is one.
pub fn peaks(
    response: &[f32],
    width: usize,
    height: usize,
    settings: PeakSettings,
    out: &mut [f32],
) -> Result<usize, Refusal> {
    let mut count = 0;
    // SAFETY: as above.
    let number = unsafe {
        raw::chess_corners_peaks(
            response.as_ptr(),
            response.len(),
            width,
            height,
            settings.ring_radius,
            settings.window_radius,
            settings.refine_radius,
            settings.threshold,
            settings.min_cluster_size,
            out.as_mut_ptr(),
            out.len(),
            &mut count,
        )
    };
    done(number, count)
}

/// What the three answers of a seed say.
fn told(
    number: u32,
    place: [f32; 3],
    state: [u32; 3],
    covariance: [f32; 3],
) -> Result<Refined, Refusal> {
    let [x, y, score] = place;
    match number {
        0 => Ok(Refined::Accepted(Estimate {
            x,
            y,
            score,
            converged: state[0] != 0,
            tries: state[1],
            covariance: (state[2] != 0).then_some(covariance),
        })),
        1 => Ok(Refined::Rejected { score }),
        2 => Ok(Refined::OutOfBounds),
        3 => Ok(Refined::IllConditioned),
        4 => Ok(Refined::BadSeed),
        5 => Ok(Refined::AboveMargin { score }),
        6 => Ok(Refined::TooSmall { score }),
        7 => Ok(Refined::NotFinite { score }),
        _ => Err(Refusal::of(number)),
    }
}

/// Refines one seed; the operator is built for it.
pub fn refine<'a>(
    image: impl Into<AnyImage<'a>>,
    config: SaddlePointConfig,
    seed: [f32; 2],
    covariance: bool,
) -> Result<Refined, Refusal> {
    let (mut place, mut state, mut entries) = ([0.0; 3], [0; 3], [0.0; 3]);
    // SAFETY: as above.
    let number = unsafe {
        by_depth!(
            image.into(),
            chess_corners_refine,
            chess_corners_refine_u16,
            config.radius,
            config.det_margin,
            config.max_offset,
            config.min_abs_det,
            seed[0],
            seed[1],
            u32::from(covariance),
            place.as_mut_ptr(),
            state.as_mut_ptr(),
            entries.as_mut_ptr(),
        )
    };
    told(number, place, state, entries)
}

/// Refines one seed with an operator that was built before; its radius takes
/// the place of the settings' own.
pub fn refine_with<'a>(
    image: impl Into<AnyImage<'a>>,
    config: SaddlePointConfig,
    operator: &Operator,
    seed: [f32; 2],
    covariance: bool,
) -> Result<Refined, Refusal> {
    let (mut place, mut state, mut entries) = ([0.0; 3], [0; 3], [0.0; 3]);
    // SAFETY: as above.
    let number = unsafe {
        by_depth!(
            image.into(),
            chess_corners_refine_with,
            chess_corners_refine_with_u16,
            operator.radius,
            config.det_margin,
            config.max_offset,
            config.min_abs_det,
            seed[0],
            seed[1],
            u32::from(covariance),
            operator.columns.as_ptr(),
            operator.overlap.as_ptr(),
            place.as_mut_ptr(),
            state.as_mut_ptr(),
            entries.as_mut_ptr(),
        )
    };
    told(number, place, state, entries)
}

/// Refines corners, x, y and strength of each: how many are accepted.
pub fn refine_list<'a>(
    image: impl Into<AnyImage<'a>>,
    config: SaddlePointConfig,
    corners: &[f32],
    out: &mut [f32],
) -> Result<usize, Refusal> {
    let mut count = 0;
    // SAFETY: as above.
    let number = unsafe {
        by_depth!(
            image.into(),
            chess_corners_refine_list,
            chess_corners_refine_list_u16,
            config.radius,
            config.det_margin,
            config.max_offset,
            config.min_abs_det,
            corners.as_ptr(),
            corners.len(),
            out.as_mut_ptr(),
            out.len(),
            &mut count,
        )
    };
    done(number, count)
}

/// Refines corners with the first settings, and those that these do not accept
/// from their own places with the second ones: how many are accepted. A byte for
/// each says which settings it was, 1 or 2.
pub fn refine_list_fallback<'a>(
    image: impl Into<AnyImage<'a>>,
    [first, second]: [SaddlePointConfig; 2],
    corners: &[f32],
    out: &mut [f32],
    passes: &mut [u8],
) -> Result<usize, Refusal> {
    let mut count = 0;
    // SAFETY: as above.
    let number = unsafe {
        by_depth!(
            image.into(),
            chess_corners_refine_list_fallback,
            chess_corners_refine_list_fallback_u16,
            first.radius,
            first.det_margin,
            first.max_offset,
            first.min_abs_det,
            second.radius,
            second.det_margin,
            second.max_offset,
            second.min_abs_det,
            corners.as_ptr(),
            corners.len(),
            out.as_mut_ptr(),
            out.len(),
            passes.as_mut_ptr(),
            passes.len(),
            &mut count,
        )
    };
    done(number, count)
}

/// The same with operators that were built before; their radii take the place
/// of the settings' own.
pub fn refine_list_fallback_with<'a>(
    image: impl Into<AnyImage<'a>>,
    [first, second]: [SaddlePointConfig; 2],
    operators: [&Operator; 2],
    corners: &[f32],
    out: &mut [f32],
    passes: &mut [u8],
) -> Result<usize, Refusal> {
    let mut count = 0;
    // SAFETY: as above.
    let number = unsafe {
        by_depth!(
            image.into(),
            chess_corners_refine_list_fallback_with,
            chess_corners_refine_list_fallback_with_u16,
            operators[0].radius,
            first.det_margin,
            first.max_offset,
            first.min_abs_det,
            operators[1].radius,
            second.det_margin,
            second.max_offset,
            second.min_abs_det,
            operators[0].columns.as_ptr(),
            operators[1].columns.as_ptr(),
            corners.as_ptr(),
            corners.len(),
            out.as_mut_ptr(),
            out.len(),
            passes.as_mut_ptr(),
            passes.len(),
            &mut count,
        )
    };
    done(number, count)
}

/// Merges corners in place: how many are kept.
pub fn merge(
    corners: &mut [f32],
    radius: f32,
    heads: &mut [u16],
    links: &mut [u16],
) -> Result<usize, Refusal> {
    let mut count = 0;
    // SAFETY: as above.
    let number = unsafe {
        raw::chess_corners_merge(
            corners.as_mut_ptr(),
            corners.len(),
            radius,
            heads.as_mut_ptr(),
            heads.len(),
            links.as_mut_ptr(),
            links.len(),
            &mut count,
        )
    };
    done(number, count)
}

/// How many heads the merge of these corners at this radius wants.
pub fn merge_heads(corners: &[f32], radius: f32) -> Result<usize, Refusal> {
    let mut heads = 0;
    // SAFETY: as above.
    let number = unsafe {
        raw::chess_corners_merge_heads(corners.as_ptr(), corners.len(), radius, &mut heads)
    };
    done(number, heads)
}

/// What the number of a tie says; only 33 and 34 have written the place.
fn tied(number: u32, place: usize) -> Result<(), Untied> {
    done(number, ()).map_err(|refusal| Untied {
        refusal,
        place: matches!(refusal, Refusal::NoCorner | Refusal::UsedTwice).then_some(place),
    })
}

/// Ties to each place of a board the nearest corner, x, y and strength of each,
/// if every squared distance is within the limit and no corner serves two
/// places: the number of its corner for each place, to `answers`, which stay as
/// they were where it is refused.
pub fn tie_corners(
    board: Board<'_>,
    limit: f32,
    corners: &[f32],
    answers: &mut [u16],
) -> Result<(), Untied> {
    let mut place = 0;
    // SAFETY: as above.
    let number = unsafe {
        raw::chess_corners_tie(
            board.rows,
            board.columns,
            board.places.as_ptr(),
            board.places.len(),
            limit,
            corners.as_ptr(),
            corners.len(),
            answers.as_mut_ptr(),
            answers.len(),
            &mut place,
        )
    };
    tied(number, place)
}

/// Why a number that is not 0 refused a graymap; only 24 has written the pixel.
fn unread(number: u32, pixel: usize) -> Unread {
    let refusal = Refusal::of(number);
    Unread {
        refusal,
        pixel: (refusal == Refusal::AboveMaximum).then_some(pixel),
    }
}

/// Reads a binary graymap (Netpbm P5). The pixels are the file's own.
pub fn graymap(file: &[u8]) -> Result<Graymap<'_>, Unread> {
    let (mut width, mut height, mut maximum, mut start, mut pixel) = (0, 0, 0, 0, 0);
    // SAFETY: as above.
    let number = unsafe {
        raw::chess_corners_graymap(
            file.as_ptr(),
            file.len(),
            &mut width,
            &mut height,
            &mut maximum,
            &mut start,
            &mut pixel,
        )
    };
    if number != 0 {
        return Err(unread(number, pixel));
    }
    Ok(Graymap {
        width,
        height,
        maximum: maximum as u8,
        pixels: &file[start..],
    })
}

/// Reads a binary graymap with a maximum of 256 to 4095, two bytes a sample, high
/// first. Its samples go to `out`, which has exactly as many elements, and stays
/// as it was where the file is refused.
pub fn graymap_u16(file: &[u8], out: &mut [u16]) -> Result<DeepGraymap, Unread> {
    let (mut width, mut height, mut maximum, mut start, mut pixel) = (0, 0, 0, 0, 0);
    // SAFETY: as above.
    let number = unsafe {
        raw::chess_corners_graymap_u16(
            file.as_ptr(),
            file.len(),
            out.as_mut_ptr(),
            out.len(),
            &mut width,
            &mut height,
            &mut maximum,
            &mut start,
            &mut pixel,
        )
    };
    if number != 0 {
        return Err(unread(number, pixel));
    }
    Ok(DeepGraymap {
        width,
        height,
        maximum: maximum as u16,
    })
}

/// Saves the records of a corner file that are whole, finite and inside an image
/// of that size, to the bit, to `out`, and to `faults` a pair for each other
/// one: its number and the reason, 1 cut, 2 not finite, 3 outside. What lies
/// behind stays, in both; so do both where it is refused.
pub fn salvage(
    file: &[u8],
    width: usize,
    height: usize,
    out: &mut [u8],
    faults: &mut [u16],
) -> Result<Salvaged, Refusal> {
    let (mut kept, mut dropped) = (0, 0);
    // SAFETY: as above.
    let number = unsafe {
        raw::chess_corners_salvage(
            file.as_ptr(),
            file.len(),
            width,
            height,
            out.as_mut_ptr(),
            out.len(),
            faults.as_mut_ptr(),
            faults.len(),
            &mut kept,
            &mut dropped,
        )
    };
    done(number, Salvaged { kept, dropped })
}

/// Counts the first `count` corners of a list, x, y and strength of each, by
/// tile of an image of that size: the 64 tiles by row, then those outside or
/// not finite.
pub fn coverage(
    width: usize,
    height: usize,
    list: &[f32; 12288],
    count: usize,
    counts: &mut [u16; 65],
) -> Result<(), Refusal> {
    // SAFETY: as above, and the arrays are as long as the call asks.
    let number = unsafe {
        raw::chess_corners_coverage(width, height, list.as_ptr(), count, counts.as_mut_ptr())
    };
    done(number, ())
}

/// One corner more, x, y and strength, at the end of the list and in its tile.
pub fn coverage_add(
    width: usize,
    height: usize,
    list: &mut [f32; 12288],
    count: &mut usize,
    counts: &mut [u16; 65],
    corner: [f32; 3],
) -> Result<(), Refusal> {
    let [x, y, strength] = corner;
    // SAFETY: as above.
    let number = unsafe {
        raw::chess_corners_coverage_add(
            width,
            height,
            list.as_mut_ptr(),
            count,
            counts.as_mut_ptr(),
            x,
            y,
            strength,
        )
    };
    done(number, ())
}

/// Another corner, x, y and strength, in the place of the one of that number.
pub fn coverage_replace(
    width: usize,
    height: usize,
    list: &mut [f32; 12288],
    count: usize,
    counts: &mut [u16; 65],
    number: usize,
    corner: [f32; 3],
) -> Result<(), Refusal> {
    let [x, y, strength] = corner;
    // SAFETY: as above.
    let number = unsafe {
        raw::chess_corners_coverage_replace(
            width,
            height,
            list.as_mut_ptr(),
            count,
            counts.as_mut_ptr(),
            number,
            x,
            y,
            strength,
        )
    };
    done(number, ())
}

/// Leaves out the corner of that number; the later ones move down by one, and
/// the record that is freed is +0.0.
pub fn coverage_drop(
    width: usize,
    height: usize,
    list: &mut [f32; 12288],
    count: &mut usize,
    counts: &mut [u16; 65],
    number: usize,
) -> Result<(), Refusal> {
    // SAFETY: as above.
    let number = unsafe {
        raw::chess_corners_coverage_drop(
            width,
            height,
            list.as_mut_ptr(),
            count,
            counts.as_mut_ptr(),
            number,
        )
    };
    done(number, ())
}

/// Adds `scale` times the gradient of the response at the cell `[x, y]` of a
/// tile, side times side bytes, to the grid, two numbers a cell: how the
/// response moves with each sample. Every place of the ring and of the cross
/// must lie on the tile.
pub fn add_gradient(
    tile: &[u8],
    side: usize,
    ring: &[(i32, i32); 16],
    [x, y]: [usize; 2],
    [scale_x, scale_y]: [f32; 2],
    grid: &mut [f32],
) -> Result<(), Refusal> {
    let ring = flat(ring);
    // SAFETY: as above.
    let number = unsafe {
        raw::chess_corners_gradient(
            tile.as_ptr(),
            tile.len(),
            side,
            ring.as_ptr(),
            x,
            y,
            scale_x,
            scale_y,
            grid.as_mut_ptr(),
            grid.len(),
        )
    };
    done(number, ())
}

#[cfg(test)]
mod tests {
    use super::*;

    #[test]
    fn named_numbers_go_both_ways() {
        for refusal in NAMED {
            assert_eq!(Refusal::of(refusal.number()), refusal);
        }
        let numbers: Vec<u32> = (0..=u8::MAX.into())
            .filter(|&number| !matches!(Refusal::of(number), Refusal::Other(_)))
            .collect();
        assert_eq!(
            numbers,
            [
                3, 10, 11, 12, 13, 14, 15, 16, 17, 18, 19, 20, 21, 22, 23, 24, 25, 26, 27, 30, 31,
                32, 33, 34, 35
            ]
        );
    }

    #[test]
    fn a_number_without_a_name_is_told() {
        for number in [1, 2, 4, 9, 28, 36, u32::MAX] {
            assert_eq!(Refusal::of(number), Refusal::Other(number));
            assert_eq!(Refusal::of(number).number(), number);
            assert_eq!(done(number, ()), Err(Refusal::Other(number)));
        }
        let told = told(77, [0.0; 3], [0; 3], [0.0; 3]);
        assert_eq!(told.err(), Some(Refusal::Other(77)));
        assert_eq!(Refusal::Other(77).to_string(), "Other (77)");
        let untied = tied(77, 5).unwrap_err();
        assert_eq!((untied.refusal, untied.place), (Refusal::Other(77), None));
        assert_eq!(untied.to_string(), "Other (77)");
    }

    #[test]
    fn a_place_comes_with_33_and_34_alone() {
        for refusal in NAMED {
            let place = [33, 34].contains(&refusal.number()).then_some(5);
            assert_eq!(tied(refusal.number(), 5), Err(Untied { refusal, place }));
        }
        let untied = tied(33, 5).unwrap_err();
        assert_eq!(untied.to_string(), "NoCorner (33) at place 5");
    }

    /// Through the library: a refusal that it has, and a radius that is none.
    #[test]
    fn the_library_refuses_by_name() {
        assert_eq!(Operator::new(0).err(), Some(Refusal::IllConditioned));
        assert_eq!(Operator::new(8).err(), Some(Refusal::BadRadius));
        assert!(Operator::new(2).is_ok());
    }

    /// Through the library: a seed that is no number, at radius 0 too, after 12
    /// and before 2; a finite one, however far, is not.
    #[test]
    fn the_library_names_a_seed_that_is_no_number() {
        let image = Image::new(&[9; 9], 3, 3);
        let ask = |radius, max_offset, seed| {
            let config = SaddlePointConfig {
                radius,
                det_margin: 1e-3,
                max_offset,
                min_abs_det: 1e-4,
            };
            refine(image, config, seed, true)
        };
        for bad in [f32::NAN, f32::INFINITY, f32::NEG_INFINITY] {
            for seed in [[bad, 1.0], [1.0, bad], [99.0, bad]] {
                for radius in [0, 1, 7] {
                    assert!(matches!(ask(radius, 1.5, seed), Ok(Refined::BadSeed)));
                }
                assert_eq!(ask(1, -1.0, seed).err(), Some(Refusal::BadLimit));
            }
        }
        let far = ask(1, 1.5, [f32::MAX, 1.0]);
        assert!(matches!(far, Ok(Refined::OutOfBounds)));
    }

    /// A saddle of 9 by 9 at (4, 4), with its rows so far apart and that behind
    /// them.
    fn saddle(pitch: usize, padding: u8) -> Vec<u8> {
        let mut bytes = vec![padding; 9 * pitch];
        for y in 0..9 {
            for x in 0..9 {
                let (dx, dy) = (x as i32 - 4, y as i32 - 4);
                bytes[y * pitch + x] = (128 + 2 * dx * dx - 2 * dy * dy) as u8;
            }
        }
        bytes
    }

    fn config(radius: usize) -> SaddlePointConfig {
        SaddlePointConfig {
            radius,
            det_margin: 1e-3,
            max_offset: 1.5,
            min_abs_det: 1e-4,
        }
    }

    /// All that the four calls say of an image of 9 by 9.
    fn seen(bytes: &[u8], pitch: usize) -> String {
        let image = Image {
            pitch,
            ..Image::new(bytes, 9, 9)
        };
        let roi = Roi {
            x0: 0,
            y0: 0,
            x1: 9,
            y1: 9,
        };
        let (mut values, mut list) = ([7.0; 81], [7.0; 3]);
        let ring = core::array::from_fn(|k| ([-3, -1, 2, 3][k / 4], [3, 1, -2, -3][k % 4]));
        let size = response(image, &ring, 3, roi, &mut values);
        let seed = [4.3, 3.8];
        let one = refine(image, config(2), seed, true);
        let with = refine_with(image, config(2), &Operator::new(2).unwrap(), seed, true);
        let count = refine_list(image, config(2), &[seed[0], seed[1], 1.0], &mut list);
        format!("{size:?} {values:?} {one:?} {with:?} {count:?} {list:?}")
    }

    /// Through the library: the same without padding and with any.
    #[test]
    fn the_library_does_not_see_padding() {
        let whole = seen(&saddle(9, 0), 9);
        assert!(whole.contains("Ok((9, 9))") && whole.contains("Ok(1)"));
        for pitch in [10, 13, 64, 8192] {
            for padding in [0, 1, 128, 255] {
                assert_eq!(seen(&saddle(pitch, padding), pitch), whole);
            }
        }
        let by_width = seen(&saddle(13, 1)[..81], 9);
        assert_ne!(by_width, whole);
    }

    /// Through the library: a corner too near the rim for the first radius is
    /// the second's, with its own and with lent operators; one that neither
    /// accepts leaves no record and no byte.
    #[test]
    fn the_library_tries_again() {
        let bytes = saddle(9, 0);
        let image = Image::new(&bytes, 9, 9);
        let both = [config(4), config(2)];
        let operators = [4, 2].map(|radius| Operator::new(radius).unwrap());
        let corners = [5.0, 3.0, 1.0, 4.1, 4.0, 2.0, 0.0, 0.0, 3.0];
        let (mut out, mut passes) = ([7.0; 9], [9; 3]);
        let count = refine_list_fallback(image, both, &corners, &mut out, &mut passes);
        let (mut lent, mut marks) = ([7.0; 9], [9; 3]);
        let [first, second] = &operators;
        let with = [first, second];
        let again = refine_list_fallback_with(image, both, with, &corners, &mut lent, &mut marks);
        assert_eq!((count, passes), (Ok(2), [2, 1, 9]));
        assert_eq!((again, marks, lent), (count, passes, out));
        assert_eq!((out[2], out[5], &out[6..]), (1.0, 2.0, &[7.0; 3][..]));
        let mut alone = [7.0; 9];
        assert_eq!(refine_list(image, both[0], &corners, &mut alone), Ok(1));
        assert_eq!(out[3..6], alone[..3]);
        let few = refine_list_fallback(image, both, &corners, &mut out, &mut passes[..2]);
        assert_eq!(few, Err(Refusal::BadOut));
    }

    /// Through the library: each wrong pitch and count.
    #[test]
    fn the_library_refuses_a_wrong_pitch() {
        let bytes = vec![9; 8 * 8193];
        let ask = |pitch: usize, count: usize| {
            let image = Image {
                pitch,
                ..Image::new(&bytes[..count], 9, 8)
            };
            refine(image, config(1), [4.0, 4.0], false).map(|seed| seed.number())
        };
        for pitch in [9, 10, 64, 8192] {
            assert_eq!(ask(pitch, 8 * pitch), Ok(5));
        }
        for (pitch, count) in [
            (8, 64),
            (8193, 8 * 8193),
            (10, 72),
            (10, 79),
            (10, 81),
            (0, 0),
            ((1 << 32) + 9, 72),
            ((1 << 61) + 9, 72),
            (usize::MAX, 72),
        ] {
            assert_eq!(ask(pitch, count), Err(Refusal::BadImage));
        }
    }

    #[test]
    fn a_seed_has_its_number_and_score() {
        for number in 0..=7 {
            let seed = told(number, [1.0, 2.0, -3.0], [0; 3], [0.0; 3]).unwrap();
            assert_eq!(seed.number(), number);
            let score = match seed {
                Refined::Accepted(Estimate { score, .. })
                | Refined::Rejected { score }
                | Refined::AboveMargin { score }
                | Refined::TooSmall { score }
                | Refined::NotFinite { score } => Some(score),
                Refined::OutOfBounds | Refined::IllConditioned | Refined::BadSeed => None,
            };
            let without = [2, 3, 4].contains(&number);
            assert_eq!(score, (!without).then_some(-3.0));
        }
        for number in [8, 9] {
            let told = told(number, [0.0; 3], [0; 3], [0.0; 3]);
            assert_eq!(told.err(), Some(Refusal::Other(number)));
        }
    }

    /// Through the library: which test refuses a flat image, by the limits, and
    /// what a reader of the old numbers gets of it.
    #[test]
    fn the_library_says_why_a_fit_is_refused() {
        let image = Image::new(&[9; 9], 3, 3);
        let ask = |radius, det_margin, min_abs_det| {
            let config = SaddlePointConfig {
                radius,
                det_margin,
                max_offset: 1.5,
                min_abs_det,
            };
            refine(image, config, [1.0, 1.0], false).map(|seed| seed.number())
        };
        assert_eq!(ask(1, 1e-3, 1e-4), Ok(5));
        assert_eq!(ask(1, 0.0, 1e-4), Ok(6));
        assert_eq!(ask(1, 0.0, 0.0), Ok(7));
        assert_eq!(ask(0, 0.0, 0.0), Ok(3));
        for number in 0..=40 {
            let old = if (5..=7).contains(&number) { 3 } else { number };
            assert_eq!(old_number(number), old);
        }
        assert_eq!(old_number(u32::MAX), u32::MAX);
    }

    /// Through the library: (2, 2) and (3, 2) have the same value.
    #[test]
    fn the_library_gives_the_first_of_equal_neighbours() {
        let settings = PeakSettings {
            ring_radius: 1,
            window_radius: 1,
            refine_radius: 0,
            threshold: 0.0,
            min_cluster_size: 1,
        };
        let mut response = [0.0; 30];
        response[14] = 5.0;
        response[15] = 5.0;
        let mut out = [7.0; 6];
        assert_eq!(peaks(&response, 6, 5, settings, &mut out), Ok(1));
        assert_eq!(out, [2.0, 2.0, 5.0, 7.0, 7.0, 7.0]);
    }

    /// Through the library: the places (0, 0) and (5, 0), and answers that held 7.
    #[test]
    fn the_library_ties_or_names_the_place() {
        let tie = |rows: usize, limit: f32, corners: &[f32]| {
            let board = Board {
                rows,
                columns: 3,
                places: &[0.0, 0.0, 5.0, 0.0],
            };
            let mut answers = [7; 2];
            let said = tie_corners(board, limit, corners, &mut answers);
            (said, answers)
        };
        let untied = |refusal, place| (Err(Untied { refusal, place }), [7; 2]);
        let (left, right) = ([0.0, 2.0, 1.0], [5.0, 0.0, 1.0]);
        let both = [right, left].concat();
        assert_eq!(tie(2, 4.0, &both), (Ok(()), [1, 0]));
        assert_eq!(tie(2, -0.0, &both), untied(Refusal::NoCorner, Some(0)));
        assert_eq!(tie(2, 4.0, &left), untied(Refusal::NoCorner, Some(1)));
        assert_eq!(tie(2, 29.0, &left), untied(Refusal::UsedTwice, Some(1)));
        assert_eq!(tie(1, -1.0, &left[1..]), untied(Refusal::BadBoard, None));
        assert_eq!(tie(2, -1.0, &left[1..]), untied(Refusal::BadPlaces, None));
        assert_eq!(tie(2, 4.0, &left[1..]), untied(Refusal::BadList, None));
    }

    #[test]
    fn a_pixel_comes_with_24_alone() {
        for refusal in NAMED {
            let pixel = (refusal.number() == 24).then_some(5);
            assert_eq!(unread(refusal.number(), 5), Unread { refusal, pixel });
        }
        assert_eq!(unread(24, 5).to_string(), "AboveMaximum (24) at pixel 5");
        assert_eq!(unread(77, 5).to_string(), "Other (77)");
    }

    /// Through the library: the pixels are the file's own bytes, and each number.
    #[test]
    fn the_library_reads_a_graymap_or_says_why_not() {
        let file = b"P5 # of a bench camera\r\n2 3\n#\n200\n#\n\x00\xc8\x01\x02";
        let read = graymap(file).unwrap();
        assert_eq!((read.width, read.height, read.maximum), (2, 3, 200));
        assert_eq!(read.pixels.as_ptr_range().end, file.as_ptr_range().end);
        assert_eq!(read.pixels, b"#\n\x00\xc8\x01\x02");
        assert_eq!(read.image().pitch, 2);
        for (number, file) in [
            (20, &b"P5#\n1 1 9\n\0"[..]),
            (20, b"P5"),
            (21, b"P5 1 1 9#\n\0"),
            (21, b"P5 0 1 256\n\0"),
            (22, b"P5 1 18446744073709551617 9\n\0"),
            (23, b"P5 1 2 9\n\xff"),
            (25, b"P5 1 1 9\n\x09\n"),
        ] {
            let refusal = Refusal::of(number);
            let pixel = None;
            assert_eq!(graymap(file), Err(Unread { refusal, pixel }));
        }
        let above = graymap(b"P5 2 2 9\n\x09\x00\x0a\xff\n").unwrap_err();
        assert_eq!(above, unread(24, 2));
        assert!(graymap(b"").is_err());
    }

    /// The bytes of a corner file with so many of a record that is cut.
    fn corner_file(records: &[[f32; 3]], cut: usize) -> Vec<u8> {
        let numbers = records.iter().flatten();
        let mut file: Vec<u8> = numbers.flat_map(|value| value.to_le_bytes()).collect();
        file.extend(vec![0; cut]);
        file
    }

    /// Through the library, in an image of 4 by 3: each reason, the bits of what
    /// is kept, and what lies behind it; a second run drops nothing.
    #[test]
    fn the_library_salvages_a_corner_file() {
        let (first, second) = ([-0.0, 2.0, -1.5], [3.0, 0.0, 1e-45]);
        let good = corner_file(&[first, second], 0);
        let (outside, no_number) = ([3.5, 0.0, 1.0], [-1.0, 0.0, f32::NAN]);
        let file = corner_file(&[first, outside, second, no_number], 5);
        let (mut out, mut faults) = ([9; 25], [9; 8]);
        let saved = salvage(&file, 4, 3, &mut out, &mut faults);
        let (kept, dropped) = (2, 3);
        assert_eq!(saved, Ok(Salvaged { kept, dropped }));
        assert_eq!(out[..24], good);
        assert_eq!((out[24], faults), (9, [1, 3, 3, 2, 4, 1, 9, 9]));
        let (mut again, mut none) = ([9; 24], []);
        let saved = salvage(&out[..24], 4, 3, &mut again, &mut none);
        assert_eq!(saved, Ok(Salvaged { kept, dropped: 0 }));
        assert_eq!(again[..], good);
        let turned = salvage(&file, 3, 4, &mut out, &mut faults);
        let (kept, dropped) = (1, 4);
        assert_eq!(turned, Ok(Salvaged { kept, dropped }));
    }

    /// Through the library: each number, in its order, with nothing written.
    #[test]
    fn the_library_refuses_to_salvage_by_name() {
        let ask = |records: usize, cut: usize, width: usize, room: (usize, usize)| {
            let file = corner_file(&vec![[0.0; 3]; records], cut);
            let (mut out, mut faults) = (vec![9; room.0], vec![9; room.1]);
            let said = salvage(&file, width, 1, &mut out, &mut faults);
            if said.is_err() {
                assert!(out.iter().all(|&byte| byte == 9));
                assert!(faults.iter().all(|&number| number == 9));
            }
            said.map(|saved| (saved.kept, saved.dropped))
        };
        assert_eq!(ask(4096, 11, 1, (49152, 2)), Ok((4096, 1)));
        assert_eq!(ask(0, 0, 4096, (0, 0)), Ok((0, 0)));
        for width in [0, 4097, usize::MAX] {
            assert_eq!(ask(4097, 0, width, (0, 0)), Err(Refusal::BadImage));
        }
        assert_eq!(ask(4097, 0, 1, (0, 0)), Err(Refusal::TooMany));
        assert_eq!(ask(4096, 11, 1, (49151, 2)), Err(Refusal::BadOut));
        assert_eq!(ask(4096, 11, 1, (49152, 1)), Err(Refusal::BadOut));
    }

    /// 65 counts, 1 in each of these tiles and 0 in the others.
    fn one_in(tiles: &[usize]) -> [u16; 65] {
        core::array::from_fn(|tile| tiles.contains(&tile).into())
    }

    /// Through the library, in an image of 16 by 8: what each call does to the
    /// list, its count and the counts, which are those worked out afresh.
    #[test]
    fn the_library_keeps_the_coverage_of_a_list() {
        let (mut list, mut count, mut counts) = ([7.0; 12288], 0, [9; 65]);
        let afresh = |list: &[f32; 12288], count: usize| {
            let mut counts = [9; 65];
            coverage(16, 8, list, count, &mut counts).map(|()| counts)
        };
        assert_eq!(coverage(16, 8, &list, 0, &mut counts), Ok(()));
        assert_eq!(counts, [0; 65]);
        for corner in [[15.5, 7.5, 1.0], [-0.5, 0.0, 2.0], [-0.0, 1.0, 3.0]] {
            let said = coverage_add(16, 8, &mut list, &mut count, &mut counts, corner);
            assert_eq!(said, Ok(()));
        }
        assert_eq!((count, counts), (3, one_in(&[63, 64, 8])));
        assert_eq!(
            list[..10],
            [15.5, 7.5, 1.0, -0.5, 0.0, 2.0, -0.0, 1.0, 3.0, 7.0]
        );
        assert_eq!(afresh(&list, count), Ok(counts));
        let corner = [2.0, 0.0, f32::INFINITY];
        let said = coverage_replace(16, 8, &mut list, count, &mut counts, 1, corner);
        assert_eq!((said, counts), (Ok(()), one_in(&[63, 1, 8])));
        assert_eq!(list[..6], [15.5, 7.5, 1.0, 2.0, 0.0, f32::INFINITY]);
        assert_eq!(afresh(&list, count), Ok(counts));
        let said = coverage_drop(16, 8, &mut list, &mut count, &mut counts, 0);
        assert_eq!((said, count, counts), (Ok(()), 2, one_in(&[1, 8])));
        assert_eq!(
            list[..10],
            [2.0, 0.0, f32::INFINITY, -0.0, 1.0, 3.0, 0.0, 0.0, 0.0, 7.0]
        );
        assert!(list[9..].iter().all(|&value| value == 7.0));
        assert_eq!(afresh(&list, count), Ok(counts));
    }

    /// Through the library: counts that are not the list's, at both ends.
    #[test]
    fn the_library_counts_from_0_to_65535() {
        let (mut list, mut count, mut counts) = ([0.0; 12288], 0, [65535; 65]);
        let corner = [f32::NAN, 0.0, 1.0];
        let said = coverage_add(1, 1, &mut list, &mut count, &mut counts, corner);
        assert_eq!((said, count, counts), (Ok(()), 1, [65535; 65]));
        counts = [0; 65];
        let said = coverage_drop(1, 1, &mut list, &mut count, &mut counts, 0);
        assert_eq!((said, count, counts), (Ok(()), 0, [0; 65]));
    }

    /// Through the library: each number, in its order, with nothing written.
    #[test]
    fn the_library_refuses_coverage_by_name() {
        // Afresh, adding, replacing, dropping.
        let ask = |width: usize, held: usize, number: usize| {
            [0, 1, 2, 3].map(|call| {
                let (mut list, mut count, mut counts) = ([7.0; 12288], held, [9; 65]);
                let corner = [0.0; 3];
                let said = match call {
                    0 => coverage(width, 1, &list, count, &mut counts),
                    1 => coverage_add(width, 1, &mut list, &mut count, &mut counts, corner),
                    2 => coverage_replace(width, 1, &mut list, count, &mut counts, number, corner),
                    _ => coverage_drop(width, 1, &mut list, &mut count, &mut counts, number),
                };
                if said.is_err() {
                    assert!(list == [7.0; 12288] && count == held && counts == [9; 65]);
                }
                said.err()
            })
        };
        let [image, many, none] =
            [Refusal::BadImage, Refusal::TooMany, Refusal::NoSuchCorner].map(Some);
        for width in [0, 4097, usize::MAX] {
            assert_eq!(ask(width, 4097, 4097), [image; 4]);
        }
        for held in [4097, usize::MAX] {
            assert_eq!(ask(4096, held, 0), [many; 4]);
            assert_eq!(ask(4096, held, usize::MAX), [many; 4]);
        }
        assert_eq!(ask(1, 4096, 4095), [None, many, None, None]);
        assert_eq!(ask(1, 4096, 4096), [None, many, none, none]);
        assert_eq!(ask(1, 4095, 4094), [None; 4]);
        assert_eq!(ask(1, 0, 0), [None, None, none, none]);
        assert_eq!(ask(1, 0, usize::MAX), [None, None, none, none]);
    }

    /// The eight cells about the middle of 3 by 3, twice.
    const AROUND: [(i32, i32); 16] = {
        let eight = [
            (-1, -1),
            (0, -1),
            (1, -1),
            (1, 0),
            (1, 1),
            (0, 1),
            (-1, 1),
            (-1, 0),
        ];
        let mut ring = [(0, 0); 16];
        let mut k = 0;
        while k < 16 {
            ring[k] = eight[k % 8];
            k += 1;
        }
        ring
    };

    /// Through the library: a dark middle moves the ring's mean alone, and a
    /// level tile nothing.
    #[test]
    fn the_library_adds_a_gradient() {
        let dark = [10, 10, 10, 10, 0, 10, 10, 10, 10];
        let mut grid = [0.0; 18];
        let said = add_gradient(&dark, 3, &AROUND, [1, 1], [1.0, 2.0], &mut grid);
        assert_eq!(said, Ok(()));
        let x = [-2.0, 1.2, -2.0, 1.2, 3.2, 1.2, -2.0, 1.2, -2.0];
        for (cell, &want) in x.iter().enumerate() {
            let want = if want == 1.2 { 3.2f32 - 2.0 } else { want };
            assert_eq!(grid[2 * cell..2 * cell + 2], [want, 2.0 * want]);
        }
        let mut grid = [7.0; 18];
        let said = add_gradient(
            &[10; 9],
            3,
            &AROUND,
            [1, 1],
            [1.0, f32::INFINITY],
            &mut grid,
        );
        assert_eq!(said, Ok(()));
        assert!(grid[0] == 7.0 && grid[1].is_nan() && grid[8..10] == [7.0; 2]);
    }

    /// Through the library: each number, in its order, with nothing written.
    #[test]
    fn the_library_refuses_a_gradient_by_name() {
        let ask = |tile: usize, side: usize, at: [usize; 2], room: usize| {
            let mut grid = vec![7.0; room];
            let said = add_gradient(&vec![1; tile], side, &AROUND, at, [1.0; 2], &mut grid);
            assert!(said.is_ok() || grid.iter().all(|&g| g == 7.0));
            said.err()
        };
        let [image, ring, out] = [Refusal::BadImage, Refusal::BadRing, Refusal::BadOut].map(Some);
        assert_eq!(ask(9, 3, [1, 1], 18), None);
        assert_eq!(ask(9, 3, [1, 1], 17), out);
        for at in [
            [0, 1],
            [2, 1],
            [1, 2],
            [3, 1],
            [usize::MAX, 1],
            [1, usize::MAX],
        ] {
            assert_eq!(ask(9, 3, at, 17), ring);
        }
        for (tile, side) in [(8, 3), (0, 1 << 32), (0, usize::MAX), (1, usize::MAX)] {
            assert_eq!(ask(tile, side, [usize::MAX; 2], 1), image);
        }
        assert_eq!(ask(0, 0, [0, 0], 0), ring);
    }

    /// Through the library: words that hold bytes answer as the bytes, a sample
    /// of 4096 is refused by name, and padding is not looked at.
    #[test]
    fn the_library_takes_twelve_bits() {
        let bytes: Vec<u8> = (0..15 * 15u32).map(|k| (k * k * 7 % 251) as u8).collect();
        let mut words: Vec<u16> = bytes.iter().map(|&b| u16::from(b)).collect();
        let whole = Roi {
            x0: 0,
            y0: 0,
            x1: 15,
            y1: 15,
        };
        let ask = |image: AnyImage<'_>, out: &mut [f32]| response(image, &RING5, 5, whole, out);
        let (mut one, mut two) = ([1.0; 225], [2.0; 225]);
        assert_eq!(
            ask(Image::new(&bytes, 15, 15).into(), &mut one),
            Ok((15, 15))
        );
        assert_eq!(
            ask(DeepImage::new(&words, 15, 15).into(), &mut two),
            Ok((15, 15))
        );
        assert_eq!(one, two);
        let config = SaddlePointConfig::default();
        let seeds = [7.0, 7.0, 1.0, 5.2, 8.4, 2.0];
        let (mut one, mut two) = ([1.0; 6], [1.0; 6]);
        let counted = refine_list(Image::new(&bytes, 15, 15), config, &seeds, &mut one);
        let deep = refine_list(DeepImage::new(&words, 15, 15), config, &seeds, &mut two);
        assert_eq!((counted, one), (deep, two));
        words[224] = 4096;
        let padded = DeepImage {
            words: &words,
            width: 14,
            height: 15,
            pitch: 15,
        };
        assert!(refine(padded, config, [7.0; 2], false).is_ok());
        let refused = refine(DeepImage::new(&words, 15, 15), config, [7.0; 2], false);
        assert_eq!(refused.err(), Some(Refusal::BadSample));
    }

    /// Through the library: two bytes a sample, high first; a buffer of another
    /// length is refused last, and stays as it was.
    #[test]
    fn the_library_reads_a_deep_graymap() {
        let file = b"P5 2 1 4095\n\x01\x02\x0f\xff";
        let mut out = [7; 2];
        let read = graymap_u16(file, &mut out);
        let said = DeepGraymap {
            width: 2,
            height: 1,
            maximum: 4095,
        };
        assert_eq!((read, out), (Ok(said), [258, 4095]));
        let mut long = [7; 3];
        let refused = graymap_u16(file, &mut long).unwrap_err();
        assert_eq!((refused.refusal, long), (Refusal::BadBuffer, [7; 3]));
        let above = graymap_u16(b"P5 2 1 256\n\x01\x00\x01\x01", &mut out).unwrap_err();
        assert_eq!(
            (above.refusal, above.pixel),
            (Refusal::AboveMaximum, Some(1))
        );
    }

    /// Through the library: the heads that are wanted serve, and one less does not.
    #[test]
    fn the_heads_that_are_wanted_serve() {
        let corners = [0.0, 0.0, 1.0, 10.0, 4.0, 2.0];
        assert_eq!(merge_heads(&corners, 2.0), Ok(6 * 3));
        for (heads, said) in [(18, Ok(2)), (17, Err(Refusal::GridTooBig))] {
            let mut list = corners;
            assert_eq!(
                merge(&mut list, 2.0, &mut vec![0; heads], &mut [0; 2]),
                said
            );
        }
        assert_eq!(merge_heads(&[], 2.0), Ok(0));
        assert_eq!(merge_heads(&corners[..4], 2.0), Err(Refusal::BadLength));
    }
}
