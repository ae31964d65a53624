//! The exported functions of the crate `chess_corners`, behind slices and with
//! their bare numbers. A slice crosses as a pointer and a length, a reference as
//! a pointer.

use chess_corners::raw;
pub use chess_corners::{PeakSettings, SaddlePointConfig as Settings};
use oracle::types::{Asked, Board, Region, Ring};

/// An image as it is lent: words where it is deep, else bytes.
#[derive(Clone, Copy)]
pub struct Image<'a> {
    pub bytes: &'a [u8],
    pub words: Option<&'a [u16]>,
    pub width: usize,
    pub height: usize,
    pub pitch: usize,
}

impl<'a> Image<'a> {
    /// Bytes, in rows without padding.
    pub fn new(bytes: &'a [u8], width: usize, height: usize) -> Self {
        Image {
            bytes,
            words: None,
            width,
            height,
            pitch: width,
        }
    }
}

/// The call of the image's depth.
macro_rules! by_depth {
    ($image:ident, $bytes:ident, $words:ident, $($rest:expr),* $(,)?) => {{
        let Image { bytes, words, width, height, pitch } = $image;
        match words {
            None => raw::$bytes(bytes.as_ptr(), bytes.len(), width, height, pitch, $($rest),*),
            Some(words) => {
                raw::$words(words.as_ptr(), words.len(), width, height, pitch, $($rest),*)
            }
        }
    }};
}

/// Floats of the operator: five a sample of radius 7, and nine overlaps of 5
/// by 5.
pub const COLUMNS: usize = 1125;
pub const OVERLAP: usize = 225;

/// What a seed's answer is written to: x, y, score; converged, tries, whether
/// there is a covariance; and that.
pub struct Answer<'a> {
    pub place: &'a mut [f32; 3],
    pub state: &'a mut [u32; 3],
    pub covariance: &'a mut [f32; 3],
}

/// Document 01's number.
pub fn refine(
    image: Image<'_>,
    s: Settings,
    [x, y]: [f32; 2],
    wanted: u32,
    answer: Answer<'_>,
) -> u32 {
    // SAFETY: as for the response below.
    unsafe {
        by_depth!(
            image,
            chess_corners_refine,
            chess_corners_refine_u16,
            s.radius,
            s.det_margin,
            s.max_offset,
            s.min_abs_det,
            x,
            y,
            wanted,
            answer.place.as_mut_ptr(),
            answer.state.as_mut_ptr(),
            answer.covariance.as_mut_ptr(),
        )
    }
}

/// The same with a lent operator.
pub fn refine_with(
    image: Image<'_>,
    s: Settings,
    [x, y]: [f32; 2],
    wanted: u32,
    columns: &[f32; COLUMNS],
    overlap: &[f32; OVERLAP],
    answer: Answer<'_>,
) -> u32 {
    // SAFETY: as for the response below.
    unsafe {
        by_depth!(
            image,
            chess_corners_refine_with,
            chess_corners_refine_with_u16,
            s.radius,
            s.det_margin,
            s.max_offset,
            s.min_abs_det,
            x,
            y,
            wanted,
            columns.as_ptr(),
            overlap.as_ptr(),
            answer.place.as_mut_ptr(),
            answer.state.as_mut_ptr(),
            answer.covariance.as_mut_ptr(),
        )
    }
}

/// The number for a reader of the old ones.
pub fn old_number(number: u32) -> u32 {
    chess_corners::old_number(number)
}

/// Document 01's number, 3 where there is no operator.
pub fn fit_operator(
    radius: usize,
    columns: &mut [f32; COLUMNS],
    overlap: &mut [f32; OVERLAP],
) -> u32 {
    // SAFETY: as for the response below.
    unsafe { raw::chess_corners_fit_operator(radius, columns.as_mut_ptr(), overlap.as_mut_ptr()) }
}

/// Document 01's number; `count` takes the number of records written.
pub fn refine_list(
    image: Image<'_>,
    s: Settings,
    corners: &[f32],
    out: &mut [f32],
    count: &mut usize,
) -> u32 {
    // SAFETY: as for the response below.
    unsafe {
        by_depth!(
            image,
            chess_corners_refine_list,
            chess_corners_refine_list_u16,
            s.radius,
            s.det_margin,
            s.max_offset,
            s.min_abs_det,
            corners.as_ptr(),
            corners.len(),
            out.as_mut_ptr(),
            out.len(),
            count,
        )
    }
}

/// What a list with a second try is written to: the records, a pass byte for
/// each, and how many there are.
pub struct Retried<'a> {
    pub out: &'a mut [f32],
    pub passes: &'a mut [u8],
    pub count: &'a mut usize,
}

/// Document 01's number.
pub fn fallback(image: Image<'_>, [s, t]: [Settings; 2], corners: &[f32], to: Retried<'_>) -> u32 {
    // SAFETY: as for the response below.
    unsafe {
        by_depth!(
            image,
            chess_corners_refine_list_fallback,
            chess_corners_refine_list_fallback_u16,
            s.radius,
            s.det_margin,
            s.max_offset,
            s.min_abs_det,
            t.radius,
            t.det_margin,
            t.max_offset,
            t.min_abs_det,
            corners.as_ptr(),
            corners.len(),
            to.out.as_mut_ptr(),
            to.out.len(),
            to.passes.as_mut_ptr(),
            to.passes.len(),
            to.count,
        )
    }
}

/// The same with lent columns.
pub fn fallback_with(
    image: Image<'_>,
    [s, t]: [Settings; 2],
    columns: [&[f32; COLUMNS]; 2],
    corners: &[f32],
    to: Retried<'_>,
) -> u32 {
    // SAFETY: as for the response below.
    unsafe {
        by_depth!(
            image,
            chess_corners_refine_list_fallback_with,
            chess_corners_refine_list_fallback_with_u16,
            s.radius,
            s.det_margin,
            s.max_offset,
            s.min_abs_det,
            t.radius,
            t.det_margin,
            t.max_offset,
            t.min_abs_det,
            columns[0].as_ptr(),
            columns[1].as_ptr(),
            corners.as_ptr(),
            corners.len(),
            to.out.as_mut_ptr(),
            to.out.len(),
            to.passes.as_mut_ptr(),
            to.passes.len(),
            to.count,
        )
    }
}

/// The ring as it crosses: dx, dy, sixteen times.
pub fn flat(ring: &Ring) -> [i32; 32] {
    core::array::from_fn(|k| {
        let (dx, dy) = ring[k / 2];
        if k % 2 == 0 {
            dx
        } else {
            dy
        }
    })
}

/// Document 01's number; `size` takes width and height.
pub fn response(
    image: Image<'_>,
    ring: &[i32; 32],
    radius: usize,
    region: Region,
    out: &mut [f32],
    size: &mut [usize; 2],
) -> u32 {
    let [out_width, out_height] = size;
    // SAFETY: each pointer and length come from one live slice or reference,
    // and no two of those that are written overlap.
    unsafe {
        by_depth!(
            image,
            chess_corners_response,
            chess_corners_response_u16,
            ring.as_ptr(),
            radius,
            region.x0 as usize,
            region.y0 as usize,
            region.x1 as usize,
            region.y1 as usize,
            out.as_mut_ptr(),
            out.len(),
            out_width,
            out_height,
        )
    }
}

/// Document 01's number; `count` takes the number of peaks.
pub fn peaks(
    response: &[f32],
    [width, height]: [usize; 2],
    s: PeakSettings,
    out: &mut [f32],
    count: &mut usize,
) -> u32 {
    // SAFETY: as above.
    unsafe {
        raw::chess_corners_peaks(
            response.as_ptr(),
            response.len(),
            width,
            height,
            s.ring_radius,
            s.window_radius,
            s.refine_radius,
            s.threshold,
            s.min_cluster_size,
            out.as_mut_ptr(),
            out.len(),
            count,
        )
    }
}

/// Document 01's number; `count` takes the number of corners kept.
pub fn merge(
    corners: &mut [f32],
    radius: f32,
    heads: &mut [u16],
    links: &mut [u16],
    count: &mut usize,
) -> u32 {
    // SAFETY: as above.
    unsafe {
        raw::chess_corners_merge(
            corners.as_mut_ptr(),
            corners.len(),
            radius,
            heads.as_mut_ptr(),
            heads.len(),
            links.as_mut_ptr(),
            links.len(),
            count,
        )
    }
}

/// The rules' number; `heads` takes how many a merge wants.
pub fn merge_heads(corners: &[f32], radius: f32, heads: &mut usize) -> u32 {
    // SAFETY: as above.
    unsafe { raw::chess_corners_merge_heads(corners.as_ptr(), corners.len(), radius, heads) }
}

/// Document 01's number; `place` takes the place at fault of 33 and 34.
pub fn tie(board: Board<'_>, corners: &[f32], answers: &mut [u16], place: &mut usize) -> u32 {
    // SAFETY: as above.
    unsafe {
        raw::chess_corners_tie(
            board.rows as usize,
            board.columns as usize,
            board.places.as_ptr(),
            board.places.len(),
            board.limit,
            corners.as_ptr(),
            corners.len(),
            answers.as_mut_ptr(),
            answers.len(),
            place,
        )
    }
}

/// What the reader of graymaps writes to.
#[derive(Clone, Copy, Debug, PartialEq, Eq)]
pub struct Given {
    pub width: usize,
    pub height: usize,
    pub maximum: usize,
    pub start: usize,
    pub pixel: usize,
}

impl Given {
    pub fn painted(paint: usize) -> Self {
        Given {
            width: paint,
            height: paint,
            maximum: paint,
            start: paint,
            pixel: paint,
        }
    }
}

/// The rules' number; 24 writes the pixel alone, 0 all else.
pub fn graymap(file: &[u8], given: &mut Given) -> u32 {
    // SAFETY: as above.
    unsafe {
        raw::chess_corners_graymap(
            file.as_ptr(),
            file.len(),
            &mut given.width,
            &mut given.height,
            &mut given.maximum,
            &mut given.start,
            &mut given.pixel,
        )
    }
}

/// The same of a deep one, whose samples go to `out`.
pub fn graymap_u16(file: &[u8], out: &mut [u16], given: &mut Given) -> u32 {
    // SAFETY: as above.
    unsafe {
        raw::chess_corners_graymap_u16(
            file.as_ptr(),
            file.len(),
            out.as_mut_ptr(),
            out.len(),
            &mut given.width,
            &mut given.height,
            &mut given.maximum,
            &mut given.start,
            &mut given.pixel,
        )
    }
}

/// The rules' number; `counts` takes how many records are kept and dropped.
pub fn salvage(
    file: &[u8],
    [width, height]: [u64; 2],
    out: &mut [u8],
    faults: &mut [u16],
    [kept, dropped]: &mut [usize; 2],
) -> u32 {
    // SAFETY: as above.
    unsafe {
        raw::chess_corners_salvage(
            file.as_ptr(),
            file.len(),
            width as usize,
            height as usize,
            out.as_mut_ptr(),
            out.len(),
            faults.as_mut_ptr(),
            faults.len(),
            kept,
            dropped,
        )
    }
}

/// Floats of a list with room for every corner.
pub const ROOM: usize = 12_288;

/// The rules' number of one call on a list with its count and counts.
pub fn cover(
    [width, height]: [u64; 2],
    asked: Asked,
    list: &mut [f32; ROOM],
    count: &mut usize,
    counts: &mut [u16; 65],
) -> u32 {
    let [width, height] = [width as usize, height as usize];
    let (list, counts) = (list.as_mut_ptr(), counts.as_mut_ptr());
    // SAFETY: as above.
    unsafe {
        match asked {
            Asked::Afresh => raw::chess_corners_coverage(width, height, list, *count, counts),
            Asked::Add([x, y, strength]) => {
                raw::chess_corners_coverage_add(width, height, list, count, counts, x, y, strength)
            }
            Asked::Replace(number, [x, y, strength]) => raw::chess_corners_coverage_replace(
                width,
                height,
                list,
                *count,
                counts,
                number as usize,
                x,
                y,
                strength,
            ),
            Asked::Drop(number) => raw::chess_corners_coverage_drop(
                width,
                height,
                list,
                count,
                counts,
                number as usize,
            ),
        }
    }
}

/// The rules' number; the grid has two numbers a cell.
pub fn gradient(
    side: u32,
    tile: &[u8],
    ring: &Ring,
    [x, y]: [u32; 2],
    [scale_x, scale_y]: [f32; 2],
    grid: &mut [f32],
) -> u32 {
    let ring = flat(ring);
    // SAFETY: as above.
    unsafe {
        raw::chess_corners_gradient(
            tile.as_ptr(),
            tile.len(),
            side as usize,
            ring.as_ptr(),
            x as usize,
            y as usize,
            scale_x,
            scale_y,
            grid.as_mut_ptr(),
            grid.len(),
        )
    }
}
