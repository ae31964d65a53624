//! Document 01 in plain Rust: the refusals in their order, and the rules of
//! response, peaks, merge, board, graymap, salvage and coverage where the Rust
//! has another rule or none.
//! Written from the document, slow and readable, and used by no code of the port.

use crate::types::*;
use std::ops::RangeInclusive;

pub const ILL_CONDITIONED: u32 = 3;
pub const BAD_SEED: u32 = 4;
pub const ABOVE_MARGIN: u32 = 5;
pub const TOO_SMALL: u32 = 6;
pub const NOT_FINITE: u32 = 7;
pub const BAD_IMAGE: u32 = 10;
pub const BAD_RADIUS: u32 = 11;
pub const BAD_LIMIT: u32 = 12;
pub const BAD_RING: u32 = 13;
pub const EMPTY_ROI: u32 = 14;
pub const BAD_OUT: u32 = 15;
pub const TOO_MANY: u32 = 16;
pub const GRID_TOO_BIG: u32 = 17;
pub const BAD_SCRATCH: u32 = 18;
pub const BAD_LENGTH: u32 = 19;
pub const NO_MAGIC: u32 = 20;
pub const BAD_HEADER: u32 = 21;
pub const BAD_GRAYMAP_SIZE: u32 = 22;
pub const TOO_SHORT: u32 = 23;
pub const ABOVE_MAXIMUM: u32 = 24;
pub const LEFT_OVER: u32 = 25;
pub const BAD_SAMPLE: u32 = 26;
pub const BAD_BUFFER: u32 = 27;
pub const BAD_BOARD: u32 = 30;
pub const BAD_PLACE: u32 = 31;
pub const BAD_LIST: u32 = 32;
pub const NO_CORNER: u32 = 33;
pub const USED_TWICE: u32 = 34;
pub const NO_SUCH_CORNER: u32 = 35;

/// The most corners in a list.
pub const MOST: usize = 4096;

// --- tests that several calls share ---------------------------------------

/// Width or height outside 1..=4096.
fn bad_sides(width: u64, height: u64) -> bool {
    !(1..=4096).contains(&width) || !(1..=4096).contains(&height)
}

/// W-208: an image of such sides, or with a pitch outside width..=8192, or a
/// count that is not pitch times height.
pub fn bad_image(image: View<'_>) -> bool {
    bad_sides(image.width, image.height)
        || !(image.width..=8192).contains(&image.pitch)
        || image.pitch * image.height != image.bytes.len() as u64
}

/// W-212: a sample above 4095 in a deep image, whatever its padding holds. Asked
/// of an image that 10 does not refuse.
pub fn bad_sample(image: View<'_>) -> bool {
    let (width, pitch) = (image.width as usize, image.pitch as usize);
    let above = |k: usize| k % pitch < width && image.sample(k) > 4095;
    image.deep.is_some() && !bad_image(image) && (0..image.bytes.len()).any(above)
}

/// The same of a response, which has no pitch.
fn bad_response(width: u64, height: u64, count: usize) -> bool {
    bad_sides(width, height) || width * height != count as u64
}

/// A float setting that is not finite or is below zero; -0.0 is not.
fn bad_limit(x: f32) -> bool {
    !x.is_finite() || x < 0.0
}

fn bad_refiner_radius(s: &Settings) -> bool {
    !(0..=7).contains(&s.radius)
}

fn bad_settings(s: &Settings) -> bool {
    bad_limit(s.det_margin) || bad_limit(s.max_offset) || bad_limit(s.min_abs_det)
}

/// The first test that holds, as its number.
fn first(tests: &[(bool, u32)]) -> Option<u32> {
    tests.iter().find(|(holds, _)| *holds).map(|(_, no)| *no)
}

// --- response ---------------------------------------------------------------

/// The region clamped to the image: x0, y0, width, height; 0 by 0 if empty.
pub fn clamped(image: View<'_>, region: Region) -> (u64, u64, u64, u64) {
    let x0 = region.x0.min(image.width);
    let y0 = region.y0.min(image.height);
    let x1 = region.x1.min(image.width);
    let y1 = region.y1.min(image.height);
    if x1 <= x0 || y1 <= y0 {
        return (x0, y0, 0, 0);
    }
    (x0, y0, x1 - x0, y1 - y0)
}

/// 10, 26, 11, 13, 14, 15.
pub fn response_refusal(
    image: View<'_>,
    ring_radius: i32,
    ring: &Ring,
    region: Region,
    out: usize,
) -> Option<u32> {
    let far = |d: i32| i64::from(d).abs() > i64::from(ring_radius);
    let (_, _, w, h) = clamped(image, region);
    first(&[
        (bad_image(image), BAD_IMAGE),
        (bad_sample(image), BAD_SAMPLE),
        (!(1..=10).contains(&ring_radius), BAD_RADIUS),
        (ring.iter().any(|&(dx, dy)| far(dx) || far(dy)), BAD_RING),
        (region.x0 >= region.x1 || region.y0 >= region.y1, EMPTY_ROI),
        (w.checked_mul(h) != Some(out as u64), BAD_OUT),
    ])
}

/// The samples under one pixel: the ring, and the cross.
fn samples(image: View<'_>, ring: &Ring, x: i64, y: i64) -> ([i32; 16], [i32; 5]) {
    let at = |dx: i32, dy: i32| {
        let place = (y + i64::from(dy)) * image.pitch as i64 + x + i64::from(dx);
        i32::from(image.sample(place as usize))
    };
    (
        ring.map(|(dx, dy)| at(dx, dy)),
        [(0, 0), (0, -1), (0, 1), (1, 0), (-1, 0)].map(|(dx, dy)| at(dx, dy)),
    )
}

/// SR, DR, ring sum, cross sum.
fn sums(ring: &[i32; 16], cross: &[i32; 5]) -> (i32, i32, i32, i32) {
    let sr = (0..4)
        .map(|k| ((ring[k] + ring[k + 8]) - (ring[k + 4] + ring[k + 12])).abs())
        .sum();
    let dr = (0..8).map(|k| (ring[k] - ring[k + 8]).abs()).sum();
    (sr, dr, ring.iter().sum(), cross.iter().sum())
}

/// The written value: one binary32 rounding per operation, in that order.
fn written(sr: i32, dr: i32, ring: i32, cross: i32) -> f32 {
    (sr as f32 - dr as f32) - 16.0 * (ring as f32 / 16.0 - cross as f32 / 5.0).abs()
}

/// N, five times the exact response.
pub fn whole(ring: &[i32; 16], cross: &[i32; 5]) -> i32 {
    let (sr, dr, r, c) = sums(ring, cross);
    5 * sr - 5 * dr - (5 * r - 16 * c).abs()
}

/// N at a pixel whose ring fits.
pub fn whole_at(image: View<'_>, ring: &Ring, x: i64, y: i64) -> i32 {
    let (r, c) = samples(image, ring, x, y);
    whole(&r, &c)
}

/// Whether the ring fits at (x, y): the radius in pixels on all four sides.
pub fn ring_fits(image: View<'_>, radius: i32, x: u64, y: u64) -> bool {
    let r = radius as u64;
    x >= r && y >= r && x + r < image.width && y + r < image.height
}

/// The response of an accepted call: width, height, values.
pub fn response(
    image: View<'_>,
    ring_radius: i32,
    ring: &Ring,
    region: Region,
) -> (u64, u64, Vec<f32>) {
    let (x0, y0, w, h) = clamped(image, region);
    let mut out = Vec::new();
    for y in y0..y0 + h {
        for x in x0..x0 + w {
            out.push(if ring_fits(image, ring_radius, x, y) {
                let (r, c) = samples(image, ring, x as i64, y as i64);
                let (sr, dr, ring_sum, cross_sum) = sums(&r, &c);
                written(sr, dr, ring_sum, cross_sum)
            } else {
                0.0
            });
        }
    }
    (w, h, out)
}

// --- refine -----------------------------------------------------------------

/// 10, 26, 11, 12: what refuses every seed.
pub fn refine_refusal(image: View<'_>, s: &Settings) -> Option<u32> {
    first(&[
        (bad_image(image), BAD_IMAGE),
        (bad_sample(image), BAD_SAMPLE),
        (bad_refiner_radius(s), BAD_RADIUS),
        (bad_settings(s), BAD_LIMIT),
    ])
}

/// W-203: a seed that is no place, since x or y is NaN or infinite.
pub fn bad_seed(seed: [f32; 2]) -> bool {
    !seed.iter().all(|v| v.is_finite())
}

/// 10, 26, 11, 12, 4: what refuses a seed before the image is looked at.
pub fn seed_refusal(image: View<'_>, s: &Settings, seed: [f32; 2]) -> Option<u32> {
    refine_refusal(image, s).or_else(|| bad_seed(seed).then_some(BAD_SEED))
}

/// Whether the patch at the rounded seed leaves the image, in whole numbers.
pub fn patch_leaves(image: View<'_>, s: &Settings, seed: [f32; 2]) -> bool {
    let reach = i64::from(s.radius);
    let leaves = |seed: f32, size: u64| {
        let centre = i64::from(seed.round() as i32);
        centre - reach < 0 || centre + reach > size as i64 - 1
    };
    leaves(seed[0], image.width) || leaves(seed[1], image.height)
}

/// 10, 11, 12, 19, 16, 15. Lengths are counted in floats.
pub fn refine_list_refusal(
    image: View<'_>,
    s: &Settings,
    length: usize,
    out: usize,
) -> Option<u32> {
    refine_refusal(image, s).or_else(|| {
        first(&[
            (length % 3 != 0, BAD_LENGTH),
            (length / 3 > MOST, TOO_MANY),
            (out < length, BAD_OUT),
        ])
    })
}

/// W-209: as for a list, with 11 for either radius before 12 for either
/// setting, and 15 also for fewer pass bytes than seeds.
pub fn fallback_refusal(
    image: View<'_>,
    one: &Settings,
    two: &Settings,
    length: usize,
    out: usize,
    passes: usize,
) -> Option<u32> {
    first(&[
        (bad_image(image), BAD_IMAGE),
        (bad_sample(image), BAD_SAMPLE),
        (
            bad_refiner_radius(one) || bad_refiner_radius(two),
            BAD_RADIUS,
        ),
        (bad_settings(one) || bad_settings(two), BAD_LIMIT),
        (length % 3 != 0, BAD_LENGTH),
        (length / 3 > MOST, TOO_MANY),
        (out < length || passes < length / 3, BAD_OUT),
    ])
}

// --- fit operator -----------------------------------------------------------

/// The inverse of the normal matrix of a x² + b xy + c y² + d x + e y + f over
/// the square of a radius: binary64, Gauss and Jordan, partial pivoting. Of
/// equal pivots the last row wins, or the first, to see where that matters.
pub fn inverse_normal(radius: i32, last_wins: bool) -> Option<[[f64; 6]; 6]> {
    let mut m = [[0.0f64; 12]; 6];
    for y in -radius..=radius {
        for x in -radius..=radius {
            let (x, y) = (f64::from(x), f64::from(y));
            let basis = [x * x, x * y, y * y, x, y, 1.0];
            for row in 0..6 {
                for col in 0..6 {
                    m[row][col] += basis[row] * basis[col];
                }
            }
        }
    }
    for (row, values) in m.iter_mut().enumerate() {
        values[6 + row] = 1.0;
    }
    for col in 0..6 {
        let mut pivot = col;
        for row in col..6 {
            let (here, best) = (m[row][col].abs(), m[pivot][col].abs());
            if here > best || (last_wins && here == best) {
                pivot = row;
            }
        }
        if m[pivot][col].abs() < 1e-9 {
            return None;
        }
        m.swap(col, pivot);
        let scale = 1.0 / m[col][col];
        let lead = m[col].map(|v| v * scale);
        m[col] = lead;
        for (row, values) in m.iter_mut().enumerate() {
            let factor = values[col];
            for (v, l) in values.iter_mut().zip(lead) {
                if row != col {
                    *v -= factor * l;
                }
            }
        }
    }
    Some(m.map(|row| core::array::from_fn(|k| row[6 + k])))
}

// --- solve ------------------------------------------------------------------

/// W-205: which test of `solve` fails first on a refused determinant.
pub fn why_refused(s: &Settings, det: f32) -> u32 {
    if det > -s.det_margin {
        ABOVE_MARGIN
    } else if det.abs() < s.min_abs_det {
        TOO_SMALL
    } else {
        NOT_FINITE
    }
}

/// W-205: the number for a reader of the old ones.
pub fn old_number(number: u32) -> u32 {
    match number {
        ABOVE_MARGIN | TOO_SMALL | NOT_FINITE => ILL_CONDITIONED,
        _ => number,
    }
}

// --- peaks ------------------------------------------------------------------

/// 10, 11, 12, 19; 16 is known only when the peaks are counted.
pub fn peaks_refusal(
    width: u64,
    height: u64,
    response: &[f32],
    s: &PeakSettings,
    out: usize,
) -> Option<u32> {
    first(&[
        (bad_response(width, height, response.len()), BAD_IMAGE),
        (
            !(1..=10).contains(&s.ring_radius)
                || !(1..=8).contains(&s.window_radius)
                || !(0..=7).contains(&s.refiner_radius),
            BAD_RADIUS,
        ),
        (!s.threshold.is_finite(), BAD_LIMIT),
        (out % 3 != 0, BAD_LENGTH),
    ])
}

/// The peaks, by row, of a call that no number up to 19 refuses. Of equal
/// values in each other's window the first in row order wins (W-201).
pub fn peaks(width: usize, height: usize, response: &[f32], s: &PeakSettings) -> Vec<Triple> {
    let border = (s.ring_radius + s.window_radius + s.refiner_radius) as usize;
    if width <= 2 * border || height <= 2 * border {
        return Vec::new();
    }
    let reach = s.window_radius as usize;
    let floor = if s.threshold > 0.0 { s.threshold } else { 0.0 };
    let mut out = Vec::new();
    for y in border..height - border {
        for x in border..width - border {
            let value = response[y * width + x];
            let mut greatest = true;
            let mut positive = 0;
            for yy in y - reach..=y + reach {
                for xx in x - reach..=x + reach {
                    if (xx, yy) == (x, y) {
                        continue;
                    }
                    let other = response[yy * width + xx];
                    greatest &= if (yy, xx) < (y, x) {
                        value > other
                    } else {
                        value >= other
                    };
                    positive += u32::from(other > 0.0);
                }
            }
            if value > floor && greatest && positive >= s.min_cluster_size {
                out.push([x as f32, y as f32, value]);
            }
        }
    }
    out
}

// --- merge ------------------------------------------------------------------

/// How a merge goes.
#[derive(Clone, Copy, Debug, PartialEq, Eq)]
pub enum Way {
    Refused(u32),
    /// The empty list.
    Empty,
    /// Radius NaN, infinite, or not above zero.
    Unchanged,
    /// A box that is not finite.
    Plain,
    Grid,
}

/// The box of the corners: least and greatest x and y. A NaN stretches
/// nothing.
fn bounds(list: &[Triple]) -> ([f32; 2], [f32; 2]) {
    let mut low = [f32::INFINITY; 2];
    let mut high = [f32::NEG_INFINITY; 2];
    for c in list {
        for k in 0..2 {
            if c[k] < low[k] {
                low[k] = c[k];
            }
            if c[k] > high[k] {
                high[k] = c[k];
            }
        }
    }
    (low, high)
}

/// Cells across and down, without wrap.
pub fn cells(list: &[Triple], radius: f32) -> [u128; 2] {
    let (low, high) = bounds(list);
    let inv = 1.0 / radius;
    [0, 1].map(|k| ((high[k] - low[k]) * inv).floor() as usize as u128 + 1)
}

/// How many heads a merge wants, by asking it with as many as can be counted.
pub fn heads_wanted(length: usize, list: &[Triple], radius: f32) -> Result<usize, u32> {
    match merge_way(length, list, radius, usize::MAX, usize::MAX) {
        Way::Refused(number) => Err(number),
        Way::Grid => Ok(cells(list, radius).iter().product::<u128>() as usize),
        _ => Ok(0),
    }
}

/// 19, 16, 18, then what needs no merging, then the box, then 17. `length`
/// counts floats; the list has the corners of it.
pub fn merge_way(length: usize, list: &[Triple], radius: f32, heads: usize, links: usize) -> Way {
    if length % 3 != 0 {
        return Way::Refused(BAD_LENGTH);
    }
    if length / 3 > MOST {
        return Way::Refused(TOO_MANY);
    }
    if links < length / 3 {
        return Way::Refused(BAD_SCRATCH);
    }
    if list.is_empty() {
        return Way::Empty;
    }
    if !radius.is_finite() || radius <= 0.0 {
        return Way::Unchanged;
    }
    let (low, high) = bounds(list);
    if !(low.iter().chain(&high).all(|v| v.is_finite())) {
        return Way::Plain;
    }
    let [across, down] = cells(list, radius);
    let most = heads as u128;
    if across > most || down > most || across * down > most {
        return Way::Refused(GRID_TOO_BIG);
    }
    Way::Grid
}

/// The kept corners of an accepted merge.
pub fn merged(list: &[Triple], radius: f32, way: Way) -> Vec<Triple> {
    if way == Way::Unchanged || way == Way::Empty {
        return list.to_vec();
    }
    let (low, _) = bounds(list);
    let inv = 1.0 / radius;
    let most = if way == Way::Grid {
        cells(list, radius)
    } else {
        [1, 1]
    };
    let cell = |c: &Triple| {
        [0, 1].map(|k| (((c[k] - low[k]) * inv) as usize as i128).min(most[k] as i128 - 1))
    };
    let near = |a: &Triple, b: &Triple| {
        let (p, q) = (cell(a), cell(b));
        way == Way::Plain || ((p[0] - q[0]).abs() <= 1 && (p[1] - q[1]).abs() <= 1)
    };
    let r2 = radius * radius;
    let mut kept: Vec<Triple> = Vec::new();
    for c in list {
        let met = kept.iter().position(|k| {
            let (dx, dy) = (c[0] - k[0], c[1] - k[1]);
            near(c, k) && dx * dx + dy * dy <= r2
        });
        match met {
            None => kept.push(*c),
            Some(i) if c[2] > kept[i][2] => kept[i] = *c,
            Some(_) => {}
        }
    }
    kept
}

// --- gradient (W-213) -------------------------------------------------------

/// 10, 13, 15. `tile` and `grads` are lengths.
pub fn gradient_refusal(
    side: u32,
    tile: usize,
    ring: &Ring,
    x: u32,
    y: u32,
    grads: usize,
) -> Option<u32> {
    let square = u64::from(side) * u64::from(side);
    let leaves = |dx: i32, dy: i32| {
        let inside =
            |at: u32, d: i32| (0..i64::from(side)).contains(&(i64::from(at) + i64::from(d)));
        !inside(x, dx) || !inside(y, dy)
    };
    let cross = [(0, 0), (0, -1), (0, 1), (1, 0), (-1, 0)];
    first(&[
        (tile as u64 != square, BAD_IMAGE),
        (
            ring.iter().chain(&cross).any(|&(dx, dy)| leaves(dx, dy)),
            BAD_RING,
        ),
        (grads as u64 != 2 * square, BAD_OUT),
    ])
}

/// The gradient by W-213: whole coefficients, and only the scaled additions
/// round, ring places in order and then the cross.
pub fn gradient(
    side: usize,
    tile: &[u8],
    ring: &Ring,
    x: usize,
    y: usize,
    scale: [f32; 2],
    before: &[[f32; 2]],
) -> Vec<[f32; 2]> {
    let place = |(dx, dy): (i32, i32)| {
        ((y as i64 + i64::from(dy)) * side as i64 + x as i64 + i64::from(dx)) as usize
    };
    let cross = [(0, 0), (0, -1), (0, 1), (1, 0), (-1, 0)];
    let s = ring.map(|d| i32::from(tile[place(d)]));
    let c = cross.map(|d| i32::from(tile[place(d)]));
    let mean = (5 * s.iter().sum::<i32>() - 16 * c.iter().sum::<i32>()).signum();
    let mut out = before.to_vec();
    let mut add = |at: usize, c: f32| {
        out[at][0] += scale[0] * c;
        out[at][1] += scale[1] * c;
    };
    for (k, &at) in ring.iter().enumerate() {
        // The square that sample k belongs to, and its sign there.
        let j = k % 4;
        let square = ((s[j] + s[j + 8]) - (s[j + 4] + s[j + 12])).signum();
        let mut whole = if k % 8 < 4 { square } else { -square };
        // The edge from k to its opposite.
        let i = k % 8;
        let edge = (s[i] - s[i + 8]).signum();
        whole += if k < 8 { -edge } else { edge };
        add(place(at), (whole - mean) as f32);
    }
    if mean != 0 {
        for d in cross {
            add(place(d), 3.2 * mean as f32);
        }
    }
    out
}

// --- board (W-206) ----------------------------------------------------------

/// Rows or columns outside 2..=32, or places or answers not one per inner
/// corner.
fn bad_board(b: &Board<'_>, answers: usize) -> bool {
    let sides = 2..=32;
    if !sides.contains(&b.rows) || !sides.contains(&b.columns) {
        return true;
    }
    let inner = ((b.rows - 1) * (b.columns - 1)) as usize;
    b.places.len() != 2 * inner || answers != inner
}

/// 30, 31, 32: what refuses a board before any place is looked at. `length`
/// counts floats.
pub fn board_refusal(b: &Board<'_>, length: usize, answers: usize) -> Option<u32> {
    first(&[
        (bad_board(b, answers), BAD_BOARD),
        (
            bad_limit(b.limit) || b.places.iter().any(|v| !v.is_finite()),
            BAD_PLACE,
        ),
        (length % 3 != 0 || length / 3 > MOST, BAD_LIST),
    ])
}

/// The squared distance of a place and a corner.
pub fn square(place: &[f32], corner: &Triple) -> f32 {
    let (dx, dy) = (place[0] - corner[0], place[1] - corner[1]);
    dx * dx + dy * dy
}

/// The number of the nearest corner and its squared distance, of equal ones
/// the lowest; none where no distance is a number.
pub fn nearest(place: &[f32], list: &[Triple]) -> Option<(usize, f32)> {
    list.iter()
        .map(|corner| square(place, corner))
        .enumerate()
        .filter(|(_, d)| !d.is_nan())
        .reduce(|best, next| if next.1 < best.1 { next } else { best })
}

/// The corner of each place of a board that no number up to 32 refuses; else
/// 33 or 34 and the place at fault.
pub fn tied(b: &Board<'_>, list: &[Triple]) -> Result<Vec<u16>, (u32, usize)> {
    let mut answers: Vec<u16> = Vec::new();
    for (k, place) in b.places.chunks_exact(2).enumerate() {
        match nearest(place, list) {
            Some((corner, d)) if d <= b.limit => {
                if answers.contains(&(corner as u16)) {
                    return Err((USED_TWICE, k));
                }
                answers.push(corner as u16);
            }
            _ => return Err((NO_CORNER, k)),
        }
    }
    Ok(answers)
}

// --- graymap (W-202) --------------------------------------------------------

fn is_white(byte: u8) -> bool {
    matches!(byte, b' ' | b'\t' | b'\n' | b'\r')
}

/// What is left behind whitespace and comments.
fn behind_gap(mut left: &[u8]) -> &[u8] {
    loop {
        left = match left {
            [b'#', ..] => {
                let ends = left.iter().position(|b| matches!(b, b'\n' | b'\r'));
                &left[ends.unwrap_or(left.len())..]
            }
            [byte, behind @ ..] if is_white(*byte) => behind,
            _ => return left,
        }
    }
}

/// A number of the header, and what is left behind the one whitespace byte
/// after it. A number that leaves 64 bits is the greatest of them.
fn header_number(left: &[u8]) -> Option<(u64, &[u8])> {
    let left = behind_gap(left);
    let count = left.iter().take_while(|b| b.is_ascii_digit()).count();
    let (digits, behind) = left.split_at(count);
    let with = |v: u64, digit: &u8| v.saturating_mul(10).saturating_add(u64::from(digit - b'0'));
    match behind {
        [byte, behind @ ..] if count > 0 && is_white(*byte) => {
            Some((digits.iter().fold(0, with), behind))
        }
        _ => None,
    }
}

/// What is left behind the magic and the whitespace byte after it.
pub fn behind_magic(file: &[u8]) -> Option<&[u8]> {
    match file {
        [b'P', b'5', byte, left @ ..] if is_white(*byte) => Some(left),
        _ => None,
    }
}

/// Width, height and maximum as they stand, and what is left.
pub fn header(left: &[u8]) -> Option<([u64; 3], &[u8])> {
    let (width, left) = header_number(left)?;
    let (height, left) = header_number(left)?;
    let (maximum, left) = header_number(left)?;
    Some(([width, height, maximum], left))
}

/// What is refused, with the pixel of 24.
pub type Unread = (u32, Option<usize>);

/// 20 to 25 in this order; 24 with the number of the first pixel above the
/// maximum. Files of such maxima with `each` bytes a sample, high first.
fn read(
    file: &[u8],
    maxima: RangeInclusive<u64>,
    each: usize,
) -> Result<(Graymap, Vec<u16>), Unread> {
    let Some(left) = behind_magic(file) else {
        return Err((NO_MAGIC, None));
    };
    let (width, height, maximum, left) = match header(left) {
        Some(([w, h, m], left)) if maxima.contains(&m) => (w, h, m as u16, left),
        _ => return Err((BAD_HEADER, None)),
    };
    if bad_sides(width, height) {
        return Err((BAD_GRAYMAP_SIZE, None));
    }
    let count = (width * height) as usize * each;
    if left.len() < count {
        return Err((TOO_SHORT, None));
    }
    let sample = |bytes: &[u8]| bytes.iter().fold(0, |v, b| v * 256 + u16::from(*b));
    let samples: Vec<u16> = left[..count].chunks(each).map(sample).collect();
    if let Some(pixel) = samples.iter().position(|s| *s > maximum) {
        return Err((ABOVE_MAXIMUM, Some(pixel)));
    }
    if left.len() > count {
        return Err((LEFT_OVER, None));
    }
    let read = Graymap {
        width: width as usize,
        height: height as usize,
        maximum,
        start: file.len() - count,
    };
    Ok((read, samples))
}

/// W-202: one byte a sample.
pub fn graymap(file: &[u8]) -> Result<Graymap, Unread> {
    read(file, 1..=255, 1).map(|(read, _)| read)
}

/// W-212: two bytes a sample, and last 27 for a buffer that has not as many
/// elements.
pub fn deep_graymap(file: &[u8], room: usize) -> Result<(Graymap, Vec<u16>), Unread> {
    let (read, samples) = read(file, 256..=4095, 2)?;
    match samples.len() == room {
        true => Ok((read, samples)),
        false => Err((BAD_BUFFER, None)),
    }
}

// --- salvage (W-214) --------------------------------------------------------

/// Why a record is dropped, the first reason that holds.
pub const CUT: u16 = 1;
pub const WITHOUT_A_NUMBER: u16 = 2;
pub const OUTSIDE: u16 = 3;

/// The three numbers of a record; none where it is cut.
pub fn record(bytes: &[u8]) -> Option<Triple> {
    let bytes: &[u8; 12] = bytes.try_into().ok()?;
    let number = |k: usize| f32::from_le_bytes([0, 1, 2, 3].map(|j| bytes[4 * k + j]));
    Some([0, 1, 2].map(number))
}

/// What is wrong with a record.
pub fn fault([width, height]: [u64; 2], bytes: &[u8]) -> Option<u16> {
    let Some([x, y, strength]) = record(bytes) else {
        return Some(CUT);
    };
    // Both ends are whole numbers that binary32 has, so this is its comparison.
    let within = |v: f32, side: u64| (0.0..=(side - 1) as f64).contains(&f64::from(v));
    if ![x, y, strength].iter().all(|v| v.is_finite()) {
        return Some(WITHOUT_A_NUMBER);
    }
    (!within(x, width) || !within(y, height)).then_some(OUTSIDE)
}

/// 10, 16, 15 in this order. The outputs are lent with so many bytes and numbers.
pub fn salvaged(file: &[u8], size: [u64; 2], out: usize, faults: usize) -> Result<Salvaged, u32> {
    if bad_sides(size[0], size[1]) {
        return Err(BAD_IMAGE);
    }
    if file.chunks_exact(12).count() > MOST {
        return Err(TOO_MANY);
    }
    let mut saved = Salvaged::default();
    for (number, bytes) in file.chunks(12).enumerate() {
        match fault(size, bytes) {
            None => saved.kept.extend(bytes),
            Some(why) => saved.dropped.push([number as u16, why]),
        }
    }
    match out < saved.kept.len() || faults < 2 * saved.dropped.len() {
        true => Err(BAD_OUT),
        false => Ok(saved),
    }
}

// --- coverage (W-211) -------------------------------------------------------

/// The count of corners that lie in no tile.
pub const NO_TILE: usize = 64;

/// Which of the 65 counts a place belongs to.
pub fn tile([width, height]: [u64; 2], [x, y, _]: Triple) -> usize {
    let eighth = |v: f32, side: u64| {
        let pixel = f64::from(v).floor();
        let inside = (0.0..side as f64).contains(&pixel);
        inside.then(|| (pixel as u64 * 8 / side) as usize)
    };
    match (eighth(x, width), eighth(y, height)) {
        (Some(column), Some(row)) => 8 * row + column,
        _ => NO_TILE,
    }
}

/// The summary worked out afresh.
pub fn summary(size: [u64; 2], corners: &[Triple]) -> [u16; 65] {
    let mut counts = [0; 65];
    for corner in corners {
        counts[tile(size, *corner)] += 1;
    }
    counts
}

/// 10, 16, 35 in this order.
pub fn coverage_refusal([width, height]: [u64; 2], count: u64, asked: Asked) -> Option<u32> {
    let most = MOST as u64;
    let many = match asked {
        Asked::Add(_) => count >= most,
        _ => count > most,
    };
    let missing = match asked {
        Asked::Replace(number, _) | Asked::Drop(number) => number >= count,
        _ => false,
    };
    let tests = [
        (bad_sides(width, height), BAD_IMAGE),
        (many, TOO_MANY),
        (missing, NO_SUCH_CORNER),
    ];
    tests.into_iter().find(|t| t.0).map(|t| t.1)
}

/// What a call makes of a list, its count and its counts, or a refusal, which
/// writes nothing. A list has room for `MOST` records.
pub fn covered(size: [u64; 2], held: &mut Covered, asked: Asked) -> Option<u32> {
    let refused = coverage_refusal(size, held.count, asked);
    if refused.is_some() {
        return refused;
    }
    let count = held.count as usize;
    let Covered { list, counts, .. } = held;
    if let Asked::Replace(number, _) | Asked::Drop(number) = asked {
        let n = &mut counts[tile(size, list[number as usize])];
        *n = n.saturating_sub(1);
    }
    if let Asked::Add(corner) | Asked::Replace(_, corner) = asked {
        let n = &mut counts[tile(size, corner)];
        *n = n.saturating_add(1);
    }
    match asked {
        Asked::Afresh => *counts = summary(size, &list[..count]),
        Asked::Add(corner) => {
            list[count] = corner;
            held.count += 1;
        }
        Asked::Replace(number, corner) => list[number as usize] = corner,
        Asked::Drop(number) => {
            // The later ones move down, and what lay past the list stays there.
            list.remove(number as usize);
            list.insert(count - 1, [0.0; 3]);
            held.count -= 1;
        }
    }
    None
}
