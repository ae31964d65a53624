//! Rows with padding (W-208): pitches, what stands behind the rows, and images
//! whose pitch or count is wrong.

use crate::random::Random;
use crate::rules;
use crate::types::{Image, View};
use std::borrow::Cow;

/// The greatest pitch.
const MOST: u64 = 8192;

/// Pitches that are no multiple of anything.
const PRIMES: [u64; 7] = [31, 61, 127, 509, 1031, 4099, 8191];

/// The kinds of images by their pitch; the last ones 10 refuses for the pitch or
/// its count alone.
pub const KINDS: [&str; 13] = [
    "pitch the width",
    "padded",
    "padded to 64",
    "padded to a prime",
    "4,096 bytes of padding",
    "pitch 8,192",
    "10: pitch one below the width",
    "10: pitch 8,193",
    "10: count without padding",
    "10: last row without padding",
    "10: pitch 0",
    "10: pitch beyond 32 bits",
    "10: pitch whose product wraps",
];

/// How many are wrong.
pub const WRONG: usize = 7;

/// Which kind an image is.
pub fn kind(image: View<'_>) -> &'static str {
    let padding = image.pitch.wrapping_sub(image.width);
    if padding == 0 {
        KINDS[0]
    } else if rules::bad_image(image) {
        wrong_kind(image)
    } else if image.pitch == MOST {
        KINDS[5]
    } else if padding == 4096 {
        KINDS[4]
    } else if PRIMES.contains(&image.pitch) {
        KINDS[3]
    } else if image.pitch % 64 == 0 {
        KINDS[2]
    } else {
        KINDS[1]
    }
}

fn wrong_kind(image: View<'_>) -> &'static str {
    let [width, height, pitch] = [image.width, image.height, image.pitch].map(u128::from);
    let count = image.bytes.len() as u128;
    let tests = [
        pitch + 1 == width && count == pitch * height,
        pitch == 8193 && count == pitch * height,
        pitch <= 8192 && width < pitch && count == width * height,
        pitch <= 8192 && width < pitch && count + pitch == pitch * height + width,
        pitch == 0 && count == 0,
        pitch >> 32 != 0 && pitch * height >> 64 == 0,
        pitch * height >> 64 != 0,
    ];
    let kind = tests.iter().position(|holds| *holds);
    kind.map_or("10: another padded image", |kind| {
        KINDS[KINDS.len() - WRONG + kind]
    })
}

/// An image of a wrong kind.
pub fn wrong(random: &mut Random, kind: usize) -> Image {
    let width = random.between(2, 30) as u64;
    // Even, so that the product loses the highest bit of a pitch.
    let height = 2 * random.between(1, 3) as u64;
    let whole = width * height;
    let more = width + random.between(1, 40) as u64;
    let (height, pitch, count) = match kind {
        0 => (height, width - 1, (width - 1) * height),
        1 => (1, MOST + 1, MOST + 1),
        2 => (height, more, whole),
        3 => (height, more, more * (height - 1) + width),
        4 => (height, 0, 0),
        5 => (height, (1 << 32) + width, whole),
        _ => (height, (1 << 63) + width, whole),
    };
    Image {
        width,
        height,
        pitch,
        bytes: (0..count).map(|_| random.byte()).collect(),
        deep: None,
    }
}

/// The next multiple of 64, and the next prime.
fn aligned(width: u64) -> u64 {
    (width / 64 + 1) * 64
}

fn prime(width: u64) -> u64 {
    *PRIMES.iter().find(|p| **p > width).unwrap_or(&MOST)
}

/// A pitch above the width and not far from it.
fn near_pitch(random: &mut Random, width: u64) -> u64 {
    match random.below(4) {
        0 => aligned(width),
        1 => prime(width),
        _ => width + 1 + random.below(12) as u64,
    }
}

/// Any pitch, half of the time the width.
pub fn any_pitch(random: &mut Random, width: u64) -> u64 {
    match random.below(32) {
        0 => random.pick(&[4099, width + 4096, 8191, MOST]),
        1..=15 => near_pitch(random, width),
        _ => width,
    }
}

/// The image, which has no padding, with its rows so far apart.
pub fn padded(random: &mut Random, image: &Image, pitch: u64) -> Image {
    let mut bytes = Vec::with_capacity((pitch * image.height) as usize);
    for row in image.bytes.chunks_exact(image.width as usize) {
        bytes.extend_from_slice(row);
        bytes.resize(bytes.len() + (pitch - image.width) as usize, 0);
    }
    let mut image = Image {
        pitch,
        bytes,
        ..*image
    };
    paint(random, &mut image);
    image
}

/// The image, half of the time with a little padding: a list stays small.
pub fn at_times(random: &mut Random, image: Image) -> Image {
    if random.once_in(2) {
        return image;
    }
    let pitch = near_pitch(random, image.width);
    padded(random, &image, pitch)
}

/// The image at several pitches near its width.
pub fn near(random: &mut Random, image: &Image) -> Vec<Image> {
    let w = image.width;
    [w + 1, w + 7, prime(w), aligned(w), 2 * aligned(w)]
        .map(|pitch| padded(random, image, pitch))
        .into()
}

/// The image at pitches far from its width; it should have few rows.
pub fn far(random: &mut Random, image: &Image) -> Vec<Image> {
    [image.width + 4096, MOST]
        .map(|pitch| padded(random, image, pitch))
        .into()
}

/// Other padding; no byte of it is 0.
pub fn paint(random: &mut Random, image: &mut Image) {
    for row in image.bytes.chunks_exact_mut(image.pitch as usize) {
        for part in row[image.width as usize..].chunks_mut(8) {
            let eight = (random.word64() | 0x0101_0101_0101_0101).to_le_bytes();
            part.copy_from_slice(&eight[..part.len()]);
        }
    }
}

/// The bytes of an image that no number refuses, or that has no padding, with
/// the padding taken out.
pub fn taken_out(image: View<'_>) -> Cow<'_, [u8]> {
    if image.pitch == image.width {
        return Cow::Borrowed(image.bytes);
    }
    let mut bytes = Vec::with_capacity((image.width * image.height) as usize);
    for row in image.bytes.chunks_exact(image.pitch as usize) {
        bytes.extend_from_slice(&row[..image.width as usize]);
    }
    Cow::Owned(bytes)
}
