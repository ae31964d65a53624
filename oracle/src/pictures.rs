//! Pictures for the cases: small, and made of whole numbers only, so that
//! every computer draws the same bytes.

use crate::random::Random;
use crate::types::Image;

/// One level everywhere.
pub fn flat(width: usize, height: usize, level: u8) -> Image {
    Image::new(width, height, vec![level; width * height])
}

/// Any bytes.
pub fn noise(random: &mut Random, width: usize, height: usize) -> Image {
    let bytes = (0..width * height).map(|_| random.byte()).collect();
    Image::new(width, height, bytes)
}

/// Any of a few levels.
pub fn few_levels(random: &mut Random, width: usize, height: usize, levels: &[u8]) -> Image {
    let bytes = (0..width * height).map(|_| random.pick(levels)).collect();
    Image::new(width, height, bytes)
}

/// One corner of a board: two lines cross at (cx, cy), given in 256ths of a
/// pixel, with the directions `a` and `b`; opposite sectors have one level.
/// Each pixel is the mean of 8 by 8 points spread over `blur` pixels.
#[derive(Clone, Copy, Debug)]
pub struct Corner {
    pub centre: [i64; 2],
    pub a: [i64; 2],
    pub b: [i64; 2],
    pub dark: u8,
    pub light: u8,
    pub blur: i64,
}

impl Corner {
    /// A seeded corner about the middle of a picture.
    pub fn seeded(random: &mut Random, width: usize, height: usize) -> Self {
        let middle =
            |random: &mut Random, size: usize| 128 * (size as i64 - 1) + random.between(-256, 256);
        let centre = [middle(random, width), middle(random, height)];
        let a = [random.between(4, 9), random.between(-5, 5)];
        let b = [random.between(-5, 5), random.between(4, 9)];
        let (p, q) = (random.byte(), random.byte());
        Corner {
            centre,
            a,
            b,
            dark: p.min(q),
            light: p.max(q),
            blur: random.between(1, 4),
        }
    }

    pub fn draw(&self, width: usize, height: usize) -> Image {
        let mut bytes = Vec::with_capacity(width * height);
        for y in 0..height as i64 {
            for x in 0..width as i64 {
                let mut light = 0;
                for j in 0..8 {
                    for i in 0..8 {
                        let px = 256 * x + self.blur * (32 * i - 112) - self.centre[0];
                        let py = 256 * y + self.blur * (32 * j - 112) - self.centre[1];
                        let side_a = px * self.a[1] - py * self.a[0] >= 0;
                        let side_b = px * self.b[1] - py * self.b[0] >= 0;
                        light += i64::from(side_a != side_b);
                    }
                }
                let (d, l) = (i64::from(self.dark), i64::from(self.light));
                bytes.push((d + ((l - d) * light + 32) / 64) as u8);
            }
        }
        Image::new(width, height, bytes)
    }
}

/// A whole-number surface, a·x² + b·xy + c·y² + d·x + e·y over `down`, about
/// (cx, cy), set on 128 and kept within a byte.
pub fn surface(
    width: usize,
    height: usize,
    centre: [i64; 2],
    [a, b, c, d, e]: [i64; 5],
    down: i64,
) -> Image {
    let mut bytes = Vec::with_capacity(width * height);
    for y in 0..height as i64 {
        for x in 0..width as i64 {
            let (x, y) = (x - centre[0], y - centre[1]);
            let z = a * x * x + b * x * y + c * y * y + d * x + e * y;
            bytes.push((128 + z.div_euclid(down)).clamp(0, 255) as u8);
        }
    }
    Image::new(width, height, bytes)
}

/// Adds up to `most` levels of noise, kept within a byte.
pub fn shake(random: &mut Random, image: &mut Image, most: i64) {
    for p in &mut image.bytes {
        *p = (i64::from(*p) + random.between(-most, most)).clamp(0, 255) as u8;
    }
}

/// A picture of one of the kinds above.
pub fn any(random: &mut Random, width: usize, height: usize) -> Image {
    let middle = [width as i64 / 2, height as i64 / 2];
    match random.below(12) {
        0 => noise(random, width, height),
        1 => few_levels(random, width, height, &[0, 255]),
        2 => few_levels(random, width, height, &[100, 101]),
        3 => {
            let k = [0; 5].map(|_| random.between(-9, 9));
            surface(width, height, middle, k, random.between(1, 4))
        }
        4 => {
            let mut image = surface(width, height, middle, [3, 1, -3, 1, 2], 2);
            shake(random, &mut image, 20);
            image
        }
        5 => {
            let k = [
                0,
                random.between(-3, 3),
                0,
                random.between(-2, 2),
                random.between(-2, 2),
            ];
            surface(width, height, middle, k, 1)
        }
        6 | 7 => {
            let mut image = Corner::seeded(random, width, height).draw(width, height);
            shake(random, &mut image, 8);
            image
        }
        _ => Corner::seeded(random, width, height).draw(width, height),
    }
}

/// A square picture on which the refiner's steps have a hard time.
pub fn hard(random: &mut Random, side: usize) -> Image {
    match random.below(6) {
        0 => few_levels(random, side, side, &[7, 8]),
        1 => few_levels(random, side, side, &[0, 255]),
        2 => few_levels(random, side, side, &[0, 0, 0, 1, 2]),
        // Rows that hardly differ: little curves downwards.
        3 | 4 => {
            let mut image = few_levels(random, side, side, &[0, 3, 200, 255]);
            for k in side..side * side {
                if !random.once_in(12) {
                    image.bytes[k] = image.bytes[k - side];
                }
            }
            image
        }
        _ => any(random, side, side),
    }
}
